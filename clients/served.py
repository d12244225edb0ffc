"""A `gafd serve` of one's own, on a free port of the loopback, for tests and measurements."""
import os
import pathlib
import random
import select
import signal
import socket
import subprocess
import time

TOP = pathlib.Path(__file__).resolve().parent.parent
LONGEST = 240
# What ends the processes that were started, should time run out.
ENDS = []


def bounded(seconds):
    """After so many seconds all that was started is ended, and this process with status 1."""

    def end(*_):
        print(f"no end within {seconds} seconds", flush=True)
        for one in ENDS:
            one()
        os._exit(1)

    signal.signal(signal.SIGALRM, end)
    signal.alarm(seconds)


def program():
    """The program that GAFD names, else the one that is built, else None."""
    found = [os.environ.get("GAFD"), TOP / "crates/gafd/out/gafd", TOP / "out/gafd"]
    paths = (pathlib.Path(it).resolve() for it in found if it)
    return next((str(path) for path in paths if os.access(path, os.X_OK)), None)


def free_port():
    """A free port below those that the system gives to clients, which might take it meanwhile."""
    for _ in range(100):
        port = random.randrange(10_240, 32_768)
        with socket.socket() as probe:
            try:
                probe.bind(("127.0.0.1", port))
                return port
            except OSError:
                continue
    raise RuntimeError("no port is free")


def new_store(room):
    """The path of a folder for a store in this folder."""
    return pathlib.Path(room, "store")


def new_database(room):
    """The path of a database in this folder. It has the rows of `rows` there, or none."""
    made = pathlib.Path(room, "rows.db")
    words = [program(), "store", str(pathlib.Path(room, "rows")), str(made)]
    subprocess.run(words, stdout=subprocess.DEVNULL, timeout=LONGEST, check=True)
    return made


class Served:
    """A server over a store, at a free port, or at the socket that is named. Its address stays when
    it is started again."""

    def __init__(self, store, run=None, path=None, options=()):
        self.store, self.run = str(store), run or program()
        self.process, self.options = None, options
        self.port, self.path = None if path else free_port(), path and str(path)
        self.start()
        ENDS.append(self.kill)

    @property
    def address(self):
        return f"unix:{self.path}" if self.path else f"127.0.0.1:{self.port}"

    @property
    def url(self):
        return self.address if self.path else "http://" + self.address

    def start(self, longest=LONGEST):
        """Starts it, and waits until it says that it serves. Tells how long that took."""
        begun = time.monotonic()
        words = [self.run, "serve", *self.options, self.address, self.store]
        self.process = subprocess.Popen(words, stdout=subprocess.PIPE, stderr=subprocess.STDOUT)
        ready, _, _ = select.select([self.process.stdout], [], [], longest)
        said = self.process.stdout.readline() if ready else b""
        if said != b"serving\n":
            self.stop()
            raise RuntimeError(f"{words} said {said!r}, and ended with {self.process.returncode}")
        return time.monotonic() - begun

    def stop(self, how=signal.SIGTERM):
        if self.process.poll() is None:
            self.process.send_signal(how)
        self.process.wait(LONGEST)
        self.process.stdout.close()

    def kill(self):
        if self.process.poll() is None:
            self.process.kill()

    def __enter__(self):
        return self

    def __exit__(self, *_):
        self.stop(signal.SIGKILL)
