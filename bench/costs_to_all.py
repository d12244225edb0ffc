"""What one client can make all others pay, each with its limit: `crowds`, `writers` and `large`,
which serving.py calls by these names. Each tells whether it kept to its limit."""
import multiprocessing
import pathlib
import re
import shutil
import subprocess
import sys
import tempfile
import time

sys.dont_write_bytecode = True

import paths
import part_shapes
from load import WRITERS, Bringing, Nginx, spent
from served import Served
from writers import Writer

# Seconds of the processor, for each of what is done on a sheet of so many wires at one point.
MOST_SECONDS = 0.5
# What an edit may take beside readers, beyond what it takes alone.
MOST_WAIT_MS, READERS, EDITS, PAUSE = 30, 6, 100, 0.02
# What a reply may cost of the processor beside one of nginx.
MOST_OF_NGINX, TURNS, SECONDS = 1.3, 3, 2
NET_LIST = "/netlist/list"
# What makes nginx the fastest for one file.
FAST = "sendfile on; open_file_cache max=10;"


def equal(count):
    """Wires that lie on one another."""
    return "N 0 0 100 0 4\n" * count


def star(count):
    """Wires that slant from one point."""
    return "".join(f"N 0 0 {100 + at} {200 + at // 2} 4\n" for at in range(count))


def timed(server, work):
    """The seconds of the processor that a call makes the server use, and of the clock."""
    used, begun = spent(server.process), time.monotonic()
    work()
    return spent(server.process) - used, time.monotonic() - begun


def crowds(counts):
    """Many wires at one point: they come, an edit elsewhere follows, one goes, and a start."""
    keeps = True
    for shape in (equal, star):
        for count in counts:
            with tempfile.TemporaryDirectory(dir="/dev/shm") as room:
                found = crowd(room + "/store", "v 20130925 2\n" + shape(count))
            keeps = keeps and all(used <= MOST_SECONDS for used, _ in found.values())
            told = [f"{name} {used:.2f} ({took:.2f})" for name, (used, took) in found.items()]
            print(f"{shape.__name__:5} {count:6} wires, s of the processor (clock):",
                  ", ".join(told), flush=True)
    return keeps


def crowd(store, text):
    with Served(store) as server:
        board = Bringing(server.port, "board")
        board.link.settimeout(600)
        board.brings({"other.sch": "v 20130925 2\nN 0 0 100 0 4\n"})
        found = {"come": timed(server, lambda: board.brings({"crowd.sch": text}))}
        found["elsewhere"] = timed(server, board.moves)
        gone = {"kind": "delete", "ids": [1]}
        found["one goes"] = timed(server, lambda: board.puts(gone, board.front))
        board.link.close()
    with Served(store) as server:
        server.stop()
        took = server.start(600)
        found["start"] = spent(server.process), took
    return found


def reads(port, is_over):
    reader = Writer(port, "reader")
    reader.link.settimeout(600)
    while not is_over.is_set():
        reader.ask("GET", NET_LIST)


class Readers:
    """So many who ask for the net list as fast as they are answered, each in a process."""

    def __init__(self, port, count):
        self.is_over = multiprocessing.Event()
        words = [port, self.is_over]
        self.all = [multiprocessing.Process(target=reads, args=words) for _ in range(count)]

    def __enter__(self):
        for one in self.all:
            one.start()
        time.sleep(1)

    def __exit__(self, *_):
        self.is_over.set()
        for one in self.all:
            one.join()


def edit_times(board):
    """How long edits took, in ms, the shortest first."""
    found = []
    for _ in range(EDITS):
        begun = time.monotonic()
        board.moves()
        found.append(1000 * (time.monotonic() - begun))
        time.sleep(PAUSE)
    return sorted(found)


def told_times(times):
    middle, late = times[len(times) // 2], times[len(times) * 9 // 10]
    return f"{middle:7.1f} ms, 90% {late:7.1f}, at most {times[-1]:7.1f}"


def writers(counts):
    """An edit each 20 ms, alone and beside six readers."""
    keeps = True
    for count in counts:
        for what, parent in (("without a sync", "/dev/shm"), ("on the disk", None)):
            with tempfile.TemporaryDirectory(dir=parent) as room, Served(room + "/store") as server:
                board = Bringing(server.port, "board")
                board.brings(part_shapes.board(count))
                alone = edit_times(board)
                with Readers(server.port, READERS):
                    beside = edit_times(board)
                board.link.close()
            middle = len(alone) // 2
            keeps = keeps and beside[middle] <= alone[middle] + MOST_WAIT_MS
            print(f"{count:6} parts, {what:14}: alone  {told_times(alone)}")
            print(f"{'':29} beside {told_times(beside)}", flush=True)
    return keeps


def workers(process):
    """The processes that answer for this one."""
    found = subprocess.run(["pgrep", "-P", str(process.pid)], capture_output=True, text=True)
    return [pathlib.Path("/proc", word) for word in found.stdout.split()]


def used_by(process):
    """The microseconds of the processor that a process and its workers have used."""
    tasks = [path for one in (pathlib.Path("/proc", str(process.pid)), *workers(process))
             for path in one.glob("task/*/schedstat")]
    return sum(int(path.read_text().split()[0]) for path in tasks) / 1000


def cost(process, port, path):
    """Replies a second over eight connections, and the microseconds of each."""
    words = ["wrk", "-t2", f"-c{WRITERS}", f"-d{SECONDS}", f"http://127.0.0.1:{port}{path}"]
    before = used_by(process)
    said = subprocess.run(words, capture_output=True, text=True, check=True).stdout
    count = int(re.search(r"(\d+) requests in", said)[1])
    return count / SECONDS, (used_by(process) - before) / count


def large(counts):
    """Net lists of so many parts, and nginx with a file of the same bytes, in turns, all warm."""
    if not shutil.which("nginx") or not shutil.which("wrk"):
        print("no nginx, or no wrk: what large replies cost is not compared")
        return True
    keeps = True
    for count in counts:
        with tempfile.TemporaryDirectory(dir="/dev/shm") as room, Served(room + "/store") as server:
            board = Bringing(server.port, "board")
            board.brings(part_shapes.board(count))
            body = board.ask("GET", NET_LIST)[2]
            board.link.close()
            with Nginx(room, body, FAST) as nginx:
                turns = [(cost(server.process, server.port, NET_LIST),
                          cost(nginx.process, nginx.port, "/sheets")) for _ in range(TURNS)]
        ours, theirs = (min(turn[place][1] for turn in turns) for place in (0, 1))
        keeps = keeps and ours <= MOST_OF_NGINX * theirs
        rates = (max(turn[place][0] for turn in turns) for place in (0, 1))
        told = " and ".join(f"{rate:.0f}" for rate in rates)
        print(f"{count:6} parts, {len(body):8} bytes: {ours:6.1f} us of the processor a reply,"
              f" nginx {theirs:6.1f}; {told} a second", flush=True)
    return keeps
