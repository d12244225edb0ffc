#!/usr/bin/env python3
"""Times a server: edits, replies, starts, and what one client makes all others pay.

Usage:
  serving.py edits [SECONDS]    edits acknowledged a second, by one writer and by eight, each in a
                                process of its own; in a folder and in a database; on the disk, and
                                in /dev/shm, where a sync does nothing
  serving.py replies [SECONDS]  replies a second to `GET /sheets` over eight connections that stay
                                open, by wrk where it is installed, else by eight processes of
                                Python, beside nginx with a file of the same bytes where that is
                                installed
  serving.py netlists [SECONDS [PARTS...]]
                                replies a second to `GET /netlist/list` of 1,000 and of 10,000
                                parts, and how many processors the server used. Of eight
                                connections that stay open six ask as fast as they are answered, as
                                above; one asks ten times a second, and is told how long a reply
                                took at most; and one edits once a second, or not at all
  serving.py starts [ROWS...]   from the call to `serving`, over stores of 10,000 and 200,000 rows
  serving.py memory [PARTS...]  of boards of so many parts, 1,000 and 10,000 where none are named,
                                on one sheet and as instances of sheets: the processor's time of a
                                start, the memory at rest, and at most while one and while eight ask
                                for the check at once; and the addresses, which LimitAS= bounds.
                                Status 1 where eight take over 1.3 times what one takes, and 64 MiB
  serving.py crowds [WIRES...]  of a sheet on which so many wires, 4,000 and 16,000, lie on one
                                another or slant from one point: what it costs that they come, that
                                an edit elsewhere follows, that one goes, and a start. Status 1 over
                                half a second of the processor for one of these
  serving.py writers [PARTS...] an edit each 20 ms on a board of so many parts, 10,000, alone and
                                beside six who ask for its net list without a pause, with and
                                without a sync. Status 1 where the median is over 30 ms above that
                                alone
  serving.py large [PARTS...]   what a net list of so many parts, 1,000, 5,000 and 10,000, costs of
                                the processor in a reply, and nginx with a file of the same bytes.
                                Status 1 over 1.3 times. It is left out where nginx or wrk is not
                                there

GAFD names the program, else the one that is built; TMPDIR names the disk.
"""
import json
import multiprocessing
import pathlib
import re
import resource
import shutil
import subprocess
import sys
import tempfile
import threading
import time

sys.dont_write_bytecode = True

import paths
import part_shapes
import sheet_shapes
from built import built
import costs_to_all
from load import WRITERS, Bringing, Nginx, memory, spent
from served import Served, new_database, new_store
from writers import Writer

# What is measured in costs_to_all.py, and of which counts.
LIMITED = {"crowds": [4_000, 16_000], "writers": [10_000], "large": [1_000, 5_000, 10_000]}
# What eight may take of memory beside one who asks alone: a share, and what the workers have of
# their own, in MiB.
MOST_OF_ONE, WORKERS_OWN = 1.3, 64


def beside(count, work):
    """Calls `work` in so many processes at once; what each answered."""
    with multiprocessing.get_context("fork").Pool(count) as pool:
        return pool.map(work, range(count), chunksize=1)


class Edits:
    def __init__(self, port, seconds):
        self.port, self.seconds = port, seconds

    def __call__(self, number):
        """How many edits one writer had acknowledged."""
        writer, count = Writer(self.port, f"w{number}", 100 * number), 0
        end = time.monotonic() + self.seconds
        while time.monotonic() < end:
            status = writer.draws()[1][0]
            if status != 200:
                raise SystemExit(f"an edit was answered {status}")
            count += 1
        return count


def edits(seconds):
    for what, parent in (("on the disk", None), ("without a sync", "/dev/shm")):
        for count in (1, WRITERS):
            for form, store in (("folder", new_store), ("database", new_database)):
                with tempfile.TemporaryDirectory(dir=parent) as room, Served(store(room)) as server:
                    Writer(server.port, "first").opens()
                    acknowledged = sum(beside(count, Edits(server.port, seconds)))
                rate = acknowledged / seconds
                print(f"{what:14} {form:8} {count} writers: {rate:8.0f} edits a second", flush=True)


class Replies:
    def __init__(self, port, path, seconds):
        self.port, self.path, self.seconds = port, path, seconds

    def __call__(self, number):
        reader, count = Writer(self.port, "reader"), 0
        end = time.monotonic() + self.seconds
        while time.monotonic() < end:
            reader.ask("GET", self.path)
            count += 1
        return count


def rate(port, path, seconds, connections=WRITERS):
    """Replies a second over so many connections, and who asked."""
    if not shutil.which("wrk"):
        return sum(beside(connections, Replies(port, path, seconds))) / seconds, "by Python"
    words = ["wrk", "-t2", f"-c{connections}", f"-d{seconds}", f"http://127.0.0.1:{port}{path}"]
    said = subprocess.run(words, capture_output=True, text=True, check=True).stdout
    faults = re.search(r"Socket errors.*|Non-2xx.*", said)
    found = float(re.search(r"Requests/sec: *([\d.]+)", said)[1])
    return found, f"by wrk {faults[0]}" if faults else "by wrk"


def replies(seconds):
    with tempfile.TemporaryDirectory() as room, Served(room + "/store") as server:
        first = Writer(server.port, "first")
        first.opens()
        for _ in range(9):
            first.draws()
        body = first.ask("GET", "/sheets")[2]
        first.link.close()
        found, who = rate(server.port, "/sheets", seconds)
        print(f"gafd  {found:8.0f} replies a second, {who}")
        if not shutil.which("nginx"):
            return
        with Nginx(room, body) as nginx:
            found, who = rate(nginx.port, "/sheets", seconds)
        print(f"nginx {found:8.0f} replies a second, {who}")


class Moving:
    """Asks ten times a second beside what is measured, and looks how long a reply takes; and edits
    once a second, where there is a board to edit."""

    def __init__(self, port, board, path):
        self.reader, self.board, self.path = Writer(port, "reader"), board, path
        self.longest, self.is_over = 0, threading.Event()
        self.thread = threading.Thread(target=self.run)

    def run(self):
        turn = 0
        while not self.is_over.wait(0.1):
            turn += 1
            if self.board and turn % 10 == 0:
                self.board.moves()
            begun = time.monotonic()
            self.reader.ask("GET", self.path)
            self.longest = max(self.longest, time.monotonic() - begun)

    def __enter__(self):
        self.thread.start()
        return self

    def __exit__(self, *_):
        self.is_over.set()
        self.thread.join()
        self.reader.link.close()


def netlists(seconds, counts):
    path = "/netlist/list"
    for parts in counts:
        with tempfile.TemporaryDirectory() as room, Served(room + "/store") as server:
            board = Bringing(server.port, "board")
            board.brings(part_shapes.board(parts))
            length = len(board.ask("GET", path)[2])
            for mover, what in ((None, "no edit"), (board, "an edit a second")):
                before, begun = spent(server.process), time.monotonic()
                with Moving(server.port, mover, path) as moving:
                    found, who = rate(server.port, path, seconds, WRITERS - 2)
                used = (spent(server.process) - before) / (time.monotonic() - begun)
                print(
                    f"{parts:6} parts, {length:8} bytes, {what:16}: {found:8.0f} replies a second,"
                    f" {who}; {used:.1f} processors; {1000 * moving.longest:6.1f} ms at most"
                )


def rows(count):
    """A history: a sheet of 1,000 wires, which move to and fro."""
    text = "v 20130925 2\n" + "".join(f"N {at} 0 {at} 100 4\n" for at in range(1000))
    for serial in range(count):
        edit = {"dx": 1 - 2 * (serial // 1000 % 2), "dy": 0, "ids": [serial % 1000], "kind": "move"}
        if serial == 0:
            edit = {"kind": "add_sheet", "name": "s.sch", "text": text}
        yield {"base": serial, "edit": edit, "number": serial + 1, "session": "ann"}


def make_store(store, count):
    """A store of that history, without a server."""
    store.mkdir()
    for serial, row in enumerate(rows(count)):
        text = json.dumps(row, sort_keys=True, separators=(",", ":")) + "\n"
        (store / f"{serial:010}.json").write_text(text)


def starts(counts):
    for count in counts:
        with tempfile.TemporaryDirectory() as room:
            store = pathlib.Path(room, "store")
            make_store(store, count)
            times = []
            for _ in range(3):
                with Served(store) as server:
                    front = Writer(server.port, "x").ask("GET", "/sheets")[1]
                    server.stop()
                    times.append(server.start(600))
            peak = resource.getrusage(resource.RUSAGE_CHILDREN).ru_maxrss / 1024
            if front != count:
                raise SystemExit(f"{count} rows, and a front of {front}")
        print(f"{count:7} rows: {min(times):6.2f} s, best of three; {peak:6.0f} MiB at most so far")


class Board:
    """A store with a board in it, and what a server over it takes of the machine."""

    def __init__(self, room, files):
        self.store = room + "/store"
        with Served(self.store) as server:
            bringing = Bringing(server.port, "board")
            bringing.brings(files)
            bringing.link.close()

    def at_start(self):
        """The processor's seconds of a start, and the memory behind it in MiB."""
        with Served(self.store) as server:
            return spent(server.process), memory(server.process, "VmRSS")

    def while_asked(self, count):
        """The most memory and addresses in MiB while so many ask for the check, each once."""
        with Served(self.store) as server:
            beside(count, Asked(server.port, "/drc"))
            return [memory(server.process, name) for name in ("VmHWM", "VmPeak")]


class Asked:
    def __init__(self, port, path):
        self.port, self.path = port, path

    def __call__(self, _):
        reader = Writer(self.port, "reader")
        reader.link.settimeout(600)
        status = reader.ask("GET", self.path)[0]
        reader.link.close()
        if status != 200:
            raise SystemExit(f"{self.path} was answered {status}")


def memories(counts):
    """Whether eight askers take little more than one, on each board."""
    is_little = True
    for shape in (part_shapes.board, sheet_shapes.instances):
        for count in counts:
            with tempfile.TemporaryDirectory() as room:
                board = Board(room, shape(count))
                seconds, rest = board.at_start()
                (one, _), (eight, addresses) = map(board.while_asked, (1, WRITERS))
            is_little = is_little and eight <= MOST_OF_ONE * one + WORKERS_OWN
            print(
                f"{shape.__name__:9} {count:6} parts: start {seconds:5.2f} s, {rest:5.0f} MiB at"
                f" rest, {one:5.0f} while one asks, {eight:5.0f} while eight ask,"
                f" {addresses:5.0f} of addresses", flush=True,
            )
    return is_little


def main():
    built()
    command, numbers = (sys.argv[1:2] or [""])[0], [int(word) for word in sys.argv[2:]]
    if command == "edits":
        edits(*numbers or [5])
    elif command == "replies":
        replies(*numbers or [5])
    elif command == "netlists":
        netlists(*numbers[:1] or [5], numbers[1:] or [1_000, 10_000])
    elif command == "starts":
        starts(numbers or [10_000, 200_000])
    elif command == "memory":
        return 0 if memories(numbers or [1_000, 10_000]) else 1
    elif command in LIMITED:
        return 0 if getattr(costs_to_all, command)(numbers or LIMITED[command]) else 1
    else:
        sys.exit(__doc__)
    return 0


if __name__ == "__main__":
    sys.exit(main())
