#!/usr/bin/env python3
"""Times edits of one wire at a server, by the group that the wire is in.

Usage: group_times.py [EDITS]    so many edits for each row, 200 where none is named

GAFD names the program, else the one that is built. Each row is a sheet in a store of its own, in
/dev/shm where that is there, so that no disk is waited for. The wire moves off its group and back
again, over one connection; each move is timed from the request to the reply, and parts the group
or joins it. The first row has a text that moves, which touches no group: what stands there is no
work on groups. With each row stands how long the sheet took to come, and a net list after it.
"""
import json
import pathlib
import statistics
import sys
import tempfile
import time

sys.dont_write_bytecode = True

import paths
from built import built
from netlist import VERSION, comb, overlapping, single, small, star, wire
from served import Served
from writers import SHEET, Writer

EDITS = 200
MEMORY = pathlib.Path("/dev/shm")
# Off all points that the shapes use.
OFF = 37


def apart(count):
    """Wires that touch none."""
    for number in range(count):
        x, y = 100 * (number % 400), 100 * (number // 400)
        yield (x, y), (x + 50, y)


def ring(count):
    """One net that is closed: a square."""
    side = count // 4
    corners = ((0, 0), (side, 0), (side, side), (0, side), (0, 0))
    for (ax, ay), (bx, by) in zip(corners, corners[1:]):
        dx, dy = (bx - ax) // side, (by - ay) // side
        for k in range(side):
            near, far = (ax + k * dx, ay + k * dy), (ax + (k + 1) * dx, ay + (k + 1) * dy)
            yield tuple(50 * it for it in near), tuple(50 * it for it in far)


# What moves, the shape of the sheet, how many wires it has, and the place of the one that moves.
ROWS = (
    ("a text", apart, 10_000, None),
    ("a wire alone", apart, 10_000, 5_000),
    ("one of three", small, 9_999, 5_000),
    ("the end of a line", single, 10_000, 9_999),
    ("the middle of a line", single, 1_000, 500),
    ("the middle of a line", single, 10_000, 5_000),
    ("one of a ring", ring, 1_000, 500),
    ("one of a ring", ring, 10_000, 5_000),
    ("a tooth of a comb", comb, 10_010, 5_500),
    ("a spine of a comb", comb, 10_010, 5_005),
    ("one that lies on others", overlapping, 10_000, 5_500),
    ("one of many at a point", star, 1_000, 500),
    ("one of many at a point", star, 4_000, 2_000),
)


class Mover(Writer):
    """The one session of a server: each of its edits has seen all before it."""

    def entry(self, edit):
        self.number += 1
        value = {"session": self.session, "number": self.number, "base": self.number - 1}
        return json.dumps({**value, "edit": edit}, separators=(",", ":")).encode()

    def seconds(self, method, path, edit=None):
        """How long the reply took."""
        body = self.entry(edit) if edit else b""
        begun = time.perf_counter()
        status, _, said = self.ask(method, path, body)
        passed = time.perf_counter() - begun
        if status != 200:
            raise SystemExit(f"{path} was answered {status} {said[:200]}")
        return passed

    def edit(self, **edit):
        return self.seconds("POST", "/edits", edit)


def sheet(shape, count):
    objects = [wire(*ends) for ends in shape(count)]
    return VERSION + "".join(objects) + "T 0 -1000 9 10 1 0 0 0 1\ntext\n", len(objects)


def timed(shape, count, place, edits):
    """How long the sheet took, and a net list, and each move."""
    text, of_text = sheet(shape, count)
    moving = of_text if place is None else place
    parent = MEMORY if MEMORY.is_dir() else None
    with tempfile.TemporaryDirectory(dir=parent) as room, Served(room + "/store") as server:
        mover = Mover(server.port, "ann")
        comes = mover.edit(kind="add_sheet", name=SHEET, text=text)
        report = mover.seconds("GET", "/netlist/list")
        moves = [mover.edit(kind="move", ids=[moving], dx=0, dy=OFF - 2 * OFF * (k % 2))
                 for k in range(edits)]
        return comes, report, moves


def told(seconds):
    return f"{1000 * seconds:8.3f} ms"


def main():
    built()
    edits = int(sys.argv[1]) if len(sys.argv) > 1 else EDITS
    for what, shape, count, place in ROWS:
        comes, report, moves = timed(shape, count, place, edits)
        middle, most = statistics.median(moves), max(moves)
        print(f"{what:24} {count:6} wires: {told(middle)} at the median, {told(most)} at most;"
              f" the sheet {told(comes)}, a net list {told(report)}", flush=True)
    return 0


if __name__ == "__main__":
    sys.exit(main())
