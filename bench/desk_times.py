#!/usr/bin/env python3
"""Times histories of small entries on a project of 10,000 objects, and tells the peak of memory.

Usage: desk_times.py [PROGRAM]. The program is that of the crate cases, as `rt run` builds it; it
reads each history as a case of a table, and what comes is compared. Each row is the best of five
runs, the start of the program and the reading of the table and of the entries as JSON included, for
10,000 entries and for 100,000: ten times the entries may take ten times as long. The last shape has
entries that are refused before anything is made, so it tells what the reading takes.
"""
import json
import sys

sys.dont_write_bytecode = True

import paths
from built import case_program
from measure import best_of_table

OBJECTS = 10_000


def entry(number, base, **edit):
    return {"session": "ann", "number": number, "base": base, "edit": edit}


def moves(count):
    """Objects that move, one after the other."""
    for k in range(count):
        dx = 1 - 2 * (k // OBJECTS % 2)
        yield entry(k + 2, k + 1, kind="move", ids=[k % OBJECTS], dx=dx, dy=0)


def additions(count):
    """Objects that come and go again."""
    for k in range(count):
        if k % 2:
            yield entry(k + 2, k + 1, kind="delete", ids=[OBJECTS + k // 2])
        else:
            yield entry(k + 2, k + 1, kind="add_object", sheet="s.sch", text="N 0 0 100 0 4\n")


def attributes(count):
    """Attributes that change."""
    for k in range(count):
        yield entry(k + 2, k + 1, kind="set_attr", id=k % OBJECTS, name="netname", value=f"X{k}")


def undos(count):
    """Objects that move and are taken back."""
    for k in range(count):
        if k % 2:
            yield entry(k + 2, k + 1, kind="undo", serial=k)
        else:
            yield entry(k + 2, k + 1, kind="move", ids=[k % OBJECTS], dx=5, dy=5)


def gaps(count):
    """Entries whose numbers are none of their session."""
    for k in range(count):
        yield entry(k + 9, 1, kind="move", ids=[k % OBJECTS], dx=1, dy=0)


def table(shape, count):
    """The lines of a table, and what the last verdict is."""
    lines = ["file s.sch", f"times {OBJECTS} N # 0 0 100 4"]
    lines += ["== a_project_keeps_its_limits: verdicts", "text h"]
    opening = entry(1, 0, kind="add_sheet", name="s.sch", text="@s.sch")
    for row in (opening, *shape(count)):
        lines.append("| " + json.dumps(row, separators=(",", ":")))
    first = OBJECTS + (count // 2 if shape is additions else 0)
    last = f"Accept {{ serial: {count}, first_id: {first} }}"
    return lines + ["$ h last 1", "> " + ("NumberGap { last: 1 }" if shape is gaps else last)]


def main():
    program = case_program(*sys.argv[1:])
    for shape in (moves, additions, attributes, undos, gaps):
        for count in (10_000, 100_000):
            seconds, peak = best_of_table(program, "edits", table(shape, count))
            print(f"{shape.__name__:12} {count:7}: {seconds:6.2f} s, {peak / 2**20:6.1f} MiB")


if __name__ == "__main__":
    main()
