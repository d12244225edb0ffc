#!/usr/bin/env python3
"""Times `netlist` of many parts on one sheet and on many, with their symbols beside them, and tells
the peak of memory.

Usage: parts.py [--check] [--drc] [--only WORD] [PROGRAM]. Boards of 1,000 and of 10,000 parts, of
five symbols with slots, `net` and `netname`; then shapes that are hard in different ways, of one
sheet (part_shapes.py) and of several (sheet_shapes.py), or those whose name has WORD in it. Each
row is the best of five runs, or of those that fit into some seconds, the program's start included,
and how much longer it takes than the row above; the peak is that of these runs, with a floor of
some 10 MiB, which is what the process that starts the program has itself. With --drc each shape has
a second row, for `drc` of the same files and how much longer it takes than `netlist`; where no WORD
is given the shapes are then the boards, and as many parts in sheets below. With --check what goes
out is compared with the rules told in project_rules.py and check_rules.py.
"""
import argparse
import subprocess
import sys
import tempfile
import time

sys.dont_write_bytecode = True

import paths
import check_rules
import part_shapes
import project_rules
import sheet_shapes
from built import built
from comparing import put
from measure import RUNS, measured

SECONDS = 15
LONGEST = 60
AIMS = {1_000: 30, 10_000: 200}
SHAPES = part_shapes.SHAPES + sheet_shapes.SHAPES
CHECKED = (part_shapes.board, sheet_shapes.instances)
ANSWERS = {"netlist": project_rules.answer_of, "drc": check_rules.answer_of}
ENDS = {"netlist": (0,), "drc": (0, 7)}


def words_of(files):
    """The sheet x.sch or, where there is none, all sheets."""
    return ["x.sch"] if "x.sch" in files else [name for name in files if name.endswith(".sch")]


def timed(program, command, files, is_checked):
    """Seconds of the best run and the peak in bytes, or None where a run takes too long."""
    words = words_of(files)
    files = {name: text.encode() for name, text in files.items()}
    with tempfile.TemporaryDirectory() as folder:
        put(folder, files)
        begun = time.perf_counter()
        try:
            run = subprocess.run(
                [program, command, *words], cwd=folder, capture_output=True, timeout=LONGEST
            )
        except subprocess.TimeoutExpired:
            return None
        if run.returncode not in ENDS[command]:
            sys.exit(f"{command}: status {run.returncode} {run.stderr.decode()}")
        if is_checked and (run.returncode, run.stdout) != ANSWERS[command](files, words)[:2]:
            sys.exit(f"{command}: what goes out is not what the rules tell")
        found = []
        while not found or (len(found) < RUNS and time.perf_counter() - begun < SECONDS):
            found.append(measured(program, folder, [command, *words]))
        return min(run[1] for run in found), max(run[2] for run in found)


def told(shape, count, files, found):
    """The start of a row, with what was measured."""
    row = f"{shape:18} {count:6}, {sum(map(len, files.values())):8} bytes:"
    if found is None:
        return f"{row} over {LONGEST} s"
    seconds, peak = found
    return f"{row} {1000 * seconds:9.1f} ms, {peak / 2**20:6.1f} MiB"


def check_row(program, count, files, is_checked, seconds):
    """The row for `drc` below that for `netlist`, which took so many seconds."""
    found = timed(program, "drc", files, is_checked)
    row = told("  drc", count, files, found)
    return row if found is None else f"{row}, {found[0] / seconds:5.2f} times netlist"


def shapes_of(word, is_drc):
    """The shapes with a word in their names, with their counts; without one all, or few for drc."""
    for shape, counts in SHAPES:
        if word in shape.__name__ and (word or not is_drc or shape in CHECKED):
            yield from ((shape, count) for count in counts)


def main():
    parser = argparse.ArgumentParser(description=__doc__.split("\n")[0])
    parser.add_argument("--check", action="store_true")
    parser.add_argument("--drc", action="store_true")
    parser.add_argument("--only", default="")
    parser.add_argument("program", nargs="?")
    asked = parser.parse_args()
    program, last = str(built(asked.program)), 0
    for shape, count in shapes_of(asked.only, asked.drc):
        files = shape(count)
        found = timed(program, "netlist", files, asked.check)
        row = told(shape.__name__, count, files, found)
        if found is None:
            print(row, flush=True)
            continue
        seconds = found[0]
        if count != dict(SHAPES)[shape][0]:
            row += f", {seconds / last:5.1f} times"
        if shape is part_shapes.board:
            is_met = 1000 * seconds < AIMS[count]
            row += f", aim {AIMS[count]} ms {'met' if is_met else 'missed'}"
        print(row, flush=True)
        if asked.drc:
            print(check_row(program, count, files, asked.check, seconds), flush=True)
        last = seconds


if __name__ == "__main__":
    main()
