#!/usr/bin/env python3
"""Counts the instructions of `table` and `fill` beside those of `export` of the same sheet.

Usage: tables.py [--only WORD] [PROGRAM]. The shapes are those of table_shapes.py: sheets of 1,000
and of 10,000 components with 1 to 64 attributes, and one component with up to 800, which tells how
a look-up grows; --only takes those with WORD in their names. A row has the instructions of
`export` in millions, by one run under callgrind, the program's start included, and how many times
as many these take: `table`, and `fill` of the sheet's own table, of one that changes a column, and
of one that changes all. Then it has the seconds of the processor for each of the five, by one run
without callgrind. Where 10,000 components take over three times what `export` takes, their row ends
with "over", and the status is 1. It wants valgrind and GNU time.
"""
import argparse
import sys

sys.dont_write_bytecode = True

import paths
import table_shapes
from built import built
from instructions import COUNT, collected, run_in
from table_shapes import SHEET, TABLE

MOST, MANY = 3, "components 10,000"
TIME = ["time", "-q", "-f", "%U %S", "-o", "../told"]
HEAD = "| shape | export | table | own | one column | all | seconds of each |"


def measured(program, files, words, wanted):
    """Instructions in millions, and seconds. What goes out has to be what is wanted, if it is."""
    (status, out, said), _, told = run_in(files, TIME, [program, *words])
    if status != 0 or wanted not in (None, out):
        sys.exit(f"{' '.join(words)}: status {status} {said or out!r:.200}")
    seconds = sum(map(float, told.split()))
    _, _, told = run_in(files, COUNT, [program, *words])
    return collected(told) / 1e6, seconds


def runs_of(program, kinds):
    """What is run on a shape whose tables are these, and what each takes."""
    _, files, _ = kinds[0]
    yield measured(program, files, ["export", SHEET], None)
    yield measured(program, files, ["table", SHEET], files[TABLE])
    for _, files, count in kinds:
        yield measured(program, files, ["fill", SHEET, TABLE], f"filled {count}\n".encode())


def row_of(program, name, kinds):
    """The row of a shape, and whether it is within the bound."""
    (whole, first), *others = runs_of(program, kinds)
    times = [count / whole for count, _ in others]
    seconds = [f"{it:.2f}" for it in (first, *(it for _, it in others))]
    cells = [f"{whole:,.1f}", *(f"{it:.1f}" for it in times), " ".join(seconds)]
    is_within = max(times) <= MOST or not name.startswith(MANY)
    return f"| {name} | {' | '.join(cells)} |{'' if is_within else ' over'}", is_within


def main():
    parser = argparse.ArgumentParser(description=__doc__.split("\n")[0])
    parser.add_argument("--only", default="")
    parser.add_argument("program", nargs="?")
    asked = parser.parse_args()
    program, are_within = str(built(asked.program)), True
    print(HEAD, "|---|---|---|---|---|---|---|", sep="\n", flush=True)
    for shape in table_shapes.SHAPES:
        name = table_shapes.name_of(shape)
        if asked.only in name:
            row, is_within = row_of(program, name, list(table_shapes.tables(*shape)))
            are_within = are_within and is_within
            print(row, flush=True)
    return 0 if are_within else 1


if __name__ == "__main__":
    sys.exit(main())
