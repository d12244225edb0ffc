#!/usr/bin/env python3
"""Times `renumber` of 10,000 and 100,000 components without numbers, beside `netlist` of the same
sheets.

Usage: numbering_times.py [PROGRAM]. Each time is the best of five runs, each in a folder of its
own, with how much of it was used in the program itself.
"""
import os
import subprocess
import sys
import tempfile
import time

sys.dont_write_bytecode = True

import paths
from built import built
from comparing import put
from measure import RUNS


def best_of(program, files, words):
    """The best time of the runs, each in a folder of its own, and that in the program itself."""
    runs = []
    for _ in range(RUNS):
        with tempfile.TemporaryDirectory() as folder:
            put(folder, files)
            started, used = time.perf_counter(), os.times().children_user
            subprocess.run([program, *words], cwd=folder, check=True, capture_output=True)
            runs.append((time.perf_counter() - started, os.times().children_user - used))
    return min(runs)


def open_sheets(count, sheets):
    """So many components without numbers, on so many sheets."""
    one = "C 0 0 1 0 0 r.sym\n{\nT 0 0 5 10 1 1 0 0 1\nrefdes=R?\n}\n"
    text = "v 20130925 2\n" + one * (count // sheets)
    return {f"s{k}.sch": text.encode() for k in range(sheets)}


def main():
    program = built(*sys.argv[1:])
    for count, sheets in ((10_000, 1), (10_000, 100), (100_000, 2), (100_000, 1000)):
        files = open_sheets(count, sheets)
        said = []
        for word in ("renumber", "netlist"):
            whole, own = best_of(program, files, [word, *files])
            said.append(f"{word} {whole:.3f} s, {own:.2f} s of it in the program")
        print(f"{count:,} on {sheets:,} sheets: {'; '.join(said)}")


if __name__ == "__main__":
    main()
