#!/usr/bin/env python3
"""Times `work` of so many steps from START 7, and tells the peak of memory.

Usage: work_times.py [--long] [PROGRAM]    1000, 4000 and 16000 steps, with --long 100000 too

A time is the best of three runs, the program's start included; the peak of memory has a floor of
some 10 MiB, which is what the process that starts the program has itself.
"""
import argparse
import sys
import tempfile

sys.dont_write_bytecode = True

import paths
from built import built
from measure import best

RUNS = 3


def main():
    parser = argparse.ArgumentParser(description=__doc__.split("\n")[0])
    parser.add_argument("--long", action="store_true")
    parser.add_argument("program", nargs="?")
    asked = parser.parse_args()
    program, last = str(built(asked.program)), None
    for count in (1000, 4000, 16000) + (100_000,) * asked.long:
        with tempfile.TemporaryDirectory() as folder:
            seconds, peak = best(program, folder, ["work", "7", str(count)], RUNS)
        row = f"work 7 {count:6}: {1000 * seconds:9.1f} ms, {peak / 2**20:6.1f} MiB"
        print(row if last is None else f"{row}, {seconds / last:5.1f} times", flush=True)
        last = seconds


if __name__ == "__main__":
    main()
