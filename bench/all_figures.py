#!/usr/bin/env python3
"""Measures the figures of docs/SPEED.md anew, under its headings.

Usage: all_figures.py [--list] [--only WORD] [PROGRAM]

It runs each command behind a figure, one after the other; told/README.md says how long each takes.
--list prints the commands alone, and --only takes the headings and commands with WORD in them. A
command whose program is not there is left out, with a line that says so: that of cases comes by `rt
run` in its crate. PROGRAM is what the commands try, else what GAFD names, else what is built. Under
"./gafd" the program is called as ./gafd calls it, with large pages. The last command of all,
memory.py, has `rt try` build the program of cases.

The processor's time beside lepton-netlist is told by `time`, around the calls of bench/beside.py.
"""
import argparse
import os
import shutil
import subprocess
import sys
import time

sys.dont_write_bytecode = True

import paths
from built import TOP, built

PAGES = {"GLIBC_TUNABLES": "glibc.malloc.hugetlb=1"}
# A heading, a command, what it has to find, and what it gives.
FIGURES = (
    ("Beside lepton-netlist", "bench/beside.py", "lepton-netlist", "wall times of both"),
    ("By itself", "bench/netlist.py GAFD", "", "wires, in six shapes"),
    ("By itself", "bench/parts.py --drc GAFD", "", "parts on one sheet, below, on many"),
    ("By itself", "bench/instructions.py --only board GAFD GAFD", "valgrind", "10,000 parts"),
    ("By itself, ./gafd", "bench/parts.py --only many_instances GAFD", "", "4,096 instances"),
    ("By itself, ./gafd", "bench/netlist.py GAFD", "", "100,000 wires"),
    ("By itself", "bench/symbol_times.py", "", "400,000 wires at a server"),
    ("By itself", "bench/reading.py GAFD", "", "files of 4 MiB"),
    ("By itself", "bench/work_times.py --long GAFD", "", "steps of `work`"),
    ("Tables", "bench/tables.py GAFD", "valgrind", "`table` and `fill` beside `export`"),
    ("By itself", "bench/instructions.py GAFD GAFD", "valgrind", "each shape"),
    ("Numbering", "bench/numbering_times.py GAFD", "", "`renumber`"),
    ("Databases", "bench/store_copies.py GAFD", "", "`store`"),
    ("Entries as JSON", "bench/entry_bodies.py", "cases", "bodies of 4 MiB"),
    ("Edits", "bench/desk_times.py", "cases", "histories of small edits"),
    ("HTTP, edits at a hall", "bench/hall_times.py", "cases", "connections in memory"),
    ("A server", "bench/serving.py edits", "", "edits a second"),
    ("A server", "bench/serving.py replies", "wrk", "replies a second, beside nginx"),
    ("A server", "bench/serving.py starts", "", "starts over 10,000 and 200,000 rows"),
    ("A server", "bench/serving.py netlists", "wrk", "net lists a second"),
    ("A server", "bench/after_edit.py GAFD", "valgrind", "the first net list after an edit"),
    ("A server", "told/one_history.py", "", "a minute of eight callers"),
    ("A server", "bench/group_times.py", "", "a wire that moves"),
    ("SERVER.md, memory", "bench/serving.py memory 1000 10000", "", "memory of a board"),
    ("The page", "clients/gafd_view/tests/test_page.py Large", "chromium", "pictures"),
    ("The page", "bench/page_times.py", "chromium", "first picture, an edit, the wheel"),
    ("Edits at a hall", "bench/memory.py", "rt", "each allocation refused in turn"),
)


def is_there(name):
    """Whether what a command has to find is there: a program, also that of the crate cases."""
    crate = TOP / "crates" / name / "out" / name
    return not name or bool(shutil.which(name)) or crate.exists()


def measure(heading, command, program):
    """Runs a command, which prints what it finds, and tells its status and how long it took."""
    path, *words = command.split()
    words = [program if word == "GAFD" else word for word in words]
    asked = {**os.environ, **(PAGES if heading.endswith("./gafd") else {}), "GAFD": program}
    begun = time.monotonic()
    run = subprocess.run([sys.executable, TOP / path, *words], env=asked, check=False)
    print(f"(status {run.returncode}, {time.monotonic() - begun:.0f} s)", flush=True)


def main():
    parser = argparse.ArgumentParser(description=__doc__.split("\n")[0])
    parser.add_argument("--list", action="store_true")
    parser.add_argument("--only", default="")
    parser.add_argument("program", nargs="?")
    asked = parser.parse_args()
    program = "" if asked.list else str(built(asked.program))
    for heading, command, wanted, what in FIGURES:
        if asked.only not in f"{heading} {command}":
            continue
        print(f"\n{heading}: {what}\n$ {command}", flush=True)
        if not is_there(wanted):
            print(f"left out: {wanted} is not there", flush=True)
        elif not asked.list:
            measure(heading, command, program)


if __name__ == "__main__":
    main()
