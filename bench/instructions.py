#!/usr/bin/env python3
"""Compares two programs by the instructions and the memory that they take.

Usage: instructions.py [--only WORD] BEFORE AFTER. The table has a row for each shape that the
scripts beside this one draw and each command on it, or for those with WORD in them. Instructions
are in millions, by one run under callgrind, the program's start included; callgrind takes some 50
times as long as the program, so that one that takes more than 5 s is not counted, and has a dash.
The peak is in MiB, of one run by GNU time. The folders lie in /dev/shm where that is there, so that
no disk is waited for. Below the table stands where a command ends as it should not, and where the
status, what goes out, the error line or a file afterwards is not the same with both programs; the
status is then 1. It wants valgrind and GNU time; the whole takes some 20 processor minutes.
"""
import argparse
import collections
import itertools
import os
import pathlib
import re
import shutil
import subprocess
import sys
import tempfile
import time

sys.dont_write_bytecode = True

import paths
import netlist
import numbering_times
import part_shapes
import project_limits
import reading
import sheet_shapes
import symbols
import table_shapes
from comparing import put
from drawing import LIBRARY, part, wire
from part_shapes import sheet
from parts import words_of

HEAD = "| shape | command | instructions before | after | peak before | after |"
MEMORY = pathlib.Path("/dev/shm")
PEAK = ["time", "-q", "-f", "%M", "-o", "../told"]
CALLGRIND = ["valgrind", "--tool=callgrind", "--callgrind-out-file=/dev/null"]
COUNT = [*CALLGRIND, "--log-file=../told"]
COUNTED = 5
LONGEST = 1200
ENDS = {"drc": (0, 7), "symcheck": (0, 7)}
CHECKED = (part_shapes.board, sheet_shapes.instances, sheet_shapes.many_instances)
LIMITS = (
    "8192 symbols", "1024 sheets as words", "4096 instances",
    "4095 instances of layers, and a root", "a weight of 4000000",
)


# The rows.

def rows():
    """What a shape is called, the commands on it, its files, and the words behind a command."""
    for shape in (netlist.single, netlist.comb, netlist.overlapping, netlist.crossing,
                  netlist.small, netlist.star):
        for count in (10_000, 100_000):
            files = {"x.sch": netlist.sheet(shape, count)}
            yield f"wires {shape.__name__} {count:,}", ["netlist"], files, ["x.sch"]
    for shape, counts in part_shapes.SHAPES + sheet_shapes.SHAPES:
        is_checked = shape in CHECKED
        for count in counts if is_checked else counts[-1:]:
            files = shape(count)
            commands = ["netlist", "drc"] if is_checked else ["netlist"]
            yield f"{shape.__name__} {count:,}", commands, files, words_of(files)
    yield "many_instances of 200 wires 4,096", ["netlist"], wires_in_instances(), ["x.sch"]
    for what, files, words in project_limits.limits():
        if what in LIMITS:
            yield f"{what}, {len(files)} files", ["netlist"], files, words
    yield "resistors 10,000", ["netlist --form spice"], resistors(10_000), ["x.sch"]
    for shape in (reading.texts, reading.nets, reading.symbols):
        files = {"x.sch": reading.filled(shape())}
        yield f"4 MiB of {shape.__name__}", ["export", "netlist"], files, ["x.sch"]
    for count, sheets in ((10_000, 1), (10_000, 100), (100_000, 2)):
        files = numbering_times.open_sheets(count, sheets)
        yield f"components R? {count:,}, sheets {sheets:,}", ["renumber"], files, [*files]
    yield from table_rows()
    yield from symbol_rows()
    for count in (1_000, 4_000, 16_000):
        yield f"work 7 {count:,}", ["work"], {}, ["7", str(count)]


def wires_in_instances():
    """The instances of sheet_shapes.py, but of a sheet of wires alone."""
    low = sheet(netlist.wire(*ends) for ends in netlist.small(200))
    return {**sheet_shapes.many_instances(4_096), "low.sch": low}


def resistors(count):
    """Resistors in rows of a hundred, each with a wire to the next one."""
    objects = []
    for number in range(count):
        x, y = 400 * (number % 100), 100 * (number // 100)
        objects.append(part(x, y, f"R{number + 1}", "value=1k"))
        objects.append(wire(x + 300, y, x + 400 - 50 * (number % 100 == 99), y))
    return {"two.sym": LIBRARY["two.sym"], "x.sch": sheet(objects)}


def table_rows():
    """Tables of components with few names, of those with many of which each has some, and of one
    component with many; as they are, and with all values changed."""
    for shape in ((10_000, 4, 4), (10_000, 64, 4), (1, 800, 800)):
        (_, files, _), *_, (_, changed, _) = table_shapes.tables(*shape)
        name, table = table_shapes.name_of(shape), table_shapes.TABLE
        yield name, ["export", "table"], files, [table_shapes.SHEET]
        yield f"{name}, own table", ["fill"], files, [table_shapes.SHEET, table]
        yield f"{name}, all changed", ["fill"], changed, [table_shapes.SHEET, table]


def symbol_rows():
    """A symbol of many pins, one of many slots, and those random ones that can be read."""
    pins, slots = part_shapes.large_symbol(10_000), part_shapes.slot_definitions(10_000)
    yield "symbol of 10,000 pins", ["symcheck"], pins, ["large.sym"]
    yield "symbol of 200 slots", ["symcheck"], slots, ["gate.sym"]
    files = {}
    for _, folder, _ in symbols.random_folders(1, 1_000):
        good = [it for name, it in folder.items() if symbols.answer_of(folder, [name])[0] != 1]
        files.update({f"{len(files) + place}.sym": it for place, it in enumerate(good)})
    yield f"random symbols {len(files)}", ["symcheck"], files, [*files]


# The programs.

Run = collections.namedtuple("Run", "answer files instructions peak")


def run_in(files, command, words):
    """Runs a command, which tells what it found in ../told, on words in a folder of these files:
    what the words answer, the files afterwards, and what was told."""
    parent = MEMORY if MEMORY.is_dir() else None
    with tempfile.TemporaryDirectory(dir=parent) as top:
        folder = pathlib.Path(top, "folder")
        folder.mkdir()
        put(folder, files)
        words = [*command, *words]
        run = subprocess.run(words, cwd=folder, capture_output=True, timeout=LONGEST)
        after = {path.name: path.read_bytes() for path in folder.iterdir()}
        told = pathlib.Path(top, "told").read_text()
        return (run.returncode, run.stdout, run.stderr), after, told


def collected(told):
    """How many instructions were done, by what callgrind told."""
    return int(re.search(r"Collected : (\d+)", told)[1])


def run_of(program, words, files):
    begun = time.perf_counter()
    answer, after, peak = run_in(files, PEAK, [program, *words])
    count = None
    if time.perf_counter() - begun < COUNTED:
        _, _, told = run_in(files, COUNT, [program, *words])
        count = collected(told)
    return Run(answer, after, count, int(peak))


def lines_apart(before, after):
    """The first lines of two texts that are not the same."""
    pairs = itertools.zip_longest(before.split(b"\n"), after.split(b"\n"))
    for number, (was, is_now) in enumerate(pairs, 1):
        if was != is_now:
            return f"line {number} was {was!r:.60} and is {is_now!r:.60}"


def remarks(command, before, after):
    """What is to be said of two runs: a bad end, and what is not the same."""
    (was, out_was, said_was), (status, out, said) = before.answer, after.answer
    if status not in ENDS.get(command.split()[0], (0,)):
        yield f"the status is {status}"
    if was != status:
        yield f"the status was {was} and is {status}"
    if out_was != out:
        yield f"of what goes out {lines_apart(out_was, out)}"
    if said_was != said:
        yield f"of the error line {lines_apart(said_was, said)}"
    if before.files != after.files:
        yield "the files afterwards are not the same"


def row_of(what, command, before, after):
    counts = [it.instructions for it in (before, after)]
    told = ["\u2013" if it is None else f"{it / 1e6:,.1f}" for it in counts]
    told += [f"{it.peak / 1024:.1f}" for it in (before, after)]
    return f"| {what} | `{command}` | {' | '.join(told)} |"


def main():
    parser = argparse.ArgumentParser(description=__doc__.split("\n")[0])
    parser.add_argument("--only", default="")
    parser.add_argument("before")
    parser.add_argument("after")
    asked = parser.parse_args()
    programs = [str(pathlib.Path(it).resolve()) for it in (asked.before, asked.after)]
    missing = [it for it in (*programs, "valgrind", "time") if not shutil.which(it)]
    if missing:
        sys.exit(f"not there: {' '.join(missing)}")
    # Large pages, which ./gafd asks for, would change the peaks.
    os.environ.pop("GLIBC_TUNABLES", None)
    print(HEAD, "|---|---|---|---|---|---|", sep="\n", flush=True)
    notes = []
    for what, commands, files, words in rows():
        data = {name: it if isinstance(it, bytes) else it.encode() for name, it in files.items()}
        for command in commands:
            if asked.only not in f"{what} {command}":
                continue
            before, after = (run_of(it, [*command.split(), *words], data) for it in programs)
            print(row_of(what, command, before, after), flush=True)
            notes += [f"{what}, {command}: {it}" for it in remarks(command, before, after)]
    print("", *notes or ["All answers are the same."], sep="\n")
    return 1 if notes else 0


if __name__ == "__main__":
    sys.exit(main())
