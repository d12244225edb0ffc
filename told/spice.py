#!/usr/bin/env python3
"""Compares `netlist --form spice` of the program with the rules of the SPICE text, told again in
spice_rules.py.

Usage:
  spice.py [--seed S] [--count N] [PROGRAM]    N random runs (1, 2000), ten in a folder
  spice.py --folder FOLDER [PROGRAM]           each .sch of a folder
  spice.py --cases [PROGRAM]                   folders with known answers alone
  spice.py --table [--seed S] [--count N]      random sheets as a table of cases

Status, what goes out and the error line must be those told here; how many runs had which answer is
told at the end. README.md has what PROGRAM is where none is named, and what becomes of a
difference. In a table each sheet stands for itself, with its text or its fault: in a folder
projects/ beside a file parts.txt, the program `cases` works it out again, by project_cases, which
reads sheets and knows no command.
"""
import random
import sys

sys.dont_write_bytecode = True

import comparing
from comparing import Command, arguments, compare_asked, known_folders, known_status
from random_spice import random_spice, sheet
from spice_cases import case_table
from spice_rules import answer_of


class Spice(Command):
    """Texts are counted with their cards and comments, faults by their kind."""

    name, answer_of = "netlist", staticmethod(answer_of)

    def count(self, answer):
        status, out, err = answer
        self.sorts[err.decode().split()[1] if err else "texts"] += 1
        self.sorts["skipped packages"] += out.count(b"\n* skipped ")
        self.sorts["cards"] += sum(line[:1].isalpha() for line in out.split(b"\n"))


def with_form(words):
    return ["--form", "spice", *words]


def known_table():
    for what, files, words, wanted in case_table():
        yield what, files, with_form(words), wanted


def random_folders(seed, count):
    for number in range(0, count, 10):
        files, runs = random_spice(seed, number)
        yield f"folder {number} of seed {seed}", files, runs[: count - number]


def folder_of(top):
    what, files, runs = comparing.folder_of(top)
    return what, files, [with_form(words) for words in runs]


def table_lines(seed, count):
    """Random sheets as a table, as crates/cases/data/README.txt has it."""
    yield "== random_sheets: spice text"
    for number in range(count):
        name, data = f"s{number}.sch", sheet(random.Random(f"table {seed} {number}"))
        status, out, err = answer_of({name: data}, with_form([name]))
        yield f"text {name}"
        yield from (f"| {line}" for line in data.decode().split("\n")[:-1])
        yield f"$ {name}"
        fault = err.decode().removeprefix("gafd: ").rstrip("\n")
        yield from [f"! {fault}"] if status else [f"> {it}" for it in out.decode().split("\n")[:-1]]


def main():
    parser = arguments(__doc__, 2000)
    parser.add_argument("--table", action="store_true")
    asked = parser.parse_args()
    if asked.table:
        print(*table_lines(asked.seed, asked.count), sep="\n")
        return 0
    failed = asked.cases and known_status("circuits with known answers", known_table(), answer_of)
    known = known_folders(known_table())
    return failed or compare_asked(asked, Spice(), known, random_folders, folder_of)


if __name__ == "__main__":
    sys.exit(main())
