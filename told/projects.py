#!/usr/bin/env python3
"""Compares `netlist` of the program with the rules of docs/RULES.md, told again in
project_rules.py: sheets with those below them, and the symbols that lie beside them.

Usage:
  projects.py [--seed S] [--count N] [PROGRAM]    N random runs (1, 4000), ten in a folder
  projects.py --limits [PROGRAM]                  folders at the limits, of up to 64 MiB
  projects.py --folder FOLDER [PROGRAM]           each .sch of a folder
  projects.py --cases [PROGRAM]                   folders with known answers alone

Status, what goes out and the error line must be those told here. README.md has what PROGRAM is
where none is named, and what becomes of a difference.
"""
import random
import sys

sys.dont_write_bytecode = True

import plain_sheets
from built import built
from comparing import (
    Command, arguments, compare_asked, compare_folders, known_folders, known_status, status_of,
)
from geda_files import Fault, read_sheet
from project_cases import case_table
from project_limits import limits
from project_rules import answer_of
from random_files import random_file
from random_projects import random_folder, with_form


class Netlist(Command):
    """Net lists are counted by whether they have parts below, faults by their last word."""

    name, answer_of = "netlist", staticmethod(answer_of)

    def count(self, answer):
        status, out, err = answer
        parts = out.split(b"\nnets ")[0].split(b"\n")[1:]
        are_below = any(b"/" in part.split(b"\t")[0] for part in parts)
        lists = "net lists of several levels" if are_below else "net lists"
        self.sorts[err.decode().split()[-1] if status != 0 else lists] += 1


def random_folders(seed, count):
    for number in range(0, count, 10):
        files, runs = random_folder(seed, number)
        rng = random.Random(f"forms {seed} {number}")
        yield f"folder {number} of seed {seed}", files, [
            with_form(rng, words) for words in runs[: count - number]]


def limit_folders():
    for what, files, words in limits():
        print(what, flush=True)
        yield what, files, [words]


def plain_cases():
    """Plain sheets as plain_sheets.py has them: what it has drawn, and what it tells of random
    files."""
    for number in range(500):
        drawing = plain_sheets.Drawing(random.Random(f"plain {number}"))
        wanted = plain_sheets.list_text(drawing.conductors, drawing.packages).encode()
        got = answer_of({"x.sch": drawing.text.encode()}, "x.sch")
        yield f"plain sheet {number}", got, (0, wanted, b"")
        data = random_file("plain", number)
        try:
            wanted = plain_sheets.text_of_sheet(read_sheet(data)[1])
        except Fault:
            continue
        if wanted is not None:
            yield f"file {number}", answer_of({"x.sch": data}, "x.sch"), (0, wanted, b"")


def self_test():
    """The rules told here, on folders with known answers and on plain sheets."""
    failed = known_status("projects with known answers", case_table(), answer_of)
    return status_of("plain sheets", list(plain_cases())) or failed


def main():
    parser = arguments(__doc__, 4000)
    parser.add_argument("--limits", action="store_true")
    asked = parser.parse_args()
    if asked.limits:
        return compare_folders(built(asked.program), Netlist(), limit_folders())
    failed = asked.cases and self_test()
    return failed or compare_asked(asked, Netlist(), known_folders(case_table()), random_folders)


if __name__ == "__main__":
    sys.exit(main())
