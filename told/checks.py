#!/usr/bin/env python3
"""Compares `drc` of the program with the rules of the check, told again in check_rules.py.

Usage:
  checks.py [--seed S] [--count N] [PROGRAM]    N random runs (1, 2000), ten in a folder
  checks.py --folder FOLDER [PROGRAM]           each .sch of a folder, also with each .toml of it
  checks.py --cases [PROGRAM]                   folders with known answers alone

Most random runs have a matrix of their own. Status, what goes out and the error line must be those
told here; how many runs had which finding is told at the end. README.md has what PROGRAM is where
none is named, and what becomes of a difference.
"""
import sys

sys.dont_write_bytecode = True

from check_cases import case_table
from check_rules import NAMES, answer_of
from comparing import (
    Command, arguments, compare_asked, folder_of, known_folders, known_status,
)
from random_checks import random_check


class Drc(Command):
    """Reports are counted by their status, faults by their last word, findings once a report."""

    name, answer_of, findings = "drc", staticmethod(answer_of), NAMES

    def count(self, answer):
        status, out, err = answer
        lines = out.decode().split("\n")[1:-2]
        found = {line.split(" ")[1] for line in lines}
        reports = "with warnings alone" if found else "without findings"
        sort = err.decode().split()[-1] if err else "with errors" if status == 7 else reports
        self.sorts[sort] += 1
        self.names.update(found)


def random_folders(seed, count):
    for number in range(0, count, 10):
        files, runs = random_check(seed, number)
        yield f"folder {number} of seed {seed}", files, runs[: count - number]


def with_matrices(top):
    """The files of a folder, and the words for each sheet of it, with each matrix and without."""
    what, files, runs = folder_of(top)
    matrices = sorted(name for name in files if name.endswith(".toml"))
    return what, files, runs + [["--matrix", it, *run] for it in matrices for run in runs]


def main():
    asked = arguments(__doc__, 2000).parse_args()
    failed = asked.cases and known_status("checks with known answers", case_table(), answer_of)
    known = known_folders(case_table())
    return failed or compare_asked(asked, Drc(), known, random_folders, with_matrices)


if __name__ == "__main__":
    sys.exit(main())
