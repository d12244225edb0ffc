#!/usr/bin/env python3
"""Compares the verdicts on random histories, and the sheets after them, with those of docs/RULES.md
told again ("Changes of edits", "Verdicts").

Usage: verdicts.py [--histories N] [--seed N] [PROGRAM]. The program is that of the crate cases, as
`rt run` builds it; it reads the histories as cases of a table, some hundred at a time. How often
each verdict came is told at the end.
"""
import argparse
import collections
import pathlib
import random
import subprocess
import sys
import tempfile

sys.dont_write_bytecode = True

from built import case_program
from edit_rules import Desk, told
from random_entries import history

AT_A_TIME = 250


def case(rng, counts):
    """The lines of a table that ask for a history, and for each sheet after it."""
    desk = Desk()
    entries, verdicts = [], []
    for entry in history(rng, desk):
        verdict = desk.take(entry)
        counts[verdict.split()[0]] += 1
        entries.append("| " + told(entry))
        verdicts.append("> " + verdict)
    lines = ["== an_entry_has_its_verdict: verdicts", "text h", *entries, "$ h", *verdicts]
    # A heading ends the files of a table, so that the entries stand below each.
    lines += ["== a_history_has_its_project: report after", "text h", *entries]
    for name in desk.sheets():
        lines += [f"$ h: sheet {name}", *("> " + line for line in desk.sheet_lines(name))]
        lines += [f"$ h: objects {name}", *("> " + line for line in desk.object_lines(name))]
    return lines


def run(program, tables):
    with tempfile.TemporaryDirectory() as folder:
        table = pathlib.Path(folder, "edits", "random.txt")
        table.parent.mkdir()
        table.write_text("\n".join(tables) + "\n", encoding="utf-8")
        ran = subprocess.run(
            [program, "edits/random.txt"], cwd=folder, capture_output=True, text=True, check=True
        )
        if not ran.stdout.endswith(" cases, 0 wrong\n"):
            pathlib.Path("random.txt").write_text("\n".join(tables) + "\n", encoding="utf-8")
            sys.exit(ran.stdout[:4000] + "\nthe table is kept in random.txt")
        return int(ran.stdout.split()[1])


def main():
    parser = argparse.ArgumentParser(description=__doc__.split("\n")[0])
    parser.add_argument("--histories", type=int, default=10_000)
    parser.add_argument("--seed", type=int, default=1)
    parser.add_argument("program", nargs="?")
    asked = parser.parse_args()
    program = case_program(asked.program)
    rng = random.Random(asked.seed)
    counts, cases, left = collections.Counter(), 0, asked.histories
    while left:
        now = min(left, AT_A_TIME)
        lines = [line for _ in range(now) for line in case(rng, counts)]
        cases += run(program, lines)
        left -= now
    print(f"{asked.histories} histories, {cases} cases, none is wrong")
    for verdict, count in sorted(counts.items()):
        print(f"{count:8} {verdict}")


if __name__ == "__main__":
    main()
