#!/usr/bin/env python3
"""Tells in which functions of a crate the time of its check went.

Usage: proof_times.py [--most N] CRATE. `rt check` in the crate keeps a file in out/incremental for
each module that it has checked, and writes it as soon as the module is checked: so a module took
the time since the file before. A pause of over 100 seconds lies between two checks and does not
count; a check of all, by one job alone on its machine, tells most. Of N functions, 20, go out the
seconds of each and of the three modules of it that took the most. `Lts` follows the moves of what a
function owns, and grows faster than the function, with its exits and with what goes away there;
`Proof` is its answers, and what is searched for them.
"""
import argparse
import collections
import pathlib
import re
import sys

sys.dont_write_bytecode = True

CRATES = pathlib.Path(__file__).resolve().parent.parent / "crates"
LONGEST = 100
MOST_MODULES = 3
FILE = re.compile(r"Rattle-\w+-(?:specs|proofs)\.(.+?)(?:\.decls)?\.oantt")


def kept_files(crate):
    """The files of a crate's modules, by their times. Where there is none, all ends."""
    kept = CRATES / crate / "out" / "incremental"
    files = sorted((file.stat().st_mtime_ns, file.name) for file in kept.rglob("*.oantt"))
    return files or sys.exit(f"{kept} has nothing: use `rt check` in crates/{crate}")


def seconds_by_function(files):
    """What each module took, in seconds, by functions: its path, and below it what stands apart."""
    seconds = collections.defaultdict(collections.Counter)
    for (before, _), (after, name) in zip(files, files[1:]):
        took = (after - before) / 1e9
        if took > LONGEST:
            continue
        found = FILE.fullmatch(name)
        words = found[1].split(".") if found else [name]
        inside = len(words)
        while inside > 1 and words[inside - 1][:1].isupper():
            inside -= 1
        seconds[".".join(words[:inside])][".".join(words[inside:])] += took
    return seconds


def main():
    words = argparse.ArgumentParser(description=__doc__.split("\n", 1)[0])
    words.add_argument("--most", type=int, default=20)
    words.add_argument("crate", metavar="CRATE", help="the name of a crate")
    given = words.parse_args()
    seconds = seconds_by_function(kept_files(given.crate))
    dearest = sorted(seconds.items(), key=lambda row: -row[1].total())
    print(f"{sum(row.total() for row in seconds.values()):7.1f} s in all")
    for function, modules in dearest[: given.most]:
        parts = ", ".join(f"{name} {took:.1f}" for name, took in modules.most_common(MOST_MODULES))
        print(f"{modules.total():7.1f} s {function}: {parts}")


if __name__ == "__main__":
    main()
