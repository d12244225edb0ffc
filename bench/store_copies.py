#!/usr/bin/env python3
"""Times the copying of a store into a new database, and a second copy, which puts nothing.

Usage: store_copies.py [PROGRAM [ROWS...]]    stores of 2,000 and of 100,000 rows

The rows are moves on a sheet of 1,000 wires, as those of `serving.py starts`. Each copy has a line:
the seconds of the processor, those of the system apart, and on the wall; and what a row of the
store takes of both. First come those on the disk that TMPDIR names, then those in /dev/shm, where a
sync does nothing. Where strace is there, the syncs of the shortest copy are counted.
"""
import os
import pathlib
import re
import shutil
import subprocess
import sys
import tempfile
import time

sys.dont_write_bytecode = True

import paths
from built import built
from serving import make_store

WORDS = ["store", "rows", "rows.db"]


def copied(program, folder, wanted):
    """The seconds of one copy: of the program, of the system, and on the wall."""
    before, begun = os.times(), time.monotonic()
    run = subprocess.run([program, *WORDS], cwd=folder, capture_output=True, check=False)
    wall, after = time.monotonic() - begun, os.times()
    if run.stdout != f"stored {wanted}\n".encode():
        sys.exit(f"status {run.returncode}: {run.stdout + run.stderr!r:.200}")
    own = after.children_user - before.children_user
    return own, after.children_system - before.children_system, wall


def syncs(program, folder):
    """How often a copy waits for the disk."""
    told = pathlib.Path(folder, "told")
    words = ["strace", "-f", "-c", "-e", "trace=fsync,fdatasync", "-o", str(told), program, *WORDS]
    subprocess.run(words, cwd=folder, capture_output=True, check=True)
    lines = told.read_text().splitlines()
    return sum(int(line.split()[3]) for line in lines if re.search(r"f(data)?sync$", line))


def remove(folder):
    for name in ("rows.db", "rows.db-wal"):
        pathlib.Path(folder, name).unlink()


def measure(program, what, parent, count, is_first):
    with tempfile.TemporaryDirectory(dir=parent) as folder:
        make_store(pathlib.Path(folder, "rows"), count)
        os.sync()
        for wanted in (count, 0):
            own, system, wall = copied(program, folder, wanted)
            print(
                f"{what:12} {count:7} rows, stored {wanted:7}: {own:6.2f} s and {system:6.2f} s of"
                f" the system, {wall:7.2f} s on the wall; {1e6 * (own + system) / count:4.0f} and"
                f" {1e6 * wall / count:5.0f} microseconds a row", flush=True,
            )
        if is_first and shutil.which("strace"):
            remove(folder)
            print(f"{what:12} {count:7} rows: {syncs(program, folder)} syncs", flush=True)


def main():
    program = str(built(*sys.argv[1:2]))
    counts = [int(word) for word in sys.argv[2:]] or [2_000, 100_000]
    for what, parent in (("on the disk", None), ("no sync", "/dev/shm")):
        for count in counts:
            measure(program, what, parent, count, parent is None and count == min(counts))


if __name__ == "__main__":
    main()
