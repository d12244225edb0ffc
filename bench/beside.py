#!/usr/bin/env python3
"""Times `netlist` and `lepton-netlist` on the same projects, one after the other, where Lepton EDA
is installed.

Usage: beside.py [--seconds S] [PROGRAM]. The boards and the instances of parts.py, of 100, 1,000
and 10,000 parts. Each time is that of one run, the start of the program included; one of
lepton-netlist that takes more than S seconds (300) is stopped. Peaks of memory have a floor of some
10 MiB. Nothing claims that the two print the same.
"""
import argparse
import shutil
import subprocess
import sys
import tempfile

sys.dont_write_bytecode = True

import paths
from built import built
from comparing import put
from measure import measured
from part_shapes import board
from sheet_shapes import instances

LIBRARY = b'(component-library ".")\n(source-library ".")\n'
SHAPES = [(shape, count) for shape in (board, instances) for count in (100, 1_000, 10_000)]


def told(program, folder, words):
    """What a row says of a run that ends well."""
    status, seconds, peak, said = measured(program, folder, words)
    if status != 0:
        return f"status {status} {said[-60:]}"
    return f"{1000 * seconds:9.1f} ms {peak / 2**20:7.1f} MiB"


def main():
    parser = argparse.ArgumentParser(description=__doc__.split("\n")[0])
    parser.add_argument("--seconds", default="300")
    parser.add_argument("program", nargs="?")
    asked = parser.parse_args()
    program = built(asked.program)
    lepton, timeout = shutil.which("lepton-netlist"), shutil.which("timeout")
    if not lepton:
        sys.exit("there is no lepton-netlist")
    version = subprocess.run([lepton, "--version"], capture_output=True, text=True).stdout
    print(version.split("\n")[0])
    for shape, count in SHAPES:
        files = {name: text.encode() for name, text in shape(count).items()}
        with tempfile.TemporaryDirectory() as folder:
            put(folder, {**files, "gafrc": LIBRARY})
            ours = told(str(program), folder, ["netlist", "x.sch"])
            words = [asked.seconds, lepton, "-g", "geda", "-o", "out.net", "x.sch"]
            print(f"{shape.__name__:10} {count:6}: gafd {ours}", flush=True)
            print(f"{'':19} lepton {told(timeout, folder, words)}", flush=True)


if __name__ == "__main__":
    main()
