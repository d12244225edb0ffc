#!/usr/bin/env python3
"""Simulates the filter of examples/ with ngspice, and compares its corner with that of its parts.

Usage: spice_corner.py [PROGRAM]. The circuit is what PROGRAM prints by `netlist --form spice
filter.sch`, and that must be filter.cir, byte for byte; where there is no program, filter.cir is
taken. Where ngspice is installed, corner.cir is run over the circuit, and the corner that it
measures must be 1 / (2 pi R1 C1) within one in a thousand. The status is 1 where something differs.
"""
import math
import pathlib
import re
import shutil
import subprocess
import sys
import tempfile

sys.dont_write_bytecode = True

from built import PROGRAM, TOP

EXAMPLES = TOP / "examples"
UNITS = {"": 1.0, "k": 1e3, "n": 1e-9}
CLOSE = 1e-3


def circuit(program):
    """The circuit that the program prints, or the one of examples/ where there is none."""
    wanted = (EXAMPLES / "filter.cir").read_text()
    if not pathlib.Path(program).exists():
        print(f"{program} is not built")
        return wanted
    words = [pathlib.Path(program).resolve(), "netlist", "--form", "spice", "filter.sch"]
    run = subprocess.run(words, cwd=EXAMPLES, capture_output=True, text=True)
    if run.returncode or run.stdout != wanted:
        sys.exit(f"filter.sch prints {run}")
    print("filter.sch prints as filter.cir")
    return run.stdout


def value_of(text, name):
    """The value of a card, by its last field."""
    card = re.search(rf"^{name} .* ([0-9.]+)([a-z]*)$", text, re.M)
    return float(card[1]) * UNITS[card[2]]


def measured(text):
    """The corner that ngspice measures."""
    with tempfile.TemporaryDirectory() as folder:
        pathlib.Path(folder, "filter.cir").write_text(text)
        shutil.copy(EXAMPLES / "corner.cir", folder)
        run = subprocess.run(["ngspice", "-b", "corner.cir"], cwd=folder, capture_output=True,
                             text=True, timeout=240)
    found = re.search(r"^corner\s*=\s*(\S+)", run.stdout, re.M)
    if not found:
        sys.exit(f"ngspice measured no corner:\n{run.stdout}{run.stderr}")
    return float(found[1])


def main():
    text = circuit(sys.argv[1] if len(sys.argv) > 1 else PROGRAM)
    if not shutil.which("ngspice"):
        print("ngspice is not installed")
        return 0
    wanted = 1 / (2 * math.pi * value_of(text, "R1") * value_of(text, "C1"))
    got = measured(text)
    print(f"corner at {got:.2f} Hz, by the parts at {wanted:.2f} Hz")
    return 0 if abs(got / wanted - 1) < CLOSE else 1


if __name__ == "__main__":
    sys.exit(main())
