#!/usr/bin/env python3
"""Compares the nets of random sheets with those of `lepton-netlist`, where Lepton EDA is installed.

Usage: lepton.py [SEED [SHEETS [PROGRAM]]]. The sheets have wires, straight and slanting, and pins;
names and numbers of nets are not compared, but which pins are joined. Nothing claims that the two
agree: it shows where this project's rules part from those of the field. A sheet takes a second.
"""
import pathlib
import random
import re
import shutil
import subprocess
import sys
import tempfile

sys.dont_write_bytecode = True

from built import built

NET = re.compile(r"^\(\n.*\n((?:[^)].*\n)*)\)$", re.M)


def point(rng):
    return rng.randint(10, 15) * 100, rng.randint(10, 15) * 100


def wire(rng):
    """A wire, four of five times straight, and never a point."""
    a, b = point(rng), point(rng)
    if rng.random() < 0.8:
        b = rng.choice([(b[0], a[1]), (a[0], b[1])])
    if a == b:
        b = (a[0] + 100, a[1])
    return f"N {a[0]} {a[1]} {b[0]} {b[1]} 4\n"


def text(x, y, content):
    return f"T {x} {y} 5 10 0 1 0 0 1\n{content}\n"


def component(number, x, y):
    """A component of one pin, which touches nothing but at its active end."""
    pin = f"P {x} {y} {x + 30} {y + 30} 1 0 0\n"
    attached = "".join(text(x, y, it) for it in ("pinnumber=1", "pinseq=1", "pintype=pas"))
    symbol = f"[\n{pin}{{\n{attached}}}\n{text(x, y, 'device=TP')}]\n"
    return f"C {x} {y} 1 0 0 EMBEDDEDp.sym\n{symbol}{{\n{text(x, y, f'refdes=TP{number}')}}}\n"


def sheet(rng):
    wires = "".join(wire(rng) for _ in range(rng.randint(3, 9)))
    pins = sorted({point(rng) for _ in range(rng.randint(3, 8))})
    return "v 20130925 2\n" + wires + "".join(component(n, *at) for n, at in enumerate(pins, 1))


def joined(nets):
    """The nets of two pins and more, as sets."""
    return {frozenset(net) for net in nets if len(net) > 1}


def nets_of_list(list_text):
    lines = list_text.split("\nnets ")[1].split("\n")[1:-1]
    return joined(line.split("\t")[1].split(" ") for line in lines)


def nets_of_tango(tango):
    """The nets of a tango file: a line `(`, the name, the members, a line `)`."""
    return joined(net.split("\n")[:-1] for net in NET.findall(tango))


def run(words, folder):
    return subprocess.run(words, cwd=folder, check=True, capture_output=True, text=True).stdout


def main():
    seed, sheets, program = (sys.argv[1:] + ["1", "20", None][len(sys.argv) - 1 :])
    if not shutil.which("lepton-netlist"):
        sys.exit("there is no lepton-netlist on the PATH")
    program = built(program)
    rng, differ = random.Random(seed), 0
    with tempfile.TemporaryDirectory() as folder:
        for _ in range(int(sheets)):
            drawn = sheet(rng)
            pathlib.Path(folder, "random.sch").write_text(drawn)
            run(["lepton-netlist", "-q", "-g", "tango", "-o", "random.net", "random.sch"], folder)
            theirs = nets_of_tango(pathlib.Path(folder, "random.net").read_text())
            words = [program, "netlist", "random.sch"]
            ours = nets_of_list(run(words, folder))
            if ours != theirs:
                differ += 1
                print(f"{drawn}here alone: {ours - theirs}\nthere alone: {theirs - ours}\n")
    print(f"{sheets} sheets, {differ} differ")
    return 1 if differ else 0


if __name__ == "__main__":
    sys.exit(main())
