#!/usr/bin/env python3
"""Times `netlist` of sheets with many conductors, in shapes that are hard in different ways.

Usage: netlist.py [PROGRAM]. For each shape and 1,000, 10,000 and 100,000 conductors: the best of as
many runs as fit into some seconds, the program's start included, and how much longer a sheet takes
than one of a tenth of its size.
"""
import pathlib
import random
import subprocess
import sys
import tempfile
import time

sys.dont_write_bytecode = True

import paths
from built import built

VERSION = "v 20130925 2\n"
PINS = 100
SECONDS = 5
LONGEST = 120


def pin(x, y, number):
    """A component of one pin, with an active end at a point."""
    text = f"T {x} {y} 5 10 0 1 0 0 1\n"
    symbol = f"[\nP {x} {y} {x + 50} {y + 50} 1 0 0\n{{\n{text}pinnumber=1\n}}\n]\n"
    return f"C {x} {y} 1 0 0 EMBEDDEDpin.sym\n{symbol}{{\n{text}refdes=R{number}\n}}\n"


def wire(a, b):
    return f"N {a[0]} {a[1]} {b[0]} {b[1]} 4\n"


def small(count):
    """Nets of three wires in a row, each apart from the others."""
    for number in range(count):
        net, place = divmod(number, 3)
        x, y = 400 * (net % 400) + 100 * place, 100 * (net // 400)
        yield (x, y), (x + 100, y)


def single(count):
    """One net: a line that goes to and fro over the sheet, in wires of 100 mils."""
    def at(number):
        row, place = divmod(number, 400)
        return 100 * (place if row % 2 == 0 else 399 - place), 100 * row

    return ((at(number), at(number + 1)) for number in range(count))


def comb(count):
    """Long wires, on each of which a thousand others end."""
    for number in range(count):
        spine, tooth = divmod(number, 1001)
        y = 300 * spine
        yield ((0, y), (100_200, y)) if tooth == 0 else ((100 * tooth, y), (100 * tooth, y + 100))


def overlapping(count):
    """Wires of one length, each of which lies on its neighbours for the most part."""
    for number in range(count):
        row, place = divmod(number, 1000)
        yield (100 * place, 100 * row), (100 * place + 1000, 100 * row)


def crossing(count):
    """Long wires across each other: none of them touch."""
    half = count // 2
    for number in range(count):
        row = 2 * (number % half) + 1
        yield ((row, 0), (row, count)) if number < half else ((0, row), (count, row))


def star(count):
    """Wires from one point, each to another one."""
    return (((0, 0), (100 * (1 + number % 400), 100 * (1 + number // 400)))
            for number in range(count))


def sheet(shape, count):
    """A sheet of so many conductors, some of them pins on the first wires, in random order."""
    wires = list(shape(count - PINS))
    pins = [pin(*wires[number][0], number) for number in range(PINS)]
    objects = pins + [wire(*ends) for ends in wires]
    random.Random(1).shuffle(objects)
    return VERSION + "".join(objects)


def best(program, folder, text):
    """The time of the best run in seconds, or None where one takes too long."""
    pathlib.Path(folder, "bench.sch").write_text(text)
    times, begun = [], time.perf_counter()
    while not times or (len(times) < 5 and time.perf_counter() - begun < SECONDS):
        start = time.perf_counter()
        words = [program, "netlist", "bench.sch"]
        try:
            run = subprocess.run(words, cwd=folder, capture_output=True, timeout=LONGEST)
        except subprocess.TimeoutExpired:
            return None
        times.append(time.perf_counter() - start)
        assert run.returncode == 0, run.stderr
    return min(times)


def main():
    program = built(*sys.argv[1:])
    with tempfile.TemporaryDirectory() as folder:
        for shape in (single, comb, overlapping, crossing, small, star):
            last = None
            for count in (1_000, 10_000, 100_000):
                text = sheet(shape, count)
                seconds = best(program, folder, text)
                if seconds is None:
                    print(f"{shape.__name__:12} {count:7} conductors: over {LONGEST} s")
                    break
                grown = f", {seconds / last:5.1f} times" if last else ""
                said = f"{len(text):8} bytes: {1000 * seconds:9.1f} ms{grown}"
                print(f"{shape.__name__:12} {count:7} conductors, {said}", flush=True)
                last = seconds


if __name__ == "__main__":
    main()
