#!/usr/bin/env python3
"""Times `export` and `netlist` of files of 4 MiB, and tells the peak of memory.

Usage: reading.py [PROGRAM]. Three shapes: texts, nets, embedded symbols. Each row is the best of
five runs, the program's start included; the peak is that of all runs, and has a floor of some
10 MiB, which is what the process that starts the program has itself. Then files about the greatest
size are read: one byte below it, just of it, and one above.
"""
import pathlib
import sys
import tempfile

sys.dont_write_bytecode = True

import paths
from built import built
from measure import RUNS, measured

MOST_BYTES = 4_194_304
VERSION = "v 20130925 2\n"
def filled(parts):
    """A sheet of so many of these objects as 4 MiB have room for."""
    lines, size = [VERSION], len(VERSION)
    for part in parts:
        size += len(part)
        if size > MOST_BYTES:
            return "".join(lines)
        lines.append(part)
    return "".join(lines)


def texts():
    """Texts of one line."""
    for number in range(100_000):
        x, y = 100_000 + number, 200_000 - number
        yield f"T {x} {y} 9 10 1 0 0 0 1\nText {number:08}\n"


def nets():
    """Nets of three wires in a row, spelled as long as they may be."""
    for number in range(100_000):
        row, place = divmod(number, 900)
        x, y = -199_900 + 400 * (place // 3) + 100 * (place % 3), -199_900 + 100 * row
        yield f"N {x} {y} {x + 100} {y} -100000\n"


def symbols():
    """Components of two pins."""
    for number in range(100_000):
        x, y = 1000 * (number % 190), 1000 * (number // 190)
        pins = "".join(
            f"P {x + 100 * k} {y} {x + 100 * k + 50} {y} 1 0 0\n"
            f"{{\nT {x} {y} 5 8 0 1 0 0 1\npinnumber={k + 1}\n"
            f"T {x} {y} 5 8 0 1 0 0 1\npintype=pas\n}}\n"
            for k in range(2)
        )
        yield (
            f"C {x} {y} 1 0 0 EMBEDDEDtwo.sym\n[\n{pins}"
            f"L {x} {y} {x + 100} {y} 3 0 1 0 -1 -1\n"
            f"T {x} {y} 8 10 0 0 0 0 1\ndevice=TWO\n]\n"
            f"{{\nT {x} {y} 5 10 1 1 0 0 1\nrefdes=R{number}\n}}\n"
        )


def of_size(size):
    """Texts in a file of just so many bytes."""
    sheet = filled(texts())
    sheet = sheet[: sheet.rindex("T ")]
    head = "T 0 0 9 10 1 0 0 0 1\n"
    return sheet + head + "x" * (size - len(sheet) - len(head) - 1) + "\n"


def main():
    program = str(built(*sys.argv[1:]))
    with tempfile.TemporaryDirectory() as folder:
        file = pathlib.Path(folder, "bench.sch")
        for shape in (texts, nets, symbols):
            size = file.write_text(filled(shape()))
            for command in ("export", "netlist"):
                runs = [measured(program, folder, [command, file.name]) for _ in range(RUNS)]
                seconds, peak = min(run[1] for run in runs), max(run[2] for run in runs)
                print(
                    f"{command:8} {shape.__name__:8} {size:8} bytes: status {runs[0][0]}, "
                    f"{1000 * seconds:7.1f} ms, {size / seconds / 1e6:6.1f} MB/s, "
                    f"{peak / 2**20:5.1f} MiB, {peak / size:4.1f} times the file"
                )
        for size in (MOST_BYTES - 1, MOST_BYTES, MOST_BYTES + 1):
            file.write_text(of_size(size))
            for command in ("export", "netlist"):
                status, _, _, said = measured(program, folder, [command, file.name])
                print(f"{command:8} {size} bytes: status {status} {said}")


if __name__ == "__main__":
    main()
