#!/usr/bin/env python3
"""Times the reading of bodies of 1, 2 and 4 MiB that are large in one way each, and tells the peak
of memory.

Usage: entry_bodies.py [PROGRAM]. The program is that of the crate cases, as `rt run` builds it; it
reads each body as a case of a table, and what the body comes to is compared. Each row is the best
of five runs, the start of the program and the reading of the table included. Nothing may grow
faster than its body, but for keys, which are sorted.
"""
import pathlib
import subprocess
import sys
import tempfile

sys.dont_write_bytecode = True

import paths
from built import case_program
from measure import best

MIB = 1_048_576
LARGE = "edits/large.txt"
ENTRY = '"session":"ann","number":1,"base":0,"edit":'
RENUMBER = ENTRY + '{"kind":"renumber"}'


def repeated(piece, size):
    return piece * (size // len(piece))


def one_string(size):
    """A sheet of one long text, and an unknown key."""
    text = repeated("a", size - 200)
    return f'{{{ENTRY}{{"kind":"add_sheet","name":"x.sch","text":"{text}"}},"x":1}}', "/x"


def escapes(size):
    """The same, each byte of it escaped."""
    text = repeated("\\n", size - 200)
    return f'{{{ENTRY}{{"kind":"add_sheet","name":"x.sch","text":"{text}"}},"x":1}}', "/x"


def one_key(size):
    """One key again and again."""
    return f'{{{repeated(RENUMBER + ",", size - 200)}"x":1}}', "/x"


def keys(size, step):
    numbers = (step * number % 99_999_989 for number in range((size - 200) // 13))
    members = ",".join(f'"{number:08}":1' for number in numbers)
    return f"{{{RENUMBER},{members}}}", "/00000000"


def rising_keys(size):
    """Unknown keys, in order."""
    return keys(size, 1)


def mixed_keys(size):
    """Unknown keys, in no order."""
    return keys(size, 48_271)


def ids(size):
    """Far too many ids."""
    return f'{{{ENTRY}{{"kind":"delete","ids":[{repeated("1,", size - 200)}2]}}}}', "/edit/ids"


def nests(size):
    """Arrays without members, nested 126 deep again and again."""
    return f"[{repeated('[' * 126 + ']' * 126 + ',', size - 200)}1]", ""


def brackets(size):
    """An array that is nested far too deep."""
    return repeated("[", size // 2) + repeated("]", size // 2), ""


def digits(size):
    """One number."""
    return f'{{"number":{repeated("1", size - 200)}}}', ""


def blanks(size):
    """Spaces alone."""
    return repeated(" ", size), ""


SHAPES = [
    one_string, escapes, one_key, rising_keys, mixed_keys, ids, nests, brackets, digits, blanks,
]


def table(body, pointer):
    return f"== a_large_body: body\ntext large\n| {body}\n@large => BadEdit {pointer}\n"


def row(program, shape, size):
    body, pointer = shape(size)
    assert len(body) <= size
    with tempfile.TemporaryDirectory() as folder:
        path = pathlib.Path(folder, LARGE)
        path.parent.mkdir()
        path.write_text(table(body, pointer))
        run = subprocess.run([program, LARGE], cwd=folder, capture_output=True, text=True)
        if run.stdout != f"{LARGE}: 1 cases, 0 wrong\n":
            sys.exit(f"{shape.__name__}: {run.stdout[:200]} {run.stderr[:200]}")
        seconds, peak = best(program, folder, [LARGE])
    said = f"{1000 * seconds:8.1f} ms {peak / MIB:7.1f} MiB"
    print(f"{shape.__name__:12} {size // MIB} MiB {said}", flush=True)


def main():
    program = case_program(*sys.argv[1:])
    for shape in SHAPES:
        for size in (MIB, 2 * MIB, 4 * MIB):
            row(program, shape, size)


if __name__ == "__main__":
    main()
