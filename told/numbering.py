#!/usr/bin/env python3
"""Compares `renumber` of the program with docs/RULES.md, "Numbering", told again here.

Usage: numbering.py [--seed S] [--count N] [PROGRAM]. N random runs (1, 2000) come after files that
cannot be written. Of each run the status, what goes out, the error line, and the bytes and
permissions of all files afterwards must be those told here; a second run must change nothing. At
the first difference the folder is kept, and the status is 1. README.md has what PROGRAM is where
none is named.
"""
import argparse
import itertools
import os
import pathlib
import random
import re
import subprocess
import sys
import tempfile
import time

sys.dont_write_bytecode = True

from built import built
from comparing import put
from geda_files import Item, canonical, read_sheet
from hierarchy_rules import Ends, gathered
from project_rules import asked_of
from random_projects import random_folder

OPEN = [b"R?", b"R?", b"R?", b"U?", b"?", b"R??", b"R1?", b"U?a", b"U1/R?", b"? ?", b"\xc3\xa9?"]
REFDES = re.compile(rb"(?<=\nrefdes=)[^\n]*")
MODES = (0o644, 0o600, 0o664, 0o640)
LONGEST = 240


def set_refdes(item, refdes):
    """Sets the attribute as the rule says: the first one of the name, or a new label."""
    line = b"refdes=" + refdes.encode()
    for text in item.texts:
        name, _, value = b"\n".join(text.following).partition(b"=")
        if name == b"refdes" and value and not value.startswith(b" "):
            text.values, text.following = [*text.values[:-1], 1], [line]
            return
    x, y = item.values[:2]
    text = Item(b"T", [x, y, 5, 10, 0, 1, 0, 0, 1])
    text.following = [line]
    item.texts.append(text)


def number(project):
    """Numbers the components of a project: the sheets that change, and how many numbers came."""
    used = {component.refdes for sheet in project.sheets.values() for component in sheet.components}
    last, changed, count = {}, [], 0
    for name, sheet in sorted(project.sheets.items()):
        for component in sheet.components:
            refdes = component.refdes
            if refdes is None or not refdes.endswith("?") or component.is_graphical:
                continue
            stem = refdes.rstrip("?")
            given = next(k for k in itertools.count(last.get(stem, 1)) if f"{stem}{k}" not in used)
            last[stem] = given
            used.add(f"{stem}{given}")
            set_refdes(component.item, f"{stem}{given}")
            changed += [] if name in changed else [name]
            count += 1
    return changed, count


def answer_of(files, words):
    """Status, what goes out and the error line, and the files afterwards."""
    try:
        _, names = asked_of(words, "--no-option")
        project = gathered(files, names)
        changed, count = number(project)
        project.keep_limits()
    except Ends as ends:
        return (ends.status, b"", f"gafd: {ends.said}\n".encode()), files
    texts = {
        name: canonical((read_sheet(files[name])[0], project.sheets[name].items))
        for name in changed
    }
    return (0, b"renumbered %d\n" % count, b""), {**files, **texts}


def found_in(folder):
    """The files of a folder and of those below it, with their permissions."""
    paths = [path for path in sorted(pathlib.Path(folder).rglob("*")) if path.is_file()]
    return {
        str(path.relative_to(folder)): (path.read_bytes(), path.stat().st_mode & 0o777)
        for path in paths
    }


def run_in(program, folder, words):
    run = [program, "renumber", *words]
    run = subprocess.run(run, cwd=folder, capture_output=True, timeout=LONGEST)
    return run.returncode, run.stdout, run.stderr


def difference(program, files, words, modes):
    """What differs, of a run and of a second one."""
    with tempfile.TemporaryDirectory() as folder:
        put(folder, files)
        for name, mode in modes.items():
            os.chmod(pathlib.Path(folder, name), mode)
        for again in (False, True):
            wanted, files = answer_of(files, words)
            got = run_in(program, folder, words)
            if got != wanted:
                return f"{'again: ' if again else ''}got {got}, wanted {wanted}"
            for name in files.keys() | found_in(folder).keys():
                have = found_in(folder).get(name)
                if have != (files.get(name), modes.get(name)):
                    return f"{name} has {have}, wanted {files.get(name)} {modes.get(name):o}"
            if again and wanted[0] == 0 and wanted[1] != b"renumbered 0\n":
                return f"the rules told here give {wanted[1]} again"
    return None


def with_open(rng, files):
    """The files with more refdes that end in `?`."""
    share = rng.choice([0.1, 0.5, 0.9])

    def some(match):
        return rng.choice(OPEN) if rng.random() < share else match[0]

    return {name: REFDES.sub(some, data) for name, data in files.items()}


def compare(program, seed, count):
    started, done, written = time.perf_counter(), 0, 0
    for drawn in range(0, count, 10):
        files, runs = random_folder(seed, drawn)
        rng = random.Random(f"numbers {seed} {drawn}")
        files = with_open(rng, files)
        modes = {name: rng.choice(MODES) for name in files}
        for words in runs[: count - drawn]:
            if said := difference(program, files, words, modes):
                kept = tempfile.mkdtemp(prefix="gafd-differs-")
                put(kept, files)
                print(f"folder {drawn} of seed {seed}: {' '.join(words)}: {said}\nkept in {kept}")
                return 1
            done += 1
            written += answer_of(files, words)[0][1] not in (b"", b"renumbered 0\n")
    seconds = time.perf_counter() - started
    print(f"{done} runs are the same, {written} of them with new numbers; {seconds:.1f} s")
    return 0


OPEN_SHEET = "v 20130925 2\nC 0 0 1 0 0 x.sym\n{\nT 0 0 5 10 1 1 0 0 1\nrefdes=R?\n}\n"
NUMBERED = OPEN_SHEET.replace("?", "1").encode()


def with_link(folder):
    """A link stays, and what it leads to is written."""
    (folder / "lib").mkdir()
    (folder / "lib/a.sch").write_text(OPEN_SHEET)
    (folder / "a.sch").symlink_to("lib/a.sch")
    yield ["a.sch"], (0, b"renumbered 1\n", b"")
    yield (folder / "a.sch").is_symlink(), True
    yield (folder / "lib/a.sch").read_bytes(), NUMBERED
    yield sorted(os.listdir(folder / "lib")), ["a.sch"]


def with_leftover(folder):
    """A file beside that a crash left stays, and does no harm."""
    (folder / "a.sch").write_text(OPEN_SHEET)
    (folder / ".a.sch.gafd1").write_text("left")
    yield ["a.sch"], (0, b"renumbered 1\n", b"")
    yield (folder / "a.sch").read_bytes(), NUMBERED
    yield (folder / ".a.sch.gafd1").read_text(), "left"
    yield sorted(os.listdir(folder)), [".a.sch.gafd1", "a.sch"]


def without_a_place(folder):
    """Where no name beside is free, the sheet stays, and those before it are written."""
    for name in ("a.sch", "b.sch", "c.sch"):
        (folder / name).write_text(OPEN_SHEET)
    for beside in range(1, 101):
        (folder / f".b.sch.gafd{beside}").write_text("left")
    yield ["c.sch", "b.sch", "a.sch"], (3, b"", b"gafd: folder fault\n")
    yield (folder / "a.sch").read_bytes(), NUMBERED
    yield (folder / "b.sch").read_text(), OPEN_SHEET
    yield (folder / "c.sch").read_text(), OPEN_SHEET
    yield len(os.listdir(folder)), 103


def read_only(folder):
    """A sheet that may not be written stays; root may write all, and is passed over."""
    if os.getuid() == 0:
        return
    (folder / "a.sch").write_text(OPEN_SHEET)
    (folder / "a.sch").chmod(0o444)
    yield ["a.sch"], (3, b"", b"gafd: folder fault\n")
    yield (folder / "a.sch").read_text(), OPEN_SHEET


def edges(program):
    for case in (with_link, with_leftover, without_a_place, read_only):
        with tempfile.TemporaryDirectory() as top:
            for got, wanted in case(pathlib.Path(top)):
                if isinstance(got, list) and isinstance(wanted, tuple):
                    got = run_in(program, top, got)
                if got != wanted:
                    print(f"{case.__doc__}\ngot    {got}\nwanted {wanted}")
                    return 1
    print("links, files beside and permissions are as told")
    return 0


def main():
    parser = argparse.ArgumentParser(description=__doc__.split("\n")[0])
    parser.add_argument("--seed", default="1")
    parser.add_argument("--count", type=int, default=2000)
    parser.add_argument("program", nargs="?")
    asked = parser.parse_args()
    program = built(asked.program)
    return edges(program) or compare(program, asked.seed, asked.count)


if __name__ == "__main__":
    sys.exit(main())
