"""Compares a command of the program with the rules told again, folder by folder: what projects.py,
checks.py, spice.py and symbols.py share.

A folder is a dictionary from names of files to bytes. What differs is cut down to the files and
lines that matter, kept in a folder, and printed.
"""
import argparse
import collections
import itertools
import pathlib
import subprocess
import tempfile
import time

from built import built

LONGEST = 240
MOST_SHRUNK = 1_000_000


class Command:
    """A command of the program: what the rules tell of it, and how often which answers came. Each
    has a `name`, an `answer_of` files and words, and counts its answers."""

    findings = ()

    def __init__(self):
        self.sorts, self.names = collections.Counter(), collections.Counter()

    def summary(self):
        sorts = ", ".join(f"{number} {sort}" for sort, number in self.sorts.most_common())
        found = ", ".join(f"{self.names[it]} {it}" for it in self.findings)
        return f"{sorts}; of the findings {found}" if found else sorts


def put(folder, files):
    """Makes the files of a folder."""
    for name, data in files.items():
        path = pathlib.Path(folder, name)
        path.parent.mkdir(parents=True, exist_ok=True)
        path.write_bytes(data)


def apart(got, wanted):
    """What differs between two answers, each the status, what goes out and the error line."""
    if got == wanted:
        return None
    if (got[0], got[2]) != (wanted[0], wanted[2]):
        return f"got {got[0]} {got[2]!r}, wanted {wanted[0]} {wanted[2]!r}"
    pairs = zip(got[1].split(b"\n") + [None], wanted[1].split(b"\n") + [None])
    line, (was, should) = next((n, p) for n, p in enumerate(pairs, 1) if p[0] != p[1])
    return f"line {line} is {was!r}, wanted {should!r}"


def difference(program, command, folder, words, wanted):
    """What differs from the wanted answer, for words in a folder that has been made."""
    try:
        words = [program, command.name, *words]
        run = subprocess.run(words, cwd=folder, capture_output=True, timeout=LONGEST)
    except subprocess.TimeoutExpired:
        return f"no end within {LONGEST} seconds"
    return apart((run.returncode, run.stdout, run.stderr), wanted)


def differs(program, command, files, words):
    with tempfile.TemporaryDirectory() as folder:
        put(folder, files)
        return difference(program, command, folder, words, command.answer_of(files, words))


def fewer_words(words):
    """The words without two that follow each other, and without one."""
    for count in (2, 1):
        for at in range(len(words) - count + 1):
            yield words[:at] + words[at + count :]


def shrunk(program, command, files, words):
    """The words, the files and the lines without which there is no difference."""
    less = words
    while less is not None:
        words = less
        found = (it for it in fewer_words(words) if differs(program, command, files, it))
        less = next(found, None)
    for other in list(files):
        fewer = {known: data for known, data in files.items() if known != other}
        if other not in words and differs(program, command, fewer, words):
            files = fewer
    for other in files:
        size = 64
        while size:
            lines, at = files[other].split(b"\n"), 0
            while at < len(lines):
                less = {**files, other: b"\n".join(lines[:at] + lines[at + size :])}
                if differs(program, command, less, words):
                    files, lines = less, lines[:at] + lines[at + size :]
                else:
                    at += size
            size //= 2
    return files, words


def keep(program, command, what, files, words, said):
    """Prints a difference with the folder that is kept, and answers the status."""
    kept = pathlib.Path(tempfile.mkdtemp(prefix="gafd-differs-"))
    told = " ".join(words) if len(words) < 100 else f"{len(words)} words"
    print(f"{what}: {command.name} {told}: {said}", flush=True)
    if len(files) > 100 or sum(map(len, files.values())) > MOST_SHRUNK:
        put(kept, files)
        print(f"kept in {kept}")
        return 1
    put(kept / "whole", files)
    less, words = shrunk(program, command, files, words)
    put(kept, less)
    status, out, err = command.answer_of(less, words)
    said = differs(program, command, less, words)
    print(f"cut down: {command.name} {' '.join(words)}: {said}\n")
    for name, data in less.items():
        print(f"{name}:\n{data.decode(errors='replace')}")
    print(f"wanted: status {status}\n{(out + err).decode()}")
    print(f"kept in {kept}: {', '.join(less)}; as it was drawn in {kept / 'whole'}")
    return 1


def compare_folders(program, command, folders):
    """Compares folders, each with what it shows and the words of its runs."""
    started, count = time.perf_counter(), 0
    for what, files, runs in folders:
        with tempfile.TemporaryDirectory() as folder:
            put(folder, files)
            for words in runs:
                wanted = command.answer_of(files, words)
                if said := difference(program, command, folder, words, wanted):
                    return keep(program, command, what, files, words, said)
                command.count(wanted)
                count += 1
    seconds = time.perf_counter() - started
    print(f"{count} runs are the same: {command.summary()}; {seconds:.1f} s")
    return 0


def folder_of(top):
    files = {path.name: path.read_bytes() for path in pathlib.Path(top).iterdir() if path.is_file()}
    return str(top), files, [[name] for name in sorted(files) if name.endswith(".sch")]


def failed_of(cases):
    """How many cases have another answer than is wanted; they are printed."""
    failed = 0
    for what, got, wanted in cases:
        if got != wanted:
            failed += 1
            print(f"{what}:\ngot    {got}\nwanted {wanted}")
    return failed


def status_of(what, cases):
    """Prints how many of these cases failed, and answers the status."""
    failed = failed_of(cases)
    print(f"{len(cases)} {what}:", f"{failed} failed" if failed else "all passed")
    return 1 if failed else 0


def known_status(what, table, answer_of):
    """The same for a table of folders with known answers: each what it shows, its files, the words
    of a run, and what is wanted."""
    cases = [(shows, answer_of(files, words), wanted) for shows, files, words, wanted in table]
    return status_of(what, cases)


def known_folders(table):
    """The folders of such a table, as compare_folders takes them."""
    return ((shows, files, [words]) for shows, files, words, _ in table)


def arguments(doc, count):
    """What each of these scripts takes; `count` is how many random runs it has by itself."""
    parser = argparse.ArgumentParser(description=doc.split("\n")[0])
    parser.add_argument("--seed", default="1")
    parser.add_argument("--count", type=int, default=count)
    parser.add_argument("--folder")
    parser.add_argument("--cases", action="store_true")
    parser.add_argument("program", nargs="?")
    return parser


def compare_asked(asked, command, known, random_folders, folder_of=folder_of):
    """Compares the folders that are asked for: those with known answers, which come before the
    random ones, or those of a folder. With --cases the program has to be named."""
    if asked.cases and not (asked.program and known):
        return 0
    folders = itertools.chain(known, random_folders(asked.seed, asked.count))
    if asked.cases:
        folders = known
    if asked.folder:
        folders = [folder_of(asked.folder)]
    return compare_folders(built(asked.program), command, folders)
