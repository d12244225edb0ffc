#!/usr/bin/env python3
"""Compares `symcheck` of the program with the rule "Symbol check" of docs/RULES.md, told again.

Usage:
  symbols.py [--seed S] [--count N] [PROGRAM]    N random symbols (1, 3000), ten in a folder
  symbols.py --folder FOLDER [PROGRAM]           all .sym of a folder and below it, in one call
  symbols.py --cases                             the table files/symbols.txt of crates/cases alone

Most random symbols are damaged: pins and attributes that are missing, bad or there twice, and lines
that are refused. Status, what goes out and the error line must be those told here; how often which
finding was met is told at the end. README.md has what PROGRAM is where none is named, and what
becomes of a difference. With --cases no program is run: the rows of the tables are compared with
the rule told here.
"""
import collections
import pathlib
import random
import re
import sys

sys.dont_write_bytecode = True

from built import TOP
from comparing import Command, arguments, compare_asked, status_of
from component_rules import (
    KINDS, attributes, first_of, net_entry, number_list, small_number, values_of,
)
from drawing import pin, symbol
from geda_files import Fault, read_symbol
from random_files import damaged

TABLE = TOP / "crates" / "cases" / "data" / "files" / "symbols.txt"
TEXT = "T 0 0 5 10 0 1 0 0 1"
NAMES = (
    "NoDevice NoRefdes NoPins MissingNumber MissingSeq DuplicateNumber DuplicateSeq MissingLabel"
    " BadPintype OffGrid BadNumslots MissingSlotdef DuplicateSlotdef BadSlotdef BadNet"
).split()
WARNINGS = {"NoDevice", "NoRefdes", "NoPins", "MissingLabel", "OffGrid"}


def on_whole(free, pins):
    is_graphical = first_of(free, "graphical") == "1"
    if first_of(free, "device") is None:
        yield "NoDevice", ""
    if first_of(free, "refdes") is None and not is_graphical:
        yield "NoRefdes", ""
    if not pins and not is_graphical:
        yield "NoPins", ""


def twice(texts):
    counts = collections.Counter(text for text in texts if text is not None)
    return (text for text, count in counts.items() if count > 1)


def on_pins(pins):
    own = [list(attributes(part.texts)) for part in pins]
    for place, (part, pairs) in enumerate(zip(pins, own)):
        if first_of(pairs, "pinnumber") is None:
            yield "MissingNumber", str(place)
        if not small_number(first_of(pairs, "pinseq")):
            yield "MissingSeq", str(place)
        if first_of(pairs, "pinlabel") is None:
            yield "MissingLabel", str(place)
        if first_of(pairs, "pintype") not in KINDS[1:]:
            yield "BadPintype", str(place)
        if any(value % 100 for value in part.values[:4]):
            yield "OffGrid", str(place)
    yield from (("DuplicateNumber", it) for it in twice(first_of(it, "pinnumber") for it in own))
    yield from (("DuplicateSeq", it) for it in twice(first_of(it, "pinseq") for it in own))


def is_bad_slotdef(slotdef, count, pins):
    head, colon, rest = slotdef.partition(":")
    number = small_number(head)
    if not colon or not number or (count and number > count):
        return True
    numbers = number_list(rest)
    return numbers is None or len(numbers) != pins


def on_slots(free, pins):
    numslots, slotdefs = first_of(free, "numslots"), values_of(free, "slotdef")
    count, heads = small_number(numslots), [it.partition(":")[0] for it in slotdefs if ":" in it]
    if numslots is not None and count is None:
        yield "BadNumslots", numslots
    for number in range(1, (count or 0) + 1):
        if str(number) not in heads:
            yield "MissingSlotdef", str(number)
    yield from (("DuplicateSlotdef", it) for it in twice(heads))
    for slotdef in slotdefs:
        if is_bad_slotdef(slotdef, count, len(pins)):
            yield "BadSlotdef", slotdef


def printed(text):
    return re.sub("[ \t\r\n]", "_", text)


def findings(parts):
    """The findings of a symbol in order, each a name and words."""
    free = list(attributes(part for part in parts if part.letter == b"T"))
    pins = [part for part in parts if part.letter == b"P" and part.values[5] == 0]
    found = {(NAMES.index(name), printed(words)) for name, words in (
        *on_whole(free, pins), *on_pins(pins), *on_slots(free, pins),
        *(("BadNet", it) for it in values_of(free, "net") if net_entry(it) is None))}
    return [(NAMES[code], words) for code, words in sorted(found)]


def report(files):
    """The report on files, each a name and what is found in it."""
    lines, errors, warnings = [], 0, 0
    for file, found in files:
        lines.append(f"{file}: findings {len(found)}")
        for name, words in found:
            level = "warning" if name in WARNINGS else "error"
            lines.append(f"{level} {name} {words}" if words else f"{level} {name}")
            errors, warnings = errors + (level == "error"), warnings + (level == "warning")
    lines.append(f"errors {errors} warnings {warnings}")
    return errors, "".join(line + "\n" for line in lines)


def answer_of(files, words):
    """The status, what goes out, and the error line."""
    told = []
    for word in words:
        if word not in files:
            return 1, b"", f"gafd: {word}: missing\n".encode()
        try:
            _, parts = read_symbol(files[word])
        except Fault as fault:
            return 1, b"", f"gafd: {word}:{fault.line}: {fault.kind}\n".encode()
        told.append((word, findings(parts)))
    errors, text = report(told)
    return 7 if errors else 0, text.encode(), b""


class Symcheck(Command):
    """Reports are counted by their status, faults by their last word, and each finding."""

    name, answer_of, findings = "symcheck", staticmethod(answer_of), NAMES

    def count(self, answer):
        status, out, err = answer
        self.sorts[err.decode().split()[-1] if err else f"status {status}"] += 1
        lines = (line.split(" ") for line in out.decode().split("\n")[:-2])
        self.names.update(words[1] for words in lines if words[0] in ("error", "warning"))


VALUES = {
    "pinnumber": ["1", "2", "3", "4", "01", "A B", "A_B", "x\ny", " 1", "Ω"],
    "pinseq": ["1", "2", "3", "0", "01", "9999", "10000", "x", "1 "],
    "pinlabel": ["A", "B", "A B"],
    "pintype": [*KINDS, "IN", "power", "unconnected", "pas "],
    "numslots": ["0", "1", "2", "4", "02", "0000", "10000", "x", "2 "],
    "slotdef": ["{}:{}", "0{}:{}", "{}", ":{1}", "{} :{}", "{}:{},", "{}:{}:3", "{}\n:{}"],
    "net": ["Vcc:14", "GND:7", "Vcc", ":7", "GND:7,", "A B: 7 , 8", "Vcc:a b"],
    "graphical": ["1", "0", "01"],
    "device": ["X", "A B"],
    "refdes": ["U?", "U\n?"],
    "description": ["x"],
}


def value_of(rng, name, pins):
    value = rng.choice(VALUES[name][:1] if rng.random() < 0.6 else VALUES[name])
    if name != "slotdef":
        return rng.choice(VALUES[name][:3]) if rng.random() < 0.6 else value
    count = max(0, pins + (0 if rng.random() < 0.7 else rng.choice((-1, 1))))
    return value.format(rng.randint(0, 4), ",".join(str(rng.randint(1, 20)) for _ in range(count)))


def drawn_pin(rng, pins):
    x, y = (rng.choice((0, 100, -300, 200000, 50, -150, 1)) for _ in range(2))
    at = rng.choice((0, 100, 300)), rng.choice((0, 100, -7))
    names = [it for it in ("pinnumber", "pinseq", "pinlabel", "pintype") if rng.random() < 0.9]
    names += [it for it in names if rng.random() < 0.05]
    contents = [f"{it}={value_of(rng, it, pins)}" for it in names]
    return pin(x, y, *contents, at=at, kind=int(rng.random() < 0.1))


def random_symbol(rng):
    pins = rng.choice((0, 1, 2, 2, 3, 5))
    parts = [drawn_pin(rng, pins) for _ in range(pins)]
    names = [it for it in ("device", "refdes", "numslots", "graphical") if rng.random() < 0.6]
    names += ["slotdef"] * rng.randint(0, 4) + ["net"] * rng.randint(0, 2) + ["description"]
    parts += [f"{it}={value_of(rng, it, pins)}" for it in names]
    rng.shuffle(parts)
    data = symbol(*parts).encode()
    return damaged(rng, data) if rng.random() < 0.05 else data


def random_folders(seed, count):
    for number in range(0, count, 10):
        rng = random.Random(f"symbols {seed} {number}")
        files = {f"s{k}.sym": random_symbol(rng) for k in range(min(10, count - number))}
        runs = [*([name] for name in files), list(files), [*files, "no.sym"]]
        yield f"folder {number} of seed {seed}", files, runs


def folder_of(top):
    """All symbols of a folder and below it, under names of their own, in one call."""
    paths = sorted(pathlib.Path(top).rglob("*.sym"))
    files = {f"s{k}.sym": path.read_bytes() for k, path in enumerate(paths)}
    good = [name for name in files if answer_of(files, [name])[0] != 1]
    return str(top), files, [good, *([name] for name in files if name not in good)]


def lines_of(cell):
    return cell.replace(" / ", "\n").replace("\\n", "\n").replace("\\e", "")


def table_file(lines):
    """The bytes of a file of a table: behind an object stand its attributes, each after a |."""
    out = []
    for line in lines:
        drawn, *contents = line.split("|")
        out.append(drawn)
        if contents:
            out += ["{", *(part for it in contents for part in (TEXT, it)), "}"]
    return "".join(line + "\n" for line in out)


def row_answer(kind, cells, files):
    if kind == "symbol reports":
        return answer_of(files, cells)[1].decode()
    lines = []
    for cell in cells:
        if cell != "-":
            lines += [cell] if cell.startswith("P ") else [TEXT, cell]
    data = files["symbol"] + table_file(lines).encode()
    status, text, _ = answer_of({"s": data}, ["s"])
    return ("yes" if status == 7 else "no") if kind == "symbol errors" else text.decode()


def table_rows():
    """The rows of the tables: what they are called, what is told here, and what they want."""
    kind, name, files = "", "", {}
    for number, line in enumerate(TABLE.read_text().split("\n"), 1):
        if line.startswith("== "):
            kind = line.split(": ")[1]
        elif line.startswith("text "):
            name = line.split(" ")[1]
            files[name] = []
        elif line.startswith("| "):
            files[name].append(line[2:])
        elif line.startswith("times "):
            _, count, drawn = line.split(" ", 2)
            files[name] += [drawn.replace("#", str(time)) for time in range(int(count))]
        elif line and not line.startswith("#"):
            left, right = line.split("=>")
            read = {known: table_file(lines).encode() for known, lines in files.items()}
            cells = [cell.strip() for cell in left.split(" | ")]
            yield f"line {number}", row_answer(kind, cells, read), lines_of(right.strip())


def main():
    asked = arguments(__doc__, 3000).parse_args()
    failed = asked.cases and status_of("rows of the tables of symbols", list(table_rows()))
    return failed or compare_asked(asked, Symcheck(), (), random_folders, folder_of)


if __name__ == "__main__":
    sys.exit(main())
