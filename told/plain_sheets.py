#!/usr/bin/env python3
"""Draws random plain sheets and compares what the program prints with the rules of docs/RULES.md.

Usage: plain_sheets.py [SEED [SHEETS]]. It stops at the first sheet that differs, and prints it.
The sheets have all letters, bus pins, and spellings that are not canonical. They are plain: their
symbols are embedded, and nothing has a name, a slot or a sheet below; projects.py has the others,
and compares what it tells of plain ones with what is told here.
"""
import pathlib
import random
import subprocess
import sys
import tempfile

sys.dont_write_bytecode = True

from built import built
from printed import flat, word
from touching import classes, classes_by_ends

UNREAD = ("slot", "net", "source", "graphical")


# The rules on what was drawn.

def list_text(conductors, packages):
    """The list text: conductors in order of keys, each with its ends and its member, if it is a pin
    of a component with a refdes; packages by refdes."""
    unnamed, unconnected = [], []
    for places in (classes if len(conductors) < 100 else classes_by_ends)(conductors):
        pins = sorted(conductors[k][1] + (k,) for k in places if conductors[k][1])
        if pins:
            single = len(places) == 1 and len(conductors[places[0]][0]) == 1
            (unconnected if single else unnamed).append(pins)
    lines = [f"parts {len(packages)}"]
    for refdes, package in sorted(packages.items()):
        values = [flat(package.get(name, "-")) for name in ("device", "value", "footprint")]
        lines.append("\t".join([word(refdes), *values]))
    lines.append(f"nets {len(unnamed) + len(unconnected)}")
    for name, nets in (("unnamed_net", unnamed), ("unconnected_pin-", unconnected)):
        for number, pins in enumerate(sorted(nets), 1):
            pairs = dict.fromkeys((refdes, pin) for refdes, pin, _ in pins)
            members = " ".join(f"{word(refdes)}-{word(pin)}" for refdes, pin in pairs)
            lines.append(f"{name}{number}\t{members}")
    return "".join(f"{line}\n" for line in lines)


# The rules on a sheet that geda_files.py has read: items with letter, values, following lines,
# attached texts and parts.

def values_of(texts, name):
    """The values of the attributes of a name among texts."""
    for text in texts:
        start, _, value = b"\n".join(text.following).decode().partition("=")
        if start == name and value and not value.startswith(" "):
            yield value


def value_of(item, name):
    """An object's attribute: the first attached one, else the first inherited one."""
    free = [part for part in item.parts or [] if part.letter == b"T"]
    return next(values_of(item.texts, name), next(values_of(free, name), None))


def is_plain(item):
    if item.letter == b"N":
        return next(values_of(item.texts, "netname"), None) is None
    if item.letter != b"C":
        return True
    return item.parts is not None and all(value_of(item, name) is None for name in UNREAD)


def number_of(pin):
    number = next(values_of(pin.texts, "pinnumber"), "?")
    is_word = len(number.encode()) <= 200 and not any(ord(c) <= 32 or ord(c) == 127 for c in number)
    return number if is_word else "?"


def text_of_sheet(items):
    """The list text of a sheet as bytes, or None where it is not plain."""
    if not all(is_plain(item) for item in items):
        return None
    conductors, packages = [], {}
    for item in items:
        if item.letter == b"N":
            x1, y1, x2, y2, _ = item.values
            conductors.append((((x1, y1), (x2, y2)), None))
        if item.letter != b"C":
            continue
        refdes = value_of(item, "refdes")
        refdes = None if refdes is None or "\n" in refdes else refdes
        for part in item.parts:
            if part.letter == b"P" and part.values[5] == 0:
                end = part.values[2:4] if part.values[6] == 1 else part.values[:2]
                conductors.append(((tuple(end),), refdes and (refdes, number_of(part))))
        if refdes:
            package = packages.setdefault(refdes, {})
            for name in ("device", "value", "footprint"):
                value = value_of(item, name)
                if value is not None:
                    package.setdefault(name, value)
    return list_text(conductors, packages).encode()


# Random sheets.

class Drawing:
    """A random sheet: its text, its conductors with their members, and its packages. They are known
    as they are drawn, and not read again."""

    def __init__(self, rng):
        self.rng = rng
        self.strays = rng.choice([0, 0, 0.3])
        self.text = "v 20130925 2\n"
        self.conductors = []
        self.packages = {}
        draw = [self.wire, self.wire, self.component, self.component, self.words, self.other]
        for _ in range(rng.choice([0, 4, 8, 12, 14, 80])):
            rng.choice(draw)()

    def stray(self, *choices):
        """One of these, or now and then another spelling of the first, which is canonical."""
        return self.rng.choice(choices) if self.rng.random() < self.strays else choices[0]

    def field(self, field):
        digits = field.removeprefix("-")
        if not digits.isdigit() or len(digits) > 6:
            return field
        sign = "-" if digits == "0" else field[: len(field) - len(digits)]
        return self.stray(field, f"{sign}0{digits}", f"{sign}000{digits}")

    def line(self, fields, following=()):
        """The line of an object or a bracket, in one of its spellings, and its following lines."""
        spelled = [self.field(field) for field in fields.split()]
        line = self.stray("", " ", "\t") + spelled[0]
        for field in spelled[1:]:
            line += self.stray(" ", "  ", "\t", " \t") + field
        self.text += self.stray("", " \r\n", "\n") + line + self.stray("\n", "\r\n", " \n")
        for content in following:
            self.text += content + self.stray("\n", "\r\n")

    def content(self, content):
        """A text of the sheet, a symbol or a block."""
        lines = content.split("\n")
        self.line(f"T 0 0 5 10 1 1 0 0 {len(lines)}", lines)

    def block(self, contents):
        """A block of attached texts."""
        if contents or self.rng.random() < self.strays:
            self.line("{")
            for content in contents:
                self.content(content)
            self.line("}")

    def point(self):
        return (self.rng.randint(-2, 2) * 100, self.rng.randint(-2, 2) * 100)

    def wire(self):
        a, b = self.point(), self.point()
        b = self.rng.choice([b, (b[0], a[1]), (a[0], b[1])])
        self.line(f"N {a[0]} {a[1]} {b[0]} {b[1]} 4")
        self.block(self.rng.choice([[], [], [], ["netname"], ["net=X"], ["netname= X", "slot=1"]]))
        self.conductors.append(((a, b), None))

    def words(self):
        self.content("hello\nrefdes=Q")

    def other(self):
        """An object that joins nothing, wherever it lies."""
        a, b = self.point(), self.point()
        ends = f"{a[0]} {a[1]} {b[0]} {b[1]}"
        stroke, fill = "0 1 0 -1 -1", "0 -1 -1 -1 -1 -1"
        shapes = [
            (f"U {ends} 10 0", []),
            (f"P {ends} 1 0 0", []),
            (f"P {ends} 1 1 1", []),
            (f"L {ends} 3 {stroke}", []),
            (f"B {ends} 3 {stroke} {fill}", []),
            (f"V {a[0]} {a[1]} 50 3 {stroke} {fill}", []),
            (f"A {a[0]} {a[1]} 50 0 90 3 {stroke}", []),
            (f"H 3 {stroke} {fill} 2", ["M 0,0", "z"]),
            (f"G {a[0]} {a[1]} 100 100 0 0 0", ["N 0 0 100 0 4"]),
            (f"G {a[0]} {a[1]} 100 100 0 0 1", ["logo.png", "N 0 0 100 0 4", "."]),
        ]
        self.line(*self.rng.choice(shapes))
        self.block(self.rng.choice([[], [], ["netname=X"], ["slot=1", "net=Y:1"]]))

    def component(self):
        rng = self.rng
        free = {"device": rng.choice([None, "X", "Y Z"]), "refdes": rng.choice([None] * 4 + ["Z9"])}
        own = {
            "refdes": rng.choice([None, "R1", "R2", "R10", "R 3", "U1", "r\n1"]),
            "value": rng.choice([None, "10k", "a\tb"]),
        }
        name, angle, mirror = rng.choice(["", "a.sym"]), rng.choice([0, 90]), rng.randint(0, 1)
        self.line(f"C 0 0 1 {angle} {mirror} EMBEDDED{name}")
        self.line("[")
        pins = self.pins()
        for name, value in free.items():
            if value:
                self.content(f"{name}={value}")
        self.line("]")
        self.block([f"{name}={value}" for name, value in own.items() if value])
        refdes = own["refdes"] or free["refdes"]
        refdes = None if refdes and "\n" in refdes else refdes
        for active, number in pins:
            self.conductors.append(((active,), (refdes, number) if refdes else None))
        if refdes:
            package = self.packages.setdefault(refdes, {})
            for name, value in (("device", free["device"]), ("value", own["value"])):
                if value:
                    package.setdefault(name, value)

    def pins(self):
        pins = []
        for _ in range(self.rng.randint(0, 3)):
            a, b, whichend = self.point(), self.point(), self.rng.randint(0, 1)
            number = self.rng.choice([None, "1", "2", "10", "a b", "A"])
            kind = self.rng.choice([0, 0, 0, 1])
            if self.rng.random() < 0.2:
                self.line(f"N {a[0]} {a[1]} {b[0]} {b[1]} 4")
            self.line(f"P {a[0]} {a[1]} {b[0]} {b[1]} 1 {kind} {whichend}")
            self.block([f"pinnumber={number}"] if number else [])
            if kind == 0:
                pins.append(((a, b)[whichend], number if number and " " not in number else "?"))
        return pins


def main():
    seed, sheets = (int(w) for w in (sys.argv[1:] + ["1", "1000"][len(sys.argv) - 1 :]))
    rng, program = random.Random(seed), built()
    with tempfile.TemporaryDirectory() as folder:
        for _ in range(sheets):
            drawing = Drawing(rng)
            wanted = list_text(drawing.conductors, drawing.packages)
            pathlib.Path(folder, "random.sch").write_bytes(drawing.text.encode())
            words = [program, "netlist", "random.sch"]
            run = subprocess.run(words, cwd=folder, capture_output=True)
            if run.returncode != 0 or run.stdout != wanted.encode():
                printed = (run.stdout + run.stderr).decode(errors="replace")
                sys.exit(f"{drawing.text}\nprinted:\n{printed}\nwanted:\n{wanted}")
    print(f"{sheets} sheets are the same")


if __name__ == "__main__":
    main()
