"""Random folders for the check, and matrices of one's own: `random_check`.

The folders are those of random_projects.py with kinds of pins and with texts that print alike; in
some of them most is in order, so that few findings come up at once.
"""
import random

from component_rules import KINDS
from matrix_cases import ROWS, document
from random_projects import DIRECTIVE, SHEETS, File, random_folder, with_option

ALIKE = ["R_3", "R\t3", "R1_", "R1\x01", "r_1", "U?\t", "U1/R_3"]
NAMES_ALIKE = ["N_L", "N\tL", "X_Y", "X Y", "unnamed net1", "unconnected_pin 1", "U1/X\t", "U1/X_"]
PINTYPES = [*KINDS, "PAS", "unconnected", "in\n"]
SOME_KINDS = [["in", "in", "clk"], ["pas"], ["out", "oc", "oe", "io", "tri"], ["pas", "pas", "in"]]
LETTERS = ["c", "w", "e", "cw", "cwe", "cwe", "we", "ccccccw", "cccccce"]
MATRICES = ["m.toml", "m1.toml", "m2.toml"]
NO_MATRICES = ["bad.toml", "bad.toml", "bad.toml", "none.toml", "s0.sch", "../m.toml", ""]


class CheckFile(File):
    """A file in which pins have kinds, and more texts print alike."""

    def __init__(self, rng, *more):
        super().__init__(rng, *more)
        self.kinds = rng.choice([PINTYPES, *SOME_KINDS])
        self.refdes = self.refdes + ALIKE * rng.choice([0, 1, 4])
        self.netnames = self.netnames + rng.sample(NAMES_ALIKE, rng.choice([0, 1, 8]))

    def kind(self):
        kind = f"pintype={self.rng.choice(self.kinds)}"
        return self.rng.choice([[kind]] * 12 + [[kind, "pintype=out"], []])


class CalmFile(CheckFile):
    """One in which most is in order: refdes differ, pins have numbers, and symbols are there."""

    def __init__(self, rng, *more):
        super().__init__(rng, *more)
        self.numbers = iter(range(rng.randrange(100_000), 10**9))
        self.oddness = rng.choice([0, 0.02, 0.1])
        self.marks = rng.choice([0, 0.1, 0.4])

    def is_odd(self):
        return self.rng.random() < self.oddness

    def attributes(self):
        return super().attributes() if self.is_odd() else []

    def mark(self):
        """A directive of one pin."""
        x, y = self.point()
        free = DIRECTIVE + self.rng.choice([[], ["graphical=1"]])
        self.line("C 0 0 1 0 0 EMBEDDEDnc.sym")
        self.line("[")
        self.line(f"P {x} {y} {x + 50} {y + 30} 1 0 0")
        for content in free:
            self.content(content)
        self.line("]")

    def component(self, attached=None):
        if self.is_odd():
            return super().component(attached)
        if attached is None and self.rng.random() < self.marks:
            return self.mark()
        (x, y), angle = self.point(), self.rng.choice([0, 90, 180, 270])
        self.line(f"C {x} {y} 1 {angle} 0 EMBEDDEDcalm.sym")
        self.line("[")
        for _ in range(self.rng.choice([1, 2, 3])):
            self.pin()
        self.line("]")
        refdes = self.rng.choice([f"R{next(self.numbers)}"] * 9 + [self.rng.choice(self.labels)])
        self.block([f"refdes={refdes}"] if attached is None else attached)

    def pin(self):
        (x, y), number = self.point(), next(self.numbers)
        self.line(f"P {x} {y} {x + 50} {y + 30} 1 0 0")
        label = self.rng.choice([[], [], [f"pinlabel={self.rng.choice(self.labels)}"]])
        self.block([f"pinnumber={number}", *self.kind(), *label])


def letters(rng):
    """Rows of a matrix: the usual ones, perhaps with some letters changed, or all drawn."""
    some, often = rng.choice(LETTERS), rng.choice([0, 0.1, 0.5, 1])
    return ["".join(rng.choice(some) if rng.random() < often else letter for letter in row)
            for row in ROWS]


def in_order(rng):
    """A matrix in one of its spellings."""
    comma = rng.choice([", ", ",", ",\n  ", " , # c\n", ",\r\n"])
    key = rng.choice(["rows", "rows", '"rows"', "'rows'"])
    text = document(letters(rng), key, rng.choice(['"', "'", '"""', "'''"]), comma)
    text = rng.choice(["", "", "# kinds\n", " \t\n\n"]) + text
    return text + rng.choice(["", "", "# end", "\n\n# rows = 1\n"])


def out_of_order(rng):
    """A document with other rows, or with something beside them."""
    rows, at, how = letters(rng), rng.randrange(12), rng.randrange(9)
    if how == 0:
        del rows[at]
    elif how == 1:
        rows.insert(at, rows[at])
    elif how == 2:
        rows[at] += rng.choice(["c", "x", " ", "é"])
    elif how == 3:
        rows[at] = rows[at][1:]
    elif how == 4:
        rows[at] = rows[at][:-1] + rng.choice("xCWE é.")
    elif how == 5:
        return document(rows, rng.choice(["row", "Rows", "rows.a", '"rows "']))
    elif how == 6:
        return document(rows) + rng.choice(["a = 1\n", "[a]\n", "x = 'y'\n", "[[b]]\n"])
    elif how == 7:
        return "[a]\n" + document(rows)
    else:
        at = rng.choice(rows)
        return document(rows).replace(f'"{at}"', rng.choice(["1", "true", f'["{at}"]', "{}"]))
    return document(rows)


def damaged_document(rng):
    """A matrix as bytes with a few of them wrong, or cut off: many are documents no more."""
    data = bytearray(in_order(rng).encode())
    for _ in range(rng.choice([1, 1, 2])):
        some = rng.choice([b'"', b"'", b",", b"[", b"]", b"=", b"#", b"\n", b"\r", b"x", b"c",
                           b" ", b".", b"\xff", b"\xc3", b"\x00", b"\x7f"])
        at = rng.randrange(len(data))
        data[at : at + rng.choice([0, 1])] = some
    return bytes(data if rng.random() < 0.8 else data[: rng.randrange(len(data))])


def with_matrix(rng, words):
    """The words, in two of three cases with a matrix."""
    if rng.random() < 0.33:
        return words
    name = rng.choice(MATRICES if rng.random() < 0.9 else NO_MATRICES)
    words = with_option(rng, words, "matrix", name)
    if rng.random() < 0.02:
        odd = rng.choice([[f"--matrix={name}"], ["--matrix"], ["--form=list"], ["-"], ["--help"],
                          ["m.toml"]])
        words = rng.choice([words + odd, odd + words])
    return words


def random_check(seed, number, runs=10):
    """A folder with matrices, and the words of its runs."""
    rng = random.Random(f"check {seed} {number}")
    make = rng.choice([CheckFile, CheckFile, CalmFile])
    files, words = random_folder(f"check {seed}", number, runs, make)
    if rng.random() < 0.05:
        del files[rng.choice(SHEETS)]
    files.update({name: in_order(rng).encode() for name in MATRICES})
    files["bad.toml"] = rng.choice([out_of_order(rng).encode(), damaged_document(rng)])
    return files, [with_matrix(rng, some) for some in words]
