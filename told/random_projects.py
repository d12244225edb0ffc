"""Random folders of sheets and symbols, in which much collides.

A folder is a dictionary from names of files to bytes. Its sheets stand in four levels, most of them
over sheets of lower ones; labels of pins, refdes, and names are drawn from the same few words.
"""
import random

import plain_sheets
from random_files import VERSION, damaged

REFDES = ["R1", "R1", "R2", "R10", "U1", "U1", "U?", "R 3", "r\n1", "R/1", "é", "?", "R1\t"]
REFDES += ["IN", "IN", "OUT", "U1/R1", "U1/U1", "U1/U1/R1"]
LABELS = ["IN", "IN", "IN", "OUT", "OUT", "R1", "U1", "R 3", "U1/R1", "r\n1", "é"]
NETNAMES = ["X", "Y", "GND", "Vcc", "a/b", "a/a", "/", "a/b/c", "N L", "N!L", "X\nY", "é"]
NETNAMES += ["U1/X", "R1/X", "U1/U1/X"]
NETNAMES += ["unnamed_net1", "unnamed_net1", "unnamed_net2", "unnamed_net3", "unnamed_net01"]
NETNAMES += ["unconnected_pin-1", "unconnected_pin-2", "unconnected_pin-2", "unconnected_pin-4"]
NETNAMES += ["x" * 210]
NETS = ["GND:1", "GND:2,3", "Vcc:14", "Vcc: 14 ,1", "Vcc:14,7", "GND:7", "X:7", "Y:1,2,3", "X:?"]
NETS += ["a/b:1", "a:b:1", "unnamed_net1:1", "unnamed_net2:9", "unconnected_pin-1:2", "N L:1"]
NETS += ["unconnected_pin-3:9", "X\n:1", "X\nY:2", "é:2", "X:1,1", "x:" + "x" * 200]
BAD_NETS = ["bad", "bad:", ":1", "X:1,", "X:,1", "X:1,,2", "X:1\t", "X:1 2", "X: ", " X:1", "", ":"]
BAD_NETS += ["X:" + "x" * 201, "X:1\n2"]
NUMBERS = [None, "1", "1", "2", "2", "3", "7", "14", "10", "A", "?", "a b", "1\n2", "é", "b:1"]
NUMBERS += ["x" * 200, "x" * 201]
SEQS = [None, "1", "1", "1", "2", "2", "3", "3", "4", "0", "01", "0002", "00001", "x", "-1", "1 "]
SLOTS = ["1", "2", "2", "3", "3", "4", "01", "0002", "0", "5", "9", "x", "12345", "1 ", "1\n"]
SLOTDEFS = ["1:21,22,23", "2:24,25,26", "3:29, 7 ,28", "4:14,33"]
BAD_SLOTDEFS = ["0:41,42", "3:,4", "01:9,8", "2:a b,c", "4", "2", "5:", "x:1", "2:4,5", "12345:43"]
BAD_SLOTDEFS += ["1 :9", "9:1,?,?", "2:1\n,2", "5:6:7", "3", "1:", "3:44", "4:" + "x" * 201, ":1"]
NUMSLOTS = ["2", "2", "4", "0", "0", "x", "1", "0003", "00003"]
GRAPHICAL = ["1", "1", "1", "0", "01", "1 ", "1\n"]
DIRECTIVE = ["device=DRC_Directive", "value=NoConnection"]
NEAR_DIRECTIVES = [DIRECTIVE[:1], DIRECTIVE[1:], ["device=DRC_Directive", "value=NoConnection "]]
NEAR_DIRECTIVES += [["device=drc_directive", DIRECTIVE[1]], ["value=DontCheckIfDriven", *DIRECTIVE]]
VALUES = ["10k", "a\tb", "a\nb", "Y Z", "é", "-"]
PLAIN = ["refdes=", "=R7", "refdes =R7", "refdes= R7", "refdes", "Refdes=R7", "hello", "net= X:1"]
NO_SHEETS = ["none.sch", "s3.sch,s4.sch", "S3.sch", "s3.sch ", "sub/s3.sch", "x.sym", "a.sym"]
NO_SHEETS += [".hid.sym", "é.sym", "E_"] * 3 + ["bad.sym"]
NAMES = ["a.sym", "b.sym", "c-1.sym", "-d+2.sym", "E_", "x" * 100]
RARE_NAMES = ["bad.sym", "s0.sch", "box.sym"]
NO_NAMES = [".hid.sym", "é.sym", "y" * 101, "none.sym", "A.sym", "sub/a.sym", "..", "EMBEDDE"]


class File(plain_sheets.Drawing):
    """A file that is drawn: how often it has which attributes is drawn once."""

    def __init__(self, rng, labels=LABELS, below=()):
        self.rng, self.labels, self.below = rng, labels, below
        self.refdes = REFDES + labels * rng.choice([2, 8, 20])
        self.strays = rng.choice([0, 0, 0, 0.2])
        self.text = VERSION.decode()
        self.often = {
            name: rng.choice(chances)
            for name, chances in {
                "refdes": [0.5, 0.9],
                "net": [0, 0.1, 0.5, 0.8],
                "bad": [0, 0, 0.2],
                "slot": [0, 0.2, 0.9],
                "numslots": [0.1, 0.5],
                "graphical": [0, 0, 0.1],
                "directive": [0, 0, 0.05, 0.2],
                "netname": [0, 0.1, 0.4],
                "plain": [0, 0.1],
                "label": [0, 0.6, 0.9, 1],
                "source": [0, 0, 0.1, 0.3],
            }.items()
        }
        self.nets = rng.sample(NETS, rng.choice([1, 3, len(NETS)]))
        self.netnames = rng.sample(NETNAMES, rng.choice([1, 3, len(NETNAMES)]))
        self.spread = rng.choice([1, 1, 2, 2, 4])

    def some(self, name, choices, most=1):
        """A few attributes of a name, or none."""
        if self.rng.random() >= self.often.get(name, 0.2):
            return []
        return [f"{name}={self.rng.choice(choices)}" for _ in range(self.rng.randint(1, most))]

    def attributes(self):
        """What components have attached, and symbols have free."""
        found = self.some("refdes", self.refdes, 2) + self.some("net", self.nets, 3)
        if self.rng.random() < self.often["bad"]:
            found.append(f"net={self.rng.choice(BAD_NETS)}")
        if self.rng.random() < self.often["slot"]:
            found.append(f"slot={self.rng.choice(SLOTS)}")
        found += self.some("graphical", GRAPHICAL, 2)
        for name in ("device", "value", "footprint"):
            found += self.some(name, VALUES)
        if self.rng.random() < self.often["directive"]:
            found += self.directive()
        if self.rng.random() < self.often["plain"]:
            found.append(self.rng.choice(PLAIN))
        found += self.some("source", [*self.below * 3, self.rng.choice(NO_SHEETS)], 2)
        self.rng.shuffle(found)
        return found

    def directive(self):
        """What makes a directive, or nearly does."""
        more = self.rng.choice([[], ["graphical=1"], ["graphical=1"], ["refdes=IN"], ["net=X:1"]])
        return self.rng.choice([DIRECTIVE] * 6 + NEAR_DIRECTIVES) + more

    def slots(self):
        """What says which slots there are: more often free than attached."""
        some = self.rng.choice([SLOTDEFS, SLOTDEFS, self.rng.sample(SLOTDEFS, 1)])
        found = self.some("numslots", NUMSLOTS) + [f"slotdef={it}" for it in some]
        for _ in range(self.rng.choice([0, 1, 1, 2])):
            bad = f"slotdef={self.rng.choice(BAD_SLOTDEFS)}"
            found.insert(self.rng.randint(0, len(found)), bad)
        return found

    def point(self):
        near = range(-self.spread, self.spread + 1)
        return self.rng.choice(near) * 100, self.rng.choice(near) * 100

    def ends(self):
        """Two points: most of them in a row, some across, some equal."""
        a, b = self.point(), self.point()
        return a, self.rng.choice([b, (b[0], a[1]), (a[0], b[1]), (a[0], b[1]), a])

    def pin(self):
        (x1, y1), (x2, y2) = self.ends()
        kind, whichend = self.rng.choice([0] * 7 + [1]), self.rng.randint(0, 1)
        self.line(f"P {x1} {y1} {x2} {y2} 1 {kind} {whichend}")
        number, seq = self.rng.choice(NUMBERS), self.rng.choice(SEQS)
        found = [] if number is None else [f"pinnumber={number}"]
        found += [] if seq is None else [f"pinseq={seq}"]
        found += self.rng.choice([[], [], ["pinnumber=5"], ["net=X:1", "slot=2"], ["refdes=P"]])
        if self.rng.random() < self.often["label"]:
            found.append(f"pinlabel={self.rng.choice(self.labels)}")
            found += self.rng.choice([[], [], [], [f"pinlabel={self.rng.choice(LABELS)}"]])
        self.block(found + self.kind())

    def kind(self):
        """What says of which kind a pin is: the net list does not ask."""
        return []

    def other(self):
        """What joins nothing in a symbol and on a sheet, with attached texts that say nothing."""
        (x1, y1), (x2, y2) = self.ends()
        self.line(*self.rng.choice([
            (f"U {x1} {y1} {x2} {y2} 10 0", []),
            (f"L {x1} {y1} {x2} {y2} 3 0 1 0 -1 -1", []),
            (f"G {x1} {y1} 100 100 0 0 1", ["logo.png", "N 0 0 100 0 4", "."]),
            (f"T {x1} {y1} 5 10 1 1 0 0 2", ["hello", "refdes=Q"]),
        ]))
        self.block(self.rng.choice([[], ["refdes=Q"], ["net=X:1", "graphical=1"], ["netname=X"]]))

    def wire(self):
        (x1, y1), (x2, y2) = self.ends()
        self.line(f"N {x1} {y1} {x2} {y2} 4")
        more = self.rng.choice([[], [], [], ["net=X:1"], ["refdes=N1"], ["netname="]])
        self.block(self.some("netname", self.netnames, 2) + more)

    def symbol(self):
        """The parts of a symbol."""
        free = self.attributes() + (self.slots() if self.rng.random() < 0.5 else [])
        draw = [self.pin] * self.rng.choice([0, 1, 1, 2, 3, 4]) + [self.content] * len(free)
        draw += [self.rng.choice([self.other, self.wire])] * self.rng.choice([0, 0, 1])
        self.rng.shuffle(draw)
        for it in draw:
            it(*([free.pop(0)] if it == self.content else []))

    def component(self, attached=None):
        rng = self.rng
        names = rng.choice([NAMES] * 150 + [NO_NAMES] * 15 + [RARE_NAMES])
        (x, y), angle, mirror = self.point(), rng.choice([0, 90, 180, 270]), rng.choice([0, 0, 1])
        is_embedded = rng.random() < 0.3
        basename = ("EMBEDDED" if is_embedded else "") + rng.choice(names)
        self.line(f"C {x} {y} 1 {angle} {mirror} {basename}")
        if is_embedded:
            self.line("[")
            self.symbol()
            self.line("]")
        attached = self.attributes() if attached is None else attached
        self.block(attached + (self.slots() if rng.random() < 0.1 else []))

    def composite(self):
        """A component over a sheet; paths of several lengths often are equal."""
        refdes = self.rng.choice(["U1", "U1", "U1", "U1/U1", "U1/U1", "U2", "R1", *self.labels])
        self.component([f"refdes={refdes}", f"source={self.rng.choice(self.below)}"])

    def sheet(self):
        draw = [self.wire] * 4 + [self.component] * 4 + [self.other, self.pin]
        draw += [self.composite] * self.rng.choice([0, 1, 1, 3]) if self.below else []
        for _ in range(self.rng.choice([0, 1, 2, 4, 8, 8, 12, 12, 20, 60])):
            self.rng.choice(draw)()


def drawn(rng, make, what, *more):
    file = make(rng, *more)
    getattr(file, what)()
    return file.text.encode()


LEVELS = [["s0.sch", "s1.sch", "s2.sch"], ["s3.sch", "s4.sch"], ["s5.sch", "s6.sch"], ["s7.sch"]]
SHEETS = sum(LEVELS, [])


def sheets_below(rng, level):
    """The sheets that the sheets of a level may name: some of the next one, one of a lower one."""
    lower = LEVELS[level + 1 :]
    return rng.sample(lower[0], rng.randint(1, len(lower[0]))) + rng.choice(lower) if lower else []


def drawn_words(rng):
    """The words of a run: mostly one sheet or a few, most of them of the highest level."""
    if rng.random() < 0.02:
        return rng.choice([[], ["s0.sch", "none.sch"], ["s0.sch", "s1.sch", "s0.sch"], ["-s0.sch"]])
    first = rng.sample(LEVELS[0], rng.choice([1, 1, 1, 1, 2, 3]))
    other = rng.sample(SHEETS, rng.choice([0, 0, 0, 0, 0, 1, 1, 2, 5]))
    words = list(dict.fromkeys(first + other))
    rng.shuffle(words)
    return words


def random_folder(seed, number, runs=10, make=File):
    """A folder, and the words of its runs; `make` makes the files that are drawn."""
    rng = random.Random(f"{seed} {number}")
    have_loops, files = rng.random() < 0.15, {}
    labels = rng.sample(LABELS, rng.choice([1, 2, 2, 4]))
    for level, names in enumerate(LEVELS):
        for name in names:
            below = SHEETS if have_loops else sheets_below(rng, level)
            files[name] = drawn(rng, make, "sheet", labels, below)
    if rng.random() < 0.05:
        name = rng.choice(SHEETS)
        files[name] = damaged(rng, damaged(rng, files[name]))
    for name in NAMES + [".hid.sym", "é.sym", "y" * 101, "sub/a.sym"]:
        if rng.random() < 0.9:
            below = SHEETS if have_loops else rng.sample(SHEETS[3:], 2)
            files[name] = drawn(rng, make, "symbol", labels, below)
    files["bad.sym"] = damaged(rng, damaged(rng, drawn(rng, make, "symbol")))
    files["EMBEDDEDa.sym"] = files["bad.sym"]
    for name, graphical in (("box.sym", 0), ("E_", 1)):
        if rng.random() < 0.2:
            source = make(rng)
            source.content(f"source={rng.choice(SHEETS)}")
            source.content(f"graphical={graphical}")
            files[name] = source.text.encode()
    return files, [drawn_words(rng) for _ in range(runs)]


def with_option(rng, words, option, value):
    """The words with an option somewhere among them, which stands there as one word or as two."""
    spelled = rng.choice([[f"--{option}", value], [f"--{option}={value}"]])
    at = rng.choice([0, 0, rng.randint(0, len(words))])
    return words[:at] + spelled + words[at:]


def with_form(rng, words):
    """The words, in one of four cases with a form."""
    if rng.random() < 0.75:
        return words
    form = rng.choice(["list", "tango", "tango", "pcb", "bom", "bom", "x"])
    return with_option(rng, words, "form", form)
