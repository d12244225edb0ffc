"""Random files, most of them damaged, and files at the limits."""
import random

from geda_files import FIELDS, MOST_BYTES, MOST_OBJECTS, RANGES

TEXTS = [b"", b"one", b"}", b"{", b"[", b"]", b".", b" x ", b"\t", b"a\rb", b"\x01"]
TEXTS += [b"v 20130925 2", b"T 0 0 9 10 1 0 0 0 1", "é √ 資".encode()]
TEXTS += [b"a=b=c", b"=b", b"a= b", b"a =b", b"a="]
ATTRIBUTES = ["refdes=R1", "refdes=R2", "refdes=R?", "value=10k", "device=X", "footprint=F 1"]
ATTRIBUTES += ["pinnumber=1", "pinnumber=2", "pinnumber=a b", "pintype=pas", "pinseq=1"]
RARE_ATTRIBUTES = ["slot=1", "net=Vcc:1", "source=low.sch", "graphical=1", "netname=X"]
BASENAMES = [b"a.sym", b"EMBEDDED", b"EMBEDDEDa.sym", b"EMBEDDEDa.sym", "EMBEDDEDé.sym".encode()]
BASENAMES += [b"embeddeda.sym", b"EMBEDDE", b"x" * 200, b"EMBEDDED" + b"y" * 192]
BAD_BASENAMES = [b"x" * 201, b"a\x01b", b"a\x7fb", b"EMBEDDED\x1f", b"EMBEDDED" + b"y" * 193]


class Drawing:
    """A random file: how often it strays from the canonical spelling is drawn once."""

    def __init__(self, rng):
        self.rng = rng
        self.strays = rng.choice([0, 0, 0.02, 0.2, 0.6])
        self.errs = rng.choice([0, 0, 0.01, 0.05])
        self.ends = rng.choice([[b""], [b""], [b"\r"], [b"", b"\r", b"\r\r"]])
        self.attributes = ATTRIBUTES + (RARE_ATTRIBUTES if rng.random() < 0.3 else [])
        self.spread = rng.choice([3, 3, 2000])
        self.pieces = []
        self.line([b"v", self.date(), self.form()])
        has_components = rng.random() < 0.6
        for _ in range(rng.choice([0, 1, 2, 4, 8, 20])):
            self.object(has_components)
        if self.strays_now():
            self.blank_lines()
        if self.strays_now():
            self.pieces[-1] = self.pieces[-1][:-1]

    def date(self):
        wrong, good = [b"2013092", b"201309250", b"2013092x"], [20130925, 20110115, 0, 7, 99999999]
        return self.rng.choice(wrong) if self.errs_now() else b"%08d" % self.rng.choice(good)

    def form(self):
        return self.rng.choice([b"0", b"3", b"01", b"2x"] if self.errs_now() else [b"1", b"2"])

    def bytes(self):
        return b"".join(self.pieces)

    def strays_now(self):
        return self.rng.random() < self.strays

    def errs_now(self):
        return self.rng.random() < self.errs

    def raw(self, line):
        self.pieces.append(line + self.rng.choice(self.ends) + b"\n")

    def gap(self, least):
        blanks = [b" ", b"\t", b"  ", b" \t ", b"   "] + ([b""] if least == 0 else [])
        return self.rng.choice(blanks) if self.strays_now() else b" " * least

    def line(self, fields):
        line = self.gap(0) + fields[0]
        for field in fields[1:]:
            line += self.gap(1) + field
        self.raw(line + self.gap(0))

    def blank_lines(self):
        while self.strays_now():
            self.pieces.append(self.rng.choice([b"\n", b"  \n", b"\t\n", b"\r\n", b" \r\r\n"]))

    def number(self, least, greatest):
        rng = self.rng
        if self.errs_now():
            wrong = [b"%d" % (least - 1), b"%d" % (greatest + 1), b"x", b"-", b"--1", b"+1", b"1.5"]
            wrong += [b"0x1", b"1,", b"", "１".encode(), b"1" * 10, b"-000000000"]
            return rng.choice(wrong)
        edge = [least, greatest, min(max(0, least), greatest)]
        near = [rng.randint(-self.spread, self.spread) * 100 for _ in range(4)]
        value = rng.choice(edge + near * 3 + [rng.randint(least, greatest)])
        value = min(max(value, least), greatest)
        if not self.strays_now():
            return b"%d" % value
        digits = b"%d" % abs(value)
        zeros = b"0" * rng.randint(0, 9 - len(digits))
        sign = b"-" if value < 0 or (value == 0 and rng.random() < 0.5) else b""
        return sign + zeros + digits

    def field(self, kind):
        if kind == "w":
            return self.rng.choice(BAD_BASENAMES if self.errs_now() else BASENAMES)
        if kind == "a":
            angle = self.rng.choice([45, 360, -90] if self.errs_now() else [0, 0, 90, 180, 270])
            return b"%03d" % angle if self.strays_now() else b"%d" % angle
        if kind == "k":
            return b"%d" % self.rng.choice([0, 10_001] if self.errs_now() else [1, 1, 1, 2, 3])
        return self.number(*RANGES[kind])

    def item(self, letter):
        self.blank_lines()
        fields = [self.field(kind) for kind in FIELDS[letter]]
        if self.errs_now():
            fields = self.rng.choice([fields[:-1], fields + [b"0"], []])
        self.line([letter, *fields])
        return fields

    def lines_of(self, count, choices):
        for _ in range(count):
            self.raw(self.rng.choice(choices))

    def shape(self, letter):
        fields = self.item(letter)
        if letter in (b"T", b"H"):
            self.lines_of(min(int(fields[-1]), 20) if fields and fields[-1].isdigit() else 1, TEXTS)
        elif letter == b"G":
            self.raw(self.rng.choice([b"logo.png", b"", b".", b"my logo.png", b"a\rb"]))
            if fields and fields[-1] in (b"1", b"01"):
                data = [text for text in TEXTS if text != b"."]
                self.lines_of(self.rng.randint(0, 3), data + [b"iVBORw0KGgo=", b"..", b". "])
                self.raw(b".")
        return fields

    def text(self, contents):
        """A text of one line with this content, canonical but for the blanks."""
        self.blank_lines()
        self.line([b"T", b"0", b"0", b"5", b"10", b"1", b"1", b"0", b"0", b"1"])
        self.raw(contents)

    def bracket(self, letter):
        self.blank_lines()
        self.line([letter, b"x"] if self.errs_now() else [letter])

    def block(self):
        if self.rng.random() < 0.5:
            return
        self.bracket(b"{")
        for _ in range(self.rng.choice([0, 1, 1, 2, 3])):
            if self.rng.random() < 0.3:
                self.shape(b"T")
            else:
                self.text(self.rng.choice(self.attributes).encode())
        self.bracket(b"}")

    def part(self):
        letter = self.rng.choice([b"P", b"P", b"P", b"T", *(k for k in FIELDS if k != b"C")])
        if letter == b"T" and self.rng.random() < 0.5:
            self.text(self.rng.choice(self.attributes).encode())
        else:
            self.shape(letter)
        self.block()

    def object(self, has_components):
        letters = [b"N", b"N", *(letter for letter in FIELDS if letter != b"C")]
        letter = self.rng.choice(letters + [b"C"] * (8 if has_components else 0))
        fields = self.shape(letter)
        if letter == b"C" and fields and fields[-1].startswith(b"EMBEDDED"):
            self.bracket(b"[")
            for _ in range(self.rng.choice([0, 1, 2, 3])):
                self.part()
            if self.errs_now():
                self.item(b"C")
            self.bracket(b"]")
        self.block()


def just_past(rng, fields):
    """The fields of an object with one of them just outside its class."""
    place = rng.randrange(1, len(fields))
    kind = FIELDS[fields[0]][place - 1]
    if kind == "w":
        wrong = BAD_BASENAMES
    elif kind == "a":
        wrong = [b"45", b"360", b"-90", b"1"]
    else:
        wrong = [b"%d" % (RANGES[kind][0] - 1), b"%d" % (RANGES[kind][1] + 1)]
    return fields[:place] + [rng.choice(wrong)] + fields[place + 1 :]


def damaged(rng, data):
    """A file with one or a few things wrong: most of them where the file still goes on behind."""
    lines = data.split(b"\n")
    at = rng.randrange(len(lines))
    how = rng.randrange(15)
    if how == 0:
        del lines[at]
    elif how == 1:
        lines.insert(at, lines[at])
    elif how == 2:
        other = rng.randrange(len(lines))
        lines[at], lines[other] = lines[other], lines[at]
    elif how == 3:
        lines = lines[: at + 1]
    elif how == 4:
        lines[at] = lines[at][: rng.randint(0, len(lines[at]))]
    elif how == 5:
        strays = [b"{", b"}", b"[", b"]", b"] x", b"{ }", b"F 0", b"v 20130925 2", b"", b"."]
        lines.insert(at, rng.choice(strays + [b"N 0 0 1 0 4", b"C 0 0 1 0 0 EMBEDDED", b"\xff"]))
    elif how == 6:
        fields = lines[at].split(b" ")
        wrong = [b"x", b"45", b"-1", b"-2", b"-0", b"2", b"3", b"9", b"+1", b"0" * 10, b"a\x7f"]
        wrong += [b"200001", b"1000001", b"\xff"]
        fields[rng.randrange(len(fields))] = rng.choice(wrong)
        lines[at] = b" ".join(fields)
    elif how == 7:
        fields = lines[at].split(b" ")
        del fields[rng.randrange(len(fields))]
        lines[at] = b" ".join(fields)
    elif how == 8:
        lines[at] += rng.choice([b" 0", b" ", b"\r", b"\r\r", b"\t0", b" \xc3", b"\x00"])
    elif how == 9 and at + 1 < len(lines):
        lines[at : at + 2] = [lines[at] + rng.choice([b"", b" ", b"\r"]) + lines[at + 1]]
    elif how == 10:
        data = b"\n".join(lines)
        return data[: rng.randint(0, len(data))]
    elif how in (11, 12):
        split = [line.split(b" ") for line in lines]
        whole = [k for k, fields in enumerate(split) if fields[0] in FIELDS]
        objects = [k for k in whole if len(split[k]) == 1 + len(FIELDS[split[k][0]])]
        if objects:
            at = rng.choice(objects)
            lines[at] = b" ".join(just_past(rng, split[at]))
    else:
        data = bytearray(b"\n".join(lines))
        for _ in range(rng.randint(1, 3)):
            if data:
                some = rng.choice(b"\n\r \t-0129{}[].=vNTPCE\x00\x80\xff")
                data[rng.randrange(len(data))] = rng.choice([some] * 4 + [rng.randrange(256)])
        return bytes(data)
    return b"\n".join(lines)


def random_file(seed, number):
    rng = random.Random(f"{seed} {number}")
    data = Drawing(rng).bytes()
    for _ in range(rng.choice([0, 0, 1, 1, 1, 2, 3])):
        data = damaged(rng, data)
    return data


VERSION = b"v 20130925 2\n"
NET = b"N 0 0 1 0 4\n"
TEXT = b"T 0 0 9 10 1 0 0 0 1\na\n"
EMBEDDED = b"C 0 0 1 0 0 EMBEDDED\n[\n"


def texts_of_size(size):
    """A sheet of just so many bytes: one text after the other, the last one as long as it takes."""
    text = b"T 0 0 9 10 1 0 0 0 1\n%s\n"
    count = (size - len(VERSION)) // 10_000 - 1
    body = text % (b"x" * (10_000 - len(text % b"")))
    start = VERSION + body * count
    return start + text % (b"y" * (size - len(start) - len(text % b"")))


def behind(letter, last):
    """The lines that follow an object, by its last field."""
    if letter == b"C":
        return b"[\n]\n" if last.startswith(b"EMBEDDED") else b""
    if letter == b"G":
        return b"a\n.\n" if last == b"1" else b"a\n"
    return b"a\n" if letter in (b"T", b"H") else b""


def classes():
    """Small files: each field of each letter at the ends of its class, past them, and no number."""
    for letter, kinds in FIELDS.items():
        for place, kind in enumerate(kinds):
            if kind == "w":
                values = BASENAMES + BAD_BASENAMES
            elif kind == "a":
                values = [b"%d" % angle for angle in (-90, 0, 1, 45, 89, 90, 180, 270, 360)]
            else:
                least, greatest = RANGES[kind]
                values = [b"%d" % number for number in (least - 1, least, greatest, greatest + 1)]
            for value in [*values, b"x", b"-", b"-0", b"007", b"+1", b"1" * 9, b"1" * 10]:
                fields = [b"a.sym" if k == "w" else b"1" if k == "k" else b"0" for k in kinds]
                fields[place] = value
                line = b" ".join([letter, *fields])
                yield f"{line!r}", VERSION + line + b"\n" + behind(letter, fields[-1])


def edges():
    """Files at the limits, by what they show."""
    yield from classes()
    most = MOST_OBJECTS
    for size in (MOST_BYTES - 1, MOST_BYTES, MOST_BYTES + 1):
        yield f"{size} bytes", texts_of_size(size)
    for count in (most, most + 1):
        yield f"{count} objects", VERSION + NET * count
        yield f"{count} parts", VERSION + EMBEDDED + NET * count + b"]\n"
        yield f"{count} texts in a block", VERSION + NET + b"{\n" + TEXT * count + b"}\n"
    full = VERSION + NET * most
    for line in (b"N", b"\xff", b"N \xff", b"}", b"{", b"C 0 0 1 0 0 EMBEDDED", b"F", b"[", b"\n"):
        yield f"{line!r} behind {most} objects", full + line + b"\n"
    inside = VERSION + EMBEDDED + NET * most
    for line in (b"N", b"C", b"N \xff", b"F", b"}", b"[", b"] x", b"{\n" + TEXT + b"}\n]\nN"):
        yield f"{line!r} behind {most} parts", inside + line + b"\n"
    for count in (10_000, 10_001):
        lines = b"%d\n" % count + b"a\n" * count
        yield f"a text of {count} lines", VERSION + b"T 0 0 9 10 1 0 0 0 " + lines
        yield f"a path of {count} lines", VERSION + b"H" + b" 0" * 12 + b" " + lines
    yield "only line feeds", b"\n" * MOST_BYTES
    yield "blank lines", VERSION + b" \t \r\n" * 800_000 + NET
    yield "a long line", VERSION + b"N" + b" " * 4_000_000 + b"0 0 1 0 4\n"
    yield "long fields", VERSION + b"N " + b"0" * 4_000_000 + b" 0 1 0 4\n"
    yield "many fields", VERSION + b"N" + b" 0" * 2_000_000 + b"\n"
    yield "a picture that never ends", VERSION + b"G 0 0 1 1 0 0 1\np\n" + b"x\n" * 2_000_000
    yield "many embedded symbols", VERSION + (EMBEDDED + b"]\n") * 90_000
