"""The grammar of docs/FORMATS.md, told again: a reader with exact faults, and the canonical writer.

It shares no code with the program, and goes by descent where the program goes line by line.
"""
import re

MOST_BYTES = 4_194_304
MOST_OBJECTS = 100_000

# The classes of fields: c a coordinate, n another number, b a flag, s what is shown, j an
# alignment, r the direction of a ripper, k a count of lines, a an angle, w a basename.
RANGES = {
    "c": (-200_000, 200_000),
    "n": (-1_000_000, 1_000_000),
    "b": (0, 1),
    "s": (0, 2),
    "j": (0, 8),
    "r": (-1, 1),
    "k": (1, 10_000),
}
FIELDS = {
    b"L": "cccc" + "nnnnnn",
    b"G": "cc" + "nn" + "a" + "bb",
    b"B": "cc" + "nn" + "nnnnnn" + "nnnnnn",
    b"V": "cc" + "n" + "nnnnnn" + "nnnnnn",
    b"A": "cc" + "nnn" + "nnnnnn",
    b"T": "cc" + "nn" + "b" + "s" + "a" + "j" + "k",
    b"N": "cccc" + "n",
    b"U": "cccc" + "n" + "r",
    b"P": "cccc" + "n" + "bb",
    b"H": "nnnnnn" + "nnnnnn" + "k",
    b"C": "cc" + "b" + "a" + "b" + "w",
}
BRACKETS = (b"{", b"}", b"[", b"]")
NUMBER = re.compile(rb"-?[0-9]{1,9}\Z")


class Fault(Exception):
    """Why a file is refused: the kind, and the line, counted from 1."""

    def __init__(self, kind, line):
        super().__init__(f"{kind} {line}")
        self.kind, self.line = kind, line


class Item:
    """An object or a part: its letter, its fields, its following lines, its attached texts, and
    the parts of its embedded symbol."""

    def __init__(self, letter, values):
        self.letter, self.values = letter, values
        self.following, self.texts, self.parts = [], [], None

    def told(self):
        parts = None if self.parts is None else [p.told() for p in self.parts]
        return (self.letter, self.values, self.following, [t.told() for t in self.texts], parts)


def cut(data):
    """The lines of bytes: without LF, and without the CRs at their ends."""
    pieces = data.split(b"\n")
    if not pieces[-1]:
        pieces.pop()
    return [piece.rstrip(b"\r") for piece in pieces]


def fields_of(line):
    return [field for field in line.replace(b"\t", b" ").split(b" ") if field]


def is_utf8(line):
    try:
        line.decode("utf-8", "strict")
    except UnicodeDecodeError:
        return False
    return True


class File:
    """The lines of a file, taken one after the other by what is expected next."""

    def __init__(self, data):
        if len(data) > MOST_BYTES:
            raise Fault("TooLarge", 1)
        self.lines = cut(data)
        self.taken = 0

    def refuse(self, kind):
        """A fault at the line that was taken last."""
        raise Fault(kind, self.taken)

    def short(self):
        raise Fault("CutShort", len(self.lines) + 1)

    def want_utf8(self):
        if not is_utf8(self.lines[self.taken - 1]):
            self.refuse("NotUtf8")

    def following(self):
        """The next line as it stands: one that follows the line of an object."""
        if self.taken == len(self.lines):
            self.short()
        self.taken += 1
        self.want_utf8()
        return self.lines[self.taken - 1]

    def fields(self):
        """The fields of the next line that has one, or None at the end."""
        while self.taken < len(self.lines):
            self.taken += 1
            found = fields_of(self.lines[self.taken - 1])
            if found:
                return found
        return None

    def head(self):
        if not self.lines:
            raise Fault("NoVersion", 1)
        self.taken = 1
        self.want_utf8()
        found = fields_of(self.lines[0])
        if found[:1] != [b"v"]:
            self.refuse("NoVersion")
        good = len(found) == 3 and re.match(rb"[0-9]{8}\Z", found[1]) and found[2] in (b"1", b"2")
        return (int(found[1]), int(found[2])) if good else self.refuse("BadFormat")

    def value(self, kind, field):
        """What a field says by its class."""
        if kind == "w":
            is_word = len(field) <= 200 and not any(b < 32 or b == 127 for b in field)
            return field if is_word else self.refuse("OutOfRange")
        if not NUMBER.match(field):
            self.refuse("BadNumber")
        number = int(field)
        if kind == "a":
            return number if number in (0, 90, 180, 270) else self.refuse("BadAngle")
        least, greatest = RANGES[kind]
        return number if least <= number <= greatest else self.refuse("OutOfRange")

    def item(self, found):
        """The object whose line was taken, with its following lines and its symbol."""
        letter, words = found[0], found[1:]
        if len(words) != len(FIELDS[letter]):
            self.refuse("FieldCount")
        values = [self.value(kind, word) for kind, word in zip(FIELDS[letter], words)]
        item = Item(letter, values)
        if letter in (b"T", b"H"):
            item.following = [self.following() for _ in range(values[-1])]
        elif letter == b"G":
            item.following.append(self.following())
            if values[-1] == 1:
                while (line := self.following()) != b".":
                    item.following.append(line)
        elif letter == b"C" and values[-1].startswith(b"EMBEDDED"):
            self.symbol(item)
        return item

    def want_one(self, found):
        if len(found) != 1:
            self.refuse("FieldCount")

    def symbol(self, item):
        """The embedded symbol of a component, from `[` to `]`."""
        found = self.fields()
        if found is None:
            self.short()
        self.want_utf8()
        if found[0] != b"[":
            self.refuse("StrayBracket")
        self.want_one(found)
        item.parts = self.items(MOST_OBJECTS, has_components=False, is_embedded=True)

    def block(self, item):
        """The attached texts, where a block follows."""
        was = self.taken
        found = self.fields()
        if found is None or found[0] != b"{":
            self.taken = was
            return
        self.want_utf8()
        self.want_one(found)
        while True:
            found = self.fields()
            if found is None:
                self.short()
            self.want_utf8()
            if found[0] == b"}":
                return self.want_one(found)
            if found[0] != b"T":
                self.refuse("NotAttribute")
            item.texts.append(self.item(found))

    def items(self, most, has_components, is_embedded=False):
        """Objects with their attached texts: up to `]` in an embedded symbol, else to the end."""
        items = []
        while (found := self.fields()) is not None:
            if found[0] in FIELDS and len(items) == most:
                self.refuse("TooLarge")
            self.want_utf8()
            if is_embedded and found[0] == b"]":
                self.want_one(found)
                return items
            if found[0] in BRACKETS:
                self.refuse("StrayBracket")
            if found[0] not in FIELDS:
                self.refuse("UnknownLetter")
            if found[0] == b"C" and not has_components:
                self.refuse("Nested")
            items.append(self.item(found))
            self.block(items[-1])
        return self.short() if is_embedded else items


def read_sheet(data):
    file = File(data)
    return file.head(), file.items(MOST_OBJECTS, has_components=True)


def read_symbol(data):
    file = File(data)
    return file.head(), file.items(MOST_OBJECTS, has_components=False)


def read_object(data):
    file = File(data)
    items = file.items(1, has_components=True)
    return items[0] if items else file.short()


def written(item):
    """The canonical lines of an object."""
    said = [value if isinstance(value, bytes) else b"%d" % value for value in item.values]
    lines = [b" ".join([item.letter, *said]), *item.following]
    if item.letter == b"G" and item.values[-1] == 1:
        lines.append(b".")
    if item.parts is not None:
        lines += [b"[", *(line for part in item.parts for line in written(part)), b"]"]
    if item.texts:
        lines += [b"{", *(line for text in item.texts for line in written(text)), b"}"]
    return lines


def canonical(file):
    (date, form), items = file
    lines = [b"v %08d %d" % (date, form), *(line for item in items for line in written(item))]
    return b"".join(line + b"\n" for line in lines)
