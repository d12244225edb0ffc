"""Sheets and symbols as texts: what an object is, and where one ends."""
import re
from typing import NamedTuple, Optional

from .words import NAME, Stop

NUMBER = re.compile(r"-?[0-9]{1,9}")
LETTERS = "LGBVATNUPHC"


class Shape(NamedTuple):
    """A line of an object, as its words, with the lines that follow it."""

    words: list
    content: list

    @property
    def lines(self):
        return [" ".join(self.words), *self.content]


class Item(NamedTuple):
    """An object of a sheet or a symbol, with its canonical text."""

    text: str
    shape: Shape
    parts: Optional[list]  # the objects of an embedded symbol
    attached: list  # the attached texts, each as a Shape

    @property
    def letter(self):
        return self.shape.words[0]

    @property
    def words(self):
        return self.shape.words

    @property
    def content(self):
        return self.shape.content

    @property
    def attributes(self):
        return ["\n".join(shape.content) for shape in self.attached]

    def attribute(self, name):
        found = (it[len(name) + 1 :] for it in self.attributes if it.startswith(name + "="))
        return next(found, None)

    @property
    def place(self):
        """Its first point; None where it has none, as a path, whose data is not read."""
        if self.letter == "H" or len(self.words) < 3:
            return None
        return int(self.words[1]), int(self.words[2])

    @property
    def symbol(self):
        """The name of the library symbol of a component."""
        name = self.words[6] if self.letter == "C" else ""
        return name if NAME.fullmatch(name) and not name.startswith("EMBEDDED") else None

    def __str__(self):
        if self.letter == "C":
            return f"C {self.attribute('refdes') or '-'} {self.words[6]}"
        if self.letter == "T":
            return f"T {self.content[0]}"
        name = self.attribute("netname")
        return " ".join(self.words[:5]) + (f" {name}" if name else "")


def item_from(shape, parts, attached):
    """The object of a shape, of the objects of its embedded symbol, and of its attached texts."""
    lines = shape.lines
    if parts is not None:
        lines += ["[", *(line for part in parts for line in part.text.split("\n")[:-1]), "]"]
    if attached:
        lines += ["{", *(line for text in attached for line in text.lines), "}"]
    return Item("\n".join(lines) + "\n", shape, parts, attached)


class Reader:
    """Cuts lines into objects. It may take what the grammar refuses: the server judges."""

    def __init__(self, text):
        lines = text.split("\n")
        self.lines = [line.rstrip("\r") for line in (lines if lines[-1] else lines[:-1])]
        self.at = 0

    def words(self):
        return [word for word in re.split("[ \t]+", self.lines[self.at]) if word]

    def is_over(self):
        while self.at < len(self.lines) and not self.words():
            self.at += 1
        return self.at >= len(self.lines)

    def take(self, count):
        """So many lines as they stand."""
        if count < 0 or self.at + count > len(self.lines):
            raise ValueError("the file ends here")
        self.at += count
        return self.lines[self.at - count : self.at]

    def data(self):
        """The lines of a picture's data, with the line that ends them."""
        start = self.at
        while self.take(1) != ["."]:
            pass
        return self.lines[start : self.at]

    def shape(self):
        """The words and the following lines of an object."""
        words = self.words()
        letter = words[0]
        if len(letter) != 1 or letter not in LETTERS:
            raise ValueError("no object")
        last = words[-1:] if letter == "C" else []
        numbers = words[1 : len(words) - len(last)]
        if not all(NUMBER.fullmatch(word) for word in numbers):
            raise ValueError("no number")
        words = [letter] + [str(int(word)) for word in numbers] + last
        self.at += 1
        if letter == "C" and len(words) != 7:
            raise ValueError("no component")
        return Shape(words, self.following(words))

    def following(self, words):
        """The lines behind the line of an object that are its own."""
        if words[0] in "TH":
            count = int(words[9 if words[0] == "T" else 13])
            if not count:
                raise ValueError("no lines")
            return self.take(count)
        if words[0] == "G":
            return self.take(1) + (self.data() if words[7] == "1" else [])
        return []

    def opens(self, bracket):
        if self.is_over() or self.words() != [bracket]:
            return False
        self.at += 1
        return True

    def block(self):
        """The attached texts behind an object."""
        shapes = []
        if self.opens("{"):
            while not self.opens("}"):
                shapes.append(self.shape())
        return shapes

    def item(self):
        shape, parts = self.shape(), None
        if shape.words[0] == "C" and shape.words[6].startswith("EMBEDDED"):
            if not self.opens("["):
                raise ValueError("no symbol")
            parts = []
            while not self.opens("]"):
                parts.append(self.item())
        return item_from(shape, parts, self.block())

    def items(self):
        found = []
        while not self.is_over():
            found.append(self.item())
        return found


def item_of(text):
    return Reader(text).item()


class Sheet(NamedTuple):
    """A sheet or a symbol: its version line, and its objects."""

    head: str
    items: list

    @property
    def texts(self):
        return [item.text for item in self.items]

    @property
    def text(self):
        return self.head + "\n" + "".join(self.texts)

    def symbols(self):
        """The library symbols that it names."""
        return sorted({item.symbol for item in self.items if item.symbol})


def sheet_of(name, text):
    """The sheet or symbol that a text is; `name` is for the message."""
    reader = Reader(text)
    try:
        words = reader.words()
        if words[:1] != ["v"]:
            raise ValueError("no version line")
        reader.at = 1
        return Sheet(" ".join(words), reader.items())
    except (ValueError, IndexError, RecursionError):
        line = min(reader.at + 1, len(reader.lines) + 1)
        what = f"not understood near line {line}; `gafd export {name}` says why"
        raise Stop(f"{name}: {what}") from None


def values_of(item, free, name):
    """The attached values of a name, or where there is none those that stand free in the symbol."""
    for texts in (item.attributes, free):
        values = [text[len(name) + 1 :] for text in texts if text.startswith(name + "=")]
        if values:
            return values
    return []


def sources_of(folder, sheet):
    """The sheets below a sheet, as its components and their symbols name them."""
    for item in sheet.items:
        if item.letter == "C":
            free = []
            if item.symbol and (path := folder.symbol_path(item.symbol)):
                parts = folder.sheet(path).items
                free = ["\n".join(part.content) for part in parts if part.letter == "T"]
            graphical, device, value = (
                values_of(item, free, name)[:1] for name in ("graphical", "device", "value")
            )
            # a picture, and a mark at an open pin, lead to no sheet
            if graphical == ["1"] or (device, value) == (["DRC_Directive"], ["NoConnection"]):
                continue
            own = values_of(item, free, "source")
            yield from (name for name in own if NAME.fullmatch(name))
