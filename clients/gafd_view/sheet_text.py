"""Sheets and symbols as texts (docs/FORMATS.md, "Sheets and symbols"), as far as a page needs them:
their objects, the symbols and sheets that these name, and their attributes. Nothing is refused
here."""
from typing import NamedTuple


class SheetObject(NamedTuple):
    """An object with its own lines. `attributes` are the attached ones, and those of an embedded
    symbol where none of the name is attached."""

    letter: str
    text: str
    basename: str
    attributes: list

    def values(self, name):
        return [value for one, value in self.attributes if one == name]


class Lines:
    """The lines of a text, which are taken one after the other. Blank ones do not count before
    objects."""

    def __init__(self, text):
        self.lines, self.at = text.split("\n"), 0

    def peek(self):
        while self.at < len(self.lines) and not self.lines[self.at].split():
            self.at += 1
        return self.lines[self.at].split() if self.at < len(self.lines) else []

    def take(self, count=1):
        self.at += count
        return self.lines[self.at - count:self.at]


def attribute(content):
    """The name and the value of a text of attribute form (docs/RULES.md, "Attributes"), or None."""
    name, is_there, value = content.partition("=")
    is_one = is_there and name and value and not name.endswith(" ") and not value.startswith(" ")
    return (name, value) if is_one else None


def read_block(lines, closing):
    """The objects up to a closing bracket."""
    lines.take()
    found = []
    while (fields := lines.peek()) and fields[0] != closing:
        found.append(read_object(lines))
    lines.take()
    return found


def read_object(lines):
    """An object with its lines and blocks, and the content of a text."""
    fields = lines.peek()
    start, letter = lines.at, fields[0]
    content, parts, attached = "", [], []
    lines.take()
    if letter in "TH":
        content = "\n".join(lines.take(int(fields[-1])))
    elif letter == "G":
        lines.take()
        while fields[-1] == "1" and lines.take() not in (["."], []):
            pass
    basename = " ".join(fields[6:]) if letter == "C" else ""
    if basename.startswith("EMBEDDED"):
        lines.peek()
        parts = read_block(lines, "]")
    end = lines.at
    if lines.peek()[:1] == ["{"]:
        attached = read_block(lines, "}")
        end = lines.at
    text = "\n".join(lines.lines[start:end]) + "\n"
    own = attributes_of(attached)
    names = {name for name, _ in own}
    inherited = [it for it in attributes_of(parts) if it[0] not in names]
    return SheetObject(letter, text, basename, own + inherited) if letter != "T" \
        else SheetObject(letter, text, "", [it for it in [attribute(content)] if it])


def attributes_of(objects):
    return [one for it in objects if it.letter == "T" for one in it.attributes]


def read_objects(text, has_version=True):
    """The objects of a sheet, of a symbol, or of a text without a version line, in their order."""
    lines, found = Lines(text.replace("\r\n", "\n")), []
    if has_version:
        lines.take()
    while lines.peek():
        found.append(read_object(lines))
    return found


def count_objects(text, has_version=True):
    """How many objects a text has that was accepted."""
    return len(read_objects(text, has_version))
