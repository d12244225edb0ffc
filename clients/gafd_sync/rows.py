"""The rows of a store on the disk: where they end, and what is a row."""
import hashlib
import json
import os
import pathlib
import re
import stat

from .words import NAME, Stop

ROW = re.compile(r"([0-9]{10})\.json")
MOST_ROWS = 200_000
LARGEST = 4_294_967_295
SHEET, TURN = 200_000, 400_000
SUM_LENGTH = 32
TO_BLANKS = bytes.maketrans(b"01", b" \t")


def number(least, greatest):
    return lambda value: type(value) is int and least <= value <= greatest


def a_line(value):
    return type(value) is str and "\n" not in value


def are_ids(value):
    is_list = type(value) is list and 0 < len(value) <= 1000 and all(map(an_id, value))
    return is_list and all(a < b for a, b in zip(value, value[1:]))


def a_name(value):
    return type(value) is str and NAME.fullmatch(value) is not None


def a_text(value):
    return type(value) is str


def a_flag(value):
    return type(value) is bool


an_id = number(0, LARGEST)
NAMED = {"name": a_name, "text": a_text}
FIELDS = {
    "add_sheet": NAMED,
    "add_symbol": NAMED,
    "replace_symbol": NAMED,
    "add_object": {"sheet": a_name, "text": a_text},
    "replace": {"id": an_id, "text": a_text},
    "delete": {"ids": are_ids},
    "move": {"ids": are_ids, "dx": number(-TURN, TURN), "dy": number(-TURN, TURN)},
    "turn": {
        "ids": are_ids,
        "x": number(-SHEET, SHEET),
        "y": number(-SHEET, SHEET),
        "quarter": number(0, 3),
        "mirror": a_flag,
    },
    "set_attr": {"id": an_id, "name": a_line, "value": a_line},
    "drop_attr": {"id": an_id, "name": a_line},
    "renumber": {},
    "undo": {"serial": an_id},
}
ENTRY = {
    "session": a_name,
    "number": number(1, LARGEST),
    "base": an_id,
    "edit": lambda value: type(value) is dict and value.get("kind") in FIELDS,
}


class Unfinished(Exception):
    """A row file that is cut, empty or of NULs: it counts as not there."""


class NoRow(Exception):
    """A row file that is whole, and no row: why."""


def row_name(serial):
    return f"{serial:010}.json"


def has_fields(value, fields):
    are_same = value.keys() == fields.keys()
    return are_same and all(is_one(value[key]) for key, is_one in fields.items())


def sum_of(row):
    """The sum of a row: the first 32 bits of its MD5, a tab for each that is set, else a space."""
    bits = int.from_bytes(hashlib.md5(row, usedforsecurity=False).digest()[:4], "big")
    return f"{bits:032b}".encode().translate(TO_BLANKS)


def row_part(text):
    """What stands before the sum of a row, or all of a text that ends in no 32 blanks."""
    row, blanks = text[:-SUM_LENGTH], text[-SUM_LENGTH:]
    if len(blanks) < SUM_LENGTH or blanks.strip(b" \t"):
        return text
    if blanks != sum_of(row):
        raise NoRow("its sum is that of another row")
    return row


def entry_of(data):
    """The entry of a row, of either version."""
    if not data.endswith(b"\n"):
        raise Unfinished("it has no end")
    try:
        row = json.loads(row_part(data[:-1]))
    except ValueError:
        raise NoRow("it is no JSON") from None
    if type(row) is not dict:
        raise NoRow("it is no entry")
    version = row.pop("version", None)
    if not has_fields(row, ENTRY):
        raise NoRow("it is no entry")
    edit = dict(row["edit"])
    kind = edit.pop("kind")
    if not has_fields(edit, FIELDS[kind]):
        raise NoRow(f"it is no edit {kind}")
    if version != (2 if version is not None or kind == "replace_symbol" else None):
        raise NoRow(f"an edit {kind} is in no row of version {version or 1}")
    return row


class Rows:
    """The row files of a store, by their serials. `missing` has those with a row behind them."""

    def __init__(self, store):
        self.store = pathlib.Path(store)
        try:
            names = os.listdir(self.store)
        except OSError as error:
            raise Stop(f"{store}: {error.strerror}") from None
        serials = sorted(int(match[1]) for name in names if (match := ROW.fullmatch(name)))
        found = [serial for serial in serials if serial < MOST_ROWS]
        self.count = found[-1] + 1 if found else 0
        self.greatest = serials[-1] if serials else None
        # Who lists a folder while rows come may miss one that is there.
        missing = sorted({*range(self.count)} - {*found})
        self.missing = [serial for serial in missing if not self.path(serial).exists()]
        if len(serials) > len(found):
            self.missing.append(self.count)

    def path(self, serial):
        return self.store / row_name(serial)

    def data(self, serial):
        if not stat.S_ISREG(self.path(serial).lstat().st_mode):
            raise NoRow("it is no file")
        return self.path(serial).read_bytes()
