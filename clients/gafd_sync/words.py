"""What names are, what ends a call, and the faults of the server in words."""
import json
import re

NAME = re.compile(r"(?!\.)[A-Za-z0-9_+.-]{1,100}")
# What a file of a board is called, so that no other program takes it for one of its own.
SHEET = re.compile(r"(?![.-])[A-Za-z0-9_+.-]{1,96}\.sch")
SYMBOL = re.compile(r"(?![.-])[A-Za-z0-9_+.-]{1,96}\.sym")
# Control characters but for tab and LF, ends of lines, and marks that turn the direction of a text.
UNSEEN = re.compile(
    "[\0-\x08\x0b-\x1f\x7f-\x9f\u061c\u200e\u200f\u2028\u2029\u202a-\u202e\u2066-\u2069]"
)


def spelled(text):
    """A text in which what a terminal would obey, and not show, is spelled as `\\x1b`."""
    return UNSEEN.sub(lambda found: found[0].encode("unicode_escape").decode(), text)


class Printed:
    """A stream on which texts of others go out spelled."""

    def __init__(self, stream):
        self.stream = stream

    def write(self, text):
        return self.stream.write(spelled(text))

    def flush(self):
        self.stream.flush()


class Stop(Exception):
    """What ends the call: a text, and the status."""

    def __init__(self, text, status=1):
        super().__init__(text)
        self.status = status


class Refused(Exception):
    """An edit that the server refused: the fault, as it was answered."""

    def __init__(self, fault):
        super().__init__(fault.get("fault"))
        self.fault = fault


FAULTS = {
    "SheetExists": "another added a sheet of this name meanwhile: rename yours, and push it so",
    "SymbolExists": "another added a symbol of this name meanwhile: push again",
    "NoSheet": "the sheet is gone: its addition was taken back",
    "NoSymbol": "the symbol is gone: its addition was taken back",
    "NoObject": "an object is gone: pull, and push again",
    "NumberGap": "another program edits under this session: give each its own --session",
    "NumberReused": "another program edits under this session: give each its own --session",
    "BaseAhead": "the server's history is shorter than it was: it came from an older backup",
    "HistoryFull": "the history is full: begin anew with `gafd_sync copy`",
    "TooManyObjects": "the board would have more objects than a store takes",
    "ProjectFull": "the board would have more than 1,024 sheets, 8,192 symbols or 64 MiB of text",
    "KeeperFault": "the server could not write to its disk: nothing was changed",
    "TooLarge": "it is more than 4 MiB: split the sheet, or take embedded pictures out of it",
    "NotYours": "it was sent under another session",
    "UndoneAlready": "it was taken back already",
    "UndoBlocked": "something of it was changed since, by the edit {by}",
    "SheetInUse": "another put the object {id} on the sheet since",
    "Stale": "somebody changed it just now. Pull, then push again",
}


class Fields(dict):
    """What a fault has; what it lacks is told as a question mark."""

    def __missing__(self, _):
        return "?"


def told(fault):
    """A fault in words."""
    name = str(fault.get("fault"))
    if name == "BadText":
        return f"BadText: {fault.get('read')} in line {fault.get('line')} of its text"
    if name == "Stale" and isinstance(fault.get("newer"), int):
        return f"Stale: the edit {fault['newer'] - 1} changed it just now. Pull, then push again"
    if name == "BadEdit" and fault.get("pointer") == "/edit/kind":
        return "BadEdit: the server is older than this edit: it wants a newer gafd"
    return f"{name}: {FAULTS[name].format_map(Fields(fault))}" if name in FAULTS else json.dumps(fault)
