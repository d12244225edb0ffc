"""The reviews of a board: a folder with its proposals and notes, which all who look at the board
have (docs/FORMATS.md, "Reviews"). No server reads it."""
import contextlib
import fcntl
import os
import pathlib
import re
import time
from typing import NamedTuple, Optional

from .records import Damaged, Records
from .rows import FIELDS, LARGEST, a_name, a_text, an_id, has_fields, number
from .sheets import item_of, sheet_of
from .words import Stop

TIME = re.compile(r"[0-9]{4}-[0-9]{2}-[0-9]{2}T[0-9]{2}:[0-9]{2}:[0-9]{2}Z")
# The kinds of edits that a push makes.
ADDING = ("add_sheet", "add_symbol", "add_object")
CHANGING = ("replace_symbol", "replace", "delete", "move", "turn")
PLACE = re.compile(r"(part|net|sheet):([^\0-\x20\x7f]{1,200})")


def now():
    return time.strftime("%Y-%m-%dT%H:%M:%SZ", time.gmtime())


def margin(text):
    """The lines of a text of somebody, so that none is taken for a line of this program."""
    return [f"    {line}" for line in text.splitlines()]


def a_time(value):
    return a_text(value) and TIME.fullmatch(value) is not None


def a_place(value):
    return a_text(value) and PLACE.fullmatch(value) is not None


def are_serials(value):
    return type(value) is list and all(map(an_id, value))


def is_edit(value):
    if type(value) is not dict or value.get("kind") not in ADDING + CHANGING:
        return False
    fields = {key: it for key, it in value.items() if key != "kind"}
    return has_fields(fields, FIELDS[value["kind"]])


def changed_by(edit):
    """The keys of what an edit changes: ids as texts, or the name of a symbol."""
    if edit["kind"] == "replace_symbol":
        return {edit["name"]}
    return {str(key) for key in edit.get("ids", [edit["id"]] if "id" in edit else [])}


def is_object(value):
    try:
        return a_text(value) and item_of(value).text == value
    except (ValueError, IndexError, RecursionError):
        return False


def is_whole(value):
    """Whether it is the text of a sheet or a symbol."""
    try:
        return a_text(value) and bool(sheet_of("", value))
    except Stop:
        return False


def is_step(value):
    """Whether it is an edit with its file, and with the text of each thing that it changes."""
    fields = {"file": a_name, "edit": is_edit, "was": lambda it: type(it) is dict}
    if type(value) is not dict or not has_fields(value, fields):
        return False
    edit, was = value["edit"], value["was"]
    if edit.get("name", edit.get("sheet", value["file"])) != value["file"]:
        return False
    is_file = edit["kind"] in ("add_sheet", "add_symbol", "replace_symbol")
    texts = [*was.values(), *([edit["text"]] if "text" in edit else [])]
    is_text = is_whole if is_file else is_object
    return was.keys() == changed_by(edit) and all(map(is_text, texts))


def are_steps(value):
    return type(value) is list and len(value) > 0 and all(map(is_step, value))


def is_entry(value):
    """Whether it is an edit of a proposal with its base."""
    if type(value) is not dict or not an_id(value.get("base")):
        return False
    return is_step({key: it for key, it in value.items() if key != "base"})


SIGNED = {"who": a_name, "time": a_time}
NOTE = {**SIGNED, "at": a_place, "text": a_text}
PROPOSAL = {**SIGNED, "message": a_text, "base": an_id, "steps": are_steps}
END = {**SIGNED, "state": lambda value: value in ("accepted", "withdrawn"), "serials": are_serials}
# The number of the first entry, and the entries as they are sent; the serials of those that were
# sent under other numbers before, and of those that are to be taken back, where one was refused.
CLAIM = {
    **SIGNED,
    "number": number(1, LARGEST),
    "entries": lambda value: type(value) is list and all(map(is_entry, value)),
    "serials": are_serials,
    "back": are_serials,
}


def fitting(fields):
    return lambda value: type(value) is dict and has_fields(value, fields)


class Proposal(NamedTuple):
    """What somebody would push: edits in their order, each with its file and the texts of what it
    changes, and the front at which these were read. `end` is what became of it."""

    name: str
    who: str
    time: str
    message: str
    base: int
    steps: list
    end: Optional[dict]

    @property
    def files(self):
        return list(dict.fromkeys(step["file"] for step in self.steps))


class Reviews:
    """The folder of the reviews of a board."""

    def __init__(self, folder):
        self.folder = pathlib.Path(folder)
        self.proposals = Records(self.folder / "proposals", fitting(PROPOSAL))
        self.claims = Records(self.folder / "claims", fitting(CLAIM))
        self.ends = Records(self.folder / "ends", fitting(END))
        self.notes = Records(self.folder / "notes", fitting(NOTE))
        self.resolved = Records(self.folder / "resolved", fitting(SIGNED))

    def proposal(self, name):
        """The proposal of a name, which has to be there."""
        try:
            found, end = self.proposals.load(name), self.ends.load(name)
        except Damaged as why:
            raise Stop(f"the proposal {name} is damaged: {why}") from None
        if found is None:
            raise Stop(f"there is no proposal {name}; `gafd_sync proposals` lists them")
        return Proposal(name, **found, end=end)

    @contextlib.contextmanager
    def alone(self, name="lock"):
        """One who ends proposals at a time, or does what another lock is for. It goes with the
        process; where a file system has none, the claim alone keeps others off."""
        self.folder.mkdir(parents=True, exist_ok=True)
        # Who may not write another's file may read it.
        lock = os.open(self.folder / name, os.O_RDONLY | os.O_CREAT, 0o666)
        try:
            fcntl.flock(lock, fcntl.LOCK_EX)
            yield
        finally:
            os.close(lock)
