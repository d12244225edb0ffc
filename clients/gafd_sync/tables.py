"""`table` and `fill`: the attributes of all sheets of a board in one table, and the way back.

A column of the name of the sheet stands before those of `gafd table`, and ids are the server's.
What is in a table, when a cell counts and what is wrong with one is the program's: each sheet is
tabled and filled by it, in a folder of its own, under the places of its objects in place of their
ids."""
import pathlib
import re
import subprocess
import sys
import tempfile
from typing import NamedTuple

from .boards import program
from .cells import is_respelled, records_of, text_of
from .pushes import Edit, Push
from .server import Stand, in_order
from .sheets import item_of, sheet_of
from .words import Refused, Stop, told

# What was read for the last table of this folder.
KNOWN = "table"
REFUSED = re.compile(r"gafd: table\.csv:(\d+): (\w+)")


class Row(NamedTuple):
    """A record of a table: its number there, its sheet, and its other fields, from the id on."""

    number: int
    sheet: str
    fields: list


def run(words, folder):
    """What the program says in a folder: what goes out, and to the errors."""
    done = subprocess.run(
        [program(), *words], cwd=folder, capture_output=True, encoding="utf-8", check=False
    )
    return done.stdout, done.stderr.strip()


def table(asked, server, folder):
    """Prints the table of the sheets, and notes what it was made of."""
    stands = {name: server.sheet(name) for name in asked.files} or server.all_sheets()
    for name, stand in stands.items():
        if stand is None:
            raise Stop(f"{name}: the server has no such sheet")
    tables = {name: sheet_table(name, stands[name]) for name in in_order(stands)}
    names = sorted({name for head, _ in tables.values() for name in head[1:]}, key=str.encode)
    rows = [["sheet", "id", *names]]
    for sheet, (head, records) in tables.items():
        for key, *values in records:
            cells = dict(zip(head[1:], values))
            rows.append([sheet, key, *(cells.get(name, "") for name in names)])
    known = folder.load(KNOWN) or {}
    known |= {name: [stand.head, list(stand.objects.items())] for name, stand in stands.items()}
    folder.keep(KNOWN, known)
    sys.stdout.write(text_of(rows))
    return 0


def sheet_table(name, stand):
    """The head and the other records of the table of a sheet, under the server's ids."""
    with tempfile.TemporaryDirectory() as room:
        pathlib.Path(room, name).write_bytes(stand.text.encode())
        out, said = run(["table", name], room)
    if said:
        raise Stop(said)
    head, *records = records_of(out)
    ids = list(stand.objects)
    return head, [[ids[int(place)], *values] for place, *values in records]


def fill(asked, server, folder):
    """Sends what a table changes in the sheets as they were when it was made."""
    name = asked.table
    head, rows = rows_of(folder.read(name), name, asked.sheet)
    known = folder.load(KNOWN) or {}
    parts = {}
    for row in rows:
        if row.sheet not in known:
            raise Stop(f"{name}:{row.number}: of {row.sheet} no table was made here: call `table`")
        parts.setdefault(row.sheet, []).append(row)
    filling = Filling(server, folder, known)
    for sheet, part in parts.items():
        stand = filling.stand(sheet)
        filling.plan(sheet, filled(name, sheet, stand, head, part))
        if not asked.all:
            filling.respelled += respelled_cells(sheet, stand, head, part)
    return filling.send()


def rows_of(text, name, only=None):
    """The head of a table without its column of sheets, and its records, all or those of a sheet.
    A table without that column is one of the sheet that is asked for."""
    head, *records = records_of(text.removeprefix("\ufeff")) or [[]]
    if head[:1] == ["sheet"]:
        rows = [Row(at, fields[0], fields[1:]) for at, fields in enumerate(records, 2)]
        return head[1:], [row for row in rows if only in (None, row.sheet)]
    if only is None:
        raise Stop(f"{name}: its first column is no `sheet`: call `fill SHEET {name}`")
    return head, [Row(at, only, fields) for at, fields in enumerate(records, 2)]


def filled(table_name, sheet, stand, head, rows):
    """The new texts of the components of a sheet that records change, by id."""
    places = {str(key): str(place) for place, key in enumerate(stand.objects)}
    records = [head, *([places.get(it.fields[0], "none"), *it.fields[1:]] for it in by_id(rows))]
    with tempfile.TemporaryDirectory() as room:
        pathlib.Path(room, sheet).write_bytes(stand.text.encode())
        pathlib.Path(room, "table.csv").write_bytes(text_of(records).encode())
        _, said = run(["fill", sheet, "table.csv"], room)
        text = pathlib.Path(room, sheet).read_bytes().decode()
    if found := REFUSED.fullmatch(said):
        at = int(found[1])
        number = 1 if at == 1 else rows[at - 2].number
        raise Stop(f"{table_name}:{number}: {found[2]}")
    if said:
        raise Stop(said)
    now = dict(zip(stand.objects, sheet_of(sheet, text).texts))
    return {key: new for key, new in now.items() if new != stand.objects[key]}


def respelled_cells(sheet, stand, head, rows):
    """The cells that differ from those of the table that was made only as a spreadsheet spells
    numbers and dates."""
    names, records = sheet_table(sheet, stand)
    made = {str(key): dict(zip(names[1:], values)) for key, *values in records}
    for key, *cells in (row.fields for row in rows):
        for name, new in zip(head[1:], cells):
            old = made.get(key, {}).get(name, "")
            if is_respelled(old, new):
                item = item_of(stand.objects[int(key)])
                yield f"{sheet}: {named(item)}: {name}={old} is {new} now"


def by_id(rows):
    """The records; one without an id has an empty one, so that the program tells what it lacks."""
    return [row if row.fields else row._replace(fields=[""]) for row in rows]


class Filling:
    """What a table changes, sheet by sheet, and its way to the server."""

    def __init__(self, server, folder, known):
        self.server, self.folder, self.known = server, folder, known
        self.edits, self.others, self.respelled = [], [], []

    def stand(self, sheet):
        """A sheet as it was when its table was made."""
        head, objects = self.known[sheet]
        return Stand(0, head, {key: text for key, text in objects})

    def plan(self, sheet, texts):
        """Plans the edits of a sheet. Components that others changed since are told apart."""
        then, now = self.stand(sheet).objects, self.server.sheet(sheet)
        for key, text in texts.items():
            item, found = item_of(then[key]), now and now.objects.get(key)
            if found == text:
                self.note(sheet, key, text)
            elif found != then[key]:
                self.others.append(f"{sheet}: {named(item)} was changed by others since the table")
            else:
                body = {"kind": "replace", "id": key, "text": text}
                edit = Edit(body, f"{key}, {named(item)}", {key: text}, {**body, "text": found})
                self.edits.append((sheet, item, edit, now.front))

    def note(self, sheet, key, text):
        """A component is as the table has it now."""
        head, objects = self.known[sheet]
        self.known[sheet] = head, [(at, text if at == key else it) for at, it in objects]

    def send(self):
        """Sends the edits; none where others changed a component of one of them, or a spreadsheet
        spelled cells anew."""
        if self.others:
            print("\n".join(self.others))
            print("nothing was sent: take a new table, and fill in there what you changed")
            return 1
        if self.respelled:
            print("\n".join(self.respelled))
            print(
                "nothing was sent: a spreadsheet spells numbers and dates so. Open the table anew"
                " with all columns as text; `fill --all` sends these cells too"
            )
            return 1
        push, count = Push(self.server, self.folder, []), 0
        try:
            for sheet, item, edit, base in self.edits:
                self.send_one(push, sheet, item, edit, base)
                count += 1
        finally:
            self.folder.keep(KNOWN, self.known)
            push.is_left = count < len(self.edits)
            push.end()
        print(f"filled {count}" + ("; `pull` brings it" if count else ""))
        return 0

    def send_one(self, push, sheet, item, edit, base):
        try:
            push.send(sheet, edit, base)
        except Refused as refused:
            raise Stop(f"{sheet}: {named(item)}: {told(refused.fault)}") from None
        for key, text in edit.texts.items():
            self.note(sheet, key, text)


def named(item):
    """A component by its refdes."""
    return item.attribute("refdes") or str(item)
