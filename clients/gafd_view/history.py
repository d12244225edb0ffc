"""The edits of a server's store, which are read beside the server: who, what and when.

Rows are never changed, but they may go: a store may be cut short, or replaced by its backup.
"""
import json
import pathlib
import re
import threading
import time
from typing import NamedTuple, Optional, Sequence

from sheet_text import count_objects

ROW = re.compile(r"[0-9]{10}\.json")
MOST_ROWS = 1000
MOST_TEXT = 200


class History:
    """The rows of a store, of which each is read once, when it is first asked for."""

    def __init__(self, store):
        self.store, self.lock = pathlib.Path(store), threading.Lock()
        self.length, self.rows = 0, {}
        self.touched = Touched()

    def front(self):
        """How many rows there are: up to the first serial that has none."""
        with self.lock:
            return self.count()

    def count(self):
        if self.length and not self.path(self.length - 1).exists():
            self.length, self.rows, self.touched = 0, {}, Touched()
        if self.length == 0:
            self.length = self.count_all()
        while self.path(self.length).exists():
            self.length += 1
        return self.length

    def count_all(self):
        try:
            names = {it.name for it in self.store.iterdir() if ROW.fullmatch(it.name)}
        except OSError:
            return 0
        return next(n for n in range(len(names) + 1) if self.path(n).name not in names)

    def path(self, serial):
        return self.store / f"{serial:010}.json"

    def entry(self, serial):
        """A row with the time of its file; None where it is not there, or not whole."""
        try:
            text = self.path(serial).read_text(encoding="utf-8")
            entry = json.loads(text) if text.endswith("\n") else None
            return entry and (entry, self.path(serial).stat().st_mtime)
        except (OSError, ValueError):
            return None

    def row(self, serial):
        """A row with its serial and time, and with long texts cut; None where there is none."""
        if serial not in self.rows:
            found = self.entry(serial)
            if found is None:
                return None
            entry, when = found
            when = time.strftime("%Y-%m-%dT%H:%M:%SZ", time.gmtime(when))
            # The version of a row tells how it is spelled, and nothing of the edit.
            entry.pop("version", None)
            edit = {key: it[:MOST_TEXT] if isinstance(it, str) else it
                    for key, it in entry.pop("edit").items()}
            self.rows[serial] = {"serial": serial, "time": when, **entry, "edit": edit}
        return self.rows[serial]

    def since(self, serial):
        """At most 1,000 rows from a serial on."""
        with self.lock:
            serials = range(serial, min(self.count(), serial + MOST_ROWS))
            rows = [self.row(it) for it in serials]
            return rows[:rows.index(None)] if None in rows else rows

    def who(self, number):
        """The last row that changed an object, or None; and the last numbering after it, or None.

        The row of a numbering does not tell which objects it changed, nor whether it changed any.
        """
        self.catch_up()
        with self.lock:
            last, numbering = self.touched.last.get(number), self.touched.numbering
            is_later = numbering is not None and (last is None or numbering > last)
            return [None if it is None else self.row(it)
                    for it in (last, numbering if is_later else None)]

    def whose(self, numbers):
        """Of each object the serials of the last row that changed it, and of the one that brought
        it, or None; the serial of the last numbering; and these rows."""
        self.catch_up()
        with self.lock:
            touched = self.touched
            last, brought = ([it.get(one) for one in numbers]
                             for it in (touched.last, touched.brought))
            serials = {*last, *brought, touched.numbering} - {None}
            rows = [row for it in sorted(serials) if (row := self.row(it))]
        return {"last": last, "brought": brought, "numbering": touched.numbering, "rows": rows}

    def who_symbol(self, name):
        """The last row that changed a symbol, or None."""
        self.catch_up()
        with self.lock:
            serial = self.touched.last_symbol.get(name)
            return None if serial is None else self.row(serial)

    def changed(self, serial):
        """The sheets and symbols that the rows from a serial on changed; None for all sheets."""
        self.catch_up()
        with self.lock:
            rows = self.touched.rows[serial:]
        sheets = set().union(*(it.sheets or () for it in rows))
        is_any = any(it.sheets is None for it in rows)
        return None if is_any else sheets, set().union(*(it.symbols for it in rows))

    def catch_up(self):
        """Reads the rows that were not read yet, some at once, so that others are answered
        meanwhile."""
        is_more = True
        while is_more:
            with self.lock:
                length = self.count()
                ends = min(length, self.touched.length + MOST_ROWS)
                for serial in range(self.touched.length, ends):
                    found = self.entry(serial)
                    if found is None:
                        return
                    self.touched.add(found[0]["edit"])
                is_more = ends < length


class Row(NamedTuple):
    """What an edit changed: ids of objects, names of sheets, or None for any sheet, and of symbols;
    and whether it brought these objects, or took them away."""

    ids: Sequence[int] = ()
    sheets: Optional[frozenset] = frozenset()
    symbols: frozenset = frozenset()
    brings: bool = False
    takes: bool = False

    def undone(self):
        """What its undo changed."""
        return self._replace(brings=self.takes, takes=self.brings)


class Touched:
    """What each row changed, as far as the rows tell it. They are added in their order."""

    def __init__(self):
        self.rows, self.next_id, self.numbering = [], 0, None
        self.last, self.brought, self.last_symbol, self.sheet_of = {}, {}, {}, {}

    @property
    def length(self):
        return len(self.rows)

    def add(self, edit):
        row = self.row_of(edit)
        for known in (self.last, self.brought) if row.brings else (self.last,):
            known.update(dict.fromkeys(row.ids, self.length))
        self.last_symbol.update(dict.fromkeys(row.symbols, self.length))
        if row.sheets is None:
            self.numbering = self.length
        self.rows.append(row)

    def row_of(self, edit):
        kind = edit["kind"]
        if kind in ("add_sheet", "add_object"):
            return self.added(edit["name" if kind == "add_sheet" else "sheet"], edit["text"],
                              kind == "add_sheet")
        if kind in ("add_symbol", "replace_symbol"):
            return Row(symbols=frozenset([edit["name"]]))
        if kind == "renumber":
            return Row(sheets=None)
        if kind == "undo":
            return self.rows[edit["serial"]].undone()
        ids = edit.get("ids", [edit["id"]] if "id" in edit else [])
        return Row(ids, frozenset(self.sheet_of[it] for it in ids), takes=kind == "delete")

    def added(self, sheet, text, has_version):
        """Objects have ids from the next one on, in the order in which they come."""
        first = self.next_id
        self.next_id += count_objects(text, has_version)
        ids = range(first, self.next_id)
        self.sheet_of.update(dict.fromkeys(ids, sheet))
        return Row(ids, frozenset([sheet]), brings=True)
