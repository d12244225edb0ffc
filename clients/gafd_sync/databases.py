"""The rows of a store that is a database of SQLite, which `gafd store` makes."""
import pathlib
import sqlite3
import urllib.parse
from contextlib import closing

from .rows import NoRow, Rows, Unfinished, entry_of
from .words import Stop

FIRST_BYTES = b"SQLite format 3\0"


def is_database(store):
    try:
        with open(store, "rb") as file:
            return file.read(len(FIRST_BYTES)) == FIRST_BYTES
    except OSError:
        return False


def rows_of(store):
    """The rows of a store, which is a folder or a database."""
    return DatabaseRows(store) if is_database(store) else Rows(store)


class DatabaseRows:
    """The rows of a database, as `Rows` has those of a folder."""

    def __init__(self, store):
        self.store = pathlib.Path(store)
        place = f"file:{urllib.parse.quote(str(self.store.resolve()))}?mode=ro"
        try:
            with closing(sqlite3.connect(place, uri=True)) as connection:
                self.bodies = dict(connection.execute("select serial, body from entry_rows"))
        except sqlite3.Error as error:
            raise Stop(f"{store}: {error}; while `gafd` has it nobody else reads it") from None
        self.greatest = max(self.bodies, default=None)
        self.count = 0 if self.greatest is None else self.greatest + 1
        self.missing = [serial for serial in range(self.count) if serial not in self.bodies]

    def path(self, serial):
        return f"{self.store}: row {serial}"

    def data(self, serial):
        """The row, as a row file would have it."""
        if serial not in self.bodies:
            raise FileNotFoundError(serial)
        if type(self.bodies[serial]) is not bytes:
            raise NoRow("it is no blob")
        return self.bodies[serial] + b"\n"


def database_faults(rows, order_faults):
    """What is wrong with the rows: those that are missing, and then each in its order."""
    last = {}
    for serial in rows.missing:
        yield f"the row {serial} is missing, and the row {rows.greatest} is there"
    for serial in sorted(rows.bodies):
        try:
            entry = entry_of(rows.data(serial))
        except (NoRow, Unfinished) as why:
            yield f"the row {serial} is no row: {why}"
            continue
        yield from order_faults(serial, entry, last, not rows.missing)
