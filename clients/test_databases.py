"""Stores that are databases: their history, a backup of them, and whether one is whole."""
import json
import pathlib
import sqlite3
import tempfile
import unittest
from contextlib import closing

from laboratory import asked

TABLE = "create table entry_rows (serial integer primary key, body blob not null)"


def row(number, edit, base=0):
    entry = {"session": "ann", "number": number, "base": base, "edit": edit, "version": 2}
    return json.dumps(entry, separators=(",", ":"), sort_keys=True).encode()


class DatabaseTest(unittest.TestCase):
    def setUp(self):
        room = tempfile.TemporaryDirectory()
        self.addCleanup(room.cleanup)
        self.room = pathlib.Path(room.name)
        self.rows = [row(1, {"kind": "renumber"}), row(2, {"kind": "undo", "serial": 0}, 1)]
        self.make(enumerate(self.rows))

    def make(self, rows):
        (self.room / "amp.db").unlink(missing_ok=True)
        with closing(sqlite3.connect(self.room / "amp.db")) as connection, connection:
            connection.execute(TABLE)
            connection.executemany("insert into entry_rows values (?, ?)", rows)

    def asked(self, *words):
        return asked(self.room, *words)

    def test_the_history_of_a_database_is_told(self):
        said = "0 ann 1 renumber\n1 ann 2 undo 0\n"
        self.assertEqual(self.asked("history", "amp.db"), (0, said))

    def test_a_backup_of_a_database_is_a_folder(self):
        said = "2 rows, of which 2 came now\n"
        self.assertEqual(self.asked("backup", "amp.db", "amp.backup"), (0, said))
        names = sorted(path.name for path in (self.room / "amp.backup").iterdir())
        self.assertEqual(names, ["0000000000.json", "0000000001.json"])
        last = (self.room / "amp.backup" / names[1]).read_bytes()
        self.assertEqual(last, self.rows[1] + b"\n")

    def test_a_whole_database_is_told(self):
        said = "amp.db: 2 rows, whole and without a gap; the next has serial 2\n"
        self.assertEqual(self.asked("check", "amp.db"), (0, said))

    def test_a_row_that_is_missing_is_told(self):
        self.make([(0, self.rows[0]), (2, self.rows[1])])
        status, said = self.asked("check", "amp.db")
        self.assertEqual(status, 1)
        self.assertIn("amp.db: the row 1 is missing, and the row 2 is there\n", said)

    def test_a_row_that_is_no_row_is_told(self):
        self.make([(0, b"{}")])
        status, said = self.asked("check", "amp.db")
        self.assertEqual(status, 1)
        self.assertIn("amp.db: the row 0 is no row: it is no entry\n", said)


if __name__ == "__main__":
    unittest.main()
