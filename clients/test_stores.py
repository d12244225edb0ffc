"""Stores on the disk: their history, their backup, and whether one is whole."""
import json
import os
import pathlib
import shutil
import subprocess
import unittest

from gafd_sync.rows import row_name
from laboratory import Laboratory, asked
from served import TOP


class StoreTest(Laboratory):
    def row(self, serial):
        return pathlib.Path(self.server.store, row_name(serial))

    def checked(self):
        return asked(self.room, "check", "store")

    def test_the_history_of_an_object_is_told(self):
        self.both_start()
        self.bob.draws("value=1k\n", "value=3k\n")
        self.bob("push", "preamp.sch")
        self.bob("undo")
        status, said = asked(self.room, "history", self.server.store, "30")
        self.assertEqual(status, 0)
        first, then = "8 ann 9 add_sheet preamp.sch", "9 bob 1 replace 30 C R3 res.sym"
        self.assertEqual(said.splitlines(), [first, then, "10 bob 2 undo 9"])
        self.row(10).write_bytes(self.row(10).read_bytes()[:20])
        said = asked(self.room, "history", self.server.store, "30")[1]
        self.assertEqual(said.splitlines(), [first, then])

    def test_a_backup_takes_what_came_and_is_served(self):
        self.both_start()
        words = ("backup", self.server.store, str(self.room / "copied"))
        self.assertEqual(asked(self.room, *words), (0, "9 rows, of which 9 came now\n"))
        self.ann.draws("value=1k\n", "value=2k\n")
        self.ann("push", "preamp.sch")
        self.assertEqual(asked(self.room, *words), (0, "10 rows, of which 1 came now\n"))
        other = self.served("copied")
        for path in ("/sheets/preamp.sch", "/netlist/list"):
            self.assertEqual(self.answer(path, other.url), self.answer(path))
        self.ann.path("b.sch").write_text("v 20130925 2\n")
        self.ann("push", "b.sch")
        (self.room / "copied" / row_name(10)).write_text("{}\n")
        self.assertEqual(asked(self.room, *words)[0], 1)

    def test_a_backup_refuses_a_gap(self):
        self.both_start()
        words = ("backup", "store", "copied")
        row = self.row(4)
        data = row.read_bytes()
        for broken in (None, data[:-1], b""):
            with self.subTest(broken):
                row.unlink(missing_ok=True) if broken is None else row.write_bytes(broken)
                status, said = asked(self.room, *words)
                self.assertEqual((status, row_name(4) in said), (1, True), said)
        self.assertEqual(len(list((self.room / "copied").glob("*.json"))), 4)
        row.write_bytes(data)
        # An unfinished last row counts as not there, and is no gap.
        last = self.row(8)
        last.write_bytes(last.read_bytes()[:-1])
        self.assertEqual(asked(self.room, *words), (0, "8 rows, of which 4 came now\n"))

    def test_a_whole_store_is_told(self):
        wanted = "store: 9 rows, whole and without a gap; the next has serial 9\n"
        self.both_start()
        self.assertEqual(self.checked(), (0, wanted))
        self.ann.draws("device=RESISTOR", "device=OTHER", "res.sym")
        self.assertEqual(self.ann("push", "res.sym")[0], 0)
        self.assertEqual(self.checked(), (0, wanted.replace("9", "10")))
        self.row(9).write_bytes(self.row(9).read_bytes()[:-1])
        status, said = self.checked()
        self.assertEqual((status, f"{row_name(9)} is unfinished" in said), (0, True), said)
        self.assertIn("9 rows", said)

    def test_what_is_wrong_with_a_store_is_told(self):
        self.both_start()
        row = self.row(4)
        data = row.read_bytes()
        entry = json.loads(data)
        edit = {"kind": "move", "ids": [3, 2], "dx": 0, "dy": 0}
        cases = [
            (None, "is missing, and 0000000008.json is there"),
            (data[:-1], "is cut: it has no end, and rows are behind it"),
            (b"", "is cut"),
            (bytes(len(data)), "is cut"),
            (b"junk\n", "is no row: it is no JSON"),
            (b"[]\n", "is no row: it is no entry"),
            (data.replace(b"0", b"1", 1), "is no row: its sum is that of another row"),
            ({**entry, "more": 1}, "is no row: it is no entry"),
            ({**entry, "number": "5"}, "is no row: it is no entry"),
            ({**entry, "edit": edit}, "is no row: it is no edit move"),
            ({**entry, "version": 1}, "is in no row of version 1"),
            ({**entry, "base": 5}, "has the base 5, which is above its serial"),
            ({**entry, "number": 9}, "has the number 9 of ann, and 5 was due"),
        ]
        for broken, wanted in cases:
            with self.subTest(wanted):
                if broken is None:
                    row.unlink()
                elif isinstance(broken, bytes):
                    row.write_bytes(broken)
                else:
                    row.write_text(json.dumps(broken) + "\n")
                status, said = self.checked()
                self.assertEqual((status, wanted in said), (1, True), said)
                self.assertIn(row_name(4), said)
        row.write_bytes(data)
        self.assertEqual(self.checked()[0], 0)

    def test_a_row_far_behind_the_end_is_a_gap(self):
        self.both_start()
        self.row(9_999_999_999).write_bytes(self.row(4).read_bytes())
        wanted = "store: 0000000009.json is missing, and 9999999999.json is there"
        status, said = self.checked()
        self.assertEqual((status, said.splitlines()[0]), (1, wanted))
        self.assertEqual(asked(self.room, "backup", "store", "copied")[0], 1)

    def test_owner_and_rights_are_looked_at(self):
        self.both_start()
        store = pathlib.Path(self.server.store)
        for mode, wanted in ((0o777, "others may write into it"), (0o755, "9 rows, whole")):
            store.chmod(mode)
            self.assertIn(wanted, self.checked()[1])
        (store / "copy.json").write_text("{}\n")
        self.assertIn("copy.json is no row", self.checked()[1])
        (store / "copy.json").unlink()
        self.row(3).unlink()
        self.row(3).symlink_to("0000000002.json")
        self.assertIn("0000000003.json is no row: it is no file", self.checked()[1])
        self.assertEqual(asked(self.room, "check", "nowhere")[0], 1)

    @unittest.skipIf(os.geteuid(), "another user owns nothing here")
    def test_another_owner_is_told(self):
        self.both_start()
        os.chown(self.row(3), 65534, -1)
        self.assertIn("0000000003.json belongs to another user", self.checked()[1])

    def test_all_is_copied_to_an_empty_server(self):
        for name in ("stereo.sch", "channel.sch"):
            (self.ann.folder / name).write_bytes((TOP / "examples" / name).read_bytes())
        self.ann("push", "stereo.sch", "channel.sch", "preamp.sch")
        other = self.served("second")
        status, said = self.ann("copy", other.url)
        self.assertEqual((status, "both netlists are the same" in said), (0, True), said)
        for path in ("/sheets/stereo.sch", "/symbols/res.sym", "/netlist/list", "/drc"):
            self.assertEqual(self.answer(path, other.url), self.answer(path), path)
        self.assertEqual(self.ann("copy", other.url)[0], 1)


@unittest.skipUnless(shutil.which("git") and shutil.which("curl"), "there is no git, or no curl")
class ScriptTest(Laboratory):
    """The scripts of contrib/ that look at a served board."""

    def setUp(self):
        super().setUp()
        client = self.room / "gafd_sync"
        client.write_text(f'#!/bin/sh\nexec python3 -B "{TOP}/clients/gafd_sync" "$@"\n')
        client.chmod(0o755)
        self.log = self.room / "log"
        self.log.mkdir()
        self.place = {**os.environ, "GAFD_SYNC": str(client), "HOME": str(self.room)}
        self.git("init", "-q")

    def run_in_log(self, *words):
        found = subprocess.run(words, cwd=self.log, env=self.place, capture_output=True, text=True)
        return found.returncode, found.stdout + found.stderr

    def git(self, *words):
        status, said = self.run_in_log("git", *words)
        self.assertEqual(status, 0, said)
        return said

    def logged(self):
        words = str(TOP / "contrib/gafd-log"), self.server.store, self.server.url
        self.assertEqual(self.run_in_log(*words), (0, ""))

    def test_each_new_front_is_a_commit_of_who_edited(self):
        self.both_start()
        self.logged()
        for engineer, old, new in ((self.bob, "1k", "2k"), (self.ann, "10k", "20k")):
            engineer.draws(f"value={old}\n", f"value={new}\n")
            engineer("push", "preamp.sch")
        self.bob.draws("value=1u\n", "value=2u\n")
        self.bob("push", "preamp.sch")
        self.logged()
        self.logged()
        self.assertEqual(self.git("log", "--format=%an").split(), ["bob", "ann"])
        said = self.git("log", "-1", "--format=%s%n%b")
        for line in ("Edits 9 to 11", "9 bob replace", "Co-authored-by: ann", "Front: 12"):
            self.assertIn(line, said)
        self.assertEqual((self.log / "preamp.sch").read_text(), self.answer("/sheets/preamp.sch"))
        self.assertIn("value=2u", self.git("show", "HEAD"))
        self.assertEqual(self.git("status", "--short"), "?? .gafd_sync/\n")

    def test_what_became_worse_is_told_once(self):
        self.both_start()
        words = str(TOP / "contrib/gafd-worse"), "found", self.server.url
        self.assertEqual(self.run_in_log(*words), (0, ""))
        self.bob.draws("N 44500 47400 44500 48000 4\n", "")
        self.bob("push", "preamp.sch")
        status, said = self.run_in_log(*words)
        self.assertEqual((status, said), (7, "error UnconnectedPin R1-2\n"))
        self.assertEqual(self.run_in_log(*words), (0, ""))
        self.server.stop()
        self.assertEqual(self.run_in_log(*words)[0], 3)
