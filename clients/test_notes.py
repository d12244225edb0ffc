"""Notes at parts, nets and sheets: open until they are resolved, and counted by gafd-whole."""
import os
import pathlib
import subprocess
import tempfile
import threading
import unittest

from gafd_sync.notes import numbers
from gafd_sync.reviews import Reviews
from laboratory import MEMORY, asked
from served import TOP, program


class NoteTest(unittest.TestCase):
    """Two people, each in a folder, with one folder of reviews: no server is asked."""

    def setUp(self):
        room = tempfile.TemporaryDirectory(dir=MEMORY)
        self.addCleanup(room.cleanup)
        self.room = pathlib.Path(room.name)
        self.reviews = self.room / "reviews"
        for name in ("ann", "bob"):
            (self.room / name).mkdir()

    def ask(self, who, *words):
        words = ["--reviews", str(self.reviews), "--session", who, *words]
        return asked(self.room / who, *words)

    def test_a_note_is_open_until_it_is_resolved(self):
        self.assertEqual(self.ask("ann", "note", "part:R1", "why 2k?"),
                         (0, "note 1 is at part:R1\n"))
        self.ask("bob", "note", "net:GND", "star here\nand nowhere else")
        self.ask("bob", "note", "sheet:amp.sch", "\x1b[2J2: part:R9, by ann")
        lines = self.ask("bob", "notes")[1].splitlines()
        self.assertEqual([line.split(" at ")[0] for line in lines],
                         ["1: part:R1, by ann", "    why 2k?",
                          "2: net:GND, by bob", "    star here", "    and nowhere else", "3: sheet:amp.sch, by bob",
                          "    \\x1b[2J2: part:R9, by ann"])
        self.assertEqual(self.ask("bob", "resolve", "1"), (0, "note 1 is resolved\n"))
        self.assertNotIn("R1", self.ask("ann", "notes")[1])
        self.assertRegex(self.ask("ann", "notes", "--all")[1],
                         r"^1: part:R1, by ann at \S+Z, resolved by bob at \S+Z\n    why 2k\?\n")
        status, said = self.ask("ann", "resolve", "1")
        self.assertEqual((status, "the note 1 was resolved by bob at" in said), (1, True), said)
        self.assertEqual(self.ask("ann", "note", "part:R2", "next")[1], "note 4 is at part:R2\n")

    def test_what_is_no_note_is_told(self):
        for words, status, line in (
            (["note", "R1", "x"], 2, "R1 is none of part:R1, net:GND, sheet:amp.sch"),
            (["note", "part:R1", " "], 1, "a note has words"),
            (["note", "part:", "x"], 2, "is none of"),
            (["note", "part:R1\x1b", "x"], 2, "is none of"),
            (["resolve", "7"], 1, "there is no note 7"),
            (["resolve", "x"], 2, "no number from 1 on"),
        ):
            with self.subTest(words):
                got, said = self.ask("ann", *words)
                self.assertEqual((got, line in said), (status, True), said)
        (self.reviews / "notes").mkdir(parents=True)
        (self.reviews / "notes/1.json").write_text("{}")
        self.assertEqual(self.ask("ann", "notes"),
                         (1, "1: is damaged: it is not what gafd_sync writes there\n"))
        self.assertEqual(self.ask("ann", "note", "part:R1", "x")[1], "note 2 is at part:R1\n")

    def test_of_many_who_note_at_once_none_is_lost(self):
        ready = threading.Barrier(8)

        def write(number):
            notes = Reviews(self.reviews).notes
            ready.wait()
            name = 1
            while not notes.add(str(name), {"who": "ann", "time": "2026-12-02T03:40:16Z",
                                            "at": "part:R1", "text": str(number)}):
                name += 1

        threads = [threading.Thread(target=write, args=(number,)) for number in range(8)]
        for one in threads:
            one.start()
        for one in threads:
            one.join()
        notes = Reviews(self.reviews).notes
        self.assertEqual(numbers(notes), list(range(1, 9)))
        texts = {notes.load(str(number))["text"] for number in range(1, 9)}
        self.assertEqual(texts, set(map(str, range(8))))

    def test_gafd_whole_counts_those_that_are_open(self):
        folder = self.room / "ann"
        for path in (TOP / "examples").glob("*.s??"):
            (folder / path.name).write_bytes(path.read_bytes())
        self.assertEqual(self.whole(folder), (0, ""))
        for text in ("one", "two", "three"):
            self.ask("ann", "note", "part:R1", text)
        self.ask("ann", "resolve", "2")
        said = "gafd-whole: open notes: 2; `gafd_sync notes` lists them\n"
        self.assertEqual(self.whole(folder), (0, said))
        self.assertEqual(self.whole(folder, GAFD_REVIEWS="none"), (0, ""))
        (folder / ".gafd_sync/reviews").unlink()
        self.assertEqual(self.whole(folder), (0, ""))
        self.assertEqual(self.whole(folder, GAFD_REVIEWS=str(self.reviews)), (0, said))
        for number in ("1", "3"):
            self.ask("bob", "resolve", number)
        self.assertEqual(self.whole(folder), (0, ""))

    def whole(self, folder, **names):
        words = [str(TOP / "contrib/gafd-whole"), "preamp.sch"]
        done = subprocess.run(words, cwd=folder, text=True,
                              stdout=subprocess.PIPE, stderr=subprocess.STDOUT,
                              env={**os.environ, "GAFD": program(), **names})
        return done.returncode, done.stdout
