"""Findings that are accepted: a file of the reviews that gafd-accepted reads too."""
import os
import pathlib
import subprocess
import tempfile
import threading
import unittest

from gafd_sync.accepted import Accepted
from gafd_sync.reviews import Reviews
from laboratory import MEMORY
from served import TOP, program

OPEN_PIN = "error UnconnectedPin J1-6"


class AcceptedTest(unittest.TestCase):
    def setUp(self):
        room = tempfile.TemporaryDirectory(dir=MEMORY)
        self.addCleanup(room.cleanup)
        self.accepted = Accepted(Reviews(pathlib.Path(room.name, "reviews")))

    def findings(self):
        return [(it["finding"], it["who"], it["reason"]) for it in self.accepted.listed()]

    def test_what_is_accepted_is_told_until_it_is_taken_back(self):
        self.assertEqual(self.findings(), [])
        self.accepted.accept(OPEN_PIN, "ann", "a spare pin: see the case")
        self.accepted.accept("warning OnePin EN", "bob", "# a test point")
        self.accepted.accept(OPEN_PIN, "bob", "twice")
        self.assertEqual(self.findings(), [(OPEN_PIN, "ann", "a spare pin: see the case"),
                                           ("warning OnePin EN", "bob", "# a test point")])
        self.accepted.take_back(OPEN_PIN)
        self.accepted.take_back("error Conflict none")
        self.assertEqual(self.findings(), [("warning OnePin EN", "bob", "# a test point")])

    def test_lines_of_others_stay(self):
        self.accepted.reviews.folder.mkdir()
        text = f"findings 1\n# the spare pin\n{OPEN_PIN}\r\nerrors 1 warnings 0"
        self.accepted.path.write_text(text, newline="")
        self.assertEqual(self.findings(), [(OPEN_PIN, "", "the spare pin")])
        self.accepted.accept("warning OnePin EN", "ann", "a test point")
        self.accepted.take_back("warning OnePin EN")
        self.assertEqual(self.accepted.path.read_text(), text.replace("\r", "") + "\n")
        self.accepted.take_back(OPEN_PIN)
        self.assertEqual(self.accepted.path.read_text(),
                         "findings 1\n# the spare pin\nerrors 1 warnings 0\n")

    def test_of_many_who_accept_at_once_none_is_lost(self):
        names = [f"warning OnePin N{number}" for number in range(16)]
        threads = [threading.Thread(target=self.accepted.accept, args=(name, "ann", "meant"))
                   for name in names]
        for one in threads:
            one.start()
        for one in threads:
            one.join()
        self.assertEqual(sorted(it[0] for it in self.findings()), sorted(names))

    def test_the_script_reads_the_same_file(self):
        self.assertEqual(self.left(), OPEN_PIN + "\n")
        self.accepted.accept(OPEN_PIN, "ann", "a spare pin")
        self.assertEqual(self.left(), "")

    def left(self):
        """What gafd-accepted finds on a sheet that has an open pin."""
        file = self.accepted.path if self.accepted.path.exists() else "/dev/null"
        done = subprocess.run([str(TOP / "contrib/gafd-accepted"), str(file), "preamp.sch"],
                              cwd=TOP / "examples", env={**os.environ, "GAFD": program()},
                              stdout=subprocess.PIPE, text=True)
        return done.stdout
