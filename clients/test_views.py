"""Tests gafd_sync beside a gafd_view: who changed what, and the board as it was."""
import pathlib
import select
import subprocess
import sys

from laboratory import SHEET, WIRE, Laboratory
from served import ENDS, TOP

PATIENCE = 240


class ViewLaboratory(Laboratory):
    """A laboratory whose board is looked at, by a page with these words more."""

    words = []

    def setUp(self):
        super().setUp()
        words = [sys.executable, str(TOP / "clients/gafd_view"), "--port", "0"]
        words += [word.format(room=self.room) for word in self.words]
        words += ["--store", str(self.server.store), self.server.url]
        view = subprocess.Popen(words, stdout=subprocess.PIPE, text=True)
        ENDS.append(view.kill)
        self.addCleanup(self.ended, view)
        ready, _, _ = select.select([view.stdout], [], [], PATIENCE)
        self.view = view.stdout.readline().strip() if ready else ""
        self.assertTrue(self.view.startswith("http://"), self.view)
        self.both_start()

    def ended(self, view):
        view.terminate()
        view.wait(PATIENCE)
        view.stdout.close()


class WhoTest(ViewLaboratory):
    def test_who_changed_what_is_told(self):
        self.ann.draws("value=1k\n", "value=2k\n")
        self.ann.draws("value=10k\n", "value=12k\n")
        self.ann.draws("N 44500 47400 44500 48000 4\n", WIRE)
        self.assertEqual(self.ann("push", "preamp.sch")[0], 0)
        said = self.bob("--view", self.view, "pull")[1]
        for line in ("changed by ann, edit 9: 26, C R2", "changed by ann, edit 10: 30, C R3",
                     "added by ann, edit 11: 46, N 100", "deleted by ann, edit 12: 20, N 44500"):
            self.assertIn(line, said)
        self.assertNotIn("others", said)

    def test_the_folder_remembers_the_view(self):
        self.bob("--view", self.view, "pull")
        self.ann.draws("value=1k\n", "value=2k\n")
        self.ann("push", "preamp.sch")
        self.assertIn("changed by ann, edit 9: 30, C R3", self.bob("diff")[1])
        self.assertIn("changed by others: 30, C R3", self.bob("--view", "", "diff")[1])

    def test_what_came_and_went_is_told(self):
        self.ann.path().write_text(SHEET.read_text() + WIRE)
        self.ann("push", "preamp.sch")
        self.ann.draws(WIRE, "N 200 100 1000 100 4\n")
        self.ann("push", "preamp.sch")
        self.assertIn("added by ann, edit 9: 46, N 200", self.bob("--view", self.view, "pull")[1])
        self.ann.draws("N 200 100 1000 100 4\n", "")
        self.ann("push", "preamp.sch")
        self.assertIn("deleted by ann, edit 11: 46, N 200", self.bob("diff")[1])
        self.bob("pull")
        self.ann("undo")
        self.assertIn("added by ann, edit 12: 46, N 200", self.bob("diff")[1])

    def test_many_that_moved_are_one_line(self):
        text = "".join(f"N {at} 0 {at} 100 4\n" for at in range(1, 2501))
        self.ann.path("wires.sch").write_text("v 20130925 2\n" + text)
        self.ann("push", "wires.sch")
        self.bob("--view", self.view, "pull")
        self.ann.path("wires.sch").write_text("v 20130925 2\n" + text.replace(" 0 ", " 300 ")
                                              .replace(" 100 4", " 400 4"))
        self.assertEqual(self.kinds(self.ann("push", "wires.sch")[1]), ["move"] * 3)
        said = self.bob("pull")[1].splitlines()
        moved = [line for line in said if "moved by 0,300" in line]
        self.assertEqual([line.split(": ")[1] for line in moved],
                         [f"moved by 0,300 by ann, edit {serial}" for serial in (10, 11, 12)])

    def test_a_conflict_names_who(self):
        self.ann.draws("value=1k\n", "value=2k\n")
        self.ann("push", "preamp.sch")
        self.bob.draws("value=1k\n", "value=3k\n")
        for words in (("push", "preamp.sch"), ("pull",), ("diff",)):
            said = self.bob("--view", self.view, *words)[1]
            self.assertIn("changed by ann, edit 9, and by you: 30, C R3", said)

    def test_a_number_is_of_who_numbered(self):
        self.ann.draws("refdes=C2\n", "refdes=C?\n")
        self.ann("push", "preamp.sch")
        self.bob("--view", self.view, "pull")
        self.ann.draws("value=1k\n", "value=2k\n")
        self.ann("push", "preamp.sch")
        self.bob("renumber")
        said = self.ann("--view", self.view, "pull")[1]
        self.assertIn("changed by bob, edit 11: 39, C C2", said)
        said = self.bob("pull")[1]
        self.assertIn("changed by bob, edit 11: 39, C C2", said)
        self.assertIn("changed by ann, edit 10: 30, C R3", said)

    def test_who_changed_a_symbol_is_told(self):
        self.ann.draws("footprint=ACY400\n", "footprint=ACY300\n", "res.sym")
        self.ann("push", "res.sym")
        self.assertIn("res.sym: changed by ann, edit 9\n", self.bob("--view", self.view, "diff")[1])
        self.bob.draws("footprint=ACY400\n", "footprint=ACY500\n", "res.sym")
        self.assertIn("res.sym: changed by ann, edit 9, and by you\n",
                      self.bob("--view", self.view, "pull")[1])

    def test_a_view_that_is_away_stops_nothing(self):
        self.ann.draws("value=1k\n", "value=2k\n")
        self.ann("push", "preamp.sch")
        status, said = self.bob("--view", "http://127.0.0.1:9", "pull")
        self.assertEqual(status, 0)
        self.assertIn("does not tell who changed what: ", said)
        self.assertIn("changed by others: 30, C R3", said)


class PastTest(ViewLaboratory):
    def setUp(self):
        super().setUp()
        self.ann.draws("value=1k\n", "value=2k\n")
        self.ann.draws("footprint=ACY400\n", "footprint=ACY300\n", "res.sym")
        self.ann("push", "preamp.sch")

    def test_the_board_as_it_was_is_written(self):
        for number, words in enumerate((["--view", self.view, "at"],
                                        ["at", "--store", self.server.store])):
            name = f"then{number}"
            status, said = self.ann(*words, "9", name)
            self.assertEqual((status, said.splitlines()[0]),
                             (0, "preamp.sch: written, 46 objects, as after 9 edits"))
            then = self.ann.folder / name
            self.assertEqual((then / "preamp.sch").read_bytes(), SHEET.read_bytes())
            for path in self.bob.folder.glob("*.sym"):
                self.assertEqual((then / path.name).read_bytes(), path.read_bytes())
            names = {path.name for path in then.iterdir()}
            self.assertEqual(names, {path.name for path in self.bob.folder.glob("[!.]*")})
            self.assertEqual(self.ann(*words, "0", name + "_none")[0], 0)

    def test_any_two_moments_are_compared(self):
        store = str(self.server.store)
        told = [self.ann(*words) for words in (["compare", "--store", store, "9", "11"],
                                               ["--view", self.view, "compare", "11", "9"])]
        for (status, said), who in zip(told, ("ann", "others")):
            self.assertEqual(status, 1, said)
            for line in (f"preamp.sch: changed by {who}: ", "    -value=1k", "    +value=2k",
                         f"res.sym: changed by {who}", "    +footprint=ACY300",
                         "nets: parts 8 nets 10 before, parts 8 nets 10 after",
                         "    < part R3 RESISTOR 1k ACY400", "    > part R3 RESISTOR 2k ACY300",
                         "check: errors 1 warnings 0 before, errors 1 warnings 0 after"):
                self.assertIn(line, said)
        status, said = self.ann("compare", "--store", store, "11", "11")
        self.assertEqual((status, len(said.splitlines())), (0, 2), said)
        status, said = self.ann("compare", "--store", store, "0", "9")
        self.assertEqual((status, " added by ann" in said), (1, True), said)

    def test_what_cannot_be_written_is_told(self):
        cases = [
            (["--view", self.view, "at", "12", "late"], 1, "has no 12 edits"),
            (["at", "--store", self.server.store, "12", "late"], 1, "has no 12 rows"),
            (["at", "1", "then"], 2, "which board?"),
            (["compare", "1", "2"], 2, "which board?"),
            (["compare", "--store", self.server.store, "1", "12"], 1, "has no 12 rows"),
            (["--view", self.view, "at", "9", "."], 1, ". is not empty"),
            (["--view", self.view, "at", "x", "then"], 2, "no number of edits"),
        ]
        for words, status, line in cases:
            with self.subTest(line):
                got, said = self.ann(*words)
                self.assertEqual(got, status, said)
                self.assertIn(line, said)
        self.assertFalse(pathlib.Path(self.ann.folder, "late").exists())
