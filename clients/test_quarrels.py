"""Quarrels: which objects are one in two files, and what of the other side `--mine` and `--theirs`
drop."""
from laboratory import WIRE, Laboratory

HEAD = "v 20130925 2\n"
SECOND = "N 100 3000 900 3000 4\n"
MOVED = "N 300 100 1100 100 4\n"


def part(x, refdes, value="1k", symbol="res.sym"):
    lines = [f"C {x} 5000 1 0 0 {symbol}", "{"]
    for at, text in enumerate((f"refdes={refdes}", f"value={value}")):
        lines += [f"T {x + 100} {5100 + 200 * at} 5 10 1 1 0 0 1", text]
    return "\n".join([*lines, "}", ""])


def named(y, net):
    return f"N 100 {y} 900 {y} 4\n{{\nT 200 {y} 5 10 1 1 0 0 1\nnetname={net}\n}}\n"


def small(text):
    """A part with a footprint."""
    return text.replace("\n}\n", "\nT 0 0 5 10 0 1 0 0 1\nfootprint=0603\n}\n")


class QuarrelLaboratory(Laboratory):
    def start(self, *texts):
        """A sheet of these objects is on the server, and both have it."""
        self.ann.path("a.sch").write_text(HEAD + "".join(texts))
        self.assertEqual(self.ann("push", "res.sym", "cap.sym", "gnd.sym", "a.sch")[0], 0)
        self.assertEqual(self.bob("pull")[0], 0)

    def saves(self, who, *texts):
        who.path("a.sch").write_text(HEAD + "".join(texts))

    def pushes(self, who, *texts):
        """What a push of a sheet of these objects says, and its edits."""
        self.saves(who, *texts)
        status, said = who("push", "a.sch")
        return status, self.kinds(said), said

    def board(self):
        return self.answer("/sheets/a.sch")


class PairTest(QuarrelLaboratory):
    def test_a_renamed_part_is_not_its_deleted_namesake_that_lay_far_away(self):
        self.start(small(part(500, "R1")), part(29500, "R9", "100n"))
        status, kinds, said = self.pushes(self.ann, small(part(600, "R9", "4k7")))
        self.assertEqual((status, sorted(kinds)), (0, ["delete", "replace"]))
        self.assertIn("replace 0, C R9 res.sym", said)

    def test_a_part_that_went_far_and_was_changed_keeps_its_name(self):
        self.start(small(part(500, "R1")), small(part(29500, "R9", "100n")))
        _, _, said = self.pushes(self.ann, small(part(600, "R9", "4k7")))
        self.assertIn("replace 1, C R9 res.sym", said)

    def test_what_has_nothing_in_common_went_and_came(self):
        gone = ["add_object", "delete"]
        cases = [
            ("another letter", [WIRE], [part(100, "R9")], gone),
            ("another wire far away", [WIRE], ["N 5000 100 5500 100 4\n"], gone),
            ("another wire near by", [WIRE], ["N 300 300 900 300 4\n"], ["replace"]),
            ("a part with another name far away", [part(100, "R1")], [part(2000, "R9")], gone),
            ("a part with another name near by", [part(100, "R1")], [part(900, "R9")], ["replace"]),
            ("another symbol near by", [part(100, "R1")],
             [part(900, "C9", symbol="cap.sym")], gone),
            ("the same name far away", [part(100, "R1")], [part(9000, "R1", "2k")], ["replace"]),
            ("two that changed their names", [part(100, "R1"), part(2000, "R2", "2k")],
             [part(100, "R2"), part(2000, "R1", "2k")], ["replace"] * 2),
            ("one that is gone, and the next in its place", [part(100, "R1"), part(900, "R2")],
             [part(100, "R2")], ["move", "delete"]),
            ("another part without a number", [part(100, "R?")], [part(9000, "R?", "2k")], gone),
            ("a wire that is gone, and one that has its name now",
             [named(100, "A"), named(3000, "B")], [named(3000, "A")], ["replace", "delete"]),
            ("a copy under the old name, and the old one changed", [part(100, "R1")],
             [part(100, "R1", "2k"), part(400, "R1")], ["replace", "add_object"]),
        ]
        self.start(WIRE)
        for what, old, new, wanted in cases:
            with self.subTest(what):
                self.assertEqual(self.pushes(self.ann, *old)[0], 0)
                status, kinds, said = self.pushes(self.ann, *new)
                self.assertEqual((status, kinds), (0, wanted), said)
                self.assertEqual(self.ann.objects("a.sch"), sorted(new))

    def test_which_of_two_came_is_told_by_the_rest(self):
        """bob changes a value of the part that ann gave the other's name."""
        old = [part(100, "R1", "1k"), part(2000, "R2", "2k")]
        self.start(*old)
        self.assertEqual(self.pushes(self.ann, part(100, "R2", "1k"), part(2000, "R1", "2k"))[0], 0)
        self.saves(self.bob, old[0], part(2000, "R2", "5k"))
        status, said = self.bob("pull")
        self.assertEqual((status, said.count("changed by others and by you")), (1, 1), said)
        self.assertEqual(self.bob("pull", "--theirs", "a.sch")[0], 0)
        wanted = [part(100, "R2", "1k"), part(2000, "R1", "2k")]
        self.assertEqual(self.bob.objects("a.sch"), sorted(wanted))


class LeftTest(QuarrelLaboratory):
    def test_a_new_part_stays_where_a_colleague_keeps_his_wire(self):
        self.start(WIRE, SECOND)
        new = part(5000, "R9")
        status, kinds, said = self.pushes(self.ann, SECOND, new)
        self.assertEqual((status, kinds), (0, ["add_object", "delete"]), said)
        self.assertEqual(self.pushes(self.bob, MOVED, SECOND)[0], 1)
        status, said = self.bob("pull", "--mine", "a.sch")
        self.assertEqual((status, "dropped" in said), (0, False), said)
        self.assertEqual(self.bob("push", "a.sch")[0], 0)
        self.assertEqual(self.ann("pull", "a.sch")[0], 0)
        for who in (self.ann, self.bob):
            self.assertEqual(who.objects("a.sch"), sorted([MOVED, SECOND, new]))

    def test_what_is_dropped_is_told_by_its_name(self):
        mark, note = "C 7000 100 1 {} 0 gnd.sym\n", "T {} 9000 9 10 1 0 0 0 1\nnote\n"
        cases = [
            (part(5000, "R1"), part(5000, "R1", "2k"), part(5000, "R1", "3k"), "C R1 res.sym"),
            (WIRE, MOVED, WIRE.replace("900", "700"), "N {}"),
            (mark.format(0), mark.format(90), mark.format(180), "C - gnd.sym at 7000,100"),
            (note.format(0), note.format(100), note.format(200), "T note at {},9000"),
        ]
        for number, (old, theirs, yours, named) in enumerate(cases):
            for taken in ("--mine", "--theirs"):
                with self.subTest(named, taken=taken):
                    self.ann.path("a.sch").unlink(missing_ok=True)
                    self.setUp()
                    self.start(old, SECOND)
                    self.assertEqual(self.pushes(self.ann, theirs, SECOND)[0], 0)
                    self.saves(self.bob, yours, SECOND)
                    status, said = self.bob("pull", taken, "a.sch")
                    gone, whose = (theirs, "theirs") if taken == "--mine" else (yours, "yours")
                    words = gone.split()
                    name = named.format(" ".join(words[1:5]) if number == 1 else words[1])
                    self.assertIn(f"a.sch: dropped: {whose}, 0, {name}\n", said)
                    kept = yours if taken == "--mine" else theirs
                    self.assertEqual(self.bob.objects("a.sch"), sorted([kept, SECOND]))

    def test_a_part_that_another_deleted_is_told_and_kept_or_dropped(self):
        for taken, left in (("--mine", [MOVED, SECOND]), ("--theirs", [SECOND])):
            with self.subTest(taken):
                self.setUp()
                self.start(WIRE, SECOND)
                self.assertEqual(self.pushes(self.ann, SECOND)[0], 0)
                self.saves(self.bob, MOVED, SECOND)
                said = self.bob("pull", taken, "a.sch")[1]
                self.assertEqual(said.count("dropped: yours, 0, N 300 100 1100 100\n"),
                                 2 - len(left), said)
                self.assertEqual(self.bob.objects("a.sch"), sorted(left))

    def test_what_may_be_another_object_stays_beside_the_one_that_is_taken(self):
        """An older client, or a hand, put R9 in place of the wire; and a wire near by."""
        for taken in ("--mine", "--theirs"):
            for theirs, named in ((part(5000, "R9"), "C R9 res.sym"),
                                  ("N 300 300 700 300 4\n", "N 300 300 700 300")):
                with self.subTest(taken, named=named):
                    self.setUp()
                    self.start(WIRE, part(500, "R1"))
                    edit = {"kind": "replace", "id": 0, "text": theirs}
                    self.asked_server(lambda server, edit=edit: server.send(edit, 4))
                    self.saves(self.bob, MOVED, part(500, "R1"))
                    status, said = self.bob("pull", taken, "a.sch")
                    kept = [theirs, part(500, "R1"), MOVED]
                    if taken == "--mine":
                        self.assertIn(f"a.sch: kept beside it: theirs, 0, {named}\n", said)
                    else:
                        self.assertIn("a.sch: dropped: yours, 0, N 300 100 1100 100\n", said)
                        kept.remove(MOVED)
                    self.assertEqual((status, self.bob.objects("a.sch")), (0, sorted(kept)))
                    self.assertEqual(self.bob("push", "a.sch")[0], 0)
                    self.assertEqual(sorted(self.board().count(it) for it in kept), [1] * len(kept))
