"""Pushes: what moved as a whole, pushes as a stack, files that are gone or renamed."""
import json
import os
import random
from unittest import mock

from gafd_sync.motions import Motion
from gafd_sync.pushes import Push
from gafd_sync.rows import row_name
from gafd_sync.server import Server
from gafd_sync.sheets import item_of, sheet_of
from laboratory import SHEET, WIRE, Laboratory
from served import program

HEAD = "v 20130925 2\n"
SHIFT = Motion(0, False, 0, 300)


def taken(motion, text):
    """A sheet whose objects were all moved or turned."""
    sheet = sheet_of("x", text)
    return sheet.head + "\n" + "".join(motion.text(item) for item in sheet.items)


def part(x, y, refdes, name="res.sym"):
    return f"C {x} {y} 1 0 0 {name}\n{{\nT {x} {y} 5 10 1 1 0 0 1\nrefdes={refdes}\n}}\n"


class MotionTest(Laboratory):
    def sent(self, name="preamp.sch"):
        status, said = self.ann("push", name)
        self.assertEqual(status, 0, said)
        return self.kinds(said)

    def test_a_whole_sheet_moves_in_one_edit(self):
        self.both_start()
        self.ann.path().write_text(taken(SHIFT, self.ann.path().read_text()))
        self.assertIn("moved by 0,300 by you: 46 objects, the first 0, C", self.ann("diff")[1])
        status, said = self.ann("push", "preamp.sch")
        self.assertEqual((status, self.kinds(said)), (0, ["move"]))
        self.assertIn("move by 0,300: 46 objects, the first 0, C - title.sym", said)
        self.assertEqual(self.ann("push", "preamp.sch"), (0, "preamp.sch: nothing to send\n"))
        self.assertIn("moved by 0,300 by others: 46 objects", self.bob("pull")[1])
        self.assertEqual(self.bob.path().read_bytes(), self.ann.path().read_bytes())

    def test_a_board_of_3934_objects_moves_in_four_edits(self):
        draw, text = random.Random(3), ""
        for at in range(787):
            x, y = 1000 * (at % 28), 2000 * (at // 28)
            text += part(x, y, f"R{at}") + f"C {x} {y - 300} 1 0 0 gnd.sym\n"
            text += f"N {x + 900} {y} {x + 900} {y + draw.randrange(1, 9) * 100} 4\n"
            text += f"N {x} {y} {x} {y - 300} 4\nN {x} {y} {x + 900} {y} 4\n"
        text = HEAD + text[: text.rindex("N ")]
        self.assertEqual(len(sheet_of("x", text).items), 3934)
        self.ann.path("big.sch").write_text(text)
        self.ann("push", "big.sch")
        self.ann.path("big.sch").write_text(taken(SHIFT, text))
        self.assertEqual(self.sent("big.sch"), ["move"] * 4)
        self.assertEqual(self.answer("/sheets/big.sch"), self.ann.path("big.sch").read_text())

    def test_a_block_moves_and_the_rest_is_sent_as_it_was_changed(self):
        self.both_start()
        sheet = sheet_of("x", self.ann.path().read_text())
        texts = [SHIFT.text(it) if it.letter == "C" else it.text for it in sheet.items]
        text = sheet.head + "\n" + "".join(texts).replace("value=1k\n", "value=2k\n") + WIRE
        self.ann.path().write_text(text)
        self.assertEqual(self.sent(), ["move", "replace", "add_object"])
        self.assertEqual(self.answer("/sheets/preamp.sch"), text)
        self.assertEqual(self.bob("pull")[0], 0)
        self.assertEqual(self.ann.objects(), self.bob.objects())

    def test_a_part_moves_with_its_texts(self):
        self.both_start()
        items = sheet_of("x", self.ann.path().read_text()).items
        r3 = next(item for item in items if item.attribute("refdes") == "R3")
        self.ann.draws(r3.text, Motion(0, False, -200, 100).text(r3))
        self.assertEqual(self.sent(), ["move"])
        self.ann.draws("value=1k\n", "value=2k\n")
        self.assertEqual(self.sent(), ["replace"])

    def test_blocks_that_were_turned_go_as_turns(self):
        self.both_start()
        motions = [
            Motion(1, False, 90000, 80000),
            Motion(2, False, 90000, 80000),
            Motion(3, False, 90000, 80000),
            Motion(0, True, 90000, 0),
            Motion(2, True, 0, 90000),
            Motion(1, True, 90000, 90000),
        ]
        for motion in motions:
            with self.subTest(motion):
                self.assertEqual(self.ann("pull", "--over", "preamp.sch")[0], 0)
                text = self.ann.path().read_text()
                sheet = sheet_of("x", text)
                texts = [motion.text(item) or item.text for item in sheet.items]
                self.ann.path().write_text(sheet.head + "\n" + "".join(texts))
                kinds = self.sent()
                # Of objects that look alike when turned some may as well have been moved.
                self.assertTrue("turn" in kinds and len(kinds) < 5, kinds)
                found = sheet_of("x", self.answer("/sheets/preamp.sch")).texts
                self.assertEqual(sorted(found), self.ann.objects())

    def test_motions_are_those_of_the_server(self):
        """Objects of each letter, moved and turned at random by the server and by the client."""
        objects = [
            "L 10 20 300 -40 3 0 0 0 -1 -1\n", "N 10 0 10 500 4\n", "U 0 0 500 0 10 -1\n",
            "T 5 7 9 10 1 0 90 3 1\nnote\n", "B 0 5 10 20 3 0 0 0 -1 -1 0 -1 -1 -1 -1 -1\n",
            "V 9 9 50 3 0 0 0 -1 -1 0 -1 -1 -1 -1 -1\n", "A 1 2 50 0 90 3 0 0 0 -1 -1\n",
            part(100, 200, "R1"), "C 10 20 1 270 1 res.sym\n", "G 1 2 10 10 0 0 0\nlogo.png\n",
            "C 1 2 1 90 0 EMBEDDEDx\n[\nP 0 0 100 0 1 0 0\n{\n"
            "T 0 0 5 8 1 1 0 0 1\npinnumber=1\n}\n]\n",
        ]
        self.ann.path("all.sch").write_text(HEAD + "".join(objects))
        self.assertEqual(self.ann("push", "all.sch")[0], 0)
        draw = random.Random(5)
        for _ in range(40):
            way = draw.choices(range(-900, 900), k=2)
            motion = Motion(draw.randrange(4), draw.random() < 0.5, *way)
            if draw.random() < 0.4:
                motion = motion._replace(quarter=0, mirror=False)
            elif motion.centre is None:
                continue
            now = self.asked_server(lambda server: server.sheet("all.sch").objects)
            wanted = {key: motion.text(item_of(text)) for key, text in now.items()}
            ids = [key for key, text in wanted.items() if text]
            self.asked_server(lambda server: server.send(motion.edit(ids), self.front(server)))
            found = self.asked_server(lambda server: server.sheet("all.sch").objects)
            self.assertEqual({key: found[key] for key in ids}, {key: wanted[key] for key in ids})

    def front(self, server):
        server.names()
        return server.front

    def test_a_conflict_with_a_move_is_one_line(self):
        self.both_start()
        self.ann.path().write_text(taken(SHIFT, self.ann.path().read_text()))
        self.ann("push", "preamp.sch")
        self.bob.draws("value=1k\n", "value=3k\n")
        status, said = self.bob("push", "preamp.sch")
        self.assertEqual(status, 1)
        lines = [line.strip() for line in said.splitlines()]
        wanted = ["theirs moved by 0,300", "yours  -value=1k", "yours  +value=3k"]
        self.assertEqual(lines[1:4], wanted)


class StackTest(Laboratory):
    def test_undo_brings_the_file_back_where_nobody_drew_since(self):
        self.both_start()
        before = self.answer("/sheets/preamp.sch")
        self.bob.draws("value=1k\n", "value=3k\n")
        self.bob.draws("N 44500 47400 44500 48000 4\n", "")
        drawn = self.bob.path().read_bytes()
        self.bob("push", "preamp.sch")
        status, said = self.bob("undo")
        self.assertEqual((status, said.count("is taken back")), (0, 2))
        self.assertEqual(self.answer("/sheets/preamp.sch"), before)
        self.assertEqual(self.bob.path().read_text(), before)
        self.assertEqual(self.bob.path("preamp.sch.mine").read_bytes(), drawn)
        self.assertEqual(self.bob("push", "preamp.sch"), (0, "preamp.sch: nothing to send\n"))
        self.assertEqual(self.bob("undo")[0], 1)

    def test_undo_leaves_a_file_that_was_drawn_on_since(self):
        self.both_start()
        self.bob.draws("value=1k\n", "value=3k\n")
        self.bob("push", "preamp.sch")
        self.bob.draws("value=10k\n", "value=20k\n")
        drawn = self.bob.path().read_bytes()
        status, said = self.bob("undo")
        self.assertEqual((status, "was drawn on since, and stays" in said), (0, True), said)
        self.assertEqual(self.bob.path().read_bytes(), drawn)
        self.assertEqual(self.kinds(self.bob("push", "preamp.sch")[1]), ["replace", "replace"])

    def test_undo_brings_what_others_changed_too(self):
        self.both_start()
        self.bob.draws("value=1k\n", "value=3k\n")
        self.bob("push", "preamp.sch")
        self.ann.draws("value=10k\n", "value=20k\n")
        self.ann("push", "preamp.sch")
        status, said = self.bob("undo")
        self.assertEqual((status, said.count("changed by others")), (0, 1), said)
        self.assertEqual(self.bob.path().read_text(), self.answer("/sheets/preamp.sch"))

    def test_pushes_are_taken_back_one_behind_the_other(self):
        self.both_start()
        before = self.answer("/sheets/preamp.sch")
        for old, new in (("1k", "2k"), ("2k", "3k"), ("3k", "4k")):
            self.bob.draws(f"value={old}\n", f"value={new}\n")
            self.bob("push", "preamp.sch")
        self.assertEqual(self.bob("undo")[1].count("is taken back"), 1)
        self.assertIn("value=3k\n", self.bob.path().read_text())
        self.assertEqual(self.bob("undo", "2")[1].count("is taken back"), 2)
        self.assertEqual(self.answer("/sheets/preamp.sch"), before)
        self.assertEqual(self.bob.path().read_text(), before)
        self.assertEqual(self.bob("undo")[0], 1)

    def broken_push(self, engineer, count):
        """A push that ends behind so many edits, as when the server goes away."""
        send, sent = Server.send, []

        def cut(server, edit, base):
            if len(sent) == count:
                raise KeyboardInterrupt
            sent.append(edit)
            return send(server, edit, base)

        with mock.patch.object(Server, "send", cut):
            self.assertEqual(engineer("push", "preamp.sch")[0], 1)

    def test_a_push_that_goes_on_joins_the_one_that_was_broken_off(self):
        self.both_start()
        before = self.answer("/sheets/preamp.sch")
        for old, new in (("1k", "2k"), ("10k", "20k"), ("10u", "20u")):
            self.bob.draws(f"value={old}\n", f"value={new}\n")
        self.broken_push(self.bob, 1)
        self.assertEqual(len(self.kinds(self.bob("push", "preamp.sch")[1])), 2)
        self.bob.draws("value=1u\n", "value=2u\n")
        self.bob("push", "preamp.sch")
        self.assertEqual(self.bob("undo")[1].count("is taken back"), 1)
        self.assertEqual(self.bob("undo")[1].count("is taken back"), 3)
        self.assertEqual(self.answer("/sheets/preamp.sch"), before)

    def test_a_broken_push_whose_last_edit_went_out_is_ended_by_the_next(self):
        self.both_start()
        self.bob.draws("value=1k\n", "value=2k\n")
        with mock.patch("gafd_sync.stack.Stack.end", side_effect=KeyboardInterrupt):
            self.assertEqual(self.bob("push", "preamp.sch")[0], 1)
        self.assertEqual(self.bob("push", "preamp.sch"), (0, "preamp.sch: nothing to send\n"))
        self.bob.draws("value=1u\n", "value=2u\n")
        self.bob("push", "preamp.sch")
        self.assertEqual(self.bob("undo")[1].count("is taken back"), 1)

    def test_renumbering_is_taken_back_too(self):
        self.both_start()
        self.bob.draws("refdes=C2\n", "refdes=C?\n")
        self.bob("push", "preamp.sch")
        self.assertEqual(self.bob("renumber")[0], 0)
        self.assertEqual(self.bob("pull")[0], 0)
        self.assertIn("refdes=C2\n", self.bob.path().read_text())
        status, said = self.bob("undo")
        self.assertEqual((status, said.splitlines()[0]), (0, "renumber at 10 is taken back at 11"))
        self.assertIn("refdes=C?\n", self.bob.path().read_text())
        self.assertEqual(self.bob("undo")[1].count("is taken back"), 1)
        self.assertEqual(self.bob.path().read_bytes(), SHEET.read_bytes())

    def test_undo_of_a_sheet_takes_its_symbols_too(self):
        self.ann("push", "preamp.sch")
        self.assertEqual(self.ann("undo")[0], 0)
        self.assertEqual(self.answer("/sheets"), "")
        self.assertEqual(self.ann("push", "preamp.sch")[0], 0)
        self.assertEqual(self.answer("/sheets"), "preamp.sch 46\n")

    def test_undo_leaves_what_another_changed_since(self):
        self.both_start()
        self.ann.draws("value=1k\n", "value=2k\n")
        self.ann("push", "preamp.sch")
        self.bob("pull")
        self.bob.draws("value=2k\n", "value=3k\n")
        self.bob("push", "preamp.sch")
        status, said = self.ann("undo")
        self.assertEqual(status, 1)
        self.assertIn("UndoBlocked: something of it was changed since, by the edit 10", said)
        self.assertEqual(self.bob("undo")[0], 0)
        status, said = self.ann("undo")
        self.assertEqual((status, "is taken back by its contrary at 12" in said), (0, True), said)
        self.assertIn("value=1k\n", self.answer("/sheets/preamp.sch"))

    def test_the_file_of_an_older_client_is_read(self):
        self.both_start()
        self.bob.draws("value=1k\n", "value=3k\n")
        self.bob("push", "preamp.sch")
        kept = self.bob.folder / ".gafd_sync/push"
        rows = [json.loads(line) for line in kept.read_text().splitlines()]
        rows = [{key: row[key] for key in row if key != "push"} for row in rows if "serial" in row]
        kept.write_text("".join(json.dumps(row) + "\n" for row in rows))
        self.assertEqual(self.bob("undo")[1].count("is taken back"), 1)


class RevertTest(Laboratory):
    def setUp(self):
        super().setUp()
        patch = mock.patch.dict(os.environ, {"GAFD": program()})
        patch.start()
        self.addCleanup(patch.stop)

    def reverted(self, serial):
        return self.ann("revert", self.server.store, str(serial))

    def test_anybodys_edit_is_taken_back_as_ones_own(self):
        self.both_start()
        before = self.answer("/sheets/preamp.sch")
        wire, ground = "N 44500 47400 44500 48000 4\n", "C 47000 44000 1 0 0 gnd.sym\n"
        for old, new in (("value=1k\n", "value=3k\n"), (ground, ""), (wire, wire + WIRE)):
            self.bob.draws(old, new)
            self.bob("push", "preamp.sch")
        self.ann.draws("value=10k\n", "value=20k\n")
        self.ann("push", "preamp.sch")
        for serial, kind in ((9, "replace"), (10, "add_object"), (11, "delete")):
            status, said = self.reverted(serial)
            self.assertEqual((status, self.kinds(said)), (0, [kind]), said)
        self.assertEqual(self.reverted(9)[1], "nothing of it stands\n")
        row = json.loads((self.room / "store" / row_name(13)).read_text())
        self.assertEqual((row["session"], row["edit"]["kind"]), ("ann", "replace"))
        wanted = before.replace("value=10k\n", "value=20k\n")
        found = self.answer("/sheets/preamp.sch")
        self.assertEqual(sorted(sheet_of("x", found).texts), sorted(sheet_of("x", wanted).texts))
        self.assertEqual(self.ann("undo")[0], 0)
        self.assertIn(WIRE, self.answer("/sheets/preamp.sch"))

    def test_what_was_changed_since_stays(self):
        self.both_start()
        self.bob.draws("value=1k\n", "value=3k\n")
        self.bob("push", "preamp.sch")
        self.bob.draws("value=3k\n", "value=4k\n")
        self.bob("push", "preamp.sch")
        status, said = self.reverted(9)
        self.assertEqual((status, "changed since: 30, C R3 res.sym" in said), (1, True), said)
        self.assertIn("value=4k\n", self.answer("/sheets/preamp.sch"))
        self.assertEqual(self.reverted(99)[0], 1)

    def test_a_change_between_reading_and_sending_is_stale(self):
        self.both_start()
        self.bob.draws("value=1k\n", "value=3k\n")
        self.bob("push", "preamp.sch")
        sent, calls = Push.sent, []

        def late(push, *words):
            if not calls:
                calls.append(words)
                self.bob.draws("value=3k\n", "value=4k\n")
                self.assertEqual(self.bob("push", "preamp.sch")[0], 0)
                push.server.names()
            return sent(push, *words)

        with mock.patch.object(Push, "sent", late):
            status, said = self.reverted(9)
        self.assertEqual((status, "Stale: the edit 10 changed it" in said), (1, True), said)
        self.assertIn("value=4k\n", self.answer("/sheets/preamp.sch"))

    def test_moves_symbols_and_sheets(self):
        self.both_start()
        self.bob.path().write_text(taken(SHIFT, self.bob.path().read_text()))
        self.bob.draws("device=RESISTOR", "device=OTHER", "res.sym")
        self.bob.path("b.sch").write_text(HEAD + WIRE)
        self.bob("push", "res.sym", "preamp.sch", "b.sch")
        kinds = [self.kinds(self.reverted(serial)[1]) for serial in (9, 10, 11)]
        self.assertEqual(kinds, [["replace_symbol"], ["move"], ["delete"]])
        self.assertEqual(self.answer("/sheets/preamp.sch"), SHEET.read_text())
        self.assertIn("device=RESISTOR", self.answer("/symbols/res.sym"))
        self.assertEqual(self.answer("/sheets/b.sch"), HEAD)


class FileTest(Laboratory):
    def test_a_file_that_is_gone_is_told(self):
        self.both_start()
        self.bob.path("b.sch").write_text(HEAD + WIRE)
        self.bob("push", "b.sch")
        self.bob.path("b.sch").unlink()
        for command in (("diff",), ("push", "preamp.sch")):
            status, said = self.bob(*command)
            self.assertEqual((status, said.count("b.sch: is gone here, and stays")), (0, 1), said)
        self.assertEqual(self.bob("push", "b.sch")[0], 1)
        self.bob.path("b.sch").write_text(HEAD)
        self.assertEqual(self.kinds(self.bob("push", "b.sch")[1]), ["delete"])
        self.assertEqual(self.answer("/sheets/b.sch"), HEAD)

    def test_a_renamed_copy_is_not_added_beside_the_old_one(self):
        self.both_start()
        self.bob.path().rename(self.bob.path("amp.sch"))
        status, said = self.bob("push", "amp.sch")
        self.assertEqual((status, "has what preamp.sch has" in said), (1, True), said)
        self.assertIn("preamp.sch: is gone here", said)
        self.assertEqual(self.rows(), 9)
        self.assertEqual(self.kinds(self.bob("push", "--copy", "amp.sch")[1]), ["add_sheet"])
        # A title block alone is no copy.
        title = "C 40000 40000 1 0 0 title.sym\n"
        self.bob.path("b.sch").write_text(HEAD + title)
        self.assertEqual(self.bob("push", "b.sch")[0], 0)

    def test_a_pulled_folder_opens_in_lepton(self):
        self.both_start()
        wanted = '(component-library ".")\n(source-library ".")\n'
        self.assertEqual(self.bob.path("gafrc").read_text(), wanted)
        self.assertFalse(self.bob.path("lepton.conf").exists())
        self.assertIn("lepton.conf: written", self.bob("pull", "--lepton")[1])
        text = self.bob.path("lepton.conf").read_text()
        self.assertEqual(text, "[netlist.hierarchy]\nmangle-net-attribute=false\n")
        self.assertEqual(self.bob("pull", "--lepton"), (0, ""))
        for name, text in (("gafrc", "own\n"), ("lepton.conf", "[other]\n")):
            self.ann.path(name).write_text(text)
        said = self.ann("pull", "--lepton")[1]
        self.assertIn("lepton.conf: stays; its [netlist.hierarchy] wants", said)
        self.assertEqual(self.ann.path("gafrc").read_text(), "own\n")
