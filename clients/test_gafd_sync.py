#!/usr/bin/env python3
"""Tests gafd_sync against the real program, which GAFD names, else the one that is built.

Each test has a server of its own on a free port of the loopback, and folders of two engineers. The
tests stand here and in the files test_*.py beside this one; words are handed on to unittest, as
`-k undo`. With no program it says so, and its status is 0. It takes a minute, and ten at most.
"""
import json
import os
import pathlib
import random
import signal
import ssl
import subprocess
import sys
import unittest
from collections import Counter
from unittest import mock

sys.dont_write_bytecode = True

from gafd_sync.server import Reply, Server
from gafd_sync.sheets import item_of, sheet_of
from laboratory import SHEET, WIRE, Engineer, Laboratory, asked
from served import TOP, bounded, program

sys.path.append(str(TOP / "told"))

import geda_files
from random_files import random_file

LONGEST = 2400


def drawn_at_random(draw, lines, turn):
    """Changes a few of the wires that lines are, takes some away, and adds some."""
    for _ in range(draw.randint(0, 2)):
        at = draw.randrange(len(lines))
        x = lines[at].split()[1]
        choice = draw.random()
        if choice < 0.6:
            lines[at] = f"N {x} {draw.randrange(9)} {x} {10 + turn} 4"
        elif choice < 0.8 and len(lines) > 6:
            del lines[at]
        else:
            lines.insert(at, f"N {x} {20 + turn} {x} {30 + turn} 4")


class ClientTest(Laboratory):
    def test_a_sheet_goes_out_with_its_symbols_and_comes_back(self):
        status, said = self.ann("push", "preamp.sch")
        self.assertEqual((status, self.kinds(said)), (0, ["add_symbol"] * 8 + ["add_sheet"]))
        self.assertEqual(self.bob("pull")[0], 0)
        self.assertEqual(self.bob.path().read_bytes(), SHEET.read_bytes())
        names = {path.name for path in self.bob.folder.glob("*.s??")}
        self.assertEqual(len(names), 9)
        self.assertEqual(self.bob("push", "preamp.sch"), (0, "preamp.sch: nothing to send\n"))

    def test_a_folder_has_the_netlist_of_the_server(self):
        for name in ("stereo.sch", "channel.sch", "driver.sch"):
            (self.ann.folder / name).write_bytes((TOP / "examples" / name).read_bytes())
        self.assertEqual(self.ann("push", "stereo.sch", "channel.sch", "driver.sch")[0], 0)
        self.assertEqual(self.bob("pull")[0], 0)
        names = self.bob("sheets")[1].split()
        self.assertEqual(names, ["stereo.sch", "channel.sch", "driver.sch"])
        for form in ("list", "tango", "pcb", "bom"):
            words = [program(), "netlist", "--form", form, *names]
            mine = subprocess.run(words, cwd=self.bob.folder, capture_output=True, timeout=240)
            self.assertEqual(mine.stdout.decode(), self.answer("/netlist/" + form), form)

    def test_the_fewest_edits_go_out(self):
        wire, long = "N 44500 47400 44500 48000 4\n", "N 42800 44000 51000 44000 4\n"
        halves = "N 42800 44000 44500 44000 4\nN 44500 44000 51000 44000 4\n"
        cases = [
            ("an attribute", "value=1k\n", "value=2k\n", ["replace"]),
            ("a part that moves", "C 47500 47200 1", "C 47600 47200 1", ["replace"]),
            ("a wire that comes", wire, wire + WIRE, ["add_object"]),
            ("a wire that goes", wire, "", ["delete"]),
            ("a wire that is cut in two", long, halves, ["replace", "add_object"]),
            ("halves that are joined", halves, long, ["replace", "delete"]),
            ("blanks and zeros alone", "C 47000 44000 1 0 0", "C  47000 044000 1 0 -0", []),
        ]
        self.both_start()
        for what, old, new, wanted in cases:
            with self.subTest(what):
                self.ann.draws(old, new)
                status, said = self.ann("push", "preamp.sch")
                self.assertEqual((status, self.kinds(said)), (0, wanted), said)
                self.assertEqual(said.count("nothing to send"), 0 if wanted else 1)
        self.assertEqual(self.bob("pull")[0], 0)
        self.assertEqual(self.ann.objects(), self.bob.objects())

    def test_many_objects_go_in_one_edit(self):
        text = "v 20130925 2\n" + "".join(f"N {at} 0 {at} 100 4\n" for at in range(1500))
        self.ann.path("wires.sch").write_text(text)
        self.ann("push", "wires.sch")
        self.ann.path("wires.sch").write_text("v 20130925 2\nN 7 0 7 100 4\n")
        status, said = self.ann("push", "wires.sch")
        self.assertEqual((status, self.kinds(said)), (0, ["delete", "delete"]))
        self.assertEqual(self.answer("/sheets/wires.sch"), "v 20130925 2\nN 7 0 7 100 4\n")

    def test_each_grammar_of_an_object_is_cut_as_the_server_cuts_it(self):
        text = (TOP / "examples/one.sch").read_text() + (
            "T 0 0 9 10 1 0 0 0 3\nC 1 1 1 0 0 no.sym\n}\n\n"
            "H 3 10 0 0 -1 -1 1 -1 -1 -1 -1 -1 2\nM 0,0\nz\n"
            "G 0 0 10 10 0 0 1\nlogo.png\niVBOR\n.\nG 0 0 10 10 0 0 0\n\nU 0 0 500 0 10 -1\n"
            "T 0 0 9 10 1 0 0 0 1\nµ \u2028 \x0c Ω\n"
        )
        self.ann.path("all.sch").write_text(text, encoding="utf-8")
        self.assertEqual(self.ann("push", "all.sch")[0], 0)
        self.assertEqual(self.answer("/sheets/all.sch"), text)
        self.assertEqual(self.bob("pull", "all.sch")[0], 0)
        self.assertEqual(self.bob.path("all.sch").read_text(encoding="utf-8"), text)
        self.bob.draws("U 0 0 500 0 10 -1\n", "", "all.sch")
        self.assertEqual(self.kinds(self.bob("push", "all.sch")[1]), ["delete"])

    def test_edits_of_two_engineers_both_stand(self):
        self.both_start()
        self.ann.draws("value=1k\n", "value=2k\n")
        self.bob.draws("N 44500 47400 44500 48000 4\n", WIRE)
        self.assertEqual(self.ann("push", "preamp.sch")[0], 0)
        status, said = self.bob("push", "preamp.sch")
        self.assertEqual(status, 0)
        self.assertIn("others changed 1 other objects", said)
        self.assertEqual(self.ann("pull")[0], 0)
        self.assertEqual(self.bob("pull")[0], 0)
        self.assertEqual(self.ann.path().read_bytes(), self.bob.path().read_bytes())
        self.assertIn("value=2k\n", self.bob.path().read_text())
        self.assertIn(WIRE, self.ann.path().read_text())

    def test_what_both_changed_is_sent_by_nobody(self):
        self.both_start()
        self.ann.draws("value=1k\n", "value=2k\n")
        self.ann("push", "preamp.sch")
        self.bob.draws("value=1k\n", "value=3k\n")
        self.bob.draws("value=10k\n", "value=12k\n")
        before = self.bob.path().read_bytes()
        for command in (("push", "preamp.sch"), ("pull",)):
            status, said = self.bob(*command)
            self.assertEqual(status, 1)
            for line in ("theirs -value=1k", "theirs +value=2k", "yours  +value=3k"):
                self.assertIn(line, said)
        self.assertEqual((self.rows(), self.bob.path().read_bytes()), (10, before))

    def test_of_what_both_changed_either_may_be_taken(self):
        for taken, value, count in (("--mine", "value=3k\n", 2), ("--theirs", "value=2k\n", 1)):
            with self.subTest(taken):
                self.setUp()
                self.both_start()
                self.ann.draws("value=1k\n", "value=2k\n")
                self.ann("push", "preamp.sch")
                self.bob.draws("value=1k\n", "value=3k\n")
                self.bob.draws("value=10k\n", "value=12k\n")
                self.assertEqual(self.bob("pull", taken)[0], 0)
                status, said = self.bob("push", "preamp.sch")
                self.assertEqual((status, self.kinds(said)), (0, ["replace"] * count))
                for text in (value, "value=12k\n"):
                    self.assertIn(text, self.answer("/sheets/preamp.sch"))

    def test_an_object_that_another_deleted_is_seen(self):
        self.both_start()
        wire = "N 44500 47400 44500 48000 4\n"
        self.ann.draws(wire, "")
        self.ann("push", "preamp.sch")
        self.bob.draws(wire, "N 44500 47400 44500 48100 4\n")
        status, said = self.bob("push", "preamp.sch")
        self.assertEqual(status, 1)
        self.assertIn("theirs deleted", said)
        self.assertEqual(self.bob("pull", "--mine")[0], 0)
        self.assertEqual(self.kinds(self.bob("push", "preamp.sch")[1]), ["add_object"])

    def test_the_same_change_of_both_is_no_conflict(self):
        self.both_start()
        for engineer in (self.ann, self.bob):
            engineer.draws("value=1k\n", "value=2k\n")
            engineer.draws("N 44500 47400 44500 48000 4\n", "")
        self.ann("push", "preamp.sch")
        self.assertEqual(self.bob("push", "preamp.sch"), (0, "preamp.sch: nothing to send\n"))

    def test_a_change_between_reading_and_sending_is_stale(self):
        self.both_start()
        self.bob.draws("value=1k\n", "value=3k\n")
        send, calls = Server.send, []

        def late(server, edit, base):
            if server.session == "bob" and not calls:
                calls.append(edit)
                self.ann.draws("value=1k\n", "value=2k\n")
                self.assertEqual(self.ann("push", "preamp.sch")[0], 0)
            return send(server, edit, base)

        with mock.patch.object(Server, "send", late):
            status, said = self.bob("push", "preamp.sch")
        self.assertEqual(status, 1)
        self.assertIn("Stale", said)
        self.assertIn("0 edits were sent, 1 are left", said)
        self.assertIn("value=2k\n", self.answer("/sheets/preamp.sch"))
        self.assertEqual(self.bob("push", "preamp.sch")[0], 1)

    def test_a_lost_reply_sends_an_edit_once(self):
        self.both_start()
        self.ann.draws("N 44500 47400 44500 48000 4\n", "N 44500 47400 44500 48000 4\n" + WIRE)
        once, lost = Server.once, []

        def broken(server, method, path, body):
            reply = once(server, method, path, body)
            if body and b"add_object" in body and not lost:
                lost.append(reply)
                raise ConnectionResetError("the reply is lost")
            return reply

        with mock.patch.object(Server, "once", broken):
            status, said = self.ann("push", "preamp.sch")
        self.assertEqual((status, self.kinds(said)), (0, ["add_object"]))
        self.assertEqual(self.answer("/sheets/preamp.sch").count(WIRE), 1)

    def test_a_push_that_was_cut_off_goes_on(self):
        self.both_start()
        self.ann.draws("value=1k\n", "value=2k\n")
        self.ann.draws("N 44500 47400 44500 48000 4\n", "N 44500 47400 44500 48000 4\n" + WIRE)
        send = Server.send

        def cut(server, edit, base):
            reply = send(server, edit, base)
            if edit["kind"] == "add_object":
                raise KeyboardInterrupt
            return reply

        with mock.patch.object(Server, "send", cut):
            self.assertEqual(self.ann("push", "preamp.sch")[0], 1)
        self.assertEqual(self.ann("push", "preamp.sch"), (0, "preamp.sch: nothing to send\n"))
        self.assertEqual(self.answer("/sheets/preamp.sch").count(WIRE), 1)

    def test_a_file_of_unknown_origin_is_not_sent(self):
        self.both_start()
        other = Engineer(self.room, "eve", self.server)
        text = SHEET.read_text().replace("value=1k\n", "value=9k\n")
        other.path().write_text(text)
        for command in (("push", "preamp.sch"), ("pull", "preamp.sch")):
            status, said = other(*command)
            self.assertEqual((status, "--over preamp.sch" in said), (1, True), said)
        self.assertEqual(self.rows(), 9)
        status, said = other("push", "--over", "preamp.sch")
        self.assertEqual((status, self.kinds(said)), (0, ["replace"]))

    def test_the_servers_state_can_be_taken_over(self):
        self.both_start()
        self.bob.draws("value=1k\n", "value=3k\n")
        mine = self.bob.path().read_bytes()
        self.assertEqual(self.bob("pull", "--over", "preamp.sch")[0], 0)
        self.assertEqual(self.bob.path().read_bytes(), SHEET.read_bytes())
        self.assertEqual(self.bob.path("preamp.sch.mine").read_bytes(), mine)

    def test_what_cannot_be_sent_is_told(self):
        self.both_start()
        head, text = b"v 20130925 2\n", b"T 0 0 9 10 1 0 0 0 1\n"
        cases = [
            ("latin.sch", text + b"\xb5\n", "latin.sch:3: NotUtf8"),
            ("bad.sch", b"N 0 0 0 0 4\nC 1 1 1 45 0 res.sym\n", "bad.sch:3: BadAngle"),
            ("cut.sch", text, "not understood near line 3"),
            ("old.sch", b"junk\n", "not understood near line 2"),
            ("huge.sch", text + b"x" * 4_194_304 + b"\n", "TooLarge"),
            ("lost.sch", b"C 0 0 1 0 0 no.sym\n", "no.sym: neither the server nor this folder"),
        ]
        for name, data, wanted in cases:
            with self.subTest(name):
                self.ann.path(name).write_bytes(head + data)
                status, said = self.ann("push", name)
                self.assertEqual((status, wanted in said), (1, True), said)
        self.ann.draws("value=1k\n", "value=1k\n}\n{\n")
        status, said = self.ann("push", "preamp.sch")
        self.assertEqual((status, "not understood" in said), (1, True), said)

    def test_wrong_words_and_a_silent_server_are_told(self):
        wrong = ((), ("push",), ("push", "../a.sch"), ("pull", "--mine", "--theirs"), ("what",))
        for words in wrong:
            self.assertEqual(self.ann(*words)[0], 2, words)
        self.server.stop()
        with mock.patch("gafd_sync.server.PAUSES", ()):
            status, said = self.ann("pull")
        self.assertEqual((status, "refused" in said), (3, True), said)

    def test_who_is_kept_out_is_told_why(self):
        self.both_start()
        self.bob.draws("value=1k\n", "value=3k\n")
        once, netrc = Server.once, self.room / ".netrc"

        def proxy(refused):
            def answer(server, method, path, body):
                if refused in (method, "both"):
                    return Reply(401, -1, "")
                return once(server, method, path, body)

            return mock.patch.object(Server, "once", answer)

        cases = [
            ("", "both", "wants a password; ~/.netrc may have it"),
            ("machine 127.0.0.1 login bob password b\n", "both", "refuses the password of bob"),
            ("machine 127.0.0.1 login bob password b\n", "POST", "bob, who may read alone"),
        ]
        for text, refused, wanted in cases:
            with self.subTest(wanted), mock.patch.dict(os.environ, {"HOME": str(self.room)}):
                netrc.write_text(text)
                netrc.chmod(0o600)
                with proxy(refused):
                    status, said = self.bob("push", "preamp.sch")
                self.assertEqual((status, wanted in said), (3, True), said)

    def test_the_session_is_the_user_of_netrc_where_none_is_named(self):
        netrc = self.room / ".netrc"
        netrc.write_text("machine 127.0.0.1 login carol@lab password c\n")
        netrc.chmod(0o600)
        with mock.patch.dict(os.environ, {"HOME": str(self.room)}):
            self.assertEqual(asked(self.ann.folder, "--server", self.server.url, "renumber")[0], 0)
            netrc.unlink()
            with mock.patch("getpass.getuser", lambda: "dave"):
                asked(self.ann.folder, "--server", self.server.url, "renumber")
        said = asked(self.room, "history", self.server.store)[1]
        self.assertEqual(said, "0 carol_lab 1 renumber\n1 dave 1 renumber\n")

    def test_a_certificate_that_is_not_trusted_is_told_at_once(self):
        error = ssl.SSLCertVerificationError(1, "certificate verify failed")
        error.verify_message = "self-signed certificate"
        with mock.patch.object(Server, "once", side_effect=error):
            status, said = self.ann("pull")
        self.assertEqual((status, "SSL_CERT_FILE=FILE.pem names" in said), (3, True), said)

    def test_it_runs_as_one_file_and_as_a_folder(self):
        prefix = self.room / "prefix"
        place = {**os.environ, "GAFD": program()}
        words = [str(TOP / "contrib/install"), str(prefix)]
        subprocess.run(words, env=place, check=True, timeout=240)
        for call in ([prefix / "bin/gafd_sync"], [sys.executable, "-B", TOP / "clients/gafd_sync"]):
            words = [*map(str, call), "--server", self.server.url, "sheets"]
            found = subprocess.run(words, cwd=self.room, capture_output=True, timeout=240)
            self.assertEqual((found.returncode, found.stdout), (0, b""), found.stderr)

    def test_an_engineer_goes_on_after_the_server_was_killed(self):
        self.both_start()
        self.bob.draws("value=1k\n", "value=3k\n")
        before = self.answer("/sheets/preamp.sch")
        self.server.stop(signal.SIGKILL)
        self.server.start()
        self.assertEqual(self.answer("/sheets/preamp.sch"), before)
        self.assertEqual(self.kinds(self.bob("push", "preamp.sch")[1]), ["replace"])

    def test_a_shorter_history_is_seen(self):
        self.both_start()
        self.server.stop()
        (pathlib.Path(self.server.store) / "0000000008.json").unlink()
        self.server.start()
        with mock.patch("gafd_sync.server.PAUSES", ()):
            status, said = self.bob("pull", "preamp.sch")
        self.assertEqual(status, 1)
        self.assertIn("has 8 edits, and this folder has seen 9", said)

    def test_numbers_come_from_the_server(self):
        self.both_start()
        ann = Engineer(self.room, "second", self.server)
        ann.name = "ann"
        self.assertEqual(ann("pull")[0], 0)
        for engineer, old, new in ((ann, "1k", "2k"), (self.ann, "10k", "20k"), (ann, "1u", "2u")):
            engineer.draws(f"value={old}\n", f"value={new}\n")
            status, said = engineer("push", "preamp.sch")
            self.assertEqual((status, self.kinds(said)), (0, ["replace"]), said)

    def test_two_who_add_parts_get_two_numbers(self):
        self.both_start()
        part = "C 47000 44000 1 0 0 gnd.sym\n"
        for engineer, place in ((self.ann, 1000), (self.bob, 2000)):
            new = f"C {place} 100 1 0 0 res.sym\n{{\nT 0 0 5 10 1 1 0 0 1\nrefdes=R?\n}}\n"
            engineer.draws(part, part + new)
            self.assertEqual(self.kinds(engineer("push", "preamp.sch")[1]), ["add_object"])
        self.assertEqual(self.bob("renumber")[0], 0)
        for engineer in (self.ann, self.bob):
            self.assertEqual(engineer("pull")[0], 0)
            text = engineer.path().read_text()
            self.assertEqual([text.count(f"refdes=R{it}\n") for it in "56?"], [1, 1, 0])

    def test_ids_are_told(self):
        self.both_start()
        lines = self.bob("ids", "preamp.sch")[1].splitlines()
        self.assertEqual(len(lines), 46)
        self.assertEqual((lines[0], lines[41]), ("0 C - title.sym", "41 C R4 res.sym"))

    def test_two_who_draw_at_random_lose_nothing(self):
        draw = random.Random(7)
        text = "v 20130925 2\n" + "".join(f"N {at} 0 {at} 100 4\n" for at in range(0, 4000, 100))
        self.ann.path("r.sch").write_text(text)
        self.ann("push", "r.sch")
        self.bob("pull")
        wanted = set(text.splitlines()[1:])
        for turn in range(30):
            engineer, mark = draw.choice(((self.ann, 1), (self.bob, 2)))
            lines = engineer.path("r.sch").read_text().splitlines()
            # Each changes wires of a half of the sheet alone, so nothing is changed by both.
            own = [line for line in lines[1:] if int(line.split()[1]) // 100 % 2 == mark - 1]
            for line in draw.sample(own, 2):
                lines.remove(line)
                wanted.remove(line)
            at = draw.choice(own).split()[1]
            for line in (f"N {at} 0 {at} {1000 + turn} 4", f"N {at} {mark} {at} {2000 + turn} 4"):
                lines.insert(draw.randrange(1, len(lines)), line)
                wanted.add(line)
            engineer.path("r.sch").write_text("\n".join(lines) + "\n")
            for command in draw.sample((("push", "r.sch"), ("pull",)), draw.randint(1, 2)):
                self.assertEqual(engineer(*command)[0], 0)
        for engineer in (self.ann, self.bob):
            self.assertEqual([engineer(*it)[0] for it in (("push", "r.sch"), ("pull",))], [0, 0])
        self.ann("pull")
        for engineer in (self.ann, self.bob):
            self.assertEqual(set(engineer.path("r.sch").read_text().splitlines()[1:]), wanted)

    def both_end_alike(self):
        for engineer in (self.ann, self.bob):
            engineer("pull", "--mine")
            self.assertEqual(engineer("push", "r.sch")[0], 0)
        self.ann("pull")
        self.assertEqual(self.ann.objects("r.sch"), self.bob.objects("r.sch"))

    def test_nobody_overwrites_what_he_has_not_seen(self):
        """Two who draw at random on the same few wires. Whatever a push changes is on the server as
        the folder had it when the push began."""
        draw = random.Random(11)
        head = "v 20130925 2\n"
        self.ann.path("r.sch").write_text(head + "".join(f"N {x} 0 {x} 9 4\n" for x in range(12)))
        self.ann("push", "r.sch")
        self.bob("pull")
        send, seen, counts = Server.send, {}, Counter()

        def watched(server, edit, base):
            reply = send(server, edit, base)
            counts[edit["kind"]] += 1
            for key in edit.get("ids", [edit.get("id")]):
                if key is not None:
                    self.assertEqual(seen["now"][key], seen["known"][key], edit)
            return reply

        refused = 0
        for turn in range(150):
            engineer = draw.choice((self.ann, self.bob))
            lines = engineer.path("r.sch").read_text().splitlines()[1:]
            drawn_at_random(draw, lines, turn)
            engineer.path("r.sch").write_text(head + "\n".join(lines) + "\n")
            command = draw.choice((["push", "r.sch"], ["push", "r.sch"], ["pull"]))
            origin = engineer.folder / ".gafd_sync/r.sch.from"
            known = json.loads(origin.read_text(encoding="utf-8"))["objects"]
            seen["known"] = {int(key): text for key, text in known.items()}
            seen["now"] = self.asked_server(lambda server: server.sheet("r.sch").objects)
            with mock.patch.object(Server, "send", watched):
                status, _ = engineer(*command)
            if status:
                refused += 1
                self.assertEqual(engineer("pull", draw.choice(("--mine", "--theirs")))[0], 0)
        self.assertEqual(set(counts), {"replace", "move", "delete", "add_object"})
        self.assertTrue(refused > 5 and min(counts.values()) > 5, (refused, counts))
        self.both_end_alike()


class TextTest(unittest.TestCase):
    def test_texts_are_canonical(self):
        """Random files, as the grammar that is told again under told/ reads and writes them."""
        count = 0
        for number in range(500):
            data = random_file("1", number)
            try:
                wanted = geda_files.canonical(geda_files.read_sheet(data))
            except geda_files.Fault:
                continue
            found = sheet_of("x", data.decode("utf-8"))
            self.assertEqual(found.text.encode("utf-8"), wanted, data)
            for item in found.items:
                self.assertEqual(item_of(item.text), item)
            count += 1
        self.assertGreater(count, 100)


if __name__ == "__main__":
    if not program():
        print("no program is built, so clients/ is not tried")
        sys.exit(0)
    bounded(LONGEST)
    for name in ("GAFD_SERVER", "GAFD_SESSION", "GAFD_SYMBOLS", "GAFD_REVIEWS"):
        os.environ.pop(name, None)
    words = ["discover", "-s", str(TOP / "clients"), *sys.argv[1:]]
    unittest.main(module=None, argv=[sys.argv[0], *words])
