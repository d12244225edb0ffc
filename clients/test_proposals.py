"""Proposals: what would be pushed, kept for another, and accepted once or not at all."""
import json
import subprocess
import sys
import threading

from gafd_sync.netlists import finding_differences, net_differences
from gafd_sync.records import Records
from laboratory import SHEET, WIRE, Laboratory
from served import TOP
from test_views import ViewLaboratory

RES = "footprint=ACY400\n"


class ProposalLaboratory(Laboratory):
    """Both have the sheet, and one folder of reviews."""

    def setUp(self):
        super().setUp()
        self.both_start()
        self.reviews = self.room / "reviews"
        self.start = self.rows()

    def ask(self, who, *words):
        return who("--reviews", str(self.reviews), *words)

    def proposes(self, who, name, *changes):
        """Somebody changes places of the sheet, and proposes it."""
        for old, new in changes:
            who.draws(old, new)
        status, said = self.ask(who, "propose", name, "preamp.sch", "-m", f"it is {name}")
        self.assertEqual(status, 0, said)
        self.assertIn(f"{name}: proposed, ", said)
        return said

    def board(self):
        return self.answer("/sheets/preamp.sch")

    def state(self, name):
        said = self.ask(self.bob, "proposals")[1]
        [line] = [line for line in said.splitlines() if line.startswith(name + ": ")]
        return line[len(name) + 2:]

    def at_once(self, *calls):
        """What calls that begin at once print, each with its status."""
        said = [None] * len(calls)
        ready = threading.Barrier(len(calls))

        def run(at, who, words):
            command = [sys.executable, str(TOP / "clients/gafd_sync"), "--server", self.server.url]
            command += ["--session", who.name, "--reviews", str(self.reviews), *words]
            ready.wait()
            done = subprocess.run(command, cwd=who.folder, capture_output=True, text=True)
            said[at] = done.returncode, done.stdout + done.stderr

        threads = [threading.Thread(target=run, args=(at, *it)) for at, it in enumerate(calls)]
        for one in threads:
            one.start()
        for one in threads:
            one.join()
        return said


class ProposeTest(ProposalLaboratory):
    def test_a_proposal_sends_nothing_and_is_accepted_as_it_is(self):
        said = self.proposes(self.ann, "faster", ("value=1k\n", "value=2k\n"),
                             ("N 44500 47400 44500 48000 4\n", WIRE))
        self.assertEqual(said.splitlines()[:3],
                         ["preamp.sch: replace 30, C R3 res.sym",
                          "preamp.sch: add_object N 100 100 900 100",
                          "preamp.sch: delete 20, N 44500 47400 44500 48000"])
        self.assertEqual(self.rows(), self.start)
        self.assertRegex(self.state("faster"), r"^open, by ann at \S+Z: 3 edits on preamp.sch$")
        status, said = self.ask(self.bob, "accept", "faster")
        self.assertEqual((status, self.kinds(said)), (0, ["replace", "add_object", "delete"]), said)
        self.assertIn("faster: accepted, 3 edits; proposed by ann.", said)
        self.assertEqual(self.ann.objects(), sorted(self.texts()))
        self.assertRegex(self.state("faster"), r"^accepted by bob at \S+Z as edits 9, 10, 11; "
                         r"proposed by ann at \S+Z$")
        end = json.loads((self.reviews / "ends/faster.json").read_text())
        self.assertEqual((end["who"], end["state"], end["serials"]),
                         ("bob", "accepted", [9, 10, 11]))

    def texts(self):
        return self.asked_server(lambda server: list(server.sheet("preamp.sch").objects.values()))

    def test_who_proposed_has_nothing_left_to_send_behind_it(self):
        self.proposes(self.ann, "faster", ("value=1k\n", "value=2k\n"),
                      ("N 44500 47400 44500 48000 4\n", WIRE))
        self.ask(self.bob, "accept", "faster")
        self.assertEqual(self.ann("pull")[0], 0)
        self.assertEqual(self.ann("push", "preamp.sch"), (0, "preamp.sch: nothing to send\n"))

    def test_a_message_may_stand_anywhere_among_the_words(self):
        self.ann.draws("value=1k\n", "value=2k\n")
        for at, words in enumerate((["-m", "why", "p0", "preamp.sch"],
                                    ["p1", "-m", "why", "preamp.sch"],
                                    ["p2", "preamp.sch", "-m", "why"])):
            with self.subTest(words):
                status, said = self.ask(self.ann, "propose", *words)
                self.assertEqual(status, 0, said)
                found = json.loads((self.reviews / f"proposals/p{at}.json").read_text(encoding="utf-8"))
                self.assertEqual(found["message"], "why")

    def test_all_that_was_pulled_is_proposed_where_no_file_is_named(self):
        self.ann.draws("value=1k\n", "value=2k\n")
        self.ann.draws(RES, "footprint=ACY300\n", "res.sym")
        self.ann.path("scrap.sch").write_text("v 20130925 2\n" + WIRE)
        status, said = self.ask(self.ann, "propose", "all")
        self.assertEqual((status, said.splitlines()[:2]),
                         (0, ["res.sym: replace_symbol res.sym",
                              "preamp.sch: replace 30, C R3 res.sym"]))
        self.assertNotIn("scrap", said)

    def test_a_new_sheet_goes_with_its_symbols(self):
        for path in (TOP / "examples/timer.sch", *TOP.glob("examples/*.sym")):
            self.ann.path(path.name).write_bytes(path.read_bytes())
        status, said = self.ask(self.ann, "propose", "timer", "timer.sch")
        self.assertEqual(status, 0, said)
        self.assertEqual(said.count("add_sheet"), 1)
        self.assertEqual(self.ask(self.bob, "accept", "timer")[0], 0)
        self.assertEqual(self.answer("/sheets/timer.sch"), (TOP / "examples/timer.sch").read_text())

    def test_what_is_the_same_is_no_proposal(self):
        status, said = self.ask(self.ann, "propose", "none")
        self.assertEqual((status, said),
                         (1, "nothing was proposed: nothing differs from the server's\n"))

    def test_a_quarrel_is_no_proposal(self):
        self.ann.draws("value=1k\n", "value=2k\n")
        self.ann("push", "preamp.sch")
        self.bob.draws("value=1k\n", "value=3k\n")
        status, said = self.ask(self.bob, "propose", "mine", "preamp.sch")
        self.assertEqual((status, said.splitlines()[-1]), (1, "nothing was proposed"))
        self.assertIn("changed by others and by you: 30, C R3", said)
        self.assertFalse((self.reviews / "proposals").exists())

    def test_the_folder_is_named_and_remembered(self):
        for words in (["proposals"], ["propose", "x"], ["accept", "x"], ["withdraw", "x"]):
            status, said = self.ann(*words)
            self.assertEqual((status, "which reviews? --reviews FOLDER" in said), (2, True), said)
        self.assertEqual(self.ask(self.ann, "proposals"), (0, ""))
        self.assertEqual(self.ann("proposals"), (0, ""))
        self.assertEqual(self.ann("accept", "x")[1],
                         "gafd_sync: there is no proposal x; `gafd_sync proposals` lists them\n")


class NameTest(ProposalLaboratory):
    def test_of_two_with_one_name_one_is_told(self):
        self.proposes(self.ann, "same", ("value=1k\n", "value=2k\n"))
        self.bob.draws("value=1k\n", "value=3k\n")
        status, said = self.ask(self.bob, "propose", "same")
        self.assertEqual((status, "same is taken" in said), (1, True), said)
        self.assertIn("open, by ann", self.state("same"))

    def test_of_many_who_write_at_once_under_one_name_one_does(self):
        done, ready = [], threading.Barrier(8)

        def write(number):
            records = Records(self.room / "kind", lambda value: True)
            ready.wait()
            done.append((records.add("same", {"by": number}), number))

        threads = [threading.Thread(target=write, args=(number,)) for number in range(8)]
        for one in threads:
            one.start()
        for one in threads:
            one.join()
        [winner] = [number for is_done, number in done if is_done]
        kept = Records(self.room / "kind", lambda value: True)
        self.assertEqual((kept.load("same"), kept.names()), ({"by": winner}, ["same"]))
        self.assertEqual(len(list((self.room / "kind").iterdir())), 1)

    def test_what_is_damaged_or_hostile_is_told_and_does_nothing(self):
        self.proposes(self.ann, "good", ("value=1k\n", "value=2k\n"))
        kept = json.loads((self.reviews / "proposals/good.json").read_text())

        def changed(**fields):
            return json.dumps({**kept, **fields})

        step = kept["steps"][0]
        cases = {
            "cut": '{"who": "ann"',
            "deep": "[" * 100_000,
            "list": "[]",
            "half": changed(message="x").replace('"x"', '"\\ud800"'),
            "path": changed(steps=[{**step, "file": "../x.sch"}]),
            "undo": changed(steps=[{**step, "edit": {"kind": "undo", "serial": 1}, "was": {}}]),
            "unseen": changed(steps=[{**step, "edit": {"kind": "delete", "ids": [1, 2]}}]),
            "none": changed(steps=[]),
            "text": changed(steps=[{**step, "edit": {**step["edit"], "text": "no object"}}]),
            "who": changed(who="a b"),
            "more": changed(other=1),
        }
        for name, text in cases.items():
            (self.reviews / f"proposals/{name}.json").write_text(text)
        (self.reviews / "proposals/.hidden.json").write_text("")
        (self.reviews / "proposals/a b.json").write_text("")
        status, said = self.ask(self.bob, "proposals")
        lines = said.splitlines()
        self.assertEqual((status, len(lines)), (1, len(cases) + 2), said)
        for name in cases:
            self.assertIn(f"{name}: the proposal {name} is damaged: it is", said)
            status, line = self.ask(self.bob, "accept", name)
            self.assertEqual((status, line.count("is damaged: it is")), (1, 1), line)
        self.assertEqual(self.rows(), self.start)

    def test_what_a_terminal_would_obey_is_spelled(self):
        self.ann.draws("value=1k\n", "value=\x1b]0;x\x07\n")
        self.ask(self.ann, "propose", "evil", "-m", "\x1b[2J\nfaster: accepted by bob")
        said = self.ask(self.bob, "proposals")[1]
        self.assertIn("    \\x1b[2J\n    faster: accepted by bob\n", said)
        self.assertNotIn("\x1b", said + self.ask(self.bob, "accept", "evil")[1])


class StaleTest(ProposalLaboratory):
    def test_what_stands_against_it_is_told_and_nothing_is_sent(self):
        self.proposes(self.ann, "first", ("value=1k\n", "value=2k\n"),
                      ("value=10k\n", "value=12k\n"))
        self.bob.draws("value=1k\n", "value=3k\n")
        self.bob("push", "preamp.sch")
        self.assertTrue(self.state("first").startswith("stale, by ann"))
        status, said = self.ask(self.bob, "accept", "first")
        self.assertEqual((status, said), (1, "first is stale, and nothing was sent:\n"
                                          "preamp.sch: changed since: 30, C R3 res.sym\n"
                                          "    -value=1k\n    +value=3k\n"))
        self.assertEqual(self.rows(), self.start + 1)
        self.assertEqual(list((self.reviews / "claims").glob("*")), [])

    def test_what_came_beside_it_is_no_matter(self):
        self.proposes(self.ann, "first", ("value=1k\n", "value=2k\n"))
        self.bob.draws("value=10k\n", "value=12k\n")
        self.bob("push", "preamp.sch")
        self.assertTrue(self.state("first").startswith("open, by ann"))
        self.assertEqual(self.ask(self.bob, "accept", "first")[0], 0)
        self.assertEqual([self.board().count(it) for it in ("value=2k\n", "value=12k\n")], [1, 1])

    def test_what_was_done_likewise_is_left_out(self):
        self.proposes(self.ann, "first", ("value=1k\n", "value=2k\n"),
                      ("N 44500 47400 44500 48000 4\n", WIRE))
        self.bob.draws("value=1k\n", "value=2k\n")
        self.bob.draws("N 44500 47400 44500 48000 4\n", "")
        self.bob("push", "preamp.sch")
        status, said = self.ask(self.bob, "accept", "first")
        self.assertEqual((status, self.kinds(said)), (0, ["add_object"]), said)

    def test_each_thing_that_may_be_gone_or_new_is_told(self):
        moved = [("C 45300 45500 1 90 0 res.sym", "C 45400 45500 1 90 0 res.sym")]
        for path in TOP.glob("examples/*.sym"):
            self.ann.path(path.name).write_bytes(path.read_bytes())
        self.ann.draws(RES, "footprint=ACY300\n", "res.sym")
        self.ann.path("a.sch").write_text("v 20130925 2\n" + WIRE)
        self.ann.path("b.sym").write_text("v 20130925 2\n" + WIRE)
        self.ann.draws(*moved[0])
        self.ask(self.ann, "propose", "all", "res.sym", "b.sym", "a.sch", "preamp.sch")
        self.bob.draws(RES, "footprint=ACY500\n", "res.sym")
        self.bob.draws("value=1k\n", "value=3k\n")
        self.bob.path("a.sch").write_text("v 20130925 2\n" + WIRE * 2)
        self.bob.path("b.sym").write_text("v 20130925 2\n" + WIRE * 2)
        self.bob("push", "res.sym", "b.sym", "a.sch", "preamp.sch")
        said = self.ask(self.bob, "accept", "all")[1]
        for line in ("res.sym: was changed since", "b.sym: was added since",
                     "a.sch: the server has a sheet of this name by now",
                     "preamp.sch: changed since: 30, C R3 res.sym"):
            self.assertIn(line, said)


class EndTest(ProposalLaboratory):
    def setUp(self):
        super().setUp()
        self.proposes(self.ann, "faster", ("value=1k\n", "value=2k\n"),
                      ("N 44500 47400 44500 48000 4\n", WIRE))

    def test_a_proposal_ends_once(self):
        self.assertEqual(self.ask(self.ann, "withdraw", "faster"), (0, "faster: withdrawn\n"))
        self.assertRegex(self.state("faster"),
                         r"^withdrawn by ann at \S+Z; proposed by ann at \S+Z$")
        for words in (["accept", "faster"], ["withdraw", "faster"]):
            status, said = self.ask(self.bob, *words)
            self.assertEqual((status, "faster was withdrawn by ann at" in said), (1, True), said)
        self.assertEqual(self.rows(), self.start)

    def test_of_two_who_accept_at_once_one_does(self):
        said = self.at_once((self.ann, ["accept", "faster"]), (self.bob, ["accept", "faster"]))
        self.assertEqual(sorted(status for status, _ in said), [0, 1], said)
        self.assertEqual(self.rows(), self.start + 3)
        self.assertEqual(self.board().count(WIRE), 1)
        [told] = [text for status, text in said if status]
        self.assertIn("faster was accepted by ", told)

    def test_one_who_accepts_twice_at_once_does_it_once(self):
        said = self.at_once(*[(self.bob, ["accept", "faster"])] * 3)
        self.assertEqual(sorted(status for status, _ in said), [0, 1, 1], said)
        self.assertEqual((self.rows(), self.board().count(WIRE)), (self.start + 3, 1))

    def test_accepted_or_withdrawn_at_once_is_one_of_both(self):
        said = self.at_once((self.ann, ["withdraw", "faster"]), (self.bob, ["accept", "faster"]))
        self.assertEqual(sorted(status for status, _ in said), [0, 1], said)
        state = json.loads((self.reviews / "ends/faster.json").read_text())["state"]
        self.assertEqual(self.rows() - self.start, 3 if state == "accepted" else 0)

    def test_what_was_broken_off_goes_on_and_nothing_is_there_twice(self):
        """The server is killed amid the edits, or the call: what was sent is not sent again."""
        for sent in (0, 1, 2, 3):
            with self.subTest(sent=sent):
                self.setUp()
                self.breaks_off(sent)
                self.assertEqual(self.rows(), self.start + sent)
                self.assertEqual(self.state("faster")[:14], "being accepted")
                status, said = self.ask(self.ann, "accept", "faster")
                self.assertEqual((status, "bob began to accept" in said), (1, True), said)
                self.assertEqual(self.ask(self.bob, "withdraw", "faster")[0], 1)
                status, said = self.ask(self.bob, "accept", "faster")
                self.assertEqual(status, 0, said)
                self.assertEqual((self.rows(), self.board().count(WIRE)), (self.start + 3, 1))

    def breaks_off(self, sent):
        """bob's call ends behind so many edits, as by `kill -9`."""
        text = (
            "import sys; sys.path.insert(0, sys.argv.pop(1)); sent = int(sys.argv.pop(1))\n"
            "import os\n"
            "from gafd_sync import accepting, arguments\n"
            "send = accepting.Acceptance.send\n"
            "def counted(self, *words):\n"
            "    if len(self.serials) == sent: os._exit(9)\n"
            "    return send(self, *words)\n"
            "accepting.Acceptance.send = counted\n"
            "accepting.Acceptance.end = lambda self: os._exit(9)\n"
            "accepting.now = lambda was=accepting.now: os._exit(9) if sent == 3 and "
            "os.path.exists(sys.argv[-3] + '/claims/faster.json') else was()\n"
            "arguments.run()\n"
        )
        words = ["--server", self.server.url, "--session", "bob", "--reviews", str(self.reviews)]
        command = [sys.executable, "-c", text, str(TOP / "clients"), str(sent), *words]
        done = subprocess.run([*command, "accept", "faster"], cwd=self.bob.folder,
                              capture_output=True, text=True)
        self.assertEqual(done.returncode, 9, done.stderr)

    def test_who_edited_since_it_was_broken_off_goes_on_too(self):
        self.breaks_off(1)
        self.bob.draws("value=10k\n", "value=12k\n")
        self.bob("pull")
        self.bob("push", "preamp.sch")
        status, said = self.ask(self.bob, "accept", "faster")
        self.assertEqual(status, 0, said)
        self.assertEqual((self.rows(), self.board().count(WIRE)), (self.start + 4, 1))

    def test_where_one_edit_is_refused_none_stands(self):
        """A sheet that the server does not read is the last of three edits."""
        path = self.reviews / "proposals/faster.json"
        kept = json.loads(path.read_text())
        wrong = {"kind": "add_sheet", "name": "a.sch", "text": "v 20130925 2\nN 1 1 2 2 4 4\n"}
        kept["steps"].append({"file": "a.sch", "edit": wrong, "was": {}})
        path.write_text(json.dumps(kept))
        before = self.board()
        status, said = self.ask(self.bob, "accept", "faster")
        self.assertEqual(status, 1, said)
        self.assertIn("faster: refused: BadText: ", said)
        self.assertEqual(said.count(" is taken back"), 3, said)
        self.assertEqual(sorted(self.board().splitlines()), sorted(before.splitlines()))
        self.assertTrue(self.state("faster").startswith("open, by ann"))
        self.assertIn("nothing was pushed", self.bob("undo")[1])

    def test_who_accepted_takes_it_back_by_undo(self):
        self.ask(self.bob, "accept", "faster")
        self.assertEqual(self.bob("undo")[0], 0)
        self.assertEqual(sorted(self.board().splitlines()), sorted(SHEET.read_text().splitlines()))


class ReviewTest(ProposalLaboratory):
    def review(self, name, *words):
        return self.ask(self.bob, "review", name, *(words or ("--store", str(self.server.store))))

    def test_sheets_nets_and_findings_are_told_before_and_after(self):
        self.proposes(self.ann, "faster", ("value=1k\n", "value=2k\n"),
                      ("refdes=R4\n", "refdes=R3\n"), ("N 44500 47400 44500 48000 4\n", WIRE))
        before = {path.name for path in self.server_files()}
        status, said = self.review("faster")
        self.assertEqual(status, 0, said)
        lines = said.splitlines()
        self.assertRegex(lines[0], r"^faster: open, by ann at \S+Z: 4 edits on preamp.sch$")
        for line in ("    it is faster",
                     "preamp.sch: changed by ann: 30, C R3 res.sym", "    +value=2k",
                     "preamp.sch: added by ann: 46, N 100 100 900 100",
                     "preamp.sch: deleted by ann: 20, N 44500 47400 44500 48000",
                     "nets: parts 8 nets 10 before, parts 7 nets 11 after",
                     "    ~ net GND -R4-1", "    ~ net OUT +R3-2 -R4-2",
                     "    < net * C1-2 R1-2 U1-3", "    > net * C1-2 U1-3", "    > net * R1-2",
                     "    > part R3 RESISTOR 2k ACY400",
                     "check: errors 1 warnings 0 before, errors 4 warnings 0 after",
                     "    + error DuplicateRefdes R3", "    + error UnconnectedPin R1-2",
                     "    + error PinOnTwoNets R3-2"):
            self.assertIn(line, lines)
        self.assertEqual(self.rows(), self.start)
        self.assertEqual({path.name for path in self.server_files()}, before)

    def server_files(self):
        return (self.room / "store").iterdir()

    def test_what_is_told_is_what_comes(self):
        """The reports of the copy are those of the server behind the acceptance, byte for byte."""
        self.proposes(self.ann, "faster", ("value=1k\n", "value=2k\n"),
                      ("N 44500 47400 44500 48000 4\n", WIRE))
        said = self.review("faster")[1].splitlines()
        old = {path: self.answer(path) for path in ("/netlist/list", "/drc")}
        self.ask(self.bob, "accept", "faster")
        new = {path: self.answer(path) for path in ("/netlist/list", "/drc")}
        nets = list(net_differences(old["/netlist/list"], new["/netlist/list"]))
        found = list(finding_differences(old["/drc"], new["/drc"]))
        self.assertGreater(len(nets), 0)
        for line in nets + found:
            self.assertIn("    " + line, said)
        self.assertEqual(sum(line[4:6] in ("~ ", "< ", "> ", "+ ", "- ") for line in said),
                         len(nets) + len(found), said)

    def test_what_is_stale_is_told_and_shown_as_it_was_meant(self):
        self.proposes(self.ann, "faster", ("value=1k\n", "value=2k\n"))
        self.bob.draws("value=1k\n", "value=3k\n")
        self.bob("push", "preamp.sch")
        status, said = self.review("faster")
        self.assertEqual(status, 1)
        self.assertEqual([line for line in said.splitlines() if "faster" not in line][:6],
                         ["    preamp.sch: changed since: 30, C R3 res.sym",
                          "        -value=1k", "        +value=3k",
                          "as it was meant, on the board after 9 edits:",
                          "preamp.sch: changed by ann: 30, C R3 res.sym", "    -value=1k"])

    def test_what_has_ended_is_shown_as_it_was_meant(self):
        self.proposes(self.ann, "faster", ("value=1k\n", "value=2k\n"))
        self.ask(self.bob, "accept", "faster")
        status, said = self.review("faster")
        self.assertEqual((status, said.startswith("faster: accepted by bob at ")), (1, True), said)
        self.assertIn("as it was meant, on the board after 9 edits:\n", said)

    def test_symbols_and_new_sheets_are_told(self):
        for path in (TOP / "examples/timer.sch", *TOP.glob("examples/*.sym")):
            self.ann.path(path.name).write_bytes(path.read_bytes())
        self.ann.draws(RES, "footprint=ACY300\n", "res.sym")
        self.assertEqual(self.ask(self.ann, "propose", "timer", "timer.sch", "res.sym")[0], 0)
        status, said = self.review("timer")
        self.assertEqual(status, 0, said)
        for line in ("timer.sch: added by ann, ",
                     "res.sym: changed by ann\n    -footprint=ACY400\n",
                     "ne555.sym: added by ann\n", "    < part R2 RESISTOR 10k ACY400\n"):
            self.assertIn(line, said)

    def test_what_the_program_refuses_is_told(self):
        self.proposes(self.ann, "faster", ("value=1k\n", "value=2k\n"))
        path = self.reviews / "proposals/faster.json"
        kept = json.loads(path.read_text())
        wrong = {"kind": "add_sheet", "name": "a.sch", "text": "v 20130925 2\nN 1 1 2 2 4 4\n"}
        kept["steps"].append({"file": "a.sch", "edit": wrong, "was": {}})
        path.write_text(json.dumps(kept))
        status, said = self.review("faster")
        self.assertEqual(status, 1, said)
        self.assertIn("    a.sch: add_sheet is refused: BadText: ", said)

    def test_a_board_has_to_be_named(self):
        self.proposes(self.ann, "faster", ("value=1k\n", "value=2k\n"))
        status, said = self.ask(self.bob, "review", "faster")
        self.assertEqual((status, "which board?" in said), (2, True), said)


class ViewTest(ViewLaboratory):
    """The same by a gafd_view that reads the store."""

    words = ["--reviews", "{room}/reviews"]

    def ask(self, who, *words):
        return who("--reviews", str(self.room / "reviews"), "--view", self.view, *words)

    def told(self, path):
        return self.asked_server(lambda server: server.once("GET", path, None), self.view)

    def test_a_page_has_the_board_with_a_proposal(self):
        self.ann.draws("value=1k\n", "value=2k\n")
        self.assertEqual(self.ask(self.ann, "propose", "faster", "-m", "it is faster")[0], 0)
        status, by_page = self.ask(self.bob, "review", "faster")
        self.assertEqual(status, 0, by_page)
        by_store = self.ask(self.bob, "review", "faster", "--store", str(self.server.store))[1]
        self.assertEqual(by_page, by_store)
        self.assertIn("value=2k\n", self.told("/proposed/faster@9/sheets/preamp.sch").text)
        self.assertEqual(json.loads(self.told("/proposed/faster").text),
                         {"now": 9, "against": [], "front": 9})
        [one] = json.loads(self.told("/reviews").text)["proposals"]
        self.assertEqual((one["name"], one["state"], one["files"], one["message"], one["edits"]),
                         ("faster", "open", ["preamp.sch"], "it is faster", 1))
        self.bob.draws("value=1k\n", "value=3k\n")
        self.bob("push", "preamp.sch")
        against = ["preamp.sch: changed since: 30, C R3 res.sym", "    -value=1k", "    +value=3k"]
        self.assertEqual(json.loads(self.told("/proposed/faster").text),
                         {"now": 10, "against": against, "front": 9})
        [one] = json.loads(self.told("/reviews").text)["proposals"]
        self.assertEqual((one["state"], one["against"]), ("stale", against))
        status, said = self.ask(self.bob, "review", "faster")
        self.assertEqual((status, "on the board after 9 edits" in said), (1, True), said)
        for path in ("/proposed/none", "/proposed/none@9/sheets", "/proposed/faster@99/sheets"):
            self.assertEqual(self.told(path).status, 502, path)
        for path in ("/proposed/..%2fx", "/proposed/faster@9/edits", "/proposed/../x@9/sheets"):
            self.assertEqual(self.told(path).status, 404, path)

    def test_notes_are_told_until_they_are_resolved(self):
        self.ask(self.bob, "note", "part:R3", "why?")
        [note] = json.loads(self.told("/reviews").text)["notes"]
        self.assertEqual((note["number"], note["who"], note["at"], note["text"]),
                         (1, "bob", "part:R3", "why?"))
        self.ask(self.ann, "resolve", "1")
        self.assertEqual(json.loads(self.told("/reviews").text)["notes"], [])
