"""Symbols: where one was changed here, by others, or by both, and where it is a link."""
import os
from unittest import mock

from gafd_sync.server import Reply, Server
from laboratory import Laboratory


class SymbolTest(Laboratory):
    def kinds_of(self, engineer, *files):
        status, said = engineer("push", *files)
        return status, self.kinds(said), said

    def changed(self, engineer, old="device=RESISTOR", new="device=OTHER"):
        engineer.draws(old, new, "res.sym")

    def test_a_changed_symbol_goes_out_alone_or_with_its_sheet(self):
        self.both_start()
        for file, old, new in (("res.sym", "RESISTOR", "A"), ("preamp.sch", "A", "B")):
            self.changed(self.ann, f"device={old}\n", f"device={new}\n")
            said = self.ann("diff")[1]
            for line in ("res.sym: changed by you", f"-device={old}", f"+device={new}"):
                self.assertIn(line, said)
            status, kinds, said = self.kinds_of(self.ann, file)
            self.assertEqual((status, kinds), (0, ["replace_symbol"]), said)
            self.assertIn(f"device={new}\n", self.answer("/symbols/res.sym"))
        self.assertEqual(self.ann("push", "res.sym"), (0, "res.sym: nothing to send\n"))

    def test_a_new_symbol_goes_out_alone(self):
        self.ann.path("own.sym").write_text("v 20130925 2\nP 0 0 100 0 1 0 0\n")
        self.assertEqual(self.kinds_of(self.ann, "own.sym")[:2], (0, ["add_symbol"]))
        self.ann.draws("P 0 0 100", "P 0 0 200", "own.sym")
        self.assertEqual(self.kinds_of(self.ann, "own.sym")[:2], (0, ["replace_symbol"]))

    def test_the_next_pull_brings_it_and_says_so(self):
        self.both_start()
        self.changed(self.ann)
        self.assertEqual(self.ann("push", "res.sym")[0], 0)
        self.assertIn("res.sym: changed by others", self.bob("diff")[1])
        status, said = self.bob("pull")
        self.assertEqual(status, 0, said)
        for line in ("res.sym: changed by others", "+device=OTHER", "res.sym: written"):
            self.assertIn(line, said)
        drawn, brought = (it.path("res.sym").read_bytes() for it in (self.ann, self.bob))
        self.assertEqual(drawn, brought)
        self.assertEqual(self.bob("pull"), (0, ""))

    def test_where_both_changed_it_either_may_be_taken(self):
        cases = [
            (("pull", "--mine"), "MINE", ["replace_symbol"]),
            (("pull", "--theirs"), "OTHER", []),
            (("pull", "--over", "res.sym"), "OTHER", []),
            (("pull", "--mine", "res.sym"), "MINE", ["replace_symbol"]),
        ]
        for words, stands, kinds in cases:
            with self.subTest(words):
                self.setUp()
                self.both_start()
                self.changed(self.ann)
                self.assertEqual(self.ann("push", "res.sym")[0], 0)
                self.changed(self.bob, new="device=MINE")
                for command in (("pull",), ("push", "preamp.sch"), ("push", "res.sym")):
                    status, said = self.bob(*command)
                    self.assertEqual(status, 1, said)
                    for line in ("theirs +device=OTHER", "yours  +device=MINE"):
                        self.assertIn(line, said)
                self.assertIn("changed by others and by you", self.bob("diff")[1])
                self.assertEqual(self.bob(*words)[0], 0)
                self.assertIn(f"device={stands}\n", self.bob.path("res.sym").read_text())
                self.assertEqual(self.kinds_of(self.bob, "res.sym")[:2], (0, kinds))
                self.assertIn(f"device={stands}\n", self.answer("/symbols/res.sym"))

    def test_theirs_leaves_what_you_alone_changed(self):
        self.both_start()
        self.changed(self.bob)
        self.assertEqual(self.bob("pull", "--theirs"), (0, ""))
        self.assertIn("device=OTHER\n", self.bob.path("res.sym").read_text())

    def test_a_symbol_of_unknown_origin_is_nobodys(self):
        self.both_start()
        (self.bob.folder / ".gafd_sync/res.sym.from").unlink()
        self.changed(self.bob)
        for command in ("pull",), ("push", "preamp.sch"), ("push", "--over", "preamp.sch"):
            status, said = self.bob(*command)
            self.assertEqual((status, "res.sym: differs from" in said), (1, True), said)
        self.assertIn("device=RESISTOR\n", self.answer("/symbols/res.sym"))
        status, said = self.bob("push", "--over", "res.sym")
        self.assertEqual((status, self.kinds(said)), (0, ["replace_symbol"]))
        self.assertIn("device=OTHER\n", self.answer("/symbols/res.sym"))

    def test_over_sends_what_others_changed_too(self):
        self.both_start()
        self.changed(self.ann)
        self.ann("push", "res.sym")
        self.assertEqual(self.kinds_of(self.bob, "res.sym")[:2], (0, []))
        status, said = self.bob("push", "--over", "res.sym")
        self.assertEqual((status, self.kinds(said)), (0, ["replace_symbol"]))
        self.assertIn("device=RESISTOR\n", self.answer("/symbols/res.sym"))

    def test_over_takes_a_symbol_and_no_sheet(self):
        self.both_start()
        self.changed(self.bob)
        self.bob.draws("value=1k\n", "value=3k\n")
        self.assertEqual(self.bob("pull", "--over", "res.sym")[0], 0)
        self.assertIn("device=RESISTOR\n", self.bob.path("res.sym").read_text())
        self.assertIn("device=OTHER\n", self.bob.path("res.sym.mine").read_text())
        self.assertIn("value=3k\n", self.bob.path().read_text())

    def test_what_a_link_leads_to_is_never_written(self):
        """Two boards link to a library. Its file gets another footprint; in one board `pull --over`
        takes the server's: the library's file, and so the other board, stay as they are."""
        library = self.room / "lib"
        library.mkdir()
        shared = library / "res.sym"
        shared.write_bytes(self.ann.path("res.sym").read_bytes())
        for engineer in (self.ann, self.bob):
            engineer.path("res.sym").unlink(missing_ok=True)
            engineer.path("res.sym").symlink_to(shared)
        self.assertEqual(self.ann("push", "preamp.sch")[0], 0)
        shared.write_text(shared.read_text().replace("device=RESISTOR", "device=BETTER"))
        better = shared.read_bytes()
        self.assertNotIn("res.sym", self.ann("pull")[1])
        status, said = self.ann("pull", "--over")
        self.assertEqual(status, 0, said)
        self.assertIn(f"res.sym: was a link, and is a file now; {shared} stays as it is", said)
        self.assertEqual(shared.read_bytes(), better)
        self.assertTrue(os.path.samefile(self.bob.path("res.sym"), shared))
        self.assertFalse(self.ann.path("res.sym").is_symlink())
        self.assertIn("device=RESISTOR\n", self.ann.path("res.sym").read_text())
        self.assertEqual(sorted(path.name for path in library.iterdir()), ["res.sym"])
        self.assertEqual(self.ann.path("res.sym.mine").read_bytes(), better)

    def test_a_link_becomes_a_file_where_others_changed_the_symbol(self):
        self.both_start()
        shared = self.room / "res.sym"
        shared.write_bytes(self.bob.path("res.sym").read_bytes())
        self.bob.path("res.sym").unlink()
        self.bob.path("res.sym").symlink_to("../res.sym")
        self.changed(self.ann)
        self.ann("push", "res.sym")
        status, said = self.bob("pull")
        self.assertEqual((status, "was a link, and is a file now" in said), (0, True), said)
        self.assertIn("device=RESISTOR\n", shared.read_text())
        self.assertIn("device=OTHER\n", self.bob.path("res.sym").read_text())

    def test_a_change_between_reading_and_sending_is_stale(self):
        self.both_start()
        self.changed(self.bob, new="device=MINE")
        send, calls = Server.send, []

        def late(server, edit, base):
            if server.session == "bob" and not calls:
                calls.append(edit)
                self.changed(self.ann)
                self.assertEqual(self.ann("push", "res.sym")[0], 0)
            return send(server, edit, base)

        with mock.patch.object(Server, "send", late):
            status, said = self.bob("push", "res.sym")
        self.assertEqual((status, "Stale: the edit 9 changed it just now" in said), (1, True), said)
        self.assertIn("device=OTHER\n", self.answer("/symbols/res.sym"))

    def test_undo_brings_the_symbol_back(self):
        self.both_start()
        before = self.ann.path("res.sym").read_bytes()
        self.changed(self.ann)
        self.ann("push", "preamp.sch")
        status, said = self.ann("undo")
        self.assertEqual((status, "res.sym: written" in said), (0, True), said)
        self.assertEqual(self.ann.path("res.sym").read_bytes(), before)
        self.assertEqual(self.ann("diff"), (0, ""))

    def test_an_older_server_is_told(self):
        self.both_start()
        self.changed(self.ann)
        post = Server.post

        def older(server, edit, number, base):
            if edit["kind"] != "replace_symbol":
                return post(server, edit, number, base)
            return Reply(400, server.front, '{"fault":"BadEdit","pointer":"/edit/kind"}')

        with mock.patch.object(Server, "post", older):
            status, said = self.ann("push", "res.sym")
        self.assertEqual((status, "the server is older than this edit" in said), (1, True), said)
        self.assertEqual(self.rows(), 9)

    def test_missing_symbols_are_one_line(self):
        for path in self.ann.folder.glob("*.sym"):
            path.unlink()
        self.ann.path("b.sch").write_bytes(self.ann.path().read_bytes().replace(b"=R", b"=Q"))
        status, said = self.ann("push", "preamp.sch", "b.sch")
        lines = [line for line in said.splitlines() if "gafd-bring preamp.sch" in line]
        self.assertEqual((status, len(lines), lines[0].count("res.sym")), (1, 1, 1), said)

    def test_the_sheets_that_lack_symbols_are_named(self):
        self.both_start()
        for name, symbol in (("good.sch", "res.sym"), ("c.sch", "no.sym"), ("b.sch", "none.sym")):
            self.ann.path(name).write_text(f"v 20130925 2\nC 0 0 1 0 0 {symbol}\n")
        status, said = self.ann("push", "good.sch", "c.sch", "b.sch")
        self.assertEqual(status, 1)
        self.assertIn("no.sym, none.sym: neither the server nor this folder has them;", said)
        self.assertIn("`gafd-bring b.sch c.sch` brings", said)

    def library(self, *names):
        """A folder of symbols, each of which has the folder for its device."""
        folder = self.room / f"library {len(list(self.room.glob('library *')))}"
        folder.mkdir()
        for name in names:
            (folder / name).write_text(f"v 20130925 2\nT 0 0 8 10 0 0 0 0 1\ndevice={folder}\n")
        return folder

    def on_server(self, name):
        return self.asked_server(lambda server: server.symbol(name))

    def test_a_symbol_of_a_library_goes_out_once(self):
        first, second = self.library("own.sym"), self.library("own.sym", "two.sym")
        lines = [f"C {at} 0 1 0 0 {name}.sym\n" for at, name in enumerate(("own", "two", "res"))]
        self.ann.path("b.sch").write_text("v 20130925 2\n" + "".join(lines))
        folders = f"{self.room / 'none'}::{first}:{second}"
        with mock.patch.dict(os.environ, {"GAFD_SYMBOLS": folders}):
            status, kinds, said = self.kinds_of(self.ann, "b.sch")
            self.assertEqual((status, kinds), (0, ["add_symbol"] * 3 + ["add_sheet"]), said)
            self.assertIn(f"own.sym from {first / 'own.sym'}\n", said)
            self.assertEqual(self.ann("push", "b.sch"), (0, "b.sch: nothing to send\n"))
        for name, folder in (("own.sym", first), ("two.sym", second)):
            self.assertIn(f"device={folder}\n", self.answer("/symbols/" + name))
            self.assertFalse(self.ann.path(name).exists())
        self.assertIn("device=RESISTOR\n", self.answer("/symbols/res.sym"))
        for engineer in (self.ann, self.bob):
            self.assertEqual(engineer("pull")[0], 0)
            self.assertIn(f"device={first}\n", engineer.path("own.sym").read_text())

    def test_a_picture_of_a_library_leads_to_no_sheet(self):
        folder, texts = self.library(), ("source=low.sch", "graphical=1")
        for count in (1, 2):
            lines = [f"T 0 0 8 10 0 0 0 0 1\n{text}\n" for text in texts[:count]]
            (folder / f"own{count}.sym").write_text("v 20130925 2\n" + "".join(lines))
            self.ann.path(f"{count}.sch").write_text(f"v 20130925 2\nC 0 0 1 0 0 own{count}.sym\n")
            with mock.patch.dict(os.environ, {"GAFD_SYMBOLS": str(folder)}):
                status, said = self.ann("push", f"{count}.sch")
            self.assertEqual((status, "leads down to low.sch" in said), (0, count == 1), said)

    def test_without_a_library_a_symbol_is_missing(self):
        self.ann.path("b.sch").write_text("v 20130925 2\nC 0 0 1 0 0 own.sym\n")
        for folders in ("", str(self.library("other.sym"))):
            with mock.patch.dict(os.environ, {"GAFD_SYMBOLS": folders}):
                self.assertEqual(self.ann("push", "b.sch")[0], 1)
        self.assertIsNone(self.on_server("own.sym"))

    def test_what_a_push_took_from_a_library_is_taken_back(self):
        self.ann.path("b.sch").write_text("v 20130925 2\nC 0 0 1 0 0 own.sym\n")
        with mock.patch.dict(os.environ, {"GAFD_SYMBOLS": str(self.library("own.sym"))}):
            self.assertEqual(self.ann("push", "b.sch")[0], 0)
        self.assertIsNotNone(self.on_server("own.sym"))
        self.assertEqual(self.ann("undo")[0], 0)
        self.assertIsNone(self.on_server("own.sym"))
