"""Replies of a server, or of a page, that are not as they should be: nothing of them becomes a path,
nothing a fault of Python, and nothing reaches a terminal that this would obey."""
import functools
import http.server
import io
import json
import pathlib
import tempfile
import threading
import unittest
import urllib.parse
from contextlib import redirect_stderr, redirect_stdout
from unittest import mock

from gafd_sync.arguments import main
from gafd_sync.words import UNSEEN, spelled
from laboratory import MEMORY, WIRE, Laboratory, asked

HEAD = "v 20201211 2\n"
PART = "C 0 0 1 0 0 res.sym\n"
SYMBOL = HEAD + "P 0 0 100 0 1 0 0\n"
GAP = '{"fault":"NumberGap","last":0}'
TAKEN = '{"first_id":0,"front":2,"serial":1}'


class Canned:
    """A server, or a page, that answers what a table has for each path."""

    def __init__(self, replies):
        self.replies, self.front = replies, "1"
        answer = self.answer

        class Handler(http.server.BaseHTTPRequestHandler):
            protocol_version = "HTTP/1.1"
            do_GET = do_POST = lambda handler: answer(handler)
            log_message = mock.Mock()

        self.server = http.server.ThreadingHTTPServer(("127.0.0.1", 0), Handler)
        self.server.daemon_threads = True
        serve = functools.partial(self.server.serve_forever, poll_interval=0.01)
        threading.Thread(target=serve, daemon=True).start()
        self.url = f"http://127.0.0.1:{self.server.server_port}"

    def answer(self, handler):
        handler.rfile.read(int(handler.headers.get("Content-Length", 0)))
        path = urllib.parse.unquote(handler.path.partition("?")[0])
        reply = self.replies.get(f"{handler.command} {path}", self.replies.get(path))
        if isinstance(reply, list):
            reply = reply.pop(0) if len(reply) > 1 else reply[0]
        status, body = reply or (404, '{"fault":"NoSymbol"}')
        handler.send_response(status)
        for name, value in (("Front", self.front), ("Content-Length", str(len(body.encode())))):
            handler.send_header(name, value)
        handler.end_headers()
        handler.wfile.write(body.encode())

    def close(self):
        self.server.shutdown()
        self.server.server_close()


def board(sheets, symbols=()):
    """The replies of a server that has these sheets and symbols, by name."""
    replies = {"/sheets": (200, "".join(f"{name} 1\n" for name in sheets))}
    for name, text in dict(sheets).items():
        replies["/sheets/" + name] = 200, text
        letters = [line[0] for line in text.splitlines()[1:] if line[1:2] == " "]
        replies["/objects/" + name] = 200, "".join(f"{at} {it}\n" for at, it in enumerate(letters))
    replies.update({"/symbols/" + name: (200, text) for name, text in dict(symbols).items()})
    return replies


class RepliesLaboratory(unittest.TestCase):
    def setUp(self):
        room = tempfile.TemporaryDirectory(dir=MEMORY)
        self.addCleanup(room.cleanup)
        self.room = pathlib.Path(room.name)
        self.folder = self.room / "ann"
        self.folder.mkdir()
        pauses = mock.patch("gafd_sync.server.PAUSES", ())
        pauses.start()
        self.addCleanup(pauses.stop)

    def canned(self, replies):
        server = Canned(replies)
        self.addCleanup(server.close)
        return server

    def call(self, replies, *words):
        url = self.canned(replies).url
        return asked(self.folder, "--server", url, "--session", "ann", *words)

    def files(self):
        """All files but what the client knows of them."""
        found = (path.relative_to(self.room) for path in self.room.rglob("*") if path.is_file())
        return sorted(str(path) for path in found if ".gafd_sync" not in path.parts)


class NameTest(RepliesLaboratory):
    LEADING = ("../.bashrc", "../outside.sch", "/outside.sch", ".bashrc", ".hidden.sch", "..",
               "a/b.sch", "a\\b.sch", "", "a b.sch", "a\x1bb.sch", "\u202ehcs.a", "x" * 97 + ".sch")
    OTHERS = ("gafrc", "lepton.conf", "Makefile", "x.sym", "a.sch.mine", "--over", "-rf.sch", "notes")

    def test_a_name_that_leads_elsewhere_ends_the_call(self):
        for name in self.LEADING:
            replies = board({"a.sch": HEAD + WIRE, name: HEAD + WIRE})
            for words in (["pull"], ["pull", "--over"], ["table"], ["sheets"]):
                with self.subTest(name, words=words):
                    status, said = self.call(replies, *words)
                    self.assertEqual((status, "is no name of a file" in said), (3, True), said)
                    self.assertEqual(self.files(), [])

    def test_so_does_one_of_a_board_as_it_was(self):
        for name in self.LEADING:
            with self.subTest(name):
                then = board({name: HEAD + WIRE})
                replies = {"/at/1" + path: reply for path, reply in then.items()}
                replies["/about"] = 200, '{"past":true}'
                replies["/watch"] = 200, '{"front":5}'
                status, said = self.call({}, "--view", self.canned(replies).url, "at", "1", "then")
                self.assertEqual((status, "is no name of a file" in said), (3, True), said)
                self.assertEqual(self.files(), [])

    def test_a_name_of_other_programs_is_left_out_and_told(self):
        replies = board({name: HEAD + WIRE for name in ("a.sch", *self.OTHERS, "z.sch")})
        status, said = self.call(replies, "pull")
        self.assertEqual(status, 0, said)
        self.assertEqual(self.files(), ["ann/a.sch", "ann/gafrc", "ann/z.sch"])
        self.assertIn("component-library", (self.folder / "gafrc").read_text())
        told = [line.split()[1] for line in said.splitlines() if " is left out: " in line]
        self.assertEqual(told, list(self.OTHERS), said)
        self.assertIn("gafrc is left out: its name does not end in .sch\n", said)
        self.assertIn("-rf.sch is left out: its name begins with `-`\n", said)
        self.assertEqual(self.call(replies, "sheets")[1].split("\n")[-3:-1], ["a.sch", "z.sch"])
        self.assertEqual(self.call(replies, "diff")[0], 0)

    def test_a_line_on_what_is_left_out_goes_to_the_errors(self):
        out, errors, server = io.StringIO(), io.StringIO(), self.canned(board({"gafrc": HEAD}))
        words = ["gafd_sync", "--server", server.url, "--session", "ann", "sheets"]
        with mock.patch("sys.argv", words), redirect_stdout(out), redirect_stderr(errors):
            self.assertEqual(main(), 0)
        self.assertEqual((out.getvalue(), errors.getvalue().count("left out")), ("", 1))

    def test_a_symbol_is_written_under_the_name_of_one_alone(self):
        for name in ("../res.sym", ".res.sym", "gafrc", "Makefile", "-res.sym", "a.sch"):
            with self.subTest(name):
                texts = {"a.sch": HEAD + PART.replace("res.sym", name) + PART}
                status, said = self.call(board(texts, {name: SYMBOL, "res.sym": SYMBOL}), "pull")
                self.assertEqual(status, 0, said)
                self.assertEqual(self.files(), ["ann/a.sch", "ann/gafrc", "ann/res.sym"])
                self.assertIn("component-library", (self.folder / "gafrc").read_text())


class ReplyTest(RepliesLaboratory):
    def test_a_sheet_that_is_none_ends_a_pull(self):
        deep = "".join("C 0 0 1 0 0 EMBEDDEDx\n[\n" for _ in range(5000))
        texts = ("", "junk\n", "<html>\n", HEAD + "T 0 0 9 10 1 0 0 0 0\n", HEAD + deep,
                 HEAD + "T 0 0 9 10 1 0 0 0 999999999\nx\n", HEAD + "N 0 0 x 0 4\n", HEAD + "N\n")
        for text in texts:
            for words in (["pull"], ["ids", "a.sch"]):
                with self.subTest(text[:60], words=words):
                    status, said = self.call(board({"a.sch": text}), *words)
                    self.assertIn(status, (1, 3), said)
                    self.assertEqual(self.files(), [])

    def test_ids_that_are_none_end_a_pull(self):
        for ids in ("", "x N\n", "-1 N\n", "1_0 N\n", "1 N\n2 N\n", "9" * 30 + " N\n", "1 N\n1 N\n"):
            with self.subTest(ids):
                text = HEAD + WIRE * (2 if ids == "1 N\n1 N\n" else 1)
                replies = {**board({"a.sch": text}), "/objects/a.sch": (200, ids)}
                status, said = self.call(replies, "pull")
                self.assertEqual((status, "ids, and other objects" in said), (3, True), said)
                self.assertEqual(self.files(), [])

    def test_a_symbol_that_is_none_is_not_written(self):
        replies = board({"a.sch": HEAD + PART}, {"res.sym": "echo owned\n"})
        self.assertIn(self.call(replies, "pull")[0], (1, 3))
        self.assertNotIn("ann/res.sym", self.files())

    def test_a_front_that_is_none_ends_the_call(self):
        for front in ("", "x", "-1", "1e3", "9" * 40):
            with self.subTest(front):
                server = self.canned(board({"a.sch": HEAD + WIRE}))
                server.front = front
                status, said = asked(self.folder, "--server", server.url, "pull")
                self.assertEqual((status, self.files()), (3, []), said)

    def test_answers_to_an_edit(self):
        (self.folder / "a.sch").write_text(HEAD + WIRE)
        for answers, wanted in (
            ([(200, "x")], "in place of NumberGap"),
            ([(409, '{"fault":"NumberGap"}')], "in place of NumberGap"),
            ([(409, '{"fault":"NumberGap","last":"x"}')], "in place of NumberGap"),
            ([(409, GAP), (200, "{}")], "in place of a serial"),
            ([(409, GAP), (200, '{"serial":"1","first_id":[]}')], "in place of a serial"),
            ([(409, GAP), (409, '{"fault":"UndoBlocked"}')], "by the edit ?"),
            ([(409, GAP), (422, '{"fault":"BadText"}')], "a.sch:None: None"),
            ([(409, GAP), (409, '{"fault":"Stale","newer":"x"}')], "Stale: somebody"),
            ([(409, GAP), (400, "[" * 100_000)], "400 [["),
            ([(409, GAP), (400, '{"fault":{"a":1}}')], "400 "),
        ):
            with self.subTest(wanted, answers=str(answers)[:80]):
                missing = (404, '{"fault":"NoSheet"}')
                replies = {**board({}), "POST /edits": list(answers),
                           "/sheets/a.sch": missing, "/objects/a.sch": missing}
                status, said = self.call(replies, "push", "a.sch")
                self.assertTrue(status in (1, 3) and wanted in said, said)

    def test_a_page_that_tells_what_it_should_not_tells_nothing(self):
        row = {"serial": 3, "session": "eve", "edit": {"kind": "renumber"}}
        good = {"rows": [row], "last": [3], "brought": [3], "numbering": None}
        cases = [[], 7, None, {}, {**good, "rows": 7}, {**good, "rows": [7]}, {**good, "last": []},
                 {**good, "last": ["3"]}, {**good, "numbering": "x"}, {**good, "brought": None},
                 {**good, "rows": [{**row, "session": "eve\x1b]0;x\x07"}]},
                 {**good, "rows": [{**row, "session": "eve\na.sch: written"}]},
                 {**good, "rows": [{**row, "edit": {"kind": "replace", "text": 7}}]}]
        for answer in [*cases, good]:
            with self.subTest(answer):
                self.call(board({"a.sch": HEAD + WIRE}), "pull", "--over")
                page = self.canned({"/whose": (200, json.dumps(answer))})
                now = board({"a.sch": HEAD + WIRE.replace("900", "700")})
                status, said = self.call(now, "--view", page.url, "pull")
                self.assertEqual(status, 0, said)
                who = "eve, edit 3" if answer is good else "others"
                self.assertIn(f"changed by {who}: 0, N 100 100 700 100", said)
                self.assertEqual("does not tell who" in said, answer is not good, said)


class SpelledTest(Laboratory):
    MARKS = ("\x1b]0;title\x07", "\x1b[2J", "\x00", "\x7f", "\x9b31m", "a\u202eb", "\u2066x\u2069",
             "\u200f", "\x0b", "\x85", "\u2028")

    def test_what_a_terminal_would_obey_is_spelled(self):
        for text, wanted in (
            ("\x1b[2J\x07", "\\x1b[2J\\x07"), ("\r\x00\x7f\x9b", "\\r\\x00\\x7f\\x9b"),
            ("a\u202eb\u2069", "a\\u202eb\\u2069"), ("10 µF\tΩ é ش \\x1b\n", "10 µF\tΩ é ش \\x1b\n"),
        ):
            self.assertEqual(spelled(text), wanted)

    def test_each_command_spells_what_others_wrote(self):
        self.both_start()
        for at, mark in enumerate(self.MARKS):
            with self.subTest(mark):
                note = f"T 0 {at} 9 10 1 1 0 0 1\nvalue={mark}\n"
                edit = {"kind": "add_object", "sheet": "preamp.sch", "text": note}
                self.asked_server(lambda server, edit=edit: server.send(edit, self.rows()))
                calls = [self.bob("diff"), self.bob("pull"), self.bob("ids", "preamp.sch"),
                         asked(self.room, "history", self.server.store)]
                self.bob.draws(note, note.replace("value=", "value=7"))
                calls += [self.bob("diff"), self.bob("push", "preamp.sch")]
                for status, said in calls:
                    self.assertEqual(status, 0, said)
                    self.assertIn("value=" + spelled(mark), said.replace("value=7", "value="))
                    self.assertNotRegex(said, UNSEEN)
                self.assertIn(mark, self.bob.path().read_bytes().decode())
