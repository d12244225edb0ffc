#!/usr/bin/env python3
"""Tests the program gafd_view over HTTP, without a browser: what it hands on, what it keeps out,
the history, the board as it was, and folders. GAFD names the program `gafd`; with none it says
so, and its status is 0. It takes some seconds.
"""
import concurrent.futures
import json
import os
import socket
import subprocess
import sys
import threading
import time
import unittest
from unittest import mock

from boards import EXAMPLES, HERE, LONGEST, PATIENCE, Case, FolderCase, ask, served
from sheet_text import count_objects, read_objects

EDIT = '{"session":"eve","number":1,"base":0,"edit":{"kind":"renumber"}}'
TYPE = {"Content-Type": "application/json"}


def rows_of(text):
    return [json.loads(it) for it in text.splitlines()]


class Printing(FolderCase):
    def test_without_a_browser_no_pdf_is_written(self):
        path = self.folder / "board.pdf"
        words = [sys.executable, str(HERE.parent), "--pdf", str(path), str(self.folder)]
        asked = {**os.environ, "GAFD": served.program(), "PATH": str(self.folder)}
        told = subprocess.run(words, capture_output=True, text=True, timeout=PATIENCE, env=asked,
                              check=False)
        self.assertEqual(told.returncode, 1)
        self.assertRegex(told.stderr, r"^gafd_view: a PDF wants a browser, and none of chromium .*\n$")
        self.assertFalse(path.exists())


class Safety(Case):
    files = ["res.sym"]

    def test_an_edit_has_to_come_from_this_page_as_json(self):
        here = self.view.address
        cases = [
            ({"Origin": "http://evil.example", **TYPE}, 403),
            ({"Origin": "null", **TYPE}, 403),
            ({"Origin": "http://127.0.0.1:1", **TYPE}, 403),
            ({"Host": "evil.example", **TYPE}, 403),
            ({}, 403),
            ({"Content-Type": "text/plain"}, 403),
            ({"Content-Type": "application/x-www-form-urlencoded"}, 403),
            ({"Origin": "http://" + here, **TYPE}, 200),
        ]
        for headers, wanted in cases:
            with self.subTest(headers):
                status, _, _ = ask(here, "POST", "/board/edits", EDIT, headers)
                self.assertEqual(status, wanted)

    def test_nothing_is_told_under_another_name(self):
        for path in ("/", "/board/sheets", "/history?from=0", "/who?id=0", "/watch?from=9",
                     "/about"):
            with self.subTest(path):
                self.assertEqual(ask(self.view.address, "GET", path, None,
                                     {"Host": "evil.example"})[0], 403)
                self.assertEqual(ask(self.view.address, "GET", path)[0], 200)

    def test_only_the_routes_are_handed_on(self):
        for path in ("/board/edits", "/board/sheets/a/b", "/board/../etc/passwd",
                     "/board/netlist/spice",
                     "/page/main.js", "/../web.py", "/web.py", "/package.json", "/board/sheets?min=x"):
            with self.subTest(path):
                self.assertEqual(ask(self.view.address, "GET", path)[0], 404)
        self.assertEqual(ask(self.view.address, "POST", "/board/sheets", EDIT, TYPE)[0], 405)

    def test_pages_load_nothing_from_elsewhere(self):
        for path in ("/", "/main.js", "/style.css", "/board/sheets"):
            headers = ask(self.view.address, "GET", path)[2]
            self.assertIn("default-src 'self'", headers["Content-Security-Policy"])
            self.assertEqual(headers["X-Content-Type-Options"], "nosniff")

    def test_a_page_for_looking_takes_no_edits(self):
        view = self.viewed("--look", self.server.url)
        status, text, _ = ask(view.address, "POST", "/board/edits", EDIT, TYPE)
        self.assertEqual((status, text), (405, '{"fault":"Look"}'))

    def test_findings_are_accepted_by_the_page_alone_and_as_they_should_be(self):
        words = ["--reviews", self.folder / "reviews", self.server.url]
        here, asked = self.viewed(*words), {"finding": "warning OnePin EN", "who": "ann",
                                            "reason": "a test point"}

        def accepts(view, headers=TYPE, **changes):
            body = json.dumps({**asked, **changes})
            return ask(view.address, "POST", "/accepted", body, headers)[:2]

        wrong = [{"finding": "EN"}, {"finding": "error a\nerror b"}, {"who": ".ann"}, {"who": 1},
                 {"reason": ""}, {"reason": "a\nb"}, {"reason": "\u202ea"}, {"more": 1}]
        for changes in wrong:
            with self.subTest(changes):
                self.assertEqual(accepts(here, **changes), (400, '{"fault":"BadAcceptance"}'))
        elsewhere = {**TYPE, "Origin": "http://elsewhere.example"}
        self.assertEqual(accepts(here, elsewhere)[0], 403)
        self.assertEqual(accepts(self.viewed("--look", *words))[0], 405)
        self.assertEqual(accepts(self.view)[0], 405)
        self.assertFalse((self.folder / "reviews").exists())
        status, text = accepts(here)
        [told] = json.loads(text)
        self.assertEqual((status, told["finding"], told["reason"]),
                         (200, asked["finding"], asked["reason"]))
        self.assertEqual(json.loads(here.ask("/reviews")[1])["accepted"], [told])
        self.assertEqual(accepts(here, reason=None), (200, "[]"))

    def test_a_name_of_a_proxy_is_answered(self):
        view = self.viewed("--host", "lab.example", self.server.url)
        self.assertEqual(ask(view.address, "GET", "/about", None, {"Host": "lab.example"})[0], 200)


class Sockets(Case):
    files = ["res.sym"]

    def test_a_board_at_a_socket_is_looked_at_and_edited(self):
        path = self.folder / "amp.socket"
        server = served.Served(self.folder / "other", path=path)
        self.addCleanup(server.stop)
        view = self.viewed("--store", self.folder / "other", server.url)
        self.assertEqual(json.loads(view.ask("/about")[1])["name"], server.url)
        status, text, _ = ask(view.address, "POST", "/board/edits", EDIT, TYPE)
        self.assertEqual((status, json.loads(text)["serial"]), (200, 0))
        self.assertEqual(view.ask("/board/sheets")[2]["Front"], "1")
        self.assertEqual(view.ask("/at/0/sheets")[2]["Front"], "0")
        self.assertEqual(json.loads(view.ask("/watch?from=0")[1]), {"front": 1})

    def test_a_socket_where_nobody_serves_is_no_server(self):
        view = self.viewed(f"unix:{self.folder}/none")
        self.assertEqual(view.ask("/board/sheets")[:2], (502, '{"fault":"NoServer"}'))

    def test_what_is_no_address_is_told(self):
        for word in ("unix:", "ftp://lab.example"):
            words = [sys.executable, str(HERE.parent), "--port", "0", word]
            told = subprocess.run(words, capture_output=True, text=True, timeout=PATIENCE,
                                  check=False)
            self.assertEqual((told.returncode, told.stderr), (
                1, f"gafd_view: {word} is no address of a server, as http://127.0.0.1:8080 and"
                " unix:amp.socket are\n"))


class Histories(Case):
    def test_rows_come_as_lines(self):
        status, text, headers = self.view.ask("/history?from=11")
        self.assertEqual((status, headers.get_content_type()), (200, "application/jsonl"))
        [row] = rows_of(text)
        edit = row.pop("edit")
        self.assertRegex(row.pop("time"), r"^\d{4}-\d\d-\d\dT\d\d:\d\d:\d\dZ$")
        self.assertEqual(row, {"serial": 11, "session": "setup", "number": 12, "base": 11})
        self.assertEqual((edit["kind"], edit["name"], len(edit["text"])),
                         ("add_sheet", "stereo.sch", 200))
        self.assertEqual(self.view.ask("/history?from=12")[1], "")
        for path in ("/history", "/history?from=-1", "/who", "/watch?from=x", "/changed"):
            self.assertEqual(self.view.ask(path)[0], 400)

    def test_who_last_changed_an_object_is_told(self):
        bob, c1 = self.bob(), self.ann.id_of("stereo.sch", "C1")

        def who(number):
            told = json.loads(self.view.ask(f"/who?sheet=stereo.sch&id={number}")[1])
            return [it and (it["session"], it["serial"], it["edit"]["kind"])
                    for it in (told["row"], told["numbering"])]

        self.assertEqual(who(c1), [("setup", 11, "add_sheet"), None])
        serial = bob.edit(kind="set_attr", id=c1, name="value", value="1u")
        self.assertEqual(who(c1), [("bob", serial, "set_attr"), None])
        undone = bob.edit(kind="undo", serial=serial)
        self.assertEqual(who(c1), [("bob", undone, "undo"), None])
        made = self.ann.edit(kind="add_object", sheet="stereo.sch", text="\n C 9 9 1 0 0 res.sym\n")
        new = self.ann.ids("stereo.sch")[-1]
        numbered = bob.edit(kind="renumber")
        self.assertEqual(who(new), [("setup", made, "add_object"), ("bob", numbered, "renumber")])
        self.assertEqual(who(10 ** 9), [None, ("bob", numbered, "renumber")])

    def test_who_changed_many_objects_and_symbols_is_told(self):
        bob, (c1, c2) = self.bob(), (self.ann.id_of("stereo.sch", it) for it in ("C1", "C2"))
        moved = bob.edit(kind="move", ids=sorted([c1, c2]), dx=100, dy=0)
        gone = self.ann.edit(kind="delete", ids=[c2])
        numbered = bob.edit(kind="renumber")
        told = json.loads(self.view.ask(f"/whose?ids={c1},{c2},999999")[1])
        rows = [(it["serial"], it["session"]) for it in told.pop("rows")]
        self.assertEqual(told, {"last": [moved, gone, None], "brought": [11, 11, None],
                                "numbering": numbered})
        self.assertEqual(rows, [(11, "setup"), (moved, "bob"), (gone, "setup"), (numbered, "bob")])
        back = self.ann.edit(kind="undo", serial=gone)
        unnumbered = bob.edit(kind="undo", serial=numbered)
        told = json.loads(self.view.ask(f"/whose?ids={c2}")[1])
        self.assertEqual((told["last"], told["brought"], told["numbering"]),
                         ([back], [back], unnumbered))
        text = (EXAMPLES / "res.sym").read_text() + "T 0 0 9 10 1 0 0 0 1\nnew\n"
        changed = bob.edit(kind="replace_symbol", name="res.sym", text=text)
        row = json.loads(self.view.ask("/whose?symbol=res.sym")[1])["row"]
        self.assertEqual((row["serial"], row["edit"]["kind"]), (changed, "replace_symbol"))
        self.assertEqual(self.view.ask("/whose?symbol=no.sym")[1], '{"row": null}')
        many = ",".join(map(str, range(1001)))
        for query in ("", "?ids=", "?ids=1,", "?ids=x", "?ids=" + many):
            self.assertEqual(self.view.ask("/whose" + query)[0], 400, query[:20])

    def test_what_changed_since_a_front_is_told(self):
        bob, c1 = self.bob(), self.ann.id_of("stereo.sch", "C1")

        def changed(serial):
            told = json.loads(self.view.ask(f"/changed?from={serial}")[1])
            return told["sheets"], told["symbols"]

        moved = bob.edit(kind="move", ids=[c1], dx=100, dy=0)
        self.assertEqual(changed(moved), (["stereo.sch"], []))
        bob.edit(kind="undo", serial=moved)
        self.assertEqual(changed(moved + 1), (["stereo.sch"], []))
        bob.edit(kind="add_symbol", name="own.sym", text="v 20130925 2\n")
        self.assertEqual(changed(moved + 2), ([], ["own.sym"]))
        self.assertEqual(changed(moved + 3), ([], []))
        bob.edit(kind="renumber")
        self.assertEqual(changed(moved)[0], None)

    def test_who_waits_is_told_of_a_new_front(self):
        began = time.monotonic()
        with concurrent.futures.ThreadPoolExecutor() as pool:
            answer = pool.submit(self.view.ask, "/watch?from=12")
            time.sleep(1)
            self.bob().edit(kind="renumber")
            self.assertEqual(json.loads(answer.result()[1]), {"front": 13})
        self.assertLess(time.monotonic() - began, 25)
        self.assertEqual(json.loads(self.view.ask("/watch?from=12")[1]), {"front": 13})

    def test_rows_that_went_are_not_told(self):
        self.assertEqual(len(rows_of(self.view.ask("/history?from=0")[1])), 12)
        self.server.stop()
        (self.store / f"{11:010}.json").unlink()
        self.assertEqual(len(rows_of(self.view.ask("/history?from=0")[1])), 11)
        (self.store / f"{11:010}.json").write_text('{"base":0')
        self.assertEqual(len(rows_of(self.view.ask("/history?from=0")[1])), 11)
        row = {"base": 11, "edit": {"kind": "replace_symbol", "name": "res.sym", "text": ""},
               "number": 1,
               "session": "cleo", "version": 2}
        (self.store / f"{11:010}.json").write_text(json.dumps(row) + "\n")
        [last] = rows_of(self.view.ask("/history?from=11")[1])
        self.assertEqual((last["session"], last["edit"]["kind"]), ("cleo", "replace_symbol"))
        self.assertNotIn("version", last)
        self.assertEqual(json.loads(self.view.ask("/changed?from=11")[1]),
                         {"sheets": [], "symbols": ["res.sym"]})
        self.server.start = lambda: None
        self.server.stop = lambda *_: None

    def test_the_board_as_it_was_is_told(self):
        bob, before = self.bob(), self.ann.sheet("stereo.sch")
        listed = ask(self.server.address, "GET", "/netlist/list")[1]
        bob.edit(kind="delete", ids=[self.ann.id_of("stereo.sch", "C1")])
        status, text, headers = self.view.ask("/at/12/sheets/stereo.sch")
        self.assertEqual((status, text, headers["Front"]), (200, before, "12"))
        self.assertEqual(self.view.ask("/at/12/netlist/list")[1], listed)
        self.assertEqual(self.view.ask("/at/11/sheets/stereo.sch")[0], 404)
        self.assertEqual(self.view.ask("/at/99/sheets")[0], 502)
        self.assertEqual(self.view.ask("/at/13/sheets/stereo.sch")[1], self.ann.sheet("stereo.sch"))

    def test_without_a_store_there_is_no_history(self):
        view = self.viewed(self.server.url)
        for path in ("/history?from=0", "/who?id=0", "/changed?from=0", "/at/1/sheets"):
            self.assertEqual(view.ask(path)[0], 404)
        self.assertEqual(json.loads(view.ask("/about")[1])["history"], False)
        self.assertEqual(json.loads(view.ask("/watch?from=0")[1]), {"front": 12})


class ManyReaders(Case):
    files = ["res.sym"]

    def test_many_wait_and_others_are_answered(self):
        watching = [socket.create_connection(self.view.address.split(":")) for _ in range(90)]
        for one in watching:
            one.sendall(f"GET /watch?from=1 HTTP/1.1\r\nHost: {self.view.address}\r\n\r\n".encode())
        began = time.monotonic()
        self.assertEqual(self.view.ask("/board/sheets")[0], 200)
        self.assertLess(time.monotonic() - began, 20)
        self.bob().edit(kind="renumber")
        for one in watching:
            one.settimeout(40)
            answer = b""
            while piece := one.recv(4096):
                answer += piece
            self.assertTrue(answer.endswith(b'{"front": 2}'), answer)
            one.close()

    def test_at_most_four_workers_are_held(self):
        most, now, lock = 0, 0, threading.Lock()
        slow = socket.create_server(("127.0.0.1", 0))

        def serve(link):
            nonlocal most, now
            with lock:
                now += 1
                most = max(most, now)
            link.recv(4096)
            time.sleep(0.3)
            with lock:
                now -= 1
            link.sendall(b"HTTP/1.1 200 OK\r\nFront: 0\r\nContent-Length: 0\r\n\r\n")
            link.close()

        def accept():
            while True:
                try:
                    link, _ = slow.accept()
                except OSError:
                    return
                threading.Thread(target=serve, args=[link], daemon=True).start()

        threading.Thread(target=accept, daemon=True).start()
        view = self.viewed(f"http://127.0.0.1:{slow.getsockname()[1]}")
        with concurrent.futures.ThreadPoolExecutor(16) as pool:
            statuses = list(pool.map(lambda _: view.ask("/board/drc")[0], range(16)))
        slow.close()
        self.assertEqual((statuses, most), ([200] * 16, 4))


class Folders(FolderCase):
    def comes_to(self, view, path, wanted):
        """What is told in the end: a file may be looked at while it is written."""
        ends = time.monotonic() + 30
        while (told := view.ask(path)[:2]) != wanted and time.monotonic() < ends:
            time.sleep(0.2)
        self.assertEqual(told, wanted)

    def test_a_folder_is_told_as_a_server_tells_it(self):
        view = self.viewed(self.folder)
        self.assertEqual(view.ask("/board/sheets")[1], "channel.sch 35\nstereo.sch 48\n")
        self.assertEqual(view.ask("/board/netlist/list")[1], (EXAMPLES / "stereo.list").read_text())
        self.assertEqual(view.ask("/board/drc")[1], "findings 0\nerrors 0 warnings 0\n")
        self.assertEqual(view.ask("/board/symbols/res.sym")[0], 200)
        self.assertEqual(view.ask("/board/symbols/none.sym")[:2], (404, '{"fault":"NoSymbol"}'))
        self.assertEqual(view.ask("/board/sheets/none.sch")[:2], (404, '{"fault":"NoSheet"}'))
        told = json.loads(view.ask("/about")[1])
        self.assertEqual((told["kind"], told["edits"], told["history"]), ("folder", False, False))

    def test_a_sheet_that_begins_with_a_dash_is_no_option(self):
        text = "v 20130925 2\nN 0 0 100 0 4\n"
        (self.folder / "--form.sch").write_text(text)
        view = self.viewed(self.folder)
        self.assertEqual(view.ask("/board/sheets/--form.sch")[:2], (200, text))

    def test_sheets_that_are_named_are_shown_with_those_below(self):
        (self.folder / "other.sch").write_text("v 20130925 2\nN 0 0 100 0 4\n")
        view = self.viewed(self.folder / "stereo.sch")
        self.assertEqual(view.ask("/board/sheets")[1], "channel.sch 35\nstereo.sch 48\n")
        self.assertEqual(len(self.viewed(self.folder).ask("/board/sheets")[1].splitlines()), 3)

    def test_a_change_of_a_file_is_seen_and_ids_stay(self):
        view = self.viewed(self.folder)
        path = self.folder / "stereo.sch"
        ids = view.ask("/board/objects/stereo.sch")[1].split("\n")
        _, _, headers = view.ask("/board/sheets")
        text = path.read_text()
        head, _, rest = text.partition("\n")
        path.write_text(f"{head}\nN 0 0 900 0 4\n{rest.replace('value=10u', 'value=22u', 1)}")
        told = json.loads(view.ask(f"/watch?from={headers['Front']}")[1])
        self.assertEqual(told["front"], int(headers["Front"]) + 1)
        now = view.ask("/board/objects/stereo.sch")[1].split("\n")
        self.assertEqual(now[1:], ids)
        self.assertNotIn(now[0], ids)
        self.assertEqual(json.loads(view.ask(f"/changed?from={headers['Front']}")[1]),
                         {"sheets": ["stereo.sch"], "symbols": []})
        self.assertIn("22u", view.ask("/board/netlist/list")[1])

    def test_a_file_that_is_refused_tells_its_line(self):
        view = self.viewed(self.folder)
        text = (self.folder / "stereo.sch").read_text()
        (self.folder / "stereo.sch").write_text(text + "N 0 0 x 0 4\n")
        line = f"gafd: stereo.sch:{text.count(chr(10)) + 1}: BadNumber"
        refused = json.dumps({"fault": "Refused", "line": line}, separators=(",", ":"))
        for path in ("/board/sheets/stereo.sch", "/board/netlist/list", "/board/drc"):
            self.comes_to(view, path, (422, refused))
        self.assertEqual(view.ask("/board/sheets/channel.sch")[0], 200)
        (self.folder / "stereo.sch").write_text(text)
        self.comes_to(view, "/board/drc", (200, "findings 0\nerrors 0 warnings 0\n"))

    def test_symbols_come_from_libraries_too(self):
        library = self.folder / "library" / "below"
        library.mkdir(parents=True)
        (self.folder / "res.sym").rename(library / "res.sym")
        self.assertIn("MissingSymbol", self.viewed(self.folder).ask("/board/drc")[1])
        view = self.viewed("--symbols", self.folder / "library", self.folder)
        self.assertEqual(view.ask("/board/drc")[1], "findings 0\nerrors 0 warnings 0\n")

    def test_symbols_come_from_the_folders_that_gafd_looks_into(self):
        elsewhere = self.folder / "elsewhere"
        for name in ("first", "second", "second/below", "third"):
            (elsewhere / name).mkdir(parents=True)
        text = (self.folder / "res.sym").read_text()
        for name, footprint in (("first", "ACY1"), ("second", "ACY2"), ("third", "ACY3")):
            (elsewhere / name / "res.sym").write_text(text.replace("ACY400", footprint))
        (self.folder / "res.sym").rename(elsewhere / "second/below/own.sym")
        cases = [
            ({"GAFD_SYMBOLS": f":nowhere:{elsewhere}/first:{elsewhere}/second"}, [], "ACY1"),
            ({"GAFD_SYMBOLS": os.path.relpath(elsewhere / "second")}, [], "ACY2"),
            ({"GAFD_SYMBOLS": f"{elsewhere}/first"}, ["--symbols", os.path.relpath(elsewhere / "third")],
             "ACY3"),
        ]
        for variables, words, footprint in cases:
            with mock.patch.dict(os.environ, variables):
                view = self.viewed(*words, self.folder)
            self.assertEqual(view.ask("/board/drc")[1], "findings 0\nerrors 0 warnings 0\n")
            self.assertIn(f"LEFT/R4\tRESISTOR\t100\t{footprint}\n", view.ask("/board/netlist/list")[1])
        with (self.folder / "stereo.sch").open("a") as sheet:
            sheet.write("C 0 0 1 0 0 own.sym\n")
        with mock.patch.dict(os.environ, {"GAFD_SYMBOLS": f"{elsewhere}/second"}):
            self.assertIn("own.sym\n", self.viewed(self.folder).ask("/board/drc")[1])

    def test_ids_of_findings_are_those_of_the_page(self):
        part = "C 0 0 1 0 0 EMBEDDEDx\n[\nP 0 0 0 100 1 0 0\n]\n"
        for name in ("a.sch", "b.sch"):
            (self.folder / name).write_text("v 20130925 2\nN 0 0 0 900 4\n" + part)
        view = self.viewed(self.folder / "a.sch", self.folder / "b.sch")
        (self.folder / "a.sch").write_text("v 20130925 2\nN 5 5 9 9 4\nN 0 0 0 900 4\n" + part)
        view.ask("/watch?from=1")
        found = [it.split() for it in view.ask("/board/drc")[1].splitlines() if "NoRefdes" in it]
        ids = {it: view.ask(f"/board/objects/{it}")[1].split("\n")[-2].split()[0]
               for it in ("a.sch", "b.sch")}
        self.assertEqual({it[2]: it[3] for it in found}, ids)


class Words(unittest.TestCase):
    def test_objects_are_counted_in_any_spelling(self):
        text = (
            "v 20130925 2\n\n  T 0 0 9 10 1 0 0 0 2\n{\n}\nC 0 0 1 0 0 EMBEDDEDa b\n\n[\nL 0 0 1 1 3\n]\n\n"
                "{\nT 0 0 9 10 1 0 0 0 1\nrefdes=R1\n}\nG 0 0 9 9 0 0 1\nname\ndata\n.\nH 3 0 0 0 -1 -1 0 -1 -1 -1 -1 -1 1\nz\n")
        self.assertEqual(count_objects(text), 4)
        objects = read_objects(text)
        self.assertEqual([it.letter for it in objects], ["T", "C", "G", "H"])
        self.assertEqual(objects[1].values("refdes"), ["R1"])


if __name__ == "__main__":
    if served.program() is None:
        print("no program is built, so gafd_view is not tried")
        sys.exit(0)
    os.environ["GAFD"] = served.program()
    served.bounded(LONGEST)
    unittest.main()
