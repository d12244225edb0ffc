"""What the page asks for, over HTTP on the loopback: its own files, the board, and the history.

A page from elsewhere that a browser shows can reach the loopback too. So a request is answered
under the names of this address alone, and an edit has to come from this page, as JSON. Each
connection has a thread of its own, and ends soon.
"""
import json
import re
import sys
import threading
import time
import urllib.parse
from http.server import BaseHTTPRequestHandler, ThreadingHTTPServer

import page_files
from served_board import Answer, fault

READING = (r"((?:netlist/(?:list|bom)|drc|sheets(?:/[^/?]+)?|(?:symbols|objects)/[^/?]+)"
           r"(?:\?min=[0-9]{1,10})?)")
BOARD = re.compile("/board/" + READING)
PAST = re.compile("/at/([0-9]{1,7})/" + READING)
PROPOSED = re.compile("/proposed/([A-Za-z0-9_+-][A-Za-z0-9_+.-]{0,99})")
PROPOSED_BOARD = re.compile(PROPOSED.pattern + "@([0-9]{1,7})/" + READING)
IDS = re.compile(r"[0-9]{1,10}(?:,[0-9]{1,10}){0,999}")
MOST_BYTES = 4_194_304
MOST_READERS = 100
# A connection that is silent for so many seconds ends.
IDLE = 5
LONGEST_WATCH = 30
EVERY = 0.25
POLICY = ("default-src 'self'; img-src 'self' data:; base-uri 'none'; form-action 'none'; "
          "frame-ancestors 'none'")
JSON, LINES = "application/json", "application/jsonl; charset=utf-8"


class View(ThreadingHTTPServer):
    """The page of a board. `hosts` has the names under which it is called, and `boards` is the
    address of a list of boards, or None."""

    daemon_threads = True
    request_queue_size = 128

    def __init__(self, port, board, history=None, past=None, reviews=None, is_look=False, hosts=(),
                 boards=None):
        super().__init__(("127.0.0.1", port), Handler)
        self.board, self.history, self.past, self.is_look = board, history, past, is_look
        self.reviews, self.boards = reviews, boards
        here = (f"127.0.0.1:{self.server_port}", f"localhost:{self.server_port}")
        self.hosts = {*here, *hosts}
        self.readers = threading.BoundedSemaphore(MOST_READERS)

    def process_request(self, request, address):
        """A reader too many waits, as all that come behind it."""
        self.readers.acquire()
        super().process_request(request, address)

    def process_request_thread(self, request, address):
        try:
            super().process_request_thread(request, address)
        finally:
            self.readers.release()

    def handle_error(self, request, address):
        """A reader who goes away before the answer is no fault."""
        if not isinstance(sys.exc_info()[1], ConnectionError):
            super().handle_error(request, address)

    def front(self):
        """The front that the history or the board tells, or None where neither does."""
        try:
            return (self.history or self.board).front()
        except OSError:
            return None

    def close(self):
        for one in (self.board, self.past, self.reviews):
            if one:
                one.close()


class Handler(BaseHTTPRequestHandler):
    """One request."""

    server: View
    protocol_version = "HTTP/1.1"
    timeout = IDLE

    def do_GET(self):
        if not self.is_asked_here():
            return self.answer(fault(403, "NotThisPage"), JSON)
        if route := BOARD.fullmatch(self.path):
            return self.board_answer(lambda: self.server.board.ask("GET", route[1]))
        if (route := PAST.fullmatch(self.path)) and self.server.past:
            return self.board_answer(lambda: self.server.past.ask(int(route[1]), route[2]))
        if self.server.reviews and (ask := self.review(self.path)):
            return self.board_answer(ask)
        path, _, query = self.path.partition("?")
        asked = {"/about": self.about, "/watch": self.watch, "/changed": self.changed,
                 "/history": self.history, "/who": self.who, "/whose": self.whose}
        if path in asked:
            return asked[path](dict(urllib.parse.parse_qsl(query)))
        return self.page_file(path[1:] or "index.html")

    def do_POST(self):
        size = self.headers.get("Content-Length", "")
        if not size.isdigit() or int(size) > MOST_BYTES:
            return self.answer(fault(413, "TooLarge"), JSON)
        body = self.rfile.read(int(size))
        is_json = self.headers.get("Content-Type", "").partition(";")[0].strip() == JSON
        if not self.is_asked_here() or not self.is_from_here() or not is_json:
            return self.answer(fault(403, "NotThisPage"), JSON)
        reviews = self.server.reviews
        if self.path == "/accepted" and reviews and not reviews.is_look:
            return self.board_answer(lambda: reviews.accept(body))
        if self.path != "/board/edits" or self.server.is_look:
            return self.answer(fault(405, "Look"), JSON)
        return self.board_answer(lambda: self.server.board.ask("POST", "edits", body))

    def is_asked_here(self):
        return self.headers.get("Host") in self.server.hosts

    def is_from_here(self):
        origin = self.headers.get("Origin")
        return origin is None or urllib.parse.urlsplit(origin).netloc in self.server.hosts

    def board_answer(self, ask):
        try:
            answer = ask()
        except OSError:
            answer = fault(502, "NoServer")
        self.answer(answer, "text/plain; charset=utf-8" if answer.status == 200 else JSON)

    def review(self, path):
        """What answers a GET of proposals and notes: all of them, what stands against a proposal,
        or the board with it, where the store is there to make one."""
        reviews, view = self.server.reviews, self.server
        if path == "/reviews":
            return lambda: told(reviews.listed(view.front()))
        if view.past and (route := PROPOSED.fullmatch(path)):
            return lambda: told(reviews.outcome(route[1], view.front()))
        if view.past and (route := PROPOSED_BOARD.fullmatch(path)):
            return lambda: reviews.ask(route[1], int(route[2]), route[3])
        return None

    def about(self, _query):
        """What is looked at, and what can be asked of it."""
        view = self.server
        about = {"kind": view.board.kind, "name": view.board.name, "edits": not view.is_look,
                 "history": view.history is not None, "past": view.past is not None,
                 "reviews": view.reviews is not None,
                 "boards": view.boards,
                 "accepts": view.reviews is not None and not view.reviews.is_look}
        self.json(about)

    def history(self, query):
        """The rows from a serial on, a line each."""
        serial = number_in(query, "from")
        if self.server.history is None or serial is None:
            return self.refuse(serial)
        rows = self.server.history.since(serial)
        body = "".join(json.dumps(it, ensure_ascii=False, separators=(",", ":")) + "\n"
                       for it in rows)
        return self.answer(Answer(200, None, body.encode()), LINES)

    def who(self, query):
        """Who last changed an object."""
        number = number_in(query, "id")
        if self.server.history is None or number is None:
            return self.refuse(number)
        row, numbering = self.server.history.who(number)
        return self.json({"row": row, "numbering": numbering})

    def whose(self, query):
        """Who last changed some objects, and who brought them; or who last changed a symbol."""
        history, symbol = self.server.history, query.get("symbol")
        ids = IDS.fullmatch(query.get("ids", "")) and query["ids"].split(",")
        if history is None or not (symbol or ids):
            return self.refuse(None if history else 0)
        if symbol:
            return self.json({"row": history.who_symbol(symbol)})
        return self.json(history.whose([int(it) for it in ids]))

    def changed(self, query):
        """The sheets and symbols that changed since a front, where the history or the files tell
        it."""
        serial = number_in(query, "from")
        teller = self.server.history or self.server.board
        if serial is None or not hasattr(teller, "changed"):
            return self.refuse(serial)
        sheets, symbols = teller.changed(serial)
        return self.json({"sheets": None if sheets is None else sorted(sheets),
                          "symbols": sorted(symbols)})

    def watch(self, query):
        """Waits until there are more edits than so many, half a minute at most; tells the front."""
        seen = number_in(query, "from")
        if seen is None:
            return self.refuse(seen)
        ends = time.monotonic() + LONGEST_WATCH
        while (front := self.server.front()) == seen and time.monotonic() < ends:
            time.sleep(EVERY)
        if front is None:
            return self.answer(fault(502, "NoServer"), JSON)
        return self.json({"front": front})

    def refuse(self, number):
        self.answer(fault(400, "BadQuery") if number is None else fault(404, "NoHistory"), JSON)

    def json(self, value):
        self.answer(told(value), JSON)

    def page_file(self, name):
        found = page_files.read(name)
        if found is None:
            return self.answer(fault(404, "NoRoute"), JSON)
        return self.answer(Answer(200, None, found[0]), found[1], is_last=False)

    def answer(self, answer, kind, is_last=True):
        """Sends an answer. The connection ends behind it, but behind a file of the page, of which a
        browser asks for many at once."""
        self.close_connection = self.close_connection or is_last
        self.send_response(answer.status)
        headers = {"Content-Type": kind, "Content-Length": len(answer.body),
                   "Cache-Control": "no-store", "Content-Security-Policy": POLICY,
                   "X-Content-Type-Options": "nosniff", "Referrer-Policy": "no-referrer"}
        if self.close_connection:
            headers["Connection"] = "close"
        if answer.front is not None:
            headers["Front"] = answer.front
        for name, value in headers.items():
            self.send_header(name, str(value))
        self.end_headers()
        self.wfile.write(answer.body)

    def log_message(self, *_):
        pass


def told(value):
    """An answer that tells something as JSON."""
    return Answer(200, None, json.dumps(value, ensure_ascii=False).encode())


def number_in(query, name):
    """A number of a query, or None where there is none."""
    value = query.get(name, "")
    return int(value) if re.fullmatch(r"[0-9]{1,10}", value) else None
