"""Who edits a server as fast as it answers: `Writer`, over one plain connection."""
import json
import socket

SHEET = "w.sch"
OPENING = {"kind": "add_sheet", "name": SHEET, "text": "v 20130925 2\n"}


def connected(place, patience=240):
    """A connection to a port of the loopback, or to the socket that has this path."""
    if isinstance(place, str):
        link = socket.socket(socket.AF_UNIX)
        link.settimeout(patience)
        link.connect(place)
        return link
    link = socket.create_connection(("127.0.0.1", place), timeout=patience)
    link.setsockopt(socket.IPPROTO_TCP, socket.TCP_NODELAY, 1)
    return link


class Writer:
    """A session. Each of its wires is one of a kind, so that a sheet shows whether it is there."""

    def __init__(self, place, session, column=0):
        self.place, self.session, self.column = place, session, column
        self.number = 0
        self.connect()

    def connect(self):
        self.link = connected(self.place)
        self.rest = b""

    def ask(self, method, path, body=b""):
        """Status, front and body of a reply."""
        head = f"{method} {path} HTTP/1.1\r\nContent-Length: {len(body)}\r\n\r\n"
        self.link.sendall(head.encode() + body)
        while b"\r\n\r\n" not in self.rest:
            self.more()
        head, self.rest = self.rest.split(b"\r\n\r\n", 1)
        fields = dict(line.split(b": ", 1) for line in head.split(b"\r\n")[1:])
        length = int(fields[b"Content-Length"])
        while len(self.rest) < length:
            self.more()
        body, self.rest = self.rest[:length], self.rest[length:]
        if fields.get(b"Connection") == b"close":
            # Of one connection 10,000 requests are answered.
            self.link.close()
            self.connect()
        return int(head.split(b" ")[1]), int(fields.get(b"Front", -1)), body

    def more(self):
        piece = self.link.recv(65536)
        if not piece:
            raise ConnectionError("the server is gone")
        self.rest += piece

    def entry(self, edit):
        """The next entry of the session. Its base is 1: the sheet came, and never changed since."""
        self.number += 1
        base = 0 if edit is OPENING else 1
        value = {"session": self.session, "number": self.number, "base": base, "edit": edit}
        return json.dumps(value, separators=(",", ":")).encode()

    def opens(self):
        """Adds the sheet."""
        self.ask("POST", "/edits", self.entry(OPENING))

    def draws(self):
        """The next edit: what was sent, and what came."""
        text = f"N {self.column} {self.number} {self.column + 10} {self.number} 4\n"
        entry = self.entry({"kind": "add_object", "sheet": SHEET, "text": text})
        return entry, self.ask("POST", "/edits", entry)
