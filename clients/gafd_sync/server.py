"""The connection to a `gafd serve`."""
import http.client
import json
import re
import ssl
import sys
import time
from typing import NamedTuple

from .addresses import Address
from .sheets import sheet_of
from .words import NAME, SHEET, SYMBOL, Refused, Stop

NUMBER = re.compile("[0-9]{1,10}")
MOST_IDS = 1000
MOST_BYTES = 4_194_304
GREATEST = 4_294_967_295
# A connection waits while eight others are served, and a silent one is ended after a minute.
PATIENCE = 150
PAUSES = (0.1, 0.5, 2, 5)


class Reply(NamedTuple):
    status: int
    front: int
    text: str

    def fault(self):
        """What it tells under names, as words and numbers."""
        try:
            found = json.loads(self.text)
        except (ValueError, RecursionError):
            return {}
        fields = found.items() if isinstance(found, dict) else ()
        return {name: it for name, it in fields if isinstance(it, (str, int))}

    @property
    def start(self):
        """Its status, and how its text begins, in one line."""
        return f"{self.status} {' '.join(self.text.split())[:200]}"


class Stand(NamedTuple):
    """A sheet as the server has it after `front` entries: its objects by id, in their order."""

    front: int
    head: str
    objects: dict

    @property
    def text(self):
        return self.head + "\n" + "".join(self.objects.values())


class Server:
    """One connection to a `gafd serve`. What it has seen of the history never shrinks."""

    def __init__(self, url, session):
        address = Address(url)
        self.url, self.path = address.url, address.path
        self.user, word = address.password()
        self.session = session
        self.link = address.link(PATIENCE)
        self.headers = {} if self.user is None else {"Authorization": word}
        self.front, self.number = 0, None
        self.left_out = set()
        # Who tells whose changes these are; set where lines on changes are printed.
        self.view = None

    def edit_as(self, session):
        """From now on it edits under this session."""
        if session != self.session:
            self.session, self.number = session, None

    def once(self, method, path, body):
        self.link.request(method, self.path + path, body, self.headers)
        answer = self.link.getresponse()
        text = answer.read().decode("utf-8", "replace")
        front = answer.getheader("Front", "")
        return Reply(answer.status, int(front) if NUMBER.fullmatch(front) else -1, text)

    def ask(self, method, path, body=None):
        """The reply to a request. One whose reply is lost is sent again as it was: an edit that
        stood already is answered as the first time."""
        for pause in (*PAUSES, None):
            try:
                reply = self.once(method, path, body)
                if reply.status not in (500, 502, 503, 504):
                    break
                cause = reply.start
            except ssl.SSLCertVerificationError as error:
                why = f"{error.verify_message}; SSL_CERT_FILE=FILE.pem names one to trust"
                raise Stop(f"{self.url}: its certificate is not trusted: {why}", 3) from None
            except (OSError, http.client.HTTPException) as error:
                self.link.close()
                cause = str(error) or type(error).__name__
            if pause is None:
                raise Stop(f"{self.url}: {cause}", 3)
            time.sleep(pause)
        if reply.status in (401, 403):
            raise Stop(f"{self.url} {self.kept_out(method, reply)}", 3)
        if reply.front < 0:
            raise Stop(f"{self.url}: {reply.start}", 3)
        return reply

    def kept_out(self, method, reply):
        """Why the server, or a proxy in front of it, lets nothing in."""
        fault = reply.fault().get("fault")
        if fault == "Foreign":
            return f"goes by other names: `gafd serve --host {self.link.host}` gives it this one"
        if fault == "NotYou":
            return self.not_you()
        if self.user is None:
            return "wants a password; ~/.netrc may have it"
        if method == "POST":
            return f"takes no edits from {self.user}, who may read alone; who runs it gives rights"
        return f"refuses the password of {self.user}"

    def not_you(self):
        """Why the server takes no edits under this session."""
        if self.user is None:
            return "takes edits through a proxy alone, which tells who sends them"
        return f"takes edits of {self.session} from {self.session} alone, and not from {self.user}"

    def get(self, path):
        """A report, of a history that holds all that was seen; None where it is not there."""
        for pause in (*PAUSES, None):
            reply = self.ask("GET", path + (f"?min={self.front}" if self.front else ""))
            if reply.status == 200:
                self.front = reply.front
                return reply
            if reply.status == 404 and reply.fault().get("fault") in ("NoSheet", "NoSymbol"):
                self.front = reply.front
                return None
            if reply.status != 409 or pause is None:
                break
            time.sleep(pause)
        if reply.status == 409:
            raise Stop(
                f"{self.url} has {reply.front} edits, and this folder has seen {self.front}: it is"
                " another server, or came from an older backup. `pull --over` takes its sheets"
            )
        raise Stop(f"{self.url}{path}: {reply.start}", 3)

    def names(self):
        """The sheets, by name."""
        lines = self.get("/sheets").text.splitlines()
        return self.file_names((line.rsplit(" ", 1)[0] for line in lines), SHEET, ".sch")

    def symbols_of(self, sheet):
        """The library symbols that a sheet of the server names."""
        return self.file_names(sheet.symbols(), SYMBOL, ".sym")

    def file_names(self, names, fitting, ending):
        """Names that the server gives, as far as a file here may have them. What leads out of the
        folder ends the call, as no server has it; what another program takes for a file of its own,
        as `gafrc`, is left out."""
        kept = []
        for name in names:
            if not NAME.fullmatch(name):
                raise Stop(f"{self.url}: {name!r} is no name of a file: nothing was written", 3)
            if fitting.fullmatch(name):
                kept.append(name)
            elif name not in self.left_out:
                self.left_out.add(name)
                why = "begins with `-`" if name.startswith("-") else f"does not end in {ending}"
                print(f"gafd_sync: {name} is left out: its name {why}", file=sys.stderr)
        return kept

    def sheet(self, name):
        """A sheet as it stands, or None. Text and ids are of one moment."""
        for _ in range(100):
            text, ids = self.get("/sheets/" + name), self.get("/objects/" + name)
            if text is None or ids is None:
                if text is None and ids is None:
                    return None
            elif text.front == ids.front:
                found = sheet_of(name, text.text)
                numbers = self.ids(name, ids.text, len(found.items))
                return Stand(text.front, found.head, dict(zip(numbers, found.texts)))
        raise Stop(f"{self.url}: {name} changes faster than it can be read", 3)

    def ids(self, name, text, count):
        """The ids that a text has, of as many objects, each of its own."""
        words = [line.split(" ")[0] for line in text.splitlines()]
        numbers = [int(word) for word in words if NUMBER.fullmatch(word)]
        if not len(words) == len(set(numbers)) == count:
            raise Stop(f"{self.url}: {name} has {len(words)} ids, and other objects", 3)
        return numbers

    def texts(self, name):
        """The texts of the objects of a sheet, none where it is not there."""
        reply = self.get("/sheets/" + name)
        return set(sheet_of(name, reply.text).texts) if reply else set()

    def all_sheets(self):
        """All sheets at one moment, by name."""
        for _ in range(100):
            stands = {name: self.sheet(name) for name in self.names()}
            if all(stand and stand.front == self.front for stand in stands.values()):
                return stands
        raise Stop(f"{self.url} changes faster than it can be read", 3)

    def symbol(self, name):
        reply = self.get("/symbols/" + name)
        if reply:
            sheet_of(name, reply.text)
        return reply and reply.text

    def symbol_texts(self, stands, named=""):
        """The texts of the symbols that sheets name, and of one more where its name is one."""
        sheets = (sheet_of(name, stand.text) for name, stand in stands.items())
        names = {name for sheet in sheets for name in self.symbols_of(sheet)}
        names |= {named} if SYMBOL.fullmatch(named) else set()
        found = ((name, self.symbol(name)) for name in sorted(names))
        return {name: text for name, text in found if text is not None}

    def next_number(self):
        """One above the session's last number, which a gap on purpose tells."""
        fault = self.post({"kind": "renumber"}, GREATEST, 0).fault()
        if fault.get("fault") != "NumberGap" or not isinstance(fault.get("last"), int):
            raise Stop(f"{self.url}: {fault} in place of NumberGap", 3)
        return fault["last"] + 1

    def post(self, edit, number, base):
        entry = {"session": self.session, "number": number, "base": base, "edit": edit}
        body = json.dumps(entry, ensure_ascii=False, separators=(",", ":")).encode()
        if len(body) > MOST_BYTES:
            raise Refused({"fault": "TooLarge"})
        return self.ask("POST", "/edits", body)

    def send(self, edit, base):
        """What the server answers to an edit that it takes; Refused where it does not."""
        if self.number is None:
            self.number = self.next_number()
        reply = self.post(edit, self.number, base)
        if reply.status != 200:
            raise Refused(reply.fault() or {"fault": reply.start})
        self.number += 1
        self.front = max(self.front, reply.front)
        found = reply.fault()
        if not all(isinstance(found.get(it), int) for it in ("serial", "first_id")):
            raise Stop(f"{self.url}: {reply.start} in place of a serial", 3)
        return found


def in_order(stands):
    """The names of sheets by their least ids, those without objects last."""
    return sorted(stands, key=lambda name: (min(stands[name].objects, default=GREATEST), name))
