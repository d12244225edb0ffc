"""Who changed what, asked of a `gafd_view` that is named: no route of the server tells it."""
import http.client
import json
import sys

from .server import GREATEST, Server
from .sheets import item_of
from .words import NAME, Stop

OTHERS = "others"
MOST_ASKED = 1000


def is_number(value):
    return type(value) is int


def is_row(value):
    """Whether a page tells an edit so: its serial, its session, and what it was."""
    if not isinstance(value, dict) or not isinstance(value.get("edit"), dict):
        return False
    texts = [value["edit"].get(name, "") for name in ("name", "value", "text")]
    is_named = NAME.fullmatch(str(value.get("session")))
    return is_number(value.get("serial")) and is_named and all(type(it) is str for it in texts)


def are_changes(told, count):
    """Whether a page tells who changed so many objects: the rows of edits, and for each object the
    serial of the last one and of the one that brought it, or none."""
    rows, numbering = told.get("rows"), told.get("numbering")
    if type(rows) is not list or not all(map(is_row, rows)):
        return False
    for serials in (told.get("last"), told.get("brought"), [numbering] * count):
        if type(serials) is not list or len(serials) != count:
            return False
        if not all(it is None or is_number(it) for it in serials):
            return False
    return True


class View:
    """The page at an address, or none. Who is not told by it is others."""

    def __init__(self, url=None):
        self.url, self.server = url, Server(url, "view") if url else None
        self.rows, self.numbering = {}, None
        # The serials of the edits that changed an object last, and that brought it, by its id.
        self.last, self.brought = {}, {}

    def close(self):
        if self.server:
            self.server.link.close()

    def ask(self, path):
        """What the page answers. Where it tells nothing, that is said once, and None."""
        if self.server is None:
            return None
        try:
            reply = self.server.once("GET", path, None)
            if reply.status == 200 and isinstance(told := json.loads(reply.text), dict):
                return told
            return self.tells_not(reply.fault().get("fault", reply.status))
        except (OSError, http.client.HTTPException, ValueError, RecursionError) as error:
            return self.tells_not(error)

    def tells_not(self, why):
        """Says once that it tells nothing, and why. It is not asked again."""
        print(f"gafd_sync: {self.url} does not tell who changed what: {why}", file=sys.stderr)
        self.close()
        self.server = None

    def look(self, keys):
        """Asks who changed these objects, as far as it was not asked yet."""
        left = [key for key in keys if key not in self.last]
        for at in range(0, len(left), MOST_ASKED):
            some = left[at : at + MOST_ASKED]
            told = self.ask("/whose?ids=" + ",".join(map(str, some)))
            if told is not None and not are_changes(told, len(some)):
                told = self.tells_not("it answers what it should not")
            if told is None:
                return
            self.rows.update((row["serial"], row) for row in told["rows"])
            self.last.update(zip(some, told["last"]))
            self.brought.update(zip(some, told["brought"]))
            self.numbering = told["numbering"]

    def changer(self, key, was, text):
        """Who made an object what it is; either text is None where it is not there."""
        serial = self.brought.get(key) if was is None else self.last.get(key)
        if was and text and self.is_numbered(serial, was, text):
            serial = self.numbering
        return self.words(self.rows.get(serial))

    def is_numbered(self, serial, was, text):
        """Whether the last numbering gave a refdes that differs. Its row does not tell what it
        changed; so one that the last edit of the object spells is from that."""
        if self.numbering is None or (serial is not None and serial > self.numbering):
            return False
        old, new = (item_of(it).attribute("refdes") or "" for it in (was, text))
        if old == new or not (old + " " + new).count("?"):
            return False
        edit = self.rows[serial]["edit"] if serial in self.rows else {}
        is_set = edit.get("name") == "refdes" and edit.get("value") == new
        return not is_set and f"refdes={new}\n" not in edit.get("text", "")

    def symbol_changer(self, name):
        """Who changed a symbol last."""
        told = self.ask("/whose?symbol=" + name)
        return self.words(told and told.get("row"))

    def words(self, row):
        return f"{row['session']}, edit {row['serial']}" if is_row(row) else OTHERS

    def server_at(self, count):
        """The board as it was after so many edits, as a server."""
        if self.server is None:
            raise Stop("which board? --store STORE names a store, or --view URL a gafd_view", 2)
        told = self.ask("/about")
        if told is None or not told.get("past"):
            raise Stop(f"{self.url} has no boards as they were: it wants --store")
        told = self.ask(f"/watch?from={GREATEST}")
        if told is None or not is_number(told.get("front")) or told["front"] < count:
            raise Stop(f"{self.url} has no {count} edits")
        return Server(f"{self.url.rstrip('/')}/at/{count}", "reader")
