"""`push`: what was drawn in the folder, as the fewest edits."""
from types import MappingProxyType
from typing import Mapping, NamedTuple, Optional

from .differences import WHOSE, objects_named, show_conflicts, show_symbol_conflict
from .merge import plan_of, who_changed
from .motions import motions_of
from .server import MOST_IDS
from .sheets import item_of, sources_of
from .stack import Stack, mark_of
from .words import Refused, Stop, told

GONE = (
    "{0}: is gone here, and stays on the server: no edit removes or renames a sheet. `pull {0}`"
    " brings it back; a {0} of its version line alone, when pushed, takes its objects out"
)


class Edit(NamedTuple):
    """An edit, what it is about in words, and the texts that it leaves, by id or by the name of a
    symbol: None for an object that it deletes, and the key None for the one that it adds. `back` is
    the edit that does the contrary, where there is one before the edit itself is sent; `was` has
    the texts of what it changes."""

    body: dict
    what: str
    texts: dict
    back: Optional[dict] = None
    was: Mapping = MappingProxyType({})

    def left(self, first_id):
        return {first_id if key is None else key: text for key, text in self.texts.items()}


def in_parts(keys):
    return (keys[at : at + MOST_IDS] for at in range(0, len(keys), MOST_IDS))


def edits_of(name, plan):
    """The edits of a plan for a sheet. What moved or turned as one goes as one."""

    def texts_of(ids):
        return {key: plan.known[key] for key in ids}

    olds = {key: item_of(plan.known[key]) for key in plan.replaced}
    left, edits = dict(plan.replaced), []
    for motion, keys in motions_of(olds, {key: item_of(text) for key, text in left.items()}):
        for ids in in_parts(keys):
            what = f"{motion.way}: {objects_named(ids, olds)}"
            texts = {key: left.pop(key) for key in ids}
            edits.append(Edit(motion.edit(ids), what, texts, motion.back(ids), texts_of(ids)))
    for key, text in left.items():
        body = {"kind": "replace", "id": key, "text": text}
        back = {**body, "text": plan.known[key]}
        edits.append(Edit(body, f"{key}, {item_of(text)}", {key: text}, back, texts_of([key])))
    for text in plan.added:
        body = {"kind": "add_object", "sheet": name, "text": text}
        edits.append(Edit(body, str(item_of(text)), {None: text}))
    for ids in in_parts(plan.deleted):
        what = "; ".join(f"{key}, {item_of(plan.known[key])}" for key in ids)
        body = {"kind": "delete", "ids": ids}
        edits.append(Edit(body, what, dict.fromkeys(ids), None, texts_of(ids)))
    return edits


class Push:
    """One push: each edit is noted as it is acknowledged, so that `undo` knows it."""

    def __init__(self, server, folder, files):
        self.server, self.folder, self.files = server, folder, files
        self.stack, self.is_left, self.serials = Stack(folder), False, []

    def send(self, name, edit, base):
        """Sends an edit, prints it, and answers the first id that is free for it."""
        reply = self.server.send(edit.body, base)
        kind, serial, first_id = edit.body["kind"], reply["serial"], reply["first_id"]
        self.serials.append(serial)
        print(f"{name}: {serial} {kind} {edit.what}")
        if self.stack.number is None:
            self.stack.begin(self.files)
        back = {"kind": "delete", "ids": [first_id]} if kind == "add_object" else edit.back
        left = {key: mark_of(text) for key, text in edit.left(first_id).items()}
        row = {"serial": serial, "name": name, "kind": kind, "left": left, "back": back}
        self.stack.add({"session": self.server.session, **row})
        return first_id

    def sent_whole(self, name, edit, base):
        """Sends an edit that is all of a file, and answers the first id that is free for it."""
        try:
            return self.send(name, edit, base)
        except Refused as refused:
            fault = refused.fault
            if fault.get("fault") == "BadText":
                raise Stop(f"{name}:{fault.get('line')}: {fault.get('read')}") from None
            raise Stop(f"{name}: {told(fault)}") from None

    def end(self):
        """Notes where nothing is left to send."""
        if not self.is_left:
            self.stack.end(self.files)

    def sent(self, name, plan, base, known):
        """Sends the edits of a plan, one after the other; `known` grows with each. Whether all
        went out."""
        edits, count = edits_of(name, plan), 0
        try:
            for edit in edits:
                known.update(edit.left(self.send(name, edit, base)))
                count += 1
        except Refused as refused:
            self.is_left = True
            print(f"{name}: refused: {edits[count].body['kind']} {edits[count].what}")
            left = len(edits) - count
            print(f"{name}: {count} edits were sent, {left} are left. {told(refused.fault)}")
        return count == len(edits)


class FilePush(Push):
    """A push of files of the folder."""

    def __init__(self, asked, server, folder):
        super().__init__(server, folder, asked.files)
        self.asked = asked
        # The sheet that first names a symbol that is nowhere, by the symbol; None where it was
        # asked for by itself.
        self.missing = {}
        # Of the sheets of the server, by name.
        self.texts = {}

    def file(self, name):
        if not self.folder.has(name) and name in self.folder.pulled(""):
            print(GONE.format(name))
            return 1
        return self.symbol(name) if name.endswith(".sym") else self.sheet(name)

    def sheet(self, name):
        sheet = self.folder.sheet(name)
        status = 0
        for symbol in sheet.symbols():
            status |= self.symbol(symbol, name)
        now, origin = self.server.sheet(name), self.folder.origin(name)
        if now is None:
            return status | self.new_sheet(name, sheet, origin)
        is_known = origin is not None or sorted(sheet.texts) == sorted(now.objects.values())
        if not is_known and not self.asked.over:
            print(
                f"{name}: the server has a sheet of this name, and it is not known what this file"
                f" was drawn from. Pull it into another folder and draw there; `push --over {name}`"
                " makes the server's sheet as this file is, whatever others changed"
            )
            return 1
        start = now.objects if self.asked.over or origin is None else origin[1]
        plan = plan_of(start, now.objects, sheet.texts)
        if plan.conflicts:
            self.is_left = True
            show_conflicts(name, plan, now.objects, self.server.view)
            print(f"{name}: nothing was sent; {WHOSE.format(name)}")
            return 1
        return status | self.changes(name, plan, now.front)

    def changes(self, name, plan, base):
        """Sends what was changed in a sheet, and notes what the file is made from then."""
        known, is_all = dict(plan.known), False
        try:
            is_all = self.sent(name, plan, base, known)
        finally:
            objects = {key: text for key, text in known.items() if text is not None}
            self.folder.set_origin(name, self.server.front, objects)
        if is_all and plan.is_empty():
            self.nothing(name)
        if is_all and plan.theirs:
            print(f"{name}: others changed {len(plan.theirs)} other objects; `pull` brings them")
        return 0 if is_all else 1

    def nothing(self, name):
        print(f"{name}: nothing to send")

    def symbol(self, name, sheet=None):
        """Adds a symbol that the server does not have, and sends one that was changed here. It is
        asked for by itself, or by a sheet."""
        text, base, is_asked = self.server.symbol(name), self.server.front, sheet is None
        if text is None and not self.folder.has(name):
            return self.library_symbol(name, sheet, base)
        if not self.folder.has(name):
            return 0
        mine, origin = self.folder.sheet(name).text, self.folder.symbol_origin(name)
        state = "new" if text is None else who_changed(origin, text, mine)
        if is_asked and self.asked.over and state in ("unknown", "both", "theirs"):
            state = "you"
        if state in ("unknown", "both", "theirs"):
            return self.symbol_left(name, state, origin, text, mine)
        if state in ("new", "you"):
            kind = "add_symbol" if state == "new" else "replace_symbol"
            body = {"kind": kind, "name": name, "text": self.folder.read(name)}
            back = {**body, "text": text} if text else None
            left, was = ({name: mine}, {name: text}) if text else ({}, {})
            self.sent_whole(name, Edit(body, name, left, back, was), base)
        elif is_asked:
            self.nothing(name)
        self.folder.set_symbol_origin(name, self.server.front, mine)
        return 0

    def library_symbol(self, name, sheet, base):
        """Adds a symbol of a library. The folder gets no file of it, but by the next pull."""
        path = self.folder.symbol_path(name)
        if path is None:
            self.missing.setdefault(name, sheet)
            return 1
        body = {"kind": "add_symbol", "name": name, "text": self.folder.read(path)}
        self.sent_whole(name, Edit(body, f"{name} from {path}", {}), base)
        return 0

    def symbol_left(self, name, state, origin, text, mine):
        """Says why a symbol that differs from the server's is not sent."""
        if state == "theirs":
            print(f"{name}: others changed it; `pull` brings it")
            return 0
        if state == "both":
            show_symbol_conflict(name, origin, text, mine, self.server.view)
            print(f"{name}: was not sent; {WHOSE.format(name)}")
            return 1
        print(
            f"{name}: differs from the server's, and it is not known which is newer: it was not"
            f" sent. `pull --over {name}` takes the server's, `push --over {name}` sends yours"
        )
        return 1

    def new_sheet(self, name, sheet, origin):
        """Adds a sheet."""
        if origin is not None and not self.asked.over:
            print(
                f"{name}: the server has this sheet no more: its addition was taken back, or it is"
                f" another server. `push --over {name}` adds it"
            )
            return 1
        if not self.asked.copy and (other := self.sheet_with(sheet)):
            print(
                f"{name}: has what {other} has, which stays on the server: no edit removes or"
                f" renames a sheet, so each part would be there twice. Call the file {other}"
                f" again; `push --copy {name}` adds it all the same"
            )
            return 1
        body = {"kind": "add_sheet", "name": name, "text": self.folder.read(name)}
        edit = Edit(body, f"{len(sheet.items)} objects", {})
        first = self.sent_whole(name, edit, self.server.front)
        ids = range(first, first + len(sheet.items))
        self.folder.set_origin(name, self.server.front, dict(zip(ids, sheet.texts)))
        for source in sorted(sources_of(self.folder, sheet)):
            if source != name and self.server.get("/objects/" + source) is None:
                print(f"{name}: leads down to {source}, which the server lacks: push it too")
        return 0

    def sheet_with(self, sheet):
        """A sheet of the server that has all objects of this one, where parts are among them."""
        if not any(item.attribute("refdes") for item in sheet.items if item.letter == "C"):
            return None
        wanted = set(sheet.texts)
        for name in self.server.names():
            if name not in self.texts:
                self.texts[name] = self.server.texts(name)
        return next((name for name, texts in self.texts.items() if wanted <= texts), None)

    def told_missing(self):
        """Says in one line which symbols neither the server nor the folder has."""
        if not self.missing:
            return
        sheets = sorted(set(filter(None, self.missing.values()))) or ["SHEET"]
        print(
            f"{', '.join(sorted(self.missing))}: neither the server nor this folder has"
            f" {'it' if len(self.missing) == 1 else 'them'};"
            f" `gafd-bring {' '.join(sheets)}` brings what lepton would find; then push again"
        )


def push(asked, server, folder):
    running, status = FilePush(asked, server, folder), 0
    for name in asked.files:
        status |= running.file(name)
    running.end()
    running.told_missing()
    for name in folder.pulled(".sch"):
        if not folder.has(name) and name not in asked.files and server.sheet(name) is not None:
            print(GONE.format(name))
    return status
