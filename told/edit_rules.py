"""The rules on edits of docs/RULES.md, told again: what an edit changes, and the verdict on an
entry after a history. Each verdict looks at the whole history anew.
"""
import copy
import json

from geda_files import Fault, Item, canonical, read_object, read_sheet, read_symbol, written

MOST_COORDINATE = 200_000
MOST_OBJECTS = 400_000
# The letters of objects with the places of their points among their fields.
POINTS = {letter: ((0, 1), (2, 3)) for letter in (b"L", b"N", b"U", b"P")}
POINTS |= {letter: ((0, 1),) for letter in (b"G", b"B", b"V", b"A", b"T", b"C")}
TURNED = (b"L", b"N", b"U", b"T", b"C")


class Refused(Exception):
    """Why an entry is refused, as the desk prints it."""


def refuse(name, **fields):
    inside = ", ".join(f"{field}: {value}" for field, value in fields.items())
    raise Refused(f"{name} {{ {inside} }}" if fields else name)


def told(entry):
    return json.dumps(entry, separators=(",", ":"), ensure_ascii=False)


# Attributes


def split_attr(text):
    """Name and value of an attribute, or None."""
    name, equals, value = text.partition(b"=")
    is_plain = not name or not value or name.endswith(b" ") or value.startswith(b" ")
    return None if not equals or is_plain else (name, value)


def content(text):
    return b"\n".join(text.following)


def has_name(text, name):
    found = split_attr(content(text))
    return found is not None and found[0] == name


def attached(item, name):
    """The values of the attached attributes of a name."""
    return [split_attr(content(text))[1] for text in item.texts if has_name(text, name)]


def symbol_parts(item, project):
    """The parts of a component's symbol: its embedded one, else that of the library."""
    if item.parts is not None:
        return item.parts
    _, parts = project.get(("symbol", item.values[-1].decode()), (None, []))
    return parts


def attrs(item, name, project):
    """The values of a component's attached attributes of a name, else those that it inherits."""
    free = (part for part in symbol_parts(item, project) if part.letter == b"T")
    inherited = [split_attr(content(text))[1] for text in free if has_name(text, name)]
    return attached(item, name) or inherited


def first_point(item):
    return (0, 0) if item.letter == b"H" else tuple(item.values[:2])


def with_attr(item, name, value):
    item = copy.deepcopy(item)
    for text in item.texts:
        if has_name(text, name):
            text.values[-1], text.following = 1, [name + b"=" + value]
            return item
    label = Item(b"T", [*first_point(item), 5, 10, 0, 1, 0, 0, 1])
    label.following = [name + b"=" + value]
    item.texts.append(label)
    return item


def without_attr(item, name):
    item = copy.deepcopy(item)
    item.texts = [text for text in item.texts if not has_name(text, name)]
    return item


# Moving and turning


def pieces(item):
    """The object, its labels, and those of its embedded symbol."""
    yield item
    yield from item.texts
    for part in item.parts or ():
        yield from pieces(part)


def with_points(item, change):
    """The object with each point changed, or None where a coordinate leaves its range."""
    item = copy.deepcopy(item)
    for piece in pieces(item):
        for x, y in POINTS[piece.letter]:
            point = change(piece.values[x], piece.values[y])
            if max(map(abs, point)) > MOST_COORDINATE:
                return None
            piece.values[x], piece.values[y] = point
    return item


def moved(item, edit):
    return with_points(item, lambda x, y: (x + edit["dx"], y + edit["dy"]))


def turned(item, edit):
    about, quarter, mirror = (edit["x"], edit["y"]), edit["quarter"], edit["mirror"]

    def turn(x, y):
        x, y = x - about[0], y - about[1]
        x = -x if mirror else x
        for _ in range(quarter):
            x, y = -y, x
        return x + about[0], y + about[1]

    item = with_points(item, turn)
    if item is not None:
        for text in (*item.texts, *([item] if item.letter == b"T" else [])):
            text.values[6] = (text.values[6] + 90 * quarter) % 360
        if item.letter == b"C":
            angle = item.values[3]
            item.values[3] = (90 * quarter + (-angle if mirror else angle)) % 360
            item.values[4] ^= mirror
    return item


def goes_with(kind, item):
    """Whether an edit of a kind goes with an object."""
    if kind == "move":
        return all(piece.letter != b"H" for piece in pieces(item))
    if kind == "turn":
        return item.letter in TURNED and item.parts is None
    return kind not in ("set_attr", "drop_attr") or item.letter != b"T"


def altered(edit, item):
    """The object as the edit makes it, or None where it would leave its range."""
    if edit["kind"] == "move":
        return moved(item, edit)
    if edit["kind"] == "turn":
        return turned(item, edit)
    name = edit["name"].encode()
    if edit["kind"] == "set_attr":
        return with_attr(item, name, edit["value"].encode())
    return without_attr(item, name)


# Histories


def names_of(edit):
    """The ids that an edit names."""
    return edit["ids"] if "ids" in edit else [edit["id"]] if "id" in edit else []


def things_named(edit):
    if edit["kind"] == "add_object":
        return [("sheet", edit["sheet"])]
    if edit["kind"] == "replace_symbol":
        return [("symbol", edit["name"])]
    return [("object", number) for number in names_of(edit)]


def sizes(edit):
    texts = (edit[field] for field in ("name", "sheet", "text", "value") if field in edit)
    return sum(len(text.encode()) for text in texts) + 4 * len(names_of(edit))


def size(entry):
    return 64 + len(entry["session"].encode()) + sizes(entry["edit"])


def project_of(changes):
    project = {}
    for change in changes:
        for thing, value in change:
            project.pop(thing, None)
            if value is not None:
                project[thing] = value
    return project


def next_id(changes):
    return max(
        (number + 1 for change in changes for (kind, number), _ in change if kind == "object"),
        default=0,
    )


def count(project, kind):
    return sum(thing[0] == kind for thing in project)


def text_size(project):
    lines = (written(value[1]) for thing, value in project.items() if thing[0] == "object")
    bytes_of_objects = sum(len(line) + 1 for item in lines for line in item)
    symbols = (canonical(value) for thing, value in project.items() if thing[0] == "symbol")
    return bytes_of_objects + sum(map(len, symbols))


def objects(project):
    """Ids with sheets and objects, by rising id."""
    found = [(thing[1], *value) for thing, value in project.items() if thing[0] == "object"]
    return sorted(found, key=lambda row: row[0])


def placed(number, sheet, item):
    return (("object", number), (sheet, item))


class Desk:
    """A history: its entries, and what each one changed."""

    def __init__(self):
        self.entries, self.changes = [], []

    def touched(self, thing):
        """The last serial whose change has the thing, or None."""
        found = [s for s, change in enumerate(self.changes) if thing in dict(change)]
        return max(found, default=None)

    def newest(self, things, bound):
        found = (self.touched(thing) for thing in things)
        return max((s for s in found if s is not None and s >= bound), default=None)

    # The lines of the table

    def numbers(self, entry):
        own = [s for s, old in enumerate(self.entries) if old["session"] == entry["session"]]
        for serial in own:
            if self.entries[serial]["number"] == entry["number"]:
                refuse("NumberReused", serial=serial)
        last = self.entries[own[-1]]["number"] if own else 0
        if entry["number"] != last + 1:
            refuse("NumberGap", last=last)

    def room(self, entry):
        front = len(self.entries)
        if entry["base"] > front:
            refuse("BaseAhead", front=front)
        if front == 200_000 or sum(map(size, self.entries)) + size(entry) > 268_435_456:
            refuse("HistoryFull")

    def missing(self, edit, project):
        kind = edit["kind"]
        if kind == "add_sheet" and ("sheet", edit["name"]) in project:
            refuse("SheetExists")
        if kind == "add_symbol" and ("symbol", edit["name"]) in project:
            refuse("SymbolExists")
        if kind == "replace_symbol" and ("symbol", edit["name"]) not in project:
            refuse("NoSymbol")
        if kind == "add_object" and ("sheet", edit["sheet"]) not in project:
            refuse("NoSheet")
        if kind == "undo" and edit["serial"] >= len(self.entries):
            refuse("NoSuchEntry")
        for number in names_of(edit):
            if ("object", number) not in project:
                refuse("NoObject", id=number)

    def read(self, edit):
        """What the text of the edit spells."""
        readers = {"add_sheet": read_sheet, "add_object": read_object, "replace": read_object}
        readers |= {"add_symbol": read_symbol, "replace_symbol": read_symbol}
        try:
            if edit["kind"] in readers:
                return readers[edit["kind"]](edit["text"].encode())
        except Fault as fault:
            refuse("BadText", read=fault.kind, line=fault.line)
        if edit["kind"] == "set_attr":
            line = f"{edit['name']}={edit['value']}".encode()
            found = split_attr(line)
            if found is None or found[0] != edit["name"].encode() or b"\r" in line:
                refuse("BadText", read="NotAttribute", line=1)
        return None

    def kinds(self, edit, project):
        for number in names_of(edit):
            if not goes_with(edit["kind"], project["object", number][1]):
                refuse("NotOnKind", id=number)
        if edit["kind"] == "drop_attr":
            if not attached(project["object", edit["id"]][1], edit["name"].encode()):
                refuse("NoAttribute", id=edit["id"])

    def crossed(self, entry):
        edit = entry["edit"]
        newer = self.newest(things_named(edit), entry["base"])
        if newer is not None:
            refuse("Stale", newer=newer + 1)
        if edit["kind"] == "undo":
            self.undo_crossed(entry["session"], edit["serial"])

    def undo_crossed(self, session, serial):
        if self.entries[serial]["session"] != session:
            refuse("NotYours")
        undone = {"kind": "undo", "serial": serial}
        again = [s for s, old in enumerate(self.entries) if old["edit"] == undone]
        if again:
            refuse("UndoneAlready", by=again[-1])
        by = self.newest(dict(self.changes[serial]), serial + 1)
        if by is not None:
            refuse("UndoBlocked", by=by)

    def undo_fits(self, project, change):
        after = project_of([*self.changes, change])
        for thing, value in change:
            if thing[0] == "object" and value is not None and ("sheet", value[0]) not in after:
                refuse("NoSheet")
        gone = [thing[1] for thing, value in change if thing[0] == "sheet" and value is None]
        for number, sheet, _ in objects(project):
            if sheet in gone and ("object", number) not in dict(change):
                refuse("SheetInUse", id=number)

    def fits(self, edit, project, change):
        if edit["kind"] == "undo":
            self.undo_fits(project, change)
        for thing, value in change:
            if value is not None and value[1] is None:
                refuse("OutOfRange", id=thing[1])
        after = project_of([*self.changes, change])
        if count(after, "object") > MOST_OBJECTS:
            refuse("TooManyObjects")
        is_over = count(after, "sheet") > 1_024 or count(after, "symbol") > 8_192
        if is_over or text_size(after) > 67_108_864:
            refuse("ProjectFull")

    # What an edit changes

    def change(self, edit, project, made):
        kind, first = edit["kind"], next_id(self.changes)
        if kind == "add_sheet":
            head, items = made
            items = [placed(first + k, edit["name"], item) for k, item in enumerate(items)]
            return [(("sheet", edit["name"]), head), *items]
        if kind in ("add_symbol", "replace_symbol"):
            return [(("symbol", edit["name"]), made)]
        if kind == "add_object":
            return [placed(first, edit["sheet"], made)]
        if kind == "replace":
            return [placed(edit["id"], project["object", edit["id"]][0], made)]
        if kind == "delete":
            return [(("object", number), None) for number in edit["ids"]]
        if kind == "renumber":
            return self.renumbered(project)
        if kind == "undo":
            before = project_of(self.changes[: edit["serial"]])
            return [(thing, before.get(thing)) for thing, _ in self.changes[edit["serial"]]]
        rows = ((number, *project["object", number]) for number in names_of(edit))
        return [placed(number, sheet, altered(edit, item)) for number, sheet, item in rows]

    def renumbered(self, project):
        components = [row for row in objects(project) if row[2].letter == b"C"]
        refdes = {
            number: attrs(item, b"refdes", project)[:1] for number, _, item in components
        }
        used = {text for found in refdes.values() for text in found}
        change = []
        for number, sheet, item in sorted(components, key=lambda row: (row[1].encode(), row[0])):
            found = refdes[number]
            is_graphical = attrs(item, b"graphical", project)[:1] == [b"1"]
            if is_graphical or not found or not found[0].endswith(b"?"):
                continue
            stem, least = found[0].rstrip(b"?"), 1
            while stem + b"%d" % least in used:
                least += 1
            used.add(stem + b"%d" % least)
            change.append(placed(number, sheet, with_attr(item, b"refdes", stem + b"%d" % least)))
        return change

    def judged(self, entry):
        """The change of an entry, which is refused where a line of the table holds."""
        edit, project = entry["edit"], project_of(self.changes)
        self.numbers(entry)
        self.room(entry)
        self.missing(edit, project)
        made = self.read(edit)
        self.kinds(edit, project)
        self.crossed(entry)
        change = self.change(edit, project, made)
        self.fits(edit, project, change)
        return change

    def first_id(self, serial):
        return next_id(self.changes[:serial])

    def take(self, entry):
        """The verdict on an entry, which is taken where it is accepted."""
        if entry in self.entries:
            serial = self.entries.index(entry)
            return f"Repeat {{ serial: {serial}, first_id: {self.first_id(serial)} }}"
        try:
            change = self.judged(entry)
        except Refused as refused:
            return str(refused)
        serial, first = len(self.entries), next_id(self.changes)
        self.entries.append(entry)
        self.changes.append(change)
        return f"Accept {{ serial: {serial}, first_id: {first} }}"

    # What the sheets are

    def sheets(self):
        return sorted(name for kind, name in project_of(self.changes) if kind == "sheet")

    def rows(self, name):
        return [row for row in objects(project_of(self.changes)) if row[1] == name]

    def sheet_lines(self, name):
        head = project_of(self.changes)["sheet", name]
        text = canonical((head, [item for _, _, item in self.rows(name)]))
        return text.decode().split("\n")[:-1]

    def object_lines(self, name):
        return [f"{number} {item.letter.decode()}" for number, _, item in self.rows(name)]
