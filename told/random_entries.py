"""Random histories of entries, most of which may follow: few sheets, sessions and objects, so that
edits meet each other.
"""
from edit_rules import objects, project_of

SESSIONS = ("ann", "bob", "cat")
SHEETS = ("a.sch", "b.sch", "c.sch")
SYMBOLS = ("r.sym", "a.sch")
LABEL = "T {} {} 5 10 1 1 0 0 1\n{}\n"
COORDINATES = (0, 0, 100, 500, -300, 199_900, -200_000, 200_000)
OFFSETS = (0, 100, -100, 1_000, 400_000, -399_999)
NAMES = ("refdes", "value", "net", "x", "", "a b", "a=b")
VALUES = ("R?", "R1", "C?", "10k", "", " x", "x ", "a=b", "1\r")
BAD_TEXTS = (
    "", "x\n", "N 0 0 1 4\n", "N 0 0 1 x 4\n", "N 200001 0 0 0 4\n", "N 0 0 0 0 4\n{\n", "}\n",
)

PAIRS = (("refdes", "R?"), ("refdes", "R2"), ("value", "1"), ("graphical", "1"))


def label(rng):
    name, value = rng.choice(PAIRS)
    is_text = rng.random() < 0.15
    return LABEL.format(rng.choice(COORDINATES), 100, "text" if is_text else f"{name}={value}")


def block(rng):
    labels = [label(rng) for _ in range(rng.choice((0, 0, 1, 1, 2)))]
    return "{\n" + "".join(labels) + "}\n" if labels else ""


def shape(rng):
    """The lines of an object that is no component."""
    a, b, c, d = (rng.choice(COORDINATES) for _ in range(4))
    angle = rng.choice((0, 90, 180, 270))
    stroke, fill = "3 10 0 0 -1 -1", "1 -1 -1 -1 -1 -1"
    return rng.choice(
        (
            f"N {a} {b} {c} {d} 4\n",
            f"N {a} {b} {c} {d} 4\n",
            f"U {a} {b} {c} {d} 10 -1\n",
            f"P {a} {b} {c} {d} 1 0 0\n",
            f"L {a} {b} {c} {d} {stroke}\n",
            f"B {a} {b} 100 100 {stroke} {fill}\n",
            f"V {a} {b} 100 {stroke} {fill}\n",
            f"A {a} {b} 100 0 90 {stroke}\n",
            f"G {a} {b} 10 10 {angle} 0 0\nlogo.png\n",
            f"T {a} {b} 9 10 1 0 {angle} 3 2\none\ntwo\n",
            f"H {stroke} {fill} 1\nM 0,0\n",
        )
    )


def component(rng):
    x, y = rng.choice(COORDINATES), rng.choice(COORDINATES)
    place = f"C {x} {y} 1 {rng.choice((0, 90, 180, 270))} {rng.choice((0, 1))}"
    if rng.random() < 0.7:
        return f"{place} r.sym\n"
    parts = "".join(shape(rng) for _ in range(rng.choice((0, 1, 2))))
    return f"{place} EMBEDDEDr.sym\n[\n{parts}]\n"


def object_text(rng):
    if rng.random() < 0.06:
        return rng.choice(BAD_TEXTS)
    drawn = component(rng) if rng.random() < 0.4 else shape(rng)
    return drawn + block(rng)


def symbol_part(rng):
    """A shape, or an attribute that components inherit."""
    return label(rng) if rng.random() < 0.3 else shape(rng)


def file_text(rng, most, of):
    version = "v 20130925 2\n" if rng.random() < 0.97 else rng.choice(("", "v 20130925\n"))
    return version + "".join(of(rng) for _ in range(rng.randrange(most)))


def some_ids(rng, known):
    """Ids of an edit: mostly known ones, which rise."""
    found = {rng.choice(known) for _ in range(rng.choice((1, 1, 2, 3)))} if known else set()
    if not found or rng.random() < 0.03:
        found.add(rng.randrange(40))
    return sorted(found)


def symbols_of(desk):
    return [name for kind, name in project_of(desk.changes) if kind == "symbol"]


def kind_of(rng, desk, known):
    """A kind of edit: mostly one for which there is something."""
    kinds = {"add_sheet": 1 if desk.entries else 30, "add_symbol": 1, "renumber": 1}
    kinds["undo"] = min(5, 2 * len(desk.entries)) + 0.05
    kinds["add_object"] = 3 if desk.sheets() else 0.1
    kinds["replace_symbol"] = 2 if symbols_of(desk) else 0.1
    kinds["delete"] = 2 if known else 0.05
    often = {"replace": 2, "move": 3, "turn": 2, "set_attr": 3, "drop_attr": 1}
    kinds.update(often if known else dict.fromkeys(often, 0.05))
    return rng.choices(list(kinds), kinds.values())[0]


def edit(rng, desk):
    known = [number for number, _, _ in objects(project_of(desk.changes))]
    ids = some_ids(rng, known)
    kind = kind_of(rng, desk, known)
    sheets = desk.sheets() if desk.sheets() and rng.random() < 0.9 else SHEETS
    symbols = symbols_of(desk) if symbols_of(desk) and rng.random() < 0.9 else SYMBOLS
    fields = {
        "add_sheet": lambda: {"name": rng.choice(SHEETS), "text": file_text(rng, 5, object_text)},
        "add_symbol": lambda: {
            "name": rng.choice(SYMBOLS),
            "text": file_text(rng, 3, symbol_part),
        },
        "replace_symbol": lambda: {
            "name": rng.choice(symbols),
            "text": file_text(rng, 3, symbol_part),
        },
        "add_object": lambda: {"sheet": rng.choice(sheets), "text": object_text(rng)},
        "replace": lambda: {"id": ids[0], "text": object_text(rng)},
        "delete": lambda: {"ids": ids},
        "move": lambda: {"ids": ids, "dx": rng.choice(OFFSETS), "dy": rng.choice(OFFSETS[:4])},
        "turn": lambda: {
            "ids": ids,
            "x": rng.choice(COORDINATES[:5]),
            "y": rng.choice(COORDINATES[:5]),
            "quarter": rng.randrange(4),
            "mirror": rng.random() < 0.5,
        },
        "set_attr": lambda: {"id": ids[0], "name": rng.choice(NAMES), "value": rng.choice(VALUES)},
        "drop_attr": lambda: {"id": ids[0], "name": rng.choice(NAMES[:4])},
        "renumber": lambda: {},
        "undo": lambda: {"serial": rng.randrange(len(desk.entries) + (rng.random() < 0.1) + 1)},
    }
    return {"kind": kind, **fields[kind]()}


def entry(rng, desk):
    """The next entry of a session, or one that was sent before."""
    if desk.entries and rng.random() < 0.05:
        again = dict(rng.choice(desk.entries))
        return again if rng.random() < 0.5 else {**again, "edit": edit(rng, desk)}
    session, front = rng.choice(SESSIONS), len(desk.entries)
    wanted = edit(rng, desk)
    if wanted["kind"] == "undo" and wanted["serial"] < front and rng.random() < 0.7:
        session = desk.entries[wanted["serial"]]["session"]
    number = sum(old["session"] == session for old in desk.entries) + 1
    number += rng.choice((0,) * 30 + (1, 2))
    base = max(0, front - rng.choice((0,) * 8 + (1, 2, 3, 9))) + (rng.random() < 0.02)
    return {"session": session, "number": number, "base": base, "edit": wanted}


def history(rng, desk):
    """Entries, each made with the history that the ones before have left."""
    for _ in range(rng.choice((3, 8, 15, 25))):
        yield entry(rng, desk)
