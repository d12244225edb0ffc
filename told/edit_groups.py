#!/usr/bin/env python3
"""Compares the net list that a server answers after each of random edits with the rules told again.

Usage: edit_groups.py [--lists N] [--edits N] [--seed S]    40 lists of 60 edits, seed 1

GAFD names the program, else the one that is built. A list of edits begins with two sheets of wires
and parts on a small grid, so that they touch, part and join again as wires and parts come, move,
turn and go; names join over both sheets, and a library symbol comes, is replaced and goes below its
components.
The groups that a board keeps are so tried against classes that are made anew each time
(edit_rules.py for the sheets, project_rules.py for their net list). Now and then, and after the
last edit, the server is killed and started again, and asked once more: then its groups are new.
Each difference is printed with its seed, list and edit, and the status is then 1.
"""
import argparse
import pathlib
import random
import signal
import sys
import tempfile

sys.dont_write_bytecode = True

from built import built
from drawing import VERSION, component, embedded, numbered, symbol, wire
from edit_rules import Desk, attached, objects, project_of, told
from geda_files import canonical
from project_rules import answer_of
from served import Served
from writers import Writer

SHEETS = ("a.sch", "b.sch")
LIBRARY = "lib.sym"
GRID, SIZE = 100, 6
NAMES = ("A", "B", "unnamed_net1")
# How often a kind of edit is drawn.
KINDS = {"wire": 6, "part": 3, "placed": 1, "delete": 4, "move": 6, "turn": 2, "replace": 3,
         "name": 2, "unname": 1, "undo": 3, "symbol": 2}


class Drawing:
    """What is drawn at random, each part with a refdes of its own."""

    def __init__(self, rng):
        self.rng, self.parts = rng, 0

    def point(self):
        return GRID * self.rng.randrange(SIZE), GRID * self.rng.randrange(SIZE)

    def wire(self):
        """Mostly to the right or upwards; slanting or a point now and then."""
        (x, y), length = self.point(), GRID * self.rng.randrange(1, 4)
        far = self.rng.choice(((x + length, y), (x, y + length)) * 4 + ((x, y), self.point()))
        names = [self.rng.choice(NAMES)] if self.rng.random() < 0.1 else []
        return wire(x, y, *far, *names)

    def refdes(self):
        self.parts += 1
        return f"refdes=U{self.parts}"

    def part(self):
        """A part of one to three pins, each at a point, in a symbol of its own."""
        pins = [numbered(*self.point(), k) for k in range(1, self.rng.randrange(2, 5))]
        return embedded("part.sym", pins, self.refdes())

    def placed(self):
        """A component of the library symbol, which may not be there."""
        return component(LIBRARY, *self.point(), self.refdes())

    def symbol(self):
        """The library symbol: its pins stand anew each time."""
        return symbol(*(numbered(*self.point(), k) for k in (1, 2)))

    def sheet(self):
        drawn = [self.wire() for _ in range(12)] + [self.part() for _ in range(6)]
        drawn += [self.placed() for _ in range(2)]
        self.rng.shuffle(drawn)
        return VERSION + "".join(drawn)


class History:
    """A session, the rules beside it, and what it draws."""

    def __init__(self, rng):
        self.rng, self.desk, self.drawing = rng, Desk(), Drawing(rng)
        self.number = 0

    def items(self):
        """Ids and objects."""
        rows = objects(project_of(self.desk.changes))
        return [(number, item) for number, _, item in rows]

    def some(self, known, most=3):
        return sorted(self.rng.sample(known, min(len(known), self.rng.randint(1, most))))

    def symbol_edit(self):
        """The library symbol comes, another one takes its place, or the first is taken back."""
        is_there = ("symbol", LIBRARY) in project_of(self.desk.changes)
        if not is_there or self.rng.random() < 0.7:
            kind = "replace_symbol" if is_there else "add_symbol"
            return {"kind": kind, "name": LIBRARY, "text": self.drawing.symbol()}
        kinds = [entry["edit"]["kind"] for entry in self.desk.entries]
        return {"kind": "undo", "serial": len(kinds) - 1 - kinds[::-1].index("add_symbol")}

    def edit(self):
        """The next edit, or None where there is nothing that it could name."""
        rng, drawing = self.rng, self.drawing
        kind = rng.choices(list(KINDS), KINDS.values())[0]
        if kind in ("wire", "part", "placed"):
            text = {"wire": drawing.wire, "part": drawing.part, "placed": drawing.placed}[kind]()
            return {"kind": "add_object", "sheet": rng.choice(SHEETS), "text": text}
        if kind == "symbol":
            return self.symbol_edit()
        if kind == "undo":
            # Mostly one of the last, which nobody has crossed.
            return {"kind": "undo", "serial": max(2, len(self.desk.entries) - rng.randint(1, 4))}
        items = self.items()
        wires = [number for number, item in items if item.letter == b"N"]
        named = [number for number, item in items if attached(item, b"netname")]
        if not wires or (kind == "unname" and not named):
            return None
        ids = self.some([number for number, _ in items])
        dx, dy = (GRID * rng.randint(-2, 2) for _ in range(2))
        x, y = drawing.point()
        return {
            "delete": {"kind": "delete", "ids": ids},
            "move": {"kind": "move", "ids": ids, "dx": dx, "dy": dy},
            "turn": {"kind": "turn", "ids": [rng.choice(wires)], "x": x, "y": y,
                     "quarter": rng.randrange(4), "mirror": rng.random() < 0.5},
            "replace": {"kind": "replace", "id": ids[0],
                        "text": drawing.wire() if rng.random() < 0.8 else drawing.part()},
            "name": {"kind": "set_attr", "id": rng.choice(wires), "name": "netname",
                     "value": rng.choice(NAMES)},
            "unname": {"kind": "drop_attr", "id": rng.choice(named or wires), "name": "netname"},
        }[kind]

    def entry(self, edit):
        """The entry of an edit, and whether the rules accept it."""
        entry = {"session": "ann", "number": self.number + 1, "base": len(self.desk.entries)}
        entry["edit"] = edit
        is_accepted = self.desk.take(entry).startswith("Accept")
        self.number += is_accepted
        return entry, is_accepted

    def entries(self, count):
        """The two sheets, and then so many edits."""
        for name in SHEETS:
            yield self.entry({"kind": "add_sheet", "name": name, "text": self.drawing.sheet()})
        while count:
            edit = self.edit()
            if edit is not None:
                count -= 1
                yield self.entry(edit)

    def net_list(self):
        """What the rules make of the sheets and of the symbol as they are now."""
        project = project_of(self.desk.changes)
        files = {name: "".join(f"{line}\n" for line in self.desk.sheet_lines(name)).encode()
                 for name in self.desk.sheets()}
        if ("symbol", LIBRARY) in project:
            files[LIBRARY] = canonical(project["symbol", LIBRARY])
        return answer_of(files, self.desk.sheets())[1]


def answer(writer, front):
    status, _, body = writer.ask("GET", f"/netlist/list?min={front}")
    return body if status == 200 else f"{status} {body}".encode()


def lines_apart(got, wanted):
    got, wanted = got.decode().splitlines(), wanted.decode().splitlines()
    return [f"- {line}" for line in wanted if line not in got] + [
        f"+ {line}" for line in got if line not in wanted]


class Counts:
    def __init__(self):
        self.answers = self.refused = self.differ = 0

    def compare(self, got, wanted, what):
        self.answers += 1
        if got != wanted:
            self.differ += 1
            print(what, *lines_apart(got, wanted)[:20], sep="\n    ", flush=True)


def run_list(seed, number, edits, counts):
    """One list of edits at a server of its own."""
    rng = random.Random(f"groups {seed} {number}")
    history = History(rng)
    with tempfile.TemporaryDirectory() as room, Served(pathlib.Path(room, "store")) as server:
        writer, last = Writer(server.port, "ann"), 0
        for entry, is_accepted in history.entries(edits):
            status, _, said = writer.ask("POST", "/edits", told(entry).encode())
            what = f"seed {seed}, list {number}, {told(entry)}"
            if (status == 200) != is_accepted:
                counts.differ += 1
                print(f"{what}\n    was answered {status} {said}", flush=True)
                return
            counts.refused += not is_accepted
            front, wanted = len(history.desk.entries), history.net_list()
            counts.compare(answer(writer, front), wanted, what)
            last = front
            if rng.random() < 0.03:
                writer = again(server, writer)
                counts.compare(answer(writer, front), wanted, f"{what}, after a start")
        writer = again(server, writer)
        counts.compare(answer(writer, last), history.net_list(), f"seed {seed}, list {number}: end")


def again(server, writer):
    """The server ends, and serves the same store anew."""
    writer.link.close()
    server.stop(signal.SIGKILL)
    server.start()
    return Writer(server.port, "ann")


def main():
    parser = argparse.ArgumentParser(description=__doc__.split("\n")[0])
    parser.add_argument("--lists", type=int, default=40)
    parser.add_argument("--edits", type=int, default=60)
    parser.add_argument("--seed", default="1")
    asked = parser.parse_args()
    built()
    counts = Counts()
    for number in range(asked.lists):
        run_list(asked.seed, number, asked.edits, counts)
    print(f"{asked.lists} lists, {counts.answers} answers were compared, {counts.differ} differ;"
          f" {counts.refused} edits were refused")
    return 1 if counts.differ or not counts.answers else 0


if __name__ == "__main__":
    sys.exit(main())
