#!/usr/bin/env python3
"""Has eight callers edit one server and ask it for reports, and looks for one history that explains
all that they were answered.

Usage: one_history.py [--seconds N] [--callers N] [--parts N] [--seed S]    a minute of eight
callers at a board of 40 parts at first, seed 1

GAFD names the program, else the one that is built; TMPDIR names the disk. Each caller is a process
with a connection of its own. The entries that were answered 200 tell their serials, which make the
history: each serial from 0 on has to stand there once, and the store has to have the same rows. A
second server gets these entries one after the other, and is asked after each of them all that was
answered with its `Front`, resent and refused entries too: every reply has to come again, byte for
byte. On one connection no reply may stand on fewer entries than one before it; no edit may come
before one that was answered before it was sent; and no edit may stand on fewer entries than an
answer that its caller had. Of reports that were asked on another connection than the last edit of
all that was answered until then, the last line tells how many stand before that edit: `min` is what
keeps them from it.
"""
import argparse
import collections
import hashlib
import json
import multiprocessing
import os
import pathlib
import random
import sys
import tempfile
import time

sys.dont_write_bytecode = True

from built import TOP, built
from served import Served
from writers import Writer

SYMBOLS = ("res.sym", "cap.sym", "gnd.sym")
COMMON = "common.sch"
VERSION = "v 20130925 2\n"
REPORTS = ("netlist/list",) * 4 + ("netlist/tango", "netlist/pcb", "netlist/bom", "drc", "sheets")
NAMED = (f"sheets/{COMMON}", f"objects/{COMMON}", "sheets/c0.sch", "symbols/res.sym")
KINDS = {"add_object": 6, "move": 4, "set_attr": 3, "turn": 1, "replace": 1, "drop_attr": 0.5}
KINDS |= {"renumber": 0.3, "add_sheet": 0.1, "replace_symbol": 0.3, "undo": 1, "delete": 2}
MOST_OBJECTS = 60
# What was asked and answered: when, on which connection of which caller, and what. Of the text of a
# report its sum stands for it.
Told = collections.namedtuple("Told", "begun ended line method path sent status front text")


def place(rng):
    return rng.randrange(0, 6000, 100)


def part(rng, refdes="R?"):
    x, y = place(rng), place(rng)
    label = f"{{\nT {x} {y} 5 10 1 1 0 0 1\nrefdes={refdes}\n}}\n"
    return f"C {x} {y} 1 {rng.choice((0, 90))} 0 {rng.choice(SYMBOLS[:2])}\n{label}"


def wire(rng):
    x, y, length = place(rng), place(rng), rng.randrange(100, 2000, 100)
    right, up = (length, 0) if rng.random() < 0.5 else (0, length)
    return f"N {x} {y} {x + right} {y + up} 4\n"


def symbol(name):
    return pathlib.Path(TOP, "examples", name).read_text(encoding="utf-8")


class Caller(Writer):
    """A session that edits and asks. What it was told stands in `told`."""

    def __init__(self, port, session, seed=""):
        self.rng = random.Random(f"{seed} {session}")
        self.lines, self.told = 0, []
        self.front, self.ids, self.serials, self.last = 0, [], [], None
        super().__init__(port, session)

    def connect(self):
        self.lines += 1
        super().connect()

    def asks(self, method, path, sent=b""):
        line, begun = (self.session, self.lines), time.monotonic()
        status, front, text = self.ask(method, path, sent)
        kept = text if method == "POST" else hashlib.sha256(text).digest()
        one = Told(begun, time.monotonic(), line, method, path, sent, status, front, kept)
        self.told.append(one)
        self.front = max(self.front, front)
        return one

    def edits(self, edit, base):
        """The next entry. A refused one leaves its number to the next."""
        entry = {"session": self.session, "number": self.number + 1, "base": base, "edit": edit}
        one = self.asks("POST", "/edits", json.dumps(entry, separators=(",", ":")).encode())
        if one.status != 200:
            return
        done = json.loads(one.text)
        self.number, self.last = self.number + 1, one.sent
        self.serials.append(done["serial"])
        if edit["kind"] == "add_object":
            self.ids.append(done["first_id"])
        if edit["kind"] == "delete":
            self.ids = [known for known in self.ids if known not in edit["ids"]]

    def edit(self):
        rng = self.rng
        known = rng.choice(self.ids) if self.ids and rng.random() < 0.8 else rng.randrange(200)
        often = KINDS | {"delete": 12} if len(self.ids) > MOST_OBJECTS else KINDS
        kind = rng.choices(list(often), often.values())[0]
        sheet = rng.choice((COMMON, f"{self.session}.sch"))
        name, value = rng.choice((("value", "1k"), ("refdes", "R?"), ("refdes", "R7")))
        fields = {
            "add_object": lambda: {"sheet": sheet, "text": rng.choice((part, wire, wire))(rng)},
            "add_sheet": lambda: {"name": f"{self.session}.sch", "text": VERSION + wire(rng)},
            "delete": lambda: {"ids": [known]},
            "drop_attr": lambda: {"id": known, "name": "value"},
            "move": lambda: {"dx": 100, "dy": rng.choice((0, -100)), "ids": [known]},
            "renumber": dict,
            "replace": lambda: {"id": known, "text": rng.choice((part, wire))(rng)},
            "replace_symbol": lambda: {"name": SYMBOLS[0], "text": symbol(rng.choice(SYMBOLS))},
            "set_attr": lambda: {"id": known, "name": name, "value": value},
            "turn": lambda: {"ids": [known], "mirror": False, "quarter": 1, "x": 0, "y": 0},
            "undo": lambda: {"serial": rng.choice(self.serials[-5:] or [0])},
        }
        return {"kind": kind, **fields[kind]()}

    def report(self):
        rng = self.rng
        path = "/" + rng.choice(REPORTS if rng.random() < 0.7 else NAMED)
        if rng.random() < 0.3:
            path += f"?min={max(0, self.front + rng.choice((-3, 0, 0, 1, 2)))}"
        return path

    def step(self):
        if self.last and self.rng.random() < 0.02:
            self.asks("POST", "/edits", self.last)
        elif self.rng.random() < 0.5:
            base = max(0, self.front - self.rng.choice((0,) * 8 + (1, 2, 5)))
            self.edits(self.edit(), base)
        else:
            self.asks("GET", self.report())


class Calling:
    def __init__(self, port, seconds, seed):
        self.port, self.seconds, self.seed = port, seconds, seed

    def __call__(self, number):
        caller = Caller(self.port, f"c{number}", self.seed)
        end = time.monotonic() + self.seconds
        while time.monotonic() < end:
            caller.step()
        caller.link.close()
        return caller.told


def opened(port, parts, seed):
    """A board: symbols, and a sheet of so many parts."""
    first = Caller(port, "first", seed)
    for name in SYMBOLS:
        first.edits({"kind": "add_symbol", "name": name, "text": symbol(name)}, 0)
    body = "".join(part(first.rng, f"R{at + 1}") + wire(first.rng) for at in range(parts))
    first.edits({"kind": "add_sheet", "name": COMMON, "text": VERSION + body}, 0)
    first.link.close()
    return first.told


def called(server, asked):
    """All that was told, in order of caller and time."""
    told = opened(server.port, asked.parts, asked.seed)
    with multiprocessing.get_context("fork").Pool(asked.callers) as pool:
        work = Calling(server.port, asked.seconds, asked.seed)
        for mine in pool.map(work, range(asked.callers), chunksize=1):
            told += mine
    return told


def accepted(told):
    """What was answered 200 to an entry, with its serial."""
    done = (one for one in told if one.method == "POST" and one.status == 200)
    return [(json.loads(one.text)["serial"], one) for one in done]


def history_of(told, faults):
    """The entries that were answered 200, by serial."""
    entries = {}
    for serial, one in accepted(told):
        if entries.setdefault(serial, one.sent) != one.sent:
            faults.append(f"two entries at serial {serial}")
    if sorted(entries) != list(range(len(entries))):
        faults.append(f"{len(entries)} serials, up to {max(entries)}")
    return [entries[serial] for serial in sorted(entries)]


def rows_of(store, history, faults):
    """The rows of the store are the entries, each with the version of its spelling."""
    rows = [json.loads(row.read_bytes()) for row in sorted(pathlib.Path(store).glob("*.json"))]
    if rows != [json.loads(entry) | {"version": 2} for entry in history]:
        faults.append(f"{len(rows)} rows, and other ones than the {len(history)} entries")


def firsts(told):
    """Each accepted entry with its first answer, by serial."""
    found = {}
    for serial, one in accepted(told):
        if serial not in found or one.ended < found[serial].ended:
            found[serial] = one
    return found


def order_of(told, faults):
    """No reply goes back behind one before it; how many reports stand before an edit that was
    answered to another caller."""
    seen, known = {}, {}
    for one in told:
        if one.front < 0:
            continue
        least = seen.get(one.line, 0)
        if one.method == "POST":
            least = max(least, known.get(one.line[0], 0))
        if one.front < least:
            faults.append(f"{one.method} {one.path} stands on {one.front}, behind {least}")
        seen[one.line] = max(one.front, seen.get(one.line, 0))
        known[one.line[0]] = max(one.front, known.get(one.line[0], 0))
    ends = sorted((one.ended, serial + 1) for serial, one in firsts(told).items())
    at, newest, behind = 0, 0, 0
    for one in sorted(told):
        while at < len(ends) and ends[at][0] < one.begun:
            newest, at = max(newest, ends[at][1]), at + 1
        if 0 <= one.front < newest:
            behind += 1
            if one.method == "POST":
                faults.append(f"an edit stands on {one.front}, after {newest} were answered")
    return behind


def replies_of(told, faults):
    """What was asked, by front: the reply to each."""
    found = collections.defaultdict(dict)
    for one in told:
        if one.front < 0:
            faults.append(f"{one.method} {one.path} was answered {one.status}, on no history")
            continue
        reply = (one.status, one.text)
        if found[one.front].setdefault((one.method, one.path, one.sent), reply) != reply:
            faults.append(f"{one.method} {one.path} has two answers after {one.front} entries")
    return found


def replayed(server, history, replies, faults):
    """Sends the entries, and asks after each of them what was asked there."""
    again, count = Caller(server.port, "again"), 0
    for front in range(len(history) + 1):
        for request, reply in replies.get(front, {}).items():
            one = again.asks(*request)
            count += 1
            if (one.status, one.front, one.text) != (reply[0], front, reply[1]):
                faults.append(f"{request} after {front}: {reply}, and again {one[6:]}")
        if front < len(history):
            one = again.asks("POST", "/edits", history[front])
            if (one.status, one.front) != (200, front + 1):
                faults.append(f"{history[front]} was answered {one[6:]}")
        again.told.clear()
    return count


def main():
    parser = argparse.ArgumentParser(description=__doc__.split("\n")[0])
    parser.add_argument("--seconds", type=float, default=60)
    parser.add_argument("--callers", type=int, default=8)
    parser.add_argument("--parts", type=int, default=40)
    parser.add_argument("--seed", default="1")
    asked = parser.parse_args()
    built()
    faults = []
    with tempfile.TemporaryDirectory() as room:
        with Served(room + "/store") as server:
            told = called(server, asked)
        history = history_of(told, faults)
        rows_of(room + "/store", history, faults)
    behind, replies = order_of(told, faults), replies_of(told, faults)
    memory = "/dev/shm" if os.access("/dev/shm", os.W_OK) else None
    with tempfile.TemporaryDirectory(dir=memory) as room, Served(room + "/store") as server:
        count = replayed(server, history, replies, faults)
    posts = sum(one.method == "POST" for one in told)
    print(f"{len(told)} replies, after {len(replies)} beginnings of one history of {len(history)}")
    print(f"{posts - len(history)} entries refused or resent, {len(told) - posts} reports")
    print(f"{count} different ones were asked again there, {len(faults)} are otherwise")
    print(f"{behind} reports stand before an edit that another caller was answered")
    for fault in faults[:5]:
        print(fault)
    return 1 if faults or not history else 0


if __name__ == "__main__":
    sys.exit(main())
