#!/usr/bin/env python3
"""Works planned turns of a board on several machines out again, by its rules told here from
docs/RULES.md, "Boards on several machines".

Usage:
  turns.py                                  the cases of crates/engine_cases/data/turns/puts.txt
  turns.py --table [--seed S] [--count N]   prints N random cases (seed 1, 400 cases)

The program `engine_cases` takes what is printed as a table, and finds no case wrong where the rules
are told right. The status is 1 where a known answer is not what is told here.
"""
import argparse
import copy
import pathlib
import random
import sys

sys.dont_write_bytecode = True
TOP = pathlib.Path(__file__).resolve().parent.parent
KNOWN = TOP / "crates/engine_cases/data/turns/puts.txt"
TRIES = 6


class NoAnswer(Exception):
    """No answer came."""


class Store:
    """A board, as who asks here sees it, and the turns of its calls."""

    def __init__(self, rows, turns):
        self.rows, self.turns = list(rows), list(turns)
        self.ours, self.fence, self.revision = False, 0, 0
        self.base, self.late = len(rows), []

    def take_board(self, ours):
        """Puts the owner's key."""
        self.revision += 1
        self.fence = self.revision
        if self.ours:
            self.base = len(self.rows)
        self.ours = ours

    def put_row(self, serial, body):
        """Puts a row in its place, or behind the last."""
        self.revision += 1
        if serial < len(self.rows):
            self.rows[serial] = body
        else:
            self.rows.append(body)

    def do(self, fence, act):
        """Does a transaction where the owner's key stands at this revision, and says whether."""
        if self.fence != fence:
            return False
        if act is None:
            self.take_board(True)
        else:
            self.put_row(*act)
        return True

    def happen(self, event):
        """One event."""
        word, *rest = event.split(" ")
        if word == "late" and int(rest[0]) < len(self.late):
            self.do(*self.late[int(rest[0])])
        elif word == "taken":
            self.take_board(False)
        elif word == "wrote":
            serial = int(rest[0])
            if not self.ours and self.base <= serial <= len(self.rows):
                self.put_row(serial, rest[1])
        elif word == "other":
            self.revision += 1

    def call(self, transaction=None):
        """Lets happen what is planned within a call, and says whether it is answered."""
        answered, events = self.turns.pop(0) if self.turns else (True, [])
        if not answered and transaction:
            self.late.append(transaction)
        for event in events:
            self.happen(event)
        if not answered:
            raise NoAnswer

    def owner(self):
        """The owner's key."""
        self.call()
        return self.fence, self.ours

    def row(self, serial):
        """A row, or none."""
        self.call()
        return self.rows[serial] if serial < len(self.rows) else None

    def transact(self, fence, act=None):
        """A transaction; without an act the board is taken."""
        self.call((fence, act))
        return self.do(fence, act)


class Owner:
    """Who took a board."""

    def __init__(self, store):
        self.store = store
        self.fence = store.owner()[0]
        self.taken = store.transact(self.fence)
        self.fence, self.count = store.fence, len(store.rows)
        self.doubt = self.lost = False

    def settle(self):
        """Takes the board anew, or looks who has it."""
        if self.store.transact(self.fence):
            self.fence, self.doubt = self.store.fence, False
            return
        fence, ours = self.store.owner()
        if ours:
            self.fence = fence
        else:
            self.lost = True

    def try_put(self, body):
        """One try of a row."""
        if self.doubt:
            self.settle()
        if self.doubt:
            return False
        self.doubt = True
        if not self.store.transact(self.fence, (self.count, body)):
            return False
        self.doubt = False
        self.count += 1
        return True

    def put(self, body):
        """A row, in some tries."""
        for _ in range(TRIES):
            if self.lost:
                return False
            try:
                if self.try_put(body):
                    return True
            except NoAnswer:
                pass
        return False


def outcome(turns, old, bodies):
    """The lines that are told of rows that are put, or None where the rows cannot be told."""
    store = Store(old, copy.deepcopy(turns))
    lines = []
    try:
        owner = Owner(store)
    except NoAnswer:
        lines.append("no answer")
    else:
        if owner.taken:
            lines.append(f"taken {owner.count}")
            lines += [f"{'put' if owner.put(body) else 'failed'} {body}" for body in bodies]
            lines.append(f"vouched {owner.count}")
            lines += ["lost"] * owner.lost
        else:
            lines.append("not taken")
    there = []
    try:
        while (row := store.row(len(there))) is not None:
            there.append(row)
    except NoAnswer:
        return None
    return lines + [" ".join(["there", *there])]


def turn_of(line):
    """The turn that a line of a plan is."""
    word, _, rest = line.partition(": ")
    return word == "answered", rest.split(", ") if rest else []


def asked_of(question):
    """The rows that are put, the name of the plan and the rows that are there."""
    question, _, old = question.partition(" over ")
    bodies, plan = question.split(" by ")
    return bodies.split(), plan, old.split()


def known_faults():
    """The cases whose answer is not what is told here."""
    plans, cases, plan = {}, [], None
    for line in KNOWN.read_text(encoding="utf-8").splitlines():
        mark, _, rest = line.partition(" ")
        if mark == "text":
            plan = plans.setdefault(rest, [])
        elif mark == "|":
            plan.append(turn_of(rest))
        elif mark == "$":
            cases.append((rest, []))
        elif mark == ">":
            cases[-1][1].append(rest)
    for question, told in cases:
        bodies, name, old = asked_of(question)
        found = outcome(plans[name], old, bodies)
        if found != told:
            yield f"{question}: {found}"
    print(f"{len(cases)} cases")


def random_turn(chance):
    """A turn."""
    kinds = ["late 0", "late 1", "late 2", "taken", "wrote 0 p", "wrote 1 q", "wrote 2 r", "other"]
    weights = [6, 3, 2, 1, 2, 2, 2, 2]
    events = chance.choices(kinds, weights, k=chance.choice([0, 0, 0, 1, 1, 2, 3]))
    return chance.random() < 0.6, events


def spelt(turn):
    """The line of a turn."""
    word = "answered" if turn[0] else "unanswered"
    return f"| {word}: {', '.join(turn[1])}" if turn[1] else f"| {word}"


def random_table(seed, count):
    """The lines of a table of random cases."""
    chance, lines, made = random.Random(seed), [], 0
    lines.append(f"# Random turns, as turns.py --table --seed {seed} --count {count} prints them.")
    while made < count:
        first = [(True, [])] * 2 if chance.random() < 0.7 else []
        turns = first + [random_turn(chance) for _ in range(chance.randrange(12))]
        old = ["old", "older"][: chance.choice([0, 0, 1, 2])]
        bodies = ["a", "b", "c"][: chance.randint(1, 3)]
        told = outcome(turns, old, bodies)
        if told is None:
            continue
        over = f" over {' '.join(old)}" if old else ""
        lines += [f"text plan{made}", *map(spelt, turns), "== a_random_plan: turns",
                  f"$ {' '.join(bodies)} by plan{made}{over}", *(f"> {line}" for line in told), ""]
        made += 1
    return lines


def main():
    parser = argparse.ArgumentParser(description="planned turns, told again")
    parser.add_argument("--table", action="store_true")
    parser.add_argument("--seed", type=int, default=1)
    parser.add_argument("--count", type=int, default=400)
    asked = parser.parse_args()
    if asked.table:
        print(*random_table(asked.seed, asked.count), sep="\n")
        return 0
    faults = list(known_faults())
    print(*faults, sep="\n", end="\n" * bool(faults))
    return 1 if faults else 0


if __name__ == "__main__":
    sys.exit(main())
