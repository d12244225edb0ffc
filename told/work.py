#!/usr/bin/env python3
"""Compares `work` of the program with its rules, told again here from docs/RULES.md ("Work",
"Groups", "Touching") and docs/FORMATS.md ("Work text"): what is drawn, what touches, and what the
changes may cost.

Usage:
  work.py [--seed S] [--count N] [PROGRAM]    N random pairs of START and N (seed 1, 400 pairs)
  work.py --cases [PROGRAM]                   known answers alone

The known answers come before the random runs. Status, lines and standard error must be those told
here, but for the line `calls C`, whose C is at most the bound. Each difference is printed with its
command, and the status is then 1. README.md has what PROGRAM is where none is named.
"""
import collections
import itertools
import random
import re
import shlex
import subprocess
import sys
import time

sys.dont_write_bytecode = True

from built import built
from comparing import arguments, status_of

PRIME, FACTOR = 2_147_483_647, 48_271
MOST_START = 4_294_967_295
GRID = 100
PIN_PLACES = (0, 300)
NAMES = ("live", "conductors", "groups", "nets", "bound")
LONGEST = 240


# The rules.

def drawn(start):
    """The numbers that are drawn, without end."""
    number = start % PRIME or 1
    while True:
        number = number * FACTOR % PRIME
        yield number


def inside_of(ends):
    """The points of the grid strictly inside; a wire goes right or up, and a pin is one point."""
    (ax, ay), (bx, by) = ends[0], ends[-1]
    return [(x, ay) for x in range(ax + GRID, bx, GRID)] + [
        (ax, y) for y in range(ay + GRID, by, GRID)]


class Sheet:
    """The objects in order of id, the ends of their conductors by key, and the sum of bounds. All
    ends stand on the grid, so that what touches is found at its points."""

    def __init__(self):
        self.next_id, self.ids, self.bound = 0, [], 0
        self.ends, self.keys, self.parts = {}, {}, set()
        self.at_end, self.at_inside = collections.defaultdict(set), collections.defaultdict(set)

    def come(self, conductors, is_part=False):
        """An object with these conductors, in order of place."""
        new = self.next_id
        self.next_id += 1
        self.ids.append(new)
        self.keys[new] = [(new, place) for place in range(len(conductors))]
        self.parts.update(self.keys[new] if is_part else ())
        for key, ends in zip(self.keys[new], conductors):
            self.ends[key] = ends
            for end in ends:
                self.at_end[end].add(key)
            for point in inside_of(ends):
                self.at_inside[point].add(key)
            self.bound += 1

    def leave(self, place):
        """The object at a place; each conductor counts its group just before it leaves."""
        for key in self.keys.pop(self.ids.pop(place)):
            self.bound += len(self.group(key))
            ends = self.ends.pop(key)
            for end in ends:
                self.at_end[end].discard(key)
            for point in inside_of(ends):
                self.at_inside[point].discard(key)
            self.parts.discard(key)

    def touching(self, ends):
        """The keys of what touches a conductor of these ends, itself too."""
        for end in ends:
            yield from self.at_end[end]
            yield from self.at_inside[end]
        for point in inside_of(ends):
            yield from self.at_end[point]

    def group(self, key):
        found, waiting = {key}, [key]
        while waiting:
            new = set(self.touching(self.ends[waiting.pop()])) - found
            found |= new
            waiting.extend(new)
        return found

    def groups(self):
        found, seen = [], set()
        for key in self.ends:
            if key not in seen:
                found.append(self.group(key))
                seen |= found[-1]
        return found


def step(sheet, number):
    """The change of a drawn number."""
    q = number // 8
    x, y, d = GRID * (q % 100), GRID * (q // 100 % 100), q // 10_000
    length = GRID * (1 + d // 2 % 5)
    if number % 8 <= 4:
        sheet.come([((x, y), (x, y + length) if d % 2 else (x + length, y))])
    elif number % 8 == 5:
        sheet.come([((x + place, y),) for place in PIN_PLACES], is_part=True)
    elif sheet.ids:
        sheet.leave(q % len(sheet.ids))


def numbers_of(sheet):
    """What stands behind NAMES. A net is listed where a pin is in its group: each has a refdes."""
    groups = sheet.groups()
    nets = sum(not sheet.parts.isdisjoint(group) for group in groups)
    return len(sheet.ids), len(sheet.ends), len(groups), nets, sheet.bound


def work_of(start, count):
    sheet = Sheet()
    for number in itertools.islice(drawn(start), count):
        step(sheet, number)
    return numbers_of(sheet)


# Known answers: of START and N, of words that are refused, and of the rules by themselves.

W1 = (1, 2, 2, 2, 4)
KNOWN = (
    ("1", "0", (0, 0, 0, 0, 0)),
    ("1", "1", (0, 0, 0, 0, 0)),
    ("1", "2", (1, 1, 1, 0, 1)),
    ("1", "3", (0, 0, 0, 0, 2)),
    ("1", "4", W1),
    ("0", "4", W1),
    ("0000000001", "0000000004", W1),
    ("2147483647", "4", W1),
    ("2147483648", "4", W1),
    ("4294967294", "4", W1),
    ("4294967295", "4", W1),
)
REFUSED = (
    (), ("1",), ("1", "2", "3"), ("", "0"), ("1", ""), ("4294967296", "0"), ("1", "100001"),
    ("9999999999", "0"), ("1", "9999999999"), ("00000000001", "0"), ("1", "00000000000"),
    ("-1", "0"), ("1", "-1"), ("+1", "0"), ("1", "+1"), ("1x", "0"), ("0x1", "0"), ("1", " 2"),
    ("1.0", "2"), ("1_0", "2"), ("\u0661", "0"), ("--form", "list", "1", "0"),
    ("--form=list", "1", "0"), ("-", "1", "0"))


def wire(ax, ay, bx, by):
    return [((GRID * ax, GRID * ay), (GRID * bx, GRID * by))]


ROW = [wire(x, 0, x + 1, 0) for x in range(5)]
MANY = [
    ("five in a row, the middle one leaves", ROW, 2, (4, 4, 2, 0, 10)),
    ("the same, the first one leaves", ROW, 0, (4, 4, 1, 0, 10)),
    ("a cross", [wire(0, 1, 2, 1), wire(1, 0, 1, 2), wire(5, 5, 6, 5)], 2, (2, 2, 2, 0, 4)),
    ("a T", [wire(0, 1, 2, 1), wire(1, 1, 1, 3), wire(5, 5, 6, 5)], 2, (2, 2, 1, 0, 4)),
    ("an overlap", [wire(0, 0, 3, 0), wire(1, 0, 5, 0), wire(5, 5, 6, 5)], 0, (2, 2, 2, 0, 5)),
    ("one wire twice", [wire(0, 0, 0, 3), wire(0, 0, 0, 3)], 1, (1, 1, 1, 0, 4)),
    ("a pin inside a wire", [wire(0, 0, 3, 0), [((200, 0),)]], 0, (1, 1, 1, 1, 4)),
    ("both pins at one wire", [wire(0, 0, 3, 0), [((0, 0),), ((300, 0),)]], 1, (1, 1, 1, 0, 8)),
    ("pins at pins", [[((0, 0),), ((300, 0),)], [((300, 0),), ((600, 0),)]], 1, (1, 2, 2, 2, 7)),
]


def sheet_of(objects, leaving):
    """What comes of objects, of which all but wires are parts, and of one that leaves."""
    sheet = Sheet()
    for conductors in objects:
        sheet.come(conductors, is_part=len(conductors[0]) == 1)
    sheet.leave(leaving)
    return numbers_of(sheet)


def self_test():
    """The rules told here on known answers."""
    first = (48271, 182605794, 1291394886, 1914720637)
    cases = [("drawn from 1", tuple(itertools.islice(drawn(1), 4)), first)]
    for start, count, wanted in KNOWN:
        cases.append((f"work {start} {count}", work_of(int(start), int(count)), wanted))
    for what, objects, leaving, wanted in MANY:
        cases.append((what, sheet_of(objects, leaving), wanted))
    return status_of("known answers of work", cases)


# The program.

def run_of(program, words):
    """Status, what goes out and the error line, or None where the run takes too long."""
    try:
        words = [program, "work", *words]
        run = subprocess.run(words, capture_output=True, timeout=LONGEST)
    except subprocess.TimeoutExpired:
        return None
    return run.returncode, *(it.decode(errors="replace") for it in (run.stdout, run.stderr))


def is_calls(line, bound):
    """The line `calls C`, with a C of at most the bound."""
    found = re.fullmatch("calls (0|[1-9][0-9]*)", line or "", re.ASCII)
    return found is not None and int(found[1]) <= bound


def difference(run, words, wanted):
    """What differs from the numbers that are wanted, or from a refusal where these are None."""
    if run is None:
        return f"no end within {LONGEST} seconds"
    status, out, err = run
    ends = (2, "gafd: usage\n") if wanted is None else (0, "")
    if (status, err) != ends:
        return f"got {status} {err!r}, wanted {ends[0]} {ends[1]!r}"
    if wanted is None:
        return f"{out!r} went out" if out else None
    lines = ["work " + " ".join(str(int(word)) for word in words)]
    lines += [f"{name} {number}" for name, number in zip(NAMES, wanted)]
    got = out.split("\n")
    said = []
    if len(got) > len(lines) and is_calls(got[len(lines)], wanted[-1]):
        lines.append(got[len(lines)])
    else:
        lines.append(f"calls C, at most {wanted[-1]}")
    for line, (was, should) in enumerate(itertools.zip_longest(got, lines + [""]), 1):
        if was != should:
            said.append(f"line {line} is {was!r}, wanted {should!r}")
    return "; ".join(said) or None


def random_start(rng):
    """0, small, about the multiples of the prime, or any."""
    sort = rng.randrange(6)
    if sort == 0:
        return rng.choice((0, 1, MOST_START))
    if sort == 1:
        return rng.randrange(1000)
    if sort == 2:
        return min(PRIME * rng.randint(1, 2) + rng.randint(-5, 5), MOST_START)
    return rng.randrange(MOST_START + 1)


def random_count(rng):
    """Mostly up to 400, some of these few, and here and there up to 3,000."""
    sort = rng.randrange(40)
    return rng.randint(401, 3000) if sort == 0 else rng.randint(0, 20 if sort < 8 else 400)


def spelled(rng, number):
    """Now and then with leading zeros."""
    return str(number).zfill(rng.randint(1, 10) if rng.randrange(10) == 0 else 1)


def known_runs():
    for start, count, wanted in KNOWN:
        yield (start, count), wanted
    for words in REFUSED:
        yield words, None


def random_runs(seed, count):
    yield from known_runs()
    for number in range(count):
        rng = random.Random(f"work {seed} {number}")
        start, steps = random_start(rng), random_count(rng)
        yield (spelled(rng, start), spelled(rng, steps)), work_of(start, steps)


def compare_runs(program, runs):
    """Compares runs, each by its words and what is wanted, and answers the status."""
    started, count, differ = time.perf_counter(), 0, 0
    for words, wanted in runs:
        count += 1
        if said := difference(run_of(program, words), words, wanted):
            differ += 1
            print(f"{shlex.join([program, 'work', *words])}: {said}", flush=True)
    seconds = time.perf_counter() - started
    print(f"{count} runs were compared, {differ} differ; {seconds:.1f} s")
    return 1 if differ else 0


def main():
    asked = arguments(__doc__, 400).parse_args()
    failed = asked.cases and self_test()
    if failed or (asked.cases and not asked.program):
        return failed
    runs = random_runs(asked.seed, 0 if asked.cases else asked.count)
    return compare_runs(str(built(asked.program)), runs)


if __name__ == "__main__":
    sys.exit(main())
