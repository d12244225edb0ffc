#!/usr/bin/env python3
"""Two engineers who draw at random on one sheet, beside a model that knows which object is which.

`python3 clients/test_moves.py BOARDS [FIRST]` tries so many boards, each of which a number makes,
from the number FIRST on; called as the other tests are, it tries a few. After each `push` and `pull`
no object is lost but what a quarrel was about, and no quarrel goes by unnoticed: an object that both
changed, and otherwise, since the file was made from the server's.
"""
import contextlib
import random
import sys
import unittest
from collections import Counter

sys.dont_write_bytecode = True

from drawing_model import Pen
from gafd_sync.server import Server
from gafd_sync.sheets import sheet_of
from laboratory import Laboratory
from served import bounded, program

FEW = 12
# Of one board, in seconds.
LONGEST = 20
MOVES = 25
DEEDS = ("draw", "draw", "push", "push", "pull", "pull --mine", "pull --theirs")


class Odd(AssertionError):
    """What the client did otherwise than the model."""


class Side:
    """An engineer, with what the file has and what it is known to be made from, by key."""

    def __init__(self, engineer, name):
        self.engineer, self.name = engineer, name
        self.base, self.mine = {}, {}

    def __call__(self, words):
        return self.engineer(*words.split(), self.name)

    def path(self):
        return self.engineer.path(self.name)

    def quarrels(self, server):
        """The keys of what both changed."""
        keys = {*self.base, *self.mine, *server}
        found = ((key, *(it.get(key) for it in (self.base, self.mine, server))) for key in keys)
        return {key for key, base, mine, now in found if base not in (mine, now) and mine != now}

    def merged(self, server, taken):
        """The sheet with the changes of both."""
        objects = {}
        for key in {**server, **self.mine}:
            mine, base, now = (it.get(key) for it in (self.mine, self.base, server))
            is_theirs = mine == base or (taken == "--theirs" and now not in (mine, base))
            if pick := now if is_theirs else mine:
                objects[key] = pick
        return objects

    def pushed(self):
        """From now on the server has its changes; those of others are not known yet."""
        self.base = dict(self.mine)


class Board:
    """One sheet on the server, and both who draw on it."""

    def __init__(self, link, engineers, number, counts):
        self.draw = random.Random(number)
        self.pen, self.name = Pen(self.draw), f"r{number}.sch"
        self.sides = [Side(engineer, self.name) for engineer in engineers]
        self.link, self.server, self.counts = link, {}, counts
        self.said = []

    def start(self):
        first, second = self.sides
        first.mine.update(self.pen.new() for _ in range(self.draw.choice((5, 15, 40))))
        first.path().write_text(self.pen.file(first.mine))
        for side, words in ((first, "push"), (second, "pull")):
            status, said = side(words)
            self.expect(status == 0, said)
        self.server = dict(first.mine)
        second.mine = dict(self.server)
        first.base, second.base = dict(self.server), dict(self.server)

    def expect(self, is_so, what):
        if not is_so:
            raise Odd(f"{self.name}: {what}\n" + "\n".join(self.said[-4:]))

    def run(self):
        self.start()
        for _ in range(MOVES):
            side, deed = self.draw.choice(self.sides), self.draw.choice(DEEDS)
            if deed == "draw":
                self.pen.changes(side.mine)
                side.path().write_text(self.pen.file(side.mine))
            elif deed == "push":
                self.push(side)
            else:
                self.pull(side, deed)
        self.end()

    def call(self, side, deed):
        """What a call says, its status, and the quarrels that there are."""
        quarrels = side.quarrels(self.server)
        status, said = side(deed)
        self.said.append(f"{side.engineer.name} {deed}: {status} {said}")
        self.counts[deed] += 1
        return status, said, quarrels

    def is_quarrel(self, said, words, quarrels):
        """Whether a call tells of a quarrel, as it has to where there is one."""
        is_told = words in said
        self.expect(is_told or not quarrels, f"unnoticed: {sorted(quarrels)}")
        self.counts["quarrels"] += is_told
        self.counts["false alarms"] += is_told and not quarrels
        return is_told

    def push(self, side):
        status, said, quarrels = self.call(side, "push")
        if self.is_quarrel(said, "nothing was sent", quarrels):
            return
        self.expect(status == 0, said)
        self.server = side.merged(self.server, None)
        side.pushed()
        self.compare("the server", self.on_server(), texts(self.server))

    def pull(self, side, deed):
        status, said, quarrels = self.call(side, deed)
        taken = deed.partition(" ")[2]
        if not taken and self.is_quarrel(said, "not written", quarrels):
            return
        self.expect(status == 0, said)
        objects = side.merged(self.server, taken)
        objects.update(self.both_versions(side, objects, quarrels))
        side.mine = {key: one for key, one in objects.items() if one}
        side.base = dict(self.server)
        self.compare("the file", in_file(side), texts(side.mine))

    def both_versions(self, side, objects, quarrels):
        """What a file has where both versions of an object stay: theirs under the old key, and that
        of the engineer as an object of its own."""
        found, left = {}, Counter(in_file(side))
        left.subtract(texts(objects))
        for key in quarrels:
            versions = [it.get(key) for it in (self.server, side.mine)]
            other = next((it for it in versions if it and it != objects.get(key)), None)
            if other and left[other.text] > 0:
                left[other.text] -= 1
                found[key] = versions[0]
                if versions[1]:
                    found[self.pen.new_key()] = versions[1]
                self.counts["both stay"] += 1
        return found

    def on_server(self):
        stand = self.link.sheet(self.name)
        return sorted(stand.objects.values())

    def compare(self, where, found, wanted):
        found, wanted = Counter(found), Counter(wanted)
        lost, more = list((wanted - found).elements()), list((found - wanted).elements())
        self.expect(not lost and not more, f"{where} lacks {lost}, and has {more}")

    def end(self):
        for side in self.sides * 2:
            side("pull --mine")
            side("push")
        found = [in_file(side) for side in self.sides]
        self.expect(found[0] == found[1] == self.on_server(), "they do not meet in the end")


def texts(objects):
    return [one.text for one in objects.values()]


def in_file(side):
    """The texts of the objects of a file."""
    return sorted(sheet_of(side.name, side.path().read_text()).texts)


class MovesTest(Laboratory):
    boards, first = FEW, 0

    def test_nothing_is_lost_and_no_quarrel_goes_by(self):
        counts = Counter()
        link = Server(self.server.url, "reader")
        with contextlib.closing(link.link):
            for number in range(self.first, self.first + self.boards):
                board = Board(link, (self.ann, self.bob), number, counts)
                with self.subTest(board=number):
                    board.run()
        if self.boards > FEW:
            print(f"{self.boards} boards:", ", ".join(f"{counts[it]} {it}" for it in sorted(counts)))


if __name__ == "__main__":
    if not program():
        print("no program is built, so clients/ is not tried")
        sys.exit(0)
    numbers = [int(word) for word in sys.argv[1:]] + [FEW, 0][len(sys.argv) - 1 :]
    MovesTest.boards, MovesTest.first = numbers
    bounded(LONGEST * numbers[0])
    unittest.main(argv=sys.argv[:1])
