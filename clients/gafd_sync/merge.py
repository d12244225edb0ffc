"""What a file has otherwise than what it was made from, beside what others changed."""
import math
from collections import Counter
from typing import NamedTuple

from .likeness import (
    NAME_AND_REST,
    NEAR,
    PLACE_AND_REST,
    REFDES_AND_PLACE,
    all_but_name,
    cell,
    cells_around,
    distance,
    in_common,
    is_alike,
    kind,
    same_end,
    same_name,
    same_place,
    same_words,
)
from .motions import MOST_MOTIONS, likely_shifts, motions_between, outline
from .sheets import item_of

# Of more objects that are alike the nearest is not looked for.
MOST_ALIKE = 100


class Plan(NamedTuple):
    """What a file has otherwise than what it was made from, beside what others changed."""

    known: dict  # the objects that the file was made from, and what the server has as the file
    replaced: dict  # texts by id
    deleted: list
    added: list
    theirs: list  # ids that others changed, added or deleted
    conflicts: list  # ids that both changed

    def is_empty(self):
        return not (self.replaced or self.deleted or self.added)


def unmatched(origin, now, mine):
    """What a file is made from, by id, as far as it is known; what of it the file has no more; and
    the texts that the file has beside it."""
    places = {}
    for at, text in enumerate(mine):
        places.setdefault(text, []).append(at)
    for found in places.values():
        found.reverse()
    known, changed = dict(origin), {}
    # Of equal objects those stand first that the server has still.
    for key in sorted(origin, key=lambda key: now.get(key) != origin[key]):
        if places.get(origin[key]):
            places[origin[key]].pop()
        else:
            changed[key] = origin[key]
    for key, text in now.items():
        if origin.get(key) != text and (key in changed or key not in origin) and places.get(text):
            places[text].pop()
            known[key] = text
            changed.pop(key, None)
    return known, changed, [mine[at] for at in sorted(at for it in places.values() for at in it)]


def plan_of(origin, now, mine):
    """The plan of a file with the texts `mine`, made from `origin`, where the server has `now`."""
    known, changed, left = unmatched(origin, now, mine)
    replaced, deleted, added = Pairing(changed, left).found()
    for key in [key for key in changed if key not in now and key not in replaced]:
        # Both deleted it.
        deleted.remove(key)
        del known[key]
    theirs = sorted(key for key in {*known, *now} if known.get(key) != now.get(key))
    touched = {*replaced, *deleted}
    return Plan(known, replaced, deleted, added, theirs, [key for key in theirs if key in touched])


class Pairing:
    """Which objects came in place of which: those that have a name, a place, an end or a look in
    common, and then those of one kind that are near each other. What has nothing in common went and
    came."""

    def __init__(self, old, new):
        self.olds = {key: item_of(text) for key, text in sorted(old.items())}
        self.news = [item_of(text) for text in new]
        self.pairs = {}

    def found(self):
        """Texts by id, the ids that are left, the texts that are left."""
        for motion in likely_shifts(self.olds.values(), self.news):
            self.by(motion.text, lambda item: item.text)
        for alike in (REFDES_AND_PLACE, NAME_AND_REST, PLACE_AND_REST):
            self.by(alike)
        self.by(all_but_name, farthest=NEAR)
        self.by_name()
        for motion in self.turns():
            self.by(motion.text, lambda item: item.text)
        for alike in (same_place, same_end, outline, same_words):
            self.by(alike)
        self.by_nearness()
        self.by(same_name)
        replaced = {key: item.text for key, (_, item) in sorted(self.pairs.items())}
        return replaced, list(self.olds), [item.text for item in self.news]

    def by(self, mark_old, mark_new=None, farthest=math.inf, is_same=None):
        """Pairs what has one mark, of several the nearest, where that is not too far, and is the
        same by a test."""
        homes = {}
        for key, item in self.olds.items():
            if (mark := mark_old(item)) is not None:
                homes.setdefault(mark, []).append(key)
        left = []
        for item in self.news:
            keys = homes.get((mark_new or mark_old)(item), []) if homes else []
            ways = ((distance(self.olds[key], item), key) for key in keys[:MOST_ALIKE])
            far, key = min(ways, default=(math.inf, None))
            if key is None or far > farthest or (is_same and not is_same(self.olds[key], item)):
                left.append(item)
            else:
                keys.remove(key)
                self.pairs[key] = self.olds.pop(key), item
        self.news = left

    def by_name(self):
        """Pairs what has one name. A namesake that lies far is another one where an object that is
        near, and whose own name is gone, has more attributes in common: that was renamed."""
        homes, names = self.by_cell(), {same_name(item) for item in self.news}

        def is_same(old, new):
            if distance(old, new) <= NEAR:
                return True
            near = (self.olds[key] for _, key in self.neighbours(homes, new))
            renamed = (one for one in near if same_name(one) not in names)
            return all(in_common(one, new) <= in_common(old, new) for one in renamed)

        self.by(same_name, is_same=is_same)

    def by_cell(self):
        """The ids of what is left, by kind and square of the sheet."""
        homes = {}
        for key, item in self.olds.items():
            if item.place is not None:
                homes.setdefault((kind(item), cell(item)), []).append(key)
        return homes

    def neighbours(self, homes, item):
        """How far what is left of one kind and near an object lies from it, with its id."""
        keys = (key for near in cells_around(item) for key in homes.get((kind(item), near), ()))
        ways = ((distance(self.olds[key], item), key) for key in keys if key in self.olds)
        return ((far, key) for far, key in ways if far <= NEAR)

    def by_nearness(self):
        """Pairs what is of one kind and near each other, the nearest first."""
        homes, found, taken = self.by_cell(), [], set()
        for at, item in enumerate(self.news):
            found += ((far, key, at) for far, key in self.neighbours(homes, item))
        for _, key, at in sorted(found):
            if key in self.olds and at not in taken:
                taken.add(at)
                self.pairs[key] = self.olds.pop(key), self.news[at]
        self.news = [item for at, item in enumerate(self.news) if at not in taken]

    def turns(self):
        """The turns that named objects made, the likeliest first."""
        found = (motions_between(old, new, True) for old, new in self.pairs.values())
        votes = Counter(motion for motions in found for motion in motions)
        return [motion for motion, _ in votes.most_common(MOST_MOTIONS)]


def who_changed(origin, text, mine):
    """Who changed a symbol that was made from `origin`, where the server has `text` and the folder
    `mine`: nobody, you, theirs or both; it is unknown where the origin is."""
    if mine == text:
        return "nobody"
    if origin is None:
        return "unknown"
    if origin == text:
        return "you"
    return "theirs" if origin == mine else "both"


def versions_left(plan, now, taken):
    """Of each conflict the version that is not `taken`, where there is one: its id, its text, and
    whether it is the same object as before. One that is not stays beside the one that is taken."""
    for key in plan.conflicts:
        text = now.get(key) if taken == "mine" else plan.replaced.get(key)
        if text is not None:
            yield key, text, is_alike(item_of(plan.known[key]), item_of(text))


def merged(plan, now, taken):
    """The texts of a sheet with the changes of both; of conflicts those of `taken`."""
    both = {key for key, _, is_same in versions_left(plan, now, taken) if not is_same}
    theirs = set(plan.conflicts) if taken == "theirs" else both
    texts = [
        text if key in theirs else plan.replaced.get(key, text)
        for key, text in now.items()
        if key in theirs or key not in plan.deleted
    ]
    mine = [
        text
        for key, text in plan.replaced.items()
        if key in both or not (key in now or key in theirs)
    ]
    return texts + mine + plan.added
