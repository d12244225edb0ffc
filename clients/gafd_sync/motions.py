"""Objects that are moved or turned as a whole: one edit takes many of them."""
from collections import Counter
from typing import NamedTuple

from .sheets import item_from

# How many points of an object stand behind its letter. The data of a path is not read.
POINTS = {"L": 2, "N": 2, "U": 2, "P": 2, "G": 1, "B": 1, "V": 1, "A": 1, "T": 1, "C": 1}
TURNED = "LNUTC"
FARTHEST = 200_000
# So many motions of one drawing are looked for at once.
MOST_MOTIONS = 16


class Motion(NamedTuple):
    """Takes points to the other side of the upright line through (0, 0) where `mirror` asks for it,
    turns them about it by right angles counterclockwise, and moves them then."""

    quarter: int
    mirror: bool
    dx: int
    dy: int

    @property
    def is_shift(self):
        return not self.quarter and not self.mirror

    def point(self, x, y):
        if self.mirror:
            x = -x
        for _ in range(self.quarter):
            x, y = -y, x
        return x + self.dx, y + self.dy

    def shape(self, shape):
        words = list(shape.words)
        for at in range(1, 1 + 2 * POINTS[words[0]], 2):
            words[at : at + 2] = map(str, self.point(int(words[at]), int(words[at + 1])))
        if words[0] == "T":
            words[7] = str((int(words[7]) + 90 * self.quarter) % 360)
        if words[0] == "C":
            own = -int(words[4]) if self.mirror else int(words[4])
            words[4] = str((90 * self.quarter + own) % 360)
            words[5] = str(int(words[5]) ^ self.mirror)
        return shape._replace(words=words)

    def item(self, item):
        attached = [self.shape(text) for text in item.attached]
        parts = None if item.parts is None else [self.item(part) for part in item.parts]
        return item_from(self.shape(item.shape), parts, attached)

    def text(self, item):
        """What it makes of an object; None where it takes no such object."""
        if item.letter not in (POINTS if self.is_shift else TURNED):
            return None
        if not self.is_shift and item.parts is not None:
            return None
        try:
            return self.item(item).text
        except (KeyError, IndexError, ValueError):
            # A path in an embedded symbol, or what the grammar refuses.
            return None

    @property
    def centre(self):
        """The point about which it turns or mirrors alone; None where there is no such one."""
        dx, dy, half = self.dx, self.dy, self.dx // 2
        if self.mirror:
            fits, x, y = (
                (dy == 0 and dx % 2 == 0, half, 0),
                (dx == dy, half, dx - half),
                (dx == 0 and dy % 2 == 0, 0, dy // 2),
                (dx == -dy, half, half - dx),
            )[self.quarter]
        else:
            fits, x, y = (
                (False, 0, 0),
                ((dx + dy) % 2 == 0, (dx - dy) // 2, (dx + dy) // 2),
                (dx % 2 == dy % 2 == 0, half, dy // 2),
                ((dx + dy) % 2 == 0, (dx + dy) // 2, (dy - dx) // 2),
            )[self.quarter]
        return (x, y) if fits and max(abs(x), abs(y)) <= FARTHEST else None

    def edit(self, ids):
        """The edit that does it to objects; it is a shift, or has a centre."""
        if self.is_shift:
            return {"kind": "move", "ids": ids, "dx": self.dx, "dy": self.dy}
        x, y = self.centre
        turn = {"x": x, "y": y, "quarter": self.quarter, "mirror": self.mirror}
        return {"kind": "turn", "ids": ids, **turn}

    def back(self, ids):
        """The edit that does the contrary. What mirrors is its own."""
        edit = self.edit(ids)
        if self.is_shift:
            return {**edit, "dx": -self.dx, "dy": -self.dy}
        return edit if self.mirror else {**edit, "quarter": 4 - self.quarter}

    @property
    def way(self):
        if self.is_shift:
            return f"by {self.dx},{self.dy}"
        words = ["mirrored"] if self.mirror else []
        words += [f"by {90 * self.quarter}"] if self.quarter else []
        return ", ".join(words) + " about {},{}".format(*self.centre)

    def __str__(self):
        return f"{'moved' if self.is_shift else 'turned'} {self.way}"


def motion_from(quarter, mirror, old, new):
    """The motion with these turns that takes the first point of an object to that of another."""
    bare, start, end = Motion(quarter, mirror, 0, 0), old.place, new.place
    if start is None or end is None:
        return None
    x, y = bare.point(*start)
    return bare._replace(dx=end[0] - x, dy=end[1] - y)


def motions_between(old, new, is_turned):
    """The motions that make one object of another: the shift, or where asked the turns."""
    if old.letter != new.letter or len(old.attached) != len(new.attached):
        return
    ways = ((at % 4, at >= 4) for at in range(1, 8)) if is_turned else ((0, False),)
    for quarter, mirror in ways:
        motion = motion_from(quarter, mirror, old, new)
        if motion and (motion.is_shift or motion.centre) and motion.text(old) == new.text:
            yield motion


def motions_of(olds, news):
    """Which objects went by one motion: the motion, and their ids in order. `olds` and `news` have
    the objects by id; what was not moved as a whole is in no group."""
    fitting = {key: list(motions_between(olds[key], news[key], False)) for key in news}
    turned = {}
    for key in news:
        if not fitting[key]:
            turned[key] = list(motions_between(olds[key], news[key], True))
    votes = Counter(motion for found in turned.values() for motion in found)
    # A text that went with a turned block has been moved too, by a way of its own.
    for motion, _ in votes.most_common(4):
        for key, found in fitting.items():
            if found and motion.text(olds[key]) == news[key].text:
                found.append(motion)
    fitting.update(turned)
    votes = Counter(motion for found in fitting.values() for motion in found)
    groups = {}
    for key in sorted(news):
        if fitting[key]:
            best = max(fitting[key], key=lambda motion: (votes[motion], motion))
            groups.setdefault(best, []).append(key)
    return sorted(groups.items(), key=lambda group: group[1][0])


def outline(item):
    """What an object looks like, wherever it stands."""
    place = item.place
    return Motion(0, False, -place[0], -place[1]).text(item) if place else None


def likely_shifts(olds, news):
    """Shifts that several of the old objects may have made, the likeliest first."""
    places = []
    for items in (olds, news):
        places.append({})
        for item in items:
            if (look := outline(item)) is not None:
                places[-1].setdefault(look, []).append(item.place)
    votes = Counter()
    for look, starts in places[0].items():
        for (x, y), (to_x, to_y) in zip(sorted(starts), sorted(places[1].get(look, []))):
            votes[to_x - x, to_y - y] += 1
    return [Motion(0, False, *way) for way, count in votes.most_common(MOST_MOTIONS) if count > 1]
