"""The rule of touching, told again: what touches, and the classes that come of it.

It shares no code with the program. A conductor is a pair that begins with its ends, which are one
point or two.
"""
import bisect
import collections


def is_inside(point, ends):
    """Strictly inside a horizontal or vertical segment."""
    if len(ends) == 1:
        return False
    (ax, ay), (bx, by) = ends
    upright = point[0] == ax == bx and min(ay, by) < point[1] < max(ay, by)
    return upright or (point[1] == ay == by and min(ax, bx) < point[0] < max(ax, bx))


def touch(a, b):
    return (
        any(end in b or is_inside(end, b) for end in a)
        or any(is_inside(end, a) for end in b)
    )


def classes(conductors):
    """The classes of touching, as lists of places: all pairs are looked at."""
    found = []
    for place, (ends, _) in enumerate(conductors):
        near = [c for c in found if any(touch(ends, conductors[k][0]) for k in c)]
        found = [c for c in found if c not in near] + [sum(near, []) + [place]]
    return found


def classes_by_ends(conductors):
    """The same for many conductors: by the ends at each point and along each line."""
    above = list(range(len(conductors)))

    def root(place):
        while above[place] != place:
            above[place] = above[above[place]]
            place = above[place]
        return place

    at, rows, columns = {}, collections.defaultdict(set), collections.defaultdict(set)
    for place, (ends, _) in enumerate(conductors):
        for x, y in ends:
            above[root(at.setdefault((x, y), place))] = root(place)
            rows[y].add(x)
            columns[x].add(y)
    rows = {y: sorted(xs) for y, xs in rows.items()}
    columns = {x: sorted(ys) for x, ys in columns.items()}
    for place, (ends, _) in enumerate(conductors):
        (ax, ay), (bx, by) = ends[0], ends[-1]
        if ay == by:
            line, low, high, point = rows[ay], min(ax, bx), max(ax, bx), lambda x: (x, ay)
        elif ax == bx:
            line, low, high, point = columns[ax], min(ay, by), max(ay, by), lambda y: (ax, y)
        else:
            continue
        for end in line[bisect.bisect_right(line, low) : bisect.bisect_left(line, high)]:
            above[root(at[point(end)])] = root(place)
    found = collections.defaultdict(list)
    for place in range(len(conductors)):
        found[root(place)].append(place)
    return list(found.values())
