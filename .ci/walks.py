"""Draws the rooms of crates.txt in a column, and the walks of docs/ARCHITECTURE.md as lines through
them, for `.ci/layers`.

A walk is the first text block below a heading of WALKS: in one column of it stands the crate of each
call. What a walk does in one room, call after call, is one point, at the first crate that it calls
there.
"""
import collections
import re

WALKS = ("One wire", "One edit", "One report")
ROW, STEP, TOP, LEFT, GAP, RIGHT = 30, 29, 50, 100, 40, 30
STYLE = """<style>
text { font: 11px sans-serif; fill: #444 } .name { font-weight: bold; font-size: 12px }
.room { stroke: #999; stroke-opacity: .35 }
polyline { fill: none; stroke-width: 2 } .c0 { stroke: #1a66c2 } .c1 { stroke: #c2410c }
.c2 { stroke: #15803d } circle { fill: #fff; stroke-width: 2 }
@media (prefers-color-scheme: dark) {
text { fill: #ccc } circle { fill: #0d1117 } .c0 { stroke: #6ab0ff } .c1 { stroke: #ff9a5c }
.c2 { stroke: #5fd38a } }
</style>
"""


def steps(page, title, crates):
    """The crates of a walk, call by call: what stands in the column in which most crates begin."""
    found = re.search(rf"^## {title}\n.*?^```text\n(.*?)^```", page, re.M | re.S)
    lines = found[1].splitlines() if found else []
    starts = collections.Counter(
        word.start() for line in lines for word in re.finditer(r"\w+", line) if word[0] in crates)
    if not starts:
        return []
    column = starts.most_common(1)[0][0]
    words = (re.match(r"\w+", line[column:]) for line in lines)
    return [word[0] for word in words if word and word[0] in crates]


def points(names, rooms):
    """The rooms that a walk comes through, each with the first crate that it calls there."""
    found = []
    for name in names:
        room = rooms[name]
        if not found or found[-1][0] != room:
            found.append((room, name))
    return found


def drawn(page, names, rooms):
    """The picture: the names of the rooms, from the ground up, and the room of each crate, by number."""
    walks = [(title, points(steps(page, title, rooms), rooms)) for title in WALKS]
    width = LEFT + sum(STEP * len(walk) + GAP for _, walk in walks) + RIGHT
    height = TOP + ROW * (len(names) + 1)

    def level(room):
        return height - ROW * (room + 1) - ROW // 2

    parts = [f'<svg xmlns="http://www.w3.org/2000/svg" viewBox="0 0 {width} {height}">\n', STYLE]
    for room, name in enumerate(names):
        parts.append(f'<path class="room" d="M{LEFT - 12} {level(room)}H{width - 8}"/>\n'
                     f'<text x="8" y="{level(room) + 4}">{room + 1} {name}</text>\n')
    left = LEFT
    for number, (title, walk) in enumerate(walks):
        spots = [(left + STEP * at, level(room), name) for at, (room, name) in enumerate(walk)]
        parts.append(f'<text class="name" x="{left}" y="18">{title}</text>\n')
        line = " ".join(f"{x},{y}" for x, y, _ in spots)
        parts.append(f'<polyline class="c{number}" points="{line}"/>\n')
        for at, (x, y, name) in enumerate(spots):
            # Where the walk goes up, its crate stands below the point.
            is_below = at + 1 < len(spots) and spots[at + 1][1] < y
            turned = f"{y + 14}) rotate(32" if is_below else f"{y - 6}) rotate(-32"
            parts.append(f'<circle class="c{number}" cx="{x}" cy="{y}" r="4"/>'
                         f'<text transform="translate({x + 4} {turned})">{name}</text>\n')
        left += STEP * len(walk) + GAP
    return "".join(parts) + "</svg>\n"
