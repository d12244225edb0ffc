"""What two objects have in common, so that one may have come of the other."""
from .motions import motions_between, outline

# Objects of one kind that are nearer than this, in mils, may be one that was changed in all else.
NEAR = 1000


def kind(item):
    """Its letter, and the symbol of a component."""
    return (item.letter, *item.words[6:7]) if item.letter == "C" else (item.letter,)


def cell(item):
    """The square of the sheet in which an object begins."""
    return tuple(way // NEAR for way in item.place)


def cells_around(item):
    if item.place is None:
        return []
    x, y = cell(item)
    return [(x + dx, y + dy) for dx in (-1, 0, 1) for dy in (-1, 0, 1)]


def distance(one, other):
    """How far an object begins from another, along the axis on which that is more."""
    if one.place is None or other.place is None:
        return 0
    return max(abs(a - b) for a, b in zip(one.place, other.place))


def refdes_of(item):
    """The refdes of a component; one that has no number yet, as `R?`, is no name."""
    refdes = item.attribute("refdes") if item.letter == "C" else None
    return None if refdes is None or refdes.endswith("?") else refdes


def same_name(item):
    refdes = refdes_of(item)
    return refdes and (refdes, item.attribute("slot"))


def same_words(item):
    """What a text says, or the net that a wire names: others may do so too."""
    words = item.content if item.letter == "T" else [item.attribute("netname")]
    return (item.letter, *words) if item.letter in "TN" and any(words) else None


def all_but_name(item):
    """The symbol of a component with a refdes, and its other attributes."""
    if item.letter != "C" or item.attribute("refdes") is None:
        return None
    return (item.words[6], *(it for it in item.attributes if not it.startswith("refdes=")))


def in_common(one, other):
    """How many attributes two objects have in common, but for their refdes."""
    shared = set(one.attributes) & set(other.attributes)
    return sum(not it.startswith("refdes=") for it in shared)


def same_place(item):
    """Where it begins; the data of a path has that in its first line."""
    if item.letter == "H":
        return (item.letter, *item.content[:1])
    return (item.letter, *item.words[1:3])


def same_end(item):
    return (item.letter, *item.words[3:5]) if item.letter in "LNUP" else None


def both(one, other):
    """The mark of what has two marks in common."""

    def mark(item):
        found = one(item), other(item)
        return None if None in found else found

    return mark


REFDES_AND_PLACE, NAME_AND_REST, PLACE_AND_REST = (
    both(refdes_of, same_place),
    both(same_name, all_but_name),
    both(same_place, all_but_name),
)


def is_alike(old, new):
    """Whether one object came of another: what has but its kind and its whereabouts in common may
    as well be another one."""
    marks = (same_name, same_place, same_end, outline)
    pairs = ((mark(old), mark(new)) for mark in marks)
    return any(a == b and a is not None for a, b in pairs) or any(motions_between(old, new, True))
