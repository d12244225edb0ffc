"""Differences as lines that are printed."""
import difflib

from .merge import versions_left
from .motions import motions_between, motions_of
from .sheets import item_of

WHOSE = "`pull --mine {0}` takes yours of these, `--theirs` theirs"


def lines_between(old, new):
    """The lines that differ between two texts, each of which may be None."""
    lines = difflib.unified_diff(
        (old or "").splitlines(), (new or "").splitlines(), n=0, lineterm=""
    )
    return [line for line in lines if not line.startswith(("---", "+++", "@@"))]


def change_lines(was, text):
    """What came of an object, in a line or more: where it was moved as a whole, by how much."""
    if text is None:
        return ["deleted"]
    old, new = item_of(was), item_of(text)
    for is_turned in (False, True):
        for motion in motions_between(old, new, is_turned):
            return [str(motion)]
    return lines_between(was, text)


def and_you(who):
    return f"{who}{',' if ',' in who else ''} and by you"


def show_conflicts(name, plan, now, view):
    view.look(plan.conflicts)
    for key in plan.conflicts:
        was = plan.known[key]
        who = view.changer(key, was, now.get(key))
        print(f"{name}: changed by {and_you(who)}: {key}, {item_of(was)}")
        for who, text in (("theirs", now.get(key)), ("yours", plan.replaced.get(key))):
            for line in change_lines(was, text):
                print(f"    {who:6} {line}")


def named_or_placed(item):
    """An object by its refdes, or else by what and where it is."""
    if item.letter not in "CT" or item.attribute("refdes"):
        return str(item)
    return "{} at {},{}".format(item, *item.place)


def show_left(name, plan, now, taken):
    """Prints each object of the side that is not taken: it goes, or is another one and stays."""
    whose = "theirs" if taken == "mine" else "yours"
    for key, text, is_same in versions_left(plan, now, taken):
        what = "dropped" if is_same else "kept beside it"
        print(f"{name}: {what}: {whose}, {key}, {named_or_placed(item_of(text))}")


def show_change(name, who, key, was, text):
    """Prints what came of an object, with its lines where it stands still."""
    what = "added" if was is None else "deleted" if text is None else "changed"
    number = "" if key is None else f"{key}, "
    print(f"{name}: {what} by {who}: {number}{item_of(text or was)}")
    if was and text:
        for line in lines_between(was, text):
            print(f"    {line}")


def objects_named(keys, items):
    """A few objects by id and name, many by their count and the first."""
    first = f"{keys[0]}, {items[keys[0]]}"
    return first if len(keys) == 1 else f"{len(keys)} objects, the first {first}"


def show_changes(name, who, olds, news):
    """Prints what came of objects that are there before and after; what went by one motion is one
    line. Both are texts by id."""
    old_items, new_items = ({key: item_of(it[key]) for key in news} for it in (olds, news))
    left = dict(news)
    for motion, keys in motions_of(old_items, new_items):
        print(f"{name}: {motion} by {who}: {objects_named(keys, old_items)}")
        for key in keys:
            del left[key]
    for key, text in left.items():
        show_change(name, who, key, olds[key], text)


def show_theirs(name, plan, now, view):
    """Prints what others changed, but for what both did; of one changer all together."""
    conflicts, changed, left = set(plan.conflicts), {}, []
    keys = [key for key in plan.theirs if key not in conflicts]
    view.look(keys)
    for key in keys:
        was, text = plan.known.get(key), now.get(key)
        who = view.changer(key, was, text)
        if was and text:
            changed.setdefault(who, {})[key] = text
        else:
            left.append((who, key, was, text))
    for who, texts in changed.items():
        show_changes(name, who, plan.known, texts)
    for one in left:
        show_change(name, *one)


def show_yours(name, plan):
    conflicts = set(plan.conflicts)
    changed = {key: text for key, text in plan.replaced.items() if key not in conflicts}
    show_changes(name, "you", plan.known, changed)
    for text in plan.added:
        show_change(name, "you", None, None, text)
    for key in plan.deleted:
        if key not in conflicts:
            show_change(name, "you", key, plan.known[key], None)


def show_lines(name, who, was, text):
    """Prints how a symbol was changed."""
    print(f"{name}: changed by {who}")
    for line in lines_between(was, text):
        print(f"    {line}")


def show_symbol_conflict(name, was, theirs, yours, view):
    print(f"{name}: changed by {and_you(view.symbol_changer(name))}")
    for who, text in (("theirs", theirs), ("yours", yours)):
        for line in lines_between(was, text):
            print(f"    {who:6} {line}")
