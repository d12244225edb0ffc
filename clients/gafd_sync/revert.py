"""`revert`: the contrary of anybody's edit, as edits of one's own."""
from .boards import boards_around
from .differences import change_lines
from .merge import Plan
from .pushes import Edit, Push
from .sheets import item_of


def revert(asked, server, folder):
    before, after = boards_around(asked.store, asked.serial)
    server.names()
    now = {name: stand for name in before.names() | after.names() if (stand := server.sheet(name))}
    whole, kept, lines = files_back(server, before, after, now)
    plans, more = plans_back(before, after, now)
    if lines or more:
        print("\n".join(lines + more))
        print(f"nothing was sent: something of the edit {asked.serial} was changed since")
        return 1
    push, is_all = Push(server, folder, []), True
    # The base of each is the front at which that file was read.
    for name, edit, base in whole:
        push.sent_whole(name, edit, base)
    for name, plan in plans.items():
        is_all = is_all and push.sent(name, plan, now[name].front, dict(plan.known))
    push.end()
    print("\n".join(kept or ["`pull` brings it"] if plans or whole else ["nothing of it stands"]))
    return 0 if is_all else 1


def files_back(server, before, after, now):
    """The edits that bring symbols and sheets back, each with its base; lines on what no edit takes
    away, and on what was changed since."""
    edits, kept, lines = [], [], []
    for name in sorted(before.symbols.keys() | after.symbols.keys()):
        old, new, text = before.symbols.get(name), after.symbols.get(name), server.symbol(name)
        if old == new or text == old:
            continue
        if text not in (new, None):
            lines.append(f"{name}: was changed since")
        elif old is None:
            kept.append(f"{name}: stays: no edit takes a symbol away")
        else:
            kind = "add_symbol" if text is None else "replace_symbol"
            body = {"kind": kind, "name": name, "text": old}
            back = {**body, "text": new} if text else None
            edit = Edit(body, name, {name: old} if text else {}, back)
            edits.append((name, edit, server.front))
    for name in sorted(before.names() ^ after.names()):
        if name in before.sheets and name not in now:
            old = before.sheets[name]
            body = {"kind": "add_sheet", "name": name, "text": old.text}
            edits.append((name, Edit(body, f"{len(old.objects)} objects", {}), server.front))
        elif name in after.sheets and name in now:
            kept.append(f"{name}: stays without these objects: no edit removes a sheet")
    return edits, kept, lines


def plans_back(before, after, now):
    """The plan of each sheet that takes back what differs between two boards, and lines on objects
    that were changed since."""
    plans, lines = {}, []
    olds, news = before.objects(), after.objects()
    objects = {key: text for stand in now.values() for key, text in stand.objects.items()}
    for key, (name, new) in news.items():
        old = olds.get(key, (name, None))[1]
        text = objects.get(key)
        if old == new or text in (old, None):
            continue
        if text != new:
            lines.append(f"{name}: changed since: {key}, {item_of(new)}")
            lines += [f"    {line}" for line in change_lines(new, text)]
            continue
        plan = plans.setdefault(name, Plan({}, {}, [], [], [], []))
        plan.known[key] = text
        if old is None:
            plan.deleted.append(key)
        else:
            plan.replaced[key] = old
    for key, (name, old) in olds.items():
        if key not in news and key not in objects and name in now:
            plans.setdefault(name, Plan({}, {}, [], [], [], [])).added.append(old)
    return plans, lines
