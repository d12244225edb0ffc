"""`pull`: what the server has, put together in the folder with what was drawn since."""
from .differences import (
    WHOSE,
    show_conflicts,
    show_left,
    show_lines,
    show_symbol_conflict,
    show_theirs,
)
from .merge import merged, plan_of, who_changed
from .sheets import sheet_of


def is_symbol(name):
    return name.endswith(".sym")


def pull(asked, server, folder):
    if not asked.over:
        names = asked.files or server.names()
        if not asked.files and folder.is_whole(server):
            folder.lepton_files(asked.lepton)
            return 0
        server.front = max([server.front, *map(folder.front, names)])
    wanted = [name for name in asked.files if not is_symbol(name)]
    if asked.files:
        stands = {name: server.sheet(name) for name in wanted}
    else:
        stands = server.all_sheets()
    front, status = server.front, 0
    symbols = set(filter(is_symbol, asked.files or folder.pulled(".sym")))
    for name, stand in stands.items():
        if stand is None:
            print(f"{name}: the server has no such sheet")
            status = 1
            continue
        status |= pull_sheet(asked, folder, name, stand)
        symbols |= set(server.symbols_of(sheet_of(name, stand.text)))
    for name in sorted(symbols):
        status |= pull_symbol(asked, server, folder, name)
    # What came meanwhile may be of a sheet that was read before it.
    if not asked.files and not status and not server.left_out and server.front == front:
        folder.keep_whole(server, {*stands, *symbols})
    folder.lepton_files(asked.lepton)
    return status


def pull_sheet(asked, folder, name, stand):
    plan = None
    if folder.has(name) and not asked.over:
        mine, origin = folder.sheet(name).texts, folder.origin(name)
        if origin is None and sorted(mine) != sorted(stand.objects.values()):
            print(f"{name}: is none of the server's: move it away, or `pull --over {name}`")
            return 1
        plan = plan_of(origin[1] if origin else stand.objects, stand.objects, mine)
        if plan.conflicts and not asked.taken:
            show_conflicts(name, plan, stand.objects, asked.view)
            print(f"{name}: not written; {WHOSE.format(name)}")
            return 1
        show_theirs(name, plan, stand.objects, asked.view)
        show_left(name, plan, stand.objects, asked.taken)
    # Where nothing came, what you drew stays as it stands.
    if plan is None or plan.is_empty() or plan.theirs:
        texts = merged(plan, stand.objects, asked.taken) if plan else stand.objects.values()
        text = stand.head + "\n" + "".join(texts)
        if folder.renew(name, text, plan is None or not plan.is_empty()):
            print(f"{name}: written, {len(texts)} objects, as after {stand.front} edits")
    # Only now: a file that is newer than what it is said to come from does no harm.
    folder.set_origin(name, stand.front, stand.objects)
    return 0


def pull_symbol(asked, server, folder, name):
    text, front = server.symbol(name), server.front
    if text is None:
        folder.forget(name)
        where = ", and the file here is yours alone" if folder.has(name) else ""
        print(f"{name}: the server has no such symbol{where}")
        return 0
    mine = folder.sheet(name).text if folder.has(name) else None
    origin = folder.symbol_origin(name)
    state = "theirs" if mine is None or asked.over else who_changed(origin, text, mine)
    if state == "unknown":
        print(
            f"{name}: differs from the server's, and it is not known which is newer: it stays."
            f" `pull --over {name}` takes the server's, `push --over {name}` sends yours"
        )
        return 1
    if state == "both" and not asked.taken:
        show_symbol_conflict(name, origin, text, mine, asked.view)
        print(f"{name}: not written; {WHOSE.format(name)}")
        return 1
    if mine and origin and origin != text:
        show_lines(name, asked.view.symbol_changer(name), origin, text)
    if state == "theirs" or (state, asked.taken) == ("both", "theirs"):
        # What is as it was pulled stands in the history still.
        if folder.renew(name, text, mine != origin):
            print(f"{name}: written")
    folder.set_symbol_origin(name, front, text)
    return 0
