"""`undo`: the last pushes taken back."""
from .differences import show_theirs
from .merge import plan_of
from .stack import Stack, mark_of
from .words import Refused, Stop, told


def undo(asked, server, folder):
    stack, status = Stack(folder), 0
    pushes = [rows for rows in stack.pushes() if any("serial" in row for row in rows)]
    if not pushes:
        raise Stop("nothing was pushed from this folder, or it is taken back")
    server.names()
    undone = []
    try:
        for rows in reversed(pushes[-asked.count :]):
            status = taken_back(server, rows)
            undone += [row for row in rows if row.get("undone")]
            if status:
                break
    finally:
        # What is noted here is looked at again, should the server not answer now.
        stack.set(pushes)
    for name in sorted({row["name"] for row in undone if row["name"]}):
        rows = [row for row in undone if row["name"] == name]
        restored(server, folder, name, {int(key) for row in rows for key in ids_of(row)})
    if any(row["kind"] == "renumber" for row in undone):
        for name in folder.pulled(".sch"):
            restored(server, folder, name, None)
    left = ([row for row in rows if not row.get("undone")] for rows in pushes)
    stack.set([rows for rows in left if any("serial" in row for row in rows)])
    return status


def ids_of(row):
    """The ids that a row has, as this or an older client wrote it."""
    return [] if row["name"].endswith(".sym") else row.get("left", row.get("ids", []))


def taken_back(server, rows):
    """Takes the edits of a push back, the last one first, and marks them in its rows."""
    for row in reversed([row for row in rows if "serial" in row and not row.get("undone")]):
        server.edit_as(row["session"])
        what = f"{row['name']}: {row['kind']}" if row["name"] else row["kind"]
        what += f" at {row['serial']}"
        try:
            serial = server.send({"kind": "undo", "serial": row["serial"]}, server.front)["serial"]
            print(f"{what} is taken back at {serial}")
        except Refused as refused:
            serial = contrary(server, row) if refused.fault.get("fault") == "UndoBlocked" else None
            if serial is not None:
                print(f"{what} is taken back by its contrary at {serial}")
            elif refused.fault.get("fault") != "UndoneAlready":
                print(f"{what} stands still: {told(refused.fault)}")
                return 1
        row["undone"] = True
    return 0


def contrary(server, row):
    """The serial of the contrary of an edit, where all is still as that left it; None where it is
    not. An undo counts as a change, so the undo of a later push blocks that of an earlier one."""
    name, left = row["name"], row.get("left")
    if not row.get("back") or not left:
        return None
    if name.endswith(".sym"):
        now = {name: server.symbol(name)}
    else:
        stand = server.sheet(name)
        now = {str(key): text for key, text in stand.objects.items()} if stand else {}
    if any(mark_of(now.get(key)) != mark for key, mark in left.items()):
        return None
    try:
        return server.send(row["back"], server.front)["serial"]
    except Refused:
        return None


def restored(server, folder, name, ids):
    """Brings a file whose edits were taken back, where nobody drew in it since; `ids` has those of
    the objects that came back, or is None where it may be any."""
    if name.endswith(".sym"):
        restored_symbol(server, folder, name)
    elif (origin := folder.origin(name)) is not None:
        stand = server.sheet(name)
        if stand is None:
            folder.forget(name)
            print(f"{name}: the server has it no more; the file stays")
            return
        objects = dict(origin[1])
        for key in objects.keys() | stand.objects.keys() if ids is None else ids:
            objects.pop(key, None)
            if key in stand.objects:
                objects[key] = stand.objects[key]
        if is_drawn(folder, name, origin[1].values()):
            folder.set_origin(name, stand.front, objects)
            stays(name)
            return
        plan = plan_of(objects, stand.objects, list(objects.values()))
        show_theirs(name, plan, stand.objects, server.view)
        if folder.renew(name, stand.text, True):
            print(f"{name}: written, {len(stand.objects)} objects, as after {stand.front} edits")
        folder.set_origin(name, stand.front, stand.objects)


def restored_symbol(server, folder, name):
    origin, text = folder.symbol_origin(name), server.symbol(name)
    if text is None:
        folder.forget(name)
    elif origin is not None and origin != text:
        if folder.has(name) and folder.sheet(name).text != origin:
            stays(name)
        elif folder.renew(name, text, True):
            print(f"{name}: written")
        folder.set_symbol_origin(name, server.front, text)


def is_drawn(folder, name, texts):
    """Whether a file is otherwise than what is known that it was made from."""
    return not folder.has(name) or sorted(folder.sheet(name).texts) != sorted(texts)


def stays(name):
    print(f"{name}: was drawn on since, and stays; `pull --over {name}` takes the server's")
