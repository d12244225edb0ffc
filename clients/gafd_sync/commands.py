"""What is asked of the server, sheet by sheet or as a whole."""
import pathlib

from .differences import show_conflicts, show_lines, show_symbol_conflict, show_theirs, show_yours
from .merge import plan_of, who_changed
from .pushes import GONE
from .server import Server, in_order
from .sheets import item_of
from .stack import Stack
from .words import Refused, Stop, told


def diff(asked, server, folder):
    here = sorted(path.name for path in pathlib.Path(".").glob("*.sch"))
    names = asked.files or sorted({*here, *folder.pulled(".sch")})
    symbols = {name for name in asked.files or folder.pulled(".sym") if name.endswith(".sym")}
    for name in names:
        if name.endswith(".sym"):
            continue
        if not folder.has(name):
            is_there = server.get("/objects/" + name)
            print(GONE.format(name) if is_there else f"{name}: is neither here nor on the server")
            continue
        sheet = folder.sheet(name)
        symbols |= set(sheet.symbols())
        diff_sheet(server, folder, name, sheet)
    for name in sorted(symbols):
        diff_symbol(server, folder, name)
    return 0


def diff_sheet(server, folder, name, sheet):
    origin, stand = folder.origin(name), server.sheet(name)
    if stand is None or origin is None:
        what = "the server has no such sheet" if stand is None else "was not pulled"
        print(f"{name}: {what}")
        return
    plan = plan_of(origin[1], stand.objects, sheet.texts)
    show_yours(name, plan)
    show_theirs(name, plan, stand.objects, server.view)
    show_conflicts(name, plan, stand.objects, server.view)


def diff_symbol(server, folder, name):
    text = server.symbol(name)
    if text is None or not folder.has(name):
        if text is not None or folder.has(name):
            print(f"{name}: {'is not here' if text else 'the server has no such symbol'}")
        return
    mine, origin = folder.sheet(name).text, folder.symbol_origin(name)
    state = who_changed(origin, text, mine)
    if state == "you":
        show_lines(name, "you", text, mine)
    elif state == "theirs":
        show_lines(name, server.view.symbol_changer(name), mine, text)
    elif state == "both":
        show_symbol_conflict(name, origin, text, mine, server.view)
    elif state == "unknown":
        print(f"{name}: differs from the server's, and it is not known which is newer")


def renumber(asked, server, folder):
    server.names()
    serial = server.send({"kind": "renumber"}, server.front)["serial"]
    stack = Stack(folder)
    stack.begin([])
    stack.add({"session": server.session, "serial": serial, "name": "", "kind": "renumber"})
    stack.add({"end": True})
    print(f"renumbered at {serial}; `pull` brings the numbers")
    return 0


def sheets(asked, server, folder):
    for name in in_order(server.all_sheets()):
        print(name)
    return 0


def ids(asked, server, folder):
    stand = server.sheet(asked.file)
    if stand is None:
        raise Stop(f"{asked.file}: the server has no such sheet")
    for key, text in stand.objects.items():
        print(key, item_of(text))
    return 0


def copy(asked, server, folder):
    other = Server(asked.url, server.session)
    other.headers |= {"Connection": "close"}
    if other.names() or other.front:
        raise Stop(f"{asked.url} is not empty: it has {other.front} edits")
    stands = server.all_sheets()
    front = server.front
    texts = server.symbol_texts(stands)
    netlist = server.get("/netlist/list").text
    if server.front != front:
        raise Stop(f"{server.url} was edited meanwhile: call it again when nobody edits")
    edits = [{"kind": "add_symbol", "name": name, "text": text} for name, text in texts.items()]
    for name in in_order(stands):
        edits.append({"kind": "add_sheet", "name": name, "text": stands[name].text})
    for edit in edits:
        try:
            other.send(edit, other.front)
        except Refused as refused:
            raise Stop(f"{edit['name']}: {told(refused.fault)}") from None
    print(f"{len(stands)} sheets and {len(texts)} symbols are at {other.url}")
    if other.get("/netlist/list").text != netlist:
        print("the netlists differ: a package has parts on several top sheets, and now has its")
        print("attributes from another of them; compare both with gafd-netdiff")
        return 1
    print("both netlists are the same")
    return 0
