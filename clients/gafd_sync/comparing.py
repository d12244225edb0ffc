"""`compare`: the board after some edits beside the board after others, over all sheets. Both are the
program's own, of the rows of a store or by a `gafd_view`."""
import contextlib
import json
import tempfile

from .boards import board_of, served
from .databases import rows_of
from .reviewing import Look, link_rows, reports, show_reports, show_sheet, show_symbol
from .view import OTHERS
from .words import Stop


def whole_look(server):
    """All sheets and symbols of a server, and its reports."""
    board = board_of(server)
    return Look({**board.sheets, **board.symbols}, *reports(server))


def look_after(rows, count):
    """The board that the first rows of a store make."""
    if count > rows.count:
        raise Stop(f"{rows.store} has no {count} rows")
    with tempfile.TemporaryDirectory() as room:
        link_rows(rows, count, room)
        with served(room, "reader") as server:
            return whole_look(server)


def look_by(view, count):
    """The same, by a `gafd_view` that reads the store."""
    server = view.server_at(count)
    with contextlib.closing(server.link):
        return whole_look(server)


def editors(rows, serials):
    """Who made these edits, in words."""
    names = sorted({json.loads(rows.data(serial))["session"] for serial in serials})
    return " or ".join(names) or OTHERS


def compare(asked, server, folder):
    """Prints in what two boards differ. Status 1 where they do."""
    first, last = sorted((asked.edits, asked.later))
    if asked.store:
        rows = rows_of(asked.store)
        looks = [look_after(rows, count) for count in (first, last)]
        who = editors(rows, range(first, last))
    else:
        looks = [look_by(asked.view, count) for count in (first, last)]
        who = OTHERS
    return show_differences(who, *looks)


def show_differences(who, before, after):
    """Prints which files differ, and what comes and goes in the reports, as far as they differ."""
    for name in sorted(before.files.keys() | after.files.keys()):
        old, new = before.files.get(name), after.files.get(name)
        if new is None:
            print(f"{name}: gone")
        elif name.endswith(".sym"):
            show_symbol(name, who, old, new)
        else:
            show_sheet(name, who, old, new)
    show_reports(before, after)
    texts = [{name: getattr(it, "text", it) for name, it in look.files.items()}
             for look in (before, after)]
    return int(texts[0] != texts[1])
