"""A board as it was: of the rows of a store, or as a `gafd_view` shows it."""
import contextlib
import json
import os
import pathlib
import select
import shutil
import socket
import subprocess
import tempfile
from typing import NamedTuple

from .folder import GAFRC, put
from .rows import Rows, row_name
from .server import Server, in_order
from .words import Stop

LONGEST_START = 120


class Board(NamedTuple):
    """A board at one moment: its sheets, and the texts of its symbols, both by name."""

    sheets: dict
    symbols: dict

    def names(self):
        return set(self.sheets)

    def objects(self):
        """The sheet and the text of each object, by id."""
        stands = self.sheets.items()
        return {key: (name, it) for name, stand in stands for key, it in stand.objects.items()}


def at(asked, server, folder):
    """Writes the board as it was after so many edits into an empty folder."""
    place = pathlib.Path(asked.folder)
    if place.exists() and any(place.iterdir()):
        raise Stop(f"{place} is not empty: take another folder")
    if asked.store:
        board = board_behind(Rows(asked.store), asked.edits)
    else:
        board = board_of(asked.view.server_at(asked.edits))
    place.mkdir(parents=True, exist_ok=True)
    for name in in_order(board.sheets):
        stand = board.sheets[name]
        put(place / name, stand.text)
        print(f"{name}: written, {len(stand.objects)} objects, as after {asked.edits} edits")
    for name, text in sorted(board.symbols.items()):
        put(place / name, text)
        print(f"{name}: written")
    put(place / "gafrc", GAFRC)
    return 0


def board_behind(rows, count):
    """The board that the first rows of a store make."""
    if count > rows.count or any(missing < count for missing in rows.missing):
        raise Stop(f"{rows.store} has no {count} rows, or lacks one of them")
    with tempfile.TemporaryDirectory() as room:
        copy_rows(rows, range(count), room)
        return board_of_store(room)


def boards_around(store, serial):
    """The board before an edit and behind it, as the program makes it of the rows."""
    rows = Rows(store)
    if serial >= rows.count or any(missing <= serial for missing in rows.missing):
        raise Stop(f"{store} has no row {serial}, or lacks one before it")
    named = json.loads(rows.data(serial))["edit"].get("name", "")
    with tempfile.TemporaryDirectory() as room:
        copy_rows(rows, range(serial), room)
        before = board_of_store(room, named)
        copy_rows(rows, [serial], room)
        return before, board_of_store(room, named)


def copy_rows(rows, serials, room):
    for serial in serials:
        shutil.copy(rows.path(serial), pathlib.Path(room, row_name(serial)))


def program():
    found = os.environ.get("GAFD") or shutil.which("gafd")
    if not found:
        raise Stop("there is no `gafd` on the PATH, and GAFD names none")
    return found


@contextlib.contextmanager
def served(store, session):
    """A server over a store, as a session sees it. It is started for it, and ended."""
    with contextlib.closing(socket.socket()) as probe:
        probe.bind(("127.0.0.1", 0))
        address = f"127.0.0.1:{probe.getsockname()[1]}"
    words = [program(), "serve", address, store]
    process = subprocess.Popen(words, stdout=subprocess.PIPE, stderr=subprocess.STDOUT)
    try:
        ready, _, _ = select.select([process.stdout], [], [], LONGEST_START)
        said = process.stdout.readline() if ready else b"no answer"
        if said != b"serving\n":
            raise Stop(f"{' '.join(words)}: {said.decode(errors='replace').strip()}")
        server = Server(address, session)
        with contextlib.closing(server.link):
            yield server
    finally:
        process.kill()
        process.wait()
        process.stdout.close()


def board_of_store(store, named=""):
    """The board that a store has, and one symbol more."""
    with served(store, "reader") as server:
        return board_of(server, named)


def board_of(server, named=""):
    """The board that a server has: its sheets with the symbols that they name, and one more."""
    with contextlib.closing(server.link):
        stands = server.all_sheets()
        return Board(stands, server.symbol_texts(stands, named))
