#!/usr/bin/env python3
"""gafd_view: a page on which a laboratory looks at its board.

  gafd_view [--port N] [--symbols FOLDER]... FOLDER
  gafd_view [--port N] [--symbols FOLDER]... FILE...
  gafd_view [--port N] [--store FOLDER] [--look] [--host NAME]... SERVER
  gafd_view --pdf FILE [--symbols FOLDER]... SERVER|FOLDER|FILE...
  gafd_view [--reviews FOLDER] [--boards URL] ...

It prints the address of the page, and serves it on the loopback alone. Of a FOLDER it shows all
sheets as one board, of FILEs these and the sheets below them; it looks again when a file changes.
Symbols that do not lie beside the sheets are looked for below the folders that --symbols names, then
in those of GAFD_SYMBOLS, as `gafd` does, and below those of lepton-eda and gEDA.

Of a SERVER, as http://127.0.0.1:8080 or unix:/run/gafd/amp.socket, it shows what that keeps, and
hands edits on. --store names the server's store where it can be read here; then the page has the
history, and who did what is told to others too. --look hands on no edits. --host is one more name
under which the page is called, as behind a proxy.

--reviews names the folder in which `gafd_sync` keeps the proposals and notes of the board; they are
shown beside it, and a proposal's board beside the board now where the store is named too. Findings
that are meant are accepted on the page, and kept there in the file `accepted`.

--boards is the address of a list of boards, as `gafd-boards page` makes one, to which the page has a
link: https://lab.example/boards.html, or /boards.html where one server has both.

--pdf writes all sheets of any of these into FILE, a page each, and serves nothing. It wants Chromium
or Firefox.

Nobody is asked who they are: let people in by ssh or by nginx. The program is that which GAFD
names, else `gafd` on the PATH, else that beside this one.
"""
import argparse
import os
import pathlib
import re
import signal
import sys
import threading

from board_files import Library, below
from folder_board import FolderBoard
from gafd_program import program
from history import History
from past_boards import PastBoards
from printing import NoPdf, pdf_of
from served_board import ServedBoard
from web import View

# gafd_program put the client on the path.
from board_reviews import BoardReviews
from gafd_sync.version import version
from gafd_sync.words import Stop

SYSTEM = ["/usr/share/lepton-eda/sym", "/usr/share/gEDA/sym", "/usr/local/share/lepton-eda/sym"]


def an_address(word):
    if not re.fullmatch(r"(https?:/)?/[!-~]*", word):
        raise argparse.ArgumentTypeError(f"{word} is no address, as https://lab.example/ is one")
    return word


def arguments():
    parser = argparse.ArgumentParser(prog="gafd_view", description=__doc__.split("\n")[0])
    parser.add_argument("--version", action="version", version=f"gafd_view {version()}")
    parser.add_argument("--port", type=int, default=8090, help="of the page; 0 takes a free one")
    parser.add_argument("--symbols", action="append", default=[], metavar="FOLDER",
                        help="where symbols are looked for that do not lie beside the sheets")
    parser.add_argument("--store", metavar="FOLDER",
                        help="the store of the server, for the history")
    parser.add_argument("--reviews", metavar="FOLDER",
                        help="the proposals and notes of the board")
    parser.add_argument("--boards", type=an_address, metavar="URL",
                        help="a list of boards, to which the page has a link")
    parser.add_argument("--look", action="store_true", help="hands on no edits")
    parser.add_argument("--host", action="append", default=[], metavar="NAME",
                        help="one more name under which the page is called")
    parser.add_argument("--pdf", metavar="FILE", help="writes all sheets into it, and ends")
    parser.add_argument("shown", nargs="+", metavar="SERVER|FOLDER|FILE")
    return parser.parse_args()


def sheets_of(shown):
    """The folder, and the names of the sheets that are asked for: none for all of a folder."""
    paths = [pathlib.Path(it) for it in shown]
    missing = next((it for it in paths if not it.exists()), None)
    if missing:
        sys.exit(f"gafd_view: {missing}: missing")
    if len(paths) == 1 and paths[0].is_dir():
        return paths[0], []
    folders = {it.parent.resolve() for it in paths}
    if len(folders) > 1 or not all(it.is_file() for it in paths):
        sys.exit("gafd_view: name one folder, or sheets of one folder")
    return folders.pop(), [it.name for it in paths]


def reviews_of(asked, url=None):
    """The reviews that are asked for, or None. It is the client that reads them."""
    if asked.reviews is None:
        return None
    return BoardReviews(asked.reviews, url, asked.store, program(), asked.look)


def folder_view(asked):
    folder, names = sheets_of(asked.shown)
    run = program()
    if run is None:
        sys.exit("gafd_view: there is no gafd: have it on the PATH, or name it by GAFD")
    named = filter(None, os.environ.get("GAFD_SYMBOLS", "").split(":"))
    libraries = [*map(below, asked.symbols), *map(Library, named), *map(below, SYSTEM)]
    board = FolderBoard(folder, names, libraries, run)
    return View(asked.port, board, reviews=reviews_of(asked), is_look=True, hosts=asked.host,
                boards=asked.boards)


def server_view(asked):
    if len(asked.shown) > 1:
        sys.exit("gafd_view: name one server")
    history = past = None
    if asked.store and not os.access(asked.store, os.R_OK | os.X_OK):
        sys.exit(f"gafd_view: {asked.store}: no store that can be read")
    if asked.store:
        history, past = History(asked.store), PastBoards(asked.store, program())
    board = ServedBoard(asked.shown[0])
    reviews = reviews_of(asked, asked.shown[0])
    return View(asked.port, board, history, past, reviews, is_look=asked.look, hosts=asked.host,
                boards=asked.boards)


def write_pdf(view, path):
    """Writes the sheets of a board as a PDF."""
    thread = threading.Thread(target=view.serve_forever)
    thread.start()
    try:
        data, sheets = pdf_of(f"http://127.0.0.1:{view.server_port}/print.html")
        pathlib.Path(path).write_bytes(data)
    except NoPdf as error:
        sys.exit(f"gafd_view: {error}")
    except OSError as error:
        sys.exit(f"gafd_view: {path}: {error.strerror}")
    finally:
        view.shutdown()
        thread.join()
    print(f"{path}: {sheets} sheets")


def main():
    asked = arguments()
    if asked.pdf:
        asked.port = 0
    is_server = not any(pathlib.Path(it).exists() for it in asked.shown) and ":" in asked.shown[0]
    try:
        view = (server_view if is_server else folder_view)(asked)
    except Stop as stop:
        sys.exit(f"gafd_view: {stop}")
    except OSError as error:
        sys.exit(f"gafd_view: 127.0.0.1:{asked.port}: {error.strerror}")
    if asked.pdf:
        try:
            return write_pdf(view, asked.pdf)
        finally:
            view.close()
    # What a handler raises is lost where it comes amid another callback, so this one raises nothing.
    signal.signal(signal.SIGTERM, lambda *_: threading.Thread(target=view.shutdown).start())
    print(f"http://127.0.0.1:{view.server_port}/", flush=True)
    try:
        view.serve_forever()
    except KeyboardInterrupt:
        pass
    finally:
        view.close()
    return None


if __name__ == "__main__":
    main()
