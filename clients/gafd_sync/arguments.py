"""The arguments of a call, and its status."""
import argparse
import contextlib
import getpass
import os
import re
import sys
from typing import Callable, NamedTuple

from .accepting import accept, withdraw
from .addresses import Address
from .boards import at
from .commands import copy, diff, ids, renumber, sheets
from .comparing import compare
from .folder import Folder
from .notes import note, notes, resolve
from .proposals import proposals, propose
from .pulls import pull
from .pushes import push
from .revert import revert
from .reviewing import review
from .reviews import Reviews, a_place
from .server import Server
from .store import backup, check, history
from .tables import fill, table
from .undo import undo
from .version import version
from .view import View
from .words import NAME, Printed, Refused, Stop, told

USAGE = """\
gafd_sync: a folder of sheets beside a `gafd serve`, for who draws in lepton-schematic.

It is called in the folder of the sheets. A FILE is a sheet or a symbol there, without a path; a
symbol's name ends in .sym.

  pull [FILE...]        writes the files, or all sheets of the server, with the symbols that they
                        name. What you drew since stays: it is put together with what others
                        changed, object by object. Where both changed one object, or one symbol,
                        nothing is written, and --mine or --theirs says whose stands, and prints
                        each object of the other side that goes; --over takes all as the server has
                        it. A symbol that is a link becomes a file: what the link leads to is never
                        written. Where there is no gafrc one is written, so that lepton finds the
                        symbols; --lepton writes a lepton.conf likewise
  push FILE...          sends what you changed, as the fewest edits, one after the other, and prints
                        each. What moved or turned as one goes as one. A sheet that the server does
                        not have is added. The symbols of a sheet go with it, also from the folders
                        of GAFD_SYMBOLS. Where others changed what you changed, nothing is sent,
                        and both changes are shown. --over makes the server's file as yours is,
                        whatever others changed; --copy adds a sheet that has what another one has
  diff [FILE...]        prints what `push` would send, and what `pull` would bring
  undo [N]              takes back the last push from this folder that stands, or the last N. A file
                        that nobody drew on since comes along
  revert STORE SERIAL   sends the contrary of anybody's edit. STORE is that of the server, or a copy
                        of it; it calls `gafd`, or the program that GAFD names
  renumber              gives each `R?` on the server a number; `pull` brings them
  table [SHEET...]      prints the attributes of the components of the sheets, or of all, as a table
                        for a spreadsheet, with a column for the sheet. It calls `gafd`, as `fill`
  fill [SHEET] TABLE    sends what was changed in the last table of this folder, an edit for each
                        component. TABLE may have a path, and commas, semicolons or tabs. An empty
                        cell changes nothing. Where others changed a component since, nothing is
                        sent, and they are told by refdes; so it is with cells that a spreadsheet
                        spelled anew, as 603 for 0603, but with --all
  sheets                prints the names of the server's sheets, in the order in which they came
  ids FILE              prints the ids of a sheet's objects, each with what it is
  at N FOLDER           writes the board as it was after N edits into an empty FOLDER: from the
                        gafd_view that --view names, or with --store STORE from a store or a copy,
                        for which it calls `gafd`. It asks no server
  compare N M           prints in what the boards after N and after M edits differ, over all sheets:
                        objects, symbols, nets and findings; from the gafd_view that --view names,
                        or with --store STORE, as `at`. Status 1 where they differ
  copy URL              puts all sheets and their symbols into the empty server at URL, and compares
                        the netlists of both
  history STORE [ID...] prints the edits of a store, or of a copy, a line each; with IDs those that
                        may have changed one of these objects. It asks no server
  backup STORE FOLDER   copies the rows that FOLDER does not have yet, in their order, also while
                        the store is served. It asks no server
  check STORE           whether the rows of a store are whole and without a gap, and whether this
                        user may go on with it. It asks no server
  propose NAME [FILE...] [-m MESSAGE]
                        keeps what `push` would send of the files, or of all that were pulled, for
                        another to look at; nothing is sent
  proposals             lists the proposals of the board, each open, stale, accepted or withdrawn. A
                        stale one changes what others changed since
  review NAME           prints what a proposal changes on sheets, and in what the nets and the check
                        differ with it: by the gafd_view that --view names, or with --store STORE of
                        the store or a copy, for which it calls `gafd`. What is stale is shown as it
                        was meant
  accept NAME           sends a proposal as edits of yours, all of them or none
  withdraw NAME         ends a proposal that is not to be accepted
  note AT TEXT          keeps a note at a part, a net or a sheet: part:R1, net:GND, sheet:amp.sch
  notes                 lists the notes that are open, and with --all those that are resolved too
  resolve NUMBER        ends a note

`--server URL` names the server, as http://127.0.0.1:8080, https://lab.example/amp, or
unix:/run/gafd/amp.socket for its socket; else GAFD_SERVER does, else the folder remembers the last
one. A password is taken from ~/.netrc.
`--version` prints the version.
`--view URL`, else GAFD_VIEW, else the last one that the folder remembers, is a gafd_view of the
same board: with it lines tell who changed what, "changed by bob, edit 12" in place of "changed by
others". An empty URL is none.
`--reviews FOLDER`, else GAFD_REVIEWS, else the last one that the folder remembers, is where the
proposals and notes of the board lie: one for all who look at it.
`--session NAME`, else GAFD_SESSION, is who you are to the server; else it is your name in ~/.netrc,
else your login name.

Status 0: done. 1: something is left to you, and is printed. 2: wrong arguments. 3: the server does
not answer, or answers what it should not.

What you started from stands in the folder .gafd_sync: for each sheet the ids and the texts of the
objects that your file was made from, for each symbol its text. `push` takes as base the length of
the history at which it has just read the sheet, and only after it saw that each object that it will
change is there as you got it. So what others changed before that is seen by the texts, and what
they change after it is refused as Stale.
"""


def a_name(word):
    if not NAME.fullmatch(word):
        raise argparse.ArgumentTypeError(f"{word} is no name of a file without a path")
    return word


def a_place_of_note(word):
    if not a_place(word):
        raise argparse.ArgumentTypeError(f"{word} is none of part:R1, net:GND, sheet:amp.sch")
    return word


def a_count(word):
    if not word.isdigit() or int(word) < 1:
        raise argparse.ArgumentTypeError(f"{word} is no number from 1 on")
    return int(word)


def a_number(word):
    if not re.fullmatch("[0-9]{1,6}", word):
        raise argparse.ArgumentTypeError(f"{word} is no number of edits")
    return int(word)


FLAGS: dict[str, dict] = {
    "--mine": {"dest": "taken", "action": "store_const", "const": "mine"},
    "--theirs": {"dest": "taken", "action": "store_const", "const": "theirs"},
    "--over": {"action": "store_true"},
    "--copy": {"action": "store_true"},
    "--lepton": {"action": "store_true"},
    "--all": {"action": "store_true"},
    "--store": {"metavar": "STORE"},
    "-m": {"dest": "message", "metavar": "MESSAGE", "default": ""},
}
WORDS: dict[str, dict] = {
    "FILE": {"dest": "file", "type": a_name},
    "FILE...": {"dest": "files", "type": a_name, "nargs": "+"},
    "[FILE...]": {"dest": "files", "type": a_name, "nargs": "*"},
    "[SHEET]": {"dest": "sheet", "type": a_name, "nargs": "?"},
    "TABLE": {"dest": "table"},
    "NAME": {"dest": "name", "type": a_name},
    "AT": {"dest": "at", "type": a_place_of_note},
    "TEXT": {"dest": "text"},
    "NUMBER": {"dest": "count", "type": a_count},
    "N": {"dest": "edits", "type": a_number},
    "M": {"dest": "later", "type": a_number},
    "[N]": {"dest": "count", "type": a_count, "nargs": "?", "default": 1},
    "[ID...]": {"dest": "ids", "type": int, "nargs": "*"},
    "SERIAL": {"dest": "serial", "type": int},
    "STORE": {"dest": "store"},
    "FOLDER": {"dest": "folder"},
    "URL": {"dest": "url"},
}


class Command(NamedTuple):
    """What a command calls, its flags, of which those of one text exclude each other, its words,
    whether it asks a server, and whether it is about the reviews of a board."""

    call: Callable
    flags: list
    words: list
    asks_server: bool = True
    is_review: bool = False


COMMANDS = {
    "pull": Command(pull, ["--mine --theirs --over", "--lepton"], ["[FILE...]"]),
    "push": Command(push, ["--over", "--copy"], ["FILE..."]),
    "diff": Command(diff, [], ["[FILE...]"]),
    "undo": Command(undo, [], ["[N]"]),
    "revert": Command(revert, [], ["STORE", "SERIAL"]),
    "renumber": Command(renumber, [], []),
    "table": Command(table, [], ["[FILE...]"]),
    "fill": Command(fill, ["--all"], ["[SHEET]", "TABLE"]),
    "sheets": Command(sheets, [], []),
    "ids": Command(ids, [], ["FILE"]),
    "copy": Command(copy, [], ["URL"]),
    "at": Command(at, ["--store"], ["N", "FOLDER"], False),
    "compare": Command(compare, ["--store"], ["N", "M"], False),
    "history": Command(history, [], ["STORE", "[ID...]"], False),
    "backup": Command(backup, [], ["STORE", "FOLDER"], False),
    "check": Command(check, [], ["STORE"], False),
    "propose": Command(propose, ["-m"], ["NAME", "[FILE...]"], is_review=True),
    "proposals": Command(proposals, [], [], is_review=True),
    "review": Command(review, ["--store"], ["NAME"], False, is_review=True),
    "accept": Command(accept, [], ["NAME"], is_review=True),
    "withdraw": Command(withdraw, [], ["NAME"], False, is_review=True),
    "note": Command(note, [], ["AT", "TEXT"], False, is_review=True),
    "notes": Command(notes, ["--all"], [], False, is_review=True),
    "resolve": Command(resolve, [], ["NUMBER"], False, is_review=True),
}


class Version(argparse.Action):
    def __call__(self, parser, *_):
        print(f"{parser.prog} {version()}")
        parser.exit()


def arguments():
    parser = argparse.ArgumentParser(
        prog="gafd_sync", description=USAGE, formatter_class=argparse.RawDescriptionHelpFormatter,
        usage="gafd_sync [--server URL] [--session NAME] [--view URL] [--reviews FOLDER] COMMAND"
        " ...",
        add_help=False,
    )
    parser.add_argument("--help", "-h", action="help", help=argparse.SUPPRESS)
    parser.add_argument("--version", action=Version, nargs=0, help=argparse.SUPPRESS)
    parser.add_argument("--server", help=argparse.SUPPRESS)
    parser.add_argument("--session", type=a_name, help=argparse.SUPPRESS)
    parser.add_argument("--view", help=argparse.SUPPRESS)
    parser.add_argument("--reviews", help=argparse.SUPPRESS)
    parser.add_argument("command", choices=COMMANDS, metavar="COMMAND", help=argparse.SUPPRESS)
    parser.add_argument("words", nargs=argparse.REMAINDER, help=argparse.SUPPRESS)
    asked = parser.parse_args()
    parser = parser_of(asked.command)
    # Flags may stand between files, but where `--` tells that a name begins with `-`.
    parse = parser.parse_args if "--" in asked.words else parser.parse_intermixed_args
    return parse(asked.words, asked)


def parser_of(name):
    """What reads the words behind a command."""
    command, parser = COMMANDS[name], argparse.ArgumentParser(prog="gafd_sync " + name)
    for flags in command.flags:
        group = parser.add_mutually_exclusive_group()
        for flag in flags.split():
            group.add_argument(flag, **FLAGS[flag])
    for word in command.words:
        parser.add_argument(**WORDS[word], metavar=word.strip("[.]"))
    return parser


def a_session(word):
    """A word as a session may be called."""
    return re.sub(r"[^A-Za-z0-9_+-]", "_", word)[:100] or "nobody"


def login():
    try:
        return getpass.getuser()
    except (OSError, KeyError, ImportError):
        return "nobody"


def session_of(asked, user):
    """Who calls, where a password is a user's."""
    session = asked.session or os.environ.get("GAFD_SESSION") or a_session(user or login())
    if not NAME.fullmatch(session):
        raise Stop(f"{session} is no name of a session", 2)
    return session


def server_of(asked, folder):
    """The server that is asked for, which the folder remembers."""
    url = asked.server or os.environ.get("GAFD_SERVER") or folder.load("server")
    if not url:
        raise Stop("which server? --server URL or GAFD_SERVER names it", 2)
    server = Server(url, None)
    server.view = asked.view
    server.session = session_of(asked, server.user)
    if asked.command == "push" and not asked.over:
        server.front = max([server.front, *map(folder.front, asked.files)])
    return server


def user_of(folder):
    """The user whom ~/.netrc has for the server that the folder remembers, or None."""
    url = folder.load("server")
    return Address(url).password()[0] if url else None


def view_of(asked, folder):
    """The page that is asked for, which the folder remembers, or none."""
    if asked.view is not None:
        return View(asked.view)
    return View(os.environ.get("GAFD_VIEW") or folder.load("view"))


def reviews_of(asked, folder):
    """The reviews that are asked for, which the folder remembers."""
    place = asked.reviews or os.environ.get("GAFD_REVIEWS") or folder.load("reviews")
    if not place:
        raise Stop("which reviews? --reviews FOLDER or GAFD_REVIEWS names them", 2)
    return Reviews(os.path.abspath(place))


def main():
    asked = arguments()
    # A table is a file for a spreadsheet, unless somebody looks at it.
    is_file = asked.command == "table" and not sys.stdout.isatty()
    out = sys.stdout if is_file else Printed(sys.stdout)
    with contextlib.redirect_stdout(out), contextlib.redirect_stderr(Printed(sys.stderr)):
        return status_of(asked)


def status_of(asked):
    """Does what is asked, and says what went wrong."""
    folder, server, view = Folder(), None, None
    command = COMMANDS[asked.command]
    try:
        asked.view = view = view_of(asked, folder)
        server = server_of(asked, folder) if command.asks_server else None
        if command.is_review:
            asked.reviews = reviews_of(asked, folder)
            asked.who = server.session if server else session_of(asked, user_of(folder))
        status = command.call(asked, server, folder)
        if command.is_review:
            folder.keep("reviews", str(asked.reviews.folder))
        if asked.command in ("pull", "push"):
            folder.keep("server", server.url)
            if view.url or folder.load("view"):
                folder.keep("view", view.url or "")
        return status
    except Refused as refused:
        print(f"gafd_sync: {told(refused.fault)}", file=sys.stderr)
        return 3
    except Stop as stop:
        print(f"gafd_sync: {stop}", file=sys.stderr)
        return stop.status
    except OSError as error:
        print(f"gafd_sync: {error}", file=sys.stderr)
        return 3
    except KeyboardInterrupt:
        print("gafd_sync: stopped; the same call goes on from here", file=sys.stderr)
        return 1
    finally:
        # An open connection keeps one of the eight workers.
        if server:
            server.link.close()
        if view:
            view.close()


def run():
    sys.exit(main())
