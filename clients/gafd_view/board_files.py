"""The files of a board: the sheets that are asked for, the sheets below them, and their symbols, in
the order in which `gafd` reads them (docs/RULES.md, "The project of the files").

They are brought together as links in a folder of this program's own, in which `gafd` runs: so
symbols of libraries are found too, and nothing is written beside the sheets.
"""
import concurrent.futures
import os
import pathlib
import re
import shutil
import subprocess
import tempfile
from typing import NamedTuple

from sheet_text import read_objects

NAME = re.compile(r"(?!\.)[A-Za-z0-9_+.-]{1,100}")
LONGEST = 120
AT_ONCE = 4


class Library(NamedTuple):
    """A folder of symbols, and what their paths there are like."""

    folder: str
    pattern: str = "*.sym"

    def paths(self):
        files = pathlib.Path(self.folder).resolve().glob(self.pattern)
        return (it for it in files if it.is_file())


def below(folder):
    """The symbols of a folder, and of all folders below it."""
    return Library(folder, "**/*.sym")


class File(NamedTuple):
    """A sheet or a symbol as it was last read. Of one that is refused now, `text` and `objects` are
    those of before, and `refusal` is the line that tells why."""

    stamp: tuple
    text: str
    objects: list
    refusal: str


class BoardFiles:
    """The files of a board. `sheets` has the names of its sheets in order, `symbols` those of its
    symbols."""

    def __init__(self, folder, names, libraries, run):
        self.folder, self.names, self.run = pathlib.Path(folder).resolve(), names, run
        self.libraries, self.library = libraries, None
        self.room = pathlib.Path(tempfile.mkdtemp(prefix="gafd_view_"))
        # What the program finds is in the room: folders of symbols lead on from elsewhere.
        self.environment = {it: os.environ[it] for it in os.environ if it != "GAFD_SYMBOLS"}
        self.files, self.stamps = {}, None
        self.sheets, self.symbols = [], []

    def close(self):
        shutil.rmtree(self.room, ignore_errors=True)

    def look(self):
        """Whether what stands in the files is another than when they were looked at last."""
        stamps = self.stamps_now()
        if stamps == self.stamps:
            return False
        before = self.contents()
        self.stamps = stamps
        self.gather()
        return self.contents() != before

    def stamps_now(self):
        """What tells that a file changed, for each file of the folder that may be of the board."""
        found = {}
        for path in self.folder.iterdir():
            if path.suffix in (".sch", ".sym") and NAME.fullmatch(path.name) and path.is_file():
                found[path.name] = stamp_of(path)
        return found

    def contents(self):
        return [(it, self.files[it].text, self.files[it].refusal) for it in self.sheets
                + self.symbols]

    def gather(self):
        """Reads what changed, sheet after sheet: each one may name further sheets and symbols."""
        asked = self.names or sorted(it for it in self.stamps if it.endswith(".sch"))
        queue, symbols = [], {}
        todo = [it for it in asked if it in self.stamps]
        while todo:
            queue += todo
            self.read_all({it: self.folder / it for it in todo})
            components = [one for it in todo for one in self.files[it].objects if one.letter == "C"]
            named = {it.basename: self.symbol_path(it.basename) for it in components
                     if it.basename not in symbols}
            symbols.update({name: path for name, path in named.items() if path})
            self.read_all({name: path for name, path in named.items() if path})
            below = dict.fromkeys(it for one in components for it in self.sources(one))
            todo = [it for it in below if it in self.stamps and it not in queue]
        self.sheets, self.symbols = queue, sorted(symbols)
        self.files = {it: self.files[it] for it in queue + self.symbols}

    def sources(self, component):
        """The values of `source` of a component, attached or inherited."""
        own = component.values("source")
        if own or component.basename not in self.files:
            return own
        symbol = self.files[component.basename].objects
        return [value for it in symbol if it.letter == "T" for value in it.values("source")]

    def symbol_path(self, basename):
        """Where the file of a symbol lies: beside the sheets, else in the first library that has it."""
        if not NAME.fullmatch(basename) or basename.startswith("EMBEDDED"):
            return None
        if (self.folder / basename).is_file():
            return self.folder / basename
        if self.library is None:
            paths = [it for one in reversed(self.libraries) for it in one.paths()]
            self.library = {it.name: it for it in paths}
        return self.library.get(basename)

    def read_all(self, paths):
        """Reads files that changed, each by a call of `gafd export`, a few at once."""
        changed = {}
        for name, path in paths.items():
            stamp = stamp_of(path)
            if name not in self.files or self.files[name].stamp != stamp:
                changed[name] = stamp
            link = self.room / name
            if not link.is_symlink() or link.readlink() != path:
                link.unlink(missing_ok=True)
                link.symlink_to(path)
        with concurrent.futures.ThreadPoolExecutor(AT_ONCE) as pool:
            for name, file in zip(changed, pool.map(self.read, changed, changed.values())):
                self.files[name] = file

    def read(self, name, stamp):
        status, text, refusal = self.call("export", "--", name)
        if status == 0:
            return File(stamp, text, read_objects(text), "")
        before = self.files.get(name, File(stamp, "v 20130925 2\n", [], ""))
        return before._replace(stamp=stamp, refusal=refusal)

    def call(self, *words):
        """The status of a call of `gafd`, what it printed, and the line on what went wrong."""
        try:
            done = subprocess.run([self.run, *words], cwd=self.room, env=self.environment,
                                  capture_output=True, timeout=LONGEST)
        except (OSError, subprocess.TimeoutExpired) as error:
            return 71, "", f"gafd: {error}"
        refusal = done.stderr.decode(errors="replace").strip()
        return done.returncode, done.stdout.decode(errors="replace"), refusal


def stamp_of(path):
    try:
        told = path.stat()
        return told.st_ino, told.st_size, told.st_mtime_ns
    except OSError:
        return ()
