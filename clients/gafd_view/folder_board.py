"""A board of files: sheets of a folder, with what `gafd netlist` and `gafd drc` say of them.

It answers what a server answers, with a front that rises each time a file changed. Ids stay with
the objects as far as these can be known again.
"""
import collections
import threading
import time

from board_files import BoardFiles
from served_board import Answer, fault

EVERY = 0.3
REPORTS = {"netlist/list": ["netlist"], "netlist/bom": ["netlist", "--form", "bom"], "drc": ["drc"]}
ERRORS_FOUND = 7


class FolderBoard:
    """The board of some sheets of a folder, or of all of them where none is named."""

    kind = "folder"

    def __init__(self, folder, names, libraries, run):
        self.files = BoardFiles(folder, names, libraries, run)
        self.name = " ".join(names) or self.files.folder.name
        self.lock, self.looked = threading.RLock(), 0.0
        self.number, self.ids, self.reports, self.newest = 0, Ids(), {}, {}

    def close(self):
        self.files.close()

    def front(self):
        """How often the files changed since the program began."""
        with self.lock:
            self.look()
            return self.number

    def look(self):
        if time.monotonic() - self.looked < EVERY:
            return
        before = dict(self.files.files)
        if self.files.look():
            self.number, self.reports = self.number + 1, {}
            for name, file in self.files.files.items():
                if before.get(name) != file:
                    self.newest[name] = self.number
            for name in self.files.sheets:
                self.ids.update(name, self.files.files[name].objects)
        self.looked = time.monotonic()

    def changed(self, front):
        """The names of the sheets and of the symbols that changed after a front."""
        with self.lock:
            names = {it for it, newest in self.newest.items() if newest > front}
            return names.intersection(self.files.sheets), names.difference(self.files.sheets)

    def ask(self, _method, path, _body=None):
        """The answer to a GET of one of a server's routes."""
        path = path.partition("?")[0]
        kind, _, name = path.partition("/")
        with self.lock:
            self.look()
            if path == "sheets":
                rows = [f"{it} {len(self.files.files[it].objects)}\n"
                        for it in sorted(self.files.sheets)]
                return self.text("".join(rows))
            if kind in ("sheets", "objects", "symbols"):
                return self.file_answer(kind, name)
            if path not in self.reports:
                self.reports[path] = self.report(path)
            return self.reports[path]

    def text(self, body):
        return Answer(200, self.number, body.encode())

    def file_answer(self, kind, name):
        is_symbol = kind == "symbols"
        if name not in (self.files.symbols if is_symbol else self.files.sheets):
            return fault(404, "NoSymbol" if is_symbol else "NoSheet", self.number)
        file = self.files.files[name]
        if file.refusal and kind != "objects":
            return fault(422, "Refused", self.number, line=file.refusal)
        if kind == "objects":
            rows = [f"{number} {it.letter}\n" for number,
                    it in zip(self.ids.of[name], file.objects)]
            return self.text("".join(rows))
        return self.text(file.text)

    def report(self, path):
        if path not in REPORTS:
            return fault(404, "NoRoute", self.number)
        if not self.files.sheets:
            return self.text({"netlist/list": "parts 0\nnets 0\n", "drc": "findings 0\n"}.get(path,
                                                                                              ""))
        status, text, refusal = self.files.call(*REPORTS[path], "--", *self.files.sheets)
        if status not in (0, ERRORS_FOUND):
            return fault(422, "Refused", self.number, line=refusal)
        return self.text(self.with_ids(text) if path == "drc" else text)

    def with_ids(self, report):
        """A report in which the ids of a call are those of this board."""
        numbers = [it for name in self.files.sheets for it in self.ids.of[name]]
        lines = [it.split(" ") for it in report.split("\n")]
        for words in lines:
            if words[1:2] in (["NoRefdes"], ["BadNet"]):
                words[3] = str(numbers[int(words[3])])
        return "\n".join(" ".join(it) for it in lines)


class Ids:
    """The ids of the objects of each sheet.

    An object that stands as it was keeps its id, and so does one that changed, and is known again
    by its letter and its name or place.
    """

    def __init__(self):
        self.next, self.of, self.objects = 0, {}, {}

    def update(self, sheet, objects):
        """Gives ids to the objects of a sheet as they stand now."""
        before = list(zip(self.of.get(sheet, []), self.objects.get(sheet, [])))
        ids = [None] * len(objects)
        for key in (lambda it: it.text, known_by):
            left = collections.defaultdict(collections.deque)
            for number, one in before:
                left[key(one)].append(number)
            for place, one in enumerate(objects):
                if ids[place] is None and left[key(one)]:
                    ids[place] = left[key(one)].popleft()
            kept = set(ids)
            before = [it for it in before if it[0] not in kept]
        for place, number in enumerate(ids):
            if number is None:
                ids[place], self.next = self.next, self.next + 1
        self.of[sheet], self.objects[sheet] = ids, objects


def known_by(one):
    """What a changed object is known by: its refdes or netname, else where it begins."""
    names = one.values("refdes") or one.values("netname")
    return one.letter, names[0] if names else tuple(one.text.split("\n")[0].split(" ")[1:3])
