"""Boards and pages for the tests: a server with its store, who edits, and what is tested."""
import http.client
import json
import pathlib
import select
import shutil
import subprocess
import sys
import tempfile
import unittest

sys.dont_write_bytecode = True
HERE = pathlib.Path(__file__).resolve().parent
sys.path[:0] = [str(HERE.parent), str(HERE.parent.parent)]

import served
from sheet_text import read_objects

EXAMPLES = served.TOP / "examples"
STEREO = ["cap.sym", "channel.sym", "conn6.sym", "gnd.sym", "minus12.sym", "plus12.sym", "port.sym",
          "res.sym", "title.sym", "tl072.sym", "channel.sch", "stereo.sch"]
PATIENCE = 240
# The longest that all tests of one file may take, in seconds.
LONGEST = 3600


def ask(address, method, path, body=None, headers=None):
    """The status, the text and the headers of an answer."""
    link = http.client.HTTPConnection(address, timeout=PATIENCE)
    try:
        link.request(method, path, body, headers or {})
        answer = link.getresponse()
        return answer.status, answer.read().decode(), answer.headers
    finally:
        link.close()


class Writer:
    """A session that edits without a page."""

    def __init__(self, address, session):
        self.address, self.session, self.number = address, session, 0

    def edit(self, **edit):
        """One edit on the newest front, which has to be taken. Its serial is told."""
        self.number += 1
        entry = {"session": self.session, "number": self.number, "base": self.front(), "edit": edit}
        status, text, _ = ask(self.address, "POST", "/edits", json.dumps(entry))
        assert status == 200, text
        return json.loads(text)["serial"]

    def front(self):
        return json.loads(ask(self.address, "GET", "/sheets?min=4294967295")[1])["front"]

    def sheet(self, name):
        return ask(self.address, "GET", "/sheets/" + name)[1]

    def ids(self, name):
        lines = ask(self.address, "GET", "/objects/" + name)[1].splitlines()
        return [int(it.split()[0]) for it in lines]

    def add(self, path, text=None):
        kind = "add_symbol" if path.suffix == ".sym" else "add_sheet"
        self.edit(kind=kind, name=path.name, text=text or path.read_text())

    def objects(self, name):
        return read_objects(self.sheet(name))

    def id_of(self, name, refdes):
        """The id of the component of a sheet that has this refdes."""
        objects = zip(self.ids(name), self.objects(name))
        return next(number for number, it in objects if it.letter == "C"
                    and refdes in it.values("refdes"))


class Viewed:
    """The program that is tested, as a process; `url` is the address of its page."""

    def __init__(self, *words):
        command = [sys.executable, str(HERE.parent), "--port", "0", *map(str, words)]
        self.process = subprocess.Popen(command, stdout=subprocess.PIPE, text=True)
        served.ENDS.append(self.process.kill)
        ready, _, _ = select.select([self.process.stdout], [], [], PATIENCE)
        self.url = self.process.stdout.readline().strip() if ready else ""
        assert self.url.startswith("http://"), self.url

    @property
    def address(self):
        return self.url[len("http://"):].rstrip("/")

    def ask(self, path):
        return ask(self.address, "GET", path)

    def stop(self):
        self.process.terminate()
        self.process.wait(PATIENCE)
        self.process.stdout.close()


class Case(unittest.TestCase):
    """A server with files in its store, and the program over it."""

    files = STEREO
    words = []

    def setUp(self):
        self.folder = pathlib.Path(tempfile.mkdtemp())
        self.addCleanup(shutil.rmtree, self.folder, True)
        self.store = self.folder / "store"
        self.server = served.Served(self.store)
        self.addCleanup(self.server.stop)
        self.ann = Writer(self.server.address, "setup")
        for name in self.files:
            self.ann.add(EXAMPLES / name)
        self.view = self.viewed("--store", self.store, *self.words, self.server.url)

    def viewed(self, *words):
        view = Viewed(*words)
        self.addCleanup(view.stop)
        return view

    def bob(self):
        return Writer(self.server.address, "bob")


class FolderCase(unittest.TestCase):
    """A folder with files of the examples."""

    files = STEREO

    def setUp(self):
        self.folder = pathlib.Path(tempfile.mkdtemp())
        self.addCleanup(shutil.rmtree, self.folder, True)
        for name in self.files:
            shutil.copy(EXAMPLES / name, self.folder)

    def viewed(self, *words):
        view = Viewed(*words)
        self.addCleanup(view.stop)
        return view
