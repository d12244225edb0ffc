"""A laboratory for tests: a server of its own on a free port, and folders of two engineers."""
import contextlib
import io
import os
import pathlib
import sys
import tempfile
import unittest
from unittest import mock

from gafd_sync.arguments import main
from gafd_sync.server import Server
from gafd_sync.sheets import sheet_of
from served import TOP, Served

SHEET = TOP / "examples/preamp.sch"
WIRE = "N 100 100 900 100 4\n"
# What a test keeps need not outlive the machine.
MEMORY = "/dev/shm" if os.access("/dev/shm", os.W_OK) else None


def asked(folder, *words):
    """What a call of the client prints in a folder, and its status."""
    said, here = io.StringIO(), os.getcwd()
    os.chdir(folder)
    try:
        with mock.patch.object(sys, "argv", ["gafd_sync", *words]):
            with contextlib.redirect_stdout(said), contextlib.redirect_stderr(said):
                status = main()
    except SystemExit as end:
        status = end.code
    finally:
        os.chdir(here)
    return status, said.getvalue()


class Engineer:
    """A folder, and who works in it."""

    def __init__(self, room, name, server):
        self.folder, self.name, self.server = pathlib.Path(room, name), name, server
        self.folder.mkdir()

    def __call__(self, *words):
        return asked(self.folder, "--server", self.server.url, "--session", self.name, *words)

    def path(self, name="preamp.sch"):
        return self.folder / name

    def draws(self, old, new, name="preamp.sch"):
        """Changes one place of a file, as a drawing program does when it saves."""
        text = self.path(name).read_text(encoding="utf-8")
        assert text.count(old) == 1, (old, text.count(old))
        self.path(name).write_text(text.replace(old, new), encoding="utf-8")

    def objects(self, name="preamp.sch"):
        """The objects of a file, in whatever order."""
        return sorted(sheet_of(name, self.path(name).read_text(encoding="utf-8")).texts)


class Laboratory(unittest.TestCase):
    def setUp(self):
        room = tempfile.TemporaryDirectory(dir=MEMORY)
        self.addCleanup(room.cleanup)
        self.room = pathlib.Path(room.name)
        self.server = self.served("store")
        self.ann, self.bob = (Engineer(room.name, name, self.server) for name in ("ann", "bob"))
        for path in (SHEET, *(TOP / "examples").glob("*.sym")):
            (self.ann.folder / path.name).write_bytes(path.read_bytes())

    def served(self, store):
        server = Served(self.room / store)
        self.addCleanup(server.__exit__)
        return server

    def both_start(self):
        """The sheet is on the server, and both have it."""
        self.assertEqual(self.ann("push", "preamp.sch")[0], 0)
        self.assertEqual(self.bob("pull")[0], 0)

    def answer(self, path, url=None):
        return self.asked_server(lambda server: server.get(path).text, url)

    def asked_server(self, call, url=None):
        server = Server(url or self.server.url, "test")
        with contextlib.closing(server.link):
            return call(server)

    def kinds(self, said):
        """The edits of a push, as it printed them."""
        lines = (line.split() for line in said.splitlines())
        return [words[2] for words in lines if len(words) > 2 and words[1].isdigit()]

    def rows(self):
        return len(list(pathlib.Path(self.server.store).glob("*.json")))
