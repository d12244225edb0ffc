"""A board as it was: a server of its own, over the first rows of the store."""
import atexit
import pathlib
import select
import shutil
import subprocess
import tempfile
import threading

from gafd_program import free_port
from served_board import ServedBoard, fault

MOST_BOARDS = 2
STARTING = 60


class PastBoards:
    """Boards of earlier fronts, of which the last two that were asked for stay."""

    def __init__(self, store, run):
        self.store, self.run = pathlib.Path(store).resolve(), run
        self.lock, self.boards = threading.Lock(), {}
        atexit.register(self.close)

    def ask(self, front, path):
        """The answer to a GET after so many edits; OSError where there are not so many."""
        if self.run is None:
            return fault(501, "NoProgram")
        with self.lock:
            board = self.boards.pop(front, None) or PastBoard(self.store, front, self.run)
            self.boards[front] = board
            while len(self.boards) > MOST_BOARDS:
                self.boards.pop(next(iter(self.boards))).close()
        return board.ask("GET", path)

    def close(self):
        with self.lock:
            for board in self.boards.values():
                board.close()
            self.boards.clear()


class PastBoard(ServedBoard):
    """A server over links to the first rows, which it does not change: nobody sends it edits."""

    def __init__(self, store, front, run):
        self.folder = tempfile.mkdtemp(prefix="gafd_view_")
        self.process = None
        try:
            for serial in range(front):
                row = store / f"{serial:010}.json"
                row.stat()
                (pathlib.Path(self.folder) / row.name).symlink_to(row)
            address = f"127.0.0.1:{free_port()}"
            self.start([run, "serve", address, self.folder])
        except OSError:
            self.close()
            raise
        super().__init__("http://" + address)

    def start(self, words):
        self.process = subprocess.Popen(words, stdout=subprocess.PIPE, stderr=subprocess.DEVNULL)
        ready, _, _ = select.select([self.process.stdout], [], [], STARTING)
        if not ready or self.process.stdout.readline() != b"serving\n":
            raise OSError("the board as it was cannot be served")

    def close(self):
        if self.process:
            self.process.kill()
            self.process.wait()
            self.process.stdout.close()
        shutil.rmtree(self.folder, ignore_errors=True)
