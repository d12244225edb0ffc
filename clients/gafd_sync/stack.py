"""The pushes from a folder that are not taken back, the last one on top."""
import hashlib
import json

from .folder import put
from .words import Stop

MOST_PUSHES = 100


def mark_of(text):
    """What a text is known by again; None where there is none."""
    return None if text is None else hashlib.sha256(text.encode("utf-8")).hexdigest()[:32]


class Stack:
    """A row for each edit, with the number of its push, a mark of each text that it left, and the
    edit that does the contrary; one where a push begins, with its files; and one where it ends with
    nothing left to send."""

    def __init__(self, folder):
        self.path = folder.known / "push"
        self.number = None

    def rows(self):
        try:
            lines = self.path.read_text(encoding="utf-8").splitlines()
            return [json.loads(line) for line in lines]
        except FileNotFoundError:
            return []
        except ValueError:
            raise Stop(f"{self.path} is damaged: undo by hand, and delete it") from None

    def pushes(self):
        """The rows of each push, the first one first."""
        found = {}
        for row in self.rows():
            found.setdefault(row.get("push", 0), []).append(row)
        return list(found.values())

    def set(self, pushes):
        put(self.path, "".join(json.dumps(row) + "\n" for rows in pushes for row in rows))

    def goes_on(self, files):
        """Whether the last push was broken off, and had one of these files too."""
        last = self.pushes()[-1:]
        asked = {name for rows in last for row in rows for name in row.get("files", [])}
        return bool(asked & set(files)) and not any("end" in row for row in last[0])

    def begin(self, files):
        """A new push, or the last one where this goes on with it."""
        pushes = self.pushes()
        self.number = pushes[-1][0].get("push", 0) if pushes else 0
        if not self.goes_on(files):
            self.number += 1
            if len(pushes) > MOST_PUSHES:
                self.set(pushes[-MOST_PUSHES:])
        self.add({"files": files})

    def add(self, row):
        """Notes something of the push that runs."""
        self.path.parent.mkdir(exist_ok=True)
        with open(self.path, "a", encoding="utf-8") as file:
            file.write(json.dumps({"push": self.number, **row}) + "\n")

    def drop(self):
        """Forgets the push that runs, of which nothing stands."""
        self.set([rows for rows in self.pushes() if rows[0].get("push", 0) != self.number])

    def end(self, files):
        """Nothing is left to send of the push that runs, or of the one that it goes on with."""
        if self.number is None and self.goes_on(files):
            self.begin(files)
        if self.number is not None:
            self.add({"end": True})
