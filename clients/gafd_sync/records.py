"""Files that are written whole and once, by name, in a folder that several people have."""
import json
import os
import pathlib
import secrets

from .words import NAME

MOST_BYTES = 64 * 1024 * 1024


class Damaged(Exception):
    """A file that is not what it should be: why."""


class Records:
    """Files of one kind in a folder. None is changed: of two who write under one name one is told
    that it is taken."""

    def __init__(self, folder, is_record):
        self.folder, self.is_record = pathlib.Path(folder), is_record

    def path(self, name):
        return self.folder / f"{name}.json"

    def names(self):
        found = (path.name[: -len(".json")] for path in self.folder.glob("[!.]*.json"))
        return sorted(filter(NAME.fullmatch, found))

    def load(self, name):
        """The record of a name, or None."""
        try:
            if self.path(name).stat().st_size > MOST_BYTES:
                raise Damaged("it is too large")
            value = json.loads(self.path(name).read_bytes())
            # Half a surrogate pair could not be printed.
            json.dumps(value, ensure_ascii=False).encode("utf-8")
        except FileNotFoundError:
            return None
        except (ValueError, RecursionError):
            raise Damaged("it is no JSON") from None
        except OSError as error:
            raise Damaged(error.strerror) from None
        if not self.is_record(value):
            raise Damaged("it is not what gafd_sync writes there")
        return value

    def add(self, name, value):
        """Writes a record where none has its name, and tells whether it did."""
        self.folder.mkdir(parents=True, exist_ok=True)
        new = self.written(value)
        try:
            os.link(new, self.path(name))
        except FileExistsError:
            return False
        finally:
            new.unlink()
        self.sync()
        return True

    def put(self, name, value):
        """Writes a record in place of the one that has its name."""
        os.replace(self.written(value), self.path(name))
        self.sync()

    def take_away(self, name):
        self.path(name).unlink(missing_ok=True)
        self.sync()

    def written(self, value):
        """A file of its own that has the record, on the disk."""
        new = self.folder / f".{secrets.token_hex(8)}.new"
        with open(new, "xb") as file:
            file.write(json.dumps(value, ensure_ascii=False, indent=1).encode("utf-8") + b"\n")
            file.flush()
            os.fsync(file.fileno())
        return new

    def sync(self):
        place = os.open(self.folder, os.O_RDONLY)
        try:
            os.fsync(place)
        finally:
            os.close(place)
