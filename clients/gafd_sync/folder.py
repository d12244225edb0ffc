"""The folder of the files, and what is kept of where they came from."""
import codecs
import json
import os
import pathlib

from .sheets import sheet_of
from .words import Stop

GAFRC = '(component-library ".")\n(source-library ".")\n'
# What a file of UTF-16 begins with; no text in UTF-8 does.
UTF_16 = (codecs.BOM_UTF16_LE, codecs.BOM_UTF16_BE)
# Under this name stands with which front all of a server was pulled.
WHOLE = "whole"
LEPTON = "[netlist.hierarchy]\nmangle-net-attribute=false\n"


class Folder:
    """The files, and what is known of where they came from."""

    def __init__(self):
        self.known = pathlib.Path(".gafd_sync")

    def load(self, name):
        path = self.known / name
        try:
            return json.loads(path.read_text(encoding="utf-8"))
        except FileNotFoundError:
            return None
        except ValueError:
            raise Stop(f"{path} is damaged: delete it, and pull the sheet anew") from None

    def keep(self, name, value):
        self.known.mkdir(exist_ok=True)
        put(self.known / name, json.dumps(value, ensure_ascii=False, indent=0) + "\n")

    def forget(self, name):
        (self.known / (name + ".from")).unlink(missing_ok=True)
        self.forget_whole()

    def forget_whole(self):
        (self.known / WHOLE).unlink(missing_ok=True)

    def keep_whole(self, server, names):
        """Notes that all that the server has now, under these names, was pulled."""
        self.keep(WHOLE, {"server": server.url, "front": server.front, "names": sorted(names)})

    def is_whole(self, server):
        """Whether all that the server has now was pulled, nothing here is known otherwise since, and
        no file is gone."""
        last = self.load(WHOLE)
        if not last or (last["server"], last["front"]) != (server.url, server.front):
            return False
        return all(self.has(it) and (self.known / (it + ".from")).exists() for it in last["names"])

    def origin(self, name):
        """The objects that a sheet was made from, by id, and the front that was seen; or None."""
        found = self.load(name + ".from")
        if not found:
            return None
        return found["front"], {int(key): text for key, text in found["objects"].items()}

    def set_origin(self, name, front, objects):
        self.keep_origin(name, {"front": front, "objects": objects})

    def keep_origin(self, name, origin):
        self.forget_whole()
        self.keep(name + ".from", origin)

    def symbol_origin(self, name):
        """The text that a symbol was made from, or None."""
        found = self.load(name + ".from")
        return found["text"] if found else None

    def set_symbol_origin(self, name, front, text):
        self.keep_origin(name, {"front": front, "text": text})

    def front(self, name):
        """The front that was seen with a file; 0 where none was."""
        found = self.load(name + ".from")
        return found["front"] if found else 0

    def pulled(self, ending):
        """The files of an ending of which it is known what they were made from."""
        names = (path.name[: -len(".from")] for path in self.known.glob("*" + ending + ".from"))
        return sorted(names)

    def has(self, name):
        return os.path.lexists(name)

    def symbol_path(self, name):
        """The path of a symbol: here, else in the first folder of GAFD_SYMBOLS, if one has it."""
        if self.has(name):
            return name
        folders = filter(None, os.environ.get("GAFD_SYMBOLS", "").split(":"))
        paths = (os.path.join(folder, name) for folder in folders)
        return next((path for path in paths if os.path.isfile(path)), None)

    def read(self, name):
        """The text of a file, as its bytes stand."""
        try:
            data = pathlib.Path(name).read_bytes()
        except OSError as error:
            raise Stop(f"{name}: {error.strerror}") from None
        try:
            return data.decode("utf-8")
        except UnicodeDecodeError as error:
            line = data.count(b"\n", 0, error.start) + 1
            why = ": it is UTF-16; save it as UTF-8" if data[:2] in UTF_16 else ""
            raise Stop(f"{name}:{line}: NotUtf8{why}") from None

    def sheet(self, name):
        return sheet_of(name, self.read(name))

    def renew(self, name, text, is_kept):
        """Writes a file where it differs, so that `make` sees what changed, and tells whether it
        did. What it had is kept beside it where that is asked for. What a link leads to stays: a
        file takes the link's place."""
        path = pathlib.Path(name)
        if path.exists():
            old = self.read(name)
            if old == text:
                return False
            if is_kept:
                put(path.with_name(path.name + ".mine"), old)
                print(f"{name}: your file is kept as {name}.mine")
        if path.is_symlink():
            print(f"{name}: was a link, and is a file now; {os.readlink(path)} stays as it is")
        put(path, text)
        return True

    def add(self, name, text, why):
        """Writes a file where there is none."""
        if not self.has(name):
            put(pathlib.Path(name), text)
            print(f"{name}: written, {why}")

    def lepton_files(self, is_conf_asked):
        """What lepton wants beside the sheets: a `gafrc`, and where asked for a `lepton.conf`."""
        self.add("gafrc", GAFRC, "so that lepton finds the symbols and sheets of this folder")
        if is_conf_asked:
            why = "so that lepton-netlist takes names of `net` below as they stand"
            self.add("lepton.conf", LEPTON, why)
            line = "mangle-net-attribute=false"
            if line not in self.read("lepton.conf"):
                print(f"lepton.conf: stays; its [netlist.hierarchy] wants {line}")


def put(path, text):
    """Writes a file beside the old one, and then in its place."""
    new = path.with_name("." + path.name + ".new")
    new.unlink(missing_ok=True)
    new.write_bytes(text.encode("utf-8"))
    if path.exists() and not path.is_symlink():
        new.chmod(path.stat().st_mode & 0o777)
    os.replace(new, path)
