#!/usr/bin/env python3
"""Times edits of symbols and of sheets at a server with a large board, and a board of 400,000 wires.

Usage: symbol_times.py [--runs N]    the median of 11 runs

GAFD names the program, else the one that is built. Each board is in a store of its own, in /dev/shm
where that is there, so that no disk is waited for. Edits are timed from the request to the reply,
over one connection.

- 10,000 components of one symbol on 100 sheets, each between two wires: how long the sheets took to
  come, and the symbol to be replaced, with its net list before and behind it. The net list has to be
  that of a server that starts over the same rows.
- One sheet of 10,000 wires, and of 95,000: how long a symbol that no component has takes, and an
  empty sheet.
- Four sheets of 100,000 wires: how long each takes to come, and the net list; how long a server
  takes to start over them, and how much memory it had at most.
"""
import argparse
import json
import pathlib
import statistics
import sys
import tempfile
import time

sys.dont_write_bytecode = True

import paths
from built import built
from drawing import VERSION, component, numbered, symbol, wire
from served import Served
from writers import Writer

MEMORY = pathlib.Path("/dev/shm")
LIBRARY = "part.sym"
SHEETS, PARTS = 100, 100


class Author(Writer):
    """The one session of a server: each of its edits has seen all before it."""

    def seconds(self, method, path, body=b""):
        """How long the reply took, and the reply."""
        begun = time.perf_counter()
        status, _, said = self.ask(method, path, body)
        passed = time.perf_counter() - begun
        if status != 200:
            raise SystemExit(f"{path} was answered {status} {said[:200]}")
        return passed, said

    def edit(self, **edit):
        self.number += 1
        value = {"session": self.session, "number": self.number, "base": self.number - 1}
        return self.seconds("POST", "/edits", json.dumps({**value, "edit": edit}).encode())[0]

    def net_list(self):
        return self.seconds("GET", "/netlist/list")


def two_pins(y):
    """A symbol with two pins, at this height."""
    return symbol(numbered(0, y, 1), numbered(300, y, 2))


def parts_sheet(number):
    """Components in rows, each pin of which ends at a wire."""
    drawn = []
    for k in range(PARTS):
        x, y = 1000 * (k % 10), 500 * (k // 10)
        drawn.append(component(LIBRARY, x, y, f"refdes=U{PARTS * number + k}"))
        drawn += [wire(x, y, x - 200, y), wire(x + 300, y, x + 500, y)]
    return VERSION + "".join(drawn)


def wires(count, height=0):
    return VERSION + "".join(wire(k, height, k, height) for k in range(count))


def told(name, *seconds):
    print(f"{name:58} {1000 * statistics.median(seconds):10.2f} ms", flush=True)


def room():
    return tempfile.TemporaryDirectory(dir=MEMORY if MEMORY.is_dir() else None)


def many_components():
    with room() as folder, Served(folder + "/store") as server:
        author = Author(server.port, "ann")
        author.edit(kind="add_symbol", name=LIBRARY, text=two_pins(0))
        comes = [author.edit(kind="add_sheet", name=f"s{k}.sch", text=parts_sheet(k))
                 for k in range(SHEETS)]
        told("10,000 components on 100 sheets come, in all", sum(comes))
        told("their net list", author.net_list()[0])
        told("their symbol is replaced", author.edit(
            kind="replace_symbol", name=LIBRARY, text=two_pins(100)))
        passed, apart = author.net_list()
        told("the net list behind it", passed)
        told("that is taken back", author.edit(kind="undo", serial=SHEETS + 1))
        told("and done again", author.edit(kind="undo", serial=SHEETS + 2))
        author.link.close()
        server.stop()
        told("the server starts again", server.start())
        if Author(server.port, "bob").net_list()[1] != apart:
            raise SystemExit("the net list is another one after a start")


def one_sheet(count, runs):
    with room() as folder, Served(folder + "/store") as server:
        author = Author(server.port, "ann")
        author.edit(kind="add_sheet", name="w.sch", text=wires(count))
        sheets = [author.edit(kind="add_sheet", name=f"e{k}.sch", text=VERSION)
                  for k in range(runs)]
        symbols = [author.edit(kind="add_symbol", name=f"{k}.sym", text=two_pins(0))
                   for k in range(runs)]
        told(f"beside {count:,} wires: an empty sheet", *sheets)
        told(f"beside {count:,} wires: a symbol that no component has", *symbols)


def peak(server):
    """The most memory that the server had, in MiB."""
    status = pathlib.Path(f"/proc/{server.process.pid}/status").read_text(encoding="ascii")
    lines = dict(line.split(":", 1) for line in status.splitlines())
    return int(lines["VmHWM"].split()[0]) / 1024


def most_objects():
    with room() as folder, Served(folder + "/store") as server:
        author = Author(server.port, "ann")
        comes = [author.edit(kind="add_sheet", name=f"m{k}.sch", text=wires(100_000, k))
                 for k in range(4)]
        told("each of four sheets of 100,000 wires comes", *comes)
        told("their net list", author.net_list()[0])
        print(f"the server had {peak(server):.0f} MiB at most")
        author.link.close()
        server.stop()
        told("the server starts again", server.start(600))
        told("the net list then", Author(server.port, "bob").net_list()[0])
        print(f"it had {peak(server):.0f} MiB at most")


def main():
    parser = argparse.ArgumentParser(description=__doc__.split("\n")[0])
    parser.add_argument("--runs", type=int, default=11)
    asked = parser.parse_args()
    built()
    many_components()
    for count in (10_000, 95_000):
        one_sheet(count, asked.runs)
    most_objects()
    return 0


if __name__ == "__main__":
    sys.exit(main())
