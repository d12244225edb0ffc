#!/usr/bin/env python3
"""Counts what a server does for who asks first for the net list after an edit, by callgrind.

Usage: after_edit.py [--parts PARTS] [PROGRAM]. Two servers get the same board of so many parts,
10,000, and move its first object six times; one of them is asked for `/netlist/list` after each
move. What that one did more goes out, in millions of instructions, shared by six. It wants
valgrind, and takes some two minutes.
"""
import argparse
import os
import pathlib
import sys
import tempfile

sys.dont_write_bytecode = True

import paths
import part_shapes
from built import built
from instructions import CALLGRIND, collected
from load import Bringing
from served import Served, new_store

MOVES = 6


def under_callgrind(program, room):
    """A program that runs this one, and tells in `told` how much it did."""
    runs = pathlib.Path(room, "counted")
    words = " ".join([*CALLGRIND, f"--log-file={room}/told", program])
    runs.write_text(f'#!/bin/sh\nexec {words} "$@"\n')
    os.chmod(runs, 0o755)
    return str(runs)


def counted(program, files, path):
    """The instructions of a server to which these files come, with this path asked after moves."""
    with tempfile.TemporaryDirectory() as room:
        server = Served(new_store(room), under_callgrind(program, room))
        bringing = Bringing(server.port, "mover")
        bringing.brings(files)
        for _ in range(MOVES):
            bringing.moves()
            if path:
                bringing.ask("GET", path)
        server.stop()
        return collected(pathlib.Path(room, "told").read_text())


def main():
    words = argparse.ArgumentParser(description=__doc__.split("\n", 1)[0])
    words.add_argument("--parts", type=int, default=10_000)
    words.add_argument("program", nargs="*", metavar="PROGRAM")
    given = words.parse_args()
    program, files = str(built(*given.program)), part_shapes.board(given.parts)
    alone = counted(program, files, None)
    asked = counted(program, files, "/netlist/list")
    print(f"{given.parts} parts: {(asked - alone) / MOVES / 1e6:.1f} million instructions")


if __name__ == "__main__":
    main()
