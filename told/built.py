"""Which program is tried: `PROGRAM`, what GAFD names, else what is built. It puts clients/ on the
path, where `served` stands."""
import pathlib
import sys

TOP = pathlib.Path(__file__).resolve().parent.parent
sys.path.append(str(TOP / "clients"))

from served import program

PROGRAM = program() or str(TOP / "out" / "gafd")


def built(named=None):
    """The path of the program that is named, else of PROGRAM. Where none is there, all ends."""
    path = pathlib.Path(named or PROGRAM).resolve()
    if not path.exists():
        sys.exit(f"{path} is not built: run ./gafd once, or let GAFD name a program")
    return path


def case_program(named=None):
    """The path of the program `cases`, as `rt run` builds it in its crate, or of the one that is
    named. Where it is not there, all ends."""
    path = pathlib.Path(named or TOP / "crates" / "cases" / "out" / "cases").resolve()
    if not path.exists():
        sys.exit(f"{path} is not built: use `rt run` in crates/cases")
    return str(path)
