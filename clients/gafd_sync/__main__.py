"""Starts gafd_sync: as a folder, `python3 clients/gafd_sync`, and as the module `gafd_sync`."""
import pathlib
import sys

if not __package__:
    # A folder that is run is no package yet: the one above it has the package.
    sys.path[0] = str(pathlib.Path(__file__).resolve().parent.parent)

from gafd_sync.arguments import run

run()
