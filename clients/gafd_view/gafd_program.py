"""The program `gafd`, which reads files, and serves a board as it was; and the modules of the client
`gafd_sync`, which it puts on the path."""
import os
import pathlib
import random
import shutil
import socket
import sys

# The checkout, or the folder below which all is installed.
TOP = pathlib.Path(__file__).resolve().parent.parent.parent
# Where Python finds the modules of the client: in the checkout, or in its one file.
CLIENTS = [TOP / "clients", TOP / "bin/gafd_sync"]
sys.path.append(str(next((it for it in CLIENTS if it.exists()), CLIENTS[0])))


def program():
    """The program that GAFD names, else the one on the PATH, else that beside this one, or None."""
    found = [os.environ.get("GAFD"), shutil.which("gafd"), TOP / "crates/gafd/out/gafd",
             TOP / "out/gafd", TOP / "gafd", TOP / "bin/gafd"]
    paths = (pathlib.Path(it).resolve() for it in found if it)
    return next((str(it) for it in paths if it.is_file() and os.access(it, os.X_OK)), None)


def free_port():
    """A free port below those that the system gives to clients, which might take it meanwhile."""
    for _ in range(100):
        port = random.randrange(10_240, 32_768)
        with socket.socket() as probe:
            try:
                probe.bind(("127.0.0.1", port))
                return port
            except OSError:
                continue
    raise OSError("no port is free")
