"""The version of the client: that of the release with which it came."""
import pathlib
import pkgutil

# Where this lies in the repository. contrib/install puts a VERSION of the same form beside this.
RELEASE = pathlib.Path(__file__).parent.parent.parent / "release/SOURCES"


def version():
    try:
        told = pkgutil.get_data(__package__, "VERSION")
    except OSError:
        told = RELEASE.read_bytes()
    return told.split()[1].decode()
