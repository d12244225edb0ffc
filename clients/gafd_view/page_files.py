"""The files of the page, in the folder `page` beside this one, or in one archive with it."""
import functools
import pkgutil
import re

KINDS = {"html": "text/html", "js": "text/javascript", "css": "text/css"}
NAME = re.compile(r"[a-z_]+\.(html|js|css)")


@functools.lru_cache(maxsize=100)
def read(name):
    """A file of the page with its kind, or None."""
    found = NAME.fullmatch(name)
    if not found:
        return None
    try:
        text = pkgutil.get_data(__name__, "page/" + name)
    except OSError:
        return None
    return text, KINDS[found[1]] + "; charset=utf-8"
