#!/usr/bin/env python3
"""Makes the picture of README.md anew: the page of gafd_view over this repository's examples.

It wants chromium, chromium-driver, python3-selenium and fonts-liberation; GAFD names the program.
"""
import pathlib
import shutil
import sys

sys.dont_write_bytecode = True
TOP = pathlib.Path(__file__).resolve().parent.parent
sys.path.insert(0, str(TOP / "clients" / "gafd_view" / "tests"))

from boards import EXAMPLES, Viewed, served
from browsers import Page, missing

PICTURES = TOP / "docs" / "pictures"
SIZE = {"width": 1280, "height": 800}
MOST_BYTES = 200_000


def save(page, name):
    # The notice of a click would stand before the sheet.
    page.script(
        "document.getElementById('notice').hidden = true; document.getElementById('marks').innerHTML = ''")
    path = PICTURES / name
    path.write_bytes(page.driver.get_screenshot_as_png())
    size = path.stat().st_size
    print(f"{name}: {size} bytes{'' if size <= MOST_BYTES else ', which is too much'}")


def lit_net():
    """A net that is lit on a sheet of a folder."""
    view = Viewed(EXAMPLES / "stereo.sch")
    page = Page(view.url, **SIZE)
    page.follow("net:+12V")
    save(page, "stereo.png")
    view.stop()


def main():
    if missing() or served.program() is None or not shutil.which("fc-list"):
        sys.exit(f"{missing() or 'gafd or a font'} is missing")
    PICTURES.mkdir(exist_ok=True)
    lit_net()


if __name__ == "__main__":
    main()
