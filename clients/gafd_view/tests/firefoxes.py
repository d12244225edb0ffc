"""Firefox that looks at a page, by the package firefox-esr alone."""
import atexit
import pathlib
import shutil
import tempfile
import time

from marionette import PATIENCE, Marionette

KEYS = {"Enter": "\ue007", "Escape": "\ue00c", "Shift": "\ue008", "ArrowRight": "\ue014"}


def binary():
    """Firefox; what the package has on the PATH is a script, which would end without its browser."""
    path = pathlib.Path("/usr/lib/firefox-esr/firefox-esr")
    return str(path) if path.exists() else shutil.which("firefox-esr")


class Firefox(Marionette):
    """One Firefox with one window, which ends with these tests."""

    def __init__(self):
        profile = pathlib.Path(tempfile.mkdtemp(prefix="firefox_"))
        super().__init__(binary(), profile)
        atexit.register(shutil.rmtree, profile, True)
        atexit.register(self.close)

    def open(self, url):
        """Opens a page anew, also where its address differs behind `#` alone."""
        self.tell("WebDriver:Navigate", {"url": "about:blank"})
        self.tell("WebDriver:Navigate", {"url": url})

    def resize(self, width, height):
        self.tell("WebDriver:SetWindowRect", {"width": width, "height": height})

    def script(self, text, *words):
        return self.tell("WebDriver:ExecuteScript", {"script": text, "args": list(words)})

    def text(self, name):
        return self.script("return document.getElementById(arguments[0]).textContent", name)

    def count(self, selector):
        return self.script("return document.querySelectorAll(arguments[0]).length", selector)

    def press(self, selector):
        """Presses the first of what is selected, with the mouse in its middle."""
        x, y = self.script(
            "const { x, y, width, height } = document.querySelector(arguments[0])"
            ".getBoundingClientRect();"
            "return [Math.round(x + width / 2), Math.round(y + height / 2)]", selector)
        moves = [{"type": "pointerMove", "x": x, "y": y}, {"type": "pointerDown", "button": 0},
                 {"type": "pointerUp", "button": 0}]
        self.acts({"type": "pointer", "id": "mouse", "actions": moves})

    def keys(self, *keys, held=""):
        """Presses keys, one after the other, all the while that one is held."""
        rows = [{"type": kind, "value": KEYS.get(it, it)} for it in keys
                for kind in ("keyDown", "keyUp")]
        if held:
            rows = [{"type": "keyDown", "value": KEYS[held]}, *rows,
                    {"type": "keyUp", "value": KEYS[held]}]
        self.acts({"type": "key", "id": "keys", "actions": rows})

    def acts(self, source):
        self.tell("WebDriver:PerformActions", {"actions": [source]})

    def until(self, holds, seconds=PATIENCE):
        ends = time.monotonic() + seconds
        while not holds():
            if time.monotonic() > ends:
                raise AssertionError(f"it does not come within {seconds} seconds")
            time.sleep(0.1)
