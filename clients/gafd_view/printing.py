"""A page as PDF, by a browser without windows of its own: Chromium, or else Firefox."""
import base64
import json
import os
import pathlib
import select
import shutil
import subprocess
import tempfile
import time

from marionette import Marionette

CHROMIUMS = ["chromium", "chromium-browser", "google-chrome", "google-chrome-stable", "chrome"]
FIREFOXES = ["firefox-esr", "firefox"]
PATIENCE = 600
EVERY = 0.2
DRAWN = "document.body && (document.body.dataset.fault || document.body.dataset.sheets)"
# Of A4, in inches, and in centimetres for Firefox.
PAPER, MARGIN = (11.69, 8.27), 0.3
CM = 2.54


class NoPdf(Exception):
    """Why there is none, in words."""


def found(names):
    return next((path for it in names if (path := shutil.which(it))), None)


def pdf_of(url):
    """The PDF of a print page, as soon as that has drawn all, and the number of its sheets."""
    for names, browser in ((CHROMIUMS, Chromium), (FIREFOXES, Firefox)):
        path = found(names)
        if path:
            with tempfile.TemporaryDirectory(prefix="gafd_view_") as room:
                return printed(browser, path, room, url)
    raise NoPdf(f"a PDF wants a browser, and none of {' '.join(CHROMIUMS + FIREFOXES)} is there")


def printed(browser, path, room, url):
    try:
        one = browser(path, room)
    except OSError as error:
        raise NoPdf(f"{path} does not start: {error}") from None
    try:
        one.open(url)
        ends = time.monotonic() + PATIENCE
        while not (drawn := one.value(DRAWN)):
            if time.monotonic() > ends:
                raise NoPdf(f"the sheets are not drawn after {PATIENCE} seconds")
            time.sleep(EVERY)
        if not drawn.isdigit():
            raise NoPdf(drawn)
        return base64.b64decode(one.pdf()), int(drawn)
    except (OSError, ValueError, KeyError) as error:
        raise NoPdf(f"{path}: {error}") from None
    finally:
        one.close()


class Chromium:
    """One page of Chromium, which is told what to do over its own pipes: JSON with a NUL behind."""

    def __init__(self, path, room):
        theirs, self.output = os.pipe()
        self.input, answers = os.pipe()
        words = [path, "--headless=new", "--disable-gpu", "--remote-debugging-pipe",
                 f"--user-data-dir={room}", "about:blank"]
        # The sandbox of Chromium refuses root.
        words[1:1] = ["--no-sandbox"] if os.geteuid() == 0 else []
        # It reads what is 3, and writes to what is 4.
        shell = ["sh", "-c", f'exec "$@" 3<&{theirs} 4>&{answers}', "sh", *words]
        self.process = subprocess.Popen(shell, pass_fds=(theirs, answers),
                                        stdout=subprocess.DEVNULL, stderr=subprocess.DEVNULL)
        os.close(theirs)
        os.close(answers)
        self.number, self.left, self.session = 0, b"", None

    def tell(self, method, **words):
        """What a command answers."""
        self.number += 1
        message = {"id": self.number, "method": method, "params": words}
        if self.session:
            message["sessionId"] = self.session
        os.write(self.output, json.dumps(message).encode() + b"\0")
        while (answer := self.message()).get("id") != self.number:
            pass
        if "error" in answer:
            raise ValueError(f"{method}: {answer['error']['message']}")
        return answer["result"]

    def message(self):
        while b"\0" not in self.left:
            if not select.select([self.input], [], [], PATIENCE)[0]:
                raise OSError("no answer")
            data = os.read(self.input, 1 << 20)
            if not data:
                raise OSError("it went away")
            self.left += data
        message, self.left = self.left.split(b"\0", 1)
        return json.loads(message)

    def open(self, url):
        target = self.tell("Target.createTarget", url=url)["targetId"]
        self.session = self.tell("Target.attachToTarget", targetId=target, flatten=True)["sessionId"]

    def value(self, expression):
        answer = self.tell("Runtime.evaluate", expression=expression, returnByValue=True)
        return answer["result"].get("value")

    def pdf(self):
        wide, high = PAPER
        margins = {f"margin{side}": MARGIN for side in ("Top", "Bottom", "Left", "Right")}
        return self.tell("Page.printToPDF", paperWidth=wide, paperHeight=high,
                         printBackground=True, **margins)["data"]

    def close(self):
        self.session = None
        try:
            self.tell("Browser.close")
            self.process.wait(10)
        except (OSError, ValueError, subprocess.TimeoutExpired):
            self.process.kill()
            self.process.wait()
        os.close(self.output)
        os.close(self.input)


class Firefox(Marionette):
    """One window of Firefox."""

    def __init__(self, path, room):
        super().__init__(path, pathlib.Path(room))

    def open(self, url):
        self.tell("WebDriver:Navigate", {"url": url})

    def value(self, expression):
        return self.tell("WebDriver:ExecuteScript", {"script": f"return {expression}", "args": []})

    def pdf(self):
        wide, high = (CM * it for it in PAPER)
        margin = dict.fromkeys(("top", "bottom", "left", "right"), CM * MARGIN)
        return self.tell("WebDriver:Print", {"page": {"width": wide, "height": high},
                                             "margin": margin, "background": True})
