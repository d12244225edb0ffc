#!/usr/bin/env python3
"""Times the page of gafd_view in Chromium, on a board of 10,000 parts and on a sheet of 4,600
objects.

Usage: page_times.py [--profile] [large|sheet]...

Of each board it prints what passes from the call of the page to its first picture; then from an
edit of somebody else to its picture, and what nine more seconds take; and how often in a second the
page is drawn while the wheel is turned. The seconds of processor are those of all of the browser's
processes; on a machine with other work only these tell something. --profile prints the functions of
the page in which the time goes. It wants chromium, chromium-driver and python3-selenium; GAFD names
the program.
"""
import argparse
import os
import pathlib
import random
import subprocess
import sys
import tempfile
import time
from collections import Counter

sys.dont_write_bytecode = True
TOP = pathlib.Path(__file__).resolve().parent.parent
sys.path.insert(0, str(TOP / "clients" / "gafd_view" / "tests"))

from boards import EXAMPLES, LONGEST, Viewed, Writer, served
from browsers import Page, browser, missing

# Sheets, and the parts on each.
BOARDS = {"large": (60, 167), "sheet": (1, 1760)}
SYMBOLS = ("res.sym", "cap.sym", "plus5.sym")
VALUES = ("10k", "4k7", "100n", "1u", "220", "2M2")
QUIET, BEHIND, ZOOMED = 15, 9, 4
MOST_CALLS = 30
ZOOM = """
const [seconds, done] = arguments;
const sheet = document.getElementById('sheet');
const { x, y, width, height } = sheet.getBoundingClientRect();
const [clientX, clientY, began] = [x + width / 2, y + height / 2, performance.now()];
let frames = 0;
function turn() {
  const deltaY = frames++ % 20 < 10 ? -60 : 60;
  sheet.dispatchEvent(new WheelEvent('wheel',
    { deltaY, clientX, clientY, bubbles: true, cancelable: true }));
  const passed = performance.now() - began;
  if (passed < seconds * 1000) requestAnimationFrame(turn);
  else done(frames * 1000 / passed);
}
requestAnimationFrame(turn);
"""


def attached(x, y, name, value):
    return f"T {x} {y} 5 10 1 1 0 0 1\n{name}={value}\n"


def part_lines(draw, number, x, y):
    """A part with its wire to the next one, and now and then a rail or a note."""
    letter, symbol = draw.choice((("R", "res.sym"), ("R", "res.sym"), ("C", "cap.sym")))
    yield f"C {x} {y} 1 0 0 {symbol}\n{{\n"
    yield attached(x + 200, y + 300, "refdes", f"{letter}{number}")
    yield attached(x + 200, y - 300, "value", draw.choice(VALUES)) + "}\n"
    name = attached(x + 900, y + 20, "netname", f"S{number}") if number % 3 == 0 else ""
    yield f"N {x + 800} {y} {x + 1500} {y} 4\n" + (f"{{\n{name}}}\n" if name else "")
    if number % 4 == 0:
        yield f"N {x} {y} {x} {y + 400} 4\nC {x - 200} {y + 400} 1 0 0 plus5.sym\n"
    if number % 10 == 0:
        yield f"T {x} {y + 700} 9 10 1 0 0 0 1\nblock {number}\n"


def sheet_text(draw, count, first):
    """A sheet of so many parts, from a number on."""
    across = 12 if count < 500 else 45
    lines = ["v 20201211 2\n"]
    for at in range(count):
        x, y = 41000 + 1500 * (at % across), 41000 + 1200 * (at // across)
        lines += part_lines(draw, first + at, x, y)
    return "".join(lines)


def bring(writer, sheets, count):
    """Brings a board to a server."""
    draw = random.Random(1)
    for name in SYMBOLS:
        writer.add(EXAMPLES / name)
    for at in range(sheets):
        text = sheet_text(draw, count, 1 + at * count)
        writer.add(pathlib.Path(f"p{at:02}.sch"), text)


def processes(pid):
    """A process and all below it."""
    told = subprocess.run(["ps", "--ppid", str(pid), "-o", "pid="], capture_output=True, text=True)
    return [pid, *(it for line in told.stdout.split() for it in processes(int(line)))]


def call_name(call):
    return f"{call['functionName'] or '-'} {call['url'].rsplit('/')[-1]}"


class Clock:
    """What passes on the wall and on the processors of the browser."""

    def __init__(self):
        self.pids = processes(browser().service.process.pid)
        self.began, self.used = time.monotonic(), self.spent()

    def spent(self):
        """Seconds of processor; a process that was begun since is not counted."""
        total = 0
        for pid in self.pids:
            try:
                fields = pathlib.Path(f"/proc/{pid}/stat").read_text().rpartition(")")[2].split()
                total += int(fields[11]) + int(fields[12])
            except OSError:
                pass
        return total / os.sysconf("SC_CLK_TCK")

    def __str__(self):
        wall = time.monotonic() - self.began
        return f"{wall:.2f} s, {self.spent() - self.used:.2f} s of processor"


class Profile:
    """Where the time of the page's scripts goes, while it is entered and where that is asked for."""

    def __init__(self, is_asked, what):
        self.is_asked, self.what = is_asked, what

    def __enter__(self):
        if self.is_asked:
            self.tell("enable")
            self.tell("start")

    def __exit__(self, *_):
        if not self.is_asked:
            return
        profile, own, whole = self.tell("stop")["profile"], Counter(), Counter()
        above = {it: one["id"] for one in profile["nodes"] for it in one.get("children", [])}
        names = {it["id"]: call_name(it["callFrame"]) for it in profile["nodes"]}
        for number, passed in zip(profile["samples"], profile["timeDeltas"]):
            own[names[number]] += passed / 1000
            calls = set()
            while number in names:
                calls.add(names[number])
                number = above.get(number)
            whole.update(dict.fromkeys(calls, passed / 1000))
        for name, passed in whole.most_common(MOST_CALLS):
            print(f"    {self.what}: {passed:.0f} ms, {own[name]:.0f} of its own, {name}")

    def tell(self, word):
        return browser().execute_cdp_cmd(f"Profiler.{word}", {})


class Times:
    """The times of one board. `page` is opened once before, so that all processes are there."""

    def __init__(self, name, view, writer, is_profiled):
        self.name, self.view, self.writer, self.is_profiled = name, view, writer, is_profiled
        browser().set_script_timeout(120)

    def say(self, what):
        load = os.getloadavg()[0] / os.cpu_count()
        print(f"{self.name}: {what} (load {load:.1f})", flush=True)

    def profile(self, what):
        return Profile(self.is_profiled, what)

    def first_picture(self):
        page = Page(self.view.url)
        page.driver.get("about:blank")
        clock = Clock()
        with self.profile("first picture"):
            page.driver.execute_script("location.href = arguments[0]", self.view.url)
            pictured = "return performance.getEntriesByName('pictured')[0]?.startTime"
            while not (passed := page.script(pictured)):
                time.sleep(0.02)
        self.say(f"first picture after {passed / 1000:.2f} s; {clock}")
        time.sleep(QUIET)
        self.say(f"and {QUIET} s on; {clock}")
        return page

    def edit(self, page):
        number = next(it for it in self.writer.ids("p00.sch") if it > 3)
        drawn = f"document.querySelector('#drawn [data-id=\"{number}\"]').textContent"
        self.writer.edit(kind="set_attr", id=number, name="value", value="OLD")
        page.until(lambda: "OLD" in page.script(f"return {drawn}"), 120)
        time.sleep(QUIET)
        clock = Clock()
        with self.profile("edit"):
            self.writer.edit(kind="set_attr", id=number, name="value", value="NEW")
            while "NEW" not in page.script(f"return {drawn}"):
                time.sleep(0.2)
            page.driver.execute_async_script(
                "const done = arguments[0]; requestAnimationFrame(() => setTimeout(done));")
            self.say(f"an edit and its picture; {clock}")
            time.sleep(BEHIND)
        self.say(f"and {BEHIND} s on; {clock}")

    def zoom(self, page):
        clock = Clock()
        with self.profile("zoom"):
            frames = page.driver.execute_async_script(ZOOM, ZOOMED)
        self.say(f"zoom, {frames:.1f} frames a second; {clock}")


def measure(name, is_profiled):
    with tempfile.TemporaryDirectory() as room:
        server = served.Served(pathlib.Path(room, "store"))
        writer = Writer(server.address, "ann")
        bring(writer, *BOARDS[name])
        view = Viewed("--store", pathlib.Path(room, "store"), server.url)
        times = Times(name, view, writer, is_profiled)
        page = times.first_picture()
        times.edit(page)
        times.zoom(page)
        page.close()
        view.stop()
        server.stop()


def main():
    parser = argparse.ArgumentParser(description=__doc__.split("\n")[0])
    parser.add_argument("--profile", action="store_true")
    parser.add_argument("boards", nargs="*", metavar="large|sheet")
    asked = parser.parse_args()
    unknown = [it for it in asked.boards if it not in BOARDS]
    if unknown or missing() or served.program() is None:
        sys.exit(" ".join(unknown) + ": no such board" if unknown
                 else f"{missing() or 'gafd'} is missing")
    served.bounded(LONGEST)
    for name in asked.boards or BOARDS:
        measure(name, asked.profile)


if __name__ == "__main__":
    main()
