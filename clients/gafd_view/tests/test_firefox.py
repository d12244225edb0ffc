#!/usr/bin/env python3
"""Drives the page of gafd_view in Firefox, over a `gafd serve` of its own, which GAFD names.

It wants the package firefox-esr alone. Where that or a program is missing it says so, and its
status is 0. It takes half a minute.
"""
import functools
import re
import sys
import unittest
import zlib
from unittest import mock

from boards import LONGEST, Case, served
from firefoxes import Firefox, binary
from printing import pdf_of

firefox = functools.lru_cache(maxsize=1)(Firefox)


def pages_of(pdf):
    """How many pages a PDF has, of which the objects may be packed."""
    packed = re.findall(rb"/ObjStm.*?stream\r?\n(.*?)\r?\nendstream", pdf, re.S)
    texts = [pdf, *map(zlib.decompress, packed)]
    return sum(len(re.findall(rb"/Type\s*/Page\b", it)) for it in texts)


class FirefoxCase(Case):
    def setUp(self):
        super().setUp()
        self.page = firefox()
        self.page.resize(1500, 950)
        self.open()

    def open(self, where=""):
        self.page.open(self.view.url + where)
        self.page.until(lambda: self.page.text("status") == f"{self.ann.front()} edits")

    def follows(self, link):
        self.page.script("document.querySelector(arguments[0]).click()", f'[data-link="{link}"]')


class Looking(FirefoxCase):
    def test_a_sheet_is_drawn_and_its_nets_are_lit(self):
        self.page.until(lambda: self.page.count("#drawn > .o") == 48)
        self.follows("net:+12V")
        self.page.until(lambda: self.page.count("#drawn .lit") == 11)
        self.open("#channel.sch@RIGHT")
        self.page.until(lambda: self.page.text("trail").endswith("RIGHT"))

    def test_the_drawing_is_within_the_window(self):
        inside = self.page.script(
            "const sheet = document.getElementById('sheet').getBoundingClientRect();"
            "const drawn = document.getElementById('drawn').getBoundingClientRect();"
            "return drawn.width > 300 && drawn.left >= sheet.left && drawn.right <= sheet.right"
            " && drawn.top >= sheet.top && drawn.bottom <= sheet.bottom")
        self.assertTrue(inside)

    def test_a_phone_shows_sheet_and_lists(self):
        self.page.resize(500, 800)
        wide, window = self.page.script(
            "return [document.documentElement.scrollWidth, innerWidth]")
        self.assertLessEqual(wide, window)


class Sharing(FirefoxCase):
    def test_a_link_leads_to_a_part(self):
        self.open("#part:LEFT/R2")
        self.page.until(lambda: self.page.text("trail") == "stereo.sch / LEFT")
        self.page.until(lambda: self.page.count("#drawn .chosen") == 1)

    def test_all_sheets_are_printed_where_there_is_no_chromium(self):
        with mock.patch("printing.CHROMIUMS", []):
            data, sheets = pdf_of(self.view.url + "print.html")
        self.assertEqual((sheets, pages_of(data)), (2, 2))


class Editing(FirefoxCase):
    def test_a_part_is_chosen_moved_and_turned(self):
        c1 = self.ann.id_of("stereo.sch", "C1")
        self.page.press("#edit")
        self.page.press("#follow")
        self.page.script("const field = document.getElementById('session'); field.value = 'fox';"
                         "field.dispatchEvent(new Event('change', { bubbles: true }))")
        self.page.press(f'#drawn [data-id="{c1}"] path')
        self.page.until(lambda: self.page.count("#drawn .chosen") == 1)
        self.page.keys("ArrowRight", held="Shift")
        self.page.until(lambda: self.page.text("status") == "13 edits")
        self.page.keys("r")
        self.page.until(lambda: self.page.text("status") == "14 edits")
        self.assertIn(" 1 180 0 cap.sym", self.ann.sheet("stereo.sch"))

    def test_what_another_changes_is_seen(self):
        c1 = self.ann.id_of("stereo.sch", "C1")
        self.bob().edit(kind="set_attr", id=c1, name="value", value="220n")
        self.page.until(lambda: "bob: C1 changed: value=100n" in self.page.text("log"))
        self.assertIn("220n", self.page.text("drawn"))

    def test_two_fronts_stand_beside_each_other(self):
        c2 = self.ann.id_of("stereo.sch", "C2")
        self.bob().edit(kind="delete", ids=[c2])
        self.page.until(lambda: self.page.text("status") == "13 edits")
        self.page.keys("5")
        self.page.until(lambda: self.page.count('[data-compare="12"]') == 1)
        self.page.script("document.querySelector('[data-compare=\"12\"]').click()")
        self.page.until(lambda: self.page.count("#past .is-gone") == 1)


if __name__ == "__main__":
    if not binary() or served.program() is None:
        print(f"{'the program' if binary() else 'firefox-esr'} is missing,"
              " so the page is not tried in Firefox")
        sys.exit(0)
    served.bounded(LONGEST)
    unittest.main()
