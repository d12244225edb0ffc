#!/usr/bin/env python3
"""Drives the page of gafd_view in Chromium, over a `gafd serve` of its own, which GAFD names.

It wants the packages chromium, chromium-driver and python3-selenium, and the repository's examples.
Where one is missing it says so, and its status is 0; so it is where no program is built. It takes a
minute or two.
"""
import base64
import json
import os
import pathlib
import random
import re
import subprocess
import sys
import time
import unittest
from xml.etree import ElementTree

from boards import EXAMPLES, HERE, LONGEST, Case, FolderCase, ask, served
from browsers import By, Keys, Page, missing

WIRES = 5000
SHEETS, PARTS = 200, 10_000


class PageCase(Case):
    def page(self, name=None, where="", **size):
        page = Page(self.view.url + where, name, **size)
        self.addCleanup(page.close)
        return page


class SharedCase(Case):
    """A board that all tests of a class look at, and none changes."""

    @classmethod
    def setUpClass(cls):
        cls.board = cls("runTest")
        super().setUp(cls.board)
        cls.addClassCleanup(cls.board.doCleanups)

    def setUp(self):
        self.view, self.ann, self.server = self.board.view, self.board.ann, self.board.server

    def runTest(self):
        pass

    page = PageCase.page


class Looking(SharedCase):
    @classmethod
    def setUpClass(cls):
        super().setUpClass()
        evil = "T 44000 41000 9 10 1 0 0 0 1\n<img src=x onerror=alert(1)><b>&amp;\n"
        for text in ("C 44000 43000 1 0 0 res.sym\n", "N 44000 42000 45000 42000 4\n",
                     "N 45000 42000 46000 42000 4\n", evil):
            cls.board.ann.edit(kind="add_object", sheet="stereo.sch", text=text)

    def test_a_sheet_is_drawn_and_its_nets_are_lit(self):
        page = self.page()
        self.assertEqual(len(page.all("#drawn > .o")), 52)
        self.assertEqual(page.text("trail"), "stereo.sch")
        page.follow("net:+12V")
        self.assertEqual(len(page.all("#drawn .lit")), 11)
        page.open("RIGHT (channel.sch)")
        self.assertEqual(page.text("trail"), "stereo.sch / RIGHT")
        page.follow("net:RIGHT/FB")
        self.assertEqual(len(page.all("#drawn .lit")), 7)
        page.open("LEFT (channel.sch)")
        self.assertEqual(len(page.all("#drawn .lit")), 0)
        page.follow("pin:J2-4")
        self.assertEqual(page.text("trail"), "stereo.sch")
        self.assertEqual(len(page.all("#marks .here")), 1)
        self.assertEqual(page.faults(), [])

    def test_the_first_picture_does_not_wait_for_all_sheets(self):
        page = self.page()
        self.assertEqual(page.text("trail"), "stereo.sch")
        pictured, last = page.script("""
            const asked = performance.getEntriesByType('resource');
            const sheets = asked.filter((it) => it.name.includes('/board/sheets/'));
            return [performance.getEntriesByName('pictured')[0].startTime,
              Math.max(...sheets.map((it) => it.startTime))];""")
        self.assertLess(pictured, last)

    def test_short_names_do_not_break(self):
        page = self.page()
        for tab, selector in (("history", "td:nth-child(2)"), ("nets", "a")):
            page.tab(tab)
            heights = page.script(f"""
                return [...document.querySelectorAll('#list {selector} .name')]
                  .map((it) => it.getClientRects().length);""")
            self.assertEqual(set(heights), {1}, tab)

    def test_a_text_is_marked(self):
        page = self.page()
        text = next(it for it in page.all("#drawn text") if it.text == "POWER")
        act = page.act().move_to_element_with_offset(text, -18, 0).click_and_hold()
        act.move_by_offset(40, 0).release().perform()
        self.assertIn("OWER", page.driver.execute_script("return getSelection().toString()"))

    def test_what_touches_is_lit_where_it_has_no_net(self):
        page = self.page()
        self.assertEqual(len(page.all("#drawn .lit")), 0)
        page.act().move_to_element(page.all("#drawn .N path")[-1]).click().perform()
        page.until(lambda: len(page.all("#drawn .lit")) == 2)
        self.assertIn("no net", page.text("notice"))

    def test_a_sheet_below_is_opened_and_searched(self):
        page = self.page()
        box = page.driver.find_element(By.CSS_SELECTOR, "#drawn .below path")
        page.act().move_to_element(box).double_click().perform()
        self.assertEqual(page.text("trail"), "stereo.sch / LEFT")
        page.driver.find_element(By.ID, "search").send_keys("10k")
        self.assertIn("LEFT/R2", page.text("list"))
        self.assertNotIn("LEFT/R1\n", page.text("list"))

    def test_a_finding_leads_to_its_part(self):
        page = self.page()
        page.tab("findings")
        self.assertIn("Unnumbered R?", page.text("list"))
        page.driver.find_element(By.CSS_SELECTOR, "#list .error").click()
        self.assertEqual(len(page.all("#drawn .chosen")), 1)

    def test_a_sheet_is_printed_on_one_light_page(self):
        page = self.page()
        page.driver.find_element(By.ID, "dark").click()
        printed = page.driver.execute_cdp_cmd("Page.printToPDF", {"preferCSSPageSize": True})
        pdf = base64.b64decode(printed["data"])
        self.assertEqual(len(re.findall(rb"/Type\s*/Page\b", pdf)), 1)
        page.until(lambda: "dark" in page.driver.find_element(By.TAG_NAME,
                                                              "body").get_attribute("class"))

    def test_what_is_written_on_a_sheet_is_text(self):
        page = self.page()
        self.assertEqual(len(page.all("#sheet img, #sheet b")), 0)
        self.assertIn("<img src=x", page.text("sheet"))


def contrast(one, other):
    """The contrast of two colours, each as three numbers up to 255."""

    def brightness(colour):
        shares = (it / 255 for it in colour)
        lights = [it / 12.92 if it <= 0.03928 else ((it + 0.055) / 1.055) ** 2.4 for it in shares]
        return 0.2126 * lights[0] + 0.7152 * lights[1] + 0.0722 * lights[2]

    low, high = sorted(map(brightness, (one, other)))
    return (high + 0.05) / (low + 0.05)


class Sharing(SharedCase):
    def test_a_link_leads_to_a_part_or_a_net_on_any_sheet(self):
        page = self.page(where="#part:LEFT/R2")
        page.until(lambda: page.text("trail") == "stereo.sch / LEFT")
        page.until(lambda: len(page.all("#drawn .chosen")) == 1)
        page.until(lambda: page.address() == "#channel.sch@LEFT&part:LEFT/R2")
        page = self.page(where="#channel.sch@RIGHT&net:RIGHT/FB")
        page.until(lambda: len(page.all("#drawn .lit")) == 7)
        self.assertEqual(page.text("trail"), "stereo.sch / RIGHT")
        page.script("location.hash = '#net:LEFT/FB'")
        page.until(lambda: page.text("trail") == "stereo.sch / LEFT")
        page.until(lambda: len(page.all("#drawn .lit")) == 7)
        self.assertEqual(page.faults(), [])

    def test_the_address_tells_what_is_shown(self):
        page = self.page()
        page.press(self.ann.id_of("stereo.sch", "C1"))
        self.assertEqual(page.address(), "#stereo.sch@&part:C1")
        page.one("#link").click()
        page.until(lambda: page.text("notice").endswith("#stereo.sch@&part:C1"))
        page.follow("net:GND")
        self.assertEqual(page.address(), "#stereo.sch@&part:C1&net:GND")
        page.keys(Keys.ESCAPE)
        self.assertEqual(page.address(), "#stereo.sch@")

    def test_a_link_leads_to_a_comparison(self):
        page = self.page(where="#stereo.sch@&compare=12")
        page.until(lambda: page.all(".comparing"), 240)
        self.assertIn("since edit 12", page.text("list"))
        page.keys(Keys.ESCAPE)
        self.assertEqual(page.address(), "#stereo.sch@")

    def test_what_lies_in_a_rectangle_is_chosen(self):
        page = self.page()
        c1 = self.ann.id_of("stereo.sch", "C1")
        box = page.drawn(c1).rect
        act = page.act().move_to_element_with_offset(page.drawn(c1), -box["width"] / 2 - 4,
                                                     -box["height"] / 2 - 4)
        act.key_down(Keys.SHIFT).click_and_hold()
        act.move_by_offset(box["width"] / 2, box["height"] / 2)
        act.move_by_offset(box["width"] / 2 + 8, box["height"] / 2 + 8).perform()
        self.assertEqual(len(page.all("#marks .area")), 1)
        self.assertEqual(page.script("return getSelection().toString()"), "")
        page.act().release().key_up(Keys.SHIFT).perform()
        chosen = [it.get_attribute("data-id") for it in page.all("#drawn .chosen")]
        self.assertIn(str(c1), chosen)
        self.assertLess(len(chosen), 6)
        self.assertEqual(page.all("#marks .area"), [])
        page.keys(Keys.ESCAPE, "a")
        self.assertGreater(len(page.all("#drawn .chosen")), 40)

    def test_tabs_are_told_and_walked(self):
        page = self.page()
        page.script("document.querySelector('[role=tab][aria-selected=true]').focus()")
        page.act().send_keys(Keys.ARROW_RIGHT).perform()
        now = """
            const { dataset, id } = document.activeElement;
            return [dataset.tab, id, document.getElementById('list').getAttribute('aria-labelledby'),
              document.activeElement.getAttribute('aria-controls')];"""
        self.assertEqual(page.script(now), ["findings", "tab-findings", "tab-findings", "list"])
        page.act().send_keys(Keys.END).perform()
        self.assertEqual(page.script(now)[0], page.all("#tabs [role=tab]:not([hidden])")[-1]
                         .get_attribute("data-tab"))
        self.assertEqual([it.get_attribute("tabindex") for it in page.all("#tabs [tabindex='0']")],
                         ["0"])

    def test_nets_and_busses_are_seen_on_both_grounds(self):
        page = self.page()
        script = """
            document.body.classList.toggle('dark', arguments[0]);
            const of = (name) => {
              const made = document.createElement('i');
              made.className = name;
              document.body.append(made);
              const { color } = getComputedStyle(made);
              made.remove();
              return color.match(/[0-9]+/g).slice(0, 3).map(Number);
            };
            return [of('k0'), of('k4'), of('k10')];"""
        for is_dark in (True, False):
            ground, *colours = page.driver.execute_script(script, is_dark)
            for colour in colours:
                self.assertGreaterEqual(contrast(ground, colour), 4.5, (is_dark, colour))

    def test_a_sheet_is_saved_as_svg(self):
        page = self.page()
        text = page.driver.execute_async_script("""
            const done = arguments[0];
            URL.createObjectURL = (blob) => { blob.text().then(done); return 'data:,'; };
            document.getElementById('svg').click();""")
        svg = ElementTree.fromstring(text.encode())
        self.assertEqual(svg.tag, "{http://www.w3.org/2000/svg}svg")
        self.assertEqual(len(svg.findall("{*}g")), len(page.all("#drawn > .o")))
        self.assertTrue(svg.get("width").endswith("mm"))

    def test_all_sheets_are_printed_a_page_each(self):
        page = self.page(where="print.html")
        page.until(lambda: page.script("return document.body.dataset.sheets") == "2")
        self.assertEqual([it.text.split()[0] for it in page.all("h2")],
                         ["stereo.sch", "channel.sch"])
        self.assertIn("LEFT, RIGHT", page.all("h2")[1].text)
        path = self.board.folder / "board.pdf"
        words = [sys.executable, str(HERE.parent), "--pdf", str(path), self.server.url]
        told = subprocess.run(words, capture_output=True, text=True, timeout=600, check=False)
        self.assertEqual((told.returncode, told.stdout), (0, f"{path}: 2 sheets\n"), told.stderr)
        self.assertEqual(len(re.findall(rb"/Type\s*/Page\b", path.read_bytes())), 2)


class Editing(PageCase):
    def test_what_was_taken_back_is_done_again(self):
        page = self.page("ann")
        c1 = self.ann.id_of("stereo.sch", "C1")
        was, nets = self.ann.sheet("stereo.sch"), self.view.ask("/board/netlist/list")[1]
        page.press(c1)
        page.act().key_down(Keys.SHIFT).send_keys(Keys.ARROW_RIGHT).key_up(Keys.SHIFT).perform()
        page.until(lambda: "moved with its wires" in page.text("notice"))
        page.pictured("followed")
        moved = self.ann.sheet("stereo.sch")
        self.assertNotEqual(moved, was)
        self.assertEqual(self.view.ask("/board/netlist/list")[1], nets)
        self.assertEqual(len(page.all("#marks .loose")), 0)
        for button, wanted in (("undo", was), ("redo", moved), ("undo", was), ("redo", moved)):
            page.until(lambda: not page.all(".sending"))
            page.one(f"#{button}").click()
            page.until(lambda wanted=wanted: self.ann.sheet("stereo.sch") == wanted, 60)
        page.until(lambda: not page.all(".sending"))
        page.one("#redo").click()
        self.assertIn("nothing of yours to do again", page.text("notice"))

    def test_one_edits_and_the_other_sees_it(self):
        [ann, bob] = [self.page("ann"), self.page()]
        c1 = self.ann.id_of("stereo.sch", "C1")
        field = ann.field(c1, "value")
        field.send_keys(Keys.CONTROL + "a" + Keys.NULL + "220n" + Keys.ENTER)
        bob.until(lambda: "220n" in bob.drawn(c1).text)
        bob.until(lambda: "ann: C1 changed: value=100n → value=220n" in bob.text("log"))
        # The mark is beside the drawing, which stays as it is.
        self.assertEqual(len(bob.all("#marks .changed")), 1)
        self.assertNotIn("changed", bob.drawn(c1).get_attribute("class"))
        self.assertTrue(bob.script("return document.getAnimations().length === 0"))
        ann.driver.find_element(By.ID, "undo").click()
        bob.until(lambda: "100n" in bob.drawn(c1).text)

    def test_a_part_is_moved_turned_and_deleted(self):
        page = self.page("ann")
        c1 = self.ann.id_of("stereo.sch", "C1")
        text = self.ann.sheet("stereo.sch")
        line = re.search(r"^C (\d+) (\d+) 1 90 0 cap.sym\n(?:.*\n){1,9}?refdes=C1$", text, re.M)
        x, y = int(line[1]), int(line[2])
        page.one("#follow").click()
        body = page.drawn(c1).find_element(By.CSS_SELECTOR, "path")
        page.act().drag_and_drop_by_offset(body, 60, -30).perform()
        page.until(lambda: page.text("status") == "13 edits")
        row = self.folder / "store" / f"{12:010}.json"
        edit = json.loads(row.read_text())["edit"]
        self.assertEqual((edit["kind"], edit["dx"] % 100, edit["dy"] % 100), ("move", 0, 0))
        self.assertGreater(min(edit["dx"], edit["dy"]), 0)
        moved = f"C {x + edit['dx']} {y + edit['dy']} 1 90 0 cap.sym"
        self.assertIn(moved, self.ann.sheet("stereo.sch"))
        page.act().send_keys("r").perform()
        page.until(lambda: page.text("status") == "14 edits")
        self.assertIn(" 1 180 0 cap.sym", self.ann.sheet("stereo.sch"))
        page.act().send_keys(Keys.DELETE).perform()
        page.until(lambda: page.text("status") == "15 edits")
        self.assertNotIn("refdes=C1\n", self.ann.sheet("stereo.sch"))
        page.act().key_down(Keys.CONTROL).send_keys("z").key_up(Keys.CONTROL).perform()
        page.until(lambda: page.text("status") == "16 edits")
        self.assertIn("refdes=C1\n", self.ann.sheet("stereo.sch"))
        page.until(lambda: len(page.all(f'#drawn [data-id="{c1}"]')) == 1)

    def test_who_came_second_is_told_by_whom(self):
        page, bob = self.page("ann"), self.bob()
        c1 = self.ann.id_of("stereo.sch", "C1")
        field = page.field(c1, "value")
        field.click()
        bob.edit(kind="set_attr", id=c1, name="value", value="470n")
        page.until(lambda: "470n" in page.drawn(c1).text)
        field.send_keys(Keys.CONTROL + "a" + Keys.NULL + "1u" + Keys.ENTER)
        page.until(lambda: "bob changed C1 meanwhile" in page.text("notice"))
        self.assertIn("value=470n", self.ann.sheet("stereo.sch"))
        self.assertIn("470n", page.drawn(c1).text)
        self.assertEqual(page.all('[data-attribute="value"]')[0].get_attribute("value"), "470n")

    def test_an_edit_without_a_name_is_not_sent(self):
        page = self.page("")
        page.driver.find_element(By.ID, "renumber").click()
        self.assertIn("write your name", page.text("notice"))


class Marking(PageCase):
    def test_findings_are_marked_where_they_are(self):
        self.ann.edit(kind="add_object", sheet="stereo.sch", text="C 44000 43000 1 0 0 res.sym\n")
        page = self.page()
        marks = page.all("#findings .finding")
        self.assertEqual(sorted(it.get_attribute("data-finding") for it in marks),
                         ["UnconnectedPin R?-1", "UnconnectedPin R?-2", "Unnumbered R?"])
        page.script("document.querySelector('#findings .finding').dispatchEvent("
                    "new MouseEvent('click', {bubbles: true}))")
        self.assertEqual(len(page.all("#list tr.on")), 1)
        self.assertIn("check 3", page.text("tabs"))
        self.assertIn("UnconnectedPin 2 nothing is joined to the pin", page.text("list"))

    def test_a_finding_with_a_place_is_marked_there(self):
        page = self.page()
        page.script("return Promise.all(['state', 'following'].map((it) => import(`/${it}.js`)))"
                    ".then(([{ board }, { showNets }]) => { board.findings.push({ level: 'error',"
                    "name: 'LooseEnd', words: ['stereo.sch', '44000,43000'] }); showNets(); })")
        mark = page.one('#findings [data-finding="LooseEnd stereo.sch 44000,43000"] path')
        self.assertTrue(mark.get_attribute("d").startswith("M44000 -43000"))
        page.tab("findings")
        page.follow("place:stereo.sch:44000,43000")
        page.until(lambda: page.all("#marks .here"))
        page.pictured("place")

    def test_findings_of_a_rule_are_folded_where_they_are_many(self):
        lone = "C 44000 4{0}000 1 0 0 res.sym\n{{\nT 0 0 5 10 1 1 0 0 1\nrefdes=R9{0}\n}}\n"
        for at in range(3):
            self.ann.edit(kind="add_object", sheet="stereo.sch", text=lone.format(at))
        self.ann.edit(kind="add_object", sheet="stereo.sch", text="C 44000 45000 1 0 0 cap.sym\n")
        page = self.page()
        page.tab("findings")
        fold = 'details[data-rule="UnconnectedPin"]'
        page.until(lambda: "UnconnectedPin 8" in page.text("list"), 30)
        self.assertIsNone(page.one(fold).get_attribute("open"))
        self.assertIsNotNone(page.one('details[data-rule="Unnumbered"]').get_attribute("open"))
        page.one(f"{fold} summary").click()
        self.ann.edit(kind="add_object", sheet="stereo.sch", text="N 0 0 100 0 4\n")
        page.until(lambda: page.text("status") == f"{self.ann.front()} edits")
        self.assertIsNotNone(page.one(fold).get_attribute("open"))

    def test_rails_that_meet_are_told_and_marked(self):
        page = self.page()
        self.assertNotIn("RailsMeet", page.text("list"))
        points = {it.basename: it.text.split()[1:3] for it in self.ann.objects("stereo.sch")
                  if it.letter == "C" and it.basename in ("gnd.sym", "plus12.sym")}
        (x1, y1), (x2, y2) = points["gnd.sym"], points["plus12.sym"]
        self.ann.edit(kind="add_object", sheet="stereo.sch", text=f"N {x1} {y1} {x2} {y2} 4\n")
        page.tab("findings")
        page.until(lambda: "RailsMeet" in page.text("list"))
        row = next(it.text for it in page.all("#list tr.error") if "RailsMeet" in it.text)
        self.assertEqual(row.split()[2:], ["+12V", "GND"])
        self.assertTrue(page.all('#findings [data-finding^="RailsMeet"]'))

    def test_a_symbol_that_changes_is_drawn_anew(self):
        self.ann.edit(kind="add_object", sheet="stereo.sch", text="C 44000 43000 1 0 0 own.sym\n")
        page = self.page()
        self.assertIn("own.sym", page.text("sheet"))
        serial = self.ann.edit(kind="add_symbol", name="own.sym",
                               text="v 20130925 2\nT 0 0 9 10 1 0 0 0 1\nfirst\n")
        page.until(lambda: "first" in page.text("sheet"))
        self.ann.edit(kind="undo", serial=serial)
        page.until(lambda: "own.sym" in page.text("sheet"))
        self.ann.edit(kind="add_symbol", name="own.sym",
                      text="v 20130925 2\nT 0 0 9 10 1 0 0 0 1\nsecond\n")
        page.until(lambda: "second" in page.text("sheet"))


    def test_a_symbol_that_was_replaced_is_shown_and_told(self):
        page, bob = self.page(), self.bob()
        text = (EXAMPLES / "cap.sym").read_text()
        serial = bob.edit(kind="replace_symbol", name="cap.sym",
                          text=text + "T 0 0 9 10 1 0 0 0 1\nnew look\n")
        page.until(lambda: page.text("sheet").count("new look") == 4)
        page.tab("history")
        page.until(lambda: "changed the symbol cap.sym" in page.text("list"))
        page.script(f"document.querySelector('[data-compare=\"{serial}\"]').click()")
        page.until(lambda: page.all(".comparing"), 240)
        self.assertEqual(len(page.all("#drawn .is-changed")), 4)
        self.assertIn("C1: its symbol cap.sym", page.text("list"))
        page.keys(Keys.ESCAPE)
        bob.edit(kind="undo", serial=serial)
        page.until(lambda: "new look" not in page.text("sheet"))
        self.assertEqual(page.faults(), [])


class Comparing(PageCase):
    def test_two_fronts_stand_beside_each_other(self):
        c1, c2 = (self.ann.id_of("stereo.sch", it) for it in ("C1", "C2"))
        bob = self.bob()
        bob.edit(kind="set_attr", id=c1, name="value", value="220n")
        bob.edit(kind="delete", ids=[c2])
        bob.edit(kind="add_object", sheet="stereo.sch", text="N 44000 42000 45000 42000 4\n")
        page = self.page()
        page.tab("history")
        page.script("document.querySelector('[data-compare=\"12\"]').click()")
        page.until(lambda: page.all(".comparing"), 240)
        [added] = page.all("#drawn .is-added")
        self.assertEqual(added.get_attribute("data-id"), str(self.ann.ids("stereo.sch")[-1]))
        self.assertEqual([it.get_attribute("data-id") for it in page.all("#drawn .is-changed")],
                         [str(c1)])
        self.assertEqual(len(page.all("#past .is-gone")), 1)
        self.assertIn("10u", page.one("#past .is-gone").text)
        self.assertIn("changed C1 changed: value=100n → value=220n", page.text("list"))
        self.assertIn("part C2", page.text("list"))
        self.assertEqual(self.net_lines(page), self.told_by_netdiff(12))
        page.follow("net:GND")
        self.assertTrue(page.all("#drawn .lit"))
        page.keys(Keys.ESCAPE)
        self.assertEqual(len(page.all(".comparing, #past > *, #drawn .is-added")), 0)
        self.assertEqual(page.faults(), [])

    def test_any_two_moments_stand_beside_each_other_on_all_sheets(self):
        c1, c2 = (self.ann.id_of("stereo.sch", it) for it in ("C1", "C2"))
        r4 = self.ann.id_of("channel.sch", "R4")
        bob = self.bob()
        bob.edit(kind="set_attr", id=c1, name="value", value="220n")
        bob.edit(kind="set_attr", id=r4, name="value", value="22k")
        bob.edit(kind="delete", ids=[c2])
        bob.edit(kind="set_attr", id=c1, name="value", value="330n")
        page = self.page()
        page.tab("history")
        page.until(lambda: page.all(".moments"))
        page.one('.moments [name="front"]').send_keys("12")
        page.one('.moments [name="to"]').send_keys("14" + Keys.ENTER)
        page.until(lambda: page.all(".two-past"), 240)
        self.assertEqual(page.address(), "#stereo.sch@&compare=12..14")
        self.assertIn("C1 changed: value=100n → value=220n", page.text("list"))
        self.assertIn("channel.sch", page.text("list"))
        self.assertNotIn("C2", page.text("list"))
        self.assertIn("220n", page.one("#past .is-changed").text)
        self.assertEqual(len(page.all("#past .same")), len(self.ann.ids("stereo.sch")))
        page.pictured("two_moments")
        page.follow("sheet:channel.sch")
        page.until(lambda: "value=22k" in page.text("list"))
        self.assertEqual(len(page.all("#past .is-changed")), 1)
        page.keys(Keys.ESCAPE)
        self.assertEqual(len(page.all(".comparing, .two-past, #past > *")), 0)
        page.driver.get(f"{self.view.url}#stereo.sch@&compare=13..15")
        page.driver.refresh()
        page.until(lambda: page.all("#past .is-gone"), 240)
        self.assertIn("gone C2", page.text("list"))
        self.assertEqual(page.faults(), [])


    def net_lines(self, page):
        """What the page tells of nets and parts, word by word."""
        rows = (it.text.split() for it in page.all("#list .netdiff tr"))
        return sorted([words[0] + " " + words[1], *words[2:]] for words in rows)

    def told_by_netdiff(self, front):
        """What the script tells of the lists of then and now."""
        lists = []
        for name, path in (("old", f"/at/{front}/netlist/list"), ("new", "/board/netlist/list")):
            lists.append(self.folder / name)
            lists[-1].write_text(self.view.ask(path)[1])
        words = [str(served.TOP / "contrib/gafd-netdiff"), *map(str, lists)]
        told = subprocess.run(words, capture_output=True, text=True, check=False).stdout
        return sorted([line.split("\t")[0], *line.split()[2:]] for line in told.splitlines())


class Drawing(PageCase):
    def newest(self):
        return self.ann.objects("stereo.sch")[-1].text

    def draws(self, page, count):
        page.until(lambda: page.text("status") == f"{count} edits")
        return self.newest()

    def test_a_wire_a_component_and_a_text_are_drawn_by_the_keys(self):
        page = self.page("ann")
        page.keys("w", Keys.ENTER, *[Keys.ARROW_RIGHT] * 3, Keys.ENTER)
        wire = self.draws(page, 13).split()
        self.assertEqual((wire[0], int(wire[3]) - int(wire[1]), wire[4]), ("N", 300, wire[2]))
        page.keys(Keys.ESCAPE, "c")
        page.one("#component-name").send_keys("res.sym" + Keys.ENTER)
        page.keys(Keys.ARROW_DOWN, Keys.ENTER)
        part = self.draws(page, 14)
        self.assertRegex(part, r"^C -?\d+00 -?\d+00 1 0 0 res\.sym\n\{\n(.*\n)*refdes=R\?\n\}\n$")
        page.keys(Keys.ESCAPE, "t")
        page.one("#text-name").send_keys("a note" + Keys.ENTER)
        page.keys(Keys.ENTER)
        self.assertRegex(self.draws(page, 15), r"^T \S+ \S+ 9 10 1 0 0 0 1\na note\n$")
        page.keys(Keys.ESCAPE)
        self.assertEqual(page.faults(), [])

    def test_a_wire_is_drawn_by_two_clicks(self):
        page = self.page("ann")
        page.one("#draw-wire").click()
        sheet = page.one("#sheet")
        page.act().move_to_element_with_offset(sheet, -300, -300).click().perform()
        page.act().move_to_element_with_offset(sheet, -200, -300).click().perform()
        wire = self.draws(page, 13).split()
        self.assertEqual(wire[0], "N")
        self.assertEqual([int(it) % 100 for it in wire[1:5]], [0] * 4)

    def test_a_text_is_written_anew(self):
        self.ann.edit(kind="add_object", sheet="stereo.sch",
                      text="T 44000 43000 9 10 1 0 90 3 1\nold\n")
        page = self.page("ann")
        number = self.ann.ids("stereo.sch")[-1]
        page.act().move_to_element(page.drawn(number).find_element(By.CSS_SELECTOR,
                                                                   "text")).click().perform()
        page.tab("object")
        field = page.one("[data-text]")
        field.send_keys(Keys.CONTROL + "a" + Keys.NULL + "new" + Keys.ENTER + "lines")
        page.one("#session").click()
        self.assertEqual(self.draws(page, 14), "T 44000 43000 9 10 1 0 90 3 2\nnew\nlines\n")

    def test_what_comes_loose_is_ringed(self):
        page = self.page("ann")
        page.one("#follow").click()
        c1 = self.ann.id_of("stereo.sch", "C1")
        page.press(c1)
        page.act().key_down(Keys.SHIFT).send_keys(Keys.ARROW_RIGHT).key_up(Keys.SHIFT).perform()
        page.until(lambda: page.text("status") == "13 edits")
        page.until(lambda: page.all("#marks .loose"))


class ByKeys(SharedCase):
    def test_all_is_reached_by_the_keyboard(self):
        page = self.page()
        page.keys("n", "n")
        self.assertEqual([it.get_attribute("data-id") for it in page.all("#drawn .chosen")],
                         [str(self.ann.ids("stereo.sch")[1])])
        page.keys("3")
        self.assertIn("C1", page.text("list"))
        page.script("document.querySelector('#list [data-link]').focus()")
        page.act().send_keys(Keys.ENTER).perform()
        page.until(lambda: len(page.all("#marks .here")) == 1)
        page.keys("/")
        page.act().send_keys("LEFT/R2" + Keys.ENTER).perform()
        page.until(lambda: page.text("trail") == "stereo.sch / LEFT")
        page.keys(Keys.ESCAPE, Keys.BACKSPACE)
        page.until(lambda: page.text("trail") == "stereo.sch")
        page.keys("?")
        self.assertTrue(page.one("#help").is_displayed())

    def test_a_phone_shows_sheet_and_lists(self):
        page = self.page(width=390, height=800)
        wide = page.script("return document.documentElement.scrollWidth")
        self.assertLessEqual(wide, page.script("return innerWidth"))
        for name in ("sheet", "list"):
            size = page.one(f"#{name}").rect
            self.assertGreater(size["height"], 120)
            self.assertGreater(size["width"], 300)


class Files(FolderCase):
    def test_a_folder_is_shown_and_followed(self):
        page = Page(self.viewed(self.folder).url)
        self.addCleanup(page.close)
        self.assertEqual(page.text("trail"), "stereo.sch")
        self.assertEqual(len(page.all("#drawn > .o")), 48)
        self.assertFalse(page.one("#edit").is_displayed())
        page.follow("net:+12V")
        self.assertEqual(len(page.all("#drawn .lit")), 11)
        path = self.folder / "stereo.sch"
        text = path.read_text()
        path.write_text(text.replace("value=100n", "value=330n", 1))
        page.until(lambda: "330n" in page.text("sheet"))
        page.until(lambda: "value=100n → value=330n" in page.text("log"))
        path.write_text(text + "N 0 0 x 0 4\n")
        page.tab("findings")
        page.until(lambda: "BadNumber" in page.text("list"))
        self.assertEqual(len(page.all("#drawn > .o")), 48)
        path.write_text(text)
        page.until(lambda: "BadNumber" not in page.text("list"))


class Following(PageCase):
    def test_what_came_in_pieces_is_what_is_read_anew(self):
        page, bob, random_ = self.page(), self.bob(), random.Random(7)
        ids = bob.ids("stereo.sch")
        for step in range(120):
            kind = random_.choice(["move", "move", "add_object", "delete", "add_sheet"])
            if kind == "move":
                some = sorted(random_.sample(ids, 3))
                bob.edit(kind="move", ids=some, dx=random_.randrange(-3, 4) * 100, dy=100)
            elif kind == "add_object":
                bob.edit(kind="add_object", sheet="stereo.sch",
                         text=f"N {step * 100} 0 {step * 100} 900 4\n")
                ids.append(bob.ids("stereo.sch")[-1])
            elif kind == "delete" and len(ids) > 30:
                bob.edit(kind="delete", ids=[ids.pop()])
            else:
                bob.edit(kind="add_sheet", name=f"s{step}.sch", text="v 20130925 2\n")
        page.until(lambda: page.text("status") == f"{bob.front()} edits", 120)
        self.assertEqual(self.pieces(page), self.pieces(self.page(where="#stereo.sch@")))
        self.assertEqual(page.faults(), [])

    def pieces(self, page):
        """What is drawn, by id."""
        script = "return [...document.querySelectorAll('#drawn > .o, #cues')].map(it => it.outerHTML)"
        return sorted(page.driver.execute_script(script))


class Empty(PageCase):
    files = []

    def test_sheets_come_and_go(self):
        page, bob = self.page(), self.bob()
        part = "v 20130925 2\nC 0 0 1 0 0 res.sym\n{\nT 0 0 5 10 1 1 0 0 1\nrefdes=R9\n}\n"
        for edit in ({"kind": "add_sheet", "name": "b.sch", "text": part},
                     {"kind": "add_sheet", "name": "a.sch", "text": "v 20130925 2\nN 0 0 1 0 4\n"}):
            bob.edit(**edit)
        page.until(lambda: page.text("status") == "2 edits")
        page.open("b.sch")
        self.assertIn("res.sym", page.text("sheet"))
        bob.add(EXAMPLES / "res.sym")
        page.until(lambda: "res.sym" not in page.text("sheet"))
        bob.edit(kind="undo", serial=0)
        page.until(lambda: page.text("trail") == "a.sch")
        bob.edit(kind="undo", serial=1)
        page.until(lambda: page.text("trail") == "" and not page.all("#drawn > .o"))
        bob.edit(kind="undo", serial=4)
        page.until(lambda: page.text("trail") == "a.sch" and len(page.all("#drawn > .o")) == 1)


class Far(PageCase):
    def test_a_server_that_goes_away_comes_back(self):
        page = self.page()
        self.server.stop()
        page.until(lambda: "the server is away since" in page.text("status"))
        self.assertEqual(len(page.all("#drawn > .o")), 48)
        self.server.start()
        self.ann.edit(kind="add_object", sheet="stereo.sch", text="N 44000 42000 45000 42000 4\n")
        page.until(lambda: page.text("status") == "13 edits")
        self.assertEqual(len(page.all("#drawn > .o")), 49)


class Large(PageCase):
    files = ["res.sym"]

    def sheet_of(self, count, wires=4, prefix="R"):
        """A sheet of parts with two texts each, and wires; so many objects a part and its wires
        are."""
        rows = ["v 20130925 2"]
        for at in range(count):
            x, y = 1000 * (at % 40), 1000 * (at // 40)
            rows += [f"C {x} {y} 1 0 0 res.sym", "{"]
            rows += [f"T {x} {y + 200} 5 10 1 1 0 0 1", f"refdes={prefix}{at}"]
            rows += [f"T {x} {y - 200} 5 10 1 1 0 0 1", "value=10k", "}"]
            rows += [f"N {x + 100 * one} {y + 500} {x + 100 * one} {y + 700} 4"
                     for one in range(wires)]
        return "\n".join(rows) + "\n"

    def tell(self, what, milliseconds, most):
        """Says how long something took; on a machine with little else to do it takes at most so
        many milliseconds."""
        load = os.getloadavg()[0] / os.cpu_count()
        print(f"{what}: {milliseconds:.0f} ms, load {load:.1f}", flush=True)
        if load < 1:
            self.assertLess(milliseconds, most)

    def test_a_large_sheet_is_there_soon(self):
        self.ann.add(pathlib.Path("large.sch"), self.sheet_of(WIRES // 5))
        self.tell(f"{WIRES} objects: first picture after",
                  min(self.first_picture() for _ in range(3)), 3_000)

    def first_picture(self):
        page = Page(self.view.url)
        try:
            self.assertEqual(len(page.all("#drawn > .o")), WIRES)
            self.texts_are_left_out_from_afar(page)
            return page.script("return performance.getEntriesByName('pictured')[0].startTime")
        finally:
            page.close()

    def texts_are_left_out_from_afar(self, page):
        """Texts are drawn where their letters are four pixels high, however far that is."""
        script = "return getComputedStyle(document.querySelector('#drawn text')).display"
        mils = page.script("return 1 / document.getElementById('sheet').getScreenCTM().a")
        self.assertEqual(page.script(script), "none" if 10 * 1300 / 72 < 4 * mils else "block")
        page.keys(*"+" * 12)
        page.until(lambda: page.script(script) == "block")

    def test_a_board_of_many_sheets_is_quick(self):
        for at in range(SHEETS):
            self.ann.add(pathlib.Path(f"s{at:03}.sch"),
                         self.sheet_of(PARTS // SHEETS, 1, f"R{at:03}_"))
        page = self.page("ann")
        page.until(lambda: f"parts {PARTS}" in page.text("tabs"), 240)
        page.one("#follow").click()
        number = self.ann.ids("s000.sch")[0]
        page.press(number)
        times = []
        for _ in range(3):
            before = page.drawn(number).find_element(By.CSS_SELECTOR, "path").get_attribute("d")
            page.script(f"""
                window.edited = null;
                const began = performance.now();
                new MutationObserver((_, observer) => {{
                  const path = document.querySelector('#drawn [data-id="{number}"] path');
                  if (!path || path.getAttribute('d') === '{before}') return;
                  observer.disconnect();
                  requestAnimationFrame(() => {{ window.edited = performance.now() - began; }});
                }}).observe(document.getElementById('drawn'), {{ childList: true, subtree: true }});
                document.getElementById('sheet').dispatchEvent(new KeyboardEvent('keydown',
                  {{ key: 'ArrowRight', shiftKey: true, bubbles: true }}));
                """)
            page.until(lambda: page.script("return window.edited"), 240)
            times.append(page.script("return window.edited"))
        page.until(lambda: page.text("status") == f"{SHEETS + 4} edits", 240)
        self.tell(f"{SHEETS} sheets, {PARTS} parts: from edit to picture", min(times),
                  1_000)
        self.is_idle(page)

    def is_idle(self, page):
        """Nothing but the list of sheets is asked for, each two seconds."""
        page.until(lambda: not page.all("#marks > g"), 240)
        asked = page.script("performance.clearResourceTimings(); return 0")
        time.sleep(10)
        asked = page.script("return performance.getEntriesByType('resource').map(it => it.name)")
        self.assertEqual({it.rsplit("/", 1)[1] for it in asked}, {"sheets"})
        self.assertLessEqual(len(asked), 6)


if __name__ == "__main__":
    if missing() or served.program() is None:
        print(f"{missing() or 'the program'} is missing, so the page is not tried in a browser")
        sys.exit(0)
    served.bounded(LONGEST)
    unittest.main()
