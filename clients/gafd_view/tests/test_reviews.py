#!/usr/bin/env python3
"""Drives proposals and notes on the page of gafd_view in Chromium, over a `gafd serve` of its own,
which GAFD names; proposals are made and accepted by gafd_sync.

It wants the packages chromium, chromium-driver and python3-selenium, and the repository's examples.
Where one is missing it says so, and its status is 0; so it is where no program is built. PICTURES
names a folder into which pictures of the page are put.
"""
import sys
import unittest

from boards import LONGEST, Case, served
from browsers import Page, missing
from laboratory import asked


class ReviewCase(Case):
    """A board with reviews, and folders of two people."""

    def setUp(self):
        super().setUp()
        self.reviews = self.folder / "reviews"
        self.view = self.viewed("--store", self.store, "--reviews", self.reviews,
                                "--boards", "/boards.html", self.server.url)
        for name in ("ann", "bob"):
            (self.folder / name).mkdir()
            self.client(name, "pull")

    def client(self, name, *words):
        words = ["--server", self.server.url, "--reviews", str(self.reviews), "--session", name,
                 *words]
        status, said = asked(self.folder / name, *words)
        self.assertEqual(status, 0, said)
        return said

    def draws(self, name, old, new, sheet="stereo.sch"):
        path = self.folder / name / sheet
        text = path.read_text()
        self.assertEqual(text.count(old), 1)
        path.write_text(text.replace(old, new))

    def page(self, where=""):
        page = Page(self.view.url + where)
        self.addCleanup(page.close)
        page.until(lambda: page.one('[data-tab="reviews"]').is_displayed())
        page.tab("reviews")
        return page

    def looks(self, page, name):
        page.until(lambda: name in page.text("list"))
        page.script(f"document.querySelector('[data-proposal=\"{name}\"]').click()")
        page.until(lambda: page.all("#end-comparison"))


class Reviews(ReviewCase):
    def test_a_proposal_is_looked_at_and_accepted(self):
        c1, c2 = (self.ann.id_of("stereo.sch", it) for it in ("C1", "C2"))
        text = (self.folder / "ann/stereo.sch").read_text()
        [part] = [it.text for it in self.ann.objects("stereo.sch")
                  if "C2" in it.values("refdes")]
        self.assertIn(part, text)
        self.draws("ann", part, "N 44000 42000 45000 42000 4\n")
        self.draws("ann", "refdes=C1\n", "refdes=C9\n")
        self.client("ann", "propose", "fewer", "-m", "C2 is not needed\n<b>is it?</b>")
        page = self.page()
        page.until(lambda: "fewer" in page.text("list"))
        self.assertIn("reviews 1", page.text("tabs"))
        self.assertIn("C2 is not needed\n<b>is it?</b>", page.text("list"))
        page.pictured("list")
        front = self.ann.front()
        self.looks(page, "fewer")
        kinds = ("is-added", "is-gone", "is-changed")
        self.assertEqual([len(page.all(f"#past .{it}")) for it in kinds], [1, 1, 1])
        page.pictured("look")
        for line in ("fewer open, by ann", "added a wire", "gone C2", "refdes=C9",
                     "net +12V +C9-2 -C1-2 -C2-2"):
            self.assertIn(line, page.text("list"))
        self.assertEqual(self.ann.front(), front)
        page.keys("\ue00c")
        page.until(lambda: not page.all("#past *"))
        self.client("bob", "accept", "fewer")
        page.until(lambda: "accepted by bob, proposed by ann" in page.text("list"))
        page.until(lambda: not page.all(f'#drawn [data-id="{c2}"]'))
        self.assertIn("C9", page.drawn(c1).text)
        self.assertEqual(page.faults(), [])

    def test_one_that_went_stale_is_shown_as_it_was_meant(self):
        self.draws("ann", "refdes=C1\n", "refdes=C9\n")
        self.client("ann", "propose", "other", "-m", "C1 is taken")
        page = self.page()
        page.until(lambda: "open by ann" in page.text("list"))
        c1 = self.ann.id_of("stereo.sch", "C1")
        self.bob().edit(kind="set_attr", id=c1, name="value", value="1u")
        page.until(lambda: "stale by ann" in page.text("list"))
        self.assertIn("stereo.sch: changed since: ", page.text("list"))
        self.looks(page, "other")
        self.assertIn("as it was meant, on the board after 12 edits", page.text("list"))
        self.assertEqual([len(page.all(f"#past .{it}")) for it in ("was", "is-changed", "is-gone")],
                         [1, 1, 0])
        self.assertIn("C9", page.one("#past .is-changed").text)
        page.pictured("stale")

    def test_a_note_leads_to_its_part(self):
        self.client("bob", "note", "part:C1", "why so small?")
        self.client("bob", "note", "part:C2", "is it needed?")
        self.client("ann", "resolve", "2")
        page = self.page("#channel.sch@LEFT")
        page.until(lambda: "why so small?" in page.text("list"))
        self.assertNotIn("needed", page.text("list"))
        page.follow("part:C1")
        page.until(lambda: page.text("trail") == "stereo.sch")
        self.assertEqual(len(page.all("#drawn .chosen")), 1)

    def test_a_finding_is_accepted_and_opened_again(self):
        self.ann.edit(kind="add_object", sheet="stereo.sch", text="C 44000 43000 1 0 0 res.sym\n")
        page = self.page()
        page.tab("findings")
        page.until(lambda: page.all("#findings .finding"))
        before = int(page.one('[data-tab="findings"]').text.split()[1])
        line = page.one("#list [data-accept]").get_attribute("data-accept")
        row = f'#list tr:has([data-accept="{line}"])'
        page.act().move_to_element(page.one(row)).perform()
        page.one(f"{row} button").click()
        self.assertEqual(page.text("accepting-finding"), line)
        self.assertTrue(page.one("#boards").get_attribute("href").endswith("/boards.html"))
        page.one("#accepting-reason").send_keys("a test point <b>")
        page.one("#accepting-who").send_keys("ann")
        page.pictured("accepting")
        page.one('#accepting [value="accept"]').click()
        page.until(lambda: page.all("#list .accepted"))
        self.assertIn("a test point <b> (ann)", page.one("#list .accepted").text)
        self.assertEqual(page.one('[data-tab="findings"]').text,
                         f"check {before - 1} and 1 accepted")
        page.pictured("accepted")
        kept = self.reviews / "accepted"
        above, told = kept.read_text().splitlines()
        self.assertRegex(above, "# ann [0-9TZ:-]+: a test point <b>")
        self.assertEqual(told, line)
        kept.write_text(kept.read_text().replace("test point", "spare"))
        page.until(lambda: "a spare <b> (ann)" in page.text("list"))
        self.assertEqual(len(page.all("#findings .accepted")), 1)
        page.act().move_to_element(page.one("#list .accepted")).perform()
        page.one("#list .accepted button").click()
        page.until(lambda: page.one('[data-tab="findings"]').text == f"check {before}")
        self.assertEqual(kept.read_text(), "")
        self.assertEqual(page.faults(), [])


if __name__ == "__main__":
    if missing() or served.program() is None:
        print(f"{missing() or 'the program'} is missing, so proposals are not tried on the page")
        sys.exit(0)
    served.bounded(LONGEST)
    unittest.main()
