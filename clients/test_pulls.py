"""Tests what a pull of gafd_sync asks a server, and that it asks no less than it has to."""

from unittest import mock

from gafd_sync.server import Server
from laboratory import WIRE, Laboratory


class IdleTest(Laboratory):
    """Whether a pull is one request where nothing came, and all of them where something may have."""

    def setUp(self):
        super().setUp()
        self.both_start()

    def pulled(self, *words, engineer=None):
        """The status of a pull, what it prints, and which routes it asks."""
        asked, once = [], Server.once

        def noted(server, method, path, body):
            asked.append(path.split("?")[0])
            return once(server, method, path, body)

        with mock.patch.object(Server, "once", noted):
            status, said = (engineer or self.bob)("pull", *words)
        return status, said, asked

    def is_idle(self, *words):
        return self.pulled(*words) == (0, "", ["/sheets"])

    def test_an_idle_pull_is_one_request(self):
        self.assertTrue(self.is_idle())
        self.assertTrue(self.is_idle("--mine"))
        self.assertFalse(self.is_idle("--over"))
        self.assertTrue(self.is_idle())

    def test_what_was_drawn_stays_without_a_request_more(self):
        self.bob.draws("value=1k\n", "value=3k\n")
        before = self.bob.path().read_bytes()
        self.assertTrue(self.is_idle())
        self.assertEqual(self.bob.path().read_bytes(), before)
        self.assertEqual(self.kinds(self.bob("push", "preamp.sch")[1]), ["replace"])

    def test_what_came_is_pulled(self):
        self.ann.draws("value=1k\n", "value=2k\n")
        self.ann("push", "preamp.sch")
        status, said, asked = self.pulled()
        self.assertEqual((status, asked.count("/sheets/preamp.sch")), (0, 1))
        self.assertIn("-value=1k\n", said)
        self.assertTrue(self.is_idle())
        # The one who pushed has read the sheet at its push, and not what else came by then.
        self.assertIn("/sheets/preamp.sch", self.pulled(engineer=self.ann)[2])
        self.assertEqual(self.pulled(engineer=self.ann)[2], ["/sheets"])

    def test_a_file_that_is_gone_comes_again(self):
        for name in ("preamp.sch", "res.sym", ".gafd_sync/preamp.sch.from", ".gafd_sync/res.sym.from"):
            self.bob.path(name).unlink()
            self.assertEqual(self.pulled()[0], 0)
            self.assertTrue(self.bob.path(name).exists(), name)
            self.assertTrue(self.is_idle(), name)

    def test_what_was_left_to_somebody_is_told_again(self):
        for engineer, value in ((self.ann, "2k"), (self.bob, "3k")):
            engineer.draws("value=1k\n", f"value={value}\n")
        self.ann("push", "preamp.sch")
        told = [self.pulled()[:2] for _ in range(2)]
        self.assertEqual(told[0], told[1])
        self.assertEqual(told[0][0], 1)
        self.assertEqual(self.pulled("--theirs")[0], 0)
        self.assertTrue(self.is_idle())

    def test_a_symbol_that_the_server_lacks_is_told_each_time(self):
        self.ann.path("more.sch").write_text("v 20130925 2\nC 0 0 1 0 0 none.sym\n" + WIRE)
        self.ann("push", "more.sch")
        self.pulled()
        for _ in range(2):
            self.assertIn("none.sym: the server has no such symbol", self.pulled()[1])

    def test_another_server_is_asked_for_all(self):
        other = self.served("other")
        self.assertEqual(self.ann("copy", other.url)[0], 0)
        status, _, asked = self.pulled("--over", engineer=lambda *words: self.bob("--server", other.url, *words))
        self.assertEqual((status, "/sheets/preamp.sch" in asked), (0, True))
        self.assertIn("/sheets/preamp.sch", self.pulled("--over")[2])

    def test_an_undo_and_a_pull_of_one_file_are_no_pull_of_all(self):
        self.bob.draws("value=1k\n", "value=3k\n")
        self.bob("push", "preamp.sch")
        self.bob("pull")
        self.bob("undo")
        self.assertFalse(self.is_idle())
        self.assertTrue(self.is_idle())
        self.bob("pull", "preamp.sch")
        self.assertFalse(self.is_idle())
        self.assertTrue(self.is_idle())
