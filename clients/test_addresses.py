"""Addresses of a server: of HTTP, and `unix:` with the path of a socket."""
import contextlib
import os
import pathlib
import socket
import tempfile
import threading
import unittest
from unittest import mock

from gafd_sync.addresses import Address
from gafd_sync.words import Stop
from laboratory import Laboratory, asked
from served import Served
from test_replies import GAP, HEAD, WIRE, RepliesLaboratory, board


class AddressTest(unittest.TestCase):
    def test_how_an_address_is_spelled(self):
        for word, url, name, path in (
            ("127.0.0.1:8080", "http://127.0.0.1:8080", "127.0.0.1:8080", ""),
            ("https://bob:b1@lab.example/amp/", "https://lab.example/amp", "lab.example/amp", "/amp"),
            ("http://[::1]:8080/", "http://[::1]:8080", "[::1]:8080", ""),
            ("unix:amp.socket", "unix:amp.socket", "unix:amp.socket", ""),
            ("unix:/run//a b@c:d", "unix:/run//a b@c:d", "unix:/run//a b@c:d", ""),
        ):
            with self.subTest(word):
                found = Address(word)
                self.assertEqual((found.url, found.name, found.path), (url, name, path))

    def test_what_is_no_address_is_told(self):
        for word in ("", "unix:", "ftp://lab.example", "http://", "http://:8080", "http://a:b",
                     "http://a:99999"):
            with self.subTest(word), self.assertRaisesRegex(Stop, "unix:amp.socket are$"):
                Address(word)

    def test_a_socket_is_asked_as_localhost_and_without_an_origin(self):
        with tempfile.TemporaryDirectory() as room:
            listener = socket.socket(socket.AF_UNIX)
            listener.bind(room + "/socket")
            listener.listen()
            heads = []

            def answer():
                link, _ = listener.accept()
                heads.append(link.recv(9_999).decode())
                link.sendall(b"HTTP/1.1 200 OK\r\nContent-Length: 0\r\n\r\n")
                link.close()

            thread = threading.Thread(target=answer)
            thread.start()
            with contextlib.closing(Address("unix:" + room + "/socket").link(20)) as link:
                link.request("GET", "/sheets")
                self.assertEqual(link.getresponse().status, 200)
            thread.join()
            listener.close()
        self.assertIn("\r\nHost: localhost\r\n", heads[0])
        self.assertNotIn("origin", heads[0].lower())

    def test_a_socket_wants_no_password(self):
        with tempfile.TemporaryDirectory() as home, mock.patch.dict(os.environ, HOME=home):
            path = pathlib.Path(home, ".netrc")
            path.write_text("default login bob password b1\n")
            path.chmod(0o600)
            self.assertEqual(Address("unix:amp.socket").password(), (None, None))
            self.assertEqual(Address("localhost").password()[0], "bob")


class SocketTest(Laboratory):
    def setUp(self):
        super().setUp()
        self.path = self.ann.folder / "amp.socket"
        server = Served(self.room / "other", path=self.path)
        self.addCleanup(server.__exit__)

    def test_a_folder_remembers_a_socket_under_the_name_it_was_given(self):
        for url in ("unix:amp.socket", f"unix:{self.path}"):
            with self.subTest(url):
                status, said = asked(self.ann.folder, "--server", url, "--session", "ann", "push",
                                     "preamp.sch")
                self.assertEqual(status, 0, said)
                self.assertEqual(asked(self.ann.folder, "sheets"), (0, "preamp.sch\n"))

    def test_two_work_over_a_socket(self):
        for who in (self.ann, self.bob):
            who.server = mock.Mock(url=f"unix:{self.path}")
        self.both_start()
        self.ann.draws("value=1k\n", "value=1.5k\n")
        self.assertEqual(self.kinds(self.ann("push", "preamp.sch")[1]), ["replace"])
        status, said = self.bob("pull")
        self.assertEqual((status, "+value=1.5k" in said), (0, True), said)
        self.assertEqual(self.bob.objects(), self.ann.objects())

    def test_a_board_goes_over_to_a_socket(self):
        self.assertEqual(self.ann("push", "preamp.sch")[0], 0)
        status, said = self.ann("copy", f"unix:{self.path}")
        self.assertEqual(status, 0, said)
        self.assertIn(f"1 sheets and 8 symbols are at unix:{self.path}\n", said)

    def test_a_socket_where_nobody_serves_is_told(self):
        with mock.patch("gafd_sync.server.PAUSES", ()):
            url = f"unix:{self.room}/none"
            status, said = asked(self.bob.folder, "--server", url, "pull")
        self.assertEqual((status, said),
                         (3, f"gafd_sync: {url}: [Errno 2] No such file or directory\n"))

    def test_a_path_that_is_too_long_for_a_socket_is_told(self):
        with mock.patch("gafd_sync.server.PAUSES", ()):
            status, said = asked(self.bob.folder, "--server", "unix:" + "a" * 200, "pull")
        self.assertEqual((status, "too long" in said), (3, True), said)


class KeptOutTest(RepliesLaboratory):
    def test_why_a_server_lets_nobody_in(self):
        (self.folder / "a.sch").write_text(HEAD + WIRE)
        missing = (404, '{"fault":"NoSheet"}')
        known = {**board({}), "/sheets/a.sch": missing, "/objects/a.sch": missing}
        for posts, user, wanted in (
            ([(403, '{"fault":"Foreign"}')], "",
             "goes by other names: `gafd serve --host 127.0.0.1` gives it this one"),
            ([(403, '{"fault":"NotYou"}')], "",
             "takes edits through a proxy alone, which tells who sends them"),
            ([(409, GAP), (403, '{"fault":"NotYou"}')], "bob:b1@",
             "takes edits of ann from ann alone, and not from bob"),
            ([(403, "")], "bob:b1@",
             "takes no edits from bob, who may read alone; who runs it gives rights"),
        ):
            with self.subTest(wanted):
                url = self.canned({**known, "POST /edits": list(posts)}).url
                named = url.replace("//", "//" + user)
                status, said = asked(self.folder, "--server", named, "--session", "ann", "push",
                                     "a.sch")
                self.assertEqual((status, said), (3, f"gafd_sync: {url} {wanted}\n"))


if __name__ == "__main__":
    unittest.main()
