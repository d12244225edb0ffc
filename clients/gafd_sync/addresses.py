"""Where a server is: at an address of HTTP, or at a socket of the Unix domain."""
import base64
import http.client
import netrc
import socket
import urllib.parse

from .words import Stop

UNIX = "unix:"


class SocketConnection(http.client.HTTPConnection):
    """A connection to the socket that has this path. What it asks is asked of `localhost`."""

    def __init__(self, path, timeout):
        super().__init__("localhost", timeout=timeout)
        self.path = path

    def connect(self):
        self.sock = socket.socket(socket.AF_UNIX)
        self.sock.settimeout(self.timeout)
        self.sock.connect(self.path)


class Address:
    """The address that a word tells, as `http://127.0.0.1:8080`, `127.0.0.1:8080` or
    `unix:amp.socket`; Stop where it is none. `url` is its whole spelling, without a password, `name`
    the same without `http://`, and `path` what stands before each route."""

    def __init__(self, word):
        self.socket = word[len(UNIX):] if word.startswith(UNIX) else None
        if self.socket is None:
            self.parts = parts = urllib.parse.urlsplit(word if "//" in word else "http://" + word)
            self.path = parts.path.rstrip("/")
            self.name = parts.netloc.rpartition("@")[2] + self.path
            self.url = f"{parts.scheme}://{self.name}"
        else:
            self.path, self.name, self.url = "", word, word
        if not self.is_one():
            raise Stop(f"{word} is no address of a server, as http://127.0.0.1:8080 and"
                       " unix:amp.socket are", 2)

    def is_one(self):
        if self.socket is not None:
            return self.socket != ""
        try:
            is_named = bool(self.parts.hostname) and self.parts.port != 0
        except ValueError:
            return False
        return is_named and self.parts.scheme in ("http", "https")

    def link(self, patience):
        """A connection, which is made when it is first asked."""
        if self.socket is not None:
            return SocketConnection(self.socket, patience)
        is_safe = self.parts.scheme == "https"
        kind = http.client.HTTPSConnection if is_safe else http.client.HTTPConnection
        return kind(self.parts.hostname, self.parts.port, timeout=patience)

    def password(self):
        """The user in the address, or in ~/.netrc, and the header that tells the password; or None.
        A socket asks for none."""
        if self.socket is not None:
            return None, None
        user, word = self.parts.username, self.parts.password
        if user is None:
            try:
                found = netrc.netrc().authenticators(self.parts.hostname)
            except (OSError, netrc.NetrcParseError):
                found = None
            user, word = (found[0], found[2]) if found else (None, None)
        if user is None:
            return None, None
        return user, "Basic " + base64.b64encode(f"{user}:{word or ''}".encode()).decode()
