"""A board that a `gafd serve` keeps."""
import http.client
import json
import threading
from typing import NamedTuple, Optional

import gafd_program  # puts gafd_sync on the path
from gafd_sync.addresses import Address

# A server has eight workers for all who ask; the readers of one page should not keep them all.
MOST_AT_ONCE = 4
PATIENCE = 20


class Answer(NamedTuple):
    """What a board answers. `front` is None where the answer stands on none."""

    status: int
    front: Optional[int]
    body: bytes


class ServedBoard:
    """The board at an address, of HTTP or `unix:` and a path. Each request has a connection of its
    own, which ends."""

    kind = "server"

    def __init__(self, url, patience=PATIENCE):
        self.address, self.patience = Address(url), patience
        self.name = self.address.name
        self.turns = threading.BoundedSemaphore(MOST_AT_ONCE)

    def ask(self, method, path, body=None):
        """The answer to a request; OSError where none comes."""
        with self.turns:
            connection = self.address.link(self.patience)
            try:
                headers = {"Connection": "close"}
                connection.request(method, f"{self.address.path}/{path}", body, headers)
                reply = connection.getresponse()
                front = reply.getheader("Front", "")
                return Answer(reply.status, int(front) if front.isdigit() else None, reply.read())
            except http.client.HTTPException as error:
                raise OSError(str(error)) from None
            finally:
                connection.close()

    def front(self):
        """The number of edits; OSError where the server is away."""
        front = self.ask("GET", "sheets").front
        if front is None:
            raise OSError("the server told no front")
        return front

    def close(self):
        pass


def fault(status, name, front=None, **numbers):
    """An answer that tells a fault, as the server tells one."""
    body = json.dumps({"fault": name, **numbers}, sort_keys=True, separators=(",", ":"))
    return Answer(status, front, body.encode())
