#!/usr/bin/env python3
"""Sends streams of requests in pieces, and looks whether each is answered as when it comes whole.

Usage: pieces.py [--count N] [--first N] [--seed S]    2,000 streams from the number 0 on, seed 1

GAFD names the program, else the one that is built. A stream has 2 to 20 requests, and is cut
anywhere, with pauses of up to 30 milliseconds between the pieces. Twelve connections at once send
such streams to a server, which has eight workers. Another server over the same rows gets the same
bytes whole, one stream at a time: the statuses have to be those that docs/FORMATS.md has for such
requests, and the replies to the pieces the same bytes. In the end both histories have to be as they
were, since no body is a request, whatever it spells; so Front is looked at there alone. The first
streams that are answered otherwise are printed with their pieces, and `--first N --count 1` sends
one of them again.
"""
import argparse
import collections
import concurrent.futures
import pathlib
import random
import re
import shutil
import socket
import sys
import tempfile
import threading
import time

sys.dont_write_bytecode = True

from built import built
from random_streams import STORED, pieces, statuses, stream
from served import Served, bounded
from writers import Writer

CONNECTIONS = 12
LONGEST = 30
MOST_SHOWN = 3
# The head of a reply ends with the length of its body.
HEAD = re.compile(rb"HTTP/1\.1 (\d{3}) (?:.*\r\n)+?Content-Length: (\d+)\r\n\r\n")
FRONT = re.compile(rb"Front: \d+\r\n")
# A stream that was sent: its requests and pieces, and the replies to it whole and in pieces.
Sent = collections.namedtuple("Sent", "number requests parts whole found")


def send(link, parts):
    """Sends pieces, each with a pause behind it, until the server has ended the connection."""
    try:
        for piece, pause in parts:
            link.sendall(piece)
            time.sleep(pause)
        link.shutdown(socket.SHUT_WR)
    except OSError:
        pass


def talk(server, parts):
    """All that a server sends back to pieces, until it ends the connection."""
    came = []
    with socket.create_connection(("127.0.0.1", server.port), timeout=LONGEST) as link:
        link.setsockopt(socket.IPPROTO_TCP, socket.TCP_NODELAY, 1)
        sender = threading.Thread(target=send, args=(link, parts))
        sender.start()
        try:
            while piece := link.recv(1 << 16):
                came.append(piece)
        except TimeoutError:
            came.append(b"no end within %d seconds" % LONGEST)
        except ConnectionResetError:
            pass
        sender.join()
    return replies(b"".join(came))


def replies(text):
    """Each reply: its status, its head without the front, and its body. What is none has 0."""
    found = []
    while head := HEAD.match(text):
        end = head.end() + int(head[2])
        found.append((int(head[1]), FRONT.sub(b"", head[0]), text[head.end():end]))
        text = text[end:]
    return found + [(0, text, b"")] * bool(text)


def stored(room):
    """Two stores of the rows of the board."""
    stores = [pathlib.Path(room, name) for name in ("pieces", "whole")]
    with Served(stores[0]) as server:
        writer = Writer(server.port, "first")
        given = [writer.ask("POST", "/edits", row)[0] for row in STORED]
    if given != [200] * len(STORED):
        raise SystemExit(f"the rows of the board were answered {given}")
    shutil.copytree(*stores)
    return stores


class Boards:
    """Two servers over the same rows. One gets streams in pieces, and the other gets them whole."""

    def __init__(self, cut, whole):
        self.cut, self.whole = cut, whole
        self.lock = threading.Lock()

    def stand(self):
        """How many rows each history has, and which sheets."""
        return [Writer(it.port, "last").ask("GET", "/sheets")[1:] for it in (self.cut, self.whole)]

    def sends(self, seed, number):
        rng = random.Random(f"{seed} {number}")
        requests = stream(rng, number)
        parts = pieces(rng, requests)
        with self.lock:
            whole = talk(self.whole, [(b"".join(one.text for one in requests), 0)])
        return Sent(number, requests, parts, whole, talk(self.cut, parts))


def fault(sent):
    """What is wrong with the replies to a stream, if something is."""
    found, wanted = [reply[0] for reply in sent.whole], statuses(sent.requests)
    if found != wanted:
        return f"comes whole, and is answered {found}, not {wanted}"
    return "is answered otherwise than when it comes whole" if sent.found != sent.whole else None


def short(text):
    """A text, of which only the ends are shown where it is long."""
    return f"{text[:50]} .. {text[-40:]}, {len(text)} bytes" if len(text) > 100 else f"{text}"


def show(sent):
    """Prints the pieces of a stream, and the first reply that differs."""
    print(f"stream {sent.number} {fault(sent)}; its pieces:")
    for piece, pause in sent.parts:
        print(f"    {short(piece)}, and {1000 * pause:.1f} ms")
    same = 0
    while sent.whole[same:same + 1] == sent.found[same:same + 1] != []:
        same += 1
    for name, all_of in (("whole", sent.whole), ("pieces", sent.found)):
        rest = [short(text) for reply in all_of[same:same + 1] for text in reply[1:]]
        print(f"    reply {same} to the {name}: {' '.join(rest) or 'none'}")


def compared(boards, asked):
    """Sends the streams, and tells how many there are of requests, cuts and faults."""
    count = collections.Counter(requests=0, cuts=0, faults=0)
    numbers = range(asked.first, asked.first + asked.count)
    with concurrent.futures.ThreadPoolExecutor(CONNECTIONS) as pool:
        for sent in pool.map(lambda number: boards.sends(asked.seed, number), numbers):
            count["requests"] += len(sent.requests)
            count["cuts"] += len(sent.parts) - 1
            if fault(sent):
                count["faults"] += 1
                if count["faults"] <= MOST_SHOWN:
                    show(sent)
    return count


def main():
    parser = argparse.ArgumentParser(description=__doc__.split("\n")[0])
    parser.add_argument("--count", type=int, default=2_000)
    parser.add_argument("--first", type=int, default=0)
    parser.add_argument("--seed", default="1")
    asked = parser.parse_args()
    built()
    bounded(60 + asked.count // 10)
    with tempfile.TemporaryDirectory() as room:
        cut, whole = stored(room)
        with Served(cut) as one, Served(whole) as other:
            boards = Boards(one, other)
            first = boards.stand()
            count = compared(boards, asked)
            last = boards.stand()
    more = sum(front for front, _ in last) - sum(front for front, _ in first)
    print(f"{asked.count} streams of {count['requests']} requests, with {count['cuts']} cuts")
    print(f"{count['faults']} are answered otherwise, {more} bodies stand as edits")
    return 1 if count["faults"] or last != first else 0


if __name__ == "__main__":
    sys.exit(main())
