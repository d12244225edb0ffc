#!/usr/bin/env python3
"""Lets two servers run under mixed load, and looks whether they stay as they are: one at a port over
a folder, one at a socket over a database, each with a board of 1,000 parts.

Usage: soak.py [SECONDS], 1,200 where none are named.

On each server two edit, three read all kinds of reports, and two begin what they do not end: a head
or a body that stays cut, replies that nobody reads, connections that are reset. Each 30 seconds, or
an eighth of the time, it tells of each server the memory, the descriptors, how many edits and other
replies there were, and how long they took in the median and at most. Status 1 where a reply is none
that was to come, a server has more descriptors in the end than before its first client, or its
memory grew beyond 2 KiB an edit, which is the history, and 16 MiB from the first quarter on.

GAFD names the program, else the one that is built; TMPDIR names the disk.
"""
import collections
import os
import pathlib
import random
import socket
import struct
import sys
import tempfile
import threading
import time

sys.dont_write_bytecode = True

import paths
import part_shapes
from built import built
from load import Bringing, memory, spent
from served import Served, new_database, new_store
from writers import Writer, connected

SECONDS, EVERY = 1_200, 30
PARTS = 1_000
ALLOWED_MIB, EDIT_KIB = 16, 2
ROUTES = ["/sheets", "/netlist/list", "/netlist/tango", "/netlist/pcb", "/netlist/bom", "/drc",
          "/sheets/x.sch", "/objects/x.sch", "/symbols/gate.sym", "/sheets?min=1"]
REFUSED = {"/nothing": 404, "/sheets/none.sch": 404, "/sheets?min=x": 400,
           "/sheets?min=999999": 409}
# What is begun, and how long it is left: nothing, heads and bodies that stay cut, replies that nobody
# reads.
BEGUN = [b"", b"G", b"GET /sheets HTTP/1.1\r\nX: ",
         b"POST /edits HTTP/1.1\r\nContent-Length: 4000000\r\n\r\n{" + b" " * 30_000,
         b"GET /netlist/list HTTP/1.1\r\n\r\n" * 20]
MOST_BEGUN = 60
RESET = struct.pack("ii", 1, 0)


class Load:
    """All who are on one server, and what they saw."""

    def __init__(self, name, server):
        self.name, self.server = name, server
        self.place = server.path or server.port
        self.times = collections.defaultdict(list)
        self.counts, self.wrong = collections.Counter(), []
        self.is_over, self.lock = threading.Event(), threading.Lock()
        works = [(self.edits, 2), (self.reads, 3), (self.begins, 2)]
        self.threads = [threading.Thread(target=self.run, args=(work, number), daemon=True)
                        for work, count in works for number in range(count)]

    def run(self, work, number):
        try:
            work(number, random.Random(number))
        except (OSError, ValueError, LookupError) as error:
            self.wrong.append((work.__name__, repr(error)))

    def note(self, what, begun, status, wanted):
        with self.lock:
            self.times[what].append(time.monotonic() - begun)
            self.counts[what] += 1
            if status != wanted:
                self.wrong.append((what, status, wanted))

    def edits(self, number, chance):
        """A wire comes, moves, gets a name, the name is taken back, and the wire goes."""
        who = Bringing(self.place, f"w{number}")
        who.front = who.ask("GET", "/sheets")[1]
        while not self.is_over.is_set():
            at = chance.randrange(2_000)
            text = f"N {at} {-1000 - 100 * number} {at + 100} {-1000 - 100 * number} 4\n"
            added = self.edit(who, {"kind": "add_object", "sheet": "x.sch", "text": text})
            wire = added["first_id"]
            self.edit(who, {"kind": "move", "ids": [wire], "dx": 0, "dy": -5_000})
            name = {"kind": "set_attr", "id": wire, "name": "netname", "value": f"n{at}"}
            serial = self.edit(who, name)["serial"]
            self.edit(who, {"kind": "undo", "serial": serial})
            self.edit(who, {"kind": "delete", "ids": [wire]})
            self.is_over.wait(chance.uniform(0, 0.2))

    def edit(self, who, edit):
        begun = time.monotonic()
        status, told = who.tries(edit, who.front)
        self.note("edit", begun, status, 200)
        return told

    def reads(self, number, chance):
        """Asks for reports on a connection that is left now and then."""
        who = Writer(self.place, f"r{number}")
        while not self.is_over.is_set():
            path = chance.choice([*ROUTES, *REFUSED])
            begun = time.monotonic()
            self.note("read", begun, who.ask("GET", path)[0], REFUSED.get(path, 200))
            if chance.random() < 0.1:
                who.link.close()
                who.connect()
            self.is_over.wait(chance.uniform(0, 0.1))

    def begins(self, _, chance):
        """Begins what it does not end, and goes away, half of the time with a reset."""
        links = []
        while not self.is_over.is_set():
            link = connected(self.place)
            links.append(link)
            try:
                link.setblocking(False)
                link.send(chance.choice(BEGUN))
            except OSError:
                pass
            while len(links) > chance.randrange(MOST_BEGUN):
                gone = links.pop(chance.randrange(len(links)))
                if chance.random() < 0.5:
                    gone.setsockopt(socket.SOL_SOCKET, socket.SO_LINGER, RESET)
                gone.close()
            self.counts["beginning"] += 1
            self.is_over.wait(chance.uniform(0, 0.1))
        for link in links:
            link.close()

    def descriptors(self):
        return len(os.listdir(f"/proc/{self.server.process.pid}/fd"))

    def memory(self):
        return memory(self.server.process, "VmRSS")

    def line(self):
        """What it is at, and what it saw since the last line."""
        with self.lock:
            times, self.times = self.times, collections.defaultdict(list)
        found = [f"{self.name:6} {self.memory():6.1f} MiB, {self.descriptors():3} descriptors,"
                 f" {spent(self.server.process):6.1f} s of the processor"]
        for what, all_of in sorted(times.items()):
            middle, last = sorted(all_of)[len(all_of) // 2], max(all_of)
            found.append(f"{self.counts[what]:6} {what}s, {1000 * middle:5.1f} ms,"
                         f" at most {1000 * last:6.0f}")
        return "; ".join(found)


def brought(place):
    """The board is there, and all whom it took are gone."""
    first = Bringing(place, "board")
    first.brings(part_shapes.board(PARTS))
    first.link.close()


def settled(load, most):
    """The descriptors when they are no more than so many, at the latest after half a minute."""
    end = time.monotonic() + 30
    while load.descriptors() > most and time.monotonic() < end:
        time.sleep(0.2)
    return load.descriptors()


def over(loads, seconds):
    """Runs all of them; whether each stayed as it was."""
    for load in loads:
        brought(load.place)
    time.sleep(1)
    rest = [load.descriptors() for load in loads]
    for thread in (it for load in loads for it in load.threads):
        thread.start()
    begun, early = time.monotonic(), None
    every = min(EVERY, seconds / 8)
    while (left := begun + seconds - time.monotonic()) > 0:
        time.sleep(min(every, left))
        passed = time.monotonic() - begun
        if early is None and passed >= seconds / 4:
            early = [(load.memory(), load.counts["edit"]) for load in loads]
        for load in loads:
            print(f"{passed:5.0f} s {load.line()}", flush=True)
    for load in loads:
        load.is_over.set()
    for thread in (it for load in loads for it in load.threads):
        thread.join()
    found = zip(loads, rest, early)
    return all([stayed(load, before, *then) for load, before, then in found])


def stayed(load, before, early, edits):
    """Tells how one server stood in the end, and whether that was as it should."""
    grown, more = load.memory() - early, load.counts["edit"] - edits
    after = settled(load, before)
    counts = ", ".join(f"{count} {what}s" for what, count in sorted(load.counts.items()))
    print(f"{load.name}: {counts}; {len(load.wrong)} wrong {load.wrong[:3]}; descriptors {before}"
          f" before and {after} behind; memory {early:.1f} and {grown:+.1f} MiB with {more} edits")
    is_flat = grown <= ALLOWED_MIB + EDIT_KIB * more / 1024
    return not load.wrong and after <= before and is_flat


def main():
    built()
    seconds = int(sys.argv[1]) if len(sys.argv) > 1 else SECONDS
    with tempfile.TemporaryDirectory() as room:
        path = pathlib.Path(room, "amp.socket")
        with Served(new_store(room)) as port, Served(new_database(room), path=path) as link:
            return 0 if over([Load("port", port), Load("socket", link)], seconds) else 1


if __name__ == "__main__":
    sys.exit(main())
