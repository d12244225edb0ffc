#!/usr/bin/env python3
"""Kills a server amid edits, with SIGKILL, and looks whether what it acknowledged is there.

Usage: killed.py [--database] [--rounds N] [--writers N] [--seed S]

100 rounds of four writers, seed 1, over a folder; over a database with `--database`. GAFD names the
program, else the one that is built. In each round writers edit as fast as they are
answered until the server is killed, after 20 to 400 milliseconds. It is started again, over the
same store, and each entry that was answered 200 is sent once more: the answer has to be the same
bytes, as it is only for an entry that stands where it stood. In the end each acknowledged wire has
to be on the sheet, and each row of the store to be an entry, without a gap. A kill takes the
process, and not the machine: that a row is on the disk before the answer is what the sync in the
program is for, and is not tried here.
"""
import argparse
import json
import random
import signal
import sys
import tempfile
import threading
import time

sys.dont_write_bytecode = True

from built import built
from gafd_sync.databases import rows_of
from served import Served, new_database, new_store
from writers import SHEET, Writer

MOST = 300


def edits(writer, done):
    """Edits until the server is gone; what was acknowledged stands in `done`."""
    try:
        for _ in range(MOST):
            entry, (status, _, body) = writer.draws()
            if status != 200:
                print(f"{entry} was answered {status} {body}")
                return
            done.append((entry, body))
    except (OSError, ValueError):
        pass


def one_round(server, number, writers, pause):
    """What was acknowledged until the kill."""
    done = [[] for _ in range(writers)]
    threads = []
    for k, mine in enumerate(done):
        writer = Writer(server.port, f"r{number}-{k}", number * 1000 + 100 * k)
        threads.append(threading.Thread(target=edits, args=(writer, mine)))
    for thread in threads:
        thread.start()
    time.sleep(pause)
    if server.process.poll() is not None:
        raise SystemExit(f"the server ended by itself, with {server.process.returncode}")
    server.stop(signal.SIGKILL)
    for thread in threads:
        thread.join()
    return [one for them in done for one in them]


def lost_of(server, done):
    """Of the acknowledged entries those that do not stand where they stood."""
    again = Writer(server.port, "again")
    return [entry for entry, body in done if again.ask("POST", "/edits", entry)[::2] != (200, body)]


def main():
    parser = argparse.ArgumentParser(description=__doc__.split("\n")[0])
    parser.add_argument("--database", action="store_true")
    parser.add_argument("--rounds", type=int, default=100)
    parser.add_argument("--writers", type=int, default=4)
    parser.add_argument("--seed", default="1")
    asked = parser.parse_args()
    built()
    draw = random.Random(asked.seed)
    new = new_database if asked.database else new_store
    with tempfile.TemporaryDirectory() as room, Served(new(room)) as server:
        Writer(server.port, "first").opens()
        every, lost = [], []
        for number in range(asked.rounds):
            done = one_round(server, number, asked.writers, draw.uniform(0.02, 0.4))
            server.start()
            lost += lost_of(server, done)
            every += done
        _, front, sheet = Writer(server.port, "last").ask("GET", "/sheets/" + SHEET)
        lines = sheet.decode().splitlines()[1:]
        # While a server has it nobody else reads a database.
        server.stop(signal.SIGKILL)
        rows = rows_of(server.store)
        there = [serial for serial in range(rows.count) if serial not in rows.missing]
        broken = [serial for serial in there if not rows.data(serial).endswith(b"}\n")]
    texts = [json.loads(entry) for entry, _ in every]
    serials = [json.loads(body)["serial"] for _, body in every]
    lost += [text for text in texts if text["edit"]["text"].strip() not in lines]
    print(f"{asked.rounds} kills, {len(every)} edits acknowledged, {len(lost)} lost")
    print(f"{front - 1 - len(every)} stand without an answer, {len(broken)} rows broken")
    is_whole = len(there) == front == len(lines) + 1 and len(set(serials)) == len(serials)
    if lost or broken or not is_whole or not every:
        print(f"rows {len(there)}, front {front}, objects {len(lines)}: {lost[:3]} {broken[:3]}")
        return 1
    return 0


if __name__ == "__main__":
    sys.exit(main())
