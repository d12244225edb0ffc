#!/usr/bin/env python3
"""Times edits and reports on connections of a hall over a keeper in memory.

Usage: hall_times.py [PROGRAM]. The program is that of the crate cases, as `rt run` builds it; it
reads each connection as a case of a table, and what comes is compared. Each row is the best of
five runs, the start of the program and the reading of the table included: moves on a sheet of
10,000 wires that touch nothing, as `POST /edits`, 10,000 on each connection; and `GET /sheets` of
an empty project, 10,000 times on one connection. Ten times the edits may take ten times as long.
"""
import json
import sys

sys.dont_write_bytecode = True

import paths
from built import case_program
from measure import best_of_table

OBJECTS = 10_000
OF_ONE = 9_999


def entry(number, **edit):
    row = {"session": "ann", "number": number, "base": number - 1, "edit": edit}
    return "| " + json.dumps(row, separators=(",", ":"))


def move(k):
    return entry(k + 2, kind="move", ids=[k % OBJECTS], dx=1 - 2 * (k // OBJECTS % 2), dy=0)


def reply(head, front, body):
    lines = ["HTTP/1.1 200 OK", head, f"Front: {front}", f"Content-Length: {len(body)}", "", body]
    return "> " + "\\r / ".join(lines)


def done(serial, first):
    body = f'{{"first_id":{first},"serial":{serial}}}'
    return reply("Content-Type: application/json", serial + 1, body)


def edits(count):
    """The lines of a table of so many moves, on as many connections as they want."""
    lines = ["file s.sch", f"times {OBJECTS} N #00 0 #00 100 4"]
    lines += ["== each_caller_is_answered_by_one_history: connections", "text c"]
    lines.append(entry(1, kind="add_sheet", name="s.sch", text="@s.sch"))
    names, wanted = ["c"], [done(0, 0), "> Closed"]
    for first in range(0, count, OF_ONE):
        names.append(f"c{first}")
        lines.append(f"text c{first}")
        for k in range(first, min(first + OF_ONE, count)):
            lines.append(move(k))
            wanted.append(done(k + 1, OBJECTS))
        wanted.append("> Closed")
    return [*lines, "$ " + " ".join(names), *wanted]


def looks(count):
    """The lines of a table of so many reports on one connection."""
    head = "Content-Type: text/plain; charset=utf-8"
    body = "\\r / \\r\\n"
    lines = ["== each_caller_is_answered_by_one_history: connections", "text c"]
    lines += [f"times {count} GET /sheets", "$ c"]
    reply = f"HTTP/1.1 200 OK\\r / {head}\\r / Front: 0\\r / Content-Length: 0{body}"
    return [*lines, f"> {count} times {reply}", "> Closed"]


def main():
    program = case_program(*sys.argv[1:])
    for shape, count in ((edits, 10_000), (edits, 100_000), (looks, OF_ONE)):
        seconds, peak = best_of_table(program, "halls", shape(count))
        print(f"{shape.__name__} {count:7}: {seconds:6.2f} s, {peak / 2**20:6.1f} MiB")


if __name__ == "__main__":
    main()
