"""Random streams of requests to a server, and random pieces of them.

No stream changes the board: it asks for reports, sends edits that stand in the history once more,
and asks for what is refused; so each is answered as if it were alone. Many a body spells requests
for edits that would be accepted, of which none is made.
"""
import collections
import itertools
import json
import pathlib

# What is sent, the status of its reply or None, where pieces of it may well end, and whether the
# connection ends with it.
Request = collections.namedtuple("Request", "text status seams ends", defaults=((), False))

MOST_BYTES = 200_000
MOST_REQUESTS = 20
MOST_CUTS = 12
LONGEST_PAUSE = 0.03
EXAMPLES = pathlib.Path(__file__).resolve().parent.parent / "examples"
VERSION = "v 20130925 2\n"
NOTE = "T 0 0 9 10 1 0 0 0 1\na text that takes room\n"
WIRE = {"kind": "add_object", "sheet": "board.sch", "text": "N 0 0 500 0 4\n"}
REPORTS = ("netlist/list", "netlist/tango", "netlist/pcb", "netlist/bom", "drc")
NAMED = ("sheets/board.sch", "sheets/notes.sch", "objects/board.sch", "symbols/res.sym")
FIELDS = ("Host: x", "Accept: */*", "Expect: 100-continue", "connection: keep-alive")
UNKNOWN = ("nowhere", "netlist/none", "sheets/", "sheets/none.sch", "objects/none.sch")


def entry(session, number, base, edit):
    value = {"session": session, "number": number, "base": base, "edit": edit}
    return json.dumps(value, separators=(",", ":")).encode()


def sheet(name, notes):
    """An edit that adds a sheet of so many notes."""
    return {"kind": "add_sheet", "name": name, "text": VERSION + NOTE * notes}


def symbol(name):
    """An edit that adds a symbol of the examples."""
    text = EXAMPLES.joinpath(name).read_text(encoding="utf-8")
    return {"kind": "add_symbol", "name": name, "text": text}


# The history of the board.
STORED = (
    entry("ann", 1, 0, symbol("res.sym")),
    entry("ben", 1, 1, sheet("board.sch", 1)),
    entry("ann", 2, 2, sheet("notes.sch", 150)),
    entry("cy", 1, 3, sheet("large.sch", 4_000)),
    entry("ben", 2, 4, WIRE),
    entry("cy", 2, 5, {"kind": "renumber"}),
)


def head(start, *fields):
    return "\r\n".join((start, *fields, "", "")).encode()


def request(rng, start, body, status, seams=()):
    """A request with this body. Of fields that are not looked at it has some."""
    fields = rng.sample(FIELDS, rng.randrange(len(FIELDS)))
    if body or rng.random() < 0.5:
        fields.insert(rng.randint(0, len(fields)), f"Content-Length: {len(body)}")
    first = head(f"{start} HTTP/1.1", *fields)
    places = (0, len(first), *(len(first) + place for place in seams))
    return Request(first + body, status, places)


def size(rng):
    """How large a body is, mostly small."""
    return int(MOST_BYTES ** rng.random())


def would_stand(number):
    """A request for an edit that would be accepted, by one who never asks for it."""
    name = f"eve{number}"
    body = entry(name, 1, len(STORED), sheet(f"{name}.sch", 0))
    return head("POST /edits HTTP/1.1", f"Content-Length: {len(body)}") + body


def spelled(rng, number):
    """A body that spells requests, and where each of them begins."""
    known = (would_stand(number), head("GET /drc HTTP/1.1"), head("GET /nowhere HTTP/1.1"))
    text, seams = b"", []
    for _ in range(rng.randint(1, 4)):
        seams.append(len(text))
        text += rng.choices(known, (3, 1, 1))[0]
        if rng.random() < 0.2:
            text += b"x" * (size(rng) // 4)
    return text, seams


def spelling(rng, number, start, status):
    """A request whose body spells requests."""
    body, seams = spelled(rng, number)
    return request(rng, start, body, status, seams)


def report(rng, _):
    name = rng.choice(REPORTS + NAMED + ("sheets/large.sch",))
    least = rng.choice(("", "?min=1", "?m%69n=6"))
    return request(rng, f"GET /{name}{least}", b"", 200)


def report_with_body(rng, _):
    return request(rng, f"GET /{rng.choice(REPORTS)}", rng.randbytes(size(rng)), 200)


def report_with_requests(rng, number):
    return spelling(rng, number, f"GET /{rng.choice(REPORTS)}", 200)


def edit_that_stands(rng, _):
    return request(rng, "POST /edits", rng.choice(STORED), 200)


def edit_of_a_known_number(rng, _):
    session = rng.choice(("ann", "ben", "cy"))
    edit = sheet("other.sch", size(rng) // len(NOTE))
    return request(rng, "POST /edits", entry(session, 1, 0, edit), 409)


def edit_behind_a_gap(rng, _):
    return request(rng, "POST /edits", entry("ann", rng.randint(4, 99), 0, WIRE), 409)


def edit_that_is_refused(rng, _):
    edit = sheet("bad.sch", size(rng) // len(NOTE))
    edit["text"] += "no object\n"
    return request(rng, "POST /edits", entry("dora", 1, 0, edit), 422)


def body_that_is_no_edit(rng, _):
    return request(rng, "POST /edits", b"{" + rng.randbytes(size(rng)), 400)


def body_of_requests(rng, number):
    return spelling(rng, number, "POST /edits", 400)


def another_method(rng, number):
    method = rng.choice(("POST", "PUT", "DELETE"))
    return spelling(rng, number, f"{method} /{rng.choice(REPORTS)}", 405)


def unknown_path(rng, _):
    return request(rng, f"GET /{rng.choice(UNKNOWN)}", b"x" * rng.choice((0, 0, 9)), 404)


KINDS = {
    report: 5,
    report_with_body: 1,
    report_with_requests: 2,
    edit_that_stands: 4,
    edit_of_a_known_number: 1,
    edit_behind_a_gap: 1,
    edit_that_is_refused: 1,
    body_that_is_no_edit: 1,
    body_of_requests: 3,
    another_method: 1,
    unknown_path: 2,
}


def ending(text, status):
    """A request with which the connection ends."""
    return Request(text, status, (0, len(text)), True)


def last(rng, number):
    """A request with which a connection ends: what says so, what is refused, or what is cut."""
    start, behind = "POST /edits HTTP/1.1", would_stand(number)
    many = [f"X-{place}: x" for place in range(33)]
    return rng.choice(
        (
            ending(head("GET /drc HTTP/1.1", "Connection: close"), 200),
            ending(head("GET /drc HTTP/1.0"), 200),
            ending(head("G\1T /drc HTTP/1.1"), 400),
            ending(head(start, "Content-Length: 1x") + behind, 400),
            ending(head(start, "Content-Length: 3", "Content-Length: 03") + behind, 400),
            ending(head(start, "Content-Length: 4194305") + behind, 413),
            ending(head("GET /drc HTTP/1.1", *many), 431),
            ending(head("GET /drc HTTP/1.1", "X: " + "x" * 9_000), 431),
            ending(head(start, "Transfer-Encoding: chunked") + behind, 501),
            ending(head(start, "Content-Length: 1000") + behind, None),
            ending(behind[:rng.randint(1, len(behind) - 1)], None),
        )
    )


def stream(rng, number):
    """The requests of a stream. Nothing stands behind one that is cut."""
    count = rng.randint(2, MOST_REQUESTS)
    kinds = rng.choices(list(KINDS), KINDS.values(), k=count)
    requests = [kind(rng, number) for kind in kinds]
    if rng.random() < 0.4:
        place = rng.randrange(count // 2, count)
        requests[place] = last(rng, number)
        if requests[place].status is None:
            del requests[place + 1:]
    return requests


def statuses(requests):
    """The statuses of the replies to a stream."""
    found = []
    for one in requests:
        if one.status is not None:
            found.append(one.status)
        if one.ends:
            break
    return found


def pieces(rng, requests):
    """The stream in pieces, each with the pause behind it. Half of the cuts are near seams."""
    whole = b"".join(one.text for one in requests)
    starts = list(itertools.accumulate((len(one.text) for one in requests), initial=0))
    bounds = {0, len(whole)}
    for _ in range(rng.randint(1, MOST_CUTS)):
        place = rng.randrange(len(requests))
        within = rng.randrange(len(requests[place].text))
        if rng.random() < 0.5:
            within = rng.choice(requests[place].seams) + rng.choice((-1, 0, 0, 0, 1, 9))
        bounds.add(min(max(0, starts[place] + within), len(whole)))
    cuts = itertools.pairwise(sorted(bounds))
    return [(whole[a:b], rng.choice((0, 1, 1)) * rng.uniform(0, LONGEST_PAUSE)) for a, b in cuts]
