"""`review`: the board with a proposal beside the board without it. Both are the program's own, of a
copy of the history to which the proposal is put."""
import contextlib
import pathlib
import tempfile
from typing import NamedTuple

from .boards import served
from .databases import rows_of
from .differences import show_change, show_changes, show_lines
from .netlists import finding_counts, finding_differences, net_counts, net_differences
from .proposals import BoardNow, Standing, show_proposal
from .rows import Rows, row_name
from .server import Server
from .store import data_of
from .view import is_number
from .words import Refused, Stop, told


class Look(NamedTuple):
    """What a server has of some files, and the reports on the whole board."""

    files: dict
    nets: str
    check: str


class Outcome(NamedTuple):
    """What stands against a proposal on the board after so many edits; where nothing does, the
    board without it and with it."""

    front: int
    against: list
    looks: list


def put(proposal, server):
    """Puts a proposal to the board of a server of one's own, and tells what stands against it."""
    standing = Standing(proposal, BoardNow(server))
    if standing.lines:
        return standing.lines
    for entry in standing.entries:
        try:
            server.send(entry["edit"], entry["base"])
        except Refused as refused:
            what = f"{entry['file']}: {entry['edit']['kind']}"
            return [f"{what} is refused: {told(refused.fault)}"]
    return []


def look_at(server, files):
    found = {}
    for name in files:
        found[name] = server.symbol(name) if name.endswith(".sym") else server.sheet(name)
    return Look(found, *reports(server))


def reports(server):
    """The net list and the check of a server, or how it refuses one."""
    replies = (server.ask("GET", path) for path in ("/netlist/list", "/drc"))
    return [reply.text if reply.status == 200 else reply.start for reply in replies]


def link_rows(rows, count, room):
    """Makes a store of the first rows of another, to which more may come; those stay."""
    if any(missing < count for missing in rows.missing):
        raise Stop(f"{rows.store} lacks {row_name(rows.missing[0])}, and has rows behind it")
    for serial in range(count):
        place = pathlib.Path(room, row_name(serial))
        if isinstance(rows, Rows):
            place.symlink_to(rows.path(serial).resolve())
        else:
            place.write_bytes(data_of(rows, serial))


def outcome_after(rows, count, proposal):
    """The outcome on the board that the first rows of a store make."""
    with tempfile.TemporaryDirectory() as room:
        link_rows(rows, count, room)
        with served(room, proposal.who) as server:
            looks = [look_at(server, proposal.files)]
            against = put(proposal, server)
            looks += [] if against else [look_at(server, proposal.files)]
            return Outcome(count, against, looks)


def outcomes_in(store, proposal):
    """The outcome on the board now, but of what has ended; and where it is not legal there, on the
    board that it was drawn on."""
    rows = rows_of(store)
    if not proposal.end:
        now = outcome_after(rows, rows.count, proposal)
        yield now
        if not now.against:
            return
    yield outcome_after(rows, min(proposal.base, rows.count), proposal)


def outcomes_by(view, proposal):
    """The same, by a `gafd_view` that reads the store."""
    found = view.ask(f"/proposed/{proposal.name}")
    if found is None or not is_outcome(found):
        raise Stop(f"{view.url} has no board with {proposal.name}: it wants --reviews and --store")
    if found["against"]:
        yield Outcome(found["now"], found["against"], [])
    if found["front"] is None:
        return
    looks = []
    for path in (f"at/{found['front']}", f"proposed/{proposal.name}@{found['now']}"):
        server = Server(f"{view.url.rstrip('/')}/{path}", "reader")
        with contextlib.closing(server.link):
            looks.append(look_at(server, proposal.files))
    yield Outcome(found["front"], [], looks)


def is_outcome(value):
    """Whether a page tells so what stands against a proposal now, and on which front it has it."""
    against, front = value.get("against"), value.get("front")
    are_lines = type(against) is list and all(type(line) is str for line in against)
    return are_lines and is_number(value.get("now")) and (front is None or is_number(front))


def review(asked, server, folder):
    proposal = asked.reviews.proposal(asked.name)
    if asked.store:
        outcomes = list(outcomes_in(asked.store, proposal))
    elif asked.view.server:
        outcomes = list(outcomes_by(asked.view, proposal))
    else:
        raise Stop("which board? --store STORE names a store, or --view URL a gafd_view", 2)
    is_legal = not proposal.end and not outcomes[0].against
    state = proposal.end["state"] if proposal.end else "open" if is_legal else "stale"
    show_proposal(proposal, state)
    for outcome in outcomes:
        for line in outcome.against:
            print(f"    {line}")
        if outcome.looks and not outcome.against:
            if not is_legal:
                print(f"as it was meant, on the board after {outcome.front} edits:")
            show_outcome(proposal, *outcome.looks)
    return 0 if is_legal else 1


def show_outcome(proposal, before, after):
    """Prints which sheets and symbols change, and what comes and goes in the reports."""
    for name in proposal.files:
        show = show_symbol if name.endswith(".sym") else show_sheet
        show(name, proposal.who, before.files[name], after.files[name])
    show_reports(before, after)


def show_reports(before, after):
    """Prints what comes and goes in the nets and in the check."""
    print(f"nets: {net_counts(before.nets)} before, {net_counts(after.nets)} after")
    for line in net_differences(before.nets, after.nets):
        print(f"    {line}")
    print(f"check: {finding_counts(before.check)} before, {finding_counts(after.check)} after")
    for line in finding_differences(before.check, after.check):
        print(f"    {line}")


def show_symbol(name, who, before, after):
    if before is None:
        print(f"{name}: added by {who}")
    elif before != after:
        show_lines(name, who, before, after)


def show_sheet(name, who, before, after):
    if before is None:
        print(f"{name}: added by {who}, {len(after.objects)} objects")
        return
    olds, news = before.objects, after.objects
    changed = {key: text for key, text in news.items() if olds.get(key, text) != text}
    show_changes(name, who, olds, changed)
    for key in sorted(news.keys() - olds.keys()):
        show_change(name, who, key, None, news[key])
    for key in sorted(olds.keys() - news.keys()):
        show_change(name, who, key, olds[key], None)
