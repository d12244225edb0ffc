"""`accept` and `withdraw`: the end of a proposal, of which there is one.

Who ends it has a claim on it first, which has the entries that are sent and their numbers. A call
that was broken off goes on by the same entries, which a server takes once.
"""
from .differences import objects_named
from .proposals import BoardNow, Standing, edit_count, sent_as
from .pushes import Edit, Push
from .records import Damaged
from .reviews import now
from .sheets import item_of, sheet_of
from .words import Refused, Stop, told


def open_proposal(reviews, name):
    """A proposal that nobody has ended."""
    proposal = reviews.proposal(name)
    if proposal.end:
        end = proposal.end
        raise Stop(f"{name} was {end['state']} by {end['who']} at {end['time']}{sent_as(end)}")
    return proposal


def own_claim(reviews, name, who):
    """The claim that a call of one's own has left, or None. One without entries is none."""
    try:
        claim = reviews.claims.load(name)
    except Damaged as why:
        raise Stop(f"the claim on {name} is damaged: {why}") from None
    if claim and claim["who"] != who:
        raise Stop(
            f"{claim['who']} began to accept or withdraw {name} at {claim['time']}: that call,"
            " done again, goes on with it"
        )
    if claim and not claim["entries"]:
        reviews.claims.take_away(name)
        return None
    return claim


def claimed(reviews, name, claim):
    """Takes the claim on a proposal, which one has at a time."""
    if not reviews.claims.add(name, claim):
        raise Stop(f"another accepts or withdraws {name} just now")
    return claim


def withdraw(asked, server, folder):
    reviews, name, signed = asked.reviews, asked.name, {"who": asked.who, "time": now()}
    with reviews.alone():
        open_proposal(reviews, name)
        if own_claim(reviews, name, asked.who):
            raise Stop(f"you began to accept {name}: `gafd_sync accept {name}` goes on with it")
        claimed(reviews, name, {**signed, "number": 1, "entries": [], "serials": [], "back": []})
        reviews.ends.add(name, {**signed, "state": "withdrawn", "serials": []})
        reviews.claims.take_away(name)
    print(f"{name}: withdrawn")
    return 0


def accept(asked, server, folder):
    reviews, name = asked.reviews, asked.name
    with reviews.alone():
        proposal = open_proposal(reviews, name)
        claim = own_claim(reviews, name, asked.who)
        if claim is None:
            standing = Standing(proposal, BoardNow(server))
            if standing.lines:
                print("\n".join([f"{name} is stale, and nothing was sent:", *standing.lines]))
                return 1
            entries = {"number": server.next_number(), "entries": standing.entries}
            claim = {"who": asked.who, "time": now(), **entries, "serials": [], "back": []}
            claimed(reviews, name, claim)
        return Acceptance(server, folder, reviews, proposal, claim).status()


def objects_in(was, edit):
    """The objects that an edit names, in words."""
    keys = edit.get("ids") or [edit["id"]]
    return objects_named(keys, {key: item_of(was[str(key)]) for key in keys})


def edit_from(entry):
    """The edit of an entry, as a push has it."""
    name, edit, was = entry["file"], entry["edit"], entry["was"]
    kind = edit["kind"]
    if kind in ("add_symbol", "replace_symbol"):
        left = {name: sheet_of(name, edit["text"]).text} if was else {}
        return Edit(edit, name, left, {**edit, "text": was[name]} if was else None)
    if kind == "add_sheet":
        return Edit(edit, f"{len(sheet_of(name, edit['text']).items)} objects", {})
    if kind == "add_object":
        return Edit(edit, str(item_of(edit["text"])), {None: edit["text"]})
    if kind == "replace":
        key, back = edit["id"], {**edit, "text": was[str(edit["id"])]}
        return Edit(edit, objects_in(was, edit), {key: edit["text"]}, back)
    left = dict.fromkeys(edit["ids"]) if kind == "delete" else {}
    return Edit(edit, objects_in(was, edit), left)


class Acceptance(Push):
    """The edits of a proposal, sent as those of who accepts it: all of them, or none."""

    def __init__(self, server, folder, reviews, proposal, claim):
        super().__init__(server, folder, proposal.files)
        self.reviews, self.proposal, self.claim = reviews, proposal, claim
        self.serials += claim["serials"]

    def status(self):
        name = self.proposal.name
        if self.claim["back"]:
            return self.taken_back()
        try:
            self.send_all()
        except Refused as refused:
            print(f"{name}: refused: {told(refused.fault)}")
            self.note(back=self.serials)
            return self.taken_back()
        end = {"who": self.claim["who"], "time": now(), "serials": self.serials}
        self.reviews.ends.add(name, {**end, "state": "accepted"})
        self.reviews.claims.take_away(name)
        self.end()
        count = edit_count(self.serials) if self.serials else "all of it was there already"
        print(f"{name}: accepted, {count}; proposed by {self.proposal.who}. `pull` brings it")
        return 0

    def note(self, **fields):
        """Writes into the claim how far it is."""
        self.claim = {**self.claim, **fields}
        self.reviews.claims.put(self.proposal.name, self.claim)

    def send_all(self):
        """Sends the entries under the numbers of the claim. Where another edit of this session has
        such a number, the rest was not sent, and gets numbers of its own."""
        self.server.number = self.claim["number"]
        for at, entry in enumerate(self.claim["entries"]):
            try:
                self.send(entry["file"], edit_from(entry), entry["base"])
                continue
            except Refused as refused:
                if refused.fault.get("fault") != "NumberReused":
                    raise
            left = self.claim["entries"][at:]
            self.note(number=self.server.next_number(), entries=left, serials=self.serials)
            return self.send_all()

    def taken_back(self):
        """Takes the edits back that were taken before one was refused."""
        name, self.server.number = self.proposal.name, None
        for serial in reversed(self.claim["back"]):
            try:
                self.server.send({"kind": "undo", "serial": serial}, self.server.front)
                print(f"{name}: the edit {serial} is taken back")
            except Refused as refused:
                if refused.fault.get("fault") != "UndoneAlready":
                    print(f"{name}: the edit {serial} stands still: {told(refused.fault)}")
        self.reviews.claims.take_away(name)
        self.stack.drop()
        print(f"{name}: was not accepted")
        return 1
