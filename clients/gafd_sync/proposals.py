"""`propose`, `proposals`: what somebody would push, kept for another to look at first."""
from .differences import change_lines, lines_between
from .pushes import FilePush
from .records import Damaged
from .reviews import margin, now
from .sheets import item_of, sheet_of
from .words import Stop


class Unnoted:
    """A folder of which nothing is noted, since nothing is sent."""

    def __init__(self, folder):
        self.folder = folder

    def __getattr__(self, name):
        return getattr(self.folder, name)

    def set_origin(self, name, front, objects):
        pass

    def set_symbol_origin(self, name, front, text):
        pass


class Proposing(FilePush):
    """A push that sends nothing, and keeps its edits."""

    def __init__(self, asked, server, folder):
        super().__init__(asked, server, Unnoted(folder))
        self.steps, self.bases, self.looked = [], [], set()

    def symbol(self, name, sheet=None):
        """A symbol of several sheets goes once."""
        if name in self.looked:
            return 0
        self.looked.add(name)
        return super().symbol(name, sheet)

    def nothing(self, name):
        pass

    def send(self, name, edit, base):
        """Keeps an edit, and prints it. An object that it adds has no id yet."""
        was = {str(key): text for key, text in edit.was.items()}
        self.steps.append({"file": name, "edit": edit.body, "was": was})
        self.bases.append(base)
        print(f"{name}: {edit.body['kind']} {edit.what}")
        return 0


def propose(asked, server, folder):
    asked.over = asked.copy = False
    names = asked.files or [name for name in folder.pulled(".sch") if folder.has(name)]
    proposing, status = Proposing(asked, server, folder), 0
    for name in dict.fromkeys(names):
        status |= proposing.file(name)
    proposing.told_missing()
    if status or not proposing.steps:
        print("nothing was proposed" + ("" if status else ": nothing differs from the server's"))
        return 1
    steps, base = proposing.steps, min(proposing.bases)
    fields = {"message": asked.message, "base": base, "steps": steps}
    if not asked.reviews.proposals.add(asked.name, {"who": asked.who, "time": now(), **fields}):
        raise Stop(f"{asked.name} is taken: each proposal of a board has a name of its own")
    print(f"{asked.name}: proposed, {edit_count(steps)}; nothing was sent")
    return 0


def edit_count(steps):
    return f"{len(steps)} edit{'s' if len(steps) > 1 else ''}"


class BoardNow:
    """The board as a server has it, of which each file is read once."""

    def __init__(self, server):
        self.server, self.stands, self.symbols = server, {}, {}

    def sheet(self, name):
        if name not in self.stands:
            self.stands[name] = self.server.sheet(name)
        return self.stands[name]

    def symbol(self, name):
        """The text of a symbol, or None, and the front at which it was read."""
        if name not in self.symbols:
            self.symbols[name] = self.server.symbol(name), self.server.front
        return self.symbols[name]


class Standing:
    """What stands against a proposal on the board: `lines`, none where it is legal as it is. And
    the entries by which it is sent then: what of it is there already is not sent again."""

    def __init__(self, proposal, board):
        self.board, self.lines, self.entries = board, [], []
        for step in proposal.steps:
            self.looks[step["edit"]["kind"]](self, step)

    def leave(self, step, base):
        """Leaves an edit to be sent, on what was read at this front."""
        self.entries.append({**step, "base": base})

    def symbol(self, step):
        name, edit = step["file"], step["edit"]
        was, wanted = step["was"].get(name), sheet_of(name, edit["text"]).text
        text, front = self.board.symbol(name)
        if text == was:
            self.leave(step, front)
        elif text is None:
            self.lines.append(f"{name}: the server has it no more")
        elif text != wanted:
            self.lines.append(f"{name}: was {'changed' if was else 'added'} since")
            self.lines += [f"    {line}" for line in lines_between(was or wanted, text)]

    def new_sheet(self, step):
        name, stand = step["file"], self.board.sheet(step["file"])
        if stand is None:
            self.leave(step, self.board.server.front)
        elif list(stand.objects.values()) != sheet_of(name, step["edit"]["text"]).texts:
            self.lines.append(f"{name}: the server has a sheet of this name by now")

    def new_object(self, step):
        if stand := self.sheet(step):
            self.leave(step, stand.front)

    def sheet(self, step):
        """The sheet of an edit; where it is gone, that stands against it."""
        stand = self.board.sheet(step["file"])
        if stand is None:
            self.lines.append(f"{step['file']}: the server has it no more")
        return stand

    def changed(self, step):
        """An edit of objects. What another replaced likewise, or deleted too, is done."""
        edit, stand = step["edit"], self.sheet(step)
        if stand is None:
            return
        was = {int(key): text for key, text in step["was"].items()}
        if edit["kind"] == "replace" and stand.objects.get(edit["id"]) == edit["text"]:
            return
        if edit["kind"] == "delete":
            was = {key: text for key, text in was.items() if key in stand.objects}
            step = {**step, "edit": {**edit, "ids": sorted(was)}}
        others = {key: text for key, text in was.items() if stand.objects.get(key) != text}
        for key, text in others.items():
            self.lines.append(f"{step['file']}: changed since: {key}, {item_of(text)}")
            self.lines += [f"    {line}" for line in change_lines(text, stand.objects.get(key))]
        if was and not others:
            self.leave(step, stand.front)

    looks = {
        "add_symbol": symbol,
        "replace_symbol": symbol,
        "add_sheet": new_sheet,
        "add_object": new_object,
        "replace": changed,
        "delete": changed,
        "move": changed,
        "turn": changed,
    }


def state_of(proposal, reviews, board):
    """Whether it is open, stale, accepted or withdrawn, or is being accepted."""
    if proposal.end:
        return proposal.end["state"]
    if reviews.claims.load(proposal.name):
        return "being accepted"
    return "stale" if Standing(proposal, board).lines else "open"


def proposals(asked, server, folder):
    board, status = BoardNow(server), 0
    for name in asked.reviews.proposals.names():
        try:
            proposal = asked.reviews.proposal(name)
            show_proposal(proposal, state_of(proposal, asked.reviews, board))
        except (Damaged, Stop) as why:
            print(f"{name}: {why}")
            status = 1
    return status


def show_proposal(proposal, state):
    """Prints who proposed what, and what became of it."""
    name, end, by = proposal.name, proposal.end, f"by {proposal.who} at {proposal.time}"
    if end:
        print(f"{name}: {state} by {end['who']} at {end['time']}{sent_as(end)}; proposed {by}")
    else:
        print(f"{name}: {state}, {by}: {edit_count(proposal.steps)} on {', '.join(proposal.files)}")
    for line in margin(proposal.message):
        print(line)


def sent_as(end):
    """The edits as which a proposal was accepted, in words."""
    serials = ", ".join(map(str, end["serials"]))
    return f" as edit{'s' if len(end['serials']) > 1 else ''} {serials}" if serials else ""
