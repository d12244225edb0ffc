"""The reviews of a board: its proposals and notes, and the board with a proposal, which is a server
of its own over a copy of the history to which the proposal was put."""
import contextlib
import json
import pathlib
import threading

from gafd_sync.accepted import FINDING, REASON, Accepted, is_line
from gafd_sync.notes import numbers
from gafd_sync.proposals import BoardNow, Standing
from gafd_sync.records import Damaged
from gafd_sync.reviewing import put
from gafd_sync.reviews import Reviews
from gafd_sync.server import Server
from gafd_sync.words import NAME, Stop
from past_boards import PastBoard
from served_board import Answer, fault

MOST_BOARDS = 2


@contextlib.contextmanager
def reader(url, session="reader"):
    """A server as the client has it. That it is away, or answers amiss, is an error of the system."""
    server = Server(url, session)
    with contextlib.closing(server.link):
        try:
            yield server
        except Stop as stop:
            raise OSError(str(stop)) from None


def is_acceptance(asked):
    """Whether somebody asks so to accept a finding, or no longer to."""
    if not isinstance(asked, dict) or asked.keys() != {"finding", "who", "reason"}:
        return False
    finding, who, reason = (asked[it] for it in ("finding", "who", "reason"))
    is_named = type(who) is str and NAME.fullmatch(who)
    return is_line(finding, FINDING) and is_named and (reason is None or is_line(reason, REASON))


class BoardReviews:
    """The folder of the reviews, and a server's address, or None for a board of files. Boards with a
    proposal are made of a store; the last two that were asked for stay. With `is_look` no finding
    is accepted."""

    def __init__(self, folder, url, store, run, is_look=False):
        self.reviews, self.url, self.run, self.is_look = Reviews(folder), url, run, is_look
        self.accepted = Accepted(self.reviews)
        self.store = store and pathlib.Path(store).resolve()
        self.lock, self.boards, self.seen = threading.Lock(), {}, (None, [])

    def listed(self, front):
        """All proposals, with what became of each, the notes that are open, and the findings that
        are accepted."""
        return {"proposals": self.proposals(front) if self.url else [], "notes": self.notes(),
                "accepted": self.accepted.listed()}

    def accept(self, body):
        """Accepts a finding as somebody says, for a reason, or where that is null no longer; the
        answer has those that are accepted then."""
        try:
            asked = json.loads(body)
        except (ValueError, RecursionError):
            asked = None
        if not is_acceptance(asked):
            return fault(400, "BadAcceptance")
        if asked["reason"] is None:
            self.accepted.take_back(asked["finding"])
        else:
            self.accepted.accept(asked["finding"], asked["who"], asked["reason"])
        return Answer(200, None, json.dumps(self.accepted.listed(), ensure_ascii=False).encode())

    def proposals(self, front):
        """They are looked at anew where the board went on, or one came or ended."""
        reviews = self.reviews
        kinds = [it.names() for it in (reviews.proposals, reviews.claims, reviews.ends)]
        with self.lock:
            if self.seen[0] != (front, kinds):
                with reader(self.url) as server:
                    board = BoardNow(server)
                    self.seen = (front, kinds), [self.told(name, board) for name in kinds[0]]
            return self.seen[1]

    def told(self, name, board):
        """A proposal with its state, and with what stands against it."""
        try:
            proposal = self.reviews.proposal(name)
            is_claimed = self.reviews.claims.load(name) is not None
        except (Stop, Damaged) as why:
            return {"name": name, "state": "damaged", "against": [str(why)]}
        end, against = proposal.end, []
        if end or is_claimed:
            state = end["state"] if end else "being accepted"
        else:
            against = Standing(proposal, board).lines
            state = "stale" if against else "open"
        fields = {it: getattr(proposal, it) for it in ("name", "who", "time", "message", "files")}
        return {**fields, "edits": len(proposal.steps), "state": state, "against": against,
                "end": end}

    def notes(self):
        found, done = [], set(numbers(self.reviews.resolved))
        for number in numbers(self.reviews.notes):
            with contextlib.suppress(Damaged):
                if number not in done:
                    found.append({"number": number, **self.reviews.notes.load(str(number))})
        return found

    def outcome(self, name, now):
        """What stands against a proposal after so many edits, and the front at which the board with
        it is shown: another one where it is not legal now, and None where it is on no board."""
        return self.board(name, now).told

    def ask(self, name, now, path):
        board = self.board(name, now)
        if board.told["front"] is None:
            return fault(409, "Refused")
        return board.ask("GET", path)

    def board(self, name, now):
        if self.run is None:
            raise OSError("there is no program")
        with self.lock:
            board = self.boards.pop((name, now), None) or self.made(name, now)
            self.boards[name, now] = board
            while len(self.boards) > MOST_BOARDS:
                self.boards.pop(next(iter(self.boards))).close()
        return board

    def made(self, name, now):
        try:
            proposal = self.reviews.proposal(name)
        except Stop as stop:
            raise OSError(str(stop)) from None
        if proposal.end:
            return self.put(proposal, min(proposal.base, now), now, [])
        board = self.put(proposal, now, now, [])
        if not board.against:
            return board
        board.close()
        return self.put(proposal, min(proposal.base, now), now, board.against)

    def put(self, proposal, front, now, against):
        """The board after so many edits with a proposal; `against` is what stands against it now."""
        board = ProposedBoard(self.store, front, self.run, proposal)
        told = {"now": now, "against": against or board.against}
        board.told = {**told, "front": None if board.against else front}
        return board

    def close(self):
        with self.lock:
            for board in self.boards.values():
                board.close()
            self.boards.clear()


class ProposedBoard(PastBoard):
    """A board as it was after so many edits, to which a proposal was put. `told` is what a page is
    told of it."""

    def __init__(self, store, front, run, proposal):
        super().__init__(store, front, run)
        try:
            with reader(self.address.url, proposal.who) as server:
                self.against = put(proposal, server)
        except OSError:
            self.close()
            raise
        self.told = None
