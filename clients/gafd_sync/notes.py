"""`note`, `notes`, `resolve`: what somebody says at a part, a net or a sheet, open until it is
resolved."""
from .records import Damaged
from .reviews import margin, now
from .words import Stop


def numbers(records):
    """The numbers of the notes that are there, which count from 1."""
    return sorted(int(name) for name in records.names() if name.isascii() and name.isdigit())


def note(asked, server, folder):
    notes, text = asked.reviews.notes, asked.text.strip()
    if not text:
        raise Stop("a note has words")
    value = {"who": asked.who, "time": now(), "at": asked.at, "text": text}
    number = max(numbers(notes), default=0) + 1
    while not notes.add(str(number), value):
        # Another wrote one just now.
        number += 1
    print(f"note {number} is at {asked.at}")
    return 0


def notes(asked, server, folder):
    reviews, status = asked.reviews, 0
    for number in numbers(reviews.notes):
        try:
            value, end = (it.load(str(number)) for it in (reviews.notes, reviews.resolved))
        except Damaged as why:
            print(f"{number}: is damaged: {why}")
            status = 1
            continue
        if asked.all or not end:
            by = f"by {value['who']} at {value['time']}"
            ended = f", resolved by {end['who']} at {end['time']}" if end else ""
            print("\n".join([f"{number}: {value['at']}, {by}{ended}", *margin(value["text"])]))
    return status


def resolve(asked, server, folder):
    reviews, name = asked.reviews, str(asked.count)
    try:
        if reviews.notes.load(name) is None:
            raise Stop(f"there is no note {name}; `gafd_sync notes` lists them")
        if not reviews.resolved.add(name, {"who": asked.who, "time": now()}):
            end = reviews.resolved.load(name)
            raise Stop(f"the note {name} was resolved by {end['who']} at {end['time']}")
    except Damaged as why:
        raise Stop(f"the note {name} is damaged: {why}") from None
    print(f"note {name} is resolved")
    return 0
