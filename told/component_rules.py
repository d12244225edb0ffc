"""The rules for one component with its symbol, told again: attributes, slots, values of `net`, and
where its pins stand.

It shares no code with the program. Values are texts, and all orders are those of code points,
which is that of the bytes of UTF-8.
"""
import collections
import functools
import re

DIGITS = re.compile(r"[0-9]{1,4}")
KINDS = ("unknown", "in", "out", "io", "oc", "oe", "pas", "tp", "tri", "clk", "pwr")

Pin = collections.namedtuple("Pin", "end number label kind")


def attributes(texts):
    """Names and values of the texts that are attributes, in order."""
    for text in texts:
        name, _, value = b"\n".join(text.following).decode().partition("=")
        if name and value and not name.endswith(" ") and not value.startswith(" "):
            yield name, value


def values_of(pairs, name):
    return [value for known, value in pairs if known == name]


def first_of(pairs, name):
    return next(iter(values_of(pairs, name)), None)


def is_word(text):
    return len(text.encode()) <= 200 and not any(ord(c) <= 32 or ord(c) == 127 for c in text)


def number_list(text):
    """The numbers between commas without the spaces round them, or None where one is bad."""
    numbers = [piece.strip(" ") for piece in text.split(",")]
    return numbers if all(number and is_word(number) for number in numbers) else None


def small_number(text):
    """What 1 to 4 digits say; None for any other text, and for none."""
    return int(text) if text is not None and DIGITS.fullmatch(text) else None


def slot_list(slot, numslots, slotdefs):
    """The pin numbers of a slot, or the fault."""
    wanted, most = small_number(slot), small_number(numslots)
    if not wanted or (most and wanted > most):
        return "SlotRange"
    for slotdef in slotdefs:
        start, colon, rest = slotdef.partition(":")
        if colon and small_number(start) == wanted:
            return number_list(rest) or "BadSlotdef"
    return "NoSlotdef"


def net_entry(value):
    """The name and the pin numbers of a value of `net`, or None where it is bad."""
    name, colon, rest = value.partition(":")
    numbers = number_list(rest)
    return (name, numbers) if name and colon and numbers else None


def named(values):
    """The names that values of `net` give, by pin number."""
    names = collections.defaultdict(list)
    for name, numbers in filter(None, map(net_entry, values)):
        for number in numbers:
            names[number].append(name)
    return names


def kind_of(pintype):
    """The kind that a value of `pintype` says; unknown for any other value, and for none."""
    return pintype if pintype in KINDS else "unknown"


class Component:
    """A component under its id with the symbols that were read, by name."""

    def __init__(self, key, item, symbols):
        self.key, self.item = key, item
        is_embedded, self.basename = item.parts is not None, item.values[-1].decode()
        self.has_symbol = is_embedded or self.basename in symbols
        self.parts = item.parts if is_embedded else symbols.get(self.basename, [])
        self.place = (lambda point: point) if is_embedded else self.placed
        self.attached = list(attributes(item.texts))
        self.inherited = list(attributes(part for part in self.parts if part.letter == b"T"))

    def values(self, name):
        """All attached values of a name or, where none is attached, all inherited ones."""
        return values_of(self.attached, name) or values_of(self.inherited, name)

    def value(self, name):
        return next(iter(self.values(name)), None)

    @functools.cached_property
    def refdes(self):
        refdes = self.value("refdes")
        return None if refdes is None or "\n" in refdes else refdes

    @functools.cached_property
    def is_graphical(self):
        return self.value("graphical") == "1"

    @functools.cached_property
    def is_directive(self):
        """Whether it says that a pin is open on purpose."""
        said = self.value("device"), self.value("value")
        return said == ("DRC_Directive", "NoConnection")

    @property
    def is_annotation(self):
        return self.is_graphical or self.is_directive

    @functools.cached_property
    def sources(self):
        """The distinct values of `source`; where there are some, the component is composite."""
        return [] if self.is_annotation else list(dict.fromkeys(self.values("source")))

    def placed(self, point):
        """Where a point of a symbol of the library stands on the sheet."""
        x, y = point
        to_x, to_y, _, angle, mirror, _ = self.item.values
        if mirror:
            x = -x
        for _ in range(angle // 90):
            x, y = -y, x
        return to_x + x, to_y + y

    @functools.cached_property
    def pins(self):
        """The drawn pins: the active end, the number and the label of each net pin."""
        has_none = self.is_graphical and not self.is_directive
        return [] if has_none else list(self.drawn_pins())

    @functools.cached_property
    def slot_numbers(self):
        """The pin numbers of the component's slot, or the fault; None where it has no slot."""
        slot = self.value("slot")
        if slot is None:
            return None
        return slot_list(slot, self.value("numslots"), self.values("slotdef"))

    def drawn_pins(self):
        numbers = self.slot_numbers
        for part in self.parts:
            if part.letter != b"P" or part.values[5] != 0:
                continue
            own = list(attributes(part.texts))
            number = first_of(own, "pinnumber")
            number = number if number is not None and is_word(number) else "?"
            seq = small_number(first_of(own, "pinseq"))
            if isinstance(numbers, list) and seq and seq <= len(numbers):
                number = numbers[seq - 1]
            ends = part.values[:2], part.values[2:4]
            end = self.place(tuple(ends[part.values[6]]))
            yield Pin(end, number, first_of(own, "pinlabel"), kind_of(first_of(own, "pintype")))

    def net_values(self):
        """All values of `net`, good and bad."""
        return values_of(self.attached, "net") + values_of(self.inherited, "net")

    @functools.cached_property
    def global_names(self):
        """The names that values of `net` give, by pin number: the attached ones, and the inherited
        ones of numbers that no attached one lists. A directive gives none."""
        own, other = (
            named([] if self.is_directive else values_of(pairs, "net"))
            for pairs in (self.attached, self.inherited)
        )
        return {**other, **own}

    def hidden(self):
        """The numbers with a global name that no drawn pin has, with their names."""
        drawn = {pin.number for pin in self.pins}
        return [it for it in self.global_names.items() if it[0] not in drawn]
