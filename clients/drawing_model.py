"""Sheets that are drawn at random, as a model of their objects by what each one is.

A key stands for one object as long as it is drawn, whatever is changed in it; a file has no keys.
So each object bears its key as an attribute, `tag=17`, and a text has it as a line."""
from typing import NamedTuple

HEADS = ("v 20201211 2", "v 20201216 2", "v 20140308 2")
LINES = {
    "C": "C {} {} 1 {} {} {symbol}",
    "N": "N {} {} {} {} 4",
    "U": "U {} {} {} {} 4 1",
    "L": "L {} {} {} {} 3 10 0 0 -1 -1",
    "B": "B {} {} 500 300 3 10 0 0 -1 -1 0 -1 -1 -1 -1 -1",
    "V": "V {} {} 100 3 10 0 0 -1 -1 0 -1 -1 -1 -1 -1",
    "T": "T {} {} 9 10 1 0 {} 0 {count}",
}
LETTERS = "CCCCNNNNNTLBVU"
SYMBOLS = ("res.sym", "cap.sym")
WAYS = ((500, 0), (0, 500), (1000, 0), (0, -300))
SHIFTS = ((100, 0), (0, -200), (300, 300))


class Drawn(NamedTuple):
    """An object: its letter, its numbers that change, its attributes as name and value, the symbol
    of a component, the lines of a text."""

    letter: str
    numbers: tuple
    attributes: tuple = ()
    symbol: str = ""
    content: tuple = ()

    @property
    def text(self):
        count = len(self.content)
        line = LINES[self.letter].format(*self.numbers, symbol=self.symbol, count=count)
        lines = [line, *self.content]
        if self.attributes:
            x, y = self.numbers[:2]
            lines.append("{")
            for at, (name, value) in enumerate(self.attributes):
                lines += [f"T {x + 100} {y + 100 * at} 5 10 1 1 0 0 1", f"{name}={value}"]
            lines.append("}")
        return "\n".join(lines) + "\n"

    def value(self, name):
        return dict(self.attributes).get(name)

    def with_value(self, name, value):
        """It with another value of an attribute that it has, or else with one more."""
        if self.value(name) is None:
            return self._replace(attributes=((name, value), *self.attributes))
        found = ((one, value if one == name else old) for one, old in self.attributes)
        return self._replace(attributes=tuple(found))

    def with_number(self, place, value):
        numbers = self.numbers[:place] + (value,) + self.numbers[place + 1 :]
        return self._replace(numbers=numbers)

    def shifted(self, dx, dy):
        count = 4 if self.letter in "NUL" else 2
        ways = (dx, dy) * (count // 2) + (0,) * (len(self.numbers) - count)
        return self._replace(numbers=tuple(a + b for a, b in zip(self.numbers, ways)))

    def tagged(self, key):
        if self.letter == "T":
            return self._replace(content=(self.content[0], f"tag{key}"))
        return self.with_value("tag", str(key))


class Pen:
    """Draws at random. `key` is the key of the last object that it drew."""

    def __init__(self, draw):
        self.draw, self.key = draw, 0

    def new_key(self):
        self.key += 1
        return self.key

    def new(self):
        """A new object, by its key."""
        draw, key = self.draw, self.new_key()
        letter, x, y = draw.choice(LETTERS), 100 * draw.randrange(400), 100 * draw.randrange(300)
        one = Drawn(letter, (x, y))
        if letter == "C":
            one = self.component(key, x, y)
        elif letter in "NUL":
            dx, dy = draw.choice(WAYS)
            one = one._replace(numbers=(x, y, x + dx, y + dy))
            if letter == "N" and draw.random() < 0.25:
                one = one.with_value("netname", draw.choice(("A", "B", f"CLK{key}")))
        elif letter == "T":
            words = draw.choice(("note", f"a note {key}", f"see R{key}"))
            one = one._replace(numbers=(x, y, draw.choice((0, 90))), content=(words,))
        return key, one.tagged(key)

    def component(self, key, x, y):
        draw = self.draw
        numbers = (x, y, draw.choice((0, 90, 180, 270)), draw.choice((0, 0, 0, 1)))
        refdes = draw.choice((f"R{key}", f"R{key}", "R?", f"R{draw.randrange(1, 30)}"))
        found = [("refdes", refdes), ("value", draw.choice(("1k", "10k", "100n", f"{key}k")))]
        if draw.random() < 0.2:
            found.append(("slot", str(draw.randrange(1, 5))))
        return Drawn("C", numbers, tuple(found), draw.choice(SYMBOLS))

    def edited(self, one):
        """An object with one thing changed."""
        if one.letter == "C":
            return self.edited_component(one)
        if one.letter == "T":
            words = self.draw.choice((f"changed {self.draw.randrange(99)}", "note"))
            return one._replace(content=(words, *one.content[1:]))
        if one.letter in "BV":
            return one.with_number(0, one.numbers[0] + 100)
        chance = self.draw.random()
        if chance < 0.5:
            return one.with_number(2, one.numbers[2] + self.draw.choice((100, -100, 500)))
        if one.letter == "N" and chance < 0.8:
            return one.with_value("netname", self.draw.choice(("A", "B", "X3", "X7")))
        return one.with_number(1, one.numbers[1] + 100)

    def edited_component(self, one):
        draw, chance = self.draw, self.draw.random()
        if chance < 0.4:
            return one.with_value("value", draw.choice(("2k2", "4k7", f"{draw.randrange(999)}n")))
        if chance < 0.6:
            return one.with_value("refdes", f"R{draw.randrange(1, 60)}")
        if chance < 0.75:
            return one.with_value(draw.choice(("footprint", "device")), str(draw.randrange(99)))
        if chance < 0.85:
            return one.with_number(2, (one.numbers[2] + 90) % 360)
        if chance < 0.95:
            return one._replace(symbol=draw.choice(SYMBOLS))
        kept = (it for it in one.attributes if it[0] in ("refdes", "tag"))
        return one._replace(attributes=tuple(kept))

    def changes(self, objects):
        """Changes some of the objects of a sheet, by key, as an engineer does before a save."""
        for _ in range(self.draw.randrange(1, 5)):
            keys, chance = list(objects), self.draw.random()
            if not keys or chance < 0.2:
                objects.update([self.new()])
            elif chance < 0.55:
                key = self.draw.choice(keys)
                objects[key] = self.edited(objects[key])
            elif chance < 0.7:
                del objects[self.draw.choice(keys)]
            elif chance < 0.9:
                way = self.draw.choice(SHIFTS)
                for key in self.draw.sample(keys, min(len(keys), self.draw.choice((1, 2, 5, 10)))):
                    objects[key] = objects[key].shifted(*way)
            elif chance < 0.95:
                key = self.new_key()
                objects[key] = objects[self.draw.choice(keys)].shifted(200, 0).tagged(key)
            else:
                self.swaps_names(objects)

    def swaps_names(self, objects):
        components = [key for key, one in objects.items() if one.letter == "C"]
        if len(components) > 1:
            one, other = self.draw.sample(components, 2)
            names = [objects[key].value("refdes") for key in (other, one)]
            for key, name in zip((one, other), names):
                objects[key] = objects[key].with_value("refdes", name)

    def file(self, objects):
        """A sheet of these objects, as a drawing program may write it."""
        found = list(objects.values())
        if self.draw.random() < 0.3:
            self.draw.shuffle(found)
        return self.draw.choice(HEADS) + "\n" + "".join(one.text for one in found)
