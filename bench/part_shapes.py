"""One sheet of many parts with its symbols, in shapes that are hard in different ways: `SHAPES`,
each a function from a count to the files of a folder, with the counts.
"""
import random

import paths
from drawing import VERSION, component, numbered, symbol, wire

# Five symbols of 20 pins in all. Each has one at (0,0) and one at (1000,0), for the wires.
GATE = ["device=7400", "numslots=4", "slotdef=1:1,2,3", "slotdef=2:4,5,6", "slotdef=3:9,10,8"]
GATE += ["slotdef=4:12,13,11", "net=Vcc:14", "net=GND:7"]
MORE = [numbered(0, 100 * number, number) for number in range(3, 9)]
SYMBOLS = {
    "resistor.sym": [numbered(0, 0, 1), numbered(1000, 0, 2), "device=RESISTOR"],
    "transistor.sym": [numbered(0, 0, 1), numbered(500, 400, 2), numbered(1000, 0, 3), "device=X"],
    "gate.sym": [numbered(0, 0, 1), numbered(0, 400, 2), numbered(1000, 0, 3), *GATE],
    "driver.sym": [numbered(0, 0, 1), numbered(1000, 0, 2), *MORE[:2], "net=Vcc:8", "net=GND:4"],
    "plug.sym": [numbered(0, 0, 1), numbered(1000, 0, 2), *MORE, "device=PLUG"],
}


def sheet(objects):
    return VERSION + "".join(objects)


def board(count):
    """Parts of five symbols in rows of a hundred, each with a wire from its right to the next one;
    each fifth wire has one of 200 names, and each gate is a slot of a package of four."""
    objects = []
    for number in range(count):
        row, place = divmod(number, 100)
        x, y = 2000 * place, 1000 * row
        name = list(SYMBOLS)[number % 5]
        package, slot = divmod(number // 5, 4)
        attached = [f"refdes={name[0].upper()}{number}", f"value={number % 7}k"]
        if name == "gate.sym":
            attached = [f"refdes=U{package}", f"slot={slot + 1}"]
        names = [f"bus{number // 5 % 200}"] if number % 5 == 0 else []
        objects.append(component(name, x, y, *attached))
        objects.append(wire(x + 1000, y, x + 2000 - (place == 99) * 100, y, *names))
    random.Random(1).shuffle(objects)
    return {"x.sch": sheet(objects), **{name: symbol(*it) for name, it in SYMBOLS.items()}}


ONE = symbol(numbered(0, 0, 1))


def spots(count):
    """Places that touch nothing of each other."""
    return ((number, 400 * (number % 400), 100 * (number // 400)) for number in range(count))


def one_name(count):
    """Parts whose pins all have one name."""
    one = symbol(numbered(0, 0, 1), "net=GND:1")
    return {"one.sym": one, "x.sch": sheet(
        component("one.sym", x, y, f"refdes=R{number}") for number, x, y in spots(count))}


def one_name_of_wires(count):
    """The same by the names of wires, half of which have a pin."""
    return {"one.sym": ONE, "x.sch": sheet(
        wire(x, y, x + 100, y, "GND")
        + component("one.sym", x + 200 * (number % 2), y, f"refdes=R{number}")
        for number, x, y in spots(count))}


def own_names(count):
    """Wires each with a name of its own, and a pin."""
    return {"one.sym": ONE, "x.sch": sheet(
        wire(x, y, x + 100, y, f"N{number}") + component("one.sym", x, y, f"refdes=R{number}")
        for number, x, y in spots(count))}


def chain_of_names(count):
    """Wires each of which has a name in common with the next one alone, in random order."""
    objects = [wire(x, y, x + 100, y, f"N{number}", f"N{number + 1}")
               for number, x, y in spots(count)]
    random.Random(1).shuffle(objects)
    return {"one.sym": ONE, "x.sch": sheet([component("one.sym", 0, 0, "refdes=R1"), *objects])}


def names_of_one_wire(count):
    """One wire with all the names."""
    names = [f"N{number}" for number in range(count)]
    objects = [wire(0, 0, 100, 0, *names), component("one.sym", 0, 0, "refdes=R1")]
    return {"one.sym": ONE, "x.sch": sheet(objects)}


def taken_numbers(count):
    """Pins that are alone, and wires whose names are what these pins would be called."""
    return {"one.sym": ONE, "x.sch": sheet(
        component("one.sym", x, y, f"refdes=R{number}")
        + wire(x + 200, y, x + 300, y, f"unconnected_pin-{number + 1}")
        for number, x, y in spots(count))}


def many_pins(count):
    return [numbered(100 * (k % 200), 100 * (k // 200), k) for k in range(count)]


def large_symbol(count):
    """Ten components of one symbol with that many pins."""
    return {"large.sym": symbol(*many_pins(count)), "x.sch": sheet(
        component("large.sym", 0, 15_000 * k, f"refdes=U{k}") for k in range(10))}


def hidden_pins(count):
    """One component with as many values of `net`, each for a pin that is not drawn."""
    nets = (f"net=N{number}:{number}" for number in range(2, count + 2))
    return {"one.sym": ONE, "x.sch": sheet([component("one.sym", 0, 0, "refdes=U1", *nets)])}


def hidden_pin(count):
    """The same, all for one pin."""
    nets = (f"net=N{number}:2" for number in range(count))
    return {"one.sym": ONE, "x.sch": sheet([component("one.sym", 0, 0, "refdes=U1", *nets)])}


def drawn_nets(count):
    """One component with as many values of `net`, each for a pin that is drawn."""
    nets = (f"net=N{number}:{number}" for number in range(count))
    return {"large.sym": symbol(*many_pins(count), *nets),
            "x.sch": sheet([component("large.sym", 0, 0, "refdes=U1")])}


def long_list(count):
    """One value of `net` that lists all pins of its component, which are drawn."""
    numbers = ",".join(str(number) for number in range(count))
    return {"large.sym": symbol(*many_pins(count), f"net=GND:{numbers}"),
            "x.sch": sheet([component("large.sym", 0, 0, "refdes=U1")])}


def slot_definitions(count):
    """Components of a symbol with fifty times fewer slots, each in one of the last slots."""
    slots = count // 50
    defs = (f"slotdef={k + 1}:{2 * k + 1},{2 * k + 2}" for k in range(slots))
    gate = symbol(numbered(0, 0, 1), numbered(100, 0, 2), *defs)
    return {"gate.sym": gate, "x.sch": sheet(
        component("gate.sym", x, y, f"refdes=U{number % 9}", f"slot={slots - number % 9}")
        for number, x, y in spots(count))}


def own_symbols(count):
    """Components each with a symbol file of its own."""
    files = {f"{number}.sym": ONE for number in range(count)}
    return {**files, "x.sch": sheet(
        component(f"{number}.sym", x, y, f"refdes=R{number}") for number, x, y in spots(count))}


def one_refdes(count):
    """Components of one package, each with a value, of which the first counts."""
    return {"one.sym": ONE, "x.sch": sheet(
        component("one.sym", x, y, "refdes=U1", f"value={number}")
        for number, x, y in spots(count))}


def star(count):
    """Wires with one common end."""
    ends = ((100 * (k % 200 + 1), 100 * (k // 200)) for k in range(count))
    wires = (wire(0, 0, *end) for end in ends)
    return {"one.sym": ONE, "x.sch": sheet([component("one.sym", 0, 0, "refdes=R1"), *wires])}


def pins_at_one_point(count):
    """Components whose pins are all at one point."""
    parts = (component("one.sym", 0, 0, f"refdes=R{number}") for number in range(count))
    return {"one.sym": ONE, "x.sch": sheet(parts)}


SHAPES = [
    (board, (1_000, 10_000)),
    (one_name, (1_000, 10_000)),
    (one_name_of_wires, (1_000, 10_000)),
    (own_names, (1_000, 10_000)),
    (chain_of_names, (1_000, 10_000)),
    (names_of_one_wire, (1_000, 10_000)),
    (taken_numbers, (1_000, 10_000)),
    (large_symbol, (1_000, 10_000)),
    (hidden_pins, (500, 5_000)),
    (hidden_pin, (500, 5_000)),
    (drawn_nets, (500, 5_000)),
    (long_list, (1_000, 10_000)),
    (slot_definitions, (1_000, 10_000)),
    (own_symbols, (800, 8_000)),
    (one_refdes, (1_000, 10_000)),
    (star, (1_000, 5_000)),
    (pins_at_one_point, (1_000, 5_000)),
]
