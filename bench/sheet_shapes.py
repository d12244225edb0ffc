"""Many sheets and many instances of parts, in shapes that are hard in different ways: `SHAPES`,
each a function from a count to the files of a folder, with the counts.
"""
import paths
from drawing import component, pin, symbol, wire
from part_shapes import ONE, SYMBOLS, sheet, spots


def labelled(number, label):
    """A pin with a label, of which each is at a place of its own."""
    x, y = 100 * (number % 200), 100 * (number // 200)
    return pin(x, y, f"pinnumber={number}", f"pinlabel={label}")


BOX = symbol(labelled(0, "IN"), labelled(1, "OUT"))
PORT = symbol(pin(0, 0, "pinnumber=1"))


def stage(number):
    """A sheet of twenty parts of five symbols in a row with wires, between two ports; a wire in
    five has a name, and the gates are slots of one package."""
    objects = [component("port.sym", 0, 0, "refdes=IN"),
               component("port.sym", 40_000, 0, "refdes=OUT")]
    for place in range(20):
        name, x = list(SYMBOLS)[place % 5], 2000 * place
        attached = [f"refdes={name[0].upper()}{place}", f"value={(number + place) % 7}k"]
        if name == "gate.sym":
            attached = ["refdes=U1", f"slot={place // 5 + 1}"]
        objects.append(component(name, x, 0, *attached))
        names = [f"bus{place // 5}"] if place % 5 == 2 else []
        objects.append(wire(x + 1000, 0, x + 2000, 0, *names))
    return sheet(objects)


def instances(count):
    """Twenty sheets of twenty parts, used so often in a row on the sheet above that there are so
    many parts in all."""
    files = {name: symbol(*it) for name, it in SYMBOLS.items()}
    files.update({"port.sym": PORT, "box.sym": BOX})
    objects = []
    for number in range(20):
        files[f"s{number}.sch"] = stage(number)
        for use in range((count // 20 + number) // 20):
            x, y = 400 * use, 1000 * number
            attached = f"refdes=A{number}-{use}", f"source=s{number}.sch"
            objects += [component("box.sym", x, y, *attached), wire(x + 100, y, x + 400, y)]
    return {**files, "x.sch": sheet(objects)}


def many_instances(count):
    """So many instances but one of a sheet of a hundred parts and wires, in rows of ten."""
    rows = []
    for row in range(10):
        for place in range(10):
            x, y = 200 * place, 1000 * row
            rows.append(component("one.sym", x, y, f"refdes=R{10 * row + place}"))
            names = [f"N{row}"] if row % 2 and not place else []
            rows.append(wire(x, y, x + 200 - (place == 9) * 100, y, *names))
    above = (component("box.sym", x, y, f"refdes=U{number}", "source=low.sch")
             for number, x, y in spots(count - 1))
    return {"one.sym": ONE, "box.sym": BOX, "low.sch": sheet(rows), "x.sch": sheet(above)}


def roots(count):
    """So many sheets of ten parts each, side by side; each fifth wire has one of 200 names."""
    files = {"one.sym": ONE}
    for number in range(count):
        objects = []
        for part in range(10 * number, 10 * number + 10):
            x, names = 100 * (part % 10), [f"bus{part // 5 % 200}"] if part % 5 == 0 else []
            objects.append(component("one.sym", x, 0, f"refdes=R{part}"))
            objects.append(wire(x, 0, x, 50, *names))
        files[f"{number}.sch"] = sheet(objects)
    return files


def ports(count):
    """A component of so many labelled pins over a sheet of as many ports, each pin and each port
    with a part at it."""
    block = symbol(*(labelled(number, f"P{number}") for number in range(count)), "source=low.sch")
    low, above = [], [component("block.sym", 0, 0, "refdes=U1")]
    for number, x, y in spots(count):
        low.append(component("port.sym", x, y, f"refdes=P{number}"))
        low.append(component("one.sym", x, y, f"refdes=R{number}"))
        at = 100 * (number % 200), 100 * (number // 200)
        above.append(component("one.sym", *at, f"refdes=R{number}"))
    return {"block.sym": block, "port.sym": PORT, "one.sym": ONE,
            "low.sch": sheet(low), "x.sch": sheet(above)}


def ports_of_one_label(count):
    """The same, but all pins have one label, and all ports one refdes."""
    files = ports(count)
    block = symbol(*(labelled(number, "P") for number in range(count)), "source=low.sch")
    low = []
    for number, x, y in spots(count):
        low.append(component("port.sym", x, y, "refdes=P"))
        low.append(component("one.sym", x, y, f"refdes=R{number}"))
    return {**files, "block.sym": block, "low.sch": sheet(low)}


def layers(count):
    """Two sheets in each layer, each over both of the next one: so many layers below the first."""
    def over(layer):
        return [component("box.sym", 0, 1000 * place, f"refdes=U{place}", f"source={layer}{it}.sch")
                for place, it in enumerate("ab")]

    parts = [component("one.sym", 200 * k, 500, f"refdes=R{k}") for k in range(10)]
    parts += [wire(200 * k, 500, 200 * k + 100, 500, f"N{k}") for k in range(10)]
    parts += [component("port.sym", 0, 500, "refdes=IN")]
    files = {"one.sym": ONE, "box.sym": BOX, "port.sym": PORT, "x.sch": sheet(over(1))}
    for layer in range(1, count + 1):
        below = over(layer + 1) if layer < count else []
        files.update({f"{layer}{letter}.sch": sheet([*parts, *below]) for letter in "ab"})
    return files


SHAPES = [
    (instances, (1_000, 10_000)),
    (many_instances, (410, 4_096)),
    (roots, (100, 1_000)),
    (ports, (1_000, 10_000)),
    (ports_of_one_label, (200, 2_000)),
    (layers, (8, 11)),
]
