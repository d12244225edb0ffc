"""The rules for the SPICE text of a project, told again: what `netlist --form spice` answers.

Net list and packages are those of project_rules.py. It shares no code with the program.
"""
import re

from hierarchy_rules import Ends, gathered, groups_of, instances_of
from printed import flat, word
from project_rules import asked_of, listed_nets, packages_of

PINS = {**dict.fromkeys("RCLVID", 2), "Q": 3, "M": 4}


def pieces_of(refdes):
    """The last piece of a refdes, and those before it."""
    *earlier, last = refdes.encode().split(b"/")
    return last, earlier


def pin_count(refdes, pins):
    """How many pins a card has, and None where there is no card."""
    letter = pieces_of(refdes)[0][:1].upper().decode("latin-1")
    return len(pins) if letter == "X" else PINS.get(letter)


def card_name(refdes):
    last, earlier = pieces_of(refdes)
    return re.sub(rb"[^0-9A-Za-z]", b"_", b"_".join([last, *earlier])).decode()


def nodes_of(nets):
    """The node of each net, in their order."""
    numbers = iter(range(1, len(nets) + 1))
    return [0 if net.name == "GND" else next(numbers) for net in nets]


def pins_of(nets):
    """By refdes and number the places of the nets that have the pin."""
    pins = {}
    for place, net in enumerate(nets):
        for refdes, number in net.members():
            pins.setdefault(refdes, {}).setdefault(number, []).append(place)
    return pins


def fault_of(refdes, package, count, pins, names):
    """The first fault of a package with a card, or None."""
    if card_name(refdes).lower() in names:
        return "NameClash"
    if set(pins) != {str(number) for number in range(1, count + 1)}:
        return "PinSet"
    if any(len(places) > 1 for places in pins.values()):
        return "TwoNets"
    return None if package.keys() & {"value", "device"} else "NoValue"


def card_of(refdes, package, count, pins, nodes):
    numbers = [str(nodes[pins[str(number)][0]]) for number in range(1, count + 1)]
    value = package.get("value", package.get("device"))
    return " ".join([card_name(refdes), *numbers, flat(value)])


def spice_lines(packages, nets):
    """The lines of the text; Ends with the first fault."""
    nodes, pins, names = nodes_of(nets), pins_of(nets), set()
    lines = [f"* node {node} {word(net.name)}" for node, net in zip(nodes, nets)]
    for refdes, package in packages:
        own = pins.get(refdes, {})
        count = pin_count(refdes, own)
        if count is None:
            lines.append(f"* skipped {word(refdes)}")
            continue
        if fault := fault_of(refdes, package, count, own, names):
            raise Ends(1, f"{fault} {word(refdes)}")
        names.add(card_name(refdes).lower())
        lines.append(card_of(refdes, package, count, own, nodes))
    return ["* gafd", *lines, ".end"]


def spice_text(files, words):
    """The text for the words that have the form already."""
    _, names = asked_of(words, "form")
    instances = instances_of(gathered(files, names).sheets)
    packages = sorted(packages_of(instances).items())
    lines = spice_lines(packages, listed_nets(list(groups_of(instances))))
    return "".join(f"{line}\n" for line in lines)


def answer_of(files, words):
    """Status, what goes out, and the error line."""
    try:
        return 0, spice_text(files, words).encode(), b""
    except Ends as ends:
        return ends.status, b"", f"gafd: {ends.said}\n".encode()
