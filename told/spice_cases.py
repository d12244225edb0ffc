"""Folders with known answers for the rules of spice_rules.py: `case_table`."""
from drawing import LIBRARY, VERSION, embedded, part, pin, wire


def alone(refdes, count, *contents):
    """A part with its pins in a row, each by itself."""
    pins = [pin(0, 100 * at, f"pinnumber={at}") for at in range(1, count + 1)]
    return embedded("part.sym", pins, f"refdes={refdes}", *contents)


def nodes(count):
    return [f"* node {at} unconnected_pin-{at}" for at in range(1, count + 1)]


def texts():
    two = part(0, 0, "R1", "value=10k") + part(1000, 0, "R2", "value=22k")
    yield "two resistors", two + wire(300, 0, 1000, 0), [
        "* node 1 unnamed_net1", "* node 2 unconnected_pin-1", "* node 3 unconnected_pin-2",
        "R1 2 1 10k", "R2 1 3 22k"]
    for letter, count in [*dict.fromkeys("RCLVID", 2).items(), ("Q", 3), ("M", 4)]:
        for many in (count - 1, count + 1):
            yield f"{letter} with {many} pins", alone(f"{letter}1", many, "value=1"), (
                f"PinSet {letter}1")
        numbers = " ".join(map(str, range(1, count + 1)))
        yield f"{letter} with {count} pins", alone(f"{letter}1", count, "value=1"), [
            *nodes(count), f"{letter}1 {numbers} 1"]
    for count in (0, 1, 5):
        numbers = "".join(f" {at}" for at in range(1, count + 1))
        yield f"X with {count} pins", alone("x1", count, "value=amp"), [
            *nodes(count), f"x1{numbers} amp"]
    yield "another letter", alone("U 1", 1), ["* node 1 unconnected_pin-1", "* skipped U_1"]
    yield "no letter", alone("R1/", 1), ["* node 1 unconnected_pin-1", "* skipped R1/"]
    yield "earlier pieces stand behind", alone("a/b-c/r1", 2, "device=R"), [
        *nodes(2), "r1_a_b_c 1 2 R"]
    yield "GND and gnd", part(0, 0, "V1", "value=DC 5", "net=GND:2", "net=gnd:1"), [
        "* node 0 GND", "* node 1 gnd", "V1 1 0 DC 5"]


def faults():
    yield "names in two cases", part(0, 0, "R1") + part(1000, 0, "r1"), "NameClash r1"
    yield "names with other bytes", part(0, 0, "R 1") + part(1000, 0, "R_1"), "NameClash R_1"
    yield "no clash with one that is skipped", alone("U1", 1) + alone("u1", 1), [
        "* node 1 unnamed_net1", "* skipped U1", "* skipped u1"]
    yield "a clash comes before the pins", alone("R1", 2, "value=1") + alone("r1", 3), (
        "NameClash r1")
    again = part(0, 0, "R1") + part(1000, 0, "R1")
    yield "pins on two nets", again, "TwoNets R1"
    tied = "".join(wire(x, 0, x, y) + wire(x, y, x + 1000, y) + wire(x + 1000, y, x + 1000, 0)
                   for x, y in ((0, -100), (300, 100)))
    yield "the same pins on one net each", again + tied, [
        "* node 1 unnamed_net1", "* node 2 unnamed_net2", "R1 1 2 TWO"]
    yield "neither value nor device", alone("R1", 2), "NoValue R1"


def answer(wanted):
    if isinstance(wanted, str):
        return 1, b"", f"gafd: {wanted}\n".encode()
    return 0, "".join(f"{line}\n" for line in ["* gafd", *wanted, ".end"]).encode(), b""


def case_table():
    """Each what it shows, the files of the folder, the words, and its answer."""
    for some in (texts, faults):
        for what, sheet, wanted in some():
            files = {**LIBRARY, "x.sch": VERSION + sheet}
            yield what, {name: it.encode() if isinstance(it, str) else it
                         for name, it in files.items()}, ["x.sch"], answer(wanted)
