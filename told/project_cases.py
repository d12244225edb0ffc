"""Folders with known answers, for the rules of project_rules.py: `case_table`. Here are those of
one sheet; hierarchy_cases.py has those of several.

In what is wanted `|` stands for a tab, and the lines `parts N` and `nets N` are left out: the
packages stand before the empty text, the nets behind it.
"""
import hierarchy_cases
from built import TOP
from drawing import (
    DIRECTIVE, LIBRARY, VERSION, alone, answer, block, component, embedded, gate, numbered, one,
    part, pin, text, wire,
)

STAGE = (
    component("title-B.sym", 40000, 40000)
    + part(44000, 44000, "R1", "value=10k")
    + part(46000, 44000, "C1", angle=90)
    + wire(44300, 44000, 46000, 44000, "VOUT")
    + wire(46000, 44300, 46000, 45000)
    + "U 43000 46000 47000 46000 10 -1\n"
    + "H 3 10 0 0 -1 -1 1 -1 -1 -1 -1 -1 3\nM 48000,44000\nL 48500,44000\nz\n"
    + "G 50000 41000 1400 800 0 0 1\nlogo.png\niVBORw0KGgo=\n.\n"
    + text("Output stage\nSheet 1 of 1")
)
ACROSS = "".join(
    one("pas", x, y, refdes)
    for x, y, refdes in [(0, 500, "A1"), (1000, 500, "A2"), (500, 0, "A3"), (500, 1000, "A4")]
)
TWO_WIRES = one("pas", 0, 0, "A1") + one("pas", 0, 500, "A2") + one("pas", 100, 500, "A3")
SLOTTED = ("slotdef=1:3,4", "slotdef=2:,4", "slotdef=2:6,7", "slotdef=3:8,9", "slotdef=3:6,7")
SLOTTED += ("slotdef=0:6,7", "slotdef=7", "slotdef=8", "slotdef=8:6", "slotdef=10003:6,7")
U1_PINS = (1, 10, 11, 12, 13, 2, 3, 4, 5, 6, 8, 9)


def slotted(*contents):
    """A part of three pins with slots, which is embedded, and no two of whose pins touch."""
    pins = [numbered(0, 100 * k, k) for k in (1, 2)] + [pin(0, 300, "pinnumber=5", "pinseq=3")]
    return embedded("s.sym", [*pins, *SLOTTED], "refdes=U1", *contents)


def sheets():
    """Each what it shows, its objects, and the list text that is wanted, or the fault."""
    yield "two wires that cross are two nets", (
        ACROSS + wire(0, 500, 1000, 500) + wire(500, 0, 500, 1000)
    ), ["A1|-|-|-", "A2|-|-|-", "A3|-|-|-", "A4|-|-|-", "",
        "unnamed_net1|A1-1 A2-1", "unnamed_net2|A3-1 A4-1"]
    yield "a wire that ends on another joins it", (
        ACROSS + wire(0, 500, 1000, 500) + wire(500, 0, 500, 500)
    ), ["A1|-|-|-", "A2|-|-|-", "A3|-|-|-", "A4|-|-|-", "",
        "unnamed_net1|A1-1 A2-1 A3-1", "unconnected_pin-1|A4-1"]
    yield "a slanting wire joins at its ends alone", (
        one("pas", 0, 0, "A1") + one("pas", 1000, 1000, "A2") + one("pas", 500, 500, "A3")
        + wire(0, 0, 1000, 1000)
    ), ["A1|-|-|-", "A2|-|-|-", "A3|-|-|-", "",
        "unnamed_net1|A1-1 A2-1", "unconnected_pin-1|A3-1"]
    yield "four slots of one package, with hidden power pins", (
        "".join(gate(2000 * k, "refdes=U1", f"slot={k + 1}") for k in range(4))
    ), ["U1|7400|-|-", "", "GND|U1-7", "Vcc|U1-14", *alone("U1", *U1_PINS)]
    yield "a number whose text is a name is skipped", (
        TWO_WIRES + wire(0, 0, 100, 0, "unnamed_net1") + wire(0, 500, 100, 500)
    ), ["A1|-|-|-", "A2|-|-|-", "A3|-|-|-", "", "unnamed_net1|A1-1", "unnamed_net2|A2-1 A3-1"]
    yield "pins of all sorts join alike", (
        one("out", 0, 0, "O1") + one("out", 100, 0, "O2") + wire(0, 0, 100, 0)
        + one("oc", 0, 1000, "C1") + one("pwr", 100, 1000, "P1") + wire(0, 1000, 100, 1000)
        + one("in", 0, 2000, "L1")
    ), ["C1|-|-|-", "L1|-|-|-", "O1|-|-|-", "O2|-|-|-", "P1|-|-|-", "",
        "unnamed_net1|C1-1 P1-1", "unnamed_net2|O1-1 O2-1", "unconnected_pin-1|L1-1"]
    yield "a sheet with a title block, a bus, a path and a picture", STAGE, [
        "C1|TWO|-|-", "R1|TWO|10k|-", "",
        "VOUT|C1-1 R1-2", "unnamed_net1|C1-2", "unconnected_pin-1|R1-1"]
    yield from own_sheets()


def own_sheets():
    """More of the same, on one rule each."""
    for mirror, angle, x, y in [
        (0, 0, 300, 0), (0, 90, 0, 300), (0, 180, -300, 0), (0, 270, 0, -300),
        (1, 0, -300, 0), (1, 90, 0, -300), (1, 180, 300, 0), (1, 270, 0, 300),
    ]:
        yield f"mirror {mirror} and angle {angle}", (
            part(1000, 2000, "R1", angle=angle, mirror=mirror)
            + one("pas", 1000 + x, 2000 + y, "A1")
        ), ["A1|-|-|-", "R1|TWO|-|-", "", "unnamed_net1|A1-1 R1-2", "unconnected_pin-1|R1-1"]
    yield "an embedded symbol stands as it is, and the library's is not asked", (
        "C 5000 0 1 90 1 EMBEDDEDbad.sym\n[\n" + pin(0, 0, "pinnumber=7") + "]\n"
        + block(["refdes=U1"]) + one("pas", 0, 0, "A1")
    ), ["A1|-|-|-", "U1|-|-|-", "", "unnamed_net1|A1-1 U1-7"]
    yield "a symbol of the same name in the library is not the embedded one", (
        embedded("k-pas.sym", [pin(0, 0, "pinnumber=7")], "refdes=U1") + one("pas", 0, 0, "A1")
    ), ["A1|-|-|-", "U1|-|-|-", "", "unnamed_net1|A1-1 U1-7"]
    yield "a component without symbol is a part", (
        component("none.sym", 0, 0, "refdes=X1", "device=Y", "net=GND:1")
    ), ["X1|Y|-|-", "", "GND|X1-1"]
    yield "what is no name is not read", (
        "".join(component(name, 0, 0, "refdes=X1") for name in (".hid.sym", "é.sym", "x" * 101))
    ), ["X1|-|-|-", ""]
    yield "a name has up to a hundred bytes", (
        component("x" * 100, 0, 0, "refdes=X1")
    ), ["X1|LONG|-|-", ""]
    yield "a name of a file may begin with other than a letter", (
        component("-_+.sym", 0, 0, "refdes=X1")
    ), ["X1|DASH|-|-", ""]
    yield "the first refused symbol of the file decides", (
        component("box.sym", 0, 0, "refdes=S1") + component("bad.sym", 0, 0)
        + component("worse.sym", 0, 0)
    ), (1, "bad.sym:3: Nested")
    yield "a component with a source is no part, also where the folder has no such sheet", (
        component("box.sym", 0, 0, "refdes=S1")
    ), [""]
    yield "nor has it hidden pins, but its drawn ones join what they touch", (
        one("pas", 0, 0, "A1") + one("pas", 0, 0, "S1", "source=a", "net=X:1,2", "net=Y:3")
        + one("pas", 0, 0, "A2") + one("pas", 0, 500, "A3", "net=Y:1")
    ), ["A1|-|-|-", "A2|-|-|-", "A3|-|-|-", "", "X|A1-1 A2-1", "Y|A3-1"]
    yield "so does one without refdes", (
        one("pas", 0, 0, "A1") + component("k-pas.sym", 0, 0, "source=a")
    ), ["A1|-|-|-", "", "unnamed_net1|A1-1"]
    yield "a graphical component has no pins, is no part, and has no source", (
        component("frame.sym", 0, 0) + one("pas", 0, 0, "A1")
        + component("k-pas.sym", 0, 0, "refdes=G1", "graphical=1", "net=X:1")
    ), ["A1|-|-|-", "", *alone("A1", 1)]
    yield "an attached graphical=0 hides an inherited one", (
        component("title-B.sym", 0, 0, "graphical=0", "refdes=G1")
    ), ["G1|-|-|-", ""]
    yield "so does the first attached one of two", (
        component("title-B.sym", 0, 0, "graphical=0", "graphical=1", "refdes=G1")
    ), ["G1|-|-|-", ""]
    yield "graphical is 1 and nothing else", (
        one("pas", 0, 0, "A1", "graphical=01")
    ), ["A1|-|-|-", "", *alone("A1", 1)]
    nc = component("nc.sym", 0, 0)
    yield "a directive joins what it touches, and is no part", (
        one("in", 0, 0, "L1") + nc
    ), ["L1|-|-|-", "", "unnamed_net1|L1-1"]
    yield "also where others are joined", (
        one("in", 0, 0, "L1") + nc + one("out", 100, 0, "O1") + wire(0, 0, 100, 0)
    ), ["L1|-|-|-", "O1|-|-|-", "", "unnamed_net1|L1-1 O1-1"]
    yield "a directive without graphical=1 is one, whatever its refdes is", (
        one("in", 0, 0, "L1") + component("k-pas.sym", 0, 0, "refdes=X1", *DIRECTIVE)
    ), ["L1|-|-|-", "", "unnamed_net1|L1-1"]
    yield "a directive whose other end touches joins nothing", (
        one("in", 100, 0, "L1") + nc
    ), ["L1|-|-|-", "", *alone("L1", 1)]
    yield "its values of net are not read", (
        one("in", 0, 0, "L1") + one("pas", 500, 0, "A1", "net=X:1")
        + component("power.sym", 0, 0, "refdes=N1", "net=X:1", "net=Y:2", *DIRECTIVE)
    ), ["A1|-|-|-", "L1|-|-|-", "", "X|A1-1", "unnamed_net1|L1-1"]
    yield "a netname at it counts", (
        one("in", 0, 0, "L1") + nc + wire(0, 0, 0, 500, "X") + one("pas", 900, 0, "A1", "net=X:1")
    ), ["A1|-|-|-", "L1|-|-|-", "", "X|A1-1 L1-1"]
    yield "a directive alone is no net", nc + component("nc.sym", 500, 0), [""]
    yield "a directive at a wire alone is none", nc + wire(0, 0, 100, 0), [""]
    for device, value in [("DRC_Directive", "NoConnect"), ("drc_directive", "NoConnection"),
                          ("DRC_Directive", "NoConnection ")]:
        yield f"device={device} and value={value} are no directive", (
            component("k-pas.sym", 0, 0, "refdes=X1", f"device={device}", f"value={value}")
        ), [f"X1|{device}|{value}|-", "", *alone("X1", 1)]
    yield "an attached value hides the one that makes a directive", (
        one("in", 0, 0, "L1") + component("nc.sym", 0, 0, "value=1")
    ), ["L1|-|-|-", "", *alone("L1", 1)]
    yield "a graphical component with one of the two has no pins", (
        one("in", 0, 0, "L1") + component("k-pas.sym", 0, 0, "graphical=1", DIRECTIVE[0])
    ), ["L1|-|-|-", "", *alone("L1", 1)]
    yield "power symbols join by their names, and are no parts", (
        one("pas", 0, 0, "A1") + one("pas", 0, 500, "A2")
        + component("power.sym", 0, 0) + component("power.sym", 0, 500)
    ), ["A1|-|-|-", "A2|-|-|-", "", "Vcc|A1-1 A2-1"]
    yield "a component without refdes has no hidden pins, nor their names", (
        component("7400.sym", 0, 0) + one("pas", 5000, 0, "A1", "net=Vcc:1")
    ), ["A1|-|-|-", "", "Vcc|A1-1"]
    yield "an attached net hides the inherited ones of its numbers", (
        gate(0, "refdes=U1", "net=V5:14")
    ), ["U1|7400|-|-", "", "GND|U1-7", "V5|U1-14", *alone("U1", 1, 2, 3)]
    yield "a bad net hides nothing, and says nothing", (
        gate(0, "refdes=U1", "net=V5", "net=V5:14,,7", "net=:14", "net=V5:14\t", "net=V5:")
    ), ["U1|7400|-|-", "", "GND|U1-7", "Vcc|U1-14", *alone("U1", 1, 2, 3)]
    yield "numbers of one inherited value are hidden one by one", (
        embedded("q.sym", [numbered(0, 0, 1), "net=GND:1,7", "net=Vcc:14,16"], "refdes=U1",
                 "net=V5: 14 ,9", "net=AGND:1")
    ), ["U1|-|-|-", "", "AGND|U1-1", "GND|U1-7", "V5|U1-14 U1-9", "Vcc|U1-16"]
    yield "a value that hides one number joins all that it lists", (
        embedded("q.sym", [numbered(0, 0, 1), "net=GND:7"], "refdes=U1", "net=A:7,1", "net=B:7")
        + one("pas", 0, 500, "A1", "net=B:1") + one("pas", 0, 900, "A2", "net=GND:1")
    ), ["A1|-|-|-", "A2|-|-|-", "U1|-|-|-", "", "A|A1-1 U1-1 U1-7", "GND|A2-1"]
    yield "numbers are compared as texts", (
        embedded("q.sym", [numbered(0, 0, 1), "net=GND:07"], "refdes=U1", "net=A:7")
    ), ["U1|-|-|-", "", "A|U1-7", "GND|U1-07", *alone("U1", 1)]
    yield "a number that is drawn has no hidden pin", (
        one("pas", 0, 0, "A1", "net=GND: 1 ,2")
    ), ["A1|-|-|-", "", "GND|A1-1 A1-2"]
    yield "a value of net is cut at its first colon", (
        one("pas", 0, 0, "A1", "net=X:Y:1")
    ), ["A1|-|-|-", "", "X|A1-Y:1", *alone("A1", 1)]
    yield "a number has at most 200 bytes", (
        one("pas", 0, 0, "A1", "net=X:" + "é" * 100, "net=Y:" + "é" * 100 + "a")
    ), ["A1|-|-|-", "", "X|A1-" + "é" * 100, *alone("A1", 1)]
    yield "a drawn pin has all names that list it", (
        one("pas", 0, 0, "A1", "net=X:1", "net=Y:1", "net=X: 1") + one("pas", 0, 9, "A2", "net=Y:1")
    ), ["A1|-|-|-", "A2|-|-|-", "", "X|A1-1 A2-1"]
    yield "a hidden pin of two names joins what they name", (
        one("pas", 0, 0, "A1", "net=B:7", "net=A:7") + wire(0, 500, 100, 500, "B")
        + one("pas", 0, 500, "A2")
    ), ["A1|-|-|-", "A2|-|-|-", "", "A|A1-7 A2-1", *alone("A1", 1)]
    yield "a bus pin's number is hidden where net lists it", (
        embedded("b.sym", [pin(0, 0, "pinnumber=1", kind=1)], "refdes=U1", "net=X:1")
        + one("pas", 0, 0, "A1")
    ), ["A1|-|-|-", "U1|-|-|-", "", "X|U1-1", *alone("A1", 1)]
    yield "the name with the fewest slashes is printed", (
        one("pas", 0, 0, "A1") + wire(0, 0, 100, 0, "a/b", "z", "zz", "A/b")
    ), ["A1|-|-|-", "", "z|A1-1"]
    yield "a name in common joins, and all names of a wire count", (
        one("pas", 0, 0, "A1") + one("pas", 0, 500, "A2") + one("pas", 0, 1000, "A3")
        + wire(0, 0, 100, 0, "X") + wire(0, 500, 100, 500, "Y") + wire(0, 1000, 9, 1000, "Y", "X")
    ), ["A1|-|-|-", "A2|-|-|-", "A3|-|-|-", "", "X|A1-1 A2-1 A3-1"]
    yield "names are chosen by bytes, not by length", (
        one("pas", 0, 0, "A1") + wire(0, 0, 100, 0, "b", "aa", "Z9")
    ), ["A1|-|-|-", "", "Z9|A1-1"]
    yield "nets are listed by the bytes of their names, as they stand in the file", (
        "".join(one("pas", 0, 500 * k, f"A{k}", f"net={name}:1")
                for k, name in enumerate(("b", "a!", "a ", "a/b", "a_", "é", "z")))
    ), [*(f"A{k}|-|-|-" for k in range(7)), "", "a_|A2-1", "a!|A1-1", "a/b|A3-1", "a_|A4-1",
        "b|A0-1", "z|A6-1", "é|A5-1"]
    yield "names are compared as they are, and print as words", (
        one("pas", 0, 0, "A1") + one("pas", 0, 500, "A2")
        + wire(0, 0, 100, 0, "X\nY") + wire(0, 500, 100, 500, "X Y")
    ), ["A1|-|-|-", "A2|-|-|-", "", "X_Y|A1-1", "X_Y|A2-1"]
    yield "a net of wires alone is none, but its name is not given", (
        wire(0, 0, 100, 0, "unconnected_pin-1") + wire(0, 500, 100, 500, "unnamed_net01")
        + one("pas", 0, 900, "A1") + one("pas", 0, 990, "A2") + wire(0, 990, 9, 990)
    ), ["A1|-|-|-", "A2|-|-|-", "", "unnamed_net1|A2-1", "unconnected_pin-2|A1-1"]
    yield "numbers count by pins as bytes, and print by number", (
        "".join(one("pas", 0, 500 * k, f"A{k}", "net=unconnected_pin-2:8") for k in (1, 2, 10))
    ), ["A1|-|-|-", "A10|-|-|-", "A2|-|-|-", "", "unconnected_pin-2|A1-8 A10-8 A2-8",
        "unconnected_pin-1|A1-1", "unconnected_pin-3|A10-1", "unconnected_pin-4|A2-1"]
    yield "ten nets and more are listed by number", (
        "".join(part(0, 500 * k, f"R{k:02}") + wire(0, 500 * k, 9, 500 * k) for k in range(11))
    ), [*(f"R{k:02}|TWO|-|-" for k in range(11)), "",
        *(f"unnamed_net{k + 1}|R{k:02}-1" for k in range(11)),
        *(f"unconnected_pin-{k + 1}|R{k:02}-2" for k in range(11))]
    yield "of equal pins of one component the one that is drawn first has the lower number", (
        embedded("q.sym", [numbered(0, 0, 1), numbered(0, 500, 1)], "refdes=A1")
        + wire(0, 0, 9, 0) + wire(0, 500, 9, 500) + one("pas", 0, 500, "A2")
    ), ["A1|-|-|-", "A2|-|-|-", "", "unnamed_net1|A1-1", "unnamed_net2|A1-1 A2-1"]
    yield "of equal pins the one that stands first has the lower number", (
        one("pas", 0, 500, "A1") + one("pas", 0, 0, "A1") + one("pas", 100, 0, "A9")
        + wire(0, 0, 100, 0) + wire(0, 500, 100, 500)
    ), ["A1|-|-|-", "A9|-|-|-", "", "unnamed_net1|A1-1", "unnamed_net2|A1-1 A9-1"]
    yield "the list of a slot counts by pinseq, one beyond it keeps its number", (
        slotted("slot=01")
    ), ["U1|-|-|-", "", *alone("U1", 3, 4, 5)]
    yield "a slotdef without a colon is for no slot", (
        slotted("slot=8")
    ), ["U1|-|-|-", "", *alone("U1", 2, 5, 6)]
    yield "attached slotdefs hide the inherited ones of the same slot", (
        slotted("slot=1", "slotdef=1:7,8,9")
    ), ["U1|-|-|-", "", *alone("U1", 7, 8, 9)]
    yield "and those of all other slots", (
        slotted("slot=3", "slotdef=1:7,8,9")
    ), ["U1|-|-|-", "", *alone("U1", 1, 2, 5)]
    yield "the first slotdef of a slot counts", (
        slotted("slot=3")
    ), ["U1|-|-|-", "", *alone("U1", 5, 8, 9)]
    for slot, more in [("0", ()), ("2", ()), ("4", ()), ("7", ()), ("x", ()), ("10003", ()),
                       ("3", ("numslots=2",)), ("3", ("slotdef=3",)), ("3", ("slotdef=x:8,9",))]:
        yield f"slot {slot} with {more} is a fault, and the numbers stay", (
            slotted(f"slot={slot}", *more)
        ), ["U1|-|-|-", "", *alone("U1", 1, 2, 5)]
    yield "a numslots of 0 limits nothing", (
        slotted("slot=3", "numslots=0")
    ), ["U1|-|-|-", "", *alone("U1", 5, 8, 9)]
    yield "net goes by the numbers of the slot", (
        slotted("slot=3", "net=GND:8", "net=Vcc:1")
    ), ["U1|-|-|-", "", "GND|U1-8", "Vcc|U1-1", *alone("U1", 5, 9)]
    yield "a pinnumber that is no word is a question mark", (
        embedded("q.sym", [pin(0, 0, "pinnumber=a b"), pin(0, 100)], "refdes=Q1", "net=X:?")
    ), ["Q1|-|-|-", "", "X|Q1-?"]
    yield "a refdes of the symbol alone, and one with a question mark", (
        embedded("q.sym", [numbered(0, 0, 1), "refdes=U?"]) * 2
        + embedded("q.sym", [numbered(0, 9, 1), "refdes=U?"], "refdes=a\nb")
    ), ["U?|-|-|-", "", "unnamed_net1|U?-1"]
    yield "a package takes each value from the first component that has it", (
        "".join(one("pas", x, y, "U1", *more) for x, y, more in [
            (0, 0, ()), (0, 100, ("value=a\tb",)), (0, 200, ("value=c", "footprint=SO 8")),
            (0, 300, ("device=D", "footprint=no"))])
        + "".join(wire(0, 100 * k, 0, 100 * k + 100) for k in range(3))
    ), ["U1|D|a b|SO 8", "", "unnamed_net1|U1-1"]
    yield "of several attached texts of a name the first counts", (
        one("pas", 0, 0, "A1", "refdes=A2", "device=x", "device=y")
        + embedded("q.sym", [pin(0, 0, "pinnumber=8", "pinnumber=9")], "refdes=Q1")
    ), ["A1|x|-|-", "Q1|-|-|-", "", "unnamed_net1|A1-1 Q1-8"]
    yield "a refdes of two lines is none, whatever comes behind it", (
        component("k-pas.sym", 0, 0, "refdes=A\nB", "refdes=A1") + one("pas", 0, 0, "A2")
    ), ["A2|-|-|-", "", "unnamed_net1|A2-1"]
    yield "what is no attribute says nothing", (
        one("pas", 0, 0, "A1", "value=", "value= a", "value =b", "=c", "Value=d", "value==e")
    ), ["A1|-|=e|-", "", *alone("A1", 1)]
    yield "a wire that ends inside an upright one joins it, and so does one that is a point", (
        one("pas", 100, 500, "A1") + wire(100, 500, 0, 500) + wire(0, 900, 0, 0)
        + wire(0, 200, 0, 200, "X") + one("pas", 0, 700, "A2") + wire(0, 0, 0, 900, "Y")
    ), ["A1|-|-|-", "A2|-|-|-", "", "X|A1-1 A2-1"]
    yield "a wire goes on behind a pin on it, and wires on one another join by ends alone", (
        one("pas", 500, 0, "A1") + wire(900, 0, 0, 0) + wire(200, 0, 800, 0)
        + one("pas", 700, 0, "A2") + one("pas", 901, 0, "A3")
    ), ["A1|-|-|-", "A2|-|-|-", "A3|-|-|-", "", "unnamed_net1|A1-1 A2-1", "unconnected_pin-1|A3-1"]
    yield "texts on the sheet, its own pins, and what is attached to others say nothing", (
        text("refdes=Q9") + pin(0, 0, "pinnumber=9") + "L 0 0 1 1 3 0 1 0 -1 -1\n"
        + block(["netname=X"]) + one("pas", 0, 0, "A1") + "N 500 0 500 0 4\n" + block(["net=Y:1"])
        + one("pas", 500, 0, "A2")
    ), ["A1|-|-|-", "A2|-|-|-", "", "unnamed_net1|A2-1", "unconnected_pin-1|A1-1"]
    yield "wires and buses of a symbol join nothing, nor do attached texts of its parts", (
        embedded("q.sym", [
            numbered(0, 0, 1), wire(0, 0, 100, 0, "X"), numbered(100, 0, 2),
            "U 0 0 100 0 10 0\n", text("plain") + block(["value=Q8"]),
        ], "refdes=Q1")
    ), ["Q1|-|-|-", "", *alone("Q1", 1, 2)]


def case_table():
    """Each what it shows, the files of the folder, the words, and its answer."""
    library = {name: data.encode() for name, data in LIBRARY.items()}
    two = (TOP / "examples" / "one.sch").read_bytes()
    wanted = ["R1|RESISTOR|10k|-", "R2|RESISTOR|22k|-", "", "unnamed_net1|R1-2 R2-1",
              "unconnected_pin-1|R1-1", "unconnected_pin-2|R2-2"]
    yield "two resistors with a wire between them", {"one.sch": two}, ["one.sch"], answer(wanted)
    examples = {it.name: it.read_bytes() for it in (TOP / "examples").iterdir() if it.is_file()}
    for name in ("preamp", "stereo", "timer"):
        told = examples[f"{name}.list"]
        yield f"the example {name}", examples, [f"{name}.sch"], (0, told, b"")
    yield "an empty sheet", {"x.sch": VERSION.encode()}, ["x.sch"], answer([""])
    yield "no sheet", {"y.sch": VERSION.encode()}, ["x.sch"], answer((1, "x.sch: missing"))
    itself = VERSION + component("x.sch", 0, 0)
    refused = answer((1, "x.sch:2: Nested"))
    yield "a sheet that asks for itself", {"x.sch": itself.encode()}, ["x.sch"], refused
    broken = {**library, "x.sch": (itself + component("bad.sym", 0, 0) + "N 0\n").encode()}
    yield "a sheet that is refused", broken, ["x.sch"], answer((1, "x.sch:4: FieldCount"))
    for what, objects, wanted in sheets():
        yield what, {**library, "x.sch": (VERSION + objects).encode()}, ["x.sch"], answer(wanted)
    for what, files, words, wanted in hierarchy_cases.folders():
        files = {name: data.encode() for name, data in files.items()}
        yield what, {**library, **files}, words, answer(wanted)
