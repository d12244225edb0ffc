"""Folders of several sheets with known answers, on ports and on names: `ports` and `names`, for
hierarchy_cases.py, which has the others.
"""
from drawing import alone, component, embedded, gate, numbered, one, part, pin, symbol, wire


def labelled(x, number, label, *more, kind=0):
    return pin(x, 0, f"pinnumber={number}", f"pinlabel={label}", *more, kind=kind)


def box(x, refdes, *contents):
    """A component without pins over low.sch."""
    return component("box.sym", x, 9000, f"refdes={refdes}", *contents)


def amp(refdes, *contents):
    """A component over low.sch with the pins IN at (5000,0) and OUT at (6000,0)."""
    return component("amp.sym", 5000, 0, f"refdes={refdes}", *contents)


AMP = symbol(labelled(0, 1, "IN"), labelled(1000, 2, "OUT"), "source=low.sch")
PAIR = symbol(labelled(0, 1, "IN"), labelled(1000, 2, "IN"), "source=low.sch")
ODD = symbol(
    labelled(0, 1, "IN", kind=1), labelled(1000, 2, "X", "pinlabel=IN"), "source=low.sch"
)
LOW = one("pas", 0, 0, "C1") + wire(0, 0, 100, 0, "X")
C1 = one("pas", 0, 0, "C1")
A1 = "A1|-|-|-"
B1 = "B1|-|-|-"
LOW_C1 = "U1/C1|-|-|-"
LOW_X = "U1/X|U1/C1-1"
IN_OUT = one("pas", 5000, 0, "A1") + one("pas", 6000, 0, "B1")
WITHIN = one("pas", 0, 0, "IN") + part(0, 0, "R1") + one("pas", 300, 0, "OUT")


def over(top, low, **others):
    """Files of a top sheet over low.sch, perhaps over others."""
    return {"top.sch": top, "low.sch": low, **{f"{name}.sch": it for name, it in others.items()}}


def ports():
    def case(what, low, wanted, top=IN_OUT + amp("U1"), **others):
        return what, {**over(top, low, **others), "amp.sym": AMP, "pair.sym": PAIR,
                      "odd.sym": ODD}, ["top.sch"], wanted

    pair = IN_OUT + component("pair.sym", 5000, 0, "refdes=U1")
    odd = IN_OUT + component("odd.sym", 5000, 0, "refdes=U1")
    apart = [A1, B1, LOW_C1, "",
             "unnamed_net1|A1-1", "unnamed_net2|B1-1", "unconnected_pin-1|U1/C1-1"]
    joined = [A1, B1, LOW_C1, "", "unnamed_net1|A1-1 U1/C1-1", "unnamed_net2|B1-1"]
    yield case("ports join a sheet to the one above", WITHIN, [
        A1, B1, "U1/R1|TWO|-|-", "", "unnamed_net1|A1-1 U1/R1-1", "unnamed_net2|B1-1 U1/R1-2"])
    middle = one("pas", 5000, 0, "IN") + amp("M1") + one("pas", 6000, 0, "OUT")
    stage = amp("U1", "source=mid.sch")
    yield case("ports of two levels", WITHIN, [
        A1, B1, "U1/M1/R1|TWO|-|-", "",
        "unnamed_net1|A1-1 U1/M1/R1-1", "unnamed_net2|B1-1 U1/M1/R1-2",
    ], IN_OUT + stage, mid=middle)
    yield case("without a port in the middle nothing is joined", WITHIN, [
        A1, B1, "U1/M1/R1|TWO|-|-", "", "unnamed_net1|A1-1", "unnamed_net2|B1-1",
        "unnamed_net3|U1/M1/R1-1", "unnamed_net4|U1/M1/R1-2",
    ], IN_OUT + stage, mid=amp("M1"))
    yield case("two pins of one label without a port", C1, apart, pair)
    yield case("two pins of one label with a port", one("pas", 0, 0, "IN") + C1, [
        A1, B1, LOW_C1, "", "unnamed_net1|A1-1 B1-1 U1/C1-1"], pair)
    yield case("a port that touches nothing joins them too", one("pas", 0, 500, "IN") + C1, [
        A1, B1, LOW_C1, "", "unnamed_net1|A1-1 B1-1", "unconnected_pin-1|U1/C1-1"], pair)
    yield case("a port without pins joins nothing, and is no part",
               component("no.sym", 0, 0, "refdes=IN", "net=GND:1") + C1, apart, pair)
    yield case("nor does a graphical one", one("pas", 0, 0, "IN", "graphical=1") + C1, apart, pair)
    mark = component("nc.sym", 0, 0, "refdes=IN")
    yield case("nor does a directive, which still joins what it touches", mark + C1, [
        A1, B1, LOW_C1, "", "unnamed_net1|A1-1", "unnamed_net2|B1-1", "unnamed_net3|U1/C1-1"], pair)
    yield case("a port beside a directive of its refdes",
               mark + one("pas", 0, 0, "IN") + C1, joined)
    yield case("a bus pin has no label that counts, and of two labels the first does",
               one("pas", 0, 0, "IN") + C1, [
                   A1, B1, LOW_C1, "U1/IN|-|-|-", "", "unnamed_net1|B1-1",
                   "unnamed_net2|U1/C1-1 U1/IN-1", "unconnected_pin-1|A1-1"], odd)
    yield case("a port has no hidden pins, but its drawn ones keep their names",
               one("pas", 0, 0, "IN", "net=GND:9", "net=Vin:1", "value=no") + C1, [
                   A1, B1, LOW_C1, "", "Vin|A1-1 U1/C1-1", "unnamed_net1|B1-1"])
    yield case("ports of one label", one("pas", 0, 0, "IN") + C1 + one("pas", 500, 0, "IN")
               + one("pas", 500, 0, "C2"), [
                   A1, B1, LOW_C1, "U1/C2|-|-|-", "",
                   "unnamed_net1|A1-1 U1/C1-1 U1/C2-1", "unnamed_net2|B1-1"])
    yield case("a port of two pins", part(0, 0, "IN") + C1 + one("pas", 300, 0, "C2"), [
        A1, B1, LOW_C1, "U1/C2|-|-|-", "",
        "unnamed_net1|A1-1 U1/C1-1 U1/C2-1", "unnamed_net2|B1-1"])
    yield case("a port by its inherited refdes",
               embedded("p.sym", [numbered(0, 0, 1), "refdes=IN"]) + C1, joined)
    yield case("a port by its attached refdes alone", embedded(
        "p.sym", [numbered(0, 0, 1), "refdes=OUT"], "refdes=IN") + C1, joined)
    yield case("a label joins no component of another refdes",
               one("pas", 0, 0, "in") + C1, [
                   A1, B1, LOW_C1, "U1/in|-|-|-", "", "unnamed_net1|A1-1", "unnamed_net2|B1-1",
                   "unnamed_net3|U1/C1-1 U1/in-1"])
    yield case("what is a port below one component is a part below another",
               one("pas", 0, 0, "IN") + C1, [
                   A1, B1, LOW_C1, "U2/C1|-|-|-", "U2/IN|-|-|-", "", "unnamed_net1|A1-1 U1/C1-1",
                   "unnamed_net2|B1-1", "unnamed_net3|U2/C1-1 U2/IN-1"],
               IN_OUT + amp("U1") + box(0, "U2"))
    yield case("and on the top sheet", C1, [
        A1, B1, "IN|-|-|-", LOW_C1, "", "unnamed_net1|A1-1 IN-1", "unnamed_net2|B1-1",
        "unconnected_pin-1|U1/C1-1"], IN_OUT + amp("U1") + one("pas", 5000, 0, "IN"))
    deep = component("amp.sym", 0, 0, "refdes=IN", "source=deep.sch")
    yield case("a port with a sheet below it", deep, [
        A1, B1, "U1/IN/D1|-|-|-", "", "unnamed_net1|A1-1 B1-1 U1/IN/D1-1"],
        pair, deep=one("pas", 0, 0, "OUT") + one("pas", 0, 0, "D1"))
    yield case("a port of one instance is tied to the component above it alone", WITHIN, [
        A1, B1, "E1|-|-|-", "U1/R1|TWO|-|-", "U2/R1|TWO|-|-", "",
        "unnamed_net1|A1-1 U1/R1-1", "unnamed_net2|B1-1 U1/R1-2", "unnamed_net3|E1-1 U2/R1-1",
        "unnamed_net4|U2/R1-2",
    ], IN_OUT + amp("U1") + component("amp.sym", 5000, 500, "refdes=U2")
       + one("pas", 5000, 500, "E1"))
    yield case("a label of two lines has no port", one("pas", 0, 0, "IN\nX") + C1, [
        A1, LOW_C1, "", "unnamed_net1|A1-1", "unnamed_net2|U1/C1-1"
    ], one("pas", 0, 0, "A1") + embedded(
        "b.sym", [pin(0, 0, "pinlabel=IN\nX"), "source=low.sch"], "refdes=U1"))


def names():
    def case(what, top, low, wanted, **others):
        files = {**over(top, low, **others), "amp.sym": AMP}
        return what, files, ["top.sch"], wanted

    a1, up = one("pas", 0, 0, "A1"), wire(0, 0, 100, 0)
    power = component("power.sym", 0, 0)
    yield case("a name by net has no path", a1 + power + box(0, "U1"), C1 + power, [
        A1, LOW_C1, "", "Vcc|A1-1 U1/C1-1"])
    yield case("through two levels", a1 + power + box(0, "U1", "source=mid.sch"), C1 + power, [
        A1, "U1/M1/C1|-|-|-", "", "Vcc|A1-1 U1/M1/C1-1"], mid=box(0, "M1"))
    yield case("one by netname has one", a1 + power + box(0, "U1"), C1 + wire(0, 0, 9, 0, "Vcc"), [
        A1, LOW_C1, "", "U1/Vcc|U1/C1-1", "Vcc|A1-1"])
    yield case("a name that is written as a path is that name",
               a1 + wire(0, 0, 9, 0, "U1/X") + box(0, "U1"), LOW, [
                   A1, LOW_C1, "", "U1/X|A1-1 U1/C1-1"])
    yield case("hidden pins below", a1 + power + box(0, "U1"), gate(0, "refdes=G1"), [
        A1, "U1/G1|7400|-|-", "", "GND|U1/G1-7", "Vcc|A1-1 U1/G1-14", *alone("U1/G1", 1, 2, 3)])
    yield case("a name with fewer slashes wins", IN_OUT + amp("U1") + wire(5000, 0, 5000, 9, "zz"),
               one("pas", 0, 0, "IN") + LOW, [
                   A1, B1, LOW_C1, "", "zz|A1-1 U1/C1-1", "unnamed_net1|B1-1"])
    yield case("of as many the least by bytes", IN_OUT + amp("U1") + wire(5000, 0, 5000, 9, "a/b"),
               one("pas", 0, 0, "IN") + LOW, [
                   A1, B1, LOW_C1, "", "U1/X|A1-1 U1/C1-1", "unnamed_net1|B1-1"])
    yield case("a slash in a refdes counts", amp("B/C") + amp("Z"), one("pas", 0, 0, "IN") + LOW, [
        "B/C/C1|-|-|-", "Z/C1|-|-|-", "", "Z/X|B/C/C1-1 Z/C1-1"])
    yield case("a number whose text is a name below is skipped", a1 + up + box(0, "U1"),
               one("pas", 0, 0, "C1", "net=unnamed_net1:1"), [
                   A1, LOW_C1, "", "unnamed_net1|U1/C1-1", "unnamed_net2|A1-1"])
    yield case("but not where the name has a path", a1 + up + box(0, "U1"),
               C1 + wire(0, 0, 9, 0, "unnamed_net1"), [
                   A1, LOW_C1, "", "U1/unnamed_net1|U1/C1-1", "unnamed_net1|A1-1"])
    yield case("nor where the sheet has no instance", a1 + up + component("box.sym", 0, 9000),
               one("pas", 0, 0, "C1", "net=unnamed_net1:1"), [A1, "", "unnamed_net1|A1-1"])
