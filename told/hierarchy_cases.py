"""Folders of several sheets with known answers, for the rules of hierarchy_rules.py: `folders`.

Each has what it shows, its sheets and its own symbols beside those of the library, the words, and
what is wanted: a net list as in project_cases.py, or the status and the error line.
"""
from drawing import DIRECTIVE, LIBRARY, VERSION, alone, component, embedded, one, pin, wire
from port_cases import A1, AMP, B1, C1, LOW, LOW_C1, LOW_X, box, names, over, ports


def roots():
    a = one("pas", 0, 0, "A1") + wire(0, 0, 100, 0, "X")
    b = one("pas", 0, 0, "B1") + wire(0, 0, 100, 0, "X")
    for words in (["a.sch", "b.sch"], ["b.sch", "a.sch"]):
        yield "two sheets joined by a name", {"a.sch": a, "b.sch": b}, words, [
            A1, B1, "", "X|A1-1 B1-1"]
        yield "two sheets without names", {
            "a.sch": one("pas", 0, 0, "A1") + wire(0, 0, 100, 0),
            "b.sch": one("pas", 0, 0, "B1") + wire(0, 0, 100, 0),
        }, words, [A1, B1, "", "unnamed_net1|A1-1", "unnamed_net2|B1-1"]
    yield "a pin of one sheet does not touch one of another, also of one package", {
        "a.sch": one("pas", 0, 0, "A1"), "b.sch": one("pas", 0, 0, "A1")
    }, ["a.sch", "b.sch"], [A1, "", "unconnected_pin-1|A1-1", "unconnected_pin-2|A1-1"]
    yield "objects count in the order of the words", {
        "a.sch": one("pas", 0, 0, "A1", "value=a") + wire(0, 0, 100, 0) + one("pas", 100, 0, "A2"),
        "b.sch": one("pas", 0, 0, "A1", "value=b") + wire(0, 0, 100, 0),
    }, ["b.sch", "a.sch"], ["A1|-|b|-", "A2|-|-|-", "",
                            "unnamed_net1|A1-1", "unnamed_net2|A1-1 A2-1"]
    yield "a graphical component with a source of its own sheet keeps it a root", {
        "x.sch": component("title-B.sym", 0, 0, "source=x.sch") + one("pas", 0, 0, "A1")
    }, ["x.sch"], [A1, "", *alone("A1", 1)]
    yield "one with a source of another sheet does not bring it", {
        "x.sch": component("frame.sym", 0, 0) + one("pas", 0, 0, "A1"), "low.sch": "N 0\n"
    }, ["x.sch"], [A1, "", *alone("A1", 1)]
    yield "and keeps that one a root too", {
        "x.sch": component("frame.sym", 0, 0) + one("pas", 0, 0, "A1"), "low.sch": LOW
    }, ["x.sch", "low.sch"], [A1, "C1|-|-|-", "", "X|C1-1", *alone("A1", 1)]
    yield "an attached graphical=0 gives the source back", {
        "x.sch": component("frame.sym", 0, 0, "graphical=0"), "low.sch": C1
    }, ["x.sch"], ["F1/C1|-|-|-", "", *alone("F1/C1", 1)]
    for own in ("graphical=1", "graphical=0"):
        yield f"a directive with a source keeps that sheet a root, also with {own}", {
            "x.sch": component("box.sym", 0, 0, "refdes=U1", own, *DIRECTIVE)
            + one("pas", 0, 0, "A1"), "low.sch": LOW
        }, ["x.sch", "low.sch"], [A1, "C1|-|-|-", "", "X|C1-1", *alone("A1", 1)]
    yield "and does not bring it", {
        "x.sch": component("box.sym", 0, 0, "refdes=U1", *DIRECTIVE), "low.sch": "N 0\n"
    }, ["x.sch"], [""]
    yield "no other object names a sheet", {
        "x.sch": "N 0 0 9 0 4\n{\nT 0 0 5 10 1 1 0 0 1\nsource=low.sch\n}\n"
        + "T 0 0 5 10 1 1 0 0 1\nsource=low.sch\n" + pin(0, 0, "source=low.sch")
        + one("pas", 0, 0, "A1"), "low.sch": "N 0\n",
    }, ["x.sch"], [A1, "", "unnamed_net1|A1-1"]


def levels():
    yield "two components over one sheet", over(box(0, "U1") + box(500, "U2"), LOW), ["top.sch"], [
        LOW_C1, "U2/C1|-|-|-", "", LOW_X, "U2/X|U2/C1-1"]
    yield "the same without names", over(
        box(0, "U1") + box(500, "U2"), C1 + wire(0, 0, 100, 0)
    ), ["top.sch"], [LOW_C1, "U2/C1|-|-|-", "",
                     "unnamed_net1|U1/C1-1", "unnamed_net2|U2/C1-1"]
    yield "the sheet below is a word too", over(box(0, "U1"), LOW), ["low.sch", "top.sch"], [
        LOW_C1, "", LOW_X]
    yield "a sheet over itself", over(box(0, "U1"), LOW + box(500, "V1")), ["top.sch"], [
        LOW_C1, "", LOW_X]
    yield "a sheet over itself as a word alone", over("", LOW + box(500, "V1")), ["low.sch"], [""]
    yield "a component without refdes leads down to nothing", over(
        one("pas", 0, 0, "A1") + component("box.sym", 0, 9000), LOW
    ), ["top.sch", "low.sch"], [A1, "", *alone("A1", 1)]
    yield "nor does one whose refdes has two lines", over(
        one("pas", 0, 0, "A1") + box(0, "U\n1"), LOW
    ), ["top.sch"], [A1, "", *alone("A1", 1)]
    yield "an inherited refdes leads down", {
        "top.sch": embedded("b.sym", ["source=low.sch", "refdes=U1"]), "low.sch": LOW
    }, ["top.sch"], [LOW_C1, "", LOW_X]
    loop = {
        "a.sch": one("pas", 0, 0, "A1") + component("no.sym", 0, 0, "refdes=U1", "source=b.sch"),
        "b.sch": one("pas", 0, 0, "B1") + component("no.sym", 0, 0, "refdes=V1", "source=a.sch"),
    }
    for words in (["a.sch"], ["b.sch"], ["a.sch", "b.sch"]):
        yield "a loop of two sheets has no root", loop, words, [""]
    yield "a loop below a root is gone through once", {
        **loop, "top.sch": component("no.sym", 0, 0, "refdes=T1", "source=a.sch")
    }, ["top.sch"], ["T1/A1|-|-|-", "T1/U1/B1|-|-|-", "",
                     "unconnected_pin-1|T1/A1-1", "unconnected_pin-2|T1/U1/B1-1"]
    yield "a sheet below two ways that cross", {
        **loop, "top.sch": component("no.sym", 0, 0, "refdes=T1", "source=b.sch", "source=a.sch")
    }, ["top.sch"], ["T1/A1|-|-|-", "T1/B1|-|-|-", "T1/U1/B1|-|-|-", "T1/V1/A1|-|-|-", "",
                     "unconnected_pin-1|T1/A1-1", "unconnected_pin-2|T1/B1-1",
                     "unconnected_pin-3|T1/U1/B1-1", "unconnected_pin-4|T1/V1/A1-1"]
    yield "a file is once a symbol and once a sheet", {
        "top.sch": component("low.sch", 0, 0, "refdes=U1", "source=low.sch"),
        "low.sch": pin(0, 0, "pinnumber=1") + wire(0, 0, 100, 0, "X"),
    }, ["top.sch"], [""]
    yield "a refdes with a slash, and one that prints as a word", over(
        box(0, "a/b") + box(500, "c d"), LOW
    ), ["top.sch"], ["a/b/C1|-|-|-", "c_d/C1|-|-|-", "", "a/b/X|a/b/C1-1", "c_d/X|c_d/C1-1"]
    yield "parts are listed by the bytes of what is printed", over(
        one("pas", 0, 0, "U1") + one("pas", 0, 500, "U1-") + one("pas", 0, 900, "U10")
        + box(0, "U1"), C1
    ), ["top.sch"], ["U1|-|-|-", "U1-|-|-|-", "U1/C1|-|-|-", "U10|-|-|-", "",
                     "unconnected_pin-1|U1-1", "unconnected_pin-2|U1--1",
                     "unconnected_pin-3|U1/C1-1", "unconnected_pin-4|U10-1"]
    yield from chains()


def chain(count):
    """Sheets each with one component over the next one, and a part on the last."""
    files = {
        f"s{k}.sch": component("no.sym", 0, 0, "refdes=U", f"source=s{k + 1}.sch")
        for k in range(1, count)
    }
    return {**files, f"s{count}.sch": C1}


def chains():
    last = "U/" * 16 + "C1"
    yield "a chain of 17 sheets", chain(17), ["s1.sch"], [f"{last}|-|-|-", "", *alone(last, 1)]
    yield "a chain of 18 sheets", chain(18), ["s1.sch"], (1, "TooManyInstances")
    cut = {**chain(18), "s1.sch": component("no.sym", 0, 0, "source=s2.sch")}
    yield "a chain of 18 sheets that leads nowhere", cut, ["s1.sch"], [""]
    yield "a chain of 18 sheets that is closed to a loop", {
        **chain(18), "s18.sch": component("no.sym", 0, 0, "refdes=U", "source=s1.sch")
    }, ["s1.sch"], [""]


def packages():
    yield "one package of a top sheet and of an instance", over(
        box(0, "U1") + one("pas", 0, 0, "U1/C1", "value=top"),
        one("pas", 0, 0, "C1", "value=low", "device=LOW") + wire(0, 0, 100, 0, "X"),
    ), ["low.sch", "top.sch"], ["U1/C1|LOW|top|-", "", LOW_X, *alone("U1/C1", 1)]
    line = "L 0 0 1 1 3 0 1 0 -1 -1\n"
    for what, before, words in [
        ("the one of the lower route counts first", 0, ["a.sch", "top.sch"]),
        ("also where their ids are 9 and 10", 9, ["top.sch"]),
    ]:
        yield f"of two instances {what}", {
            "top.sch": line * before
            + component("no.sym", 0, 0, "refdes=U1", "source=b.sch")
            + component("no.sym", 0, 0, "refdes=U1", "source=a.sch"),
            "a.sch": one("pas", 0, 0, "C1", "device=A", "value=A") + wire(0, 0, 9, 0),
            "b.sch": one("pas", 0, 0, "C1", "device=B") + wire(0, 0, 9, 0)
            + one("pas", 9, 0, "C2"),
        }, words, ["U1/C1|B|A|-", "U1/C2|-|-|-", "",
                   "unnamed_net1|U1/C1-1 U1/C2-1", "unnamed_net2|U1/C1-1"]
    yield "a shorter route comes first", over(
        box(0, "U1"),
        one("pas", 0, 0, "V1/C1", "device=UP") + wire(0, 0, 9, 0) + one("pas", 9, 0, "V1/C2")
        + component("no.sym", 0, 0, "refdes=V1", "source=deep.sch"),
        deep=one("pas", 0, 0, "C1", "device=DOWN", "footprint=F") + wire(0, 0, 9, 0),
    ), ["deep.sch", "top.sch"], ["U1/V1/C1|UP|-|F", "U1/V1/C2|-|-|-", "",
                                 "unnamed_net1|U1/V1/C1-1 U1/V1/C2-1", "unnamed_net2|U1/V1/C1-1"]


    yield "a longer route comes first where it begins with a lower number", {
        "top.sch": component("no.sym", 0, 0, "refdes=U1", "source=mid.sch")
        + component("no.sym", 0, 0, "refdes=U1/V1", "source=b.sch"),
        "mid.sch": component("no.sym", 0, 0, "refdes=V1", "source=a.sch"),
        "a.sch": one("pas", 0, 0, "C1", "device=A") + wire(0, 0, 9, 0) + one("pas", 9, 0, "C2"),
        "b.sch": one("pas", 0, 0, "C1", "device=B", "value=B") + wire(0, 0, 9, 0),
    }, ["b.sch", "top.sch"], ["U1/V1/C1|A|B|-", "U1/V1/C2|-|-|-", "",
                              "unnamed_net1|U1/V1/C1-1 U1/V1/C2-1", "unnamed_net2|U1/V1/C1-1"]


def sources():
    one_of = {"a.sch": one("pas", 0, 0, "A1"), "b.sch": one("pas", 0, 0, "B1"), "low.sch": "N 0\n"}

    def case(what, contents, wanted, basename="no.sym", **more):
        top = component(basename, 0, 0, "refdes=U1", *contents)
        return what, {**one_of, **more, "top.sch": top}, ["top.sch"], wanted

    a, b = ["U1/A1|-|-|-"], ["U1/B1|-|-|-"]
    yield case("two sources: their wires do not touch", ["source=a.sch", "source=b.sch"], [
        *a, *b, "", "unconnected_pin-1|U1/A1-1", "unconnected_pin-2|U1/B1-1"])
    named = {f"{name}.sch": one("pas", 0, 0, f"{name.upper()}1") + wire(0, 0, 9, 0, "X")
             for name in "ab"}
    yield "but they have their path in common", {
        **named, "top.sch": component("no.sym", 0, 0, "refdes=U1", "source=b.sch", "source=a.sch")
    }, ["top.sch"], [*a, *b, "", "U1/X|U1/A1-1 U1/B1-1"]
    yield case("a source that comes twice counts once", ["source=a.sch", "source=a.sch"], [
        *a, "", *alone("U1/A1", 1)])
    yield case("an attached source hides the inherited one", ["source=a.sch"], [
        *a, "", *alone("U1/A1", 1)], "box.sym")
    yield case("also one of a sheet that is not there", ["source=none.sch"], [""], "box.sym")
    yield case("a comma is part of the name", ["source=a.sch,b.sch"], [""])
    for source in ("./a.sch", "a.sch ", "A.sch", "a", ".hid.sym", "é.sym", "x" * 101):
        yield case(f"the source {source} is no sheet of the folder", [f"source={source}"], [""])
    yield case("a source may begin with a dash", ["source=-a.sch"], [*a, "", *alone("U1/A1", 1)],
               **{"-a.sch": one_of["a.sch"]})
    yield "ports of two sources join each other", {
        "top.sch": component("amp.sym", 0, 0, "refdes=U1", "source=a.sch", "source=b.sch"),
        **{name: it + one("pas", 0, 0, "IN") for name, it in one_of.items() if name != "low.sch"},
        "amp.sym": AMP,
    }, ["top.sch"], [*a, *b, "", "unnamed_net1|U1/A1-1 U1/B1-1"]


def faults():
    bad, box_of = component("bad.sym", 0, 0), component("box.sym", 0, 0)
    worse = component("worse.sym", 0, 0)
    refused, none = "N 0\n", "y.sch: missing"
    two = ["x.sch", "y.sch"]
    yield "a second file that is missing", {"x.sch": C1}, two, (1, none)
    yield "a first file that is missing", {"y.sch": refused}, two, (1, "x.sch: missing")
    yield "a refused symbol before a missing file", {"x.sch": bad}, two, (1, "bad.sym:3: Nested")
    yield "a missing file before a sheet below", {
        "x.sch": box_of, "low.sch": refused}, two, (1, none)
    yield "a refused file before a sheet below", {
        "x.sch": box_of, "low.sch": refused, "y.sch": "\n?\n"}, two, (1, "y.sch:3: UnknownLetter")
    yield "a sheet below that is refused", {"x.sch": box_of, "low.sch": refused}, ["x.sch"], (
        1, "low.sch:2: FieldCount")
    yield "symbols of the sheet above before it", {
        "x.sch": box_of + worse + bad, "low.sch": refused}, ["x.sch"], (
            1, "worse.sym:2: FieldCount")
    yield "symbols of a sheet below", {
        "x.sch": box_of, "low.sch": C1 + bad + worse}, ["x.sch"], (1, "bad.sym:3: Nested")
    yield "a symbol is asked for where it is named first", {
        "x.sch": C1, "y.sch": bad, "z.sch": worse}, ["z.sch", "x.sch", "y.sch"], (
            1, "worse.sym:2: FieldCount")
    deep = component("no.sym", 0, 0, "source=deep.sch")
    yield "sheets are read by levels", {
        "x.sch": component("no.sym", 0, 0, "source=mid.sch", "source=low.sch"), "mid.sch": deep,
        "deep.sch": refused, "low.sch": "N\n"}, ["x.sch"], (1, "low.sch:2: FieldCount")
    yield "of two sources the first is read first", {
        "x.sch": component("no.sym", 0, 0, "source=mid.sch", "source=low.sch"),
        "mid.sch": refused, "low.sch": "N\n"}, ["x.sch"], (1, "mid.sch:2: FieldCount")
    yield "of two components too", {
        "x.sch": deep + box_of, "deep.sch": refused, "low.sch": "N\n"}, ["x.sch"], (
            1, "deep.sch:2: FieldCount")
    yield "also sheets without an instance are read", {
        "x.sch": deep, "deep.sch": refused}, ["x.sch"], (1, "deep.sch:2: FieldCount")
    yield "a missing sheet below is no fault", {"x.sch": box_of + deep}, ["x.sch"], [""]
    for words in ([], ["x.sch", "x.sch"], ["x.sch", "y.sch", "x.sch"], ["../x.sch"], ["-x.sch"],
                  ["--"], ["--form", "x", "x.sch"], ["x.sch", "-"], ["x.sch", ""], [".x.sch"],
                  ["é.sch"],
                  ["x" * 101], ["x.sch", "a b"], ["a,b"], ["no.sch", "no.sch"]):
        yield f"the words {words}", {"x.sch": C1, "-x.sch": C1}, words, (2, "usage")


def folders():
    for what in (roots, levels, ports, names, packages, sources, faults):
        for shown, files, words, wanted in what():
            sheets = {name: VERSION + it for name, it in files.items() if name.endswith(".sch")}
            files = {**files, **sheets}
            assert not files.keys() & LIBRARY.keys(), shown
            yield shown, files, words, wanted
