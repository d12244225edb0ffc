"""Folders with known answers, for the rules of check_rules.py: `case_table`. Here are those of the
findings, each beside one that has just not that finding; matrix_cases.py has those of a matrix.

Each has what it shows, its sheets and its own symbols beside those of the library, and what is
wanted: the findings in order, or the status and the error line.
"""
import matrix_cases
from drawing import (
    DIRECTIVE, LIBRARY, VERSION, component, embedded, numbered, one, part, pin, symbol, wire,
)
from project_cases import STAGE

# Two parts at one point: what is put there too has company.
PAIR = one("pas", 0, 0, "G1") + one("pas", 0, 0, "H1")
LOW = one("pas", 0, 0, "C1") + wire(0, 0, 100, 0, "X")
HALF = symbol(numbered(0, 0, 1), "numslots=2", "slotdef=1:1", "slotdef=2:2")


def half(slot, refdes="A1", *contents):
    """One of the two parts of a package, each of one pin."""
    return component("half.sym", 0, 0, f"refdes={refdes}", f"slot={slot}", *contents)


def a1(*contents, kind="pas"):
    return one(kind, 0, 0, "A1", *contents)


def box(refdes, *contents):
    return component("box.sym", 0, 0, f"refdes={refdes}", *contents)


def on_refdes():
    yield "a refdes ends in ?", PAIR + one("pas", 0, 0, "U?"), ["error Unnumbered U?"]
    yield "a refdes has ? inside", PAIR + one("pas", 0, 0, "U?1"), []
    yield "that of a component over a sheet ends in ?", {"x.sch": box("U?"), "low.sch": PAIR}, [
        "error Unnumbered U?"]
    yield "two of these are not numbered, and no duplicates", PAIR + one("pas", 0, 0, "U?") * 2, [
        "error Unnumbered U?"]
    yield "pins without refdes", PAIR + component("k-pas.sym", 0, 0), ["error NoRefdes x.sch 2"]
    yield "the same with a net", PAIR + component("k-pas.sym", 0, 0, "net=X:1"), []
    yield "the same with a bad net", PAIR + component("k-pas.sym", 0, 0, "net=X"), [
        "error BadNet x.sch 2"]
    yield "a graphical one without refdes", component("k-pas.sym", 0, 0, "graphical=1"), []
    yield "one without pins", PAIR + embedded("e.sym", [pin(0, 0, kind=1)]), []
    yield "a refdes of two lines is none", PAIR + component("k-pas.sym", 0, 0, "refdes=A\nB?"), [
        "error NoRefdes x.sch 2"]
    yield "one over a sheet without refdes", {"x.sch": component("box.sym", 0, 0, "net=X:1"),
                                              "low.sch": PAIR}, [
        "error NoRefdes x.sch 0", "warning Unreached low.sch"]
    yield "two parts of one refdes", PAIR + a1() * 2, ["error DuplicateRefdes A1"]
    yield "two slots of one package", PAIR + half(1) + half(2), []
    yield "a slot, and a part that has none", PAIR + half(1) + component(
        "half.sym", 0, 0, "refdes=A1"), ["error DuplicateRefdes A1", "warning UnusedSlot A1 2"]
    yield "a slot, and a component over a sheet", {"low.sch": PAIR, "x.sch": (
        PAIR + half(1) + half(2) + box("A1", "slot=3"))}, ["error DuplicateRefdes A1"]
    yield "a part, and a graphical component", PAIR + a1() + a1("graphical=1"), []
    yield "one sheet below two components of one refdes", {
        "x.sch": box("U1") * 2, "low.sch": PAIR
    }, [*(f"error DuplicateRefdes {it}" for it in ("U1", "U1/G1", "U1/H1")),
        "error PinOnTwoNets U1/G1-1", "error PinOnTwoNets U1/H1-1"]
    yield "below two components of two", {"x.sch": box("U1") + box("U2"), "low.sch": PAIR}, []


def on_slots():
    yield "one slot twice", PAIR + half(1) * 2, [
        "error DuplicateSlot A1 1", "warning UnusedSlot A1 2"]
    yield "one slot in two spellings", PAIR + half(1) + half("01"), ["warning UnusedSlot A1 2"]
    yield "one slot twice of a part that is not numbered", PAIR + half(1, "U?") * 2, [
        "error Unnumbered U?", "warning UnusedSlot U? 2"]
    for fault, *contents in [
        ("SlotRange", "slot=0", "slotdef=0:1"), ("SlotRange", "slot=2x"),
        ("NoSlotdef", "slot=1"), ("NoSlotdef", "slot=1", "slotdef=2:", "slotdef=1"),
        ("BadSlotdef", "slot=1", "slotdef=1:", "slotdef=1:1"),
    ]:
        yield f"a slot {contents}", PAIR + a1(*contents), [f"error BadSlot A1 {fault}"]
    yield "a slot past numslots and without slotdef", PAIR + a1("slot=2", "numslots=1"), [
        "error BadSlot A1 SlotRange", "warning UnusedSlot A1 1"]
    yield "a good slot", PAIR + a1("slot=1", "slotdef=1:1", "slotdef=1:"), []
    yield "a slot that is not there", PAIR + half(1), ["warning UnusedSlot A1 2"]
    yield "one that is there in another spelling", PAIR + half(1) + half("02"), []
    yield "a bad slot is used too", PAIR + half(1) + half(2, "A1", "slotdef=1:1"), [
        "error BadSlot A1 NoSlotdef"]
    yield "slots are used without numslots too", PAIR + half(1) + a1("slot=2", "slotdef=2:3"), []
    yield "the first numslots that is a number counts", (
        PAIR + half(1, "A1", "numslots=x") + half(3, "A1", "numslots=3", "slotdef=3:3")
        + half(2, "A1", "numslots=9")), []
    yield "also where it is 0", PAIR + half(1, "A1", "numslots=0") + half(3, "A1", "slotdef=3:2"), [
        "error BadSlot A1 SlotRange"]
    yield "one of five digits does not", PAIR + half(1, "A1", "numslots=00003"), []
    yield "slots are ordered as bytes", PAIR + half(9, "A1", "numslots=11", "slotdef=9:1"), [
        f"warning UnusedSlot A1 {slot}" for slot in (1, 10, 11, 2, 3, 4, 5, 6, 7, 8)]
    yield "words are ordered as one text, with the spaces between them", (
        PAIR + half(1) + half(1, "A1\x01") + half(1, "A1.")), [
            f"warning UnusedSlot {refdes} 2" for refdes in ("A1\x01", "A1", "A1.")]


def on_pins():
    yield "a pin of no kind", PAIR + component("power.sym", 0, 0, "refdes=A1"), [
        "warning UnknownPintype A1-1"]
    yield "the same without refdes", PAIR + component("power.sym", 0, 0), []
    yield "a kind in capitals", PAIR + embedded(
        "e.sym", [pin(0, 0, "pintype=PAS")], "refdes=U10"), ["warning UnknownPintype U10-?"]
    yield "a hidden pin", PAIR + a1("net=X:1,2"), []
    outs = PAIR + one("out", 0, 0, "B1")
    yield "two outputs", outs + a1(kind="out"), ["error Conflict unnamed_net1 out out"]
    yield "three outputs", outs + a1(kind="out") + one("out", 0, 0, "C1"), [
        "error Conflict unnamed_net1 out out"]
    yield "an output, and one that may be one", outs + a1(kind="io"), [
        "warning Conflict unnamed_net1 out io"]
    yield "an output and an input", outs + a1(kind="in"), []
    out, pas = a1("slot=1", "slotdef=1:1", kind="out"), a1("slot=2", "slotdef=2:1")
    yield "one output that is drawn twice", PAIR + out + a1("slot=2", "slotdef=2:1", kind="out"), []
    yield "the kind of a pin is that where it is drawn first", outs + out + pas, [
        "error Conflict unnamed_net1 out out"]
    yield "wherever it is drawn later", outs + pas + out, []
    yield "a shorter route is first, whatever the ids", {"low.sch": LOW, "x.sch": (
        box("U1") + one("out", 0, 0, "U1/C1") + one("out", 0, 0, "O1") + wire(0, 0, 9, 0, "U1/X")
    )}, ["error DuplicateRefdes U1/C1", "error Conflict U1/X out out"], ["low.sch", "x.sch"]
    yield "a hidden pin is of kind pwr", a1("net=X:1,2", kind="out"), ["error Conflict X out pwr"]
    yield "not where it is drawn too", a1("net=X:1,2", kind="out") + embedded(
        "e.sym", [numbered(0, 0, 2)], "refdes=A1", "slot=1", "slotdef=1:9,2"), [
            "error DuplicateRefdes A1"]
    yield "a pin on two nets", PAIR + one("pas", 500, 0, "I1") + embedded(
        "e.sym", [numbered(0, 0, 1), numbered(500, 0, 1)], "refdes=A1"), [
            "error PinOnTwoNets A1-1"]
    yield "on two that are joined", PAIR + one("pas", 500, 0, "I1") + wire(0, 0, 500, 0) + embedded(
        "e.sym", [numbered(0, 0, 1), numbered(500, 0, 1)], "refdes=A1"), []
    yield "a pin that is unconnected twice is on two nets", a1() + one("pas", 0, 9, "A1"), [
        "error DuplicateRefdes A1", "error UnconnectedPin A1-1", "error PinOnTwoNets A1-1"]


def on_nets():
    yield "a pin at a wire", a1() + wire(0, 0, 9, 0), ["warning OnePin unnamed_net1"]
    yield "a pin that is drawn twice", a1() * 2, [
        "error DuplicateRefdes A1", "warning OnePin unnamed_net1"]
    yield "two pins", PAIR, []
    yield "a pin with a name", a1("net=X:1"), ["warning OnePin X"]
    yield "a pin alone", a1(), ["error UnconnectedPin A1-1"]
    yield "pins are ordered as bytes", "".join(
        one("pas", 0, 9 * k, f"U{k}") for k in (2, 1, 10)), [
            f"error UnconnectedPin U{k}-1" for k in (1, 10, 2)]
    yield "a pin beside one without refdes", a1() + component("k-pas.sym", 0, 0), [
        "error NoRefdes x.sch 1", "warning OnePin unnamed_net1"]
    ins, clk = a1(kind="in") + one("in", 0, 0, "B1"), one("clk", 0, 0, "C1")
    for what, inputs in [("inputs", ins), ("an input and a clock", a1(kind="in") + clk),
                         ("clocks", clk + one("clk", 0, 0, "D1"))]:
        yield f"{what} alone", inputs, ["error NotDriven unnamed_net1"]
        yield f"{what}, and another pin", inputs + one("pas", 0, 0, "P1"), []
    yield "an input at a wire", a1(kind="in") + wire(0, 0, 9, 0), [
        "warning OnePin unnamed_net1", "error NotDriven unnamed_net1"]
    yield "an input with nothing at it", a1(kind="in"), ["error UnconnectedPin A1-1"]
    yield "inputs with a name of a wire", ins + wire(0, 0, 9, 0, "X"), ["error NotDriven X"]
    yield "inputs with a name by net", ins + component("power.sym", 0, 0), []
    yield "the same with a name of a wire that prints", (
        ins + component("power.sym", 0, 0) + wire(0, 0, 9, 0, "A")), []
    yield from on_directives(ins)
    yield "inputs with another name by net", ins + wire(0, 0, 9, 0, "Vc") + component(
        "power.sym", 9, 9), ["error NotDriven Vc"]


def on_directives(ins):
    nc, lone = component("nc.sym", 0, 0), a1(kind="in")
    yield "a directive alone", nc, []
    yield "an input at it", lone + nc, []
    yield "the same through a wire", lone + wire(0, 0, 9, 0) + component("nc.sym", 9, 0), []
    yield "an output", a1(kind="out") + nc, []
    yield "a pin with a name", a1("net=X:1") + nc, []
    yield "two pins", PAIR + nc, ["error NoConnection unnamed_net1"]
    yield "inputs are driven no more than open", ins + nc, ["error NoConnection unnamed_net1"]
    yield "three pins of a name", PAIR + a1("net=X Y:1") + nc, ["error NoConnection X_Y"]
    yield "two outputs", a1(kind="out") + one("out", 0, 0, "B1") + nc, [
        "error Conflict unnamed_net1 out out", "error NoConnection unnamed_net1"]
    yield "one pin that is drawn twice", a1("slot=1", "slotdef=1:1") + a1(
        "slot=2", "slotdef=2:1") + nc, []
    yield "two directives at one pin", lone + nc * 2, []
    yield "two at two pins of a name", (
        one("pas", 0, 0, "A1", "net=X:1") + one("pas", 0, 9, "B1", "net=X:1") + nc
        + component("nc.sym", 0, 9)), ["error NoConnection X"]
    yield "one at one of two pins of a name", (
        one("pas", 0, 0, "A1", "net=X:1") + one("pas", 0, 9, "B1", "net=X:1") + nc
        ), ["error NoConnection X"]
    yield "an input beside it", lone + component("nc.sym", 9, 9), ["error UnconnectedPin A1-1"]
    yield "one without graphical=1 and without refdes", lone + component(
        "k-pas.sym", 0, 0, *DIRECTIVE), []
    yield "one with a refdes that is open, a slot and a sheet", PAIR + component(
        "box.sym", 0, 0, "refdes=U?", "slot=0", "source=none.sch", *DIRECTIVE), []
    yield "a part of its refdes", a1(kind="in") + component(
        "k-pas.sym", 0, 0, "refdes=A1", *DIRECTIVE), []
    yield "one of no symbol", component("none.sym", 0, 0, *DIRECTIVE), []
    yield "no directive by its device alone", PAIR + component("k-pas.sym", 0, 0, DIRECTIVE[0]), [
        "error NoRefdes x.sch 2"]
    yield "a port at one of a sheet below", {
        "e.sym": symbol(pin(0, 0, "pinnumber=1", "pinlabel=IN"), "source=low.sch"),
        "x.sch": PAIR + component("e.sym", 0, 0, "refdes=U1"),
        "low.sch": one("pas", 0, 0, "IN") + nc,
    }, ["error NoConnection unnamed_net1"]
    yield "no port of its refdes", {
        "e.sym": symbol(pin(0, 0, "pinnumber=1", "pinlabel=IN"), "source=low.sch"),
        "x.sch": PAIR + component("e.sym", 0, 0, "refdes=U1"),
        "low.sch": component("nc.sym", 0, 0, "refdes=IN") + one("in", 0, 0, "L1"),
    }, []


def on_sheets():
    missing = ["error MissingSymbol x.sch none.sym"]
    yield "a symbol is missing", component("none.sym", 0, 0, "refdes=A1"), missing
    yield "of a component without refdes too", component("none.sym", 0, 0), missing
    yield "not of a graphical one", component("none.sym", 0, 0, "graphical=1"), []
    yield "a symbol without parts", {"x.sch": component("e.sym", 0, 0), "e.sym": VERSION}, []
    yield "a symbol without parts in the sheet", embedded("none.sym", []), []
    yield "no name of a file", component(".hid.sym", 0, 0), ["error MissingSymbol x.sch .hid.sym"]
    yield "a symbol is missing on a sheet without an instance", {
        "x.sch": component("box.sym", 0, 0), "low.sch": component("none.sym", 0, 0, "net=X")
    }, ["error NoRefdes x.sch 0", "warning Unreached low.sch"]
    yield "a sheet is missing", box("U1"), ["error MissingSource x.sch low.sch"]
    yield "also two, and what is no name", box("U1", "source=b c", "source=a", "source=a"), [
        "error MissingSource x.sch a", "error MissingSource x.sch b_c"]
    yield "also without refdes", component("box.sym", 0, 0), [
        "error NoRefdes x.sch 0", "error MissingSource x.sch low.sch"]
    yield "the sheet is there", {"x.sch": box("U1"), "low.sch": PAIR}, []
    yield "not of a graphical component", component("frame.sym", 0, 0), []
    yield "a sheet below itself", {"x.sch": box("U1"), "low.sch": PAIR + box("V1")}, [
        "error SourceLoop U1/V1 low.sch"]
    yield "not without refdes", {"x.sch": box("U1"), "low.sch": component("box.sym", 0, 0)}, [
        "error NoRefdes low.sch 1"]
    loop = {"x.sch": box("U1"), "low.sch": box("V1", "source=x.sch")}
    yield "sheets each below the other", loop, ["warning Unreached low.sch",
                                                "warning Unreached x.sch"]
    yield "the same below a root", {**loop, "top.sch": box("T1", "source=x.sch")}, [
        "error SourceLoop T1/U1/V1 x.sch"], ["top.sch"]
    for value in ("X", "X:1,", ":1"):
        yield f"the net {value}", PAIR + a1("net=Y:1", f"net={value}"), ["error BadNet x.sch 2"]
    yield "good nets before a bad one of the symbol", PAIR + embedded(
        "e.sym", ["net=X"], "refdes=A1", "net=X: 1"), ["warning OnePin X", "error BadNet x.sch 2"]
    yield "a bad one before good ones of the symbol", PAIR + embedded(
        "e.sym", ["net=X:1"], "refdes=A1", "net=X"), ["warning OnePin X", "error BadNet x.sch 2"]
    yield "a bad net of a directive", component("nc.sym", 0, 0, "net=X"), []
    yield "a bad net of the symbol", PAIR + embedded("e.sym", ["net=X"], "refdes=A1"), [
        "error BadNet x.sch 2"]
    yield "a bad net of a graphical component", a1("net=X", "graphical=1"), []
    port = symbol(pin(0, 0, "pinnumber=1", "pinlabel=IN"), "source=low.sch")
    yield "ports are components, but no parts", {"e.sym": port, "low.sch": PAIR + "".join(
        component(name, 0, 0, "refdes=IN", "net=X", "slot=0") for name in ("power.sym", "no.sym")),
        "x.sch": PAIR + component("e.sym", 0, 0, "refdes=U1")}, [
            "error MissingSymbol low.sch no.sym",
            "error BadNet low.sch 5", "error BadNet low.sch 6"]


def on_texts():
    def named(*names):
        return "".join(
            part(0, 99 * k + 9, f"R{k}", f"net={name}:1,2") for k, name in enumerate(names))

    yield "two names print alike", named("X Y", "X_Y"), ["error SameText X_Y"]
    yield "so do four, two by two", named("X Y", "b\t", "X_Y", "b\n"), [
        "error SameText X_Y", "error SameText b_"]
    yield "two names do not", named("X Y", "X-Y"), []
    yield "one does to a net that has none", named("unnamed net1") + PAIR, [
        "error SameText unnamed_net1"]
    yield "two refdes print alike", PAIR + a1() + one("pas", 0, 0, "A 1") + one(
        "pas", 0, 0, "A_1"), ["error SameText A_1"]
    yield "their pins are two", one("pas", 0, 0, "A 1") + wire(0, 0, 9, 0) + one(
        "pas", 9, 9, "A_1") + wire(9, 9, 0, 9), [
            "warning OnePin unnamed_net1", "warning OnePin unnamed_net2", "error SameText A_1"]
    yield "a refdes prints like a name", one("pas", 0, 0, "X Y", "net=X_Y:1,2"), []
    yield "findings are ordered as they print", "".join(
        one("pas", 0, 9 * k, f"R{k}", f"net={name}:1") for k, name in enumerate(("a z", "a!z"))), [
            "warning OnePin a!z", "warning OnePin a_z"]


def worked():
    low = LOW + component("box.sym", 500, 0, "refdes=V1")
    yield "a sheet over itself with a part", {"x.sch": box("U1"), "low.sch": low}, (
        b"findings 2\nwarning OnePin U1/X\nerror SourceLoop U1/V1 low.sch\nerrors 1 warnings 1\n")
    yield "pins of all sorts", matrix_cases.THREE, matrix_cases.THREE_REPORT
    yield "a sheet with a title block, a bus, a path and a picture", STAGE, (
        b"findings 2\nwarning OnePin unnamed_net1\nerror UnconnectedPin R1-1\n"
        b"errors 1 warnings 1\n")
    yield "a sheet without objects", "", b"findings 0\nerrors 0 warnings 0\n"


def answer(wanted):
    """What is wanted as status, output and error line; findings are told by their lines or as the
    whole report."""
    if isinstance(wanted, tuple):
        return wanted[0], b"", f"gafd: {wanted[1]}\n".encode()
    if isinstance(wanted, bytes):
        return 7 if b"\nerror " in wanted else 0, wanted, b""
    errors = sum(line.startswith("error ") for line in wanted)
    last = f"errors {errors} warnings {len(wanted) - errors}"
    return answer("".join(f"{it}\n" for it in (f"findings {len(wanted)}", *wanted, last)).encode())


def case_table():
    """Each what it shows, the files of the folder, the words, and its answer."""
    own = on_refdes, on_slots, on_pins, on_nets, on_sheets, on_texts, worked
    for some in (*own, matrix_cases.folders):
        for what, files, wanted, *words in some():
            files = {"half.sym": HALF, **(files if isinstance(files, dict) else {"x.sch": files})}
            for name in files:
                if name.endswith(".sch"):
                    files[name] = VERSION + files[name]
            files = {name: it if isinstance(it, bytes) else it.encode()
                     for name, it in {**LIBRARY, **files}.items()}
            yield what, files, words[0] if words else ["x.sch"], answer(wanted)
