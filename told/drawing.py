"""Texts of sheets and symbols, drawn object by object, and a library of symbols, for the folders
with known answers and for those that are timed.
"""
VERSION = "v 20130925 2\n"


def text(content):
    return f"T 0 0 5 10 1 1 0 0 {content.count(chr(10)) + 1}\n{content}\n"


def block(contents):
    return "{\n" + "".join(map(text, contents)) + "}\n" if contents else ""


def pin(x, y, *contents, at=None, kind=0):
    """A pin whose active end is a point, with attached texts."""
    far = at or (x + 50, y)
    return f"P {x} {y} {far[0]} {far[1]} 1 {kind} 0\n" + block(contents)


def numbered(x, y, number, kind="pas"):
    return pin(x, y, f"pinnumber={number}", f"pinseq={number}", f"pintype={kind}")


def symbol(*parts):
    """A symbol: parts that are drawn, and the contents of free texts."""
    return VERSION + "".join(part if part.endswith("\n") else text(part) for part in parts)


def component(basename, x, y, *contents, angle=0, mirror=0):
    return f"C {x} {y} 1 {angle} {mirror} {basename}\n" + block(contents)


def embedded(basename, parts, *contents):
    parts = symbol(*parts).removeprefix(VERSION)
    return f"C 0 0 1 0 0 EMBEDDED{basename}\n[\n{parts}]\n" + block(contents)


def part(x, y, refdes, *contents, angle=0, mirror=0):
    """A part of two pins: one at the point, and one 300 to the right before it is turned."""
    contents = (f"refdes={refdes}", *contents)
    return component("two.sym", x, y, *contents, angle=angle, mirror=mirror)


def one(kind, x, y, refdes, *contents):
    """A part of one pin of a kind at a point."""
    return component(f"k-{kind}.sym", x, y, f"refdes={refdes}", *contents)


def wire(x1, y1, x2, y2, *names):
    return f"N {x1} {y1} {x2} {y2} 4\n" + block([f"netname={name}" for name in names])


def gate(y, *contents):
    """A gate of a quad package."""
    return component("7400.sym", 0, y, *contents)


def alone(refdes, *numbers):
    return [f"unconnected_pin-{k}|{refdes}-{number}" for k, number in enumerate(numbers, 1)]


def answer(wanted):
    """What is wanted as status, output and error line."""
    if isinstance(wanted, tuple):
        return wanted[0], b"", f"gafd: {wanted[1]}\n".encode()
    middle = wanted.index("")
    lines = [f"parts {middle}", *wanted[:middle], f"nets {len(wanted) - middle - 1}"]
    lines += wanted[middle + 1 :]
    return 0, "".join(f"{line}\n" for line in lines).replace("|", "\t").encode(), b""


KINDS = ("in", "out", "io", "oc", "oe", "pas", "tp", "tri", "clk", "pwr")
DIRECTIVE = ("device=DRC_Directive", "value=NoConnection")
TITLE = "B 0 0 17000 11000 15 0 0 0 -1 -1 0 -1 -1 -1 -1 -1\n"
SLOTDEFS = ("slotdef=1:1,2,3", "slotdef=2:4,5,6", "slotdef=3:9,10,8", "slotdef=4:12,13,11")
LIBRARY = {f"k-{kind}.sym": symbol(numbered(0, 0, 1, kind)) for kind in KINDS}
LIBRARY["two.sym"] = symbol(numbered(0, 0, 1), numbered(300, 0, 2), "device=TWO")
LIBRARY["title-B.sym"] = symbol(TITLE, "graphical=1")
LIBRARY["nc.sym"] = symbol(pin(0, 0, at=(100, 0)), *DIRECTIVE, "graphical=1")
LIBRARY["frame.sym"] = symbol(numbered(0, 0, 1), "graphical=1", "source=low.sch", "refdes=F1")
LIBRARY["box.sym"] = symbol("source=low.sch")
LIBRARY["power.sym"] = symbol(pin(0, 0, "pinnumber=1"), "net=Vcc:1")
LIBRARY["bad.sym"] = VERSION + "N 0 0 1 0 4\nC 0 0 1 0 0 two.sym\n"
LIBRARY["worse.sym"] = VERSION + "N 0 0 1 4\n"
LIBRARY["EMBEDDEDbad.sym"] = LIBRARY["worse.sym"]
LIBRARY[".hid.sym"] = LIBRARY["x" * 101] = LIBRARY["é.sym"] = LIBRARY["worse.sym"]
LIBRARY["x" * 100] = symbol("device=LONG")
LIBRARY["-_+.sym"] = symbol("device=DASH")
LIBRARY["7400.sym"] = symbol(
    numbered(300, 400, 1, "in"), numbered(300, 0, 2, "in"), numbered(1000, 200, 3, "out"),
    "device=7400", "numslots=4", *SLOTDEFS, "net=Vcc:14", "net=GND:7",
)
