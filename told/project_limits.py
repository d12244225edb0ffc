"""Folders at the limits of a project: `limits`."""
from random_files import VERSION, texts_of_size

TEXT = b"T 0 0 5 10 1 1 0 0 1\nsource=%s\n"
POINT = b"N 0 0 0 0 4\n"


def components(names, more=b""):
    return VERSION + b"".join(b"C 0 0 1 0 0 %s\n" % name.encode() for name in names) + more


def over(name, refdes=b"U1"):
    """A component over a sheet."""
    attached = TEXT % name.encode() + b"T 0 0 5 10 1 1 0 0 1\nrefdes=%s\n" % refdes
    return b"C 0 0 1 0 0 no.sym\n{\n%s}\n" % attached


def limits():
    """Folders at the limits, by what they show, and the words."""
    for it in (of_symbols, of_texts):
        for what, files in it():
            yield what, files, ["x.sch"]
    yield from of_sheets()
    yield from of_objects()
    yield from of_instances()
    for what, files, name in of_folders():
        yield f"a folder in place of a {what}", files, [name]


def of_symbols():
    many = [f"{number}.sym" for number in range(8_193)]
    for count in (8_192, 8_193):
        files = dict.fromkeys(many[:count], VERSION)
        yield f"{count} symbols", {**files, "x.sch": components(many)}
    files = {**dict.fromkeys(many, VERSION), "8192.sym": VERSION + b"N\n"}
    yield "8193 symbols, the last one refused", {**files, "x.sch": components(many)}
    halves = {"x.sch": components(many[:4_097], over("y.sch")), "y.sch": components(many[4_096:])}
    for count in (8_192, 8_193):
        yield f"{count} symbols of two sheets", {**dict.fromkeys(many[-count:], VERSION), **halves}
    blocks = VERSION + b"N 0 0 1 0 4\n{\n}\n" * 200_000
    yield "a symbol too large", {"x.sch": components(["a.sym"]), "a.sym": texts_of_size(4_194_305)}
    yield "a symbol of too many parts", {"x.sch": components(["a.sym"]), "a.sym": blocks}


def of_texts():
    full = texts_of_size(4_194_304)
    names = [f"{number}.sym" for number in range(16)]
    sheet = components(names)
    rest = 4_194_304 - (len(sheet) - len(VERSION))
    for size in (rest, rest + 1):
        files = dict.fromkeys(names, full)
        files.update({"15.sym": texts_of_size(size), "x.sch": sheet})
        yield f"a last symbol of {size} bytes", files
    blank = texts_of_size(rest - 1).rstrip(b"\n") + b"\r" * 50 + b"\n\n"
    yield "the same in more bytes than are counted", {**files, "15.sym": blank, "x.sch": sheet}
    below = b"".join(over(f"{number}.sch") for number in range(16))
    rest = 4_194_304 - len(below) + 16 * len(VERSION)
    for size in (rest, rest + 1):
        files = {f"{number}.sch": full for number in range(15)}
        files.update({"15.sch": texts_of_size(size), "x.sch": VERSION + below})
        yield f"a last sheet of {size} bytes", files


def of_sheets():
    many = [f"{number}.sch" for number in range(1_025)]
    files = dict.fromkeys(many, VERSION + POINT)
    for count in (1_024, 1_025):
        yield f"{count} sheets as words", files, many[:count]
        below = VERSION + b"".join(map(over, many[: count - 1]))
        yield f"{count} sheets, one over the others", {**files, "x.sch": below}, ["x.sch"]
    last = {**files, "1024.sch": VERSION + b"N\n"}
    yield "1025 sheets, the last one refused", last, many
    del last["1024.sch"]
    yield "1025 sheets, the last one missing", last, many


def of_objects():
    quarter = VERSION + POINT * 99_999
    quarters = {f"{number}.sch": quarter for number in range(4)}
    for count in (400_000, 400_001):
        files = {**quarters, "rest.sch": VERSION + POINT * (count - 4 * 99_999)}
        yield f"{count} objects in five sheets", files, list(files)
    below = {f"{number}.sch": quarter + over(f"{number + 1}.sch") for number in range(4)}
    below["4.sch"] = VERSION + POINT + over("5.sch")
    yield "too many objects, and a sheet that is refused", {
        **below, "5.sch": VERSION + b"N\n"}, ["0.sch"]
    many = {f"{number}.sch": VERSION for number in range(1_025)}
    many.update(quarters)
    many["4.sch"] = VERSION + POINT * 5
    yield "too many objects in too many sheets", many, list(many)


def layers(count):
    """Two sheets in each layer but the first, each over both of the next one."""
    files = {"x.sch": VERSION + over("1a.sch") + over("1b.sch", b"U2")}
    for layer in range(1, count):
        below = over(f"{layer + 1}a.sch") + over(f"{layer + 1}b.sch", b"U2")
        files.update({f"{layer}{letter}.sch": VERSION + below for letter in "ab"})
    return {**files, f"{count}a.sch": VERSION, f"{count}b.sch": VERSION}


def of_instances():
    for count in (4_096, 4_097):
        files = {"x.sch": VERSION + over("y.sch") * (count - 1), "y.sch": VERSION + POINT}
        yield f"{count} instances", files, ["x.sch"]
    yield "4095 instances of layers, and a root", {**layers(11), "y.sch": VERSION}, [
        "x.sch", "y.sch"]
    yield "4095 instances of layers, and two roots", {
        **layers(11), "y.sch": VERSION, "z.sch": VERSION}, ["x.sch", "y.sch", "z.sch"]
    yield "131071 instances of layers", layers(16), ["x.sch"]
    yield "sheets each over all others", {
        f"{number}.sch": VERSION + b"".join(over(f"{k}.sch", b"U%d" % k) for k in range(1, 12))
        for number in range(12)
    }, ["0.sch"]
    parts = POINT * 99_998
    for symbol, files in [
        (b"big.sym\n", {"big.sym": VERSION + parts}),
        (b"EMBEDDEDbig.sym\n[\n" + parts + b"]\n", {}),
    ]:
        low = VERSION + b"C 0 0 1 0 0 " + symbol
        for more in (b"", POINT):
            yield f"a weight of {4_000_000 + (more != b'')}", {
                **files, "low.sch": low, "x.sch": VERSION + over("low.sch") * 40 + more}, ["x.sch"]
    many = {f"{number}.sch": VERSION for number in range(1_024)}
    crowded = b"".join(map(over, many)) + over("0.sch") * 4_096
    yield "too many instances of too many sheets", {**many, "x.sch": VERSION + crowded}, ["x.sch"]


def of_folders():
    """What is a folder in place of a file, its files, and the word."""
    yield "symbol", {"x.sch": components(["a.sym"]), "a.sym/b": b""}, "x.sch"
    yield "sheet below", {"x.sch": VERSION + over("y.sch"), "y.sch/b": b""}, "x.sch"
    yield "sheet", {"x.sch/b": b""}, "x.sch"
