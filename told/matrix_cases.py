"""Folders with known answers on the matrix of a check and on its words: `folders`, for
check_cases.py, which has the others. The sheet has three nets: oc and pwr, out and out, in alone.
"""
from drawing import VERSION, embedded, numbered, one, wire
from hierarchy_cases import chain

OUTS = one("out", 0, 0, "O1") + one("out", 100, 0, "O2") + wire(0, 0, 100, 0)
OC_PWR = one("oc", 0, 1000, "C1") + one("pwr", 100, 1000, "P1") + wire(0, 1000, 100, 1000)
THREE = OUTS + OC_PWR + one("in", 0, 2000, "L1")
THREE_REPORT = (
    b"findings 3\nerror Conflict unnamed_net1 oc pwr\nerror Conflict unnamed_net2 out out\n"
    b"error UnconnectedPin L1-1\nerrors 3 warnings 0\n"
)
ROWS = ["c", "cc", "cce", "ccwc", "ccewe", "ccewce", "ccccccc", "cceweece", "cceccccec",
        "ccccceceec", "cceweeceeec", "eeeeeeeeeeee"]
KINDS = ("unknown", "in", "out", "io", "oc", "oe", "pas", "tp", "tri", "clk", "pwr")
WITH = ["--matrix", "m.toml", "x.sch"]


def document(rows, key="rows", quote='"', comma=", "):
    return f"{key} = [{comma.join(quote + row + quote for row in rows)}]\n"


def changed(row, column, letter):
    """The usual rows with another letter for two kinds."""
    rows = list(ROWS)
    rows[row] = rows[row][:column] + letter + rows[row][column + 1 :]
    return rows


def folder(matrix, sheet=THREE):
    return {"x.sch": sheet, "m.toml": matrix}


def on_entries():
    """Each pair of kinds, with the usual matrix and with that of all letters turned round."""
    levels = {"c": [], "w": ["warning"], "e": ["error"]}
    for row, one_kind in enumerate(KINDS):
        for column, other in enumerate(KINDS[: row + 1]):
            pins = [numbered(0, 0, 1, one_kind), numbered(0, 0, 2, other)]
            sheet = embedded("e.sym", pins, "refdes=A1", "net=X:1")
            always = [f"warning UnknownPintype A1-{k}" for k, kind in ((1, one_kind), (2, other))
                      if kind == "unknown"]
            letter = ROWS[row][column]
            turned = changed(row, column, {"c": "e", "w": "c", "e": "w"}[letter])
            for matrix, words in ((ROWS, ["x.sch"]), (turned, WITH)):
                said = levels[matrix[row][column]]
                yield f"{other} and {one_kind} as {matrix[row][column]}", folder(
                    document(matrix), sheet
                ), [*always, *(f"{it} Conflict X {other} {one_kind}" for it in said)], words
            alone = embedded("e.sym", pins[:1], "refdes=A1")
            for unconnected in "cwe" if row == column else "":
                said = [f"{it} UnconnectedPin A1-1" for it in levels[unconnected]]
                yield f"{one_kind} unconnected as {unconnected}", folder(
                    document(changed(11, row, unconnected)), alone), always[:1] + said, WITH


def on_documents():
    usual, rows = document(ROWS), ",".join(f"'{row}'" for row in ROWS)
    lines = "".join(f" '{row}'\t, # k\r\n" for row in ROWS)
    for what, text in {
        "the usual matrix": usual,
        "in single quotes": document(ROWS, quote="'"),
        "over several lines": f"# m\r\n\r\n\trows\t=[#\r\n{lines}]\r\n",
        "with a comma behind the last row": usual.replace("]", ", ]"),
        "in three quotes": document(ROWS, quote='"""'),
        "over lines of its texts": document(ROWS, quote='"""').replace('"""c', '"""\n\\\n  c'),
        "in three single quotes": document(ROWS, quote="'''").replace(" '''", " '''\n"),
        "with a quoted key": document(ROWS, '"ro\\u0077s"'),
        "with letters by number": usual.replace("ccw", "c\\u0063\\U00000077"),
        "without a last line end": usual[:-1],
        "in 4194304 bytes": f"#{usual.rjust(4_194_303, '-').replace('-rows', chr(10) + 'rows')}",
    }.items():
        yield f"a matrix {what}", folder(text), THREE_REPORT, WITH
    for what, text in {
        "nothing": "", "a comment": "# rows", "another key": document(ROWS, "Rows"),
        "a further key": usual + "x = 1\n", "a further table": usual + "[x]\n",
        "rows in a table": "[x]\n" + usual, "rows as a table": "[rows]\n",
        "rows as tables": "[[rows]]\n" * 12, "a dotted key": document(ROWS, "rows.x"),
        "one text": 'rows = "c"', "no row": "rows = []", "eleven rows": document(ROWS[:11]),
        "thirteen rows": document([*ROWS, "c" * 13]), "a first row of two": document(
            ["cc", *ROWS[1:]]), "a short row": document([*ROWS[:11], "e" * 11]),
        "a number": f"rows = [1, {rows[4:]}]", "rows in a row": f"rows = [[{rows}]]",
        "a row in a row": f"rows = [['c'], {rows[4:]}]", "a time": "rows = 2024-02-29",
        "another letter": document(changed(5, 0, "x")), "a capital": document(changed(5, 2, "E")),
        "a blank": document(changed(9, 5, " ")), "a row of bytes as many": document(
            [ROWS[0], "é", *ROWS[2:]]), "rows in disorder": document(ROWS[::-1]),
    }.items():
        yield f"a document of {what}", folder(text), (1, "m.toml: BadRows"), WITH
    for what, text in {
        "an open list": "rows = [", "an open text": document(ROWS)[:-3], "no value": "rows =",
        "no comma": document(ROWS, comma=" "), "two commas": document(ROWS, comma=",,"),
        "no quotes": document(ROWS, quote=""), "rows twice": usual * 2, "no key": "= 1",
        "a key alone": "rows\n", "text behind it": usual[:-1] + " x\n", "a bad escape": document(
            changed(3, 1, "\\q")), "a line end in a text": document(changed(3, 1, "\n")),
        "a CR in a comment": "# a\rb\n" + usual, "a sheet": "v 20130925 2\n",
        "rows as value and table": usual + "[rows]\n", "braces": "{rows = []}",
        "no UTF-8": b"# \xff\n" + usual.encode(),
        "4194305 bytes": f"#{usual.rjust(4_194_304, '-').replace('-rows', chr(10) + 'rows')}",
    }.items():
        yield f"no document: {what}", folder(text), (1, "m.toml: BadToml"), WITH


def on_levels():
    one_pin = embedded("e.sym", [numbered(0, 0, 1, "in"), numbered(0, 500, 1, "out")], "refdes=A1")
    both = changed(11, 1, "w")
    yield "a pin that is unconnected as a warning and as an error", folder(
        document(both), one_pin), ["error UnconnectedPin A1-1", "warning UnconnectedPin A1-1",
                                   "error PinOnTwoNets A1-1"], WITH
    yield "the same in order of words before levels", folder(
        document(changed(11, 2, "w")), one("out", 0, 0, "A1") + one("in", 0, 9, "B1")), [
            "warning UnconnectedPin A1-1", "error UnconnectedPin B1-1"], WITH
    said = ["Conflict unnamed_net1 oc pwr", "Conflict unnamed_net2 out out", "UnconnectedPin L1-1"]
    for letter, wanted in [("c", []), ("w", [f"warning {it}" for it in said]),
                           ("e", [f"error {it}" for it in said])]:
        rows = document([letter * size for size in range(1, 13)])
        yield f"a matrix of {letter} alone", folder(rows), wanted, WITH
    drawn = one("in", 0, 0, "A1") + one("in", 0, 0, "B1")
    yield "what goes by no matrix", folder(
        document([letter * size for letter in "c" for size in range(1, 13)]), drawn), [
            "error NotDriven unnamed_net1"], WITH


def on_words():
    usual, usage = folder(document(ROWS)), (2, "usage")
    for words in (["--matrix=m.toml", "x.sch"], ["x.sch", "--matrix", "m.toml"],
                  ["x.sch", "--matrix=m.toml"], ["--", "x.sch"], [*WITH[:2], "--", "x.sch"]):
        yield f"the words {words}", usual, THREE_REPORT, words
    for words in ([], WITH[:2], [WITH[0], "x.sch"], ["x.sch", WITH[0]], ["--matrix=", "x.sch"],
                  [*WITH, *WITH[:2]], [*WITH, "--matrix=m.toml"], [*WITH, "x.sch"],
                  ["--matrix", "../m.toml", "x.sch"], ["--matrix", "--", "x.sch"], ["x.sch", "-"],
                  ["--matrix", "", "x.sch"], ["--Matrix", "m.toml", "x.sch"], ["-m", *WITH[1:]],
                  ["--matrix", "m.toml", "../x.sch"], ["--form", "list", "x.sch"], ["-x.sch"],
                  ["--help"], ["x.sch", "--help"], ["--matrix=none.toml", "x.sch", "x.sch"]):
        yield f"the words {words}", usual, usage, words
    none, bad = ["--matrix", "none.toml"], folder("rows = [", "N 0\n")
    yield "a matrix that is not there", usual, (1, "none.toml: missing"), [*none, "x.sch"]
    yield "before a sheet that is not", usual, (1, "none.toml: missing"), ["none.sch", *none]
    yield "no document before a sheet that is refused", bad, (1, "m.toml: BadToml"), WITH
    yield "before one that is not there", bad, (1, "m.toml: BadToml"), [*WITH[:2], "none.sch"]
    yield "a good one, and a sheet that is refused", folder(document(ROWS), "N 0\n"), (
        1, "x.sch:2: FieldCount"), WITH
    yield "and one that is not there", usual, (1, "none.sch: missing"), [*WITH, "none.sch"]
    yield "a matrix that is a sheet of the words too", usual, (1, "x.sch: BadToml"), [
        "--matrix", "x.sch", "x.sch"]
    yield "a matrix as a sheet of the words", usual, (1, "m.toml:1: NoVersion"), ["m.toml"]
    yield "a folder in its place", {"x.sch": THREE, "m.toml/a": ""}, (3, "folder fault"), WITH
    yield "a chain of 18 sheets", chain(18), (1, "TooManyInstances"), ["s1.sch"]
    yield "a chain of 17 sheets", {**chain(17), "no.sym": VERSION}, [
        f"error UnconnectedPin {'U/' * 16}C1-1"], ["s1.sch"]


def folders():
    for some in (on_entries, on_documents, on_levels, on_words):
        yield from some()
