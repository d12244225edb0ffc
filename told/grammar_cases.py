"""Files with known answers, for the reader and the writer of geda_files.py."""
from built import TOP
from geda_files import MOST_BYTES, MOST_OBJECTS, read_object, read_sheet, read_symbol
from random_files import EMBEDDED, NET, VERSION, texts_of_size


def case_table():
    """Each a file, how it is read, and what comes: its fault, its canonical text, or None where it
    is canonical itself."""
    v = VERSION
    one = TOP / "examples" / "one.sch"
    yield one.read_bytes(), read_sheet, None
    lines = v + b"T 0 0 9 10 1 0 0 0 3\none\n}\nthree\n"
    yield lines, read_sheet, None
    yield v + b"T 0 0 9 10 1 0 0 0 3\none\n", read_sheet, ("CutShort", 4)
    yield b"v 20110115 1\r\nN  0 0   100 0 4\r\n\r\n", read_sheet, b"v 20110115 1\nN 0 0 100 0 4\n"
    yield v + b"N 200000 0 0 0 4\n", read_sheet, None
    yield v + b"N 200001 0 0 0 4\n", read_sheet, ("OutOfRange", 2)
    yield b"", read_sheet, ("NoVersion", 1)
    yield b"v 20130925\n", read_sheet, ("BadFormat", 1)
    seconds = [
        (b"F 0", "UnknownLetter"),
        (b"N 0 0 1 4", "FieldCount"),
        (b"N 0 0 1 x 4", "BadNumber"),
        (b"C 0 0 1 45 0 a.sym", "BadAngle"),
        (b"}", "StrayBracket"),
        (b"\xff", "NotUtf8"),
        # the order on one line
        (b"N 0 0 1 \xff", "NotUtf8"),
        (b"C 0 0 1 x 45", "FieldCount"),
        (b"C 0 x 1 45 0 a.sym", "BadNumber"),
        (b"C 200001 0 1 45 0 a.sym", "OutOfRange"),
        (b"C 0 0 1 45 2 a.sym", "BadAngle"),
        (b"] x", "StrayBracket"),
        (b"{x", "UnknownLetter"),
        (b"v 20130925 2", "UnknownLetter"),
        (b"N 0 0 1 0 4 # net", "FieldCount"),
        (b"N 0 0 1 1234567890 4", "BadNumber"),
        (b"N 0 0 1 - 4", "BadNumber"),
        (b"N 0 0 1 +1 4", "BadNumber"),
        (b"N 0\r 0 1 0 4", "BadNumber"),
        (b"T 0 0 9 10 1 0 0 0 0", "OutOfRange"),
        (b"T 0 0 9 10 1 0 0 0 10001", "OutOfRange"),
        (b"U 0 0 1 0 10 -2", "OutOfRange"),
        (b"C 0 0 1 0 0 " + b"x" * 201, "OutOfRange"),
        (b"C 0 0 1 0 0 a\x01b", "OutOfRange"),
    ]
    for line, kind in seconds:
        yield v + line + b"\n", read_sheet, (kind, 2)
    yield v + b"C 0 0 1 0 0 a.sym\n", read_symbol, ("Nested", 2)
    yield v + b"C 0 0\n", read_symbol, ("Nested", 2)
    yield v + NET + b"{\n" + NET, read_sheet, ("NotAttribute", 4)
    yield v + NET + b"{\n]\n", read_sheet, ("NotAttribute", 4)
    yield v + NET + b"{ x\n", read_sheet, ("FieldCount", 3)
    yield v + NET + b"{\n} x\n", read_sheet, ("FieldCount", 4)
    yield v + NET + b"{\n}\n{\n", read_sheet, ("StrayBracket", 5)
    yield v + NET + b"\n \t\n{\n\n}\n\n", read_sheet, v + NET
    yield v + EMBEDDED, read_sheet, ("CutShort", 4)
    yield v + EMBEDDED[:-2] + b"\n\n[\n]\n", read_sheet, v + EMBEDDED + b"]\n"
    yield v + EMBEDDED[:-2] + NET, read_sheet, ("StrayBracket", 3)
    yield v + EMBEDDED[:-2] + b"[x\n", read_sheet, ("StrayBracket", 3)
    yield v + EMBEDDED[:-2] + b"[ x\n", read_sheet, ("FieldCount", 3)
    yield v + EMBEDDED + b"{\n", read_sheet, ("StrayBracket", 4)
    yield v + EMBEDDED + b"C\n", read_sheet, ("Nested", 4)
    yield v + EMBEDDED + b"]\n]\n", read_sheet, ("StrayBracket", 5)
    yield v + b"G 0 0 1 1 0 0 0\n\n", read_sheet, None
    yield v + b"G 0 0 1 1 0 0 1\n.\n.\n", read_sheet, None
    yield v + b"G 0 0 1 1 0 0 1\np\n\n..\n.\n", read_sheet, None
    yield v + b"G 0 0 1 1 0 0 1\np\nx\n", read_sheet, ("CutShort", 5)
    yield v + b"T 0 0 9 10 1 0 0 0 1", read_sheet, ("CutShort", 3)
    yield v + b"T 0 0 9 10 1 0 0 0 1\n\xff\n", read_sheet, ("NotUtf8", 3)
    yield v + b"N -0 -007 000000001 0 4", read_sheet, v + b"N 0 -7 1 0 4\n"
    yield b" \tv 00000007\t1 \r\r\n\r", read_sheet, b"v 00000007 1\n"
    yield b"\n" + v, read_sheet, ("NoVersion", 1)
    yield b"v 20130925 3\n", read_sheet, ("BadFormat", 1)
    yield b"v 20130925 2 \xff\n", read_sheet, ("NotUtf8", 1)
    yield NET + NET, read_object, ("TooLarge", 2)
    yield b"", read_object, ("CutShort", 1)
    yield b"\n\n", read_object, ("CutShort", 3)
    yield b"v 20130925 2\n", read_object, ("UnknownLetter", 1)
    yield NET + b"]\n", read_object, ("StrayBracket", 2)
    yield texts_of_size(MOST_BYTES), read_sheet, None
    yield texts_of_size(MOST_BYTES + 1), read_sheet, ("TooLarge", 1)
    most = MOST_OBJECTS
    yield v + NET * most, read_sheet, None
    yield v + NET * most + b"N \xff\n", read_sheet, ("TooLarge", most + 2)
    yield v + NET * most + b"]\n", read_sheet, ("StrayBracket", most + 2)
    yield v + EMBEDDED + NET * most + b"C\n", read_sheet, ("TooLarge", most + 4)
    yield v + NET * most + b"C\n", read_symbol, ("TooLarge", most + 2)
