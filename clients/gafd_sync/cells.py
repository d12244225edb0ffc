"""Tables as spreadsheets write them: how fields are parted, and cells that were spelled anew."""
import csv
import io
import re

NUMBER = re.compile(r"([+-]?)(\d+[.,]?\d*|[.,]\d+)([eE][+-]?\d+)?(%?)")
# As English and German have them.
MONTH = "(?:Jan|Feb|Mar|Mrz|Apr|May|Mai|Jun|Jul|Aug|Sep|Oct|Okt|Nov|Dec|Dez)[a-z]*"
# A day of a year, the year in front or behind; a day of a month by name; a month of a year; a time.
DATE = re.compile(
    r"\d{4}[-/.]\d{1,2}[-/.]\d{1,2}|\d{1,2}[-/.]\d{1,2}[-/.](?:\d{2}|\d{4})"
    rf"|\d{{1,2}}[-. /]+{MONTH}(?:[-. /]+\d{{2,4}})?|{MONTH}[-. /]+\d{{1,4}}"
    r"|\d{1,2}:\d{2}:\d{2}(?: [AP]M)?",
    re.IGNORECASE,
)
# The digits that a spreadsheet keeps of a number, and those that it shows of one with an exponent.
KEPT, SHOWN = 15, 6


def records_of(text):
    """The records of CSV; empty lines are none. Fields are parted by what stands behind the first
    name of the first line: a comma, a semicolon or a tab."""
    first = re.match(r'"?(?:sheet|id)"?([;\t])', text)
    lines = csv.reader(io.StringIO(text, newline=""), delimiter=first[1] if first else ",")
    return [fields for fields in lines if fields]


def text_of(records):
    """Records as CSV with commas."""
    out = io.StringIO(newline="")
    csv.writer(out, lineterminator="\n").writerows(records)
    return out.getvalue()


def number_of(cell):
    """The number that a cell is, how many digits it shows, and whether by an exponent; or None."""
    found = NUMBER.fullmatch(cell)
    if not found:
        return None
    digits = found[2].replace(",", ".")
    number = float(found[1] + digits + (found[3] or "")) / (100 if found[4] else 1)
    return number, len(digits.replace(".", "").strip("0")), bool(found[3])


def is_same_number(old, new):
    """Whether both are one number, up to the digits that a spreadsheet keeps or shows."""
    was, now = number_of(old), number_of(new)
    if not was or not now:
        return False
    number, count, has_exponent = now
    if was[0] == number:
        return True
    is_cut = KEPT <= count or has_exponent and SHOWN <= count
    return is_cut and float(f"{was[0]:.{count - 1}e}") == number


def is_date_of(old, new):
    """Whether the one is a date, and the other none, but has a number of it."""
    if DATE.fullmatch(old) or not DATE.fullmatch(new):
        return False
    was, now = ({int(digits) for digits in re.findall("[0-9]+", cell)} for cell in (old, new))
    return bool(was & now)


def is_respelled(old, new):
    """Whether a spreadsheet may have made this of a cell: the same number in other letters, or a
    date where there was none."""
    return old != new and (is_same_number(old, new) or is_date_of(old, new))
