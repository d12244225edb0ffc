"""Sheets of components with attributes under few names and under many, and tables to be filled into
them: `tables`.
"""
import csv
import io

import paths
from drawing import component
from part_shapes import ONE, sheet, spots

SHEET, TABLE = "x.sch", "x.csv"


def attributes(count, names, each):
    """What components have under so many names: a value for each, which go round."""
    for number in range(count):
        first = number * each
        yield {f"name{(first + place) % names}": str(number % 7) for place in range(each)}


def drawn(rows):
    """The files of a sheet whose components have these attributes."""
    parts = (component("one.sym", x, y, *(f"{name}={value}" for name, value in row.items()))
             for (_, x, y), row in zip(spots(len(rows)), rows))
    return {"one.sym": ONE, SHEET: sheet(parts)}


def table(rows, changed):
    """Their table, in which the values under the changed names are others."""
    names = sorted({name for row in rows for name in row})
    text = io.StringIO()
    writer = csv.writer(text, lineterminator="\n")
    writer.writerow(["id", *names])
    for number, row in enumerate(rows):
        values = {it: f"{value}{'k' * (it in changed)}" for it, value in row.items()}
        writer.writerow([number, *(values.get(name, "") for name in names)])
    return text.getvalue()


def name_of(shape):
    count, names, each = shape
    return f"components {count:,}, names {names:,}, attributes {each}"


def tables(count, names, each):
    """The tables that are filled into a sheet of so many components, of so many names, with so many
    attributes on each: what a table changes, the files, and how many components change. The first
    is the sheet's own table."""
    rows = list(attributes(count, names, each))
    files, every = drawn(rows), {name for row in rows for name in row}
    for what, changed in (("own", set()), ("one column", {"name0"}), ("all", every)):
        texts = {**files, TABLE: table(rows, changed)}
        data = {name: text.encode() for name, text in texts.items()}
        yield what, data, sum(not changed.isdisjoint(row) for row in rows)


# Few names and many, each on all components; many of which each component has some, or one of its
# own; and one component with many.
SHAPES = [
    (1_000, 1, 1), (1_000, 4, 4), (1_000, 16, 16), (1_000, 64, 64),
    (10_000, 1, 1), (10_000, 4, 4), (10_000, 64, 4), (1_000, 1_000, 1),
    (1, 50, 50), (1, 200, 200), (1, 800, 800),
]
