"""Tables of attributes over a server: what a spreadsheet changes becomes edits."""
import csv
import io
import os
import unittest
from unittest import mock

from gafd_sync.cells import is_respelled
from laboratory import Laboratory
from served import program


class TableTest(Laboratory):
    def setUp(self):
        super().setUp()
        patch = mock.patch.dict(os.environ, {"GAFD": program()})
        patch.start()
        self.addCleanup(patch.stop)
        self.both_start()

    def table(self, who, *sheets):
        """The table as it goes out, and its records by refdes."""
        status, text = who("table", *sheets)
        self.assertEqual(status, 0, text)
        rows = list(csv.DictReader(io.StringIO(text, newline="")))
        return text, {row["refdes"]: row for row in rows if row.get("refdes")}

    def fills(self, who, *rows):
        """Fills a table of a head and records into the board of the last table."""
        who.path("t.csv").write_bytes("".join(row + "\n" for row in rows).encode())
        return who("fill", "t.csv")

    def place(self, row):
        return f"{row['sheet']},{row['id']}"

    def test_all_components_of_all_sheets_are_in_one_table(self):
        self.ann.path("b.sch").write_text(
            "v 20130925 2\nN 0 0 9 0 4\nC 0 0 1 0 0 res.sym\n{\nT 0 0 5 10 1 1 0 0 1\nmaker=A, B\n}\n"
        )
        self.assertEqual(self.ann("push", "b.sch")[0], 0)
        text, rows = self.table(self.ann)
        self.assertTrue(text.startswith("sheet,id,"), text)
        self.assertEqual(rows["R3"]["value"], "1k")
        last = list(csv.DictReader(io.StringIO(text, newline="")))[-1]
        self.assertEqual((last["sheet"], last["maker"]), ("b.sch", "A, B"))
        ids = self.ann("ids", "b.sch")[1].split()
        self.assertIn(last["id"], ids)
        alone, _ = self.table(self.ann, "b.sch")
        self.assertEqual(alone, f'sheet,id,maker\nb.sch,{last["id"]},"A, B"\n')

    def test_a_table_that_comes_twice_acts_once(self):
        _, rows = self.table(self.ann)
        lines = ["sheet,id,value,tolerance", self.place(rows["R3"]) + ",2k2,1%"]
        lines.append(self.place(rows["C1"]) + ",,")
        status, said = self.fills(self.ann, *lines)
        self.assertEqual((status, self.kinds(said)), (0, ["replace"]), said)
        self.assertIn("filled 1", said)
        front = self.rows()
        self.assertEqual(self.fills(self.ann, *lines), (0, "filled 0\n"))
        self.assertEqual(self.rows(), front)
        self.assertEqual(self.bob("pull")[0], 0)
        text = self.bob.path().read_text()
        self.assertIn("value=2k2\n", text)
        self.assertIn("tolerance=1%\n", text)

    def test_what_others_changed_since_is_told_by_refdes(self):
        _, rows = self.table(self.ann)
        self.bob.draws("value=1k\n", "value=9k\n")
        self.assertEqual(self.bob("push", "preamp.sch")[0], 0)
        front = self.rows()
        lines = ["sheet,id,value"]
        lines += [self.place(rows[refdes]) + ",5k" for refdes in ("R3", "R2")]
        status, said = self.fills(self.ann, *lines)
        self.assertEqual(status, 1)
        self.assertIn("preamp.sch: R3 was changed by others since the table", said)
        self.assertEqual(self.rows(), front)
        # Of a new table both are sent.
        self.table(self.ann)
        status, said = self.fills(self.ann, *lines)
        self.assertEqual((status, self.kinds(said)), (0, ["replace"] * 2), said)

    def test_a_fill_is_taken_back(self):
        before = self.answer("/sheets/preamp.sch")
        _, rows = self.table(self.ann)
        self.assertEqual(self.fills(self.ann, "sheet,id,value", self.place(rows["R3"]) + ",3k")[0], 0)
        self.assertNotEqual(self.answer("/sheets/preamp.sch"), before)
        self.assertEqual(self.ann("undo")[0], 0)
        self.assertEqual(self.answer("/sheets/preamp.sch"), before)

    def test_a_sheet_is_filled_from_its_own_table(self):
        _, rows = self.table(self.ann)
        self.ann.path("t.csv").write_text(f"id,value\n{rows['R3']['id']},7k\n")
        self.assertEqual(self.ann("fill", "t.csv")[0], 1)
        status, said = self.ann("fill", "preamp.sch", "t.csv")
        self.assertEqual((status, self.kinds(said)), (0, ["replace"]), said)
        self.assertIn("value=7k\n", self.answer("/sheets/preamp.sch"))

    def test_a_wrong_record_is_told_with_its_number(self):
        _, rows = self.table(self.ann)
        good = self.place(rows["R3"]) + ",1k"
        front = self.rows()
        wrong = {
            "sheet,id,value\npreamp.sch,99999,1": "t.csv:2: BadId",
            f"sheet,id,value\n{good}\n{good}": "t.csv:3: BadId",
            f"sheet,id,value\n{good}\npreamp.sch": "t.csv:3: BadWidth",
            f"sheet,id,value\n{good}\n{self.place(rows['R2'])}, 1": "t.csv:3: BadValue",
            f"sheet,id,a=b\n{good}": "t.csv:1: BadName",
            f"sheet,place,value\n{good}": "t.csv:1: NoHeader",
            "sheet,id,value\nno.sch,0,1": "t.csv:2: of no.sch no table was made here",
        }
        for lines, line in wrong.items():
            with self.subTest(line, lines=lines):
                status, said = self.fills(self.ann, *lines.split("\n"))
                self.assertEqual(status, 1, said)
                self.assertIn(line, said)
        self.assertEqual(self.rows(), front)

    def test_fields_may_be_parted_by_what_the_first_line_has(self):
        _, rows = self.table(self.ann)
        for at, parter in enumerate(";\t;"):
            lines = ["sheet,id,maker", self.place(rows["R3"]) + f",A{at}"]
            if at == 2:
                lines = ['"sheet","id","maker"', self.place(rows["R3"]) + ',"A, B"']
            lines = [parter.join(line.split(",", 2)) for line in lines]
            status, said = self.fills(self.ann, *lines)
            self.assertEqual((status, self.kinds(said)), (0, ["replace"]), said)
        self.assertIn("maker=A, B\n", self.answer("/sheets/preamp.sch"))
        lines = ["id;value", f"{rows['R3']['id']};7,5k"]
        self.ann.path("t.csv").write_text("\n".join(lines))
        self.assertEqual(self.ann("fill", "preamp.sch", "t.csv")[0], 0)
        self.assertIn("value=7,5k\n", self.answer("/sheets/preamp.sch"))

    def test_a_table_may_lie_in_another_folder(self):
        _, rows = self.table(self.ann)
        path = self.room / "my tables"
        path.mkdir()
        path /= "t 1.csv"
        for place, value in ((path, "3k"), ("../my tables/t 1.csv", "4k")):
            path.write_text(f"sheet,id,value\n{self.place(rows['R3'])},{value}\n")
            status, said = self.ann("fill", str(place))
            self.assertEqual((status, self.kinds(said)), (0, ["replace"]), said)
        path.write_text("sheet,id,value\npreamp.sch,none,1\n")
        self.assertIn(f"{path}:2: BadId", self.ann("fill", str(path))[1])
        self.assertEqual(self.ann("fill", "a", "b", "c")[0], 2)

    def test_what_a_spreadsheet_spelled_anew_is_told_and_not_sent(self):
        _, rows = self.table(self.ann)
        place = self.place(rows["R3"])
        start = f"{place},1e-12,1-2,0603\n"
        self.assertEqual(self.fills(self.ann, "sheet,id,noise,pins,size", start)[0], 0)
        self.table(self.ann)
        front = self.rows()
        lines = ["sheet,id,noise,pins,size,value"]
        lines.append(f"{place},0.000000000001,2026-02-01,603,9k")
        status, said = self.fills(self.ann, *lines)
        for old, new in (("1e-12", "0.000000000001"), ("1-2", "2026-02-01"), ("0603", "603")):
            self.assertIn(f"={old} is {new} now\n", said)
        self.assertIn("preamp.sch: R3: size=0603 is 603 now\n", said)
        self.assertNotIn("9k", said)
        self.assertEqual((status, "nothing was sent" in said, self.rows()), (1, True, front))
        status, said = self.ann("fill", "--all", "t.csv")
        self.assertEqual((status, self.kinds(said)), (0, ["replace"]), said)
        self.assertIn("size=603\n", self.answer("/sheets/preamp.sch"))
        self.assertEqual(self.ann("fill", "t.csv"), (0, "filled 0\n"))

    def test_a_table_of_utf_16_is_named(self):
        _, rows = self.table(self.ann)
        text = f"sheet\tid\tvalue\n{self.place(rows['R3'])}\t1k\n"
        for encoding in ("utf-16", "utf-16-be"):
            data = ("" if encoding == "utf-16" else "\ufeff") + text
            self.ann.path("t.csv").write_bytes(data.encode(encoding))
            status, said = self.ann("fill", "t.csv")
            self.assertEqual((status, "t.csv:1: NotUtf8: it is UTF-16;" in said), (1, True), said)
        self.ann.path("t.csv").write_bytes(b"sheet,id,value\n\xb5")
        self.assertEqual(self.ann("fill", "t.csv"), (1, "gafd_sync: t.csv:2: NotUtf8\n"))


class CellTest(unittest.TestCase):
    def test_numbers_and_dates_of_spreadsheets_are_known(self):
        for old, new in (
            ("1e-12", "0.000000000001"), ("1E3", "1000"), ("0603", "603"), ("10.0", "10"),
            ("0.5", "0,5"), (".5", "0.5"), ("+5", "5"), ("5%", "5.00%"), ("5%", "0.05"),
            ("12345678901234567890", "12345678901234600000"), ("12345678901234", "1.23457E+13"),
            ("1-2", "2026-02-01"), ("1/2", "01/02/26"), ("1.2", "01.02.26"), ("1.2", "1.2.2026"),
            ("1-2", "02-Jan"), ("MAR1", "Mar 01"), ("3/4", "04. Mrz"), ("1:2:3", "01:02:03 AM"),
        ):
            self.assertTrue(is_respelled(old, new), (old, new))

    def test_other_cells_are_what_somebody_wrote(self):
        for old, new in (
            ("10k", "22k"), ("10", "22"), ("10.4", "10"), ("1k", "1000"), ("100n", "0.1u"),
            ("0603", "0805"), ("", "603"), ("603", ""), ("0603", "0603"), ("1:2", "1:10"),
            ("2026-01-02", "2026-02-01"), ("", "2026-02-01"), ("7805", "2026-12-01"),
            ("1.2.2", "1.2.3"), ("10", "10 Ohm"), ("1234567", "1234568"), ("1.5", "1.6E+0"),
        ):
            self.assertFalse(is_respelled(old, new), (old, new))
