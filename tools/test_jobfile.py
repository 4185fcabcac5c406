"""Tests of jobfile.py: python3 -m unittest discover tools. Assumes Python 3.9 or newer and its standard library."""

import struct
import sys
import unittest
from pathlib import Path

sys.path.insert(0, str(Path(__file__).resolve().parent))
import jobfile

EXAMPLES = Path(__file__).resolve().parent.parent / "examples"
SQUARE = [(0, 0), (1000, 0), (1000, 1000), (0, 1000)]
QUERIES = [(500, 500), (0, 500), (1500, 500)]


def job_of_square():
    """Input J of document 01, written by its own words: one byte of kind, codes one byte, other numbers 8 bytes, signed, little-endian."""
    corners = b"".join(b"\x02" + struct.pack("<qq", *corner) for corner in SQUARE)
    return b"\x01\x01" + corners + b"\x03" + b"".join(b"\x04" + struct.pack("<qq", *query) for query in QUERIES)


def rows(points, kind):
    return "".join("%s,%d,%d\n" % (kind, *point) for point in points)


TABLE = "kind,X_mm,Y_mm\n" + rows(SQUARE, "corner") + rows(QUERIES, "nozzle")


class Text(unittest.TestCase):
    def test_square_is_input_J(self):
        file = jobfile.from_text((EXAMPLES / "square.txt").read_text(encoding="utf-8"))
        self.assertEqual(len(file), 122)
        self.assertEqual(file, job_of_square())

    def test_there_and_back(self):
        for text in sorted(EXAMPLES.glob("*.txt")):
            file = jobfile.from_text(text.read_text(encoding="utf-8"))
            self.assertEqual(jobfile.from_text(jobfile.to_text(file)), file, text.name)

    def test_largest_numbers(self):
        text = "field 255\ncorner 9223372036854775807 -9223372036854775808\npoint 14 -1 1\n"
        self.assertEqual(jobfile.to_text(jobfile.from_text(text)), text)

    def test_empty(self):
        self.assertEqual(jobfile.to_text(b""), "")

    def test_unknown_kind_and_cut_body(self):
        for file, place in ((b"\x06", "at 0"), (b"\x00", "at 0"), (b"\x01\x01\x02\x00", "at 2"), (job_of_square()[:-1], "at 105")):
            with self.assertRaisesRegex(jobfile.Unreadable, place):
                jobfile.to_text(file)


class Table(unittest.TestCase):
    def test_square(self):
        self.assertEqual(jobfile.from_csv(1, TABLE), job_of_square())
        self.assertEqual(jobfile.to_csv(job_of_square()), TABLE)

    def test_metres_semicolons_and_decimal_commas(self):
        metres = "X_m;Y_m\n0;0\n1;0\n1,000;1,0\n0;1,0\n"
        self.assertEqual(jobfile.from_csv(1, metres), jobfile.from_csv(1, "X_mm,Y_mm\n0,0\n1000,0\n1000,1000\n0,1000\n"))

    def test_byte_order_mark_and_other_columns(self):
        marked = "\ufeffname, X_m, Y_m\na, 0.000, 0.000\nb, 1.000, 0.000\nc, 1.000, 1.000\n"
        self.assertEqual(jobfile.from_csv(2, marked), jobfile.from_csv(2, "X_mm,Y_mm\n0,0\n1000,0\n1000,1000\n"))

    def test_refused_forms(self):
        for table, says in (
            ("", "header"),
            ("X,Y\n1,2\n", "header"),
            ("X_mm,Y_m\n1,2\n", "header"),
            ("X_m,Y_m\n0.0005,0\n", "row 2"),
            ("X_mm,Y_mm\n1,\n", "row 2"),
            ("X_mm,Y_mm\n1\n", "row 2"),
            ("X_mm,Y_mm\n1.5,2\n", "row 2"),
            ("kind,X_mm,Y_mm\npond,1,2\n", "pond"),
            ("X_mm,Y_mm\n0,0\n1,0\n1,1\n0,0\n", "repeats the first"),
        ):
            with self.assertRaisesRegex(jobfile.Unreadable, says):
                jobfile.from_csv(1, table)

    def test_only_one_field_fits_a_table(self):
        two = jobfile.from_text((EXAMPLES / "two_fields.txt").read_text(encoding="utf-8"))
        for file in (two, b"", jobfile.from_text("point 1 0 0\n") + job_of_square()):
            with self.assertRaisesRegex(jobfile.Unreadable, "to-text"):
                jobfile.to_csv(file)


if __name__ == "__main__":
    unittest.main()
