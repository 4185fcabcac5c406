#!/usr/bin/env python3
"""Job files for the office: from readable text or from a table of corners, and back.

    python3 tools/jobfile.py from-text orchard.txt > orchard.job
    python3 tools/jobfile.py from-csv 3 orchard.csv > orchard.job        3 is the code of the field's system
    python3 tools/jobfile.py to-text orchard.job > orchard.txt
    python3 tools/jobfile.py to-csv orchard.job > orchard.csv

The text is that of examples/make_job.py, which says how it is written. A table is CSV with a header: the columns X_mm and Y_mm (whole millimetres) or X_m and
Y_m (metres, three digits after the point at most), X north and Y east, and if wanted a column `kind` with `corner` or `nozzle` in it; without it each row is a
corner. Columns may be parted by commas or by semicolons, and with semicolons a decimal comma is taken too. A table is one field: its corners, then its
nozzles. Only form is checked here; the field program judges the content. Assumes Python 3.9 or newer and its standard library.
"""

import csv
import io
import struct
import sys
from pathlib import Path

sys.path.insert(0, str(Path(__file__).resolve().parent.parent / "examples"))
import make_job

BEGIN, CORNER, CLOSE, NOZZLE, POINT = 1, 2, 3, 4, 5
BODY = {BEGIN: "<B", CORNER: "<2q", CLOSE: "<", NOZZLE: "<2q", POINT: "<B2q"}
WORD = {BEGIN: "field", CORNER: "corner", CLOSE: "close", NOZZLE: "nozzle", POINT: "point"}


class Unreadable(Exception):
    """The input is not of the form that is asked for; the text says where."""


# ---- a job file as records


def records(file):
    """The records of a job file: for each its offset, its kind and its numbers. Stops with Unreadable at an unknown kind and at a body that is cut off."""
    found, offset = [], 0
    while offset < len(file):
        kind = file[offset]
        if kind not in BODY:
            raise Unreadable("at %d: no record is of kind %d" % (offset, kind))
        end = offset + 1 + struct.calcsize(BODY[kind])
        if end > len(file):
            raise Unreadable("at %d: the record is cut off" % offset)
        found.append((offset, kind, struct.unpack(BODY[kind], file[offset + 1 : end])))
        offset = end
    return found


def packed(kind, *numbers):
    return bytes((kind,)) + struct.pack(BODY[kind], *numbers)


def from_text(text):
    return make_job.job(text)


def to_text(file):
    """The text that `from_text` turns into the same file."""
    return "".join(" ".join([WORD[kind], *map(str, numbers)]) + "\n" for _, kind, numbers in records(file))


# ---- a table of corners and nozzles


def millimetres(text, unit, row):
    try:
        return make_job.length(text.strip() + "m") if unit == "m" else int(text)
    except ValueError:
        raise Unreadable("row %d: %s is no whole number of millimetres" % (row, text.strip()))


def unit_of(header):
    for unit in ("mm", "m"):
        if "X_" + unit in header and "Y_" + unit in header:
            return unit
    raise Unreadable("the header has no columns X_mm and Y_mm, or X_m and Y_m")


def table(text):
    """The rows of a table: the row's number, its kind, X and Y in millimetres."""
    lines = text.lstrip("\ufeff").splitlines()
    separator = ";" if lines and ";" in lines[0] else ","
    reader = csv.DictReader(lines, delimiter=separator, skipinitialspace=True)
    unit = unit_of(reader.fieldnames or [])
    found = []
    for row in reader:
        X, Y = (row["%s_%s" % (axis, unit)] or "" for axis in "XY")
        if separator == ";":
            X, Y = X.replace(",", "."), Y.replace(",", ".")
        kind = (row.get("kind") or "corner").strip()
        if kind not in ("corner", "nozzle"):
            raise Unreadable("row %d: %s is neither corner nor nozzle" % (reader.line_num, kind))
        found.append((reader.line_num, kind, millimetres(X, unit, reader.line_num), millimetres(Y, unit, reader.line_num)))
    return found


def from_csv(code, text):
    """One field with its nozzles. A table that repeats its first corner at the end, as other programs write it, is not taken: a job's ring closes itself."""
    rows = table(text)
    corners = [(X, Y) for _, kind, X, Y in rows if kind == "corner"]
    nozzles = [(X, Y) for _, kind, X, Y in rows if kind == "nozzle"]
    if len(corners) > 1 and corners[0] == corners[-1]:
        raise Unreadable("the last corner repeats the first: leave it out, the ring closes itself")
    if not 0 <= code <= 255:
        raise Unreadable("%d is no code of a system" % code)
    ring = b"".join(packed(CORNER, *corner) for corner in corners)
    return packed(BEGIN, code) + ring + packed(CLOSE) + b"".join(packed(NOZZLE, *nozzle) for nozzle in nozzles)


def to_csv(file):
    """The table of a job that is one field; other jobs are for `to_text`."""
    kinds = [kind for _, kind, _ in records(file)]
    if kinds.count(BEGIN) != 1 or POINT in kinds:
        raise Unreadable("a table is one field with its nozzles: use to-text for this job")
    out = io.StringIO()
    writer = csv.writer(out, lineterminator="\n")
    writer.writerow(("kind", "X_mm", "Y_mm"))
    writer.writerows((WORD[kind], *numbers) for _, kind, numbers in records(file) if kind in (CORNER, NOZZLE))
    return out.getvalue()


def main(words):
    if len(words) == 2 and words[0] == "from-text":
        return from_text(Path(words[1]).read_text(encoding="utf-8"))
    if len(words) == 3 and words[0] == "from-csv" and words[1].isdigit():
        return from_csv(int(words[1]), Path(words[2]).read_text(encoding="utf-8"))
    if len(words) == 2 and words[0] == "to-text":
        return to_text(Path(words[1]).read_bytes()).encode()
    if len(words) == 2 and words[0] == "to-csv":
        return to_csv(Path(words[1]).read_bytes()).encode()
    raise Unreadable(__doc__)


if __name__ == "__main__":
    try:
        sys.stdout.buffer.write(main(sys.argv[1:]))
    except Unreadable as wrong:
        sys.exit(str(wrong))
