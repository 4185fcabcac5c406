#!/usr/bin/env python3
"""Makes a job file from readable text.

    python3 examples/make_job.py examples/orchard.txt > orchard.job

A line is one record; `#` starts a comment, and an empty line is passed over:

    field CODE            begin a field in the system CODE
    corner X Y            a corner, X north and Y east
    close                 close the ring
    nozzle X Y            ask for a nozzle
    point CODE B L        latitude and longitude to the plane of the system CODE

X and Y are whole millimetres, or metres with the ending m (5807412.350m). B and L are whole ticks, or degrees:minutes:seconds (52:13:56.123456), where the
seconds have six digits after the point at most. Nothing is checked against the rules: a text may make a job file that the field program refuses.
Assumes Python 3.9 or newer and its standard library.
"""

import struct
import sys
from fractions import Fraction

TICKS_IN_SECOND = 1_000_000


def whole(number, text):
    if number.denominator != 1:
        raise ValueError("%s is no whole number of its unit" % text)
    return int(number)


def length(text):
    return whole(Fraction(text[:-1]) * 1000, text) if text.endswith("m") else int(text)


def angle(text):
    if ":" not in text:
        return int(text)
    sign = -1 if text.startswith("-") else 1
    degrees, minutes, seconds = (Fraction(part) for part in text.lstrip("-").split(":"))
    return sign * whole(((degrees * 60 + minutes) * 60 + seconds) * TICKS_IN_SECOND, text)


def record(words):
    kind, rest = words[0], words[1:]
    if kind == "field" and len(rest) == 1:
        return struct.pack("<BB", 1, int(rest[0]))
    if kind in ("corner", "nozzle") and len(rest) == 2:
        return struct.pack("<B2q", 2 if kind == "corner" else 4, length(rest[0]), length(rest[1]))
    if kind == "close" and not rest:
        return struct.pack("<B", 3)
    if kind == "point" and len(rest) == 3:
        return struct.pack("<BB2q", 5, int(rest[0]), angle(rest[1]), angle(rest[2]))
    raise ValueError("no record is written so")


def job(text):
    records = []
    for number, line in enumerate(text.splitlines(), 1):
        words = line.split("#")[0].split()
        if words:
            try:
                records.append(record(words))
            except (ValueError, struct.error) as wrong:
                raise SystemExit("line %d: %s: %s" % (number, line.strip(), wrong))
    return b"".join(records)


if __name__ == "__main__":
    with open(sys.argv[1], encoding="utf-8") as source:
        sys.stdout.buffer.write(job(source.read()))
