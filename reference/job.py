"""The job file by document 01: from the bytes of a file to the bytes that the field program prints.

    python3 reference/job.py JOB            prints what the field program has to print

Rings are answered by rings.py and points by projection.py, rounded to the nearest whole number. Near a tie a program may round a point either way; `run` says
so, and the makers keep such files out. Assumes Python 3.9 or newer and its standard library.
"""

import struct
import sys
from decimal import Decimal
from pathlib import Path

import projection
import rings
from systems import SYSTEMS

BODY_LENGTH = {1: 1, 2: 16, 3: 0, 4: 16, 5: 17}
BEGIN, CORNER, CLOSE, QUERY, POINT = 1, 2, 3, 4, 5
TIE_MARGIN = Decimal("0.01")

# Where a job stands: no field, a field being gathered, an accepted field
NONE, GATHERING, ACCEPTED = "none", "gathering", "accepted"
PLACES = {BEGIN: (NONE, ACCEPTED), CORNER: (GATHERING,), CLOSE: (GATHERING,), QUERY: (ACCEPTED,), POINT: (NONE, ACCEPTED)}


def near_a_tie(value):
    return abs(value % 1 - Decimal("0.5")) <= TIE_MARGIN


class Refused(Exception):
    def __init__(self, number, edges=None):
        super().__init__(number)
        self.number, self.edges = number, edges


class Job:
    """One pass over a file. `lines` are those printed so far; `certain` falls where a point lies near a tie."""

    def __init__(self):
        self.place, self.code, self.corners = NONE, None, []
        self.lines, self.certain = [], True

    def take(self, kind, body):
        if self.place not in PLACES[kind]:
            raise Refused(13)
        {BEGIN: self.begin, CORNER: self.corner, CLOSE: self.close, QUERY: self.query, POINT: self.point}[kind](body)

    def begin(self, body):
        if body[0] not in SYSTEMS:
            raise Refused(1)
        self.place, self.code, self.corners = GATHERING, body[0], []

    def corner(self, body):
        X, Y = struct.unpack("<2q", body)
        if len(self.corners) == rings.MOST_CORNERS:
            raise Refused(6)
        if abs(X) > rings.LARGEST_NUMBER or abs(Y) > rings.LARGEST_NUMBER:
            raise Refused(7)
        self.corners.append((X, Y))

    def close(self, _):
        ring = rings.Ring([number for corner in self.corners for number in corner])
        if ring.refusal:
            raise Refused(ring.refusal)
        if ring.pair:
            raise Refused(9, ring.pair)
        self.place = ACCEPTED
        self.lines.append("field %d corners %d area2 %d" % (self.code, len(self.corners), ring.area2))

    def query(self, body):
        X, Y = struct.unpack("<2q", body)
        self.lines.append("nozzle %d %d %s" % (X, Y, rings.position(self.corners, (X, Y))))

    def point(self, body):
        code, B, L = body[0], *struct.unpack("<2q", body[1:])
        refusal, values = projection.forward(code, B, L)
        if refusal:
            raise Refused(refusal)
        self.certain &= not any(near_a_tie(value) for value in values)
        self.lines.append("point %d %d %d %d" % tuple(projection.nearest(value) for value in values))


def record_at(file, offset):
    """The kind and body of the record at an offset: 11 and 12 come before its place is asked."""
    kind = file[offset]
    if kind not in BODY_LENGTH:
        raise Refused(11)
    body = file[offset + 1 : offset + 1 + BODY_LENGTH[kind]]
    if len(body) < BODY_LENGTH[kind]:
        raise Refused(12)
    return kind, body


def run(file):
    """The output's bytes, and whether no point lies near a tie."""
    job, offset, count = Job(), 0, 0
    try:
        while offset < len(file):
            kind, body = record_at(file, offset)
            job.take(kind, body)
            offset, count = offset + 1 + len(body), count + 1
        if job.place == GATHERING:
            raise Refused(13)
        job.lines.append("end %d" % count)
    except Refused as refused:
        edges = " edges %d %d" % refused.edges if refused.edges else ""
        job.lines.append("refused %d at %d%s" % (refused.number, offset, edges))
    return "".join(line + "\n" for line in job.lines).encode(), job.certain


# ---- records as bytes, for the makers


def begin(code):
    return bytes((BEGIN, code))


def corner(X, Y):
    return struct.pack("<B2q", CORNER, X, Y)


def close():
    return bytes((CLOSE,))


def query(X, Y):
    return struct.pack("<B2q", QUERY, X, Y)


def point(code, B, L):
    return struct.pack("<BB2q", POINT, code, B, L)


def field(code, corners):
    return begin(code) + b"".join(corner(X, Y) for X, Y in corners) + close()


def worked():
    """Input J of document 01 and its bow tie."""
    square, bow = ((0, 0), (1000, 0), (1000, 1000), (0, 1000)), ((0, 0), (1000, 1000), (1000, 0), (0, 1000))
    queries = query(500, 500) + query(0, 500) + query(1500, 500)
    file = field(1, square) + queries
    assert len(file) == 122
    said = b"field 1 corners 4 area2 2000000\nnozzle 500 500 open\nnozzle 0 500 border\nnozzle 1500 500 shut\nend 9\n"
    assert run(file) == (said, True)
    assert run(field(1, bow) + queries) == (b"refused 9 at 70 edges 0 2\n", True)
    assert run(b"") == (b"end 0\n", True)
    return file, field(1, bow) + queries


if __name__ == "__main__":
    worked()
    if len(sys.argv) > 1:
        output, certain = run(Path(sys.argv[1]).read_bytes())
        sys.stdout.buffer.write(output)
        if not certain:
            sys.exit("a point lies near a tie: a program may round it the other way")
    else:
        print("job: the examples of document 01 come out as printed")
