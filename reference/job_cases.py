"""Maker of the job files for the test program over many files, from a fixed seed, with what the field program has to print for each.

    python3 reference/job_cases.py crates/job_files

writes the files to `data/jobs/`, their names to `args`, and to `stdout` for each file its name and then its output by job.py. Files with a point near a tie
are left out. Assumes Python 3.9 or newer and its standard library.
"""

import random
import shutil
import sys
from collections import Counter
from decimal import Decimal
from pathlib import Path

import job
import projection
import ring_cases
import rings
from systems import DEGREE, SYSTEMS

LOW, HIGH = -(2**63), 2**63 - 1
EDGE = rings.LARGEST_NUMBER
SPAN = rings.LARGEST_SPAN
SQUARE = ring_cases.SQUARE
ACCEPTED = job.field(1, SQUARE)
OPEN = job.begin(2) + job.corner(0, 0) + job.corner(5, 0)
POINT = job.point(1, 52 * DEGREE + 4321, 19 * DEGREE - 98765)
WHOLE = {
    "begin": job.begin(14), "corner": job.corner(-3, 7), "close": job.close(), "query": job.query(500, -500), "point": POINT,
}
# What may come before the record that is tried: nothing, a point, a field being gathered, an accepted field, two of them
BEFORE = {
    "none": b"", "point": POINT, "open": OPEN, "accepted": ACCEPTED, "second": ACCEPTED + job.query(1, 1) + job.field(3, ring_cases.HOUSE),
}


def examples(rng):
    square, bow = job.worked()
    yield "empty", b""
    yield "square", square
    yield "bow-tie", bow


def unknown_kinds(rng):
    for name, before in BEFORE.items():
        for kind in (0, 6, 7, 9, 49, 127, 128, 255):
            yield "kind-%d-after-%s" % (kind, name), before + bytes((kind,)) + rng.randbytes(rng.choice((0, 1, 17)))


def cut_off(rng):
    """Every length of every record but its own, in its place and out of it: 12 comes before 13."""
    for name, before in BEFORE.items():
        for kind, record in WHOLE.items():
            for length in range(1, len(record)):
                if name in ("none", "open", "accepted") or length in (1, len(record) - 1):
                    yield "cut-%s-%d-after-%s" % (kind, length, name), before + record[:length]


def out_of_place(rng):
    """Every kind in every place, right or wrong, alone and with more after it."""
    for name, before in BEFORE.items():
        for kind, record in WHOLE.items():
            yield "%s-after-%s" % (kind, name), before + record
            yield "%s-after-%s-more" % (kind, name), before + record + job.query(2, 2) + POINT


def codes(rng):
    for code in list(range(0, 18)) + [128, 255]:
        yield "begin-code-%d" % code, job.field(code, ring_cases.HOUSE) + job.query(2, 2)
        yield "point-code-%d" % code, job.point(code, 51 * DEGREE, (SYSTEMS[code].L0 if code in SYSTEMS else 0) + 12_345)
    yield "code-0-while-gathering", OPEN + job.begin(0)
    yield "code-0-after-accepted", ACCEPTED + job.begin(0)


def corner_numbers(rng):
    """7 at the corner's own record, and 6 before it at the 1,025th corner."""
    for k, number in enumerate((EDGE, -EDGE, EDGE + 1, -EDGE - 1, LOW, HIGH)):
        yield "number-x-%d" % k, OPEN + job.corner(number, 0) + job.close()
        yield "number-y-%d" % k, OPEN + job.corner(3, number) + job.corner(3, 3) + job.close()
        yield "number-both-%d" % k, job.begin(5) + job.corner(number, -number if number != LOW else number)
    for dx, dy in ((SPAN, 0), (SPAN + 1, 0), (0, SPAN), (0, -SPAN - 1), (-SPAN, SPAN)):
        corners = [(0, 0), (dx, dy), (7, 11)]
        yield "span-%d-%d" % (dx, dy), job.field(9, corners) + job.query(1, 1)
    yield "span-before-crossed", job.field(1, [(0, 0), (SPAN + 1, 5), (SPAN + 1, 0), (0, 5)])


def closings(rng):
    for count in range(0, 5):
        corners = ring_cases.HOUSE[:count]
        yield "corners-%d" % count, job.field(4, corners) + job.query(1, 1)
        yield "corners-%d-second" % count, ACCEPTED + job.field(4, corners) + job.query(1, 1)
    for count in (0, 1, 2, 3, 9):
        yield "ends-gathering-%d" % count, job.begin(7) + b"".join(job.corner(k, k * k) for k in range(count))
    for k in range(40):
        corners = [(rng.randint(0, 3), rng.randint(0, 3)) for _ in range(rng.choice((3, 4, 4, 5, 6)))]
        yield "small-%d" % k, POINT + job.field(rng.randint(1, 14), corners) + job.query(rng.randint(0, 3), rng.randint(0, 3))


def queries(rng):
    for k, shape in enumerate(ring_cases.SHAPES + [shape[::-1] for shape in ring_cases.SHAPES]):
        if rings.first_crossed(shape) is None:
            asked = list(ring_cases.beside(rng, shape, 12)) + ring_cases.far(shape)[:: 1 + k % 3]
            yield "queries-%d" % k, job.field(1 + k, shape) + b"".join(job.query(X, Y) for X, Y in asked)
    one, two = ring_cases.moved(SQUARE, -500, -500), ring_cases.moved(ring_cases.HOUSE, EDGE - 10, 10 - EDGE)
    yield "later-begin-drops", job.field(1, one) + job.query(0, 0) + job.begin(2) + job.query(0, 0)
    yield "later-field-answers", job.field(1, one) + job.query(2, 3) + job.field(2, two) + job.query(2, 3) + job.query(EDGE - 8, 12 - EDGE)
    yield "refused-field-drops", job.field(1, one) + job.field(2, ring_cases.BOW) + job.query(0, 0)
    yield "many-fields", b"".join(job.field(k, ring_cases.moved(SQUARE, k, -k)) + job.query(k, 0) for k in range(1, 15)) + POINT


def firm(record):
    """No answer of the record lies near a tie."""
    return job.run(record)[1]


def drawn(rng, system):
    """A point with no value near a tie, its scale taken before m0: so what is drawn does not turn on m0, and the files stay as they are where m0 is put elsewhere."""
    while True:
        d = rng.randint(-system.half_width, system.half_width)
        B, L = rng.randint(48 * DEGREE, 56 * DEGREE), system.L0 + d
        X, Y, scale, convergence = projection.forward_raw(system, B, L)
        if not any(job.near_a_tie(value) for value in (X, Y, scale / Decimal(system.m0), convergence)):
            return job.point(system.code, B, L)


def any_point(rng, system):
    """A point that is firm; one that is not is drawn again from a stream of its own, so that those after it stay."""
    record = drawn(rng, system)
    return record if firm(record) else any_point(random.Random(record), system)


def points(rng):
    low, high = 48 * DEGREE, 56 * DEGREE
    for system in SYSTEMS.values():
        code, width = system.code, system.half_width
        edges = [job.point(code, B, system.L0 + d) for B, d in ((low, 0), (high, width), (low, -width), (high, -width), (52 * DEGREE, 0))]
        yield "points-%d" % code, b"".join([record for record in edges if firm(record)] + [any_point(rng, system) for _ in range(5)])
        bad = rng.choice(((low - 1, 0), (high + 1, 0), (low, width + 1), (high, -width - 1), (low - 1, width + 1), (LOW, HIGH), (HIGH, LOW), (low, LOW)))
        L = min(HIGH, max(LOW, system.L0 + bad[1]))
        yield "points-refused-%d" % code, any_point(rng, system) + job.point(code, bad[0], L) + any_point(rng, system)
    yield "point-then-field", POINT + ACCEPTED + POINT + job.query(3, 4) + POINT


def large(rng):
    """1,024 corners and one more, the 1,025th bad or not; a file longer than the program's buffer."""
    ring = ring_cases.convex(256)
    yield "corners-1024", job.field(1, ring) + b"".join(job.query(X, Y) for X, Y in ring_cases.beside(rng, ring, 6))
    yield "corners-1024-crossed", job.field(1, ring[:1021] + [ring[1022], ring[1021], ring[1023]])
    yield "corners-1025", job.begin(1) + b"".join(job.corner(X, Y) for X, Y in ring + [(1, 1)]) + job.close()
    yield "corners-1025-bad", job.begin(1) + b"".join(job.corner(X, Y) for X, Y in ring + [(EDGE + 1, 1)])
    yield "corners-1025-cut", job.begin(1) + b"".join(job.corner(X, Y) for X, Y in ring + [(1, 1)])[:-1]
    yield "ends-gathering-1024", job.begin(1) + b"".join(job.corner(X, Y) for X, Y in ring)
    asked = [(rng.randint(-100, 1100), rng.randint(-100, 1100)) for _ in range(4000)]
    yield "long", ACCEPTED + b"".join(job.query(X, Y) for X, Y in asked)
    yield "long-cut", ACCEPTED + b"".join(job.query(X, Y) for X, Y in asked[:1000]) + b"\4" + bytes(15)


def sequence(rng):
    """A valid job at random."""
    parts, accepted = [], False
    for _ in range(rng.randint(1, 8)):
        choice = rng.choice(("field", "point", "query", "query"))
        if choice == "field" or (choice == "query" and not accepted):
            shape = rng.choice([shape for shape in ring_cases.SHAPES if shape is not ring_cases.BOW])
            parts.append(job.field(rng.randint(1, 14), ring_cases.moved(shape, rng.randint(-999, 999), rng.randint(-(10**9), 10**9))))
            accepted = True
        elif choice == "query":
            parts.append(job.query(rng.randint(-2000, 2000), rng.randint(-2000, 2000)))
        else:
            parts.append(any_point(rng, SYSTEMS[rng.randint(1, 14)]))
    return b"".join(parts)


def at_random(rng):
    for k in range(40):
        yield "valid-%d" % k, sequence(rng)
    for k in range(50):
        file = bytearray(sequence(rng))
        for _ in range(rng.choice((1, 1, 2))):
            file[rng.randrange(len(file))] = rng.choice((0, 1, 2, 3, 4, 5, 6, 255, rng.randrange(256)))
        yield "changed-%d" % k, bytes(file)
    for k in range(30):
        file = sequence(rng)
        yield "shortened-%d" % k, file[: rng.randrange(len(file))]
    for k in range(30):
        yield "random-%d" % k, bytes(rng.choice((1, 2, 3, 4, 5, rng.randrange(256))) for _ in range(rng.randint(1, 60)))


GROUPS = [examples, unknown_kinds, cut_off, out_of_place, codes, corner_numbers, closings, queries, points, large, at_random]


def main(folder):
    jobs = folder / "data" / "jobs"
    shutil.rmtree(jobs, ignore_errors=True)
    jobs.mkdir(parents=True)
    names, said, left_out, ends = [], [], 0, Counter()
    for group in GROUPS:
        for name, file in group(random.Random("jobs " + group.__name__)):
            output, certain = job.run(file)
            if not certain:
                left_out += 1
                continue
            assert name not in names
            (jobs / name).write_bytes(file)
            names.append(name)
            said.append(b"job jobs/%s\n" % name.encode() + output)
            ends[" ".join(output.decode().splitlines()[-1].split()[: 2 if output.splitlines()[-1].startswith(b"refused") else 1])] += 1
    (folder / "args").write_text("".join("jobs/%s\n" % name for name in names))
    (folder / "stdout").write_bytes(b"".join(said))
    print("%d job files, %d bytes, %d bytes out, %d left out as near a tie" % (
        len(names), sum(path.stat().st_size for path in jobs.iterdir()), sum(map(len, said)), left_out))
    print(dict(ends))


if __name__ == "__main__":
    main(Path(sys.argv[1]))
