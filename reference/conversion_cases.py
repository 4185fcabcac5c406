"""Maker of the ring conversion vectors: whole rings from one system to another, with refusals at every place, from a fixed seed.

    python3 reference/conversion_cases.py crates/conversion_vectors

writes `stdin` and `stdout` of that test program. A case is: the two codes, the expected refusal (0 for none), the length of the list, the room of the output, the
list, and what each place of the output has to hold after the call. Every number is 8 bytes, signed, little-endian. Before the call place k of the output holds
k + 1. Corners are kept away from ties, so that every place is exact. Assumes Python 3.9 or newer and its standard library.
"""

import random
import struct
import sys
from collections import Counter
from pathlib import Path

import point_cases
import projection
from systems import DEGREE, SYSTEMS

LOW, HIGH = -(2**63), 2**63 - 1
EDGE = projection.LARGEST_NUMBER
SPAN = projection.LARGEST_SPAN


def firm(source, target, X, Y):
    """The corner's answer is exact: taken, and not near a tie or a limit."""
    case = point_cases.plane_case(source, target, X, Y)
    return case is not None and case[1] == 0


def refused(source, target, X, Y):
    case = point_cases.plane_case(source, target, X, Y)
    return case is not None and case[1] not in (0, point_cases.NEAR_A_TIE)


def shared_point(rng, source, target):
    """A point of both zones, or nothing where they share no more than a meridian."""
    low, high = point_cases.common_meridians(source, target)
    if high - low < DEGREE // 6:
        return None
    return point_cases.in_millimetres(source, rng.randint(49 * DEGREE, 55 * DEGREE), rng.randint(low + DEGREE // 20, high - DEGREE // 20))


def ring_about(rng, source, target, corners, radius=400_000):
    """Corners within a few hundred metres of a point of both zones, each of them exact."""
    X, Y = shared_point(rng, source, target)
    found = []
    while len(found) < corners:
        corner = (X + rng.randint(-radius, radius), Y + rng.randint(-radius, radius))
        if firm(source.code, target.code, *corner):
            found.append(corner)
    return [number for corner in found for number in corner]


def pairs():
    for source in SYSTEMS.values():
        for target in SYSTEMS.values():
            low, high = point_cases.common_meridians(source, target)
            if source.ellipsoid is target.ellipsoid and high - low >= DEGREE // 6:
                yield source, target


def taken(rng):
    """Every pair of systems that share a zone, equal ones too; room as needed, and more."""
    for source, target in pairs():
        for extra in (0, rng.choice((1, 2, 7))):
            numbers = ring_about(rng, source, target, rng.choice((3, 4, 5, 9)))
            yield source.code, target.code, numbers, len(numbers) + extra
    numbers = ring_about(rng, SYSTEMS[1], SYSTEMS[3], 1024)
    yield 1, 3, numbers, 2048
    yield 1, 3, numbers, 2047
    yield 1, 3, numbers[:2046], 2048


def bad_corner(rng):
    """One corner outside the zone, the latitudes or the box, at the first, a middle and the last place: the output stays as it was."""
    for source, target in list(pairs())[::3]:
        numbers = ring_about(rng, source, target, 6)
        X, Y = numbers[0], numbers[1]
        for far in ((X, Y + SPAN - 900_000), (X, Y - SPAN + 900_000), (X + SPAN - 900_000, Y), (X - SPAN + 900_000, Y)):
            if not refused(source.code, target.code, *far):
                continue
            for place in (0, 3, 5):
                changed = list(numbers)
                changed[2 * place : 2 * place + 2] = far
                yield source.code, target.code, changed, len(changed) + rng.randint(0, 2)


def near_the_edge(rng):
    """Rings that straddle the 48th parallel, the 56th, or the edge of a zone: 2 or 3 at some corner, and the first wins."""
    for code in (1, 2, 7, 8, 13, 14):
        system = SYSTEMS[code]
        for B, L in ((48 * DEGREE, system.L0), (56 * DEGREE, system.L0), (52 * DEGREE, system.L0 + system.half_width), (52 * DEGREE, system.L0 - system.half_width)):
            X, Y = point_cases.in_millimetres(system, B, L)
            for _ in range(2):
                corners = [(X + rng.randint(-5000, 5000), Y + rng.randint(-5000, 5000)) for _ in range(5)]
                if all(firm(code, code, *corner) or refused(code, code, *corner) for corner in corners):
                    yield code, code, [number for corner in corners for number in corner], 10


def at_the_box(rng):
    """4 at a corner past the box, 3 at one inside it and past the zone: whichever comes first."""
    for code in (1, 6, 9):
        system = SYSTEMS[code]
        (_, _), (west, east) = point_cases.box_limits(system)
        X, _ = point_cases.in_millimetres(system, 52 * DEGREE, system.L0)
        for side, out in ((west, -1), (east, 1)):
            corners = [(X, side), (X + 900, side + out), (X - 900, side - out * 5000)]
            for turn in range(3):
                turned = corners[turn:] + corners[:turn]
                if all(refused(code, code, *corner) for corner in turned):
                    yield code, code, [number for corner in turned for number in corner], 6


def by_numbers(rng):
    """1, 5, 6, 7, 8, 14 in this order, each with the later ones beside it."""
    numbers = ring_about(rng, SYSTEMS[1], SYSTEMS[4], 4)
    for source, target in ((0, 1), (1, 0), (15, 16), (255, 1), (1, 255), (1, 8), (14, 7), (0, 8)):
        yield source, target, numbers, 8
        yield source, target, [EDGE + 1] * 3, 0
    for length in range(0, 6):
        yield 1, 4, numbers[:length], 8
    yield 1, 4, numbers[:7], 8
    yield 1, 4, (numbers * 257)[:2050], 2051
    for room in range(0, 8):
        yield 1, 4, numbers, room
    for number in (EDGE + 1, -EDGE - 1, LOW, HIGH):
        for place in (0, 5, 7):
            changed = list(numbers)
            changed[place] = number
            yield 1, 4, changed, 8
            yield 1, 4, changed, 3
    for d in (SPAN, SPAN + 1, -SPAN - 1):
        for place in (2, 7):
            changed = list(numbers)
            changed[place] = changed[place % 2] + d
            yield 1, 4, changed, 8
            yield 1, 4, changed, 7


GROUPS = [taken, bad_corner, near_the_edge, at_the_box, by_numbers]


def main(folder):
    written, lines, answers = bytearray(), [], Counter()
    for group in GROUPS:
        rng = random.Random("conversions " + group.__name__)
        for source, target, numbers, room in group(rng):
            before = [k + 1 for k in range(room)]
            refusal, after = projection.ring_conversion(source, target, numbers, before)
            written += struct.pack("<%dq" % (5 + len(numbers) + room), source, target, refusal, len(numbers), room, *numbers, *after)
            verdict = "refused %d" % refusal if refusal else "converted"
            answers[verdict] += 1
            lines.append("%d %s places %d wrong 0\n" % (len(lines) + 1, verdict, room))
    (folder / "stdin").write_bytes(written)
    (folder / "stdout").write_text("".join(lines))
    print("%d cases, %d bytes" % (len(lines), len(written)), dict(answers))


if __name__ == "__main__":
    main(Path(sys.argv[1]))
