"""Maker of the projection vectors: points of every zone with its edges, limits one off each way, the ends of i64 and random points, from a fixed seed.

    python3 reference/point_cases.py forward crates/forward_vectors
    python3 reference/point_cases.py inverse crates/inverse_vectors
    python3 reference/point_cases.py plane crates/plane_vectors

writes `stdin` and `stdout` of that test program. A record is eight numbers of 8 bytes, signed, little-endian: group, three arguments, what is expected, and the
true values in millionths of a unit (forward has four, and packs its code with the group; see `record`). Expected is 0 for an answer, which then has to be the
nearest whole number; 255 for an answer that lies so near a tie that only the band judges it, 0.51 or of ticks 0.6; or the number of a refusal. The output has one line for each
group. Assumes Python 3.9 or newer and its standard library.
"""

import random
import struct
import sys
from decimal import Decimal
from pathlib import Path

import projection
from systems import DEGREE, SYSTEMS

LOW, HIGH = -(2**63), 2**63 - 1
MILLION = 10**6
NEAR_A_TIE = 255
# How near a tie an answer may be rounded either way: far more than the steps of the projection lose.
PLANE_MARGIN, TICK_MARGIN = Decimal("0.005"), Decimal("0.02")
# "the definition leaves these within 0.6 tick of a limit open"
OPEN_MARGIN = Decimal("0.7")
# The bands in millionths: plane answers, scale and convergence, and ticks.
BANDS = {"forward": 510_000, "inverse": 600_000, "plane": 510_000}
OTHER_CODES = (0, 15, 16, 99, 128, 254, 255)


def from_tie(value):
    """How far a value lies from the nearest half."""
    return abs((value % 1 + 1) % 1 - Decimal("0.5"))


def millionths(value):
    return projection.nearest(value * MILLION)


# ---- a case: arguments, what is expected, true values


def forward_case(code, B, L):
    refusal, values = projection.forward(code, B, L)
    if refusal:
        return (code, B, L), refusal, ()
    near = any(from_tie(value) < PLANE_MARGIN for value in values)
    return (code, B, L), NEAR_A_TIE if near else 0, values


def near_a_limit(system, ticks):
    gaps = [abs(ticks[0] - limit) for limit in (projection.LOW_B, projection.HIGH_B)]
    gaps += [abs(abs(ticks[1] - system.L0) - system.half_width)]
    return min(gaps) < OPEN_MARGIN


def inverse_case(code, X, Y):
    """None where the rules leave the verdict open."""
    refusal, ticks = projection.inverse(code, X, Y)
    if ticks and near_a_limit(SYSTEMS[code], ticks):
        return None
    if refusal:
        return (code, X, Y), refusal, ()
    near = any(from_tie(value) < TICK_MARGIN for value in ticks)
    return (code, X, Y), NEAR_A_TIE if near else 0, ticks


def plane_case(source, target, X, Y):
    """None where the ticks between may be rounded either way, or the verdict is open."""
    refusal, ticks, point = projection.plane_to_plane(source, target, X, Y)
    if ticks and (near_a_limit(SYSTEMS[source], ticks) or near_a_limit(SYSTEMS[target], ticks)):
        return None
    if refusal:
        return (source, target, X, Y), refusal, ()
    if source != target and any(from_tie(value) < TICK_MARGIN for value in ticks):
        return None
    near = source != target and any(from_tie(value) < PLANE_MARGIN for value in point)
    return (source, target, X, Y), NEAR_A_TIE if near else 0, point


# ---- points of a zone


def zone_grid(system, steps=8):
    for i in range(steps + 1):
        for j in range(steps + 1):
            yield projection.LOW_B + 8 * DEGREE * i // steps, system.L0 + system.half_width * (2 * j - steps) // steps


def anywhere(rng, system):
    return rng.randint(projection.LOW_B, projection.HIGH_B), system.L0 + rng.randint(-system.half_width, system.half_width)


def in_millimetres(system, B, L):
    X, Y, _, _ = projection.forward_raw(system, B, L)
    return projection.nearest(X), projection.nearest(Y)


def forward_points(rng, system):
    yield from zone_grid(system)
    width, low, high = system.half_width, projection.LOW_B, projection.HIGH_B
    for B in (low, low + 1, high - 1, high):
        for d in (-width, 1 - width, -1, 0, 1, width - 1, width):
            yield B, system.L0 + d
    for B, d in ((low - 1, 0), (high + 1, 0), (low, width + 1), (high, -width - 1), (low - 1, width + 1), (high + 1, -width - 1)):
        yield B, system.L0 + d
    for B in (LOW, -low, 0, 52 * DEGREE, HIGH):
        for L in (LOW, LOW + system.L0, LOW + system.L0 - 1, 0, HIGH):
            yield B, L
    for _ in range(170):
        yield anywhere(rng, system)


def box_limits(system):
    """The least and largest whole millimetres that pass refusal 4, on each axis."""
    m0 = Decimal(system.m0)
    low, high, side = (int(m0 * limit) for limit in (projection.LOW_X, projection.HIGH_X, projection.SIZE_Y))
    assert (low, high, side) == tuple(m0 * limit for limit in (projection.LOW_X, projection.HIGH_X, projection.SIZE_Y))
    return (1000 * system.x0 + low, 1000 * system.x0 + high), (1000 * system.y0 - side, 1000 * system.y0 + side)


def beside_a_limit(system, B, L, step):
    """Millimetre by millimetre over the edge of the zone at B, L in the direction `step`: a few taken, a few refused."""
    X, Y = in_millimetres(system, B, L)
    return [(X + k * step[0], Y + k * step[1]) for k in range(-3, 4)]


def inverse_points(rng, system):
    for B, L in zone_grid(system):
        yield in_millimetres(system, B, L)
    (x_low, x_high), (y_low, y_high) = box_limits(system)
    for i in range(7):
        for j in range(7):
            yield x_low + (x_high - x_low) * i // 6, y_low + (y_high - y_low) * j // 6
    middle = ((x_low + x_high) // 2, (y_low + y_high) // 2)
    for X in (x_low - 1, x_low, x_low + 1, x_high - 1, x_high, x_high + 1):
        yield X, middle[1]
    for Y in (y_low - 1, y_low, y_low + 1, y_high - 1, y_high, y_high + 1):
        yield middle[0], Y
    for X in (LOW, LOW + 1, middle[0], HIGH):
        for Y in (LOW, middle[1], HIGH - 1, HIGH):
            yield X, Y
    for d in (-system.half_width // 2, 0, system.half_width // 3):
        yield from beside_a_limit(system, projection.LOW_B, system.L0 + d, (1, 0))
        yield from beside_a_limit(system, projection.HIGH_B, system.L0 + d, (1, 0))
    for B in (49 * DEGREE, 52 * DEGREE + 1, 55 * DEGREE):
        yield from beside_a_limit(system, B, system.L0 - system.half_width, (0, 1))
        yield from beside_a_limit(system, B, system.L0 + system.half_width, (0, 1))
    for _ in range(130):
        yield in_millimetres(system, *anywhere(rng, system))


def common_meridians(source, target):
    return max(s.L0 - s.half_width for s in (source, target)), min(s.L0 + s.half_width for s in (source, target))


def plane_points(rng, source, target):
    low, high = common_meridians(source, target)
    if high - low > DEGREE // 60:
        for _ in range(14):
            B = rng.choice((rng.randint(projection.LOW_B, projection.HIGH_B), projection.LOW_B + 500, projection.HIGH_B - 500))
            yield in_millimetres(source, B, rng.choice((rng.randint(low, high), low + 400, high - 400)))
    for _ in range(4):
        # Anywhere in the source's zone: mostly refused 3 by the target where the zones differ.
        yield in_millimetres(source, *anywhere(rng, source))
    (x_low, _), (_, y_high) = box_limits(source)
    X, Y = in_millimetres(source, 52 * DEGREE, source.L0)
    yield from ((x_low - 1, Y), (x_low, Y), (X, y_high), (X, y_high + 1), (LOW, HIGH))


# ---- the three vectors


def forward_records(rng):
    for system in SYSTEMS.values():
        for B, L in forward_points(rng, system):
            yield system.code, forward_case(system.code, B, L)
    for code in OTHER_CODES:
        for B, L in ((52 * DEGREE, 19 * DEGREE), (0, 0), (LOW, HIGH)):
            yield 0, forward_case(code, B, L)


def inverse_records(rng):
    for system in SYSTEMS.values():
        for X, Y in inverse_points(rng, system):
            yield system.code, inverse_case(system.code, X, Y)
    for code in OTHER_CODES:
        for X, Y in ((459309209, 500000000), (0, 0), (LOW, HIGH)):
            yield 0, inverse_case(code, X, Y)


def plane_records(rng):
    for source in SYSTEMS.values():
        for target in SYSTEMS.values():
            if source.ellipsoid is target.ellipsoid:
                for X, Y in plane_points(rng, source, target):
                    yield source.code, plane_case(source.code, target.code, X, Y)
            else:
                for X, Y in (in_millimetres(source, 52 * DEGREE, source.L0), (LOW, HIGH)):
                    yield source.code, plane_case(source.code, target.code, X, Y)
        for other in OTHER_CODES:
            for X, Y in (in_millimetres(source, 52 * DEGREE, source.L0), (LOW, HIGH)):
                yield source.code, plane_case(source.code, other, X, Y)
    for code in OTHER_CODES:
        for target in (1, 8, 14, 0, 255):
            yield 0, plane_case(code, target, 459309209, 500000000)


RECORDS = {"forward": forward_records, "inverse": inverse_records, "plane": plane_records}


def record(call, group, arguments, expected, values):
    """forward: code, B, L, expected, X, Y, scale, convergence; inverse: code, X, Y, expected, B, L, 0, 0; plane: codes, X, Y, expected, X, Y, 0, 0.

    The group is not written: the program takes a new one where the (source) code changes, any code outside 1 to 14 being one group with the rest of its kind.
    The two codes of plane to plane are one number, source + 256·target."""
    if call == "plane":
        arguments = (arguments[0] + 256 * arguments[1], *arguments[2:])
    numbers = [millionths(value) for value in values]
    return struct.pack("<8q", *arguments, expected, *numbers, *[0] * (4 - len(numbers)))


class Tally:
    """What the test program says of a group."""

    def __init__(self, band):
        self.band = band
        self.points = self.near = self.refused = 0
        self.largest = [0, 0, 0, 0]

    def add(self, expected, values):
        if expected == NEAR_A_TIE:
            self.near += 1
        elif expected:
            self.refused += 1
        else:
            self.points += 1
            for k, value in enumerate(values):
                distance = abs(projection.nearest(value) * MILLION - millionths(value))
                assert distance < self.band
                self.largest[k] = max(self.largest[k], distance // 1000)

    def line(self, call, group):
        return "%s %d points %d near %d outside 0 largest %s refused %d wrong 0\n" % (
            call, group, self.points, self.near, " ".join(map(str, self.largest)), self.refused,
        )


def main(call, folder):
    projection.self_test()
    rng = random.Random("points " + call)
    taken, tallies, open_ones = bytearray(), {}, 0
    for group, case in RECORDS[call](rng):
        if case is None:
            open_ones += 1
            continue
        arguments, expected, values = case
        taken += record(call, group, arguments, expected, values)
        tallies.setdefault(group, Tally(BANDS[call])).add(expected, values)
    lines = [tally.line(call, group) for group, tally in tallies.items()]
    (folder / "stdin").write_bytes(taken)
    (folder / "stdout").write_text("".join(lines))
    print("".join(lines), end="")
    print("%d records, %d bytes, %d left out as open" % (len(taken) // 64, len(taken), open_ones))


if __name__ == "__main__":
    main(sys.argv[1], Path(sys.argv[2]))
