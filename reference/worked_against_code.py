"""Holds the model worked.py to the code, number by number.

    python3 reference/worked_against_code.py          the answers of crates/forward_vectors and inverse_vectors, which the gate holds the code to
    python3 reference/worked_against_code.py FILE     and each call that FILE has; `-` is the standard input

FILE is what bench/leaves.cpp prints of the code's leaves, one call to a line: name, arguments, `=`, answers. `bench/run leaves` hands it on. Exits with 1 where
the model answers anything else. Assumes Python 3.9 or newer and its standard library.
"""

import struct
import sys
from collections import Counter
from pathlib import Path

import projection
import worked
from systems import GRS80, KRASOVSKY, SYSTEMS

CRATES = Path(__file__).resolve().parent.parent / "crates"
NEAR_A_TIE = 255


# ---- vectors


def against_vectors(name, answer, band):
    """Where the gate asks the nearest whole number the model has to give it too, near a tie one within the band. How many numbers it gave."""
    held = 0
    for code, first, second, expected, *values in struct.iter_unpack("<8q", (CRATES / name / "stdin").read_bytes()):
        if expected not in (0, NEAR_A_TIE):
            continue
        for number, value in zip(answer(SYSTEMS[code], first, second), values):
            if abs(number * 10**6 - value) > (band if expected else 500_000):
                sys.exit("worked: the model answers %d to %s of %s, where %d millionths is true" % (number, (code, first, second), name, value))
            held += 1
    return held


def vectors():
    held = against_vectors("forward_vectors", worked.answer_forward, 510_000) + against_vectors("inverse_vectors", worked.answer_inverse, 600_000)
    print("worked: the model answers the %d numbers of forward_vectors and inverse_vectors as the code does" % held)


# ---- the code's leaves, called as they are


def constants(krasovsky):
    return worked.CONSTANTS[(GRS80, KRASOVSKY)[krasovsky].name]


def k60(krasovsky, n):
    return worked.k60(constants(krasovsky).shortfall, n)


def sphere(krasovsky, n, d):
    (t, c), (sd, cd) = worked.latitude60(n), worked.longitude60(d)
    k = k60(krasovsky, n)
    return (t, c, sd, cd, k, *worked.halves60(k, t), worked.mul60(k, c))


def across(t, c, sd, cd, k, n2, d2, kc):
    return worked.across60(kc, d2, sd)


def north(centre, radius, t, c, sd, cd, k, n2, d2, kc):
    return worked.north30(centre, radius, *worked.tilt60(n2, worked.mul60(kc, cd)))


def mercator(krasovsky, n, d):
    at = worked.mercator(constants(krasovsky), n, d)
    return at["north"], at["east"]


def sphere_scale(square, ratio, t, c, sd, cd, k, n2, d2, kc, across):
    return worked.sphere_scale60(ratio, k, worked.meridian60(square, t), d2, worked.spread60(across))


def turn(t, c, sd, cd, k, n2, d2, kc):
    return worked.turn60(worked.quot60(n2, d2), sd, cd)


def inverse_ticks(krasovsky, x, y):
    at = worked.inverse_from(constants(krasovsky), x, y)
    return worked.ticks60(at["B"]), worked.ticks60(at["d"])


def forward(code, B, L):
    return (0, *worked.answer_forward(SYSTEMS[code], B, L))


def inverse(code, X, Y):
    """Refusals 2 and 3 are on the ticks that would be answered."""
    B, L = worked.answer_inverse(SYSTEMS[code], X, Y)
    if not projection.LOW_B <= B <= projection.HIGH_B:
        return 2, 0, 0
    return (0, B, L) if abs(L - SYSTEMS[code].L0) <= SYSTEMS[code].half_width else (3, 0, 0)


# Those whose arguments are not those of the model's function of the same name.
CODE = {
    "k60": k60,
    "sphere60": sphere,
    "across60": across,
    "north30": north,
    "mercator60": mercator,
    "sphere_scale60": sphere_scale,
    "turn60": turn,
    "angle60": lambda krasovsky, x: worked.angle60(constants(krasovsky).over_radius, x),
    "inverse_latitude60": lambda krasovsky, f: worked.inverse_latitude60(constants(krasovsky).latitude, f),
    "inverse60": inverse_ticks,
    "angle_units": worked.convergence_units,
    "forward": forward,
    "inverse": inverse,
}


def against_calls(lines):
    held = Counter()
    for line in lines:
        asked, answered = line.split(" =")
        name, *arguments = asked.split()
        answer = (CODE.get(name) or getattr(worked, name))(*map(int, arguments))
        numbers = [int(number) for number in (answer if isinstance(answer, tuple) else (answer,))]
        if list(map(int, answered.split())) != numbers:
            sys.exit("worked: the model answers %s to %s, and the code%s" % (numbers, asked, answered.rstrip()))
        held[name] += 1
    if not held:
        sys.exit("worked: no call of the code was read")
    print("worked: the model answers %d calls of %d functions as the code does: %s" % (sum(held.values()), len(held), ", ".join(held)))


if __name__ == "__main__":
    vectors()
    if len(sys.argv) > 1:
        against_calls(sys.stdin if sys.argv[1] == "-" else Path(sys.argv[1]).open())
