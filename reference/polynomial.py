#!/usr/bin/env python3
"""Independent check of the polynomial step, with exact rationals.

Makes the points, the exact value of each polynomial at each point (decimal coefficients, the doubles of z as they are), and what a
double-precision Horner evaluation is off by. It uses nothing of the crates: only the tables of document 01, typed in below.

    python3 reference/polynomial.py write    writes crates/polynomial_run/stdin and stdout
    python3 reference/polynomial.py          prints the figures in metres
"""
import random
import struct
import sys
from fractions import Fraction
from pathlib import Path

A_GRS80 = "5765181.11148097 499800.81713800 -63.81145283 0.83537915 0.13046891 -0.00111138 -0.00010504"
B_GRS80 = "5760000 500199.26224125 63.88777449 -0.82039170 -0.13125817 0.00101782 0.00010778"
A_KRASOVSKY = "5765180.49758330 499800.87112376 -63.80172299 0.83512434 0.13044472 -0.00111100 -0.00010501"
B_KRASOVSKY = "5760000 500199.20821246 63.87801231 -0.82014111 -0.13123362 0.00101747 0.00010775"
# ten coefficients whose sizes times the powers of 1.7 add up to just under 8,000,000, most of it in the highest powers
TEN = "0.1 -0.2 0.3 -0.4 0.5 -0.6 82857.1 -48739.2 28670.3 -16864.4"

POINTS = 600
FIRST_POWER = 40  # the exact first part is told in multiples of 2^-40 m


def table(text):
    return [Fraction(word) for word in text.split()]


def derivative(coefficients):
    return [k * c for k, c in enumerate(coefficients)][1:]


TABLES = [
    ("forward_grs80", table(A_GRS80)),
    ("derivative_grs80", derivative(table(A_GRS80))),
    ("inverse_grs80", table(B_GRS80)),
    ("forward_krasovsky", table(A_KRASOVSKY)),
    ("derivative_krasovsky", derivative(table(A_KRASOVSKY))),
    ("inverse_krasovsky", table(B_KRASOVSKY)),
    ("ten", table(TEN)),
]


def second_power(name):
    """What the exact second part is told in: a derivative's is small, and the doubles come nearer to it."""
    return 50 if name.startswith("derivative") else 40


def exact(coefficients, x, y):
    """The polynomial at x + y i, in rationals, by powers."""
    re, im = Fraction(0), Fraction(0)
    p, q = Fraction(1), Fraction(0)
    for c in coefficients:
        re, im = re + c * p, im + c * q
        p, q = p * x - q * y, p * y + q * x
    return re, im


def horner(coefficients, x, y):
    """The same in doubles: the last coefficient, and then a complex product and a sum for each one before it."""
    doubles = [float(c) for c in coefficients]
    re, im = doubles[-1], 0.0
    for c in reversed(doubles[:-1]):
        re, im = re * x - im * y + c, re * y + im * x
    return re, im


def whole(value, power):
    """In multiples of 2^-power, toward zero."""
    n = abs(Fraction(value)) * 2**power
    n = n.numerator // n.denominator
    return -n if value < 0 else n


def told(error, power):
    """Multiples of 2^-power m in 10^-15 m, gone down."""
    return error * 10**15 // 2**power


def points(name):
    """Pairs of whole multiples of 2^-30 m, at most 595,000 m either way, which makes parts of z of at most 1.19."""
    draw, end = random.Random(name), 595000 * 2**30
    corners = [(x, y) for x in (-end, 0, end) for y in (-end, 0, end)]
    return corners + [(draw.randint(-end, end), draw.randint(-end, end)) for _ in range(POINTS - len(corners))]


def argument(n):
    """z in doubles: the metres are exact, and their product with 0.000002 is rounded once."""
    return n * 2.0**-30 * 0.000002


def measure(name, coefficients, records, number):
    """Adds the records of a table, and answers the largest error of each part: as the program tells it, and in metres."""
    powers = FIRST_POWER, second_power(name)
    largest, in_metres = [0, 0], [Fraction(0), Fraction(0)]
    for north, east in points(name):
        x, y = argument(north), argument(east)
        value, answer = exact(coefficients, Fraction(x), Fraction(y)), horner(coefficients, x, y)
        wholes = [whole(v, power) for v, power in zip(value, powers)]
        for part, power in enumerate(powers):
            largest[part] = max(largest[part], told(abs(whole(answer[part], power) - wholes[part]), power))
            in_metres[part] = max(in_metres[part], abs(Fraction(answer[part]) - value[part]))
        records += struct.pack("<5Q", number, north + 2**50, east + 2**50, *(n + 2**63 for n in wholes))
    return largest, in_metres


def main(write):
    records, lines = bytearray(), []
    for number, (name, coefficients) in enumerate(TABLES):
        largest, in_metres = measure(name, coefficients, records, number)
        lines.append(f"{name} points {POINTS} first {largest[0]} second {largest[1]} of 10^-15 m\n")
        if not write:
            print(f"{name:22} {POINTS} points, largest error of the first part {float(in_metres[0]):.3e} m, of the second {float(in_metres[1]):.3e} m")
    if write:
        crate = Path(__file__).resolve().parent.parent / "crates" / "polynomial_run"
        (crate / "stdin").write_bytes(records)
        (crate / "stdout").write_text("".join(lines))


main(sys.argv[1:] == ["write"])
