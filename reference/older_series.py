"""A second, older witness of the reference projection: the series in the longitude difference of source document 000, formulas (5) and (6).

    python3 reference/older_series.py

prints the largest difference of X and Y from projection.py, in millimetres, for points up to a given distance from the central meridian. The arc of the
meridian is integrated term by term from its own series in e². The printed formulas leave the η² parts of the fifth and sixth power out; the page before prints
them among the derivatives, and the second pair of columns has them. The series is short, so it reaches only some degrees. Assumes Python 3.9 or newer and its
standard library.
"""

from decimal import Decimal

import functions as true
import projection
from systems import DEGREE, SYSTEMS


def meridian_arc(a, e2, B):
    """a·(1 - e²)·∫ (1 - e²·sin²)^(-3/2), by the powers of e², from the equator to B."""
    sine, cosine = true.sin_cos_pair(B)
    factor, integral, total = Decimal(1), B, B
    for k in range(1, 40):
        factor *= Decimal(2 * k + 1) / (2 * k) * e2
        integral = ((2 * k - 1) * integral - sine ** (2 * k - 1) * cosine) / (2 * k)
        total += factor * integral
    return a * (1 - e2) * total


def older(k, B, d, with_eta):
    """x and y of (5) and (6) in metres."""
    e2 = k.e * k.e
    sine, cosine = true.sin_cos_pair(B)
    N = k.a / (1 - e2 * sine * sine).sqrt()
    t2, eta2 = (sine / cosine) ** 2, e2 / (1 - e2) * cosine * cosine
    fifth, sixth = 5 - 18 * t2 + t2 * t2, 61 - 58 * t2 + t2 * t2
    if with_eta:
        fifth += 14 * eta2 - 58 * eta2 * t2
        sixth += 270 * eta2 - 330 * eta2 * t2
    x = meridian_arc(k.a, e2, B) + N / 2 * d**2 * sine * cosine
    x += N / 24 * d**4 * sine * cosine**3 * (5 - t2 + 9 * eta2 + 4 * eta2 * eta2)
    x += N / 720 * d**6 * sine * cosine**5 * sixth
    y = N * d * cosine + N / 6 * d**3 * cosine**3 * (1 - t2 + eta2) + N / 120 * d**5 * cosine**5 * fifth
    return x, y


def differences(system, B, L, with_eta):
    k, m0 = projection.NUMBERS[system.ellipsoid.name], Decimal(system.m0)
    x, y = older(k, projection.radians(B), projection.radians(L - system.L0), with_eta)
    X, Y, _, _ = projection.forward_raw(system, B, L)
    return abs(1000 * (system.x0 + m0 * x) - X), abs(1000 * (system.y0 + m0 * y) - Y)


def largest(system, width, with_eta, steps=16):
    found = [
        differences(system, 48 * DEGREE + 8 * DEGREE * i // steps, system.L0 + width * j // steps, with_eta)
        for i in range(steps + 1)
        for j in range(-steps, steps + 1)
    ]
    return [max(column) for column in zip(*found)]


def main():
    print("code  |d| to   as printed: X mm   Y mm   with the η² parts: X mm   Y mm")
    for code in (1, 2, 8, 14):
        system = SYSTEMS[code]
        for minutes in (30, 90, 120, 180, 330):
            width = minutes * DEGREE // 60
            if width <= system.half_width:
                plain, full = largest(system, width, False), largest(system, width, True)
                print("%4d   %d°%02d'          %8.4f %8.4f             %8.4f %8.4f" % (code, minutes // 60, minutes % 60, *plain, *full))


if __name__ == "__main__":
    main()
