"""The definition of document 01, "The projection as whole numbers", worked out: whole numbers scaled by 10^24, each product and quotient gone down.

Written from the words of document 01 and from the definitions in crates/rules/specs (Scaled, Projection, Points), to be compared with the true functions of
projection.py by definition_against_truth.py. Unrounded answers are whole numbers over 10^24 in the units of the answers. Assumes Python 3.9 or newer and its
standard library.
"""

from fractions import Fraction
from math import factorial, isqrt

from systems import DEGREE, SYSTEMS

UNIT = 10**24
PI = 3_141592653589793238462643
HALF_TURN_TICKS = 180 * DEGREE
HALF_TURN_THOUSANDTHS = 180 * 3600 * 1000


def scaled(text):
    """A printed decimal, scaled, exactly."""
    number = Fraction(text) * UNIT
    assert number.denominator == 1
    return int(number)


def product(a, b):
    return a * b // UNIT


def quotient(a, b):
    return a * UNIT // b if b > 0 else -a * UNIT // -b


def square_root(a):
    return isqrt(a * UNIT)


def radians(ticks):
    return ticks * PI // HALF_TURN_TICKS


def turned_to(half_turn, angle):
    return quotient(angle * half_turn, PI)


# ---- cut power series


def summed(y, coefficients):
    """c0 + y·(c1 + y·(c2 + ..))"""
    total = 0
    for c in reversed(coefficients):
        total = c + product(y, total)
    return total


def alternating(y, coefficients):
    """c0 - y·(c1 - y·(c2 - ..))"""
    total = 0
    for c in reversed(coefficients):
        total = c - product(y, total)
    return total


def nested(y, divisors):
    """1 - y/m1·(1 - y/m2·(1 - ..))"""
    total = UNIT
    for m in reversed(divisors):
        total = UNIT - product(y, total) // m
    return total


SINE_DIVISORS = [k * (k + 1) for k in range(2, 25, 2)]
COSINE_DIVISORS = [k * (k + 1) for k in range(1, 24, 2)]
EXPONENTIAL = [UNIT // factorial(k) for k in range(11)]
HYPERBOLIC_SINE = [UNIT // factorial(k) for k in range(1, 16, 2)]
HYPERBOLIC_COSINE = [UNIT // factorial(k) for k in range(0, 15, 2)]
ODD_FRACTIONS = [UNIT // k for k in range(1, 26, 2)]


def sine(x):
    return product(x, nested(product(x, x), SINE_DIVISORS))


def cosine(x):
    return nested(product(x, x), COSINE_DIVISORS)


def arctan(x):
    return product(x, alternating(product(x, x), ODD_FRACTIONS))


def artanh(x):
    return product(x, summed(product(x, x), ODD_FRACTIONS))


AT_52 = radians(52 * DEGREE)
TAN_52 = quotient(sine(AT_52), cosine(AT_52))


def arctan_about_52(v):
    return AT_52 + arctan(quotient(v - TAN_52, UNIT + product(v, TAN_52)))


# ---- pairs


def times(u, v):
    return (product(u[0], v[0]) - product(u[1], v[1]), product(u[0], v[1]) + product(u[1], v[0]))


def polynomial(coefficients, z):
    """By the powers of z, as it is written."""
    power, first, second = (UNIT, 0), 0, 0
    for c in coefficients:
        first, second = first + product(c, power[0]), second + product(c, power[1])
        power = times(power, z)
    return first, second


def centred(centre, pair):
    step = scaled("0.000002")
    return product(pair[0] - centre, step), product(pair[1], step)


class Numbers:
    """An ellipsoid's constants, scaled."""

    def __init__(self, ellipsoid):
        self.e, self.a, self.R0 = scaled(ellipsoid.e), scaled(ellipsoid.a), scaled(ellipsoid.R0)
        self.a_coefficients = [scaled(c) for c in ellipsoid.a_coefficients]
        self.b_coefficients = [scaled(c) for c in ellipsoid.b_coefficients]
        self.c2, self.c4, self.c6 = scaled(ellipsoid.c2), scaled(ellipsoid.c4), scaled(ellipsoid.c6)


NUMBERS = {system.ellipsoid.name: Numbers(system.ellipsoid) for system in SYSTEMS.values()}


# ---- forward


def sphere(k, t, cos_B):
    K = summed(-product(k.e, artanh(product(k.e, t))), EXPONENTIAL)
    lifted = product(product(K, K), UNIT + t)
    below = lifted + (UNIT - t)
    return quotient(lifted - (UNIT - t), below), quotient(product(2 * K, cos_B), below)


def scale_of(k, m0, t, cos_B, cos_f, sin_d, h):
    N = quotient(k.a, square_root(UNIT - product(product(k.e, k.e), product(t, t))))
    on_sphere = quotient(product(k.R0, cos_f), product(N, cos_B))
    on_plane = quotient(UNIT, square_root(UNIT - product(product(cos_f, cos_f), product(sin_d, sin_d))))
    length = square_root(product(h[0], h[0]) + product(h[1], h[1]))
    return product(product(product(on_sphere, on_plane), product(length, scaled("0.000002"))), m0)


def forward(system, B, L):
    """north and east in millimetres after m0 and before the offset, scale and convergence; each scaled."""
    k, m0 = NUMBERS[system.ellipsoid.name], scaled(system.m0)
    b, d = radians(B), radians(L - system.L0)
    t, cos_B, sin_d, cos_d = sine(b), cosine(b), sine(d), cosine(d)
    sin_f, cos_f = sphere(k, t, cos_B)
    x = product(k.R0, arctan_about_52(quotient(sin_f, product(cos_f, cos_d))))
    y = product(k.R0, artanh(product(cos_f, sin_d)))
    z = centred(scaled("5760000"), (x, y))
    north, east = polynomial(k.a_coefficients, z)
    h = polynomial([n * c for n, c in enumerate(k.a_coefficients)][1:], z)
    convergence = arctan(product(sin_f, quotient(sin_d, cos_d))) - arctan(quotient(h[1], h[0]))
    return (
        1000 * product(m0, north),
        1000 * product(m0, east),
        10**9 * scale_of(k, m0, t, cos_B, cos_f, sin_d, h),
        turned_to(HALF_TURN_THOUSANDTHS, convergence),
    )


# ---- inverse


def inverse(system, X, Y):
    """B, and L - L0, in ticks; each scaled."""
    k, m0 = NUMBERS[system.ellipsoid.name], scaled(system.m0)
    undone = [quotient((number - 1000 * offset) * (UNIT // 1000), m0) for number, offset in ((X, system.x0), (Y, system.y0))]
    x, y = polynomial(k.b_coefficients, centred(k.a_coefficients[0], undone))
    p, q = quotient(x, k.R0), quotient(y, k.R0)
    sin_f = quotient(sine(p), summed(product(q, q), HYPERBOLIC_COSINE))
    tan_d = quotient(product(q, summed(product(q, q), HYPERBOLIC_SINE)), cosine(p))
    cos_f = square_root(UNIT - product(sin_f, sin_f))
    f = arctan_about_52(quotient(sin_f, cos_f))
    B = f + product(k.c2, sine(2 * f)) + product(k.c4, sine(4 * f)) + product(k.c6, sine(6 * f))
    return turned_to(HALF_TURN_TICKS, B), turned_to(HALF_TURN_TICKS, arctan(tan_d))


def nearest(value):
    """To the nearest whole number, ties to even."""
    down, rest = value // UNIT, value % UNIT
    up = 2 * rest > UNIT or (2 * rest == UNIT and down % 2 == 1)
    return down + up
