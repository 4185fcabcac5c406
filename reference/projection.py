"""The reference projection: the procedure of source document 001 (Kadaj), tables 2 and 3, with the paper's constants and true functions to 60 digits.

Its own road, not that of document 01: the sphere's latitude by 2·arctan(K·tan(B/2 + π/4)) - π/2, Mercator's y by a logarithm, the inverse by the angle w, and a
polynomial in Horner's form over pairs. Unrounded answers are in the units of the answers: millimetres, 10^-9, thousandths of an arc second, ticks.
Refusals follow document 01, exactly. Assumes Python 3.9 or newer and its standard library.
"""

from decimal import ROUND_HALF_EVEN, Decimal
from fractions import Fraction

import functions as true
from systems import DEGREE, SYSTEMS

ONE = Decimal(1)
HALF_TURN_TICKS = 180 * DEGREE
HALF_TURN_THOUSANDTHS = 180 * 3600 * 1000
STEP = Decimal("0.000002")
TINY = Decimal("1e-40")
LOW_B, HIGH_B = 48 * DEGREE, 56 * DEGREE
LOW_X, HIGH_X, SIZE_Y = 5_300_000_000, 6_250_000_000, 420_000_000
LARGEST_NUMBER, LARGEST_SPAN = 10**10, 20_000_000


def radians(ticks):
    return Decimal(ticks) * true.PI / HALF_TURN_TICKS


def nearest(value):
    """To the nearest whole number, ties to even."""
    return int(value.to_integral_value(rounding=ROUND_HALF_EVEN))


# ---- pairs as complex numbers


def times(u, v):
    return (u[0] * v[0] - u[1] * v[1], u[0] * v[1] + u[1] * v[0])


def horner(coefficients, z):
    total = (Decimal(0), Decimal(0))
    for c in reversed(coefficients):
        total = times(total, z)
        total = (total[0] + c, total[1])
    return total


def slope(coefficients):
    return [k * c for k, c in enumerate(coefficients)][1:]


class Numbers:
    """An ellipsoid's constants as decimals."""

    def __init__(self, ellipsoid):
        self.e, self.a, self.R0 = Decimal(ellipsoid.e), Decimal(ellipsoid.a), Decimal(ellipsoid.R0)
        self.a_coefficients = [Decimal(c) for c in ellipsoid.a_coefficients]
        self.b_coefficients = [Decimal(c) for c in ellipsoid.b_coefficients]
        self.c2, self.c4, self.c6 = Decimal(ellipsoid.c2), Decimal(ellipsoid.c4), Decimal(ellipsoid.c6)


NUMBERS = {system.ellipsoid.name: Numbers(system.ellipsoid) for system in SYSTEMS.values()}


# ---- forward, table 2: [1] Lagrange, [2] Mercator, [3] to Gauss-Krüger


def lagrange(k, B):
    sine = true.sin(B)
    U, V = 1 - k.e * sine, 1 + k.e * sine
    K = (k.e / 2 * (U / V).ln()).exp()
    return 2 * true.atan(K * true.tan(B / 2 + true.PI / 4)) - true.PI / 2


def forward_raw(system, B_ticks, L_ticks):
    """X, Y, scale and convergence before rounding, offsets added."""
    k, m0 = NUMBERS[system.ellipsoid.name], Decimal(system.m0)
    B, d = radians(B_ticks), radians(L_ticks - system.L0)
    f = lagrange(k, B)
    sin_f, cos_f = true.sin_cos_pair(f)
    sin_d, cos_d = true.sin_cos_pair(d)
    r, s = 1 + cos_f * sin_d, 1 - cos_f * sin_d
    x = k.R0 * true.atan(sin_f / (cos_f * cos_d))
    y = k.R0 / 2 * (r / s).ln()
    z = ((x - 5760000) * STEP, y * STEP)
    north, east = horner(k.a_coefficients, z)
    h = horner(slope(k.a_coefficients), z)
    sin_B, cos_B = true.sin_cos_pair(B)
    R_N = k.a / (1 - (k.e * sin_B) ** 2).sqrt()
    scale = m0 * k.R0 * cos_f / (R_N * cos_B) / (r * s).sqrt() * (h[0] ** 2 + h[1] ** 2).sqrt() * STEP
    convergence = true.atan(sin_f * sin_d / cos_d) - true.atan(h[1] / h[0])
    return (
        1000 * (system.x0 + m0 * north),
        1000 * (system.y0 + m0 * east),
        scale * 10**9,
        convergence * HALF_TURN_THOUSANDTHS / true.PI,
    )


# ---- inverse, table 2: [1'], [2'], [3']


def inverse_raw(system, X, Y):
    """B and L in ticks before rounding."""
    k, m0 = NUMBERS[system.ellipsoid.name], Decimal(system.m0)
    north = (Decimal(X) / 1000 - system.x0) / m0
    east = (Decimal(Y) / 1000 - system.y0) / m0
    x, y = horner(k.b_coefficients, ((north - k.a_coefficients[0]) * STEP, east * STEP))
    alpha, beta = x / k.R0, y / k.R0
    w = 2 * true.atan(beta.exp()) - true.PI / 2
    sin_alpha, cos_alpha = true.sin_cos_pair(alpha)
    f = true.asin(true.cos(w) * sin_alpha)
    d = true.atan(true.tan(w) / cos_alpha)
    B = f + k.c2 * true.sin(2 * f) + k.c4 * true.sin(4 * f) + k.c6 * true.sin(6 * f)
    return B * HALF_TURN_TICKS / true.PI, system.L0 + d * HALF_TURN_TICKS / true.PI


# ---- refusals, by exact whole numbers and fractions


def forward_refusal(code, B, L):
    if code not in SYSTEMS:
        return 1
    if not LOW_B <= B <= HIGH_B:
        return 2
    system = SYSTEMS[code]
    return 3 if abs(L - system.L0) > system.half_width else 0


def inverse_refusal(code, X, Y):
    """1 and 4, which are judged before the inverse is worked."""
    if code not in SYSTEMS:
        return 1
    system = SYSTEMS[code]
    north = (X - 1000 * system.x0) / Fraction(system.m0)
    east = (Y - 1000 * system.y0) / Fraction(system.m0)
    return 0 if LOW_X <= north <= HIGH_X and abs(east) <= SIZE_Y else 4


# ---- answers: (refusal, unrounded numbers); the refusal 0 where there are numbers


def forward(code, B, L):
    refusal = forward_refusal(code, B, L)
    return (refusal, None) if refusal else (0, forward_raw(SYSTEMS[code], B, L))


def inverse(code, X, Y):
    refusal = inverse_refusal(code, X, Y)
    if refusal:
        return refusal, None
    B, L = inverse_raw(SYSTEMS[code], X, Y)
    return forward_refusal(code, nearest(B), nearest(L)), (B, L)


def plane_to_plane(source, target, X, Y):
    """The refusal with the ticks between, and X and Y where there is none. Equal codes give the point back."""
    if source not in SYSTEMS or target not in SYSTEMS:
        return 1, None, None
    if SYSTEMS[source].ellipsoid is not SYSTEMS[target].ellipsoid:
        return 5, None, None
    refusal, ticks = inverse(source, X, Y)
    if refusal or source == target:
        return refusal, ticks, None if refusal else (Decimal(X), Decimal(Y))
    B, L = nearest(ticks[0]), nearest(ticks[1])
    refusal = forward_refusal(target, B, L)
    return refusal, ticks, None if refusal else forward_raw(SYSTEMS[target], B, L)[:2]


def ring_refusal(source, target, numbers, room):
    """1, 5, 6, 7, 8, 14 of a ring conversion into `room` places, before its corners are worked."""
    if source not in SYSTEMS or target not in SYSTEMS:
        return 1
    if SYSTEMS[source].ellipsoid is not SYSTEMS[target].ellipsoid:
        return 5
    if len(numbers) % 2 == 1 or not 3 <= len(numbers) // 2 <= 1024:
        return 6
    if any(abs(number) > LARGEST_NUMBER for number in numbers):
        return 7
    if any(max(numbers[k::2]) - min(numbers[k::2]) > LARGEST_SPAN for k in (0, 1)):
        return 8
    return 14 if room < len(numbers) else 0


def ring_conversion(source, target, numbers, output):
    """The refusal and what the output holds after the call: as it was on a refusal, its places past the ring as they were otherwise."""
    refusal = ring_refusal(source, target, numbers, len(output))
    if refusal:
        return refusal, list(output)
    converted = []
    for X, Y in zip(numbers[0::2], numbers[1::2]):
        refusal, _, point = plane_to_plane(source, target, X, Y)
        if refusal:
            return refusal, list(output)
        converted += [nearest(point[0]), nearest(point[1])]
    return 0, converted + list(output[len(converted) :])


def mirror_test(system):
    """East and west alike, 02 (xi), there and back."""
    middle = 1000 * system.y0
    for d in (1, system.half_width // 3, system.half_width):
        east, west = (forward(system.code, 52 * DEGREE, system.L0 + side * d)[1] for side in (1, -1))
        assert all(abs(a - b) < TINY for a, b in zip(east, (west[0], 2 * middle - west[1], west[2], -west[3])))
        X, Y = nearest(east[0]), nearest(east[1])
        there, back = inverse(system.code, X, Y)[1], inverse(system.code, X, 2 * middle - Y)[1]
        assert abs(there[0] - back[0]) < TINY and abs(there[1] + back[1] - 2 * system.L0) < TINY
    assert forward(system.code, 52 * DEGREE, system.L0 + system.half_width + 1)[0] == forward(system.code, 52 * DEGREE, system.L0 - system.half_width - 1)[0] == 3


def self_test():
    true.self_test()
    for system in SYSTEMS.values():
        refusal, numbers = forward(system.code, 52 * DEGREE, system.L0)
        assert refusal == 0 and numbers[1] == 1000 * system.y0 and numbers[3] == 0
        mirror_test(system)
    # The Run list of document 01
    assert forward(1, 48 * DEGREE, 19 * DEGREE)[0] == 0 and forward(1, 48 * DEGREE - 1, 19 * DEGREE)[0] == 2
    edge = 16 * DEGREE + DEGREE // 2
    assert forward(2, 50 * DEGREE, edge)[0] == 0 and forward(2, 50 * DEGREE, edge + 1)[0] == 3


if __name__ == "__main__":
    self_test()
    for code, B, L in ((1, 52 * DEGREE, 19 * DEGREE), (2, 50 * DEGREE, 16 * DEGREE), (14, 51 * DEGREE, 18 * DEGREE)):
        print(code, B, L, *("%.6f" % number for number in forward(code, B, L)[1]))
