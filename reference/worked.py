"""What the product's arithmetic gives, step by step: whole numbers at scale 2^60, lengths in units of 2^-30 m, doubles for the polynomials alone.

Written from the worked definitions in specs/ of the crates fixed, fixed_bands, fixed_forward, fixed_scale, fixed_inverse, fixed_units, metres and
projection_worked. Functions bear the names of the code's. Tables and constants are worked out from what they stand for, here or for the bands in bands.py, so
that a wrong digit in the code shows; a table's length is said once, where the table is made. leaves.py holds these numbers to the definition,
worked_against_code.py to the code. Assumes Python 3.9 or newer and its standard library.
"""

from fractions import Fraction
from math import factorial

import bands
import functions as true
from systems import DEGREE, GRS80, KRASOVSKY

ONE = 2**60
HALF = 2**30
METRE = 2**30
PI = Fraction(true.PI)
AT_52 = 52 * DEGREE * PI / (180 * DEGREE)


def nearest_even(n, d):
    """n / d to the nearest whole number, ties to even."""
    down, rest = divmod(n, d)
    return down + (2 * rest > d or (2 * rest == d and down % 2 == 1))


def whole(number, scale=ONE):
    """A true number at a scale, to the nearest unit."""
    scaled = Fraction(number) * scale
    return nearest_even(scaled.numerator, scaled.denominator)


# ---- tables: reciprocals at scale 2^60


def factorials(first, step, count):
    return [whole(Fraction(1, factorial(first + step * k))) for k in range(count)]


def odds(count):
    return [whole(Fraction(1, 2 * k + 1)) for k in range(count)]


SINE, COSINE = factorials(1, 2, 9), factorials(0, 2, 9)
SMALL_SINE, SMALL_COSINE = factorials(1, 2, 4), factorials(0, 2, 5)
ARTANH, ARCTAN, WIDE_ARCTAN, SLOPE = odds(5), odds(6), odds(8), odds(2)
ROOT = [whole(Fraction(n, 128)) for n in (64, 16, 8, 5)]
# rows of six coefficients for each band, by name
BANDS = bands.tables()


def latitude_table(ellipsoid):
    """c2·sin 2f + c4·sin 4f + c6·sin 6f as one series in f, its terms gathered by powers of f²."""
    c2, c4, c6 = (Fraction(c) for c in (ellipsoid.c2, ellipsoid.c4, ellipsoid.c6))
    return [whole((2 * c2 * 4**k + 4 * c4 * 16**k + 6 * c6 * 36**k) / factorial(2 * k + 1)) for k in range(13)]


# ---- constants

TICKS = whole(180 * DEGREE / PI, 2**22)
THOUSANDTHS = whole(180 * 3600 * 1000 / PI, 2**32)
TAN_52 = whole(Fraction(true.tan(52 * true.PI / 180)))
BESIDE_52 = whole(AT_52)
TWO_MILLIONTHS = whole(Fraction(1048576, 1000000))
# the seed of a root about 0.305: a number gone down, and a quadratic fitted to the root
SEED_FROM, SEED = 305 * ONE // 1000, (636829586550925950, 257767101720653886, 38447625945040674)


class Constants:
    """An ellipsoid's numbers as the code has them."""

    def __init__(self, ellipsoid):
        e, a, R0 = Fraction(ellipsoid.e), Fraction(ellipsoid.a), Fraction(ellipsoid.R0)
        self.shortfall = BANDS["shortfall_" + ("krasovsky" if ellipsoid is KRASOVSKY else "grs80")]
        self.square, self.ratio = whole(e * e), whole(R0 / a)
        self.radius, self.centre = whole(R0, METRE), whole(R0 * AT_52 - 5760000, METRE)
        self.over_radius = whole(1 / R0, 2**82)
        self.back_centre = whole(Fraction(ellipsoid.a_coefficients[0]), METRE)
        self.latitude = latitude_table(ellipsoid)
        exact = [Fraction(c) for c in ellipsoid.a_coefficients]
        self.forward = [float(c) for c in exact]
        self.derivative = [float(k * c) for k, c in enumerate(exact)][1:]
        self.inverse = [float(Fraction(c)) for c in ellipsoid.b_coefficients]


CONSTANTS = {ellipsoid.name: Constants(ellipsoid) for ellipsoid in (GRS80, KRASOVSKY)}


# ---- crate fixed


def mul60(a, b):
    upper, lower, times, rest = a >> 30, a % HALF, b >> 30, b % HALF
    return upper * times + ((upper * rest + lower * times) >> 30)


def quot60(a, b):
    above = (b >> 30) + 1
    first = a // above
    rest = (a - first * (b >> 30)) * HALF - first * (b % HALF)
    return first * HALF + rest // above


def alt60(table, q):
    total = 0
    for c in reversed(table):
        total = c - mul60(q, total)
    return total


def ser60(table, q):
    total = 0
    for c in reversed(table):
        total = c + mul60(q, total)
    return total


def odd_alt60(table, x):
    return mul60(x, alt60(table, mul60(x, x)))


def odd_ser60(table, x):
    return mul60(x, ser60(table, mul60(x, x)))


def even_alt60(table, x):
    return alt60(table, mul60(x, x))


def even_ser60(table, x):
    return ser60(table, mul60(x, x))


def tilt60(n, m):
    """Whether to the south, and the size."""
    level = mul60(m, TAN_52)
    return n < level, quot60(abs(n - level), m + mul60(n, TAN_52))


# ---- crate fixed_bands


def part30(s, h):
    return (s >> 30) * h + (s % HALF * h >> 30)


def polynomial(row, signs, h):
    """c0 ± x·(c1 ± x·(c2 ± ..)), where x = h / 2^30: each step adds or takes away."""
    total = row[-1]
    for c, sign in zip(reversed(row[:-1]), reversed(signs)):
        total = c + sign * part30(total, h)
    return total


def rising(rows, ticks):
    band, h = divmod(ticks, bands.WIDTH)
    return polynomial(rows[band], (1, -1, 1, -1, 1), h)


def sinking(rows, ticks):
    band, h = divmod(ticks, bands.WIDTH)
    return polynomial(rows[band], (-1, 1, -1, 1, -1), h)


def latitude60(n):
    return rising(BANDS["latitude_sine"], n - 48 * DEGREE), sinking(BANDS["latitude_cosine"], n - 48 * DEGREE)


def longitude60(d):
    return rising(BANDS["longitude_sine"], d), sinking(BANDS["longitude_cosine"], d)


# ---- crate fixed_forward


def k60(shortfall, n):
    return ONE - rising(shortfall, n - 48 * DEGREE)


def halves60(k, t):
    lifted, rest = mul60(mul60(k, k), ONE + t), ONE - t
    return (lifted - rest) // 2, (lifted + rest) // 2


def across60(kc, d2, sd):
    return quot60(mul60(kc, sd), d2)


def east30(radius, v):
    return mul60(odd_ser60(ARTANH, v), radius)


def north30(centre, radius, south, size):
    r = mul60(odd_alt60(ARCTAN, size), radius)
    return centre - r if south else centre + r


# ---- crate fixed_scale


def scale_root60(x):
    return ONE - mul60(x, ser60(ROOT, x))


def meridian60(square, t):
    return scale_root60(mul60(square, mul60(t, t)))


def spread60(across):
    return scale_root60(mul60(across, across))


def sphere_scale60(ratio, k, meridian, d2, spread):
    return quot60(mul60(mul60(k, ratio), meridian), mul60(d2, spread))


def length60(first, slope):
    return first + mul60(first, mul60(slope, slope)) // 2


def turn60(sine_f, sd, cd):
    return odd_alt60(ARCTAN, quot60(mul60(sd, sine_f), cd))


def convergence60(turn, back, slope):
    r = odd_alt60(SLOPE, slope)
    return turn + r if back else turn - r


# ---- crate fixed_inverse


def angle60(over_radius, x):
    return mul60(over_radius, x << 8)


def difference60(p, q):
    return odd_alt60(WIDE_ARCTAN, quot60(odd_ser60(SMALL_SINE, q), even_alt60(COSINE, p)))


def closer60(w, s):
    return (s + quot60(w, s)) // 2


def inverse_root60(w):
    v = 4 * (w - SEED_FROM)
    seed = SEED[0] + mul60(v, SEED[1] - mul60(v, SEED[2]))
    return closer60(w, closer60(w, seed))


def inverse_sphere60(s, c):
    south, size = tilt60(s, inverse_root60(mul60(c - s, c + s)))
    a = odd_alt60(ARCTAN, size)
    return BESIDE_52 - a if south else BESIDE_52 + a


def inverse_latitude60(table, f):
    return f + odd_alt60(table, f)


def ticks60(b):
    return nearest_even(mul60(b, TICKS), 2**22)


# ---- crate fixed_units


def scale_units(scale, m0):
    """A scale times m0, which is given in units of 10^-9, in those units."""
    return nearest_even(scale * m0 // HALF, HALF)


def convergence_units(angle):
    size = nearest_even(mul60(abs(angle), THOUSANDTHS), 2**32)
    return -size if angle < 0 else size


# ---- crates metres and double: the polynomials, and into doubles and out of them


def argument(n):
    return float(n) * 2.0**-30 * 0.000002


def horner(coefficients, re, im):
    first, second = coefficients[-1], 0.0
    for c in reversed(coefficients[:-1]):
        first, second = first * re - second * im + c, first * im + second * re
    return first, second


def truncated(number, bits):
    """The size of a double in whole multiples of 2^-bits, gone down."""
    return int(abs(Fraction(number)) * 2**bits)


def millimetres(metres, millionths):
    size = nearest_even(truncated(metres, 20) * millionths, 1000 * 2**20)
    return -size if metres < 0 else size


# ---- the whole, with every number on the way, by name


def mercator(k, n, d):
    """Up to Mercator's pair, of a latitude of n ticks and a difference of longitude of d ticks."""
    (t, c), (sd, cd) = latitude60(n), longitude60(d)
    K = k60(k.shortfall, n)
    n2, d2 = halves60(K, t)
    kc = mul60(K, c)
    south, size = tilt60(n2, mul60(kc, cd))
    across = across60(kc, d2, sd)
    return {
        "t": t, "c": c, "sd": sd, "cd": cd, "K": K, "n2": n2, "d2": d2, "kc": kc, "south": south, "tilt": size, "arctan": odd_alt60(ARCTAN, size),
        "across": across, "artanh": odd_ser60(ARTANH, across),
        "north": north30(k.centre, k.radius, south, size), "east": east30(k.radius, across),
    }


def forward(k, n, d):
    at = mercator(k, n, d)
    z = argument(at["north"]), argument(at["east"])
    pair, slope_pair = horner(k.forward, *z), horner(k.derivative, *z)
    first41, second41 = (truncated(part, 41) for part in slope_pair)
    first, slope, back = mul60(first41, TWO_MILLIONTHS), quot60(second41, first41), slope_pair[1] < 0
    meridian, spread = meridian60(k.square, at["t"]), spread60(at["across"])
    sphere_scale, length = sphere_scale60(k.ratio, at["K"], meridian, at["d2"], spread), length60(first, slope)
    sine_f = quot60(at["n2"], at["d2"])
    turn = turn60(sine_f, at["sd"], at["cd"])
    return {
        **at, "pair": pair, "first": first, "slope": slope, "back": back, "meridian": meridian, "spread": spread, "sphere scale": sphere_scale,
        "length": length, "scale": mul60(sphere_scale, length), "sin f": sine_f, "tangent": quot60(mul60(at["sd"], sine_f), at["cd"]), "turn": turn,
        "convergence": convergence60(turn, back, slope),
    }


def inverse_from(k, x, y):
    """From Mercator's x and the size of y, in units of 2^-30 m."""
    p, q = angle60(k.over_radius, x), angle60(k.over_radius, y)
    s, ch = odd_alt60(SINE, p), even_ser60(SMALL_COSINE, q)
    number = mul60(ch - s, ch + s)
    root = inverse_root60(number)
    south, size = tilt60(s, root)
    sh, cp = odd_ser60(SMALL_SINE, q), even_alt60(COSINE, p)
    f = inverse_sphere60(s, ch)
    return {
        "p": p, "q": q, "sin p": s, "cos p": cp, "sinh q": sh, "cosh q": ch, "number": number, "root": root, "south": south, "tilt": size,
        "arctan": odd_alt60(ARCTAN, size), "f": f, "B": inverse_latitude60(k.latitude, f), "tan d": quot60(sh, cp), "d": difference60(p, q),
    }


def inverse(k, millionths, north, east):
    """Of a point so many millimetres north of the offset and, to either side of it, east."""
    far, side = (size * 1000 * METRE // millionths for size in (north, east))
    pair = horner(k.inverse, argument(far - k.back_centre), argument(side))
    found = inverse_from(k, truncated(pair[0], 30), truncated(pair[1], 30))
    return {"far": far, "side": side, "pair": pair, "back": pair[1] < 0, **found}


# ---- the answers


def millionths(system):
    return int(Fraction(system.m0) * 10**6)


def answer_forward(system, B, L):
    """X, Y, scale and convergence of a point that is taken."""
    d = L - system.L0
    side = -1 if d < 0 else 1
    at = forward(CONSTANTS[system.ellipsoid.name], B, abs(d))
    north, east = (millimetres(part, millionths(system)) for part in at["pair"])
    return 1000 * system.x0 + north, 1000 * system.y0 + side * east, scale_units(at["scale"], 1000 * millionths(system)), convergence_units(side * at["convergence"])


def answer_inverse(system, X, Y):
    """B and L of a point in the box of refusal 4."""
    across = Y - 1000 * system.y0
    at = inverse(CONSTANTS[system.ellipsoid.name], millionths(system), X - 1000 * system.x0, abs(across))
    side = -1 if (across < 0) != at["back"] else 1
    return ticks60(at["B"]), system.L0 + side * ticks60(at["d"])
