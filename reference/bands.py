"""Makes the band tables of the crate `fixed_bands`: for each band of a quarter of a degree and a tick, the first six Taylor coefficients of a sine, a cosine
and 1 - K at the band's start, as polynomials in x, where 2^30 ticks are x = 1, at scale 2^60, each to the nearest whole number, without signs.

    python3 reference/bands.py rust|antt|errors

The crate proves that the tables are near enough, whoever made them; `errors` prints how far each is off in units of 2^-60. Assumes Python's standard library
alone.
"""

import sys
from decimal import ROUND_HALF_EVEN, Decimal, localcontext
from math import factorial

from functions import PI, cos, sin

TERMS = 6
SCALE = 2**60
UNIT = 2**30
HALF_TURN = 648_000_000_000
# A tick more than a quarter of a degree, so that the last angle, 56° or 5°30′, still falls into the 32nd or the 22nd band.
WIDTH = 900_000_001
GRS80, KRASOVSKY = Decimal("0.0818191910428"), Decimal("0.0818133340169")
# The signs of a polynomial whose value rises through the band as a sine does, and of one that sinks as a cosine does.
RISING, SINKING = (1, 1, -1, -1, 1, 1), (1, -1, -1, 1, 1, -1)


def product(p, q):
    """The first terms of the product of two power series."""
    return [sum(p[j] * q[k - j] for j in range(k + 1)) for k in range(TERMS)]


def composed(outer, inner):
    """The first terms of a function of a series, where `outer` holds the function's Taylor coefficients at the series' first term."""
    rest, total = [Decimal(0)] + inner[1:], [Decimal(0)] * TERMS
    for coefficient in reversed(outer):
        total = product(total, rest)
        total[0] += coefficient
    return total


def sine_series(angle, unit):
    s, c = sin(angle), cos(angle)
    return [(s, c, -s, -c)[k % 4] * unit**k / factorial(k) for k in range(TERMS)]


def cosine_series(angle, unit):
    s, c = sin(angle), cos(angle)
    return [(c, -s, -c, s)[k % 4] * unit**k / factorial(k) for k in range(TERMS)]


def artanh_at(y):
    """Taylor coefficients of artanh at y: those of its slope (1/(1-y) + 1/(1+y)) / 2, integrated."""
    slopes = [(1 / (1 - y) ** (k + 1) + (-1) ** k / (1 + y) ** (k + 1)) / 2 for k in range(TERMS - 1)]
    return [((1 + y) / (1 - y)).ln() / 2] + [slope / (k + 1) for k, slope in enumerate(slopes)]


def shortfall_series(e):
    """1 - K = 1 - exp(-e·artanh(e·sin B)) of a latitude."""

    def of(angle, unit):
        y = [e * term for term in sine_series(angle, unit)]
        w = [-e * term for term in composed(artanh_at(y[0]), y)]
        k = composed([w[0].exp() / factorial(j) for j in range(TERMS)], w)
        return [1 - k[0]] + [-term for term in k[1:]]

    return of


# Series, signs, first degree, number of bands: 32 everywhere, though a difference of longitude only comes to the first 22, because the code
# finds a row of every table by one function.
KINDS = {
    "latitude_sine": (sine_series, RISING, 48, 32),
    "latitude_cosine": (cosine_series, SINKING, 48, 32),
    "longitude_sine": (sine_series, RISING, 0, 32),
    "longitude_cosine": (cosine_series, SINKING, 0, 32),
    "shortfall_grs80": (shortfall_series(GRS80), RISING, 48, 32),
    "shortfall_krasovsky": (shortfall_series(KRASOVSKY), RISING, 48, 32),
}


def angle_of(first, band, ticks):
    return (first * 3_600_000_000 + band * WIDTH + ticks) * PI / HALF_TURN


def row(series, signs, first, band):
    terms = series(angle_of(first, band, 0), UNIT * PI / HALF_TURN)
    return [int((sign * term * SCALE).quantize(Decimal(1), ROUND_HALF_EVEN)) for sign, term in zip(signs, terms)]


def tables():
    return {name: [row(series, signs, first, band) for band in range(bands)] for name, (series, signs, first, bands) in KINDS.items()}


def rust(name, rows):
    body = "".join("    Row {\n" + "".join(f"        c{k}: {number},\n" for k, number in enumerate(numbers)) + "    },\n" for numbers in rows)
    return f"// src/{name}.rt\npub static ROWS: [Row; {len(rows)}] = [\n{body}];\n"


def antt(name, rows):
    lines = [" ∷ ".join(map(str, numbers)) for numbers in rows]
    return f"abbrev pub {name}_table : List ℕ\n{name}_table =\n    " + "\n    ∷ ".join(lines) + "\n    ∷ []\n"


def errors(name, rows):
    series, signs, first, _ = KINDS[name]
    worst = 0
    for band, numbers in enumerate(rows):
        for k in range(11):
            ticks, value = WIDTH * k // 10, Decimal(0)
            for sign, number in reversed(list(zip(signs, numbers))):
                value = value * ticks / UNIT + sign * number
            worst = max(worst, abs(value - SCALE * series(angle_of(first, band, ticks), Decimal(0) + 1)[0]))
    return f"{name}: {worst:.2f} units of 2^-60"


if __name__ == "__main__":
    form = {"rust": rust, "antt": antt, "errors": errors}[sys.argv[1]]
    with localcontext() as context:
        context.prec = 50
        print("\n".join(form(name, rows) for name, rows in tables().items()))
