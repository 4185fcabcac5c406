"""How far each step of the product's arithmetic lies from the definition of document 01, measured beside what is proved.

    python3 reference/leaves.py [COUNT]    COUNT (20,000) random points each way and the ends of the ranges, over both ellipsoids, east and west

prints the worst of each leaf. A leaf's distance is that of the whole way to it, from whole ticks or millimetres on. The worked numbers are those of the model
worked.py, which is first held to the vectors (worked_against_code.py); the definition's are those of definition.py, at 10^24, and every point's last ones are
held to its own forward and inverse. Exits with 1 where a distance is above its bound. Assumes Python 3.9 or newer and its standard library.
"""

import random
import sys
from collections import namedtuple
from fractions import Fraction

import bands
import definition as by
import projection
import worked
import worked_against_code
from definition import UNIT, product, quotient
from systems import DEGREE, GRS80, KRASOVSKY, SYSTEMS

WIDEST = 330 * DEGREE // 60

# A leaf: its name in the two dictionaries, what it is, how many of its units make 1 (for metres and ticks that are not whole numbers, 1), and the proved bound
# in these units with its theorem.
Leaf = namedtuple("Leaf", "name words scale bound theorem")
U, LENGTH, PLAIN = 2**60, 2**30, 1

FORWARD = (
    Leaf("t", "sin B", U, 16, "latitude_sine_near"),
    Leaf("c", "cos B", U, 14, "latitude_cosine_near"),
    Leaf("sd", "sin d", U, 8, "longitude_sine_near"),
    Leaf("cd", "cos d", U, 18, "longitude_cosine_near"),
    Leaf("K", "K", U, 9, "K_of_near"),
    Leaf("numerator", "numerator of sin f", U, 110, "numerator_of_near"),
    Leaf("denominator", "denominator of sin f", U, 110, "denominator_of_near"),
    Leaf("doubled", "2 K cos B", U, 60, "doubled_of_near"),
    Leaf("across", "cos f sin d", U, 60, "across_of_near"),
    Leaf("artanh", "its artanh", U, 43000, "east_near"),
    Leaf("tilt", "tangent of the difference from 52 degrees", U, 250, "tilt_of_near"),
    Leaf("arctan", "its arc tangent", U, 2400, "north_near"),
    Leaf("north", "Mercator x - 5,760,000 m, in 2^-30 m", LENGTH, 50, "mercator_near"),
    Leaf("east", "Mercator y, in 2^-30 m", LENGTH, 300, "mercator_near"),
    Leaf("X", "Gauss-Krüger X, in m", PLAIN, Fraction(5, 10**7), "first_close"),
    Leaf("Y", "Gauss-Krüger Y, in m", PLAIN, Fraction(5, 10**7), "second_close"),
    Leaf("meridian", "root of 1 - e²t²", U, 213000, "meridian_near"),
    Leaf("spread", "root of 1 - cos²f sin²d", U, 314000, "spread_near"),
    Leaf("sphere scale", "scale without the derivative", U, 710000, "sphere_scale_of_near"),
    Leaf("first", "derivative's first part times 0.000002", U, 300000, "first_near"),
    Leaf("length", "derivative's length times 0.000002", U, 311000, "length_near"),
    Leaf("scale", "whole scale", U, 1090000, "scale_near"),
    Leaf("sin f", "sin f", U, 140, "sine_f_near"),
    Leaf("tangent", "sin f tan d", U, 45, "slope_near"),
    Leaf("turn", "its arc tangent", U, 7000, "turn_near"),
    Leaf("slope", "derivative's slope", U, 2000000, "slope_near"),
    Leaf("convergence", "whole convergence", U, 2012000, "convergence_near"),
    Leaf("scale answer", "scale answered, in 10^-9", PLAIN, Fraction(51, 100), "forward_right"),
    Leaf("convergence answer", "convergence answered, in 1/1000 second", PLAIN, Fraction(51, 100), "forward_right"),
)

INVERSE = (
    Leaf("far", "offset and m0 undone, X, in 2^-30 m", LENGTH, 2, "undone_near"),
    Leaf("side", "offset and m0 undone, Y, in 2^-30 m", LENGTH, 2, "undone_near"),
    Leaf("x", "Mercator x, in m", PLAIN, Fraction(107, 10**9), "inverse_first"),
    Leaf("y", "Mercator y, in m", PLAIN, Fraction(107, 10**9), "inverse_second"),
    Leaf("p", "p = x / R0", U, 27000, "x_angle"),
    Leaf("q", "q = y / R0", U, 27000, "y_angle"),
    Leaf("sin p", "sine of p", U, 33200, "near_sine"),
    Leaf("cos p", "cosine of p", U, 28900, "near_cosine"),
    Leaf("sinh q", "sinh of q", U, 27200, "near_sinh"),
    Leaf("cosh q", "cosh of q", U, 1850, "near_cosh"),
    Leaf("number", "cosh²q - sin²p", U, 73700, "near_number"),
    Leaf("root", "its root", U, 68400, "fix_root"),
    Leaf("tilt", "tangent of the difference from 52 degrees", U, 93600, "near_tilt"),
    Leaf("arctan", "its arc tangent", U, 95900, "near_turn"),
    Leaf("f", "the sphere's latitude f", U, 95901, "near_sphere"),
    Leaf("B", "latitude after c2, c4, c6", U, 98500, "near_latitude"),
    Leaf("tan d", "sinh q / cos p", U, 56300, "near_tangent"),
    Leaf("d", "difference of longitude d", U, 57000, "near_difference"),
    Leaf("B ticks", "B before rounding, in ticks", PLAIN, Fraction(18, 1000), "latitude_near"),
    Leaf("d ticks", "L - L0 before rounding, in ticks", PLAIN, Fraction(11, 1000), "difference_near"),
)


# ---- the definition's numbers of a point, by the names of the leaves


def forward_defined(system, B, d):
    k, m0, b, angle = by.NUMBERS[system.ellipsoid.name], by.scaled(system.m0), by.radians(B), by.radians(d)
    t, c, sd, cd = by.sine(b), by.cosine(b), by.sine(angle), by.cosine(angle)
    K = by.summed(-product(k.e, by.artanh(product(k.e, t))), by.EXPONENTIAL)
    lifted = product(product(K, K), UNIT + t)
    numerator, denominator, doubled = lifted - (UNIT - t), lifted + (UNIT - t), product(2 * K, c)
    sin_f, cos_f = quotient(numerator, denominator), quotient(doubled, denominator)
    across, tangent = product(cos_f, sd), quotient(sin_f, product(cos_f, cd))
    tilt = quotient(tangent - by.TAN_52, UNIT + product(tangent, by.TAN_52))
    north, east = product(k.R0, by.AT_52 + by.arctan(tilt)), product(k.R0, by.artanh(across))
    return {
        "t": t, "c": c, "sd": sd, "cd": cd, "K": K, "numerator": numerator, "denominator": denominator, "doubled": doubled, "sin f": sin_f,
        "across": across, "artanh": by.artanh(across), "tilt": tilt, "arctan": by.arctan(tilt), "north": north - 5760000 * UNIT, "east": east,
        **scale_defined(k, m0, t, c, cos_f, sd, (north, east)), **turn_defined(k, sin_f, sd, cd, (north, east)),
    }


def pairs(k, mercator):
    """The polynomial's pair and its derivative's, at Mercator's pair."""
    z = by.centred(5760000 * UNIT, mercator)
    return by.polynomial(k.a_coefficients, z), by.polynomial([n * c for n, c in enumerate(k.a_coefficients)][1:], z)


def scale_defined(k, m0, t, c, cos_f, sd, mercator):
    (X, Y), h = pairs(k, mercator)
    meridian = by.square_root(UNIT - product(product(k.e, k.e), product(t, t)))
    spread = by.square_root(UNIT - product(product(cos_f, cos_f), product(sd, sd)))
    on_sphere = quotient(product(k.R0, cos_f), product(quotient(k.a, meridian), c))
    length = product(by.square_root(product(h[0], h[0]) + product(h[1], h[1])), by.scaled("0.000002"))
    sphere_scale = product(on_sphere, quotient(UNIT, spread))
    scale = product(sphere_scale, length)
    return {
        "X": X, "Y": Y, "meridian": meridian, "spread": spread, "sphere scale": sphere_scale, "first": product(h[0], by.scaled("0.000002")),
        "length": length, "scale": scale, "scale answer": 10**9 * product(scale, m0),
    }


def turn_defined(k, sin_f, sd, cd, mercator):
    _, h = pairs(k, mercator)
    tangent, slope = product(sin_f, quotient(sd, cd)), quotient(h[1], h[0])
    convergence = by.arctan(tangent) - by.arctan(slope)
    answer = by.turned_to(by.HALF_TURN_THOUSANDTHS, convergence)
    return {"tangent": tangent, "turn": by.arctan(tangent), "slope": slope, "convergence": convergence, "convergence answer": answer}


def inverse_defined(system, X, Y):
    k, m0 = by.NUMBERS[system.ellipsoid.name], by.scaled(system.m0)
    far, side = (quotient((number - 1000 * offset) * (UNIT // 1000), m0) for number, offset in ((X, system.x0), (Y, system.y0)))
    x, y = by.polynomial(k.b_coefficients, by.centred(k.a_coefficients[0], (far, side)))
    p, q = quotient(x, k.R0), quotient(y, k.R0)
    sin_p, cos_p, square = by.sine(p), by.cosine(p), product(q, q)
    sinh_q, cosh_q = product(q, by.summed(square, by.HYPERBOLIC_SINE)), by.summed(square, by.HYPERBOLIC_COSINE)
    sin_f, tan_d = quotient(sin_p, cosh_q), quotient(sinh_q, cos_p)
    cos_f = by.square_root(UNIT - product(sin_f, sin_f))
    tangent = quotient(sin_f, cos_f)
    tilt = quotient(tangent - by.TAN_52, UNIT + product(tangent, by.TAN_52))
    f, d = by.AT_52 + by.arctan(tilt), by.arctan(tan_d)
    B = f + product(k.c2, by.sine(2 * f)) + product(k.c4, by.sine(4 * f)) + product(k.c6, by.sine(6 * f))
    return {
        "far": far, "side": side, "x": x, "y": y, "p": p, "q": q, "sin p": sin_p, "cos p": cos_p, "sinh q": sinh_q, "cosh q": cosh_q,
        "number": product(cosh_q - sin_p, cosh_q + sin_p), "root": product(cos_f, cosh_q), "tilt": tilt, "arctan": by.arctan(tilt), "f": f, "B": B,
        "tan d": tan_d, "d": d, "B ticks": by.turned_to(by.HALF_TURN_TICKS, B), "d ticks": by.turned_to(by.HALF_TURN_TICKS, d),
    }


# ---- the worked numbers of a point, with the signs that the code puts on last


def forward_worked(system, B, d):
    at, side = worked.forward(worked.CONSTANTS[system.ellipsoid.name], B, abs(d)), -1 if d < 0 else 1
    south = -1 if at["south"] else 1
    signed = {name: side * at[name] for name in ("sd", "across", "artanh", "east", "tangent", "turn", "convergence")}
    return {
        **at, **signed, "numerator": 2 * at["n2"], "denominator": 2 * at["d2"], "doubled": 2 * at["kc"], "tilt": south * at["tilt"],
        "arctan": south * at["arctan"], "slope": (-side if at["back"] else side) * at["slope"], "X": Fraction(at["pair"][0]),
        "Y": side * Fraction(at["pair"][1]), "scale answer": worked.scale_units(at["scale"], 1000 * worked.millionths(system)),
        "convergence answer": worked.convergence_units(side * at["convergence"]),
    }


def inverse_worked(system, X, Y):
    k, across = worked.CONSTANTS[system.ellipsoid.name], Y - 1000 * system.y0
    at = worked.inverse(k, worked.millionths(system), X - 1000 * system.x0, abs(across))
    west = -1 if across < 0 else 1
    side, south = -west if at["back"] else west, -1 if at["south"] else 1
    signed = {name: side * at[name] for name in ("q", "sinh q", "tan d", "d")}
    return {
        **at, **signed, "side": west * at["side"], "x": Fraction(at["pair"][0]), "y": west * Fraction(at["pair"][1]), "tilt": south * at["tilt"],
        "arctan": south * at["arctan"], "B ticks": Fraction(worked.mul60(at["B"], worked.TICKS), 2**22),
        "d ticks": Fraction(side * worked.mul60(at["d"], worked.TICKS), 2**22),
    }


# ---- points


def forward_points(rng, count):
    """Ellipsoid, latitude and difference of longitude: corners and middles of the range, the bands' ends, and random ones."""
    low, high = projection.LOW_B, projection.HIGH_B
    for ellipsoid in (GRS80, KRASOVSKY):
        for B in (low, low + 1, 50 * DEGREE, 52 * DEGREE - 1, 52 * DEGREE, 52 * DEGREE + 1, 54 * DEGREE, high - 1, high):
            for d in (0, 1, 2, 1000, WIDEST // 2, WIDEST - 1, WIDEST):
                yield ellipsoid, B, d
                yield ellipsoid, B, -d
        for ticks in (band * bands.WIDTH + h for band in range(32) for h in (0, bands.WIDTH - 1)):
            for side in (1, -1):
                yield ellipsoid, min(low + ticks, high), side * min(ticks, WIDEST)
        for _ in range(count // 2):
            yield ellipsoid, rng.randint(low, high), rng.randint(-WIDEST, WIDEST)


def box(system):
    m0 = Fraction(system.m0)
    return (int(m0 * limit) for limit in (projection.LOW_X, projection.HIGH_X, projection.SIZE_Y))


def inverse_points(rng, count):
    """System, X and Y: ends of the box of refusal 4, its middles, and random ones."""
    for system in SYSTEMS.values():
        x, y = 1000 * system.x0, 1000 * system.y0
        low, high, side = box(system)
        for X in (low, low + 1, (low + high) // 2, high - 1, high):
            for Y in (-side, 1 - side, -side // 2, -1, 0, 1, side // 2, side - 1, side):
                yield system, x + X, y + Y
    for _ in range(count):
        system = rng.choice(list(SYSTEMS.values()))
        low, high, side = box(system)
        yield system, 1000 * system.x0 + rng.randint(low, high), 1000 * system.y0 + rng.randint(-side, side)


# ---- measuring


class Worst:
    """The largest distance of each leaf, in its own units."""

    def __init__(self, leaves):
        self.leaves = leaves
        self.gaps = {leaf.name: 0 for leaf in leaves}

    def add(self, found, defined):
        for leaf in self.leaves:
            gap = abs(found[leaf.name] * UNIT - defined[leaf.name] * leaf.scale)
            if gap > self.gaps[leaf.name]:
                self.gaps[leaf.name] = gap

    def rows(self):
        return [(leaf, Fraction(self.gaps[leaf.name]) / UNIT) for leaf in self.leaves]


def shown(number):
    number = float(number)
    return "%.0f" % number if number >= 100 else "%.3g" % number if number >= 0.001 else "%.2g" % number


def report(title, worst):
    """Prints the table; whether every distance keeps its bound."""
    print("%s\n%-46s %12s %12s  %s" % (title, "leaf", "measured", "proved", "theorem"))
    kept = True
    for leaf, gap in worst.rows():
        above = gap > leaf.bound
        kept = kept and not above
        print("%-46s %12s %12s  %s%s" % (leaf.words, shown(gap), shown(leaf.bound), leaf.theorem, "  ABOVE THE BOUND" if above else ""))
    print()
    return kept


def measure_forward(rng, count):
    worst, points = Worst(FORWARD), 0
    for ellipsoid, B, d in forward_points(rng, count):
        system = SYSTEMS[1 if ellipsoid is GRS80 else 8]
        defined = forward_defined(system, B, d)
        whole = by.forward(system, B, system.L0 + d)
        m0 = by.scaled(system.m0)
        assert whole == (1000 * product(m0, defined["X"]), 1000 * product(m0, defined["Y"]), defined["scale answer"], defined["convergence answer"])
        worst.add(forward_worked(system, B, d), defined)
        points += 1
    return report("Forward, %d points, in units of 2^-60 where no other is said" % points, worst)


def measure_inverse(rng, count):
    worst, points = Worst(INVERSE), 0
    for system, X, Y in inverse_points(rng, count):
        defined = inverse_defined(system, X, Y)
        assert by.inverse(system, X, Y) == (defined["B ticks"], defined["d ticks"])
        worst.add(inverse_worked(system, X, Y), defined)
        points += 1
    return report("Inverse, %d points, in units of 2^-60 where no other is said" % points, worst)


def main(words):
    count = int(words[0]) if words else 20_000
    worked_against_code.vectors()
    print()
    rng = random.Random("leaves")
    kept = [measure_forward(rng, count), measure_inverse(rng, count)]
    if not all(kept):
        sys.exit("leaves: a distance is above its bound")


if __name__ == "__main__":
    main(sys.argv[1:])
