"""Maker of the field vectors: outer rings, inner rings and points where an answer is easily wrong, from a fixed seed, with the lines that fields.py answers.

    python3 reference/field_cases.py crates/field_vectors

writes `stdin` and `stdout` of that test program. A case is the number of rings, the corner count of each, the length of a list of numbers, the point's X and Y,
and the list; -1 rings stands for the field of the case before, and the point follows at once. Every number is 8 bytes, signed, little-endian. The output has
one line for each case, its number from 1 first. Assumes Python 3.9 or newer and its standard library.
"""

import random
import struct
import sys
from collections import Counter
from itertools import combinations, permutations, product
from math import gcd
from pathlib import Path

import fields
from fields import of_rings, square
from ring_cases import BOW, EDGE, HIGH, HOOK, HOUSE, LOW, SPAN, SQUARE, TRIANGLE, beside, comb, convex, far, moved, pulled, star, turned_round

# What the test program has room for in one case.
ROOM_FOR_RINGS = 32
ROOM_FOR_NUMBERS = 8192

PENTAGRAM = [(0, 6), (3, 0), (6, 6), (0, 2), (6, 2)]
DART = [(0, 0), (9, 3), (0, 6), (3, 3)]
KINDS = (6, 7, 8, 9, 15)


# ---- rings


def scaled(corners, factor):
    return [(x * factor, y * factor) for x, y in corners]


def begun_at(corners, k):
    """The same ring with corner k first, so that another edge is the last."""
    return corners[k:] + corners[:k]


def ways(corners):
    """A ring from each of its corners, in both directions."""
    return [begun_at(laid, k) for laid in (corners, corners[::-1]) for k in range(len(corners))]


def middle(corners):
    return tuple(sum(corner[k] for corner in corners) // len(corners) for k in (0, 1))


def pond(k):
    """An inner ring of the square of 1,000 mm, in the k-th of twenty places, with a shape and a direction of its own."""
    shapes = (TRIANGLE, DART, HOUSE, TRIANGLE[::-1], square(0, 0, 9), HOUSE[::-1], DART[::-1])
    return moved(scaled(shapes[k % len(shapes)], 10), 50 + 230 * (k % 4), 30 + 190 * (k // 4))


def ponds(count):
    return [pond(k) for k in range(count)]


def spoilt(ring):
    """For each refusal, rings that are refused by it in place of the ring. Those of 15 are badly placed by the outer ring alone."""
    x, y = ring[0]
    return {
        6: [[], ring[:1], ring[:2]],
        7: [ring[:-1] + [(x, EDGE + 1)], [(-EDGE - 1, y)] + ring[1:], ring[:-1] + [(HIGH, LOW)]],
        8: [ring[:-1] + [(x, y + SPAN + 1)], [(x - SPAN - 1, y)] + ring[1:]],
        9: [ring + ring[1:], moved(scaled(PENTAGRAM, 10), x, y), ring[:2] + ring[1:], moved(pulled(scaled(convex(3), 8), 4, 8), x, y), BOW],
        15: [moved(ring, 2000, 0), moved(ring, 1000 - x, 0), SQUARE[::-1], square(-1, -1, 1002), moved(ring, -x, -y)],
    }


def points_by(rng, field, count):
    """Points where an answer changes, each by a ring of the field, and held to i64, at whose ends a corner may lie."""
    shown = [ring for ring in field if ring]
    points = [next(beside(rng, rng.choice(shown), 1)) for _ in range(count)] if shown else [(0, 0)] * count
    return [tuple(min(max(number, LOW), HIGH) for number in point) for point in points]


def case(rng, field, count=1):
    """A field by its rings, and points by them."""
    return *of_rings(*field), points_by(rng, field, count)


# ---- groups: each yields (counts, numbers, points)


def sums(rng):
    """6 before all else: no ring, or counts that do not add up to the numbers, also where a sum of 32 bits would; beside every other refusal."""
    for length in (0, 1, 2, 6, 8):
        yield [], [1] * length, [(0, 0)]
    for counts in ([0], [0, 0], [4, 0], [0, 4], [4, 0, 3], [3, 4, 0]):
        numbers = of_rings(SQUARE, pond(0), pond(1))[1]
        yield counts, numbers[: 2 * sum(counts)], [(5, 5)]
        yield counts, numbers[: 2 * sum(counts) + 1], [(5, 5)]
    half, most = 2**31, 2**32 - 1
    for first in [SQUARE] + [bad for kind in KINDS[1:4] for bad in spoilt(SQUARE)[kind][:2]]:
        for inner in ([], [pond(2)], [pond(1), moved(pond(2), 5000, 0)]):
            counts, numbers = of_rings(first, *inner)
            for more in (-2, -1, 1, 2):
                yield counts, (numbers + [3, 4])[: len(numbers) + more], [(500, 500)]
            for wrong in (counts + [3], counts + [half], counts + [half, half], counts + [most, 1], counts + [0, most], [most] * 17, [half + counts[0]]):
                yield wrong, numbers, [(500, 500)]
            yield counts[:-1], numbers, [(500, 500)]
    counts, numbers = of_rings(SQUARE, *ponds(18))
    yield counts[:-1] + [counts[-1] + 1], numbers, [(500, 500)]
    yield [most] * ROOM_FOR_RINGS, numbers, [(500, 500)]
    yield [3] * 6, numbers[:36], [(500, 500)]


def by_place(rng):
    """Each refusal at each place of a field with all its rings, by itself and with a seventeenth inner ring behind."""
    for place, kind in product(range(17), KINDS):
        if (place, kind) == (0, 15):
            continue
        good = [SQUARE] + ponds(16)
        choices = spoilt(good[place])[kind]
        field = list(good)
        field[place] = choices[place % len(choices)]
        assert fields.Field(*of_rings(*field)).accept.split()[0] == str(kind)
        yield case(rng, field, 2)
        yield case(rng, field + [pond(16)])
    for count in range(20):
        yield case(rng, [SQUARE] + ponds(count), 2)


def orders(rng):
    """Two refusals in one field, at each two places of five and of each two kinds: the ring that comes first is refused, whatever its number."""
    for (first, second), (kind, other) in product(combinations(range(5), 2), product(KINDS, KINDS)):
        if (first, kind) == (0, 15):
            continue
        field = [SQUARE] + ponds(4)
        field[second] = rng.choice(spoilt(field[second])[other])
        field[first] = rng.choice(spoilt(field[first])[kind])
        assert fields.Field(*of_rings(*field)).accept.split()[0] == str(kind)
        yield case(rng, field)


def within_one_ring(rng):
    """Rings with several refusals of their own, as the outer ring and as an inner one: 6, 7, 8, 9, 15 in this order, each ring before the next."""
    past = (EDGE + 1, 5)
    wide = [(300, 300), (300, 301 + SPAN), (310, 300), (310, 301 + SPAN)]
    rings_with_two = [
        [past], [past, past], [past] * 129, [(k * SPAN, 0) for k in range(2)], [(5, 5)] * 2, [(5, 5)] * 129,
        [past, (0, 0), (50, 50)], [past, past, past], [past] + BOW, [past, (5, 5), (5, 5)], wide, [(5, 5), (5, 5), (6, 6 + SPAN)], wide[:2] + wide[3:],
        scaled(BOW, 2), moved(BOW, 500, 0), [(-5, 5), (5, 5), (5, 5), (5, 9)], moved(scaled(PENTAGRAM, 10), 130, 80), [(150, 80)] * 3,
    ]
    for ring in rings_with_two:
        for field in ([ring], [ring, pond(0)], [SQUARE, ring], [SQUARE, pond(0), ring], [SQUARE, pond(0), pond(5), ring, pond(7)], [SQUARE, ring, [past] * 3]):
            yield case(rng, field)
    yield case(rng, [[past] * 1025])
    yield case(rng, [SQUARE, [past] * 1025])


def seventeenth(rng):
    """16: the seventeenth inner ring, whatever it is, also with more behind it; a refusal among the rings before it comes first, even of the sixteenth."""
    good = [SQUARE] + ponds(16)
    last = [bad for kind in KINDS for bad in spoilt(pond(16))[kind]] + [pond(16), pond(0), [(1, 1)] * 129]
    for ring in last:
        yield case(rng, good + [ring])
    for more in (2, 3, 7, ROOM_FOR_RINGS - 17):
        yield case(rng, good + [[]] * more)
        yield case(rng, good + [pond(16)] * more)
    for kind, place in product(KINDS, (1, 8, 15, 16)):
        field = good + [rng.choice(last), []]
        field[place] = rng.choice(spoilt(good[place])[kind])
        yield case(rng, field, 2)
    for kind in KINDS[:4]:
        yield case(rng, [rng.choice(spoilt(SQUARE)[kind])] + ponds(16) + [rng.choice(last)])


def corner_limits(rng):
    """Inner rings of 3, 127, 128 and more corners, well placed, at the first and at a later place; outer rings of 128 and more."""
    rounded = scaled(convex(32), 2)
    longer = rounded[:1] + [tuple((rounded[0][k] + rounded[1][k]) // 2 for k in (0, 1))] + rounded[1:]
    longest = longer[:3] + [tuple((longer[2][k] + longer[3][k]) // 2 for k in (0, 1))] + longer[3:]
    outer = square(-1000, -1000, 3000)
    for ring in (rounded[:3], rounded[:127], rounded, rounded[::-1], longer, longest, scaled(convex(33), 2)):
        yield case(rng, [outer, ring], 2)
        yield case(rng, [outer, square(-900, -900, 100), square(-700, -900, 100)[::-1], ring, square(900, 900, 5)], 2)
    for ring in (rounded, longer, longest):
        yield case(rng, [ring, square(-20, 200, 40)], 2)
        yield case(rng, [scaled(ring, 5), moved(ring, 0, 500)], 2)


def rounds():
    """Sixteen inner rings of 128 corners in rows of four, in both directions, inside the outer ring of 1,024 corners that `large` has."""
    ring = convex(32)
    return [moved(begun_at(ring, 8 * k)[:: -1 if k % 3 else 1], -1150 + 700 * (k % 4), 1320 + 700 * (k // 4)) for k in range(16)]


def large(rng):
    """1,024 corners and sixteen times 128: accepted, one more or one less of anything, the last ring badly placed by the outer ring, by the first or the last
    inner one before it, and crossed late."""
    outer, inner = convex(256), rounds()
    yield case(rng, [outer] + inner, 5)
    counts, numbers = of_rings(outer[::-1], *inner[::-1])
    yield counts, numbers, points_by(rng, [outer] + inner, 2)
    yield counts, numbers[:-1], [(0, 0)]
    yield counts, numbers + [0, 0], [(0, 0)]
    yield counts[:-1] + [127], numbers, [(0, 0)]
    yield case(rng, [outer] + inner + [square(-50, 2450, 3)])
    yield case(rng, [outer + outer[-1:]] + inner[:1])
    yield case(rng, [outer] + inner[:15] + [inner[15] + inner[15][-1:]])
    last = inner[15]
    yield case(rng, [outer] + inner[:15] + [last[:125] + [last[126], last[125], last[127]]])
    for target in (inner[0][64], inner[14][3], outer[700]):
        yield case(rng, [outer] + inner[:15] + [moved(last, target[0] - last[30][0], target[1] - last[30][1])])
    yield case(rng, [outer[:1021] + [outer[1022], outer[1021], outer[1023]], inner[3]])
    teeth = scaled(comb(255) + [(-9, 900), (-9, 100)], 10)
    for hole in ([(-20, 500), (80, 516), (-20, 524)], [(20, 32), (70, 36), (70, 44)], [(20, 13), (80, 15), (20, 18)], [(0, 10200), (-40, 10190), (-40, 10195)]):
        yield case(rng, [teeth, [(-40, 2000), (-60, 5000), (-40, 8000)], hole], 3)


def placed_by_outer():
    """Outer rings with inner rings that meet them by a corner, along an edge or across it, from inside and from outside, or not at all."""
    wide, notched = square(0, 0, 12), [(0, 0), (12, 0), (12, 12), (6, 5), (0, 12)]
    for inner in (
        [(0, 0), (5, 2), (2, 5)], [(0, 6), (4, 4), (4, 8)], [(0, 6), (6, 0), (12, 6), (6, 12)], [(0, 3), (0, 8), (5, 5)], [(0, 0), (12, 0), (6, 4)],
        [(0, -3), (0, 4), (5, 5)], [(0, -3), (0, 15), (5, 5)], [(0, 3), (0, 8), (-5, 5)], [(0, 6), (-4, 4), (-4, 8)], [(-2, 2), (2, -2), (-4, -4)],
        [(3, 3), (9, 3), (9, 15), (3, 15)], [(-3, 5), (15, 5), (15, 7), (-3, 7)], wide, [(1, 1), (11, 1), (11, 11), (1, 11)], [(12, 12), (15, 13), (13, 15)],
    ):
        yield wide, inner
    for inner in (
        [(4, 5), (8, 5), (6, 2)], [(6, 5), (3, 2), (9, 2)], [(3, 6), (9, 6), (6, 2)], [(4, 4), (8, 4), (6, 2)], [(4, 9), (8, 9), (6, 7)],
        [(6, 5), (8, 10), (4, 10)], [(0, 12), (6, 5), (12, 12)], [(1, 3), (11, 3), (11, 9), (6, 3), (1, 9)], notched[::-1],
        [(1, 2), (11, 2), (11, 8), (6, 4), (1, 8)],
    ):
        yield notched, inner


def touching(rng):
    """An inner ring beside the outer one, laid in eight ways, from each corner in both directions, and with each corner one off."""
    for outer, inner in placed_by_outer():
        for laid in turned_round(outer + inner):
            yield case(rng, [laid[: len(outer)], laid[len(outer) :]], 2)
        for way in ways(inner):
            yield case(rng, [rng.choice(ways(outer)), way])
        for k, (dx, dy) in product(range(len(inner)), ((1, 0), (-1, 0), (0, 1), (0, -1))):
            if rng.random() < 0.6:
                off = list(inner)
                off[k] = (off[k][0] + dx, off[k][1] + dy)
                yield case(rng, [outer, off])


def side_by_side():
    """Inner rings beside the square from 10 to 20: apart by 1 mm, touching from outside and from inside, crossing, equal."""
    return [
        square(20, 20, 5), square(21, 20, 5), square(21, 21, 5), [(20, 15), (25, 12), (25, 18)], [(21, 15), (25, 12), (25, 18)], square(20, 12, 4),
        square(20, 10, 10), square(20, 5, 10), square(20, 5, 20), square(21, 5, 20), square(10, 10, 10), [(5, 14), (25, 14), (25, 16), (5, 16)],
        square(15, 15, 10), square(5, 5, 10), [(10, 15), (14, 12), (14, 18)], [(11, 15), (14, 12), (14, 18)], [(10, 10), (14, 11), (11, 14)], square(10, 12, 4),
        square(12, 12, 4), square(5, 5, 20), square(10, 5, 20), [(8, 12), (12, 8), (6, 6)], [(8, 11), (11, 8), (6, 6)], [(10, 20), (20, 10), (25, 25)],
        [(10, 21), (21, 10), (25, 25)],
        [(5, 5), (25, 5), (25, 25), (21, 25), (21, 9), (9, 9), (9, 25), (5, 25)], [(5, 5), (25, 5), (25, 25), (20, 25), (20, 9), (9, 9), (9, 25), (5, 25)],
        [(9, 9), (25, 9), (9, 25)], [(5, 20), (20, 35), (35, 20), (34, 20), (20, 34), (6, 20)],
    ]


def inner_touching(rng):
    """Two inner rings beside each other, in both orders, laid in eight ways and in either direction; and with others between and behind them."""
    outer, one = square(0, 0, 40), square(10, 10, 10)
    for other in side_by_side():
        for pair in ([one, other], [other, one]):
            for laid in turned_round(outer + pair[0] + pair[1]):
                first, second = laid[4 : 4 + len(pair[0])], laid[4 + len(pair[0]) :]
                if rng.random() < 0.5:
                    yield case(rng, [laid[:4], rng.choice(ways(first)), rng.choice(ways(second))])
            between = [square(2 * k + 1, 37, 1) for k in range(14)]
            yield case(rng, [outer, pair[0]] + between[:1] + [pair[1]], 2)
            yield case(rng, [outer] + between[:1] + pair + between[1:2])
            yield case(rng, [outer, pair[0]] + between + [pair[1]], 2)
            yield case(rng, [outer] + between + pair)


def nested(rng):
    """Inner rings inside each other, in every order and direction, and one in the bay of another, which is allowed."""
    outer, chain = square(0, 0, 100), [square(20, 20, 40), square(30, 30, 20), square(35, 35, 5)]
    for count in (2, 3):
        for order in permutations(chain, count):
            for signs in product((1, -1), repeat=count):
                yield case(rng, [outer] + [ring[::sign] for ring, sign in zip(order, signs)])
    for order in permutations([chain[0], chain[2], square(70, 70, 9)]):
        yield case(rng, [outer] + list(order), 2)
    hook = moved(scaled(HOOK, 10), 20, 20)
    for other in (square(45, 25, 4), square(45, 45, 14), square(61, 65, 9), square(25, 45, 9), square(41, 61, 18), square(35, 55, 8), square(15, 15, 70)):
        for way in (hook, hook[::-1], begun_at(hook, 3)):
            yield case(rng, [outer, way, other], 2)
            yield case(rng, [outer, other, way], 2)


def outside(rng):
    """Inner rings round the outer one, beside it in eight directions, and in the bay of a hook, which is outside though inside its box."""
    hook = scaled(HOOK, 10)
    for outer in (SQUARE, SQUARE[::-1], moved(hook, 300, 300), scaled(HOUSE, 100)):
        x, y = middle(outer)
        for dx, dy in product((-1500, 0, 1500), repeat=2):
            yield case(rng, [outer, square(x + dx - 5, y + dy - 5, 4)], 2)
        for width in (1100, 3000):
            yield case(rng, [outer, square(x - width // 2, y - width // 2, width)[:: rng.choice((1, -1))]], 2)
    for laid in turned_round(hook + square(5, 25, 10) + square(25, 25, 10) + square(25, 45, 12) + square(45, 25, 12) + square(5, 5, 10)):
        for k in range(5):
            yield case(rng, [laid[:8], laid[8 + 4 * k : 12 + 4 * k]], 2)


def shown_fields():
    """Accepted fields whose points are looked at closely: every direction of outer and inner rings, and edges of several slopes with whole middles."""
    outer = scaled([(0, 0), (30, 4), (60, 0), (56, 50), (20, 60), (14, 30)], 2)
    inner = [moved(scaled(HOUSE, 4), 50, 20), moved(scaled(DART, 4), 60, 66), moved(scaled(TRIANGLE, 2), 36, 18)]
    for signs in product((1, -1), repeat=2):
        yield [outer[:: signs[0]]] + [ring[:: signs[1]] for ring in inner]
    yield [outer] + [begun_at(ring, 1)[:: (-1) ** k] for k, ring in enumerate(inner)]


def every_edge_and_corner(rng):
    """Every corner and the middle of every edge of every ring, and one off these in each direction."""
    for field in shown_fields():
        assert fields.Field(*of_rings(*field)).accept == "ok"
        points = []
        for ring in field:
            for (ax, ay), (bx, by) in zip(ring, begun_at(ring, 1)):
                for x, y in ((ax, ay), ((ax + bx) // 2, (ay + by) // 2)):
                    points += [(x + dx, y + dy) for dx, dy in ((0, 0), (1, 0), (-1, 0), (0, 1), (0, -1))]
        yield *of_rings(*field), [p for k, p in enumerate(points) if k % 5 == 0 or rng.random() < 0.5]


def every_millimetre(rng):
    """Every point of a small field and round it, with inner rings in both directions and one in the bay of another."""
    outer = [(0, 0), (8, 1), (16, 0), (15, 9), (16, 16), (8, 13), (0, 16)]
    bay = [[(2, 3), (6, 3), (6, 7), (5, 7), (5, 5), (2, 5)], [(3, 6), (3, 9), (4, 7)]]
    for field in ([outer] + bay, [outer[::-1], [(10, 2), (10, 8), (14, 5)], [(4, 9), (10, 9), (7, 12)]]):
        assert fields.Field(*of_rings(*field)).accept == "ok"
        yield *of_rings(*field), list(product(range(-1, 18), repeat=2))


def ends_of_i64(rng):
    for field in ([SQUARE, pond(1), pond(6)], [SQUARE[::-1], pond(1)], [SQUARE, BOW], [SQUARE, pond(1), moved(SQUARE, 0, 5000)]):
        for dx, dy in ((0, 0), (EDGE - 5000, -EDGE + 5000)):
            laid = [moved(ring, dx, dy) for ring in field]
            yield *of_rings(*laid), far(laid[0]) + far(laid[-1])[::3]


def limits(rng):
    """7 and 8 of inner rings at and past the limit, and fields in each corner of what is allowed."""
    for sx, sy in product((1, -1), repeat=2):
        laid = [[(sx * (EDGE - 1000 + x), sy * (EDGE - 1000 + y)) for x, y in ring] for ring in (SQUARE, pond(3), pond(8))]
        yield case(rng, laid, 4)
        for k in (1, 2):
            yield case(rng, laid[:k] + [moved(laid[k], sx * (EDGE - abs(laid[k][0][0]) + 1), 0)] + laid[k + 1 :], 2)
            yield case(rng, laid[:k] + [moved(laid[k], 0, sy * (EDGE - abs(laid[k][0][1]) + 1))] + laid[k + 1 :], 2)
    for place, number in product(range(6), (EDGE, EDGE + 1, -EDGE, -EDGE - 1, LOW, HIGH)):
        ring = [list(corner) for corner in pond(0)]
        ring[place // 2][place % 2] = number
        yield case(rng, [SQUARE, pond(5), [tuple(corner) for corner in ring]])
    wide = square(-SPAN // 2, -SPAN // 2, SPAN)
    for less in (2, 1, 0, -1, -2):
        for ring in (square(-SPAN // 2 + 1, -SPAN // 2 + 1, SPAN - less), [(0, 0), (SPAN - less, 5), (7, 9)], [(0, 0), (5, less - SPAN), (7, 9)]):
            yield case(rng, [wide, ring], 2)
            yield case(rng, [wide, [(3, -3), (9, -5), (8, -9)], ring])


def far_rings(rng):
    """Inner rings far outside: by the whole of what numbers allow, by one to two spans, and by less, so that long edges cross; in eight directions, with spans
    of any size, and some behind an inner ring that is well placed."""
    wide = [square(0, 0, SPAN), [(0, 0), (SPAN, 3), (SPAN - 7, SPAN), (5, SPAN - 9)], [(0, 0), (SPAN, SPAN), (SPAN // 2, SPAN // 2 + 1)]]
    shapes = wide + [square(0, 0, 7), TRIANGLE]
    for (sx, sy), outer, inner in product(product((-1, 0, 1), repeat=2), shapes[:4], shapes):
        if rng.random() < 0.5 or (sx, sy) == (0, 0):
            continue
        limit, near = 2 * (EDGE - SPAN), rng.choice((SPAN // 3, SPAN - 1, SPAN, SPAN + 1, 2 * SPAN))
        for away in (rng.randint(SPAN, 2 * SPAN), near, rng.randint(SPAN, limit), limit):
            # The outer ring goes to the side that leaves room for the inner one.
            at = [-s * min(EDGE - SPAN, max(0, away - EDGE + SPAN) + rng.randint(0, 9)) for s in (sx, sy)]
            ring = moved(inner[:: rng.choice((1, -1))], at[0] + sx * away, at[1] + sy * away)
            well = [moved(square(SPAN // 2, SPAN // 2, 9), *at)] if outer is shapes[0] and rng.random() < 0.5 else []
            yield case(rng, [moved(outer, *at)] + well + [ring], 2)


def hairs(rng):
    """Coprime p and q near ten million, and the whole points nearest to the line from the origin to (p, q) without lying on it, one on each side."""
    while True:
        p, q = rng.randint(9_000_000, SPAN // 2 - 20), rng.randint(9_000_000, SPAN // 2 - 20)
        if gcd(p, q) == 1:
            u = pow(q, -1, p)
            v = (u * q - 1) // p
            assert u * q - v * p == 1
            return p, q, (u, v), (p - u, q - v)


def almost(rng):
    """A corner at a long edge, a hair inside, a hair outside or on it: of the inner ring at the outer one's edge, the other way, and of two inner rings."""
    for _ in range(12):
        p, q, below, above = hairs(rng)
        dx, dy = rng.choice((-1, 1)) * rng.randint(0, EDGE - SPAN), rng.choice((-1, 1)) * rng.randint(0, EDGE - SPAN)
        for tip, factor in ((below, 1), (above, 1), ((p, q), 2)):
            triangle = scaled([(0, 0), (p, q), (p, 0)], factor)
            inner = [tip] + scaled([(p * 2 // 3, q // 3), (p * 3 // 4, q // 4)], factor)
            yield case(rng, [moved(triangle, dx, dy), moved(inner, dx, dy)], 2)
        for tip in (above, below):
            x, top, side = tip[0], p + 9, q + 9
            toothed = [(-9, -9), (top, -9), (top, side), (x + 7, side), tip, (x - 7, side), (-9, side)]
            yield case(rng, [moved(rng.choice(ways(toothed)), dx, dy), moved(rng.choice(ways([(0, 0), (p, q), (p, 0)])), dx, dy)], 2)
            pair = [[(0, 0), (p, q), (p, 0)], [tip, (0, q), (0, q - 9)]][:: rng.choice((1, -1))]
            yield case(rng, [moved([(-9, -9), (top, -9), (top, side), (-9, side)], dx, dy)] + [moved(rng.choice(ways(ring)), dx, dy) for ring in pair], 2)


def standing_of_crossed(rng):
    """Crossed and badly placed rings whose turning numbers are 2, -1 or 0 in their parts: position answers by them, though accept refuses."""
    bow, twice = [(0, 0), (8, 8), (8, 0), (0, 8)], square(0, 0, 8) * 2
    outers = [square(-2, -2, 12), PENTAGRAM, PENTAGRAM[::-1], bow, star(convex(5), 3), twice]
    inners = [PENTAGRAM, PENTAGRAM[::-1], scaled(PENTAGRAM, 2), square(1, 1, 4), [(1, 1), (7, 7), (7, 1), (1, 7)], [(3, 3)] * 3, [(1, 4), (5, 4), (3, 4)]]
    for outer, inner in product(outers, inners):
        field = [outer, inner]
        yield *of_rings(*field), points_by(rng, field, 2) + [(rng.randint(-3, 11), rng.randint(-3, 11)) for _ in range(4)] + [(3, 3)]
        field = [outer, square(2, 2, 2), inner, square(3, 1, 4)]
        yield *of_rings(*field), points_by(rng, field, 2) + [(rng.randint(-3, 11), rng.randint(-3, 11)) for _ in range(3)]


def random_ring(rng, x, y, width, corners):
    return [(rng.randint(x, x + width), rng.randint(y, y + width)) for _ in range(corners)]


def small(rng):
    """Random fields of small numbers: most coincidences of corners and edges come up here."""
    for _ in range(700):
        outer = rng.choice((square(0, 0, 9), list(fields.dented_ring(rng)), list(fields.dented_ring(rng)), random_ring(rng, 0, 0, 9, rng.choice((3, 4, 5)))))
        inner = []
        for _ in range(rng.choice((1, 1, 2, 2, 3, 4))):
            any_ring = random_ring(rng, rng.randint(-1, 8), rng.randint(-1, 8), rng.choice((1, 2, 3, 5)), rng.choice((3, 3, 4, 5)))
            inner.append(any_ring if rng.random() < 0.3 else list(fields.small_ring(rng)))
        yield *of_rings(outer, *inner), points_by(rng, [outer] + inner, 1) + [(rng.randint(-1, 11), rng.randint(-1, 11))]


def small_accepted(rng):
    """Random fields of small numbers that are accepted, which among random ones are few; grown ring by ring."""
    for _ in range(130):
        field = [list(fields.dented_ring(rng))]
        for _ in range(40):
            more = field + [list(fields.small_ring(rng))]
            if len(field) < 5 and fields.Field(*of_rings(*more)).accept == "ok":
                field = more
        if len(field) > 1:
            yield *of_rings(*field), points_by(rng, field, 2) + [(rng.randint(0, 11), rng.randint(0, 11)) for _ in range(2)]


def middling(rng):
    """Convex rings and combs, stretched, anywhere in the limits, with convex and random rings strewn over them."""
    for _ in range(90):
        factor = rng.choice((40, 3000, 100_000))
        outer = rng.choice((scaled(convex(rng.choice((3, 8, 12))), factor), scaled(comb(rng.choice((2, 5)), 60, 9), factor // 4)))
        least, most = [tuple(end(corner[k] for corner in outer) for k in (0, 1)) for end in (min, max)]
        at = [rng.randint(-EDGE - least[k], EDGE - most[k]) for k in (0, 1)]
        field = [moved(outer, *at)]
        for _ in range(rng.choice((1, 2, 4, 9))):
            x, y = [at[k] + rng.randint(least[k], most[k]) for k in (0, 1)]
            width = rng.choice((3, factor // 4, factor))
            field.append(rng.choice((moved(scaled(convex(rng.choice((2, 5))), width // 3), x, y), random_ring(rng, x, y, width, 3), square(x, y, width))))
        if all(abs(number) <= EDGE for number in of_rings(*field)[1]):
            yield case(rng, field, 2)


def late_pairs(rng):
    """9 of an inner ring at several places, with its first pair late in the search, where a search may take sixteen edges at a time."""
    outer = square(-200_000, -200_000, 1_000_000)
    for quarter in (9, 17, 32):
        ring = scaled(convex(quarter), 1000)
        n = len(ring)
        for low, high in product((0, 1, 15, 16, 17, n - 20), (16, 17, 31, 32, 33, n - 3, n - 2)):
            if low + 1 < high < n - 1 and (low, high) != (0, n - 2) and rng.random() < 0.6:
                before = [square(500_000 + 20_000 * k, 500_000, 10_000) for k in range(rng.choice((0, 1, 3)))]
                yield case(rng, [outer] + before + [pulled(ring, low, high)])


def tipped(ring, tip):
    """A convex ring with its corner that is nearest in direction drawn out to a tip, which becomes the first corner."""
    x, y = middle(ring)
    k = max(range(len(ring)), key=lambda k: (ring[k][0] - x) * (tip[0] - x) + (ring[k][1] - y) * (tip[1] - y))
    return [tip] + begun_at(ring, k)[1:]


def poking(rng):
    """A ring of 64 corners and one with a tip that is short of an edge of the first, on it or past it, both edge and tip in places where a search may take
    sixteen edges at a time; the larger ring is the outer one, or an inner one before or after the other."""
    large_ring, yard = scaled(convex(16), 1000), square(-150_000, -150_000, 400_000)
    x, y = middle(large_ring)
    for _ in range(24):
        k = rng.randrange(64)
        (ax, ay), (bx, by) = large_ring[k], large_ring[(k + 1) % 64]
        touched = ((ax + bx) // 2, (ay + by) // 2)
        one = begun_at(large_ring, (k - rng.choice((0, 1, 15, 16, 17, 31, 32, 47, 48, 62, 63))) % 64)
        for way in (-1, 0, 1):
            tip = (touched[0] + way * (touched[0] - x) // 50, touched[1] + way * (touched[1] - y) // 50)
            turn = -rng.choice((0, 1, 15, 16, 17, 31, 32, 46, 47))
            within = begun_at(tipped(moved(scaled(convex(12), 100), x, y), tip), turn)
            assert fields.Field(*of_rings(one, within)).accept == ("15" if way >= 0 else "ok")
            yield case(rng, [one, within])
            beyond = moved(scaled(convex(3), 1000), touched[0] + (touched[0] - x) // 2, touched[1] + (touched[1] - y) // 2)
            pair = [one, begun_at(tipped(beyond, tip), rng.randrange(12))]
            yield case(rng, [yard] + pair[:: rng.choice((1, -1))])


GROUPS = [
    sums, by_place, orders, within_one_ring, seventeenth, corner_limits, large, touching, inner_touching, nested, outside, every_edge_and_corner,
    every_millimetre, ends_of_i64, limits, far_rings, almost, standing_of_crossed, small, small_accepted, middling, late_pairs, poking,
]


def made():
    """Every field of every group, in order: the group's name, counts, numbers and points."""
    for group in GROUPS:
        # A seed for each group, so that a group may change without moving the others.
        rng = random.Random("fields " + group.__name__)
        for counts, numbers, points in group(rng):
            assert len(counts) <= ROOM_FOR_RINGS and len(numbers) <= ROOM_FOR_NUMBERS
            yield group.__name__, counts, numbers, points


def bytes_of(*numbers):
    return struct.pack("<%dq" % len(numbers), *numbers)


def kind_of(answer):
    """The refusal and, of 9, its ring."""
    return " ".join(answer.split()[:2])


def main(folder):
    fields.worked()
    taken, lines, groups, answers, placed = bytearray(), [], Counter(), Counter(), Counter()
    for name, counts, numbers, points in made():
        field = fields.Field(counts, numbers)
        answers[kind_of(field.accept)] += 1
        for k, (x, y) in enumerate(points):
            taken += bytes_of(len(counts), *counts, len(numbers), x, y, *numbers) if k == 0 else bytes_of(-1, x, y)
            lines.append("%d %s\n" % (len(lines) + 1, field.line((x, y))))
            groups[name] += 1
            placed[field.position((x, y))] += 1
    (folder / "stdin").write_bytes(taken)
    (folder / "stdout").write_text("".join(lines))
    print("%d fields, %d cases, %d bytes in, %d bytes out" % (sum(answers.values()), len(lines), len(taken), sum(map(len, lines))))
    print("cases by group:", dict(groups))
    print("fields by accept:", dict(sorted(answers.items())))
    print("cases by position:", dict(sorted(placed.items())))


if __name__ == "__main__":
    main(Path(sys.argv[1]))
