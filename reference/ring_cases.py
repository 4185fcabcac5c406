"""Maker of the ring vectors: rings and points where an answer is easily wrong, from a fixed seed, with the lines that rings.py answers.

    python3 reference/ring_cases.py crates/ring_vectors

writes `stdin` and `stdout` of that test program. A case is the length of a list of numbers, the point's X and Y, and the list; the length -1 stands for the
list of the case before. Every number is 8 bytes, signed, little-endian. The output has one line for each case, its number from 1 first.
Assumes Python 3.9 or newer and its standard library.
"""

import random
import struct
import sys
from collections import Counter
from math import gcd
from pathlib import Path

import rings

LOW, HIGH = -(2**63), 2**63 - 1
EDGE = rings.LARGEST_NUMBER
SPAN = rings.LARGEST_SPAN

SQUARE = [(0, 0), (1000, 0), (1000, 1000), (0, 1000)]
BOW = [(0, 0), (1000, 1000), (1000, 0), (0, 1000)]
TRIANGLE = [(0, 0), (6, 2), (1, 7)]
HOUSE = [(0, 0), (4, 0), (4, 3), (2, 5), (0, 3)]
HOOK = [(0, 0), (6, 0), (6, 6), (2, 6), (2, 4), (4, 4), (4, 2), (0, 2)]
SHAPES = [TRIANGLE, SQUARE, BOW, HOUSE, HOOK]


def flat(corners):
    return [number for corner in corners for number in corner]


def moved(corners, dx, dy):
    return [(x + dx, y + dy) for x, y in corners]


def turned_round(corners):
    """The eight ways to lay a shape on the axes: each turns another side of every test to the front."""
    for swap in (False, True):
        for sx in (1, -1):
            for sy in (1, -1):
                laid = [(sx * x, sy * y) for x, y in corners]
                yield [(y, x) for x, y in laid] if swap else laid


def convex(quarter):
    """A convex ring of 4·quarter corners: its edges are the shortest whole vectors, no two alike, in the order of their directions."""
    vectors = sorted(((p, q) for p in range(1, 60) for q in range(0, 60) if gcd(p, q) == 1), key=lambda v: (v[0] + v[1], v))[:quarter]
    vectors.sort(key=lambda v: v[1] / v[0])
    corners, x, y = [], 0, 0
    for _ in range(4):
        for p, q in vectors:
            corners.append((x, y))
            x, y = x + p, y + q
        vectors = [(-q, p) for p, q in vectors]
    assert (x, y) == (0, 0)
    return corners


def comb(teeth, height=9, below=5):
    """A comb of 4·teeth + 2 corners, long thin teeth side by side."""
    corners = [(-below, 0)]
    for k in range(teeth):
        corners += [(0, 4 * k), (height, 4 * k + 1), (height, 4 * k + 2), (0, 4 * k + 3)]
    return corners + [(-below, 4 * teeth)]


def pulled(corners, low, high):
    """A convex ring whose corner high + 1 is pulled past the middle of edge `low`: edge `high` and the one after it cross that edge."""
    n = len(corners)
    (ax, ay), (bx, by) = corners[low], corners[(low + 1) % n]
    mx, my = sum(x for x, _ in corners) // n, sum(y for _, y in corners) // n
    tip = ((ax + bx) // 2 + ((ax + bx) // 2 - mx) // 50, (ay + by) // 2 + ((ay + by) // 2 - my) // 50)
    return corners[:high + 1] + [tip] + corners[high + 2:]


def star(corners, step):
    """The corners of a ring taken `step` apart: it turns `step` times round its middle."""
    return [corners[k * step % len(corners)] for k in range(len(corners))]


# ---- points for a ring


def beside(rng, corners, count):
    """Points where a turning number or a border changes: corners, middles of edges, one off either, and any point of the box."""
    xs, ys = [c[0] for c in corners], [c[1] for c in corners]
    for _ in range(count):
        k = rng.randrange(len(corners))
        (ax, ay), (bx, by) = corners[k], corners[(k + 1) % len(corners)]
        kind = rng.randrange(6)
        if kind == 0:
            yield ax, ay
        elif kind == 1:
            yield ax + rng.randint(-1, 1), ay + rng.randint(-1, 1)
        elif kind == 2:
            yield (ax + bx) // 2 + rng.randint(-1, 1), (ay + by) // 2
        elif kind == 3:
            yield ax, rng.randint(min(ys) - 1, max(ys) + 1)
        else:
            yield rng.randint(min(xs) - 1, max(xs) + 1), rng.randint(min(ys) - 1, max(ys) + 1)


def far(corners):
    """Points at the ends of i64, alone and level with the ring, where a difference of two numbers leaves 64 bits."""
    x, y = corners[0]
    ends = (LOW, LOW + 1, HIGH - 1, HIGH)
    return [(px, py) for px in ends for py in (LOW, y, HIGH)] + [(px, py) for px in (x, x + 1, x - 1) for py in ends]


# ---- groups: each yields (list of numbers, points)


def counts(rng):
    """6: too few, too many, a list of odd length, also beside 7 and 8, which come later."""
    for length in range(0, 14):
        yield [rng.randint(-9, 9) for _ in range(length)], [(0, 0)]
    for length in (0, 1, 2, 3, 4, 5, 7):
        yield [EDGE + 1] * length, [(0, 0)]
        yield [SPAN * k for k in range(length)], [(0, 0)]
    big = flat(convex(256))
    yield big, [(0, 0), (200, 5000), (-40, 3000)]
    for extra in (-1, 1, 2):
        yield (big + [1, 1])[: 2048 + extra], [(0, 0)]
    yield big[:2046] + [EDGE + 1] * 3, [(0, 0)]
    yield big[:2046] + [EDGE + 1] * 2, [(0, 0)]


def numbers_at_the_limit(rng):
    """7: each place of a ring at, past and far past the limit; 7 comes before 8."""
    for shape in (TRIANGLE, HOUSE):
        for sx in (1, -1):
            for sy in (1, -1):
                laid = [(sx * x, sy * y) for x, y in shape]
                top = [max(abs(c[k]) for c in laid) for k in (0, 1)]
                at = flat(moved(laid, sx * (EDGE - top[0]), sy * (EDGE - top[1])))
                yield at, list(beside(rng, list(zip(at[0::2], at[1::2])), 3))
                yield [number + sx if k % 2 == 0 else number for k, number in enumerate(at)], [(at[0], at[1])]
                yield [number + sy if k % 2 == 1 else number for k, number in enumerate(at)], [(at[0], at[1])]
    for shape in (TRIANGLE, SQUARE):
        for place in range(2 * len(shape)):
            for number in (EDGE, EDGE + 1, -EDGE, -EDGE - 1, LOW, HIGH, LOW + 1):
                numbers = flat(shape)
                numbers[place] = number
                yield numbers, [(500, 500)]


def spans(rng):
    """8: a span at and past the limit on either axis, by either end; 8 comes before 9."""
    for shape in ([(0, 0), (SPAN, 0), (7, 5)], [(0, 0), (SPAN, SPAN), (0, SPAN)], [(0, 0), (SPAN, SPAN), (SPAN, 0), (0, SPAN)]):
        for laid in turned_round(shape):
            for dx, dy in ((0, 0), (-SPAN // 2, 3), (EDGE - SPAN, 0), (SPAN - EDGE, SPAN - EDGE)):
                corners = moved(laid, dx, dy)
                if rings.corners_of(flat(corners))[1] == 7:
                    continue
                yield flat(corners), list(beside(rng, corners, 2))
                for k in range(len(corners)):
                    for sx, sy in ((1, 0), (0, -1)):
                        wide = list(corners)
                        wide[k] = (wide[k][0] + sx, wide[k][1] + sy)
                        yield flat(wide), [corners[0]]


def ends_of_i64(rng):
    for shape in SHAPES:
        for corners in (shape, shape[::-1], moved(shape, EDGE - 5000, -EDGE + 5000)):
            yield flat(corners), far(corners)


def without_length(rng):
    """An edge of no length at every place, twice in a row, and every corner the same."""
    for shape in SHAPES + [HOUSE[::-1]]:
        for k in range(len(shape)):
            for again in (1, 2):
                corners = shape[: k + 1] + [shape[k]] * again + shape[k + 1 :]
                yield flat(corners), list(beside(rng, corners, 2))
        for k in range(len(shape)):
            for l in range(k):
                corners = shape[: l + 1] + [shape[l]] + shape[l + 1 : k + 1] + [shape[k]] + shape[k + 1 :]
                yield flat(corners), list(beside(rng, corners, 1))
    for n in (3, 4, 5, 9):
        yield flat([(4, 5)] * n), [(4, 5), (4, 6), (3, 5)]
        yield flat([(4, 5)] * (n - 1) + [(7, 7)]), [(4, 5), (5, 6)]


def spikes(rng):
    """At every corner a line out and back; the point of the spike inside, outside, or on another edge."""
    for shape in SHAPES:
        xs, ys = [c[0] for c in shape], [c[1] for c in shape]
        for k in range(len(shape)):
            for _ in range(3):
                tip = (rng.randint(min(xs) - 2, max(xs) + 2), rng.randint(min(ys) - 2, max(ys) + 2))
                corners = shape[: k + 1] + [tip, shape[k]] + shape[k + 1 :]
                yield flat(corners), list(beside(rng, corners, 2))
            # Past the corner and back along the same edge, and back only half of it.
            (ax, ay), (bx, by) = shape[k - 1], shape[k]
            past = (2 * bx - ax, 2 * by - ay)
            corners = shape[:k] + [past, shape[k]] + shape[k + 1 :]
            yield flat(corners), list(beside(rng, corners, 2))
            corners = shape[:k] + [past] + shape[k + 1 :]
            yield flat(corners), list(beside(rng, corners, 2))


def touching(rng):
    """A corner on a corner, a corner on an edge, an edge on an edge, and the same one millimetre off."""
    wide = [(0, 0), (12, 0), (12, 12), (0, 12)]
    pieces = [
        [(0, 0), (6, 0), (6, 6), (12, 6), (12, 12), (6, 12), (6, 6), (0, 6)],
        [(0, 0), (12, 0), (12, 12), (6, 0), (0, 12)],
        [(0, 0), (12, 0), (12, 12), (8, 12), (8, 0), (4, 0), (4, 12), (0, 12)],
        [(0, 0), (12, 0), (12, 4), (6, 4), (6, 2), (9, 2), (9, 4), (3, 4), (3, 12), (0, 12)],
        [(0, 0), (12, 0), (12, 12), (6, 6), (0, 12)],
        [(0, 0), (4, 0), (8, 0), (12, 0), (12, 12), (12, 6), (6, 6), (0, 6)],
        wide + wide,
        wide + wide[1:],
        wide + moved(wide, 12, 0),
    ]
    for corners in pieces:
        for laid in turned_round(corners):
            yield flat(laid), list(beside(rng, laid, 2))
        for k in range(len(corners)):
            off = list(corners)
            off[k] = (off[k][0] + rng.choice((-1, 1)), off[k][1] + rng.choice((-1, 0, 1)))
            yield flat(off), list(beside(rng, off, 1))


def on_one_line(rng):
    """All corners on one line, in every order of four places, and on lines of several slopes."""
    for dx, dy in ((1, 0), (0, 1), (1, 1), (3, -2), (-5, 7)):
        for _ in range(14):
            places = [rng.randint(0, 3) for _ in range(rng.choice((3, 3, 4, 4, 5)))]
            corners = [(dx * k, dy * k) for k in places]
            yield flat(corners), [(dx * rng.randint(-1, 4), dy * rng.randint(-1, 4))]


def small(rng):
    """Coordinates from 0 to 3 at most: most coincidences of corners and edges come up here."""
    for _ in range(1150):
        top = rng.choice((1, 2, 2, 3, 3, 3))
        corners = [(rng.randint(0, top), rng.randint(0, top)) for _ in range(rng.choice((3, 3, 4, 4, 5, 5, 6, 7, 8)))]
        yield flat(corners), [(rng.randint(-1, top + 1), rng.randint(-1, top + 1)) for _ in range(2)]


def small_clean(rng):
    """Rings of small coordinates that are clean, which among random ones are few."""
    found = 0
    while found < 220:
        corners = [(rng.randint(0, 6), rng.randint(0, 6)) for _ in range(rng.choice((4, 5, 6, 7)))]
        if rings.first_crossed(corners) is None:
            found += 1
            yield flat(corners), list(beside(rng, corners, 2))


def almost(rng):
    """Long edges whose D is 0, 1 or -1 at a point or at each other: every bit of the products counts."""
    for _ in range(60):
        p, q = rng.randint(9_000_000, SPAN // 2), rng.randint(9_000_000, SPAN // 2)
        if gcd(p, q) != 1:
            continue
        # u·q - v·p = 1: the whole point nearest to the line without lying on it
        u = pow(q, -1, p)
        v = (u * q - 1) // p
        assert u * q - v * p == 1
        dx, dy = rng.choice((-1, 1)) * rng.randint(0, EDGE - SPAN), rng.choice((-1, 1)) * rng.randint(0, EDGE - SPAN)
        near = (u, v) if rng.random() < 0.5 else (p - u, q - v)
        corners = moved([(0, 0), (p, q), near if rng.random() < 0.7 else (p, 0)], dx, dy)
        yield flat(corners), [(dx + near[0], dy + near[1]), (dx + u, dy + v), (dx + p - u, dy + q - v), (dx + p // 2, dy + q // 2)]
        corners = moved([(0, 0), (p, q), (0, q), near], dx, dy)
        yield flat(corners), [(dx + near[0], dy + near[1])]


def stars_and_combs(rng):
    for quarter in (2, 3, 5):
        ring = convex(quarter)
        for step in range(1, 2 * quarter + 1):
            for corners in (star(ring, step), star(ring, step)[::-1]):
                yield flat(corners), list(beside(rng, corners, 4))
    for teeth in (1, 2, 5, 12):
        ring = comb(teeth)
        for corners in (ring, ring[::-1], ring[3:] + ring[:3]):
            yield flat(corners), list(beside(rng, corners, 4))
        bent = list(ring)
        bent[len(bent) // 2] = (bent[len(bent) // 2][0], bent[len(bent) // 2][1] + 5)
        yield flat(bent), list(beside(rng, bent, 3))


def middling(rng):
    """Random rings of middling size, spread over the whole span or along a line, anywhere in the limits."""
    for _ in range(60):
        width, height = rng.choice((40, 3000, SPAN)), rng.choice((40, 3000, SPAN))
        dx, dy = rng.randint(-EDGE, EDGE - width), rng.randint(-EDGE, EDGE - height)
        corners = [(dx + rng.randint(0, width), dy + rng.randint(0, height)) for _ in range(rng.choice((3, 4, 6, 10, 20)))]
        yield flat(corners), list(beside(rng, corners, 3))


def large(rng):
    """1,024 corners: clean, and crossed late. The last two edges are never the first pair: where they fold, edge 0 or edge n-3 touches one of them."""
    ring = convex(256)
    yield flat(ring[::-1]), list(beside(rng, ring, 2))
    teeth = comb(255) + [(-9, 900), (-9, 100)]
    yield flat(teeth), list(beside(rng, teeth, 3))
    late = teeth[1:] + teeth[:1]
    for tip in (late[1021], (late[1021][0] - 4, late[1021][1] - 600), ((late[1020][0] + late[1021][0]) // 2, late[1021][1])):
        yield flat(late[:1022] + [late[1022], tip]), [(0, 0)]
    yield flat(ring[:1021] + [ring[1022], ring[1021], ring[1023]]), [(5, 5)]
    wide = [(x * 3500, y * 3500) for x, y in ring]
    if rings.corners_of(flat(wide))[1] == 0:
        yield flat(wide), list(beside(rng, wide, 2))
    yield flat(ring[:1023] + ring[1022:1023]), [(5, 5)]
    yield flat(ring[:512] * 2), [(50, 300)]


def runs(rng):
    """Clean rings of which one corner is pulled across a side: the pairs come where a search may take sixteen edges at a time, at either end of the sixteen."""
    for quarter in (8, 9, 16, 17, 33):
        ring = [(x * 1000, y * 1000) for x, y in convex(quarter)]
        n = len(ring)
        yield flat(ring), [ring[0]]
        for low in (0, 1, 15, 16, n - 18):
            for high in sorted({low + 2, 15, 16, 17, 31, 32, 33, 47, 48, 63, 64, n - 3, n - 2}):
                if low + 1 < high < n - 1 and (low, high) != (0, n - 2):
                    yield flat(pulled(ring, low, high)), [(0, 0)]


GROUPS = [
    counts, numbers_at_the_limit, spans, ends_of_i64, without_length, spikes, touching, on_one_line, small, small_clean, almost, stars_and_combs, middling,
    large, runs,
]


def made():
    """Every case of every group, in order: (list of numbers, point)."""
    for group in GROUPS:
        # A seed for each group, so that a group may change without moving the others.
        rng = random.Random("rings " + group.__name__)
        for numbers, points in group(rng):
            yield group.__name__, numbers, points


def main(folder):
    rings.worked()
    taken, lines, groups, answers = bytearray(), [], Counter(), Counter()
    for name, numbers, points in made():
        ring = rings.Ring(numbers)
        answers["refused %d" % ring.refusal if ring.refusal else "crossed" if ring.pair else "clean"] += len(points)
        for k, point in enumerate(points):
            body = numbers if k == 0 else []
            taken += struct.pack("<%dq" % (3 + len(body)), len(numbers) if k == 0 else -1, *point, *body)
            lines.append("%d %s\n" % (len(lines) + 1, ring.line(point)))
            groups[name] += 1
    (folder / "stdin").write_bytes(taken)
    (folder / "stdout").write_text("".join(lines))
    print("%d cases, %d bytes in, %d bytes out" % (len(lines), len(taken), sum(map(len, lines))))
    print(dict(groups))
    print(dict(answers))


if __name__ == "__main__":
    main(Path(sys.argv[1]))
