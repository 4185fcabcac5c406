"""Independent checker of rings: what document 01 says of a list of corner numbers and a point, in whole numbers and fractions of any size.

It shares nothing with the crates. Where the rules can be read in two ways of computing, it takes the other one from a program that multiplies: sharing a
point is solved for m, i and j as the rules state it (a pair of linear equations over the fractions), the turning number compares the point with the place
where an edge passes the point's X, and the border is the sharing rule with the point as a line of no length. Each is asserted against the rules' own formula.
Assumes Python 3.9 or newer and its standard library.
"""

from fractions import Fraction
from itertools import combinations, product
from math import lcm

LEAST_CORNERS = 3
MOST_CORNERS = 1024
LARGEST_NUMBER = 10**10
LARGEST_SPAN = 20_000_000


# ---- sharing a point: whole m > 0 and i, j from 0 to m with (m-i)·a + i·b = (m-j)·c + j·d in X and in Y


def point_times(m, i, a, b):
    """(m-i)·a + i·b: the point that lies i/m along the line a-b, times m."""
    return ((m - i) * a[0] + i * b[0], (m - i) * a[1] + i * b[1])


def witness(s, t, a, b, c, d):
    """The rule's m, i, j for the place s along a-b and t along c-d, seen to meet the rule."""
    m = lcm(s.denominator, t.denominator)
    i, j = int(s * m), int(t * m)
    assert m > 0 and 0 <= i <= m and 0 <= j <= m
    assert point_times(m, i, a, b) == point_times(m, j, c, d)
    return m, i, j


def ends_on_line(u, v, w):
    """The ends of what the line u·s + v·t = w, not both u and v 0, has of the square 0 <= s, t <= 1: none, one or two pairs (s, t)."""
    found = set()
    for at in (Fraction(0), Fraction(1)):
        if v != 0 and 0 <= (w - u * at) / v <= 1:
            found.add((at, (w - u * at) / v))
        if u != 0 and 0 <= (w - v * at) / u <= 1:
            found.add(((w - v * at) / u, at))
    # A line leaves a square through its sides, so the part inside has its ends among these; more than two are met only where corners repeat.
    ordered = sorted(found)
    return ordered[:1] + ordered[-1:] if len(ordered) > 1 else ordered


def places(a, b, c, d):
    """All pairs (s, t) in the square with a + s·(b-a) = c + t·(d-c), by the ends of that set, which is empty, a point, a line or the square."""
    rows = []
    for k in (0, 1):
        rows.append((Fraction(b[k] - a[k]), Fraction(c[k] - d[k]), Fraction(c[k] - a[k])))
    (u1, v1, w1), (u2, v2, w2) = rows
    determinant = u1 * v2 - u2 * v1
    if determinant != 0:
        s, t = (w1 * v2 - w2 * v1) / determinant, (u1 * w2 - u2 * w1) / determinant
        return [(s, t)] if 0 <= s <= 1 and 0 <= t <= 1 else []
    for (u, v, w), other in (rows, reversed(rows)):
        if u != 0 or v != 0:
            factor = other[0] / u if u != 0 else other[1] / v
            return ends_on_line(u, v, w) if other[2] == factor * w else []
    # Both lines have no length: each place of the square, or none.
    return [(Fraction(0), Fraction(0))] if w1 == 0 and w2 == 0 else []


def boxes_part(a, b, c, d):
    """The boxes of the two lines have no point in common, so the lines have none: a quick way to the answer `no` for large rings."""
    for k in (0, 1):
        if max(a[k], b[k]) < min(c[k], d[k]) or max(c[k], d[k]) < min(a[k], b[k]):
            return True
    return False


def shared(a, b, c, d):
    """The ends of what the lines a-b and c-d share, as the rule's (m, i, j); an empty list where they share no point."""
    if boxes_part(a, b, c, d):
        return []
    return [witness(s, t, a, b, c, d) for s, t in places(a, b, c, d)]


# ---- crossed


def share_off(a, b, c, d, corner):
    """a-b and c-d share a point that is not `corner`. What they share is a line at most, so one of its ends is another point, or none is."""
    return any(point_times(m, i, a, b) != (m * corner[0], m * corner[1]) for m, i, _ in shared(a, b, c, d))


def pair_crossed(corners, low, high):
    """Edges low and high, low before high, are a crossed pair."""
    n = len(corners)
    a, b = corners[low], corners[(low + 1) % n]
    c, d = corners[high], corners[(high + 1) % n]
    if high == low + 1:
        return share_off(a, b, c, d, c) or a == b
    if low == 0 and high == n - 1:
        # Edge 0 is the edge after the last.
        return share_off(a, b, c, d, a) or c == d
    return bool(shared(a, b, c, d))


def looked_through(corners):
    """The first crossed pair in order of the lower edge number, then of the higher, None for a clean ring; and how many pairs were looked at, that one too."""
    looked = 0
    for looked, (low, high) in enumerate(combinations(range(len(corners)), 2), 1):
        if pair_crossed(corners, low, high):
            return (low, high), looked
    return None, looked


def first_crossed(corners):
    return looked_through(corners)[0]


# ---- area, turning number, border


def edges(corners):
    return [(corners[k], corners[(k + 1) % len(corners)]) for k in range(len(corners))]


def area2(corners):
    """Doubled area, by the rule, and by the strips between each edge and an axis."""
    by_rule = sum(a[0] * b[1] - b[0] * a[1] for a, b in edges(corners))
    assert by_rule == sum((a[0] - b[0]) * (a[1] + b[1]) for a, b in edges(corners))
    return by_rule


def side(a, b, p):
    """The rule's D."""
    return (b[0] - a[0]) * (p[1] - a[1]) - (p[0] - a[0]) * (b[1] - a[1])


def turn(a, b, p):
    """What the edge a-b adds: the point lies east of the place where the edge passes its X, and the edge runs north (+1) or south (-1) there."""
    added = 0
    if min(a[0], b[0]) <= p[0] < max(a[0], b[0]):
        passes = a[1] + Fraction((p[0] - a[0]) * (b[1] - a[1]), b[0] - a[0])
        if p[1] > passes:
            added = 1 if a[0] < b[0] else -1
    by_rule = (a[0] <= p[0] < b[0] and side(a, b, p) > 0) - (b[0] <= p[0] < a[0] and side(a, b, p) < 0)
    assert added == by_rule
    return added


def turning_number(corners, p):
    return sum(turn(a, b, p) for a, b in edges(corners))


def on_border(corners, p):
    for a, b in edges(corners):
        boxed = all(min(a[k], b[k]) <= p[k] <= max(a[k], b[k]) for k in (0, 1))
        on = bool(shared(a, b, p, p))
        assert on == (boxed and side(a, b, p) == 0)
        if on:
            return True
    return False


# ---- refusals, in order, and the answers


def corners_of(numbers):
    """The corners of a flat list and 0, or nothing and the refusal 6, 7 or 8."""
    count = len(numbers) // 2
    if len(numbers) % 2 == 1 or count < LEAST_CORNERS or count > MOST_CORNERS:
        return None, 6
    if any(abs(number) > LARGEST_NUMBER for number in numbers):
        return None, 7
    for k in (0, 1):
        if max(numbers[k::2]) - min(numbers[k::2]) > LARGEST_SPAN:
            return None, 8
    return list(zip(numbers[0::2], numbers[1::2])), 0


def position(corners, p):
    """The nozzle rule without the question whether the ring is crossed."""
    if on_border(corners, p):
        return "border"
    return "open" if turning_number(corners, p) != 0 else "shut"


class Ring:
    """A list of corner numbers with what does not depend on a point worked out once."""

    def __init__(self, numbers):
        self.numbers = list(numbers)
        self.corners, self.refusal = corners_of(self.numbers)
        self.pair, self.looked = looked_through(self.corners) if self.corners else (None, 0)
        self.area2 = area2(self.corners) if self.corners else None

    def line(self, p):
        """The line of the vectors: area, turning number, crossing, nozzle and position answers in this order."""
        if self.refusal:
            return "area2 refused %d turning refused %d crossing refused %d nozzle refused %d position refused %d" % ((self.refusal,) * 5)
        crossing = ("crossed %d %d" % self.pair if self.pair else "clean") + " looked %d" % self.looked
        place = position(self.corners, p)
        nozzle = crossing if self.pair else place
        turning = turning_number(self.corners, p)
        return "area2 %d turning %d crossing %s nozzle %s position %s" % (self.area2, turning, crossing, nozzle, place)


# ---- the worked numbers of document 01, by this checker


def worked():
    square = [(0, 0), (1000, 0), (1000, 1000), (0, 1000)]
    bow = [(0, 0), (1000, 1000), (1000, 0), (0, 1000)]
    assert area2(square) == 2_000_000 and area2(square[::-1]) == -2_000_000 and area2(bow) == 0
    assert [turning_number(bow, p) for p in ((900, 500), (100, 500), (500, 100), (500, 900))] == [-1, 1, 0, 0]
    assert turning_number(square, (500, 500)) == 1 and position(square, (500, 500)) == "open"
    assert turning_number(square, (0, 500)) == 1 and position(square, (0, 500)) == "border"
    assert turning_number(square, (1000, 500)) == 0 and position(square, (1000, 500)) == "border"
    assert area2(square[0:3]) == area2(square[0:1] + square[2:]) == 1_000_000
    assert looked_through(bow) == ((0, 2), 2) and looked_through(square) == (None, 6)


def literal(width=3):
    """The solver against the sharing rule tried out word for word, for all pairs of lines with corners on a small square.

    There the determinant is at most 8 in size, so that m up to 8 meets every case."""
    spots = [(x, y) for x in range(width) for y in range(width)]
    tried = [(m, i, j) for m in range(1, 9) for i in range(m + 1) for j in range(m + 1)]
    for a, b, c, d in product(spots, repeat=4):
        found = [(m, i) for m, i, j in tried if point_times(m, i, a, b) == point_times(m, j, c, d)]
        assert bool(found) == bool(shared(a, b, c, d))
        if b == c:
            off = any(point_times(m, i, a, b) != (m * b[0], m * b[1]) for m, i in found)
            assert off == share_off(a, b, c, d, b)


if __name__ == "__main__":
    worked()
    literal()
    print("rings: P1 to P12 hold, and the solver finds what the sharing rule finds")
