"""Independent checker of fields: what documents 01 and 02 (i) say of an outer ring, its inner rings and a point, in whole numbers and fractions of any size.

It shares nothing with the crates, and takes from rings.py what is said of one ring. What is said of two rings is judged as the words have it, of every pair of
edges and of every corner. A program may know that one corner decides where no edges meet; here that is asserted of each two rings. Where a nozzle of an
accepted field stands is asserted in another way besides, by counting the edges of all rings that lie north of the point. Assumes Python 3.9 or newer and its
standard library.
"""

import random
from fractions import Fraction
from functools import lru_cache
from itertools import accumulate

import rings

MOST_INNER_RINGS = 16
MOST_INNER_CORNERS = 128


# ---- one ring: its refusals by place, 0 being the outer ring


def limits(place, numbers):
    """The refusal of a ring by its place and its numbers alone, or 0: 16 before anything else is said of the ring, then 6, 7 and 8."""
    if place > MOST_INNER_RINGS:
        return 16
    if place > 0 and len(numbers) > 2 * MOST_INNER_CORNERS:
        return 6
    return rings.corners_of(numbers)[1]


@lru_cache(maxsize=10_000)
def looked_through(ring):
    return rings.looked_through(ring)


# ---- two rings, each a tuple of corners


def edges_near(ring, other):
    """The edges whose boxes touch the other ring's box: no other edge shares a point with an edge of that ring, and large fields are judged sooner."""
    least, most = [tuple(end(corner[k] for corner in other) for k in (0, 1)) for end in (min, max)]
    return [(a, b) for a, b in rings.edges(ring) if not rings.boxes_part(a, b, least, most)]


@lru_cache(maxsize=10_000)
def meet(ring, other):
    """An edge of one ring shares a point with an edge of the other."""
    return any(rings.shared(a, b, c, d) for a, b in edges_near(ring, other) for c, d in edges_near(other, ring))


@lru_cache(maxsize=10_000)
def places(ring, other):
    """Where each corner of a ring stands to another ring: "border", or the turning number there."""
    found = ["border" if rings.on_border(other, corner) else rings.turning_number(other, corner) for corner in ring]
    # The corners of a ring are joined by its own edges. If these meet no side of the other ring, the turning number is the same all along.
    assert meet(ring, other) or (found[0] != "border" and len(set(found)) == 1)
    return found


def lies_inside(ring, other):
    """A corner of a ring has a turning number other than 0 in another one. On the border the two meet, which is asked by itself."""
    return any(place not in ("border", 0) for place in places(ring, other))


def badly_placed(ring, outer, inner):
    """15: of an inner ring beside the outer ring and the inner rings before it."""
    return (
        any(meet(ring, other) for other in [outer] + inner)
        or any(place in ("border", 0) for place in places(ring, outer))
        or any(lies_inside(ring, other) or lies_inside(other, ring) for other in inner)
    )


# ---- the field


def lists_of(counts, numbers):
    """The numbers of each ring; None where there is no ring, or the counts do not add up to just these numbers."""
    if not counts or 2 * sum(counts) != len(numbers):
        return None
    ends = [2 * end for end in accumulate(counts)]
    return [numbers[end - 2 * count : end] for count, end in zip(counts, ends)]


def accept(lists):
    """What the call accept answers for the rings' numbers: "ok", or the refusal, 9 with its ring, edges and pairs looked at."""
    taken = []
    for place, numbers in enumerate(lists):
        refusal = limits(place, numbers)
        if refusal:
            return str(refusal)
        ring = tuple(rings.corners_of(numbers)[0])
        pair, looked = looked_through(ring)
        if pair:
            return "9 %d %d %d %d" % (place, *pair, looked)
        if place > 0 and badly_placed(ring, taken[0], taken[1:]):
            return "15"
        taken.append(ring)
    return "ok"


def standing(field, p):
    """The nozzle rule at a point of the field's rings, the outer first, without the question whether they are crossed or badly placed."""
    if any(rings.on_border(ring, p) for ring in field):
        return "border"
    outside = rings.turning_number(field[0], p) == 0
    return "shut" if outside or any(rings.turning_number(ring, p) != 0 for ring in field[1:]) else "open"


def passes_north(a, b, p):
    """The edge a-b passes the point's Y at a greater X. Of an edge's ends the eastern one does not count, so that a corner counts once."""
    if not min(a[1], b[1]) <= p[1] < max(a[1], b[1]):
        return False
    return a[0] + Fraction((p[1] - a[1]) * (b[0] - a[0]), b[1] - a[1]) > p[0]


def odd_north(field, p):
    """An odd number of edges lies north of the point: in an accepted field the point is then inside the outer ring alone."""
    return sum(passes_north(a, b, p) for ring in field for a, b in rings.edges(ring)) % 2 == 1


class Field:
    """Counts and numbers of a field with what does not depend on a point worked out once."""

    def __init__(self, counts, numbers):
        lists = lists_of(counts, numbers)
        if lists is None:
            self.accept, self.limits, self.rings = "6", 6, []
            return
        self.accept = accept(lists)
        self.limits = next((refusal for refusal in map(limits, range(len(lists)), lists) if refusal), 0)
        self.rings = [] if self.limits else [rings.corners_of(numbers)[0] for numbers in lists]

    def position(self, p):
        """What the call position answers at a point."""
        return str(self.limits) if self.limits else standing(self.rings, p)

    def nozzle(self, p):
        """What the call nozzle answers at a point."""
        if self.accept != "ok":
            return self.accept
        place = standing(self.rings, p)
        assert place == "border" or (place == "open") == odd_north(self.rings, p)
        return place

    def line(self, p):
        """The line of the vectors: what the calls accept, nozzle and position answer, in this order."""
        return "accept %s nozzle %s position %s" % (self.accept, self.nozzle(p), self.position(p))


def of_rings(*lists_of_corners):
    """The counts and the numbers of rings that are given as lists of corners, the outer ring first."""
    return [len(corners) for corners in lists_of_corners], [number for corners in lists_of_corners for corner in corners for number in corner]


# ---- self-tests


SQUARE = [(0, 0), (1000, 0), (1000, 1000), (0, 1000)]
BOW = [(0, 0), (1000, 1000), (1000, 0), (0, 1000)]


def square(x, y, width):
    return [(x, y), (x + width, y), (x + width, y + width), (x, y + width)]


def worked():
    """A pond in the square of document 01, and every refusal."""
    pond, island = square(400, 400, 200), square(450, 450, 100)
    for inner in (pond, pond[::-1]):
        field = Field(*of_rings(SQUARE, inner))
        points = ((500, 500), (400, 500), (600, 600), (399, 500), (0, 500), (1500, 500))
        assert [field.nozzle(p) for p in points] == ["shut", "border", "border", "open", "border", "shut"]
    ponds = [square(10 + 50 * k, 10, 30) for k in range(16)]
    said = [
        ("6", ([], [])), ("6", ([4], [0] * 7)), ("6", of_rings(SQUARE, pond[:2])), ("6", of_rings(SQUARE, [(k, 1) for k in range(129)])),
        ("7", of_rings(SQUARE, pond[:3] + [(0, 10**10 + 1)])), ("8", of_rings(SQUARE, pond[:3] + [(-19_999_401, 0)])),
        ("9 1 0 2 2", of_rings(SQUARE, BOW)), ("9 0 0 2 2", of_rings(BOW, SQUARE)), ("15", of_rings(SQUARE, SQUARE)), ("15", of_rings(pond, SQUARE)),
        ("15", of_rings(SQUARE, pond, island)), ("15", of_rings(SQUARE, island, pond)), ("15", of_rings(SQUARE, square(1400, 400, 200))),
        ("ok", of_rings(SQUARE, *ponds)), ("16", of_rings(SQUARE, *ponds, [])), ("15", of_rings(SQUARE, *ponds[1:], SQUARE, [])),
    ]
    for answer, (counts, numbers) in said:
        assert Field(counts, numbers).accept == answer
    crossed = Field(*of_rings(SQUARE, BOW))
    assert crossed.line((100, 500)) == "accept 9 1 0 2 2 nozzle 9 1 0 2 2 position shut" and crossed.position((500, 100)) == "open"


def inside_all_along(ring, outer):
    """Every point of a ring's edges lies strictly inside the outer ring: told by the places where an edge meets a side, and by one point between each two."""
    for a, b in rings.edges(ring):
        met = sorted({Fraction(0), Fraction(1)} | {s for c, d in rings.edges(outer) for s, _ in rings.places(a, b, c, d)})
        for s in met + [(s + t) / 2 for s, t in zip(met, met[1:])]:
            p = (a[0] + s * (b[0] - a[0]), a[1] + s * (b[1] - a[1]))
            if rings.on_border(outer, p) or rings.turning_number(outer, p) == 0:
                return False
    return True


def small_ring(rng):
    """A random clean ring of a few millimetres."""
    x, y, width = rng.randint(0, 8), rng.randint(0, 8), rng.choice((1, 2, 3))
    while True:
        corners = tuple((rng.randint(x, x + width), rng.randint(y, y + width)) for _ in range(rng.choice((3, 4, 5))))
        if rings.first_crossed(corners) is None:
            return corners


def dented_ring(rng):
    """A random clean ring of eight corners round the small ones, with a dent in each side."""
    while True:
        first = [(rng.randint(0, 2), rng.randint(0, 2)), (rng.randint(0, 6), rng.randint(4, 7)), (rng.randint(0, 2), rng.randint(9, 11))]
        second = [(rng.randint(4, 7), rng.randint(5, 11)), (rng.randint(9, 11), rng.randint(9, 11)), (rng.randint(6, 11), rng.randint(4, 7))]
        corners = tuple(first + second + [(rng.randint(9, 11), rng.randint(0, 2)), (rng.randint(4, 7), rng.randint(0, 6))])
        if rings.first_crossed(corners) is None:
            return corners


def all_along(rng):
    """That the rule's corners and edges tell of every point of the ring, for random rings; answers how many were placed well."""
    well = 0
    for _ in range(1000):
        outer, ring = dented_ring(rng), small_ring(rng)
        bad = badly_placed(ring, outer, [])
        assert bad != inside_all_along(ring, outer)
        well += not bad
    return well


def laid_otherwise(rng):
    """That no direction, first corner, order of the inner rings or turn of the map changes what is said of a field; answers how many were accepted."""
    accepted = 0
    for _ in range(1000):
        field, p = [dented_ring(rng), small_ring(rng), small_ring(rng)], (rng.randint(0, 11), rng.randint(0, 11))
        one = Field(*of_rings(*field))
        turned = [[(-y, x) for x, y in ring[k:] + ring[:k]][:: rng.choice((1, -1))] for ring, k in zip(field, (1, 2, 0))]
        other = Field(*of_rings(turned[0], turned[2], turned[1]))
        assert one.line(p) == other.line((-p[1], p[0]))
        accepted += one.accept == "ok"
    return accepted


if __name__ == "__main__":
    worked()
    found = all_along(random.Random("fields all along")), laid_otherwise(random.Random("fields laid otherwise"))
    assert min(found) > 50
    print("fields: every refusal is seen, the rule tells of every point of %d rings that are placed well, and %d accepted fields may be laid otherwise" % found)
