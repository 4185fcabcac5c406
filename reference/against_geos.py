"""GEOS as an outside judge of the reference fields: whether random and damaged fields are accepted, and where points stand to them.

    apt-get install libgeos-dev         (Debian)
    python3 reference/against_geos.py [FIELDS]

GEOS judges polygons with holes by OGC's rules, in doubles. They are ours but for two things: OGC lets rings touch each other at single points, where we refuse
with 15, and an edge of no length is nothing to it, where we refuse with 9. Each field is held to GEOS in three ways:

ring by ring    A ring that is no valid polygon by itself is 9, and so is, by our rule alone, one with an edge of no length. An inner ring is 15 where the outer
                one does not properly contain it or an inner one before it is not disjoint from it. The first such ring decides; of 9 its number is compared.
as a whole      An accepted field is a valid polygon, and a refused one is not. Counted by itself: a field refused by 15 that is valid. GEOS then has to find
                that two of its rings have points in common, and no two a line. Left out: fields with an edge of no length.
points          Where every ring is valid by itself, border, inside and outside of each ring make the answer of `position`; where the polygon is valid, its own
                border, inside and outside do. Left out: points past 2^53, which a double does not hold, and fields with an edge of no length.

Fields that are refused by 6, 7, 8 or 16, which GEOS does not know, are left out of all three. What is left out is counted; any difference fails. Assumes Python
3.9 or newer, its standard library, and libgeos.
"""

import ctypes
import ctypes.util
import random
import sys
from collections import Counter
from itertools import combinations

import field_cases
import fields
import rings
from fields import of_rings

FIELDS = 4000
LARGEST_POINT = 2**53


# ---- GEOS


class Geos:
    """The calls of libgeos that are needed. A geometry is an address; x is east and y north."""

    def __init__(self):
        self.library = ctypes.CDLL(ctypes.util.find_library("geos_c"))
        self.library.GEOSversion.restype = ctypes.c_char_p
        self.library.GEOS_init_r.restype = ctypes.c_void_p
        self.handle = ctypes.c_void_p(self.library.GEOS_init_r())

    def version(self):
        return self.library.GEOSversion().decode()

    def make(self, name, *arguments):
        """A call that answers a geometry."""
        call = getattr(self.library, name + "_r")
        call.restype = ctypes.c_void_p
        made = call(self.handle, *arguments)
        assert made, name
        return ctypes.c_void_p(made)

    def tell(self, name, *arguments):
        """A call that answers 0 or 1, or 2 where it failed."""
        call = getattr(self.library, name + "_r")
        call.restype = ctypes.c_ubyte
        answer = call(self.handle, *arguments)
        assert answer in (0, 1), name
        return answer == 1

    def dimension(self, geometry):
        return self.library.GEOSGeom_getDimensions_r(self.handle, geometry)

    def line(self, corners):
        """The closed line of a ring."""
        sequence = self.make("GEOSCoordSeq_create", ctypes.c_uint(len(corners) + 1), ctypes.c_uint(2))
        for k, (x, y) in enumerate(list(corners) + [corners[0]]):
            self.library.GEOSCoordSeq_setXY_r(self.handle, sequence, ctypes.c_uint(k), ctypes.c_double(y), ctypes.c_double(x))
        return self.make("GEOSGeom_createLinearRing", sequence)

    def polygon(self, outer, inner=()):
        holes = (ctypes.c_void_p * len(inner))(*[self.line(corners) for corners in inner])
        return self.make("GEOSGeom_createPolygon", self.line(outer), holes, ctypes.c_uint(len(inner)))

    def point(self, x, y):
        return self.make("GEOSGeom_createPointFromXY", ctypes.c_double(y), ctypes.c_double(x))

    def free(self, *geometries):
        for geometry in geometries:
            self.library.GEOSGeom_destroy_r(self.handle, geometry)


class Polygon:
    """A polygon with its index, by which GEOS tells more surely: no point is worked out, only sides are."""

    def __init__(self, geos, outer, inner=()):
        self.geos = geos
        self.geometry = geos.polygon(outer, inner)
        self.prepared = geos.make("GEOSPrepare", self.geometry)
        self.valid = geos.tell("GEOSisValid", self.geometry)
        self.lengths = all(a != b for ring in [outer, *inner] for a, b in rings.edges(ring))

    def free(self):
        self.geos.library.GEOSPreparedGeom_destroy_r(self.geos.handle, self.prepared)
        self.geos.free(self.geometry)

    def properly_contains(self, other):
        return self.geos.tell("GEOSPreparedContainsProperly", self.prepared, other.geometry)

    def disjoint(self, other):
        return self.geos.tell("GEOSPreparedDisjoint", self.prepared, other.geometry)

    def place(self, point):
        if self.geos.tell("GEOSPreparedContains", self.prepared, point):
            return "inside"
        return "border" if self.geos.tell("GEOSPreparedIntersects", self.prepared, point) else "outside"


def touch_at_points(geos, field):
    """By GEOS two of the rings have a point in common, and no two a line."""
    dimensions = []
    for one, other in combinations(field, 2):
        lines = geos.line(one), geos.line(other)
        if geos.tell("GEOSIntersects", *lines):
            common = geos.make("GEOSIntersection", *lines)
            dimensions.append(geos.dimension(common))
            geos.free(common)
        geos.free(*lines)
    return bool(dimensions) and set(dimensions) == {0}


# ---- one field


def judged(polygons):
    """What accept has to say, ring by ring: ok, 9 with the ring, or 15."""
    for place, polygon in enumerate(polygons):
        if not (polygon.valid and polygon.lengths):
            return "9 %d" % place
        if place > 0 and not (polygons[0].properly_contains(polygon) and all(polygon.disjoint(other) for other in polygons[1:place])):
            return "15"
    return "ok"


def compare_whole(geos, field, answer, valid, counted):
    """The polygon's validity with the answer."""
    if answer == "15" and valid:
        assert touch_at_points(geos, field), field
        counted["as a whole, 15, valid by touching at points"] += 1
    else:
        assert valid == (answer == "ok"), (answer, field)
        counted["as a whole, %s, %s" % (answer.split()[0], "valid" if valid else "not valid")] += 1


def place_of_rings(polygons, point):
    """The nozzle rule by each ring alone."""
    places = [polygon.place(point) for polygon in polygons]
    if "border" in places:
        return "border"
    return "open" if places[0] == "inside" and "inside" not in places[1:] else "shut"


def compare_points(geos, field, points, polygons, whole, counted):
    named = {"inside": "open", "border": "border", "outside": "shut"}
    for p in points:
        if max(map(abs, p)) > LARGEST_POINT:
            counted["points past 2^53, left out"] += 1
            continue
        point, ours = geos.point(*p), fields.standing(field, p)
        assert ours == place_of_rings(polygons, point), (p, field)
        counted["points by rings, " + ours] += 1
        if whole.valid:
            assert ours == named[whole.place(point)], (p, field)
            counted["points by the polygon, " + ours] += 1
        geos.free(point)


def compare(geos, field, points, counted):
    """One field, by its rings."""
    ours = fields.Field(*of_rings(*field))
    if ours.limits:
        counted["6, 7, 8 or 16, left out"] += 1
        return
    answer = field_cases.kind_of(ours.accept)
    polygons, whole = [Polygon(geos, ring) for ring in field], Polygon(geos, field[0], field[1:])
    assert answer == judged(polygons), (answer, judged(polygons), field)
    counted["ring by ring, %s" % answer.split()[0]] += 1
    if whole.lengths:
        compare_whole(geos, field, answer, whole.valid, counted)
        if all(polygon.valid for polygon in polygons):
            compare_points(geos, field, points, polygons, whole, counted)
    else:
        counted["as a whole, an edge of no length, left out"] += 1
    for polygon in polygons + [whole]:
        polygon.free()


# ---- fields: random, damaged, and stretched to large numbers


def random_field(rng):
    """Rings of numbers from 0 to 12: few are accepted, and most ways of touching come up."""
    outer = rng.choice((fields.square(0, 0, 12), fields.dented_ring(rng), fields.dented_ring(rng), field_cases.random_ring(rng, 0, 0, 12, rng.randint(3, 6))))
    inner = []
    for _ in range(rng.choice((1, 1, 2, 2, 3, 4))):
        any_ring = field_cases.random_ring(rng, rng.randint(0, 8), rng.randint(0, 8), rng.choice((2, 3, 4)), rng.randint(3, 5))
        inner.append(any_ring if rng.random() < 0.2 else fields.small_ring(rng))
    return [list(ring) for ring in [outer] + inner]


def grown_field(rng):
    """A field that is accepted, of small numbers: rings are tried and taken where they fit."""
    field = [list(fields.dented_ring(rng))]
    for _ in range(16):
        more = field + [list(fields.small_ring(rng))]
        if len(field) < 5 and fields.Field(*of_rings(*more)).accept == "ok":
            field = more
    return field


def nested_field(rng):
    """A square with a small ring in it and one round that, in either order, and perhaps others."""
    inner = list(fields.small_ring(rng))
    (x, y), (end_x, end_y) = [tuple(end(corner[k] for corner in inner) for k in (0, 1)) for end in (min, max)]
    pair = [inner, [(x - 1, y - 1), (end_x + 1, y - 1), (end_x + 1, end_y + 1), (x - 1, end_y + 1)][:: rng.choice((1, -1))]]
    others = [list(fields.small_ring(rng)) for _ in range(rng.choice((0, 0, 1)))]
    return [fields.square(-1, -1, 13)] + rng.sample(pair + others, 2 + len(others))


def damaged(rng, field):
    """A field with one thing changed in one ring: a corner moved, put on a corner or an edge of any ring, exchanged, left out or doubled; or the ring moved."""
    field = [list(ring) for ring in field]
    ring, other = rng.choice(field), rng.choice(field)
    k, l = rng.randrange(len(ring)), rng.randrange(len(other))
    kind = rng.randrange(7)
    if kind == 0:
        ring[k] = (ring[k][0] + rng.randint(-1, 1), ring[k][1] + rng.randint(-1, 1))
    elif kind == 1:
        ring[k] = other[l]
    elif kind == 2:
        ring[k] = tuple((other[l][axis] + other[l - 1][axis]) // 2 for axis in (0, 1))
    elif kind == 3:
        ring[k], ring[k - 1] = ring[k - 1], ring[k]
    elif kind == 4 and len(ring) > 3:
        del ring[k]
    elif kind == 5 and rng.random() < 0.2:
        ring.insert(k, ring[k])
    else:
        ring[:] = field_cases.moved(ring, rng.randint(-3, 3), rng.randint(-3, 3))
    return field


def stretched(rng, field):
    """The field on a slanting grid of large steps, anywhere in the limits: what meets still meets, at edges that are kilometres long."""
    while True:
        a, b, c, d = [rng.randint(-800_000, 800_000) for _ in range(4)]
        if a * d != b * c:
            break
    dx, dy = [rng.randint(-(10**10) + 3 * 10**7, 10**10 - 3 * 10**7) for _ in (0, 1)]
    return [[(a * x + b * y + dx, c * x + d * y + dy) for x, y in ring] for ring in field]


def small_field(rng):
    field = rng.choice((random_field, random_field, grown_field, grown_field, nested_field))(rng)
    for _ in range(rng.choice((0, 0, 1, 1, 2))):
        field = damaged(rng, field)
    return field


def large_field(rng):
    """Every other one is damaged once more, by a millimetre or by a whole edge."""
    field = stretched(rng, small_field(rng))
    return damaged(rng, field) if rng.random() < 0.5 else field


def show(title, counted):
    print(title)
    for name in sorted(counted):
        print("  %7d  %s" % (counted[name], name))


def main(count):
    geos = Geos()
    print("GEOS", geos.version())
    for title, draw in (("random fields of small numbers", small_field), ("random fields of large numbers", large_field)):
        rng, counted = random.Random(title), Counter()
        for _ in range(count // 2):
            field = draw(rng)
            compare(geos, field, field_cases.points_by(rng, field, 6), counted)
        show("%d %s:" % (count // 2, title), counted)
    counted, made = Counter(), 0
    for made, (_, counts, numbers, points) in enumerate(field_cases.made(), 1):
        # Numbers that the counts do not share out are no rings, and left out with the other refusals by 6.
        lists = fields.lists_of(counts, numbers) or []
        compare(geos, [list(zip(ring[0::2], ring[1::2])) for ring in lists], points, counted)
    show("%d fields of the vectors:" % made, counted)


if __name__ == "__main__":
    main(int(sys.argv[1]) if len(sys.argv) > 1 else FIELDS)
