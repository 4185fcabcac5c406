"""How far the definition at 10^24 lies from the true functions: the largest difference of each unrounded answer, for each code, on a grid over its whole zone.

    python3 reference/definition_against_truth.py [STEPS]

Differences are in the units of the answers; two last lines say how far the scale before m0 lies from 1 on the central meridian, and how far the definition's own values part
east and west of it. The answers are held to the definition by the band, 0.51 or of ticks 0.6; this says what the judgement by true functions adds to it. Assumes Python 3.9
or newer and its standard library.
"""

import sys
from decimal import Decimal

import definition
import projection
from systems import DEGREE, SYSTEMS

UNIT = Decimal(definition.UNIT)


def forward_difference(system, B, L):
    offsets = (1000 * system.x0, 1000 * system.y0, 0, 0)
    true = projection.forward_raw(system, B, L)
    whole = definition.forward(system, B, L)
    return [abs(offset + Decimal(number) / UNIT - value) for offset, number, value in zip(offsets, whole, true)]


def inverse_difference(system, X, Y):
    true = projection.inverse_raw(system, X, Y)
    whole = definition.inverse(system, X, Y)
    return [abs(offset + Decimal(number) / UNIT - value) for offset, number, value in zip((0, system.L0), whole, true)]


def forward_grid(system, steps):
    """d below 0, at 0 and above it, ends of the zone included."""
    for i in range(steps + 1):
        for j in range(-steps, steps + 1):
            yield 48 * DEGREE + 8 * DEGREE * i // steps, system.L0 + system.half_width * j // steps


def box_grid(system, steps):
    """The whole box of refusal 4, in whole millimetres."""
    m0 = Decimal(system.m0)
    for i in range(steps + 1):
        for j in range(-steps, steps + 1):
            north = 5_300_000_000 + 950_000_000 * i // steps
            east = 420_000_000 * j // steps
            yield int(1000 * system.x0 + m0 * north), int(1000 * system.y0 + m0 * east)


def beside_one(system):
    """How far the scale before m0 lies from 1 on the central meridian, the most of every whole minute of latitude."""
    scales = [definition.forward(system, 48 * DEGREE + DEGREE * minute // 60, system.L0)[2] for minute in range(8 * 60 + 1)]
    return max(abs(Decimal(scale) / (10**9 * definition.scaled(system.m0)) - 1) for scale in scales)


def apart_there(system, steps):
    """How far the definition's X, Y, scale and convergence part on either side of the meridian."""
    pairs = ((definition.forward(system, B, L), definition.forward(system, B, 2 * system.L0 - L)) for B, L in forward_grid(system, steps))
    return max(abs(Decimal(number)) for east, west in pairs for number in (east[0] - west[0], east[1] + west[1], east[2] - west[2], east[3] + west[3])) / UNIT


def apart_back(system, steps):
    """The same of its B and L."""
    pairs = ((definition.inverse(system, X, Y), definition.inverse(system, X, 2000 * system.y0 - Y)) for X, Y in box_grid(system, steps))
    return max(abs(Decimal(number)) for east, west in pairs for number in (east[0] - west[0], east[1] + west[1])) / UNIT


def largest(differences):
    return [max(column) for column in zip(*differences)]


def main(steps):
    print("code    X mm    Y mm   scale   conv.  B tick  L tick   (B and L over the whole box of refusal 4)")
    for system in SYSTEMS.values():
        there = largest([forward_difference(system, B, L) for B, L in forward_grid(system, steps)])
        back = largest([inverse_difference(system, X, Y) for X, Y in box_grid(system, steps)])
        print("%4d %s" % (system.code, " ".join("%7.1e" % value for value in there + back)))
    print("scale before m0, on the central meridian at every whole minute: %.1e from 1 on GRS-80, %.1e on Krasovsky" % (beside_one(SYSTEMS[1]), beside_one(SYSTEMS[8])))
    there, back = (max(apart(system, steps) for system in SYSTEMS.values()) for apart in (apart_there, apart_back))
    print("the definition's own values, east and west of the meridian: %.1e unit apart, back %.1e tick" % (there, back))


if __name__ == "__main__":
    main(int(sys.argv[1]) if len(sys.argv) > 1 else 16)
