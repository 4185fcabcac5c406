"""Writes the statements that pin the definitions of document 01's numbers: crates/rules/specs/Tried/{Series,Points,Limits}.antt, and in
crates/rules/proofs/Laws/Tried the proofs of them, which are `refl` at each.

    python3 reference/tried.py crates/rules

Series: each cut series at an argument at which its last term shows. Points: two points of each code, forward and inverse, unrounded with all digits, and rounded.
Limits: the half-width's two ends and the four sides of refusal 4's box, for each code. The numbers are those of definition.py and of systems.py, which share
nothing with the crates; a wrong digit here or there is refused by the prover. Assumes Python 3.9 or newer and its standard library.
"""

import random
import sys
from fractions import Fraction
from pathlib import Path

import definition
from definition import UNIT
from systems import DEGREE, SECOND, SYSTEMS

MINUTE = 60 * SECOND
MADE = "Made by reference/tried.py. Assumes nothing."


def whole(number):
    """A whole number as the rules write it."""
    return "pos %d" % number if number >= 0 else "(neg_ℤ (pos %d))" % -number


def scaled(number):
    """A number over 10^24, with `_` where its point stands."""
    size = "%d_%024d" % divmod(abs(number), UNIT)
    return "pos " + size if number >= 0 else "neg_ℤ (pos %s)" % size


def given(text):
    """An argument in parentheses, once."""
    return text if text.startswith("(") else "(%s)" % text


def angle(ticks):
    degrees, rest = divmod(ticks, DEGREE)
    minutes, rest = divmod(rest, MINUTE)
    seconds, rest = divmod(rest, SECOND)
    assert rest == 0
    return "(pos (%d ° %d ' %d ''))" % (degrees, minutes, seconds)


# ---- series


def series():
    """At 3, where the last term of each series shows, the order of its coefficients, and what it ends in."""
    x = 3 * UNIT
    square = definition.product(x, x)
    values = [
        ("sine", definition.sine(x)),
        ("cosine", definition.cosine(x)),
        ("exponential", definition.summed(x, definition.EXPONENTIAL)),
        ("hyperbolic_sine", definition.product(x, definition.summed(square, definition.HYPERBOLIC_SINE))),
        ("hyperbolic_cosine", definition.summed(square, definition.HYPERBOLIC_COSINE)),
        ("arctan", definition.arctan(x)),
        ("artanh", definition.artanh(x)),
    ]
    return [(name + "_3", name + " (pos (3 * unit))", value) for name, value in values]


SERIES_HEAD = """-- 01, "Power series are cut": each series at 3, where its last term shows, with all digits. %s
use Rattle.std.specs.Prelude.{◌≡◌, ◌*◌, ℤ, pos, neg_ℤ}
use Rattle.rules.specs.Scaled.{unit, sine, cosine, exponential, hyperbolic_sine, hyperbolic_cosine, arctan, artanh}

pub record Series : Type 0 where
""" % MADE


def series_statements():
    return SERIES_HEAD + "".join("  pub %s : %s ≡ %s\n" % (name, call, scaled(value)) for name, call, value in series())


# ---- points


def forward_points(system, choice):
    """One point in the south of the zone and east of its meridian, and one in the north and west of it, each far enough out for every term to show."""
    for south, side in ((48, 1), (52, -1)):
        B = south * DEGREE + choice.randrange(4 * DEGREE)
        L = system.L0 + side * choice.randrange(3 * system.half_width // 5, system.half_width)
        yield B, L


def plane_point(system, B, L):
    """The whole millimetres of a point: where an inverse is tried."""
    north, east = definition.forward(system, B, L)[:2]
    return 1000 * system.x0 + definition.nearest(north), 1000 * system.y0 + definition.nearest(east)


def forward_statement(system, B, L):
    value = definition.forward(system, B, L)
    X, Y = plane_point(system, B, L)
    answer = (X, Y, definition.nearest(value[2]), definition.nearest(value[3]))
    return "ForwardAt %d (%s) (%s)\n      (%s)\n      (%s)" % (
        system.code, whole(B), whole(L), "forward_value " + " ".join(given(scaled(part)) for part in value),
        "point " + " ".join(given(whole(part)) for part in answer))


def inverse_statement(system, B, L):
    X, Y = plane_point(system, B, L)
    value = definition.inverse(system, X, Y)
    answer = (definition.nearest(value[0]), system.L0 + definition.nearest(value[1]))
    return "InverseAt %d %s %s\n      (%s)\n      (%s)" % (
        system.code, given(whole(X)), given(whole(Y)), "inverse_value " + " ".join(given(scaled(part)) for part in value),
        "ticks " + " ".join(given(whole(part)) for part in answer))


def points():
    choice = random.Random(20261115)
    for make, name in ((forward_statement, "forward"), (inverse_statement, "inverse")):
        for system in SYSTEMS.values():
            for side, (B, L) in zip(("east", "west"), forward_points(system, choice)):
                yield "%s_%d_%s" % (name, system.code, side), make(system, B, L)


POINTS_HEAD = """-- 01, "Projected numbers are compared with an independent, more precise program": two points of each code, forward and inverse, unrounded with all digits and
-- rounded. %s
use Rattle.std.specs.Prelude.{◌≡◌, ℕ, ℤ, pos, neg_ℤ}
use Rattle.rules.specs.Refusals.{Answer, answered, ◌>>=◌}
use Rattle.rules.specs.Systems.{system}
use Rattle.rules.specs.Projection as Unrounded
use Rattle.rules.specs.Points as P

abbrev pub forward_value : ℤ → ℤ → ℤ → ℤ → Unrounded.Forward
forward_value north east scale convergence = record { north = north; east = east; scale = scale; convergence = convergence }

abbrev pub inverse_value : ℤ → ℤ → Unrounded.Inverse
inverse_value B d = record { B = B; d = d }

abbrev pub point : ℤ → ℤ → ℤ → ℤ → P.Point
point X Y scale convergence = record { X = X; Y = Y; scale = scale; convergence = convergence }

abbrev pub ticks : ℤ → ℤ → P.Ticks
ticks B L = record { B = B; L = L }

pub record ForwardAt (code : ℕ) (B L : ℤ) (value : Unrounded.Forward) (answer : P.Point) : Type 0 where
  pub unrounded : (system code >>= λ s. answered (Unrounded.forward s B L)) ≡ answered value
  pub rounded : P.forward code B L ≡ answered answer

pub record InverseAt (code : ℕ) (X Y : ℤ) (value : Unrounded.Inverse) (answer : P.Ticks) : Type 0 where
  pub unrounded : (system code >>= λ s. answered (Unrounded.inverse s X Y)) ≡ answered value
  pub rounded : P.inverse code X Y ≡ answered answer

pub record Projected : Type 0 where
""" % MADE


def point_statements():
    return POINTS_HEAD + "".join("  pub %s : %s\n" % row for row in points())


# ---- limits


def half_width_rows():
    for system in SYSTEMS.values():
        yield "half_width_%d" % system.code, "Ends %d %s %s" % (system.code, angle(system.L0 - system.half_width), angle(system.L0 + system.half_width))


def side(offset, m0, metres):
    """A side of the box in millimetres, exactly."""
    number = 1000 * (offset + Fraction(m0) * metres)
    assert number.denominator == 1
    return given(whole(int(number)))


def box_rows():
    for system in SYSTEMS.values():
        sides = [side(system.x0, system.m0, 5_300_000), side(system.x0, system.m0, 6_250_000), side(system.y0, system.m0, -420_000), side(system.y0, system.m0, 420_000)]
        yield "box_%d" % system.code, "Box %d %s" % (system.code, " ".join(sides))


LIMITS_HEAD = """-- 01, "Refusal numbers and their order": the two ends of each code's half-width (3), and the four sides of its box (4), taken, and refused one tick or one millimetre
-- beyond. %s
use Rattle.std.specs.Prelude.{◌≡◌, ℕ, ℤ, pos, neg_ℤ, ◌+ℤ◌, ◌-ℤ◌}
use Rattle.rules.specs.Units.{◌°◌'◌''}
use Rattle.rules.specs.Refusals.{Answer, answered, refused, longitude_outside, plane_outside}
use Rattle.rules.specs.Points as P
use Rattle.rules.specs.Tried.Kinds.{taken}

-- any latitude
abbrev B : ℤ
B = pos (52 ° 0 ' 0 '')

-- "size of L - L0 above the half-width, exact"
pub record Ends (code : ℕ) (west east : ℤ) : Type 0 where
  pub west_taken : taken (P.forward code B west) ≡ answered 0
  pub east_taken : taken (P.forward code B east) ≡ answered 0
  pub west_beyond : P.forward code B (west -ℤ pos 1) ≡ refused longitude_outside
  pub east_beyond : P.forward code B (east +ℤ pos 1) ≡ refused longitude_outside

-- "outside 5,300,000 to 6,250,000 m or size of Y above 420,000 m, exact after offset and m0": two opposite corners pass, and nothing beyond a side
pub record Box (code : ℕ) (south north west east : ℤ) : Type 0 where
  pub south_west_taken : taken (P.inverse_checks code south west) ≡ answered 0
  pub north_east_taken : taken (P.inverse_checks code north east) ≡ answered 0
  pub south_beyond : P.inverse code (south -ℤ pos 1) west ≡ refused plane_outside
  pub north_beyond : P.inverse code (north +ℤ pos 1) east ≡ refused plane_outside
  pub west_beyond : P.inverse code south (west -ℤ pos 1) ≡ refused plane_outside
  pub east_beyond : P.inverse code north (east +ℤ pos 1) ≡ refused plane_outside

""" % MADE


def limit_statements():
    ends = "".join("  pub %s : %s\n" % row for row in half_width_rows())
    boxes = "".join("  pub %s : %s\n" % row for row in box_rows())
    return LIMITS_HEAD + "pub record HalfWidths : Type 0 where\n" + ends + "\npub record Boxes : Type 0 where\n" + boxes


# ---- the proofs


def proof(name, statement, rows, answer):
    fields = "".join("  %s = %s;\n" % (row[0], answer) for row in rows)
    return "\npub %s : %s\nunfolding computing\n%s = record {\n%s}\n" % (name, statement, name, fields)


def record(*fields):
    return "record { %s }" % "; ".join("%s = refl" % field for field in fields)


PROOFS_HEAD = """-- The statements of Tried.%s hold, each by computing. %s
use Rattle.std.specs.Prelude.{refl}
use Rattle.rules.specs.Tried.%s.{%s}
use Rattle.rules.specs.Computing.{computing}
"""


def proofs(module, *parts):
    return PROOFS_HEAD % (module, MADE, module, ", ".join(statement for _, statement, _, _ in parts)) + "".join(proof(*part) for part in parts)


def main(crate):
    both = record("unrounded", "rounded")
    ends = record("west_taken", "east_taken", "west_beyond", "east_beyond")
    box = record("south_west_taken", "north_east_taken", "south_beyond", "north_beyond", "west_beyond", "east_beyond")
    texts = {
        "specs/Tried/Series": series_statements(),
        "specs/Tried/Points": point_statements(),
        "specs/Tried/Limits": limit_statements(),
        "proofs/Laws/Tried/Series": proofs("Series", ("series", "Series", series(), "refl")),
        "proofs/Laws/Tried/Points": proofs("Points", ("points", "Projected", list(points()), both)),
        "proofs/Laws/Tried/Limits": proofs("Limits", ("half_widths", "HalfWidths", list(half_width_rows()), ends), ("boxes", "Boxes", list(box_rows()), box)),
    }
    for name, text in texts.items():
        (Path(crate) / (name + ".antt")).write_text(text)


if __name__ == "__main__":
    main(sys.argv[1])
