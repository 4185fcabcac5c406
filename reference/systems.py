"""The fourteen systems and the two ellipsoids of document 01, as text and whole numbers, for the programs beside this file.

Every number is written as it is printed, so that each program may take it exactly. Assumes nothing.
"""

from collections import namedtuple

SECOND = 1_000_000
DEGREE = 3600 * SECOND

# L0 and the half-width in ticks, m0 as text, x0 and y0 in metres
System = namedtuple("System", "code name ellipsoid L0 m0 x0 y0 half_width")

Ellipsoid = namedtuple("Ellipsoid", "name e a R0 a_coefficients b_coefficients c2 c4 c6")

GRS80 = Ellipsoid(
    name="GRS-80", e="0.0818191910428", a="6378137", R0="6367449.145771",
    a_coefficients=("5765181.11148097", "499800.81713800", "-63.81145283", "0.83537915", "0.13046891", "-0.00111138", "-0.00010504"),
    b_coefficients=("5760000", "500199.26224125", "63.88777449", "-0.82039170", "-0.13125817", "0.00101782", "0.00010778"),
    c2="0.0033565514856", c4="0.0000065718731", c6="0.0000000176466",
)

KRASOVSKY = Ellipsoid(
    name="Krasovsky", e="0.0818133340169", a="6378245", R0="6367558.496875",
    a_coefficients=("5765180.49758330", "499800.87112376", "-63.80172299", "0.83512434", "0.13044472", "-0.00111100", "-0.00010501"),
    b_coefficients=("5760000", "500199.20821246", "63.87801231", "-0.82014111", "-0.13123362", "0.00101747", "0.00010775"),
    c2="0.0033560696018", c4="0.0000065699863", c6="0.0000000176390",
)


def rows():
    minutes = DEGREE // 60
    yield System(1, "1992", GRS80, 19 * DEGREE, "0.9993", -5300000, 500000, 330 * minutes)
    for k, meridian in enumerate((15, 18, 21, 24)):
        yield System(2 + k, "2000/%d" % meridian, GRS80, meridian * DEGREE, "0.999923", 0, 5500000 + 1000000 * k, 90 * minutes)
    for k, meridian in enumerate((15, 21)):
        yield System(6 + k, "UTM 3%dN" % (3 + k), GRS80, meridian * DEGREE, "0.9996", 0, 500000, 180 * minutes)
    for k, meridian in enumerate((15, 21)):
        yield System(8 + k, "1942/%d six-degree" % meridian, KRASOVSKY, meridian * DEGREE, "1", 0, 3500000 + 1000000 * k, 180 * minutes)
    for k, meridian in enumerate((15, 18, 21, 24)):
        yield System(10 + k, "1942/%d three-degree" % meridian, KRASOVSKY, meridian * DEGREE, "1", 0, 5500000 + 1000000 * k, 90 * minutes)
    yield System(14, "1965 zone 5", KRASOVSKY, 18 * DEGREE + 57 * minutes + 30 * SECOND, "0.999983", -4700000, 237000, 120 * minutes)


SYSTEMS = {system.code: system for system in rows()}
assert sorted(SYSTEMS) == list(range(1, 15))
