"""PROJ as an outside judge of the reference projection: the largest difference of each answer, for each code, on a grid over its whole zone.

    apt-get install libproj-dev         (Debian)
    python3 reference/against_proj.py [STEPS]

PROJ's `tmerc` is the exact Gauss-Krüger projection of the ellipsoid to some nanometres; document 001 approximates it by polynomials and a short series. So the
differences are those of the paper's approximation: below two thousandths of a millimetre in the plane, and up to 11 ticks in B, whose series stops at c6.
PROJ differentiates for scale and convergence. Assumes Python 3.9 or newer, its standard library, and libproj.
"""

import ctypes
import ctypes.util
import math
import sys
from decimal import Decimal

import projection
from definition_against_truth import forward_grid
from systems import DEGREE, SYSTEMS

FACTORS = (
    "meridional_scale parallel_scale areal_scale angular_distortion meridian_parallel_angle meridian_convergence "
    "tissot_semimajor tissot_semiminor dx_dlam dx_dphi dy_dlam dy_dphi"
).split()


class Point(ctypes.Structure):
    """PJ_COORD, by names and not as an array: passed by value, an array of four arrives otherwise on Arm."""

    _fields_ = [(name, ctypes.c_double) for name in ("east", "north", "height", "time")]


class Factors(ctypes.Structure):
    _fields_ = [(name, ctypes.c_double) for name in FACTORS]


def library():
    proj = ctypes.CDLL(ctypes.util.find_library("proj"))
    proj.proj_create.restype = ctypes.c_void_p
    proj.proj_create.argtypes = [ctypes.c_void_p, ctypes.c_char_p]
    proj.proj_trans.restype = Point
    proj.proj_trans.argtypes = [ctypes.c_void_p, ctypes.c_int, Point]
    proj.proj_factors.restype = Factors
    proj.proj_factors.argtypes = [ctypes.c_void_p, Point]
    return proj


def text_of(system):
    shape = "+a=6378137 +rf=298.257222101" if system.ellipsoid.name == "GRS-80" else "+a=6378245 +rf=298.3"
    return "+proj=tmerc +lat_0=0 +lon_0=%.15f +k=%s +x_0=%d +y_0=%d %s" % (system.L0 / DEGREE, system.m0, system.y0, system.x0, shape)


def differences(proj, made, system, B, L):
    """X, Y in mm, scale in 10^-9, convergence in thousandths of an arc second, and B, L in ticks, of the reference less PROJ."""
    radians = Point(math.radians(L / DEGREE), math.radians(B / DEGREE), 0, 0)
    plane = proj.proj_trans(made, 1, radians)
    factors = proj.proj_factors(made, radians)
    X, Y, scale, convergence = projection.forward_raw(system, B, L)
    back = projection.inverse_raw(system, X, Y)
    return [
        X - Decimal(plane.north) * 1000,
        Y - Decimal(plane.east) * 1000,
        scale - Decimal(factors.meridional_scale) * 10**9,
        convergence - Decimal(math.degrees(factors.meridian_convergence)) * 3600 * 1000,
        back[0] - B,
        back[1] - L,
    ]


def main(steps):
    proj = library()
    print("code    X mm    Y mm   scale   conv.  B tick  L tick   (B, L: the reference's inverse of its own forward, less where it started)")
    for system in SYSTEMS.values():
        made = proj.proj_create(None, text_of(system).encode())
        found = [differences(proj, made, system, B, L) for B, L in forward_grid(system, steps)]
        print("%4d %s" % (system.code, " ".join("%7.5f" % max(map(abs, column)) for column in zip(*found))))


if __name__ == "__main__":
    main(int(sys.argv[1]) if len(sys.argv) > 1 else 16)
