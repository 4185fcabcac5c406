"""True elementary functions to 60 digits, for the reference projection: pi, sine, cosine, tangent, arc tangent and arc sine.

exp, ln and sqrt are those of Python's `decimal`, which rounds them correctly. The others are power series after the argument is made small, with ten digits to
spare; the self-test holds them to identities that no common mistake keeps. Assumes Python 3.9 or newer and its standard library.
"""

from decimal import Decimal, getcontext, localcontext

DIGITS = 60
SPARE = 10
getcontext().prec = DIGITS
# A term below this changes no digit that is kept.
TINY = Decimal(10) ** -(DIGITS + SPARE)


def with_spare(function):
    """Works a function with spare digits and rounds what it answers once."""

    def worked(*arguments):
        with localcontext() as context:
            context.prec = DIGITS + SPARE
            answer = function(*arguments)
        return +answer

    return worked


def atan_series(x):
    """x - x³/3 + x⁵/5 - .. for a small x."""
    square, power, total, k = x * x, x, x, 1
    while abs(power) > TINY:
        power, k = -power * square, k + 2
        total += power / k
    return total


@with_spare
def machin():
    return 16 * atan_series(Decimal(1) / 5) - 4 * atan_series(Decimal(1) / 239)


PI = machin()


def small_sin_cos(x):
    term, sine, cosine, k = Decimal(1), Decimal(0), Decimal(0), 0
    while abs(term) > TINY:
        if k % 2 == 0:
            cosine += term if k % 4 == 0 else -term
        else:
            sine += term if k % 4 == 1 else -term
        k += 1
        term = term * x / k
    return sine, cosine


class Both(tuple):
    """A sine with its cosine, rounded together."""

    def __new__(cls, sine, cosine):
        return tuple.__new__(cls, (sine, cosine))

    def __pos__(self):
        return Both(+self[0], +self[1])


@with_spare
def sin_cos_pair(x):
    # Halved 8 times, so that the series is short; then the angle is doubled as often.
    sine, cosine = small_sin_cos(x / 256)
    for _ in range(8):
        sine, cosine = 2 * sine * cosine, cosine * cosine - sine * sine
    return Both(sine, cosine)


def sin(x):
    return sin_cos_pair(x)[0]


def cos(x):
    return sin_cos_pair(x)[1]


def tan(x):
    sine, cosine = sin_cos_pair(x)
    return sine / cosine


@with_spare
def atan(x):
    # arctan x = 2·arctan(x / (1 + √(1 + x²))): four times over, so that the series is short.
    for _ in range(4):
        x = x / (1 + (1 + x * x).sqrt())
    return 16 * atan_series(x)


@with_spare
def asin(x):
    return atan(x / (1 - x * x).sqrt())


def self_test():
    known = Decimal("3.14159265358979323846264338327950288419716939937510582097494")
    assert abs(PI - known) < Decimal(10) ** -58
    worst = Decimal(0)
    for k in range(-40, 41):
        x = Decimal(k) / 23
        sine, cosine = sin_cos_pair(x)
        worst = max(worst, abs(sine * sine + cosine * cosine - 1))
        worst = max(worst, abs(sin(x + PI) + sine), abs(sin(PI / 2 - x) - cosine))
        worst = max(worst, abs(sin(3 * x) - (3 * sine - 4 * sine**3)))
        if abs(x) < Decimal("1.5"):
            worst = max(worst, abs(atan(tan(x)) - x), abs(asin(sine) - x))
    assert abs(sin(PI / 6) - Decimal("0.5")) < Decimal(10) ** -58
    assert abs(atan(Decimal(1)) - PI / 4) < Decimal(10) ** -58
    assert worst < Decimal(10) ** -57, worst


if __name__ == "__main__":
    self_test()
    print("functions: the identities hold to 57 digits")
