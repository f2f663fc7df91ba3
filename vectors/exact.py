"""Figures, rounding and the methods for ab + cd in exact fractions, from what they mean. Nothing here knows the library
whose answers are compared with these."""
import sys
from fractions import Fraction
from math import log2

from common import Kind

BINARY = Kind("binary", 2, 24, 200)
DECIMAL = Kind("decimal", 10, 7, 200)

# ---- figures and rounding ------------------------------------------------------------------------------------------


def value(kind, figure):
    s, q = figure
    return s * Fraction(kind.radix) ** q


def opposite(figure):
    s, q = figure
    return (-s, q)


def last_place(kind, x):
    """The exponent of the last place of x, which is not zero: in units of radix^q, least <= |x| < top."""
    # a first guess, which saves steps; the two loops settle q from any
    bits = x.numerator.bit_length() - x.denominator.bit_length()
    q = int(bits / log2(kind.radix)) - kind.precision
    while abs(x) >= kind.top * Fraction(kind.radix) ** q:
        q += 1
    while abs(x) < kind.least * Fraction(kind.radix) ** q:
        q -= 1
    return q


def rounded(kind, x):
    """The figure nearest to x; of two that are equally near, the one with the even significand."""
    if x == 0:
        return (0, 0)
    q = last_place(kind, x)
    units = abs(x) / Fraction(kind.radix) ** q
    s = units.numerator // units.denominator
    rest = units - s
    if rest > Fraction(1, 2) or rest == Fraction(1, 2) and s % 2 == 1:
        s += 1
    if s == kind.top:
        s, q = kind.least, q + 1
    return (s if x > 0 else -s, q)


def nearest(kind, x):
    return value(kind, rounded(kind, x))


# ---- methods and calls ---------------------------------------------------------------------------------------------


def kahan(kind, a, b, c, d):
    w = nearest(kind, c * d)
    e = nearest(kind, c * d - w)
    f = nearest(kind, a * b + w)
    return rounded(kind, f + e)


def symmetric(kind, a, b, c, d):
    p1, p2 = nearest(kind, a * b), nearest(kind, c * d)
    e1, e2 = nearest(kind, a * b - p1), nearest(kind, c * d - p2)
    return rounded(kind, nearest(kind, p1 + p2) + nearest(kind, e1 + e2))


def kahan_is_near(kind, r, x):
    """Within 1/B of x, and within (radix + 1)/2 units of its last place."""
    unit = Fraction(kind.radix) ** last_place(kind, x) if x else 0
    return abs(r - x) * kind.least <= abs(x) and 2 * abs(r - x) <= (kind.radix + 1) * unit


def symmetric_is_near(kind, r, x):
    """Within (4B² + 7B + 3)/(4B³) of x."""
    least = kind.least
    return 4 * least ** 3 * abs(r - x) <= (4 * least ** 2 + 7 * least + 3) * abs(x)


class Call:
    """What a call asks a method for, its exact value, and how four operands of the method are given to the call."""

    def __init__(self, asks, exact, given):
        self.asks = asks
        self.exact = exact
        self.given = given


# A complex product is two calls here, one for each part.
CALLS = {
    "sum": Call(
        lambda a, b, c, d: (a, b, c, d),
        lambda a, b, c, d: a * b + c * d,
        lambda a, b, c, d: (a, b, c, d),
    ),
    "determinant": Call(
        lambda a, b, c, d: (a, d, -b, c),
        lambda a, b, c, d: a * d - b * c,
        lambda a, b, c, d: (a, opposite(c), d, b),
    ),
    "real": Call(
        lambda a, b, c, d: (a, c, -b, d),
        lambda a, b, c, d: a * c - b * d,
        lambda a, b, c, d: (a, opposite(c), b, d),
    ),
    "imaginary": Call(
        lambda a, b, c, d: (a, d, b, c),
        lambda a, b, c, d: a * d + b * c,
        lambda a, b, c, d: (a, c, d, b),
    ),
}


class Method:
    """A function for ab + cd, whether an answer is as near as is promised, and the allowance N/D over a kind."""

    def __init__(self, name, answer, is_near, allowance):
        self.name = name
        self.answer = answer
        self.is_near = is_near
        self.allowance = allowance


KAHAN = Method("Kahan's", kahan, kahan_is_near, lambda kind: (1, kind.least))
SYMMETRIC = Method(
    "the symmetric",
    symmetric,
    symmetric_is_near,
    lambda kind: (4 * kind.least ** 2 + 7 * kind.least + 3, 4 * kind.least ** 3),
)


def is_accepted(kind, figure):
    s, q = figure
    return figure == (0, 0) or kind.least <= abs(s) < kind.top and abs(q) <= 200


def answered(kind, method, name, four):
    """The answer to a call on four figures, once it is found to be as near as the method promises."""
    if not all(is_accepted(kind, figure) for figure in four):
        sys.exit(f"an operand that is not accepted: {four}")
    call, values = CALLS[name], [value(kind, figure) for figure in four]
    answer = method.answer(kind, *call.asks(*values))
    if not method.is_near(kind, value(kind, answer), call.exact(*values)):
        sys.exit(f"{method.name} method is not as near as it promises: {name} of {four}")
    return answer
