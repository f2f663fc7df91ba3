"""A console and the law of its lanes, in exact fractions, from what its calls mean. Nothing here knows the library
whose answers are compared with these."""
import sys
from fractions import Fraction

from exact import answered, value

LANES = 10
FULL = 1_000_000

# ---- the console ---------------------------------------------------------------------------------------------------


class Refused(Exception):
    """A call is stopped, by this number. Where an operand is at fault, this is its place in the call, from 0."""

    def __init__(self, number, place=None):
        self.number = number
        self.place = place


def operand(kind, figure, place):
    """Stops an operand of a method that is no figure (21), or whose exponent is outside -200..200 (22)."""
    s, q = figure
    if s == 0:
        if q != 0:
            raise Refused(21, place)
    elif not (kind.least <= abs(s) < kind.top and abs(q) <= 2000):
        raise Refused(21, place)
    if abs(q) > 200:
        raise Refused(22, place)


class Console:
    def __init__(self, kind, method):
        self.kind = kind
        self.method = method
        self.lanes = [self.fresh()] * LANES

    def fresh(self):
        return ((self.kind.least, 1 - self.kind.precision), (0, 0), 0)

    def by(self, name, *four):
        return answered(self.kind, self.method, name, four)

    def tested(self, figures, first=0):
        """Tests operands from the left, the first of which has this place in the call."""
        for place, figure in enumerate(figures, first):
            operand(self.kind, figure, place)

    def lane(self, i):
        if i >= LANES:
            raise Refused(31, 0)
        return self.lanes[i]

    def sum(self, *four):
        self.tested(four)
        return ("Value", self.by("sum", *four))

    def determinant(self, *four):
        self.tested(four)
        return ("Value", self.by("determinant", *four))

    def product(self, *four):
        self.tested(four)
        return ("Parts", self.by("real", *four), self.by("imaginary", *four))

    def turn(self, i, c, d):
        re, im, count = self.lane(i)
        self.tested([c, d], first=1)
        if count == FULL:
            raise Refused(32)
        new = self.by("real", re, im, c, d), self.by("imaginary", re, im, c, d)
        if any(abs(q) > 200 for _, q in new):
            raise Refused(33)
        self.lanes[i] = (*new, count + 1)
        return ("Count", count + 1)

    def restart(self, i):
        self.lane(i)
        self.lanes[i] = self.fresh()
        return ("Count", 0)

    def read(self, i):
        re, im, count = self.lane(i)
        return ("Shown", count, re, im)

    def answer(self, verb, *operands):
        try:
            return getattr(self, verb)(*operands)
        except Refused as refusal:
            return ("Refused", refusal.number, refusal.place)


# ---- the law of the lanes ------------------------------------------------------------------------------------------


class Courses:
    """The accepted turns of each lane since it was last fresh: their number, and the exact product of their factors."""

    def __init__(self, kind):
        self.kind = kind
        self.turns = [0] * LANES
        self.products = [(Fraction(1), Fraction(0))] * LANES

    def follow(self, verb, operands, refused):
        if refused or verb not in ("turn", "restart"):
            return
        i, *factor = operands
        if verb == "restart":
            self.turns[i], self.products[i] = 0, (Fraction(1), Fraction(0))
            return
        (x, y), (c, d) = self.products[i], [value(self.kind, figure) for figure in factor]
        self.turns[i], self.products[i] = self.turns[i] + 1, (x * c - y * d, x * d + y * c)


def check_law(console, courses, i):
    """Stops the script where the lane i does not track its course."""
    kind = console.kind
    re, im, count = console.lanes[i]
    n, (x, y) = courses.turns[i], courses.products[i]
    num, den = console.method.allowance(kind)
    distance = (value(kind, re) - x) ** 2 + (value(kind, im) - y) ** 2
    length = x ** 2 + y ** 2
    if count != n or distance * den ** (2 * n) > ((den + num) ** n - den ** n) ** 2 * length:
        sys.exit(f"lane {i} of a {kind.name} console by {console.method.name} method does not track its {n} turns")
