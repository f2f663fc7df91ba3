"""What multiply, add and fused answer, in whole numbers: every value is n x radix^e with n and e whole. Nothing here
knows the library whose answers are compared with these."""
from functools import cache

# the exponents that figures have, and the refusals of an operation
LIMIT = 2000
NO_FIGURE = 11
OUTSIDE = 12


@cache
def power(radix, n):
    return radix ** n


def is_figure(kind, pair):
    s, q = pair
    return pair == (0, 0) or kind.least <= abs(s) < kind.top and abs(q) <= LIMIT


def digits(radix, n):
    """How many digits n > 0 has."""
    if radix == 2:
        return n.bit_length()
    # a first guess, which the two loops settle
    count = max(1, (n.bit_length() * 30103) // 100000)
    while n >= power(radix, count):
        count += 1
    while n < power(radix, count - 1):
        count -= 1
    return count


def rounded(kind, n, e):
    """The figure nearest to n x radix^e; of two that are equally near, the one with the even significand."""
    if n == 0:
        return (0, 0)
    size, drop = abs(n), digits(kind.radix, abs(n)) - kind.precision
    if drop <= 0:
        s = size * power(kind.radix, -drop)
    else:
        unit = power(kind.radix, drop)
        s, rest = divmod(size, unit)
        if 2 * rest > unit or 2 * rest == unit and s % 2 == 1:
            s += 1
        if s == kind.top:
            s, drop = kind.least, drop + 1
    return (s if n > 0 else -s, e + drop)


def product(x, y):
    return (x[0] * y[0], x[1] + y[1])


def plus(kind, x, y):
    (n, e), (m, f) = x, y
    low = min(e, f)
    return (n * power(kind.radix, e - low) + m * power(kind.radix, f - low), low)


def exact(kind, operation, operands):
    if operation == "multiply":
        return product(*operands)
    if operation == "add":
        return plus(kind, *operands)
    x, y, z = operands
    return plus(kind, product(x, y), z)


def answer(kind, operation, operands):
    """The figure that an operation answers, or the number of its refusal."""
    if not all(is_figure(kind, operand) for operand in operands):
        return NO_FIGURE
    s, q = rounded(kind, *exact(kind, operation, operands))
    return (s, q) if abs(q) <= LIMIT else OUTSIDE
