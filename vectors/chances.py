"""Calls of a console by chance, some of them damaged."""
from common import signed


def factor(kind, chance):
    """Two parts of a factor whose length is not far from one; now and then a part is zero."""
    parts = [(signed(kind, chance), -kind.precision + chance.choice([0, 0, 1])) for _ in range(2)]
    if chance.randrange(8) == 0:
        parts[chance.randrange(2)] = (0, 0)
    return parts


def bad_figure(kind, chance):
    low, top = kind.least, kind.top
    return chance.choice(
        [(1, 0), (0, 5), (low - 1, 0), (-top, -3), (-(2 ** 31), 0), (low, 2001), (low, 201), (1 - top, -201)]
    )


def random_call(kind, chance):
    """Mostly turns, mostly of a few lanes."""
    verb = chance.choices(["turn", "read", "restart", "sum", "determinant", "product"], [60, 14, 3, 4, 4, 4])[0]
    lane = chance.choice([0, 1, 3, 3, 3, 3, 7, 7, 7, 8, 9])
    if verb in ("read", "restart"):
        return (verb, lane)
    if verb == "turn":
        return (verb, lane, *factor(kind, chance))
    return (verb, *factor(kind, chance), *factor(kind, chance))


def damaged(kind, chance, call):
    """The call with one lane that is none, or one operand that a method does not accept."""
    verb, *operands = call
    place = chance.randrange(len(operands))
    if isinstance(operands[place], int):
        operands[place] = chance.choice([10, 11, 99, 255])
    else:
        operands[place] = bad_figure(kind, chance)
    return (verb, *operands)
