"""Operations and fours of operands by chance. Nothing here knows the library that is asked for them."""
from vector_scripts import make  # the first of these: it says where the others are

from batches import far_figure
from chances import factor
from common import signed
from integers import LIMIT, rounded

# how many operands each operation has
OPERANDS = {"multiply": 2, "add": 2, "fused": 3}


def exponent(chance, reach):
    return chance.randint(-reach, reach)


# ---- operations ----------------------------------------------------------------------------------------------------


def any_operation(kind, chance):
    """Any figures, near one, or anywhere; the operands of a sum within a few digits of each other, or not."""
    operation = chance.choice(list(OPERANDS))
    reach = chance.choice([20, 20, LIMIT])
    operands = [(signed(kind, chance), exponent(chance, reach)) for _ in range(OPERANDS[operation])]
    if operation != "multiply" and chance.randrange(2):
        reached = operands[0][1] + (operands[1][1] + kind.precision if operation == "fused" else 0)
        near = reached + exponent(chance, 2 * kind.precision + 2)
        operands[-1] = (operands[-1][0], max(-LIMIT, min(LIMIT, near)))
    yield operation, operands


def written(kind, chance):
    """Edges of each operation, as vectors/make writes them: ties and their neighbours, carries, cancelling."""
    narrow = make_kind(kind)
    makers = {"multiply": make.multiply_vectors, "add": make.add_vectors, "fused": make.fused_vectors}
    for operation, maker in makers.items():
        for _, *operands in maker(narrow, chance):
            yield operation, operands


def make_kind(kind):
    """The kind with the reach of exponents that vectors/make gives it."""
    return next(narrow for narrow in make.ANSWERS_OF if narrow.name == kind.name)


def tie_of_sum(kind, chance):
    """A sum or a fused sum half way between two figures, or one unit of a far lower place beside it."""
    s, q, sign = signed(kind, chance), exponent(chance, 40), chance.choice([1, -1])
    half = (sign * (kind.half + chance.choice([0, 0, 1])), q - kind.precision)
    yield "add", chance.sample([(s, q), half], 2)
    yield "fused", [(sign * kind.least, q), (kind.half, 1 - 2 * kind.precision), (s, q)]
    size = signed(kind, chance)
    yield "fused", [(size, 7), (kind.half, -11), (chance.choice([1, -1]) * kind.least, -30 - 3 * kind.precision)]


def beside_powers(kind, chance):
    """Significands next to a power of the radix, a few digits apart."""
    def figure(q):
        s = chance.choice([kind.least, kind.least + 1, kind.top - 1, kind.top - 2, kind.half])
        return (chance.choice([s, -s]), q)

    q, r = exponent(chance, 30), exponent(chance, 30)
    gap = exponent(chance, kind.precision + 2)
    yield "multiply", [figure(q), figure(r)]
    yield "add", [figure(q), figure(q + gap)]
    yield "fused", [figure(q), figure(r), figure(q + r + kind.precision - 1 + gap)]


def cancelling(kind, chance):
    """A sum of which few digits are left, or none: neighbours, and a product with its rounded opposite."""
    x, y = (signed(kind, chance), exponent(chance, 25)), (signed(kind, chance), exponent(chance, 25))
    step = chance.choice([0, 0, 1, -1, 2, -3, 100])

    def beside(s, q):
        s = abs(s) + step if kind.least <= abs(s) + step < kind.top else abs(s)
        return s, q

    s, q = beside(*x)
    yield "add", [x, (-s if x[0] > 0 else s, q)]
    n, e = rounded(kind, x[0] * y[0], x[1] + y[1])
    s, e = beside(n, e)
    yield "fused", [x, y, (-s if n > 0 else s, e)]


def with_zeros(kind, chance):
    """Zero in one place or in several."""
    operation, operands = next(any_operation(kind, chance))
    for place in chance.sample(range(len(operands)), chance.randint(1, len(operands))):
        operands[place] = (0, 0)
    yield operation, operands


def no_figure(kind, chance):
    """A pair that is no figure of the kind, of up to eight digits and an exponent of up to four."""
    low, top, q = kind.least, kind.top, exponent(chance, 30)
    s = chance.choice([1, 9, low - 1, low // 2, top, top + 1, 99_999_999, chance.randrange(1, low)])
    far = chance.choice([LIMIT + 1, -LIMIT - 1, 9999, -9999, 2048, -4000])
    return chance.choice([(s, q), (-s, q), (0, far), (0, chance.choice([1, -1, 5])), (signed(kind, chance), far)])


def with_no_figure(kind, chance):
    """What is no figure in one place or in several."""
    operation, operands = next(any_operation(kind, chance))
    for place in chance.sample(range(len(operands)), chance.choice([1, 1, 2])):
        operands[place] = no_figure(kind, chance)
    yield operation, operands


# The makers, each as often as it stands here. One in 45 is `written`, which makes some 74 operations: half of all.
SINGLY = [any_operation] * 16 + [with_zeros, with_no_figure] * 5
MAKERS = SINGLY + [tie_of_sum, beside_powers, cancelling] * 6 + [written]


def at_exponent(kind, chance, q):
    """Operations on figures with this exponent: with a near result, and with one at an edge of the exponents."""
    def figure(r):
        return (signed(kind, chance), max(-LIMIT, min(LIMIT, r)))

    p = kind.precision
    edge = chance.choice([LIMIT, -LIMIT]) - p - q + chance.choice([-1, 0, 1])
    yield "multiply", [figure(q), figure(exponent(chance, LIMIT))]
    yield "multiply", [figure(edge), figure(q)]
    yield "add", [figure(q), figure(q + exponent(chance, p + 2))]
    yield "add", [figure(exponent(chance, LIMIT)), figure(q)]
    r = exponent(chance, LIMIT)
    yield "fused", [figure(q), figure(r), figure(q + r + p + exponent(chance, p + 2))]
    yield "fused", [figure(r), figure(edge), figure(q)]


def operations(kind, chance, count):
    """So many operations, and a few more."""
    made = 0
    while made < count:
        for case in chance.choice(MAKERS)(kind, chance):
            yield case
            made += 1


# ---- fours of operands of a method ---------------------------------------------------------------------------------


def four_near(kind, chance):
    return [(signed(kind, chance), exponent(chance, 2)) for _ in range(4)]


def four_turned(kind, chance):
    """Two factors of a lane's turn."""
    return [*factor(kind, chance), *factor(kind, chance)]


def four_far(kind, chance):
    """At or near the edges of the significands and of the exponents that a method accepts."""
    return [far_figure(kind, chance) for _ in range(4)]


def four_cancelling(kind, chance):
    """Two products that are nearly opposite, or nearly the same: c d lies near -a b, and all four are found by it."""
    while True:
        a, b, c = signed(kind, chance), signed(kind, chance), signed(kind, chance)
        unit = kind.radix ** chance.choice([0, 1])
        d = -a * b * unit // c + chance.choice([0, 0, 1, -1, 7])
        if kind.least <= abs(d) < kind.top:
            q, r = exponent(chance, 90), exponent(chance, 90)
            shift = 0 if unit == 1 else -1
            return [(a, q), (b, r), (c, q + shift), (d, r)]


FOURS = [four_near, four_turned, four_far, four_cancelling, four_cancelling]


def arranged(name, four):
    """The operands of a call such that a b and c d of the four are its two products, up to a sign."""
    a, b, c, d = four
    return {"sum": (a, b, c, d), "determinant": (a, c, d, b), "product": (a, c, b, d)}[name]
