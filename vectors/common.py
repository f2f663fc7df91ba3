"""What the scripts that write tables of test vectors share: kinds, the choice of operands, the writing of files."""
import pathlib
import sys

CRATES = pathlib.Path(__file__).resolve().parent.parent / "crates"


class Kind:
    """A radix, a precision, and the exponents from which random operands are taken."""

    def __init__(self, name, radix, precision, reach):
        self.name = name
        self.radix = radix
        self.precision = precision
        self.reach = reach
        self.least = radix ** (precision - 1)
        self.top = radix ** precision
        self.half = self.top // 2


# ---- operands ------------------------------------------------------------------------------------------------------


def significand(kind, chance):
    return chance.randrange(kind.least, kind.top)


def signed(kind, chance):
    return chance.choice([1, -1]) * significand(kind, chance)


def exponent(kind, chance):
    return chance.randint(-kind.reach, kind.reach)


def kept(kind, n):
    """The leading digits of n > 0 that a figure keeps, what is left of n below them, and their unit."""
    unit = 1
    while n // unit >= kind.top:
        unit *= kind.radix
    return n // unit, n % unit, unit


def products_where(kind, chance, rest_is, wanted):
    """Two random significands whose product leaves `rest_is(unit)` below the digits that a figure keeps."""
    while True:
        x = significand(kind, chance)
        unit = kind.radix ** chance.choice([kind.precision - 1, kind.precision])
        try:
            y = rest_is(unit) * pow(x, -1, unit) % unit
        except ValueError:  # x and the radix have a factor in common
            continue
        y += unit * chance.randrange(kind.radix)
        if not kind.least <= y < kind.top:
            continue
        digits, rest, found = kept(kind, x * y)
        if found == unit and rest == rest_is(unit) and wanted(digits):
            return x, y


def beside_power(kind, chance):
    """Significands x and y such that x y rounds up to a power of the radix, and x (y + 1) lies just above it."""
    power = kind.radix ** (2 * kind.precision - 1)
    while True:
        x = significand(kind, chance)
        y = (power - 1) // x
        digits, rest, unit = kept(kind, x * y)
        if kind.least <= y < kind.top - 1 and digits == kind.top - 1 and 2 * rest > unit:
            return x, y


def even(digits):
    return digits % 2 == 0


def odd(digits):
    return digits % 2 == 1


# ---- files ---------------------------------------------------------------------------------------------------------


def figure_text(pair):
    """A significand and an exponent, as source."""
    s, q = pair
    return f"figure!({s}, {q})"


def source(field):
    """A number or a figure, as source."""
    return figure_text(field) if isinstance(field, tuple) else str(field)


def rows_of(title, row, rows):
    """The lines of a table: each row has words on it, and then its fields, each of which is a figure or a number."""
    lines = ["", f"pub const {title}: [{row}; {len(rows)}] = ["]
    for words, fields in rows:
        lines.append(f"    // {words}")
        lines.append(f"    {row} {{")
        for name, field in fields.items():
            lines.append(f"        {name}: {source(field)},")
        lines.append("    },")
    return lines + ["];"]


def main(makers):
    """Writes the file of each name with the text or the bytes that its maker gives, or compares them with the file."""
    if sys.argv[1:] not in ([], ["--check"]):
        sys.exit(f"usage: vectors/{pathlib.Path(sys.argv[0]).name} [--check]")
    stale = []
    for name, maker in makers.items():
        path = CRATES / name
        made = maker()
        if isinstance(made, str):
            made = made.encode()
        if not sys.argv[1:]:
            path.parent.mkdir(parents=True, exist_ok=True)
            path.write_bytes(made)
        elif not path.exists() or path.read_bytes() != made:
            stale.append(name)
    if stale:
        sys.exit("not as a fresh run writes them: " + ", ".join(stale))
