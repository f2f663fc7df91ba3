"""The parts of a run: each asks a program for answers and compares them with answers that come from elsewhere."""
import re
import subprocess
from types import SimpleNamespace

from vector_scripts import TOP, VECTORS, compare_batches, make  # the first of these: it says where the others are

import batches
import cases
import integers
from batches import Stopped, line_of, whole_output, word_of
from chances import random_call
from consoles import LANES, Courses, check_law
from exact import BINARY, CALLS, DECIMAL, SYMMETRIC, answered, rounded, value
from tally import Tally

KINDS = {"binary": BINARY, "decimal": DECIMAL}
ARRANGEMENTS = compare_batches.ARRANGEMENTS


def program(name):
    return TOP / "crates" / name / "out" / name


# ---- answers -------------------------------------------------------------------------------------------------------

FIGURE = re.compile(rb"(-?\d+)[pe](-?\d+)")


def figures_in(line):
    return [(int(s), int(q)) for s, q in FIGURE.findall(line)]


def last_digit_changed(line):
    """A line with another last binary digit in the significand of its first figure."""
    return FIGURE.sub(lambda found: found[0].replace(found[1], b"%d" % (int(found[1]) ^ 1), 1), line, 1)


def exponent_raised(line):
    """A line with the exponent of its first figure one higher."""
    return FIGURE.sub(lambda found: found[0][: found.start(2) - found.start()] + b"%d" % (int(found[2]) + 1), line, 1)


def asked(name, lines, plant=None, places=()):
    """The lines that a program writes for lines of input. For a test of the comparison itself, one of them is changed
    before it is handed on: the first of those at these places."""
    run = subprocess.run([program(name)], input=b"\n".join(lines) + b"\n", stdout=subprocess.PIPE)
    written = run.stdout.split(b"\n")
    if run.returncode != 0 or written.pop() != b"":
        raise RuntimeError(f"{name} ended with status {run.returncode}, or its last line with no byte 10")
    if plant:
        place = next(place for place in places if FIGURE.search(written[place]))
        written[place] = plant(written[place])
    return written


# ---- operations ----------------------------------------------------------------------------------------------------


def operation_line(kind, operation, operands):
    return b" ".join([kind.name.encode(), operation.encode(), *[word_of(kind, operand) for operand in operands]])


def operation_words(kind, outcome):
    """What the driver says of a figure or of a refusal."""
    return word_of(kind, outcome) if isinstance(outcome, tuple) else b"no %d" % outcome


def words_of_damaged(line):
    """What the driver says of any line."""
    name, operation, *words = [*line.split(b" "), None, None][: max(2, line.count(b" ") + 1)]
    if operation is None:
        return b"no 42"
    if name.decode("latin1") not in KINDS or operation.decode("latin1") not in cases.OPERANDS:
        return b"no 43"
    kind, operation = KINDS[name.decode()], operation.decode()
    if len(words) != cases.OPERANDS[operation]:
        return b"no 42"
    try:
        operands = [batches.number(kind, word, 0) for word in words]
    except Stopped as stop:
        return b"no %d" % stop.number
    return operation_words(kind, integers.answer(kind, operation, operands))


def is_normal_float(pair):
    """Zero, or a figure that a normal float holds."""
    return pair == (0, 0) or -149 <= pair[1] <= 104


def operations(kind_name, chance, count, exponents, floats, plant=None):
    """Multiply, add and fused, compared with whole numbers, with C's float or Python's decimal, and some of them with
    fractions; and lines by chance that are damaged."""
    kind, tally = KINDS[kind_name], Tally()
    made = [case for q in exponents for case in cases.at_exponent(kind, chance, q)]
    made += cases.operations(kind, chance, count)
    outcomes = [integers.answer(kind, *case) for case in made]
    places = [place for place, outcome in enumerate(outcomes) if isinstance(outcome, tuple)]
    if kind is BINARY:
        places = [place for place in places if all(map(is_normal_float, [*made[place][1], outcomes[place]]))]
    lines = [operation_line(kind, *case) for case in made]
    damaged = [damaged_line(chance, chance.choice(lines)) for _ in range(len(made) // 40)]
    answers = asked("driver", lines + damaged, plant, places)
    tally.check("answers to lines, one for each", len(answers) == len(lines) + len(damaged), len(answers))
    for case, outcome, words in zip(made, outcomes, answers):
        tally.check(f"{kind.name} operations, whole numbers", words == operation_words(kind, outcome), case, words)
    for line, words in zip(damaged, answers[len(lines):]):
        tally.check("damaged lines of operations", words == words_of_damaged(line), line, words)
    for place in places[::50]:
        fraction = rounded(kind, exact_fraction(kind, *made[place]))
        met = answers[place] == word_of(kind, fraction)
        tally.check(f"{kind.name} operations, fractions", met, made[place], answers[place])
    name, others = f"{kind.name} operations, Python's decimal", make.decimal_answers
    if kind is BINARY:
        name, others = "binary operations, C's float and fmaf", floats
    for place, other in zip(places, others([made[place] for place in places]), strict=True):
        if other[0] == 0 or abs(other[1]) <= integers.LIMIT:
            tally.check(name, answers[place] == word_of(kind, other), made[place], answers[place], other)
    return tally


def damaged_line(chance, line):
    return chance.choice([batches.damaged_bytes, batches.damaged_words, batches.other_marks])(chance, line)


def exact_fraction(kind, operation, operands):
    x, y, *rest = [value(kind, operand) for operand in operands]
    return x + y if operation == "add" else x * y + sum(rest)


class Floats:
    """The C program of vectors/, compiled into a folder: its answers to calls whose values are all normal floats."""

    def __init__(self, folder):
        self.program = folder / "binary"
        options = ["-O2", "-ffp-contract=off", "-o", self.program, VECTORS / "binary.c", "-lm"]
        subprocess.run(["gcc", *options], check=True)

    def __call__(self, calls):
        lines = [" ".join([operation, *[f"{s} {q}" for s, q in operands]]) for operation, operands in calls]
        text = "".join(line + "\n" for line in lines)
        run = subprocess.run([self.program], input=text, text=True, stdout=subprocess.PIPE, check=True)
        return [tuple(map(int, line.split())) for line in run.stdout.splitlines()]


# ---- methods -------------------------------------------------------------------------------------------------------

# the parts of each call, as exact.py names them
PARTS = {"sum": ["sum"], "determinant": ["determinant"], "product": ["real", "imaginary"]}

# so many lines fit a batch, and their answers its report
CALLS_OF_A_TEXT = 900


def methods(name, chance, texts, plant=None):
    """Sums, determinants and products by a method, compared with fractions, and with what the method promises."""
    (kind, method), tally = ARRANGEMENTS[name], Tally()
    for _ in range(texts):
        calls = []
        while len(calls) < CALLS_OF_A_TEXT:
            call = chance.choice(list(PARTS))
            a, b, c, d = cases.arranged(call, chance.choice(cases.FOURS)(kind, chance))
            calls.append((call, a, b, c, d))
            if call == "sum":
                calls.append((call, c, d, a, b))
        sums = [place for place, call in enumerate(calls) if call[0] == "sum"]
        rows = asked(name, [line_of(kind, call) for call in calls], plant, sums)
        tally.check("answers to calls, one for each", len(rows) == len(calls), len(rows))
        before = None
        for number, ((call, *four), row) in enumerate(zip(calls, rows), 1):
            check_call(tally, name, number, call, four, row)
            exchanged = before == ("sum", *four[2:], *four[:2])
            if method is SYMMETRIC and exchanged:
                same = figures_in(row) == figures_in(rows[number - 2])
                tally.check("sums of exchanged products, the symmetric method", same, four, row)
            before = None if exchanged else (call, *four)
        plant = None  # one answer is changed, and not one of each text
    return tally


def check_call(tally, name, number, call, four, row):
    """The row of an accepted call: the figures that fractions give, as near as the method promises."""
    kind, method = ARRANGEMENTS[name]
    expected = [answered(kind, method, part, four) for part in PARTS[call]]
    words = b" ".join([b"%d" % number, *[word_of(kind, figure) for figure in expected]])
    tally.check(f"calls by the {name} program, fractions", row == words, call, four, row)
    values = [value(kind, figure) for figure in four]
    for part, figure in zip(PARTS[call], figures_in(row)):
        met = method.is_near(kind, value(kind, figure), CALLS[part].exact(*values))
        tally.check(f"bounds of answers by the {name} program", met, part, four, figure)


# ---- lanes ---------------------------------------------------------------------------------------------------------


def lanes(name, chance, texts, plant=None):
    """Turns and restarts, with a reading of the lane behind each: the law of the lanes holds of what is read."""
    (kind, method), tally = ARRANGEMENTS[name], Tally()
    for _ in range(texts):
        calls = [call for _ in range(450) for call in lane_calls(kind, chance)]
        lines = [line_of(kind, call) for call in calls]
        readings = [place for place, call in enumerate(calls) if call[0] == "read"]
        rows = asked(name, lines, plant, readings[9:])
        computed = whole_output(kind, method, b"\n".join(lines)).splitlines()
        tally.check("answers to calls, one for each", len(rows) == len(calls), len(rows))
        courses = Courses(kind)
        shown = [None] * LANES
        for call, row, other in zip(calls, rows, computed):
            verb, i, *factor = call
            refused = row.split(b" ")[1] == b"no"
            tally.check(f"turns, restarts and readings by the {name} program, fractions", row == other, call, row)
            courses.follow(verb, [i, *factor], refused)
            if verb == "read":
                re, im = figures_in(row)
                shown[i] = (re, im, int(row.split(b" ")[1]))
                console = SimpleNamespace(kind=kind, method=method, lanes=shown)
                tally.check(f"law of the lanes of the {name} program", keeps_law(console, courses, i), i, row)
        plant = None
    return tally


def lane_calls(kind, chance):
    """A turn or a restart, and a reading of its lane."""
    while True:
        call = batches.far_call(kind, chance) if chance.randrange(16) == 0 else random_call(kind, chance)
        if call[0] in ("turn", "restart"):
            return [call, ("read", call[1])]


def keeps_law(console, courses, i):
    try:
        check_law(console, courses, i)
    except SystemExit:
        return False
    return True


# ---- batches -------------------------------------------------------------------------------------------------------


def whole_batches(name, chance, numbers, plant=None):
    """Texts by chance, valid and damaged, with some that fill the report and some that are about as long as a text may
    be: every line of the report, and its end, is the one that vectors/batches.py computes."""
    (kind, method), tally = ARRANGEMENTS[name], Tally()
    for n in numbers:
        text = compare_batches.text_by_chance(kind, chance, n)
        computed = whole_output(kind, method, text).split(b"\n")
        run = subprocess.run([program(name)], input=text, stdout=subprocess.PIPE)
        written = run.stdout.split(b"\n")
        if plant and any(map(FIGURE.search, written)):
            place = next(place for place, line in enumerate(written) if FIGURE.search(line))
            written[place], plant = plant(written[place]), None
        met = run.returncode == 0 and len(written) == len(computed)
        tally.check(f"whole outputs of the {name} program, their length", met, n, run.returncode, len(written))
        for line, other in zip(written, computed):
            tally.check(f"lines of whole outputs of the {name} program", line == other, line, other)
    return tally
