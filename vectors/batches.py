"""Batches of text lines and the report on them, from what the format means, and texts by chance. Nothing here knows the
library whose reports are compared with these."""
import itertools
import re
from collections import namedtuple

from chances import damaged, random_call
from common import signed
from consoles import Console

# more bytes than these make a line too long, and a text
LINE_LIMIT = 80
TEXT_LIMIT = 65_536
# a row is run where the report has so many free bytes
ROOM = 64
# the report bytes that a program has
REPORT_SIZE = 65_536

# ---- words ---------------------------------------------------------------------------------------------------------


class Stopped(Exception):
    """A line is refused by this number, for this word of it: 0 where it is for no word."""

    def __init__(self, number, word):
        self.number = number
        self.word = word


MARKS = {"binary": b"p", "decimal": b"e"}
NUMBER = re.compile(rb"(0|-?[1-9][0-9]{0,7})([pe])(0|-?[1-9][0-9]{0,3})")
LANE = re.compile(rb"0|[1-9][0-9]?")


def number(kind, word, place):
    parts = NUMBER.fullmatch(word)
    if not parts:
        raise Stopped(44, place)
    s, mark, q = parts.groups()
    if mark != MARKS[kind.name]:
        raise Stopped(45, place)
    return (int(s), int(q))


def lane(kind, word, place):
    if not LANE.fullmatch(word):
        raise Stopped(44, place)
    return int(word)


# the call of a console that each verb makes, and what the words behind the verb are
VERBS = {
    b"sum": ("sum", [number] * 4),
    b"det": ("determinant", [number] * 4),
    b"mul": ("product", [number] * 4),
    b"turn": ("turn", [lane, number, number]),
    b"restart": ("restart", [lane]),
    b"read": ("read", [lane]),
}


def call_of(kind, line):
    """The call that a line asks for."""
    if len(line) > LINE_LIMIT:
        raise Stopped(41, 0)
    verb, *words = line.split(b" ")
    if verb not in VERBS:
        raise Stopped(43, 1)
    call, readers = VERBS[verb]
    if len(words) != len(readers):
        raise Stopped(42, 0)
    return (call, *[read(kind, word, place) for place, (read, word) in enumerate(zip(readers, words), 2)])


# ---- the batch -----------------------------------------------------------------------------------------------------


def word_of(kind, field):
    """A count, a lane or a figure as a word."""
    if isinstance(field, tuple):
        s, q = field
        return b"%d%b%d" % (s, MARKS[kind.name], q)
    return b"%d" % field


def answer_words(console, line):
    """The words behind the number of a row: those of the answer, or of the refusal."""
    try:
        case, *fields = console.answer(*call_of(console.kind, line))
        if case == "Refused":
            refusal, operand = fields
            # the operands stand behind the verb, which is word 1
            raise Stopped(refusal, 0 if operand is None else operand + 2)
    except Stopped as stop:
        return [b"no", b"%d" % stop.number, b"%d" % stop.word]
    return [word_of(console.kind, field) for field in fields]


def rows_of(text):
    """The lines before the first empty one. A final byte 10 leaves an empty piece behind it, which is no line, and
    which ends the rows as an empty line does."""
    return itertools.takewhile(len, text.split(b"\n"))


def batch(console, text, report_size):
    """Runs the rows of a text on a console: how many were run, the report, and 0, 51 or 61."""
    report = b""
    rows = 0
    for line in rows_of(text):
        if report_size - len(report) < ROOM:
            return rows, report, 51
        if len(text) > TEXT_LIMIT:
            return rows, report, 61
        rows += 1
        report += b" ".join([b"%d" % rows, *answer_words(console, line)]) + b"\n"
    return rows, report, 61 if len(text) > TEXT_LIMIT else 0


Ran = namedtuple("Ran", "rows report end lanes")


def run(kind, method, text, report_size=REPORT_SIZE):
    """What a batch on a new console answers, and its ten lanes afterwards: real part, imaginary part and count."""
    console = Console(kind, method)
    return Ran(*batch(console, text, report_size), console.lanes)


def whole_output(kind, method, text):
    """What a program writes that is given this text."""
    ran = run(kind, method, text)
    return ran.report + (b"0 no %d 0\n" % ran.end if ran.end else b"")


# ---- texts by chance -----------------------------------------------------------------------------------------------


def line_of(kind, call):
    """The line that asks for a call."""
    name, *operands = call
    verb = next(verb for verb, (called, _) in VERBS.items() if called == name)
    return b" ".join([verb, *[word_of(kind, operand) for operand in operands]])


# what is put into lines to damage them: bytes that mean something there, their neighbours, and some that mean nothing
PIECES = [bytes([byte]) for byte in b" 0019-pePE+./:\t\r\0\x0b\x7f\x80\xb9\xff"] + [b"  ", b"p0", b" 0p0", b" 0e0"]


def damaged_bytes(chance, line):
    """The line with a piece put in, a byte left out, or a byte exchanged for a piece."""
    at = chance.randrange(len(line))
    piece = chance.choice(PIECES)
    return chance.choice([line[:at] + piece + line[at:], line[:at] + line[at + 1:], line[:at] + piece + line[at + 1:]])


def damaged_words(chance, line):
    """The line with two words exchanged, one left out, one twice, or one of another case."""
    words = line.split(b" ")
    i, j = chance.randrange(len(words)), chance.randrange(len(words))
    way = chance.randrange(4)
    if way == 0:
        words[i], words[j] = words[j], words[i]
    elif way == 1:
        del words[i]
    elif way == 2:
        words.insert(i, words[j])
    else:
        words[i] = words[i].swapcase()
    return b" ".join(words)


def other_marks(chance, line):
    """The line with p in place of e, and e in place of p, from some place on."""
    at = chance.randrange(len(line))
    return line[:at] + line[at:].translate(bytes.maketrans(b"pe", b"ep"))


def stretched(chance, line):
    """The line with a byte so often behind it that it is about as long as a line may be."""
    return line.ljust(chance.randint(78, 83), chance.choice(PIECES[:-4]))


def far_figure(kind, chance):
    """Zero, or a figure at or near an edge of the significands and of the exponents that a method accepts."""
    s = chance.choice([kind.least, kind.least + 1, kind.half, kind.top - 1, signed(kind, chance)])
    q = chance.choice([-200, 200, chance.randint(-200, 200)])
    return chance.choice([(s, q), (s, q), (-s, q), (0, 0)])


def far_call(kind, chance):
    """A call with such figures."""
    name, operands = chance.choice([("sum", 4), ("determinant", 4), ("product", 4), ("turn", 2)])
    figures = [far_figure(kind, chance) for _ in range(operands)]
    return (name, chance.randrange(10), *figures) if name == "turn" else (name, *figures)


def random_line(kind, chance):
    """A line that asks for a call; of five, one asks for a call that is refused, and one is damaged itself."""
    way = chance.randrange(5)
    call = far_call(kind, chance) if way == 2 else random_call(kind, chance)
    if way == 0:
        call = damaged(kind, chance, call)
    line = line_of(kind, call)
    if way == 1:
        line = chance.choice([damaged_bytes, damaged_bytes, damaged_words, other_marks, stretched])(chance, line)
    return line


def random_text(kind, chance, lines):
    """A text of so many lines. In one of eight texts an empty line is put in; in half of them the last one lacks its
    byte 10."""
    made = [random_line(kind, chance) for _ in range(lines)]
    if chance.randrange(8) == 0:
        made.insert(chance.randint(0, lines), b"")
    return b"\n".join(made) + chance.choice([b"", b"\n"])
