"""Lines for a new console, each with words on it and with its answer, which stands here by hand: the words that a
report shows behind the number of the row. None of them changes a lane."""

# ---- binary: answers -----------------------------------------------------------------------------------------------

# 2, 3, 5 and 7
FOUR = b"8388608p-22 12582912p-22 10485760p-21 14680064p-21"

ANSWERED = [
    ("2 x 3 + 5 x 7 = 41", b"sum " + FOUR, b"10747904p-18"),
    ("2 x 7 - 3 x 5 = -1", b"det " + FOUR, b"-8388608p-23"),
    ("(2 + 3i)(5 + 7i) = -11 + 29i", b"mul " + FOUR, b"-11534336p-20 15204352p-19"),
    ("zeros alone", b"sum 0p0 0p0 0p0 0p0", b"0p0"),
    ("zeros alone", b"mul 0p0 0p0 0p0 0p0", b"0p0 0p0"),
    ("all is cancelled", b"sum 8388609p7 8388611p-9 -8388611p-9 8388609p7", b"0p0"),
    ("nearly all is cancelled", b"det 8388609p-23 8388608p-23 8388610p-23 8388609p-23", b"8388608p-69"),
    ("Kahan's method is one unit off", b"sum 16777215p0 8388610p-2 16777215p0 8388609p-2", b"8388609p23"),
    ("a tie, to the even neighbour above", b"sum 12582912p-23 8388609p-23 0p0 0p0", b"12582914p-23"),
    ("a tie, to the even neighbour below", b"sum 0p0 0p0 12582912p-23 8388611p-23", b"12582916p-23"),
    ("a tie, to a power of two", b"sum 16777215p0 8388608p-23 8388608p-24 8388608p-23", b"8388608p1"),
    ("just below a power of two", b"det 8388608p0 8388608p-25 8388608p-23 8388608p-23", b"8388608p0"),
    ("the largest exponents", b"sum 8388608p200 8388608p200 8388608p200 8388608p200", b"8388608p424"),
    ("the largest figures", b"det 16777215p200 -16777215p200 16777215p200 16777215p200", b"16777214p425"),
    ("the smallest exponents", b"mul 8388608p-200 0p0 -8388608p-200 0p0", b"-8388608p-377 0p0"),
    ("a fresh lane", b"read 0", b"0 8388608p-23 0p0"),
    ("the last lane", b"read 9", b"0 8388608p-23 0p0"),
    ("a fresh lane is fresh again", b"restart 0", b"0"),
]

# ---- binary: refused lines -----------------------------------------------------------------------------------------

TOO_LONG = [
    ("80 bytes that are no verb", b"x" * 80, b"no 43 1"),
    ("81 bytes that are no verb", b"x" * 81, b"no 41 0"),
    ("80 bytes of a call and of spaces", b"read 0".ljust(80), b"no 42 0"),
    ("81 bytes of a call and of spaces", b"read 0".ljust(81), b"no 41 0"),
    ("80 spaces", b" " * 80, b"no 43 1"),
    ("81 spaces", b" " * 81, b"no 41 0"),
    ("80 bytes, a byte 13 the last of them", b"x" * 79 + b"\r", b"no 43 1"),
    ("a byte 13 counts", b"x" * 80 + b"\r", b"no 41 0"),
    ("a call with a last word of 72 bytes", b"turn 3 " + b"0" * 73, b"no 42 0"),
    ("a call with a last word of 73 bytes", b"turn 3 " + b"0" * 74, b"no 41 0"),
]

UNKNOWN_VERBS = [
    ("capitals", b"SUM 0p0 0p0 0p0 0p0", b"no 43 1"),
    ("a capital", b"Read 0", b"no 43 1"),
    ("a verb and a letter", b"reads 0", b"no 43 1"),
    ("a verb less a letter", b"rea 0", b"no 43 1"),
    ("a verb and a byte 9", b"read\t0", b"no 43 1"),
    ("a verb and a byte 0", b"read\x00 0", b"no 43 1"),
    ("two verbs in one", b"turnread 3", b"no 43 1"),
    ("a longer name", b"determinant 0p0 0p0 0p0 0p0", b"no 43 1"),
    ("a number for a verb", b"0p0 0p0 0p0 0p0 0p0", b"no 43 1"),
    ("a lane for a verb", b"3", b"no 43 1"),
    ("a space before the verb", b" read 0", b"no 43 1"),
    ("one space", b" ", b"no 43 1"),
    ("a byte 13 alone", b"\r", b"no 43 1"),
    ("a byte 9 alone", b"\t", b"no 43 1"),
    ("a byte 0 alone", b"\x00", b"no 43 1"),
    ("a byte above 127 alone", b"\xff", b"no 43 1"),
    ("letters above 127", b"s\xc3\xbcm 0p0 0p0 0p0 0p0", b"no 43 1"),
    ("a space of two bytes", b"read\xc2\xa00", b"no 43 1"),
    ("no verb and too few words", b"add", b"no 43 1"),
    ("no verb and too many words", b"add 1 2 3 4 5 6 7", b"no 43 1"),
    ("no verb and no number", b"add x x x x", b"no 43 1"),
]

WORD_COUNTS = [
    ("a verb alone", b"sum", b"no 42 0"),
    ("a verb alone", b"read", b"no 42 0"),
    ("a verb and a byte less", b"sum 0p0 0p0 0p0", b"no 42 0"),
    ("one number too many", b"sum 0p0 0p0 0p0 0p0 0p0", b"no 42 0"),
    ("one number too few", b"det 0p0 0p0 0p0", b"no 42 0"),
    ("one number too many", b"mul 0p0 0p0 0p0 0p0 0p0", b"no 42 0"),
    ("one number too few", b"turn 3 0p0", b"no 42 0"),
    ("one number too many", b"turn 3 0p0 0p0 0p0", b"no 42 0"),
    ("no lane", b"restart", b"no 42 0"),
    ("two lanes", b"restart 3 3", b"no 42 0"),
    ("two lanes", b"read 3 3", b"no 42 0"),
    ("a space behind the last word", b"read 0 ", b"no 42 0"),
    ("a doubled space", b"read  0", b"no 42 0"),
    ("a doubled space", b"sum 0p0 0p0  0p0 0p0", b"no 42 0"),
    ("too few words, and one is no number", b"sum x", b"no 42 0"),
    ("too many words, and one has the other mark", b"turn 3 0e0 0p0 0p0", b"no 42 0"),
    ("too many words, and the first is no lane", b"read x 0", b"no 42 0"),
]

NO_NUMBERS = [
    b"-0p0", b"0p-0", b"-0p5", b"00p0", b"0p00", b"0p05", b"01p0", b"-01p0", b"1p01", b"1p-01",
    b"123456789p0", b"-123456789p0", b"000000000p0", b"4294967296p0", b"1p12345", b"1p-12345", b"1p00000",
    b"1P0", b"0E0", b"1x0", b"+1p0", b"1p+1", b"--1p0", b"1p--1", b"1p", b"p1", b"-p1", b"1p-", b"p", b"-", b"1",
    b"1.5p0", b"1pp0", b"1p0p0", b"1p0e0", b"0e0x", b"x0p0", b"0p0\r", b"0p0\t", b"\t0p0", b"0p\x000", b"0p0\x00",
    b"/p0", b":p0", b"1p/", b"1p:", b"1\xb9p0", b"\xb9p0", b"1p\xb2", b"\xef\xbc\x91p0", b"",
]


def among_zeros(i, word):
    """The sum of four numbers, of which number i, from 0, is this word."""
    return b"sum " + b" ".join([b"0p0"] * i + [word] + [b"0p0"] * (3 - i))


NUMBER_WORDS = [
    *[
        ("a word that is no number", among_zeros(n % 4, word), b"no 44 %d" % (n % 4 + 2))
        for n, word in enumerate(NO_NUMBERS)
    ],
    ("no number in a determinant", b"det 0p0 0p0 0p0 x", b"no 44 5"),
    ("no number in a product", b"mul x 0p0 0p0 0p0", b"no 44 2"),
    ("no number in a turn", b"turn 3 x 0p0", b"no 44 3"),
    ("no number in a turn", b"turn 3 0p0 x", b"no 44 4"),
    ("a space for the last number", b"turn 3 0p0 ", b"no 44 4"),
    ("a doubled space, and a number too few", b"sum 0p0  0p0 0p0", b"no 44 3"),
    ("two words that are no numbers: the left one counts", b"sum 0p0 x x 0p0", b"no 44 3"),
    ("no number on the right of one that no method accepts", b"sum 1p0 x 0p0 0p0", b"no 44 3"),
    ("no number on the right of another mark", b"sum 0e0 x 0p0 0p0", b"no 45 2"),
    ("no number on the left of another mark", b"sum x 0e0 0p0 0p0", b"no 44 2"),
]

OTHER_MARKS = [
    ("the other kind's mark", b"sum 0e0 0p0 0p0 0p0", b"no 45 2"),
    ("the other kind's mark", b"det 0p0 8388608e-23 0p0 0p0", b"no 45 3"),
    ("the other kind's mark", b"mul 0p0 0p0 -1e-1 0p0", b"no 45 4"),
    ("the other kind's mark", b"sum 0p0 0p0 0p0 1000000e-6", b"no 45 5"),
    ("the other kind's mark", b"turn 3 1000000e-6 0e0", b"no 45 3"),
    ("the other kind's mark", b"turn 3 0p0 0e0", b"no 45 4"),
    ("no figure of either kind, by its mark", b"sum 99999999e9999 0p0 0p0 0p0", b"no 45 2"),
    ("another mark on the right of a number that no method accepts", b"sum 1p0 0e0 0p0 0p0", b"no 45 3"),
]

# ---- binary: refused calls -----------------------------------------------------------------------------------------

LANE_WORDS = [
    b"00", b"01", b"010", b"100", b"-1", b"-0", b"+3", b"3p0", b"x", b"", b"3\r", b"\t3", b"3.", b"\xb3", b":", b"/",
]

NO_LANES = [
    *[("a word that is no lane", b"read " + word, b"no 44 2") for word in LANE_WORDS],
    ("no lane to restart", b"restart 03", b"no 44 2"),
    ("no lane to turn", b"turn 03 0p0 0p0", b"no 44 2"),
    ("no lane, and no number", b"turn x x x", b"no 44 2"),
    ("no lane, and another mark", b"turn 256 0e0 0p0", b"no 44 2"),
    ("no lane, and numbers that no method accepts", b"turn 00 1p0 1p0", b"no 44 2"),
    ("the first lane that is not there", b"read 10", b"no 31 2"),
    ("lane 11", b"restart 11", b"no 31 2"),
    ("lane 19", b"read 19", b"no 31 2"),
    ("lane 20", b"read 20", b"no 31 2"),
    ("lane 90", b"restart 90", b"no 31 2"),
    ("the last lane that is not there", b"read 99", b"no 31 2"),
    ("lane 10 turned", b"turn 10 8388608p-23 0p0", b"no 31 2"),
    ("lane 99, and numbers that no method accepts", b"turn 99 1p0 8388608p201", b"no 31 2"),
    ("lane 10, and no number", b"turn 10 x 0p0", b"no 44 3"),
    ("lane 10, and another mark", b"turn 10 0p0 0e0", b"no 45 4"),
]

NO_FIGURES = [
    ("zero with an exponent", b"sum 0p5 0p0 0p0 0p0", b"no 21 2"),
    ("zero with an exponent", b"sum 0p0 0p-5 0p0 0p0", b"no 21 3"),
    ("zero with an exponent that no method accepts either", b"sum 0p0 0p0 0p201 0p0", b"no 21 4"),
    ("too few digits", b"sum 0p0 0p0 0p0 1p0", b"no 21 5"),
    ("one below the least significand", b"det 8388607p0 0p0 0p0 0p0", b"no 21 2"),
    ("one below the least significand", b"det 0p0 -8388607p0 0p0 0p0", b"no 21 3"),
    ("one above the largest significand", b"det 0p0 0p0 16777216p0 0p0", b"no 21 4"),
    ("one above the largest significand", b"det 0p0 0p0 0p0 -16777216p0", b"no 21 5"),
    ("one beyond the exponents of figures", b"mul 8388608p2001 0p0 0p0 0p0", b"no 21 2"),
    ("one beyond the exponents of figures", b"mul 0p0 8388608p-2001 0p0 0p0", b"no 21 3"),
    ("the largest number", b"mul 0p0 0p0 99999999p9999 0p0", b"no 21 4"),
    ("the smallest number", b"mul 0p0 0p0 0p0 -99999999p-9999", b"no 21 5"),
    ("a turn by no figure", b"turn 3 1p0 0p0", b"no 21 3"),
    ("a turn by no figure", b"turn 3 0p0 0p1", b"no 21 4"),
]

FAR_OPERANDS = [
    ("one beyond the exponents of operands", b"sum 8388608p201 0p0 0p0 0p0", b"no 22 2"),
    ("one beyond the exponents of operands", b"sum 0p0 -8388608p-201 0p0 0p0", b"no 22 3"),
    ("the largest exponent of figures", b"det 0p0 0p0 8388608p2000 0p0", b"no 22 4"),
    ("the smallest exponent of figures", b"det 0p0 0p0 0p0 16777215p-2000", b"no 22 5"),
    ("one beyond the exponents of operands", b"mul -16777215p201 0p0 0p0 0p0", b"no 22 2"),
    ("one beyond the exponents of operands", b"mul 0p0 0p0 0p0 8388608p-201", b"no 22 5"),
    ("a turn by an operand that is too far", b"turn 3 8388608p201 0p0", b"no 22 3"),
    ("a turn by an operand that is too far", b"turn 3 0p0 8388608p-201", b"no 22 4"),
    ("no figure on the right of one too far", b"sum 8388608p201 1p0 0p0 0p0", b"no 22 2"),
    ("no figure on the left of one too far", b"sum 1p0 8388608p201 0p0 0p0", b"no 21 2"),
    ("the second operand before the fourth", b"det 0p0 8388608p201 0p0 1p0", b"no 22 3"),
    ("the second operand before the third", b"det 0p0 1p0 8388608p201 0p0", b"no 21 3"),
    ("the second operand before the third", b"mul 0p0 8388608p201 1p0 0p0", b"no 22 3"),
    ("the third operand before the fourth", b"mul 0p0 0p0 1p0 8388608p201", b"no 21 4"),
    ("the real part before the imaginary one", b"turn 3 8388608p201 1p0", b"no 22 3"),
    ("the real part before the imaginary one", b"turn 3 1p0 8388608p201", b"no 21 3"),
]

# the tables by the names that they have in the tests
BINARY_TABLES = {
    "ANSWERED": ANSWERED,
    "TOO_LONG": TOO_LONG,
    "UNKNOWN_VERBS": UNKNOWN_VERBS,
    "WORD_COUNTS": WORD_COUNTS,
    "NUMBER_WORDS": NUMBER_WORDS,
    "OTHER_MARKS": OTHER_MARKS,
    "NO_LANES": NO_LANES,
    "NO_FIGURES": NO_FIGURES,
    "FAR_OPERANDS": FAR_OPERANDS,
}

BINARY_LINES = [line for table in BINARY_TABLES.values() for line in table]

# ---- decimal -------------------------------------------------------------------------------------------------------

DECIMAL_LINES = [
    ("2 x 3 + 5 x 7 = 41", b"sum 2000000e-6 3000000e-6 5000000e-6 7000000e-6", b"4100000e-5"),
    ("2 x 7 - 3 x 5 = -1", b"det 2000000e-6 3000000e-6 5000000e-6 7000000e-6", b"-1000000e-6"),
    ("(2 + 3i)(5 + 7i) = -11 + 29i", b"mul 2000000e-6 3000000e-6 5000000e-6 7000000e-6", b"-1100000e-5 2900000e-5"),
    ("zeros alone", b"mul 0e0 0e0 0e0 0e0", b"0e0 0e0"),
    ("nearly all is cancelled", b"det 1000001e-6 1000000e-6 1000002e-6 1000001e-6", b"1000000e-18"),
    ("a tie, to the even neighbour", b"sum 1500000e-6 1000001e-6 0e0 0e0", b"1500002e-6"),
    ("a tie, to a power of ten", b"sum 9999999e0 1000000e-6 5000000e-7 1000000e-6", b"1000000e1"),
    ("the largest exponents", b"sum 1000000e200 1000000e200 0e0 0e0", b"1000000e406"),
    ("the smallest exponents", b"sum -1000000e-200 1000000e-200 0e0 0e0", b"-1000000e-394"),
    ("a fresh lane", b"read 0", b"0 1000000e-6 0e0"),
    ("zero with an exponent", b"sum 0e5 0e0 0e0 0e0", b"no 21 2"),
    ("one below the least significand", b"sum 0e0 999999e0 0e0 0e0", b"no 21 3"),
    ("one above the largest significand", b"det 0e0 0e0 10000000e0 0e0", b"no 21 4"),
    ("a significand of the binary kind", b"det 0e0 0e0 0e0 16777215e0", b"no 21 5"),
    ("one beyond the exponents of figures", b"mul 1000000e2001 0e0 0e0 0e0", b"no 21 2"),
    ("one beyond the exponents of operands", b"mul 0e0 1000000e201 0e0 0e0", b"no 22 3"),
    ("the smallest exponent of figures", b"turn 3 1000000e-2000 0e0", b"no 22 3"),
    ("the second operand before the fourth", b"det 0e0 1000000e201 0e0 1e0", b"no 22 3"),
    ("the other kind's mark", b"sum 0e0 0e0 0p0 0e0", b"no 45 4"),
    ("the other kind's mark", b"turn 3 1000000e-6 8388608p-23", b"no 45 4"),
    ("no number with the other mark", b"sum 0p0x 0e0 0e0 0e0", b"no 44 2"),
    ("no number", b"sum 0e0 0e0 0e0 0e-0", b"no 44 5"),
    ("no number", b"sum 0E0 0e0 0e0 0e0", b"no 44 2"),
    ("no number on the right of another mark", b"sum 0p0 x 0e0 0e0", b"no 45 2"),
    ("no number with two marks", b"sum 1e0p0 0e0 0e0 0e0", b"no 44 2"),
    ("lane 10", b"read 10", b"no 31 2"),
    ("no lane", b"read 010", b"no 44 2"),
    ("unknown verb", b"Sum 0e0 0e0 0e0 0e0", b"no 43 1"),
    ("too few words", b"sum 0e0 0e0 0e0", b"no 42 0"),
    ("81 bytes", b"e" * 81, b"no 41 0"),
]
