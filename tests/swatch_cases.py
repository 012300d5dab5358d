"""Writes the stored cases of swatches and their expected answers, by the separate model of documents 01 and 02.

`python3 tests/swatch_cases.py` writes crates/swatch_cases/stdin and stdout; with `--check` it writes nothing and exits
with 1 if they are not what it would write.  The forms of both are described in crates/swatch_cases/src.
"""

import random
import sys
from fractions import Fraction
from itertools import product

from model import INFINITY, MINUS_ZERO, Grey, Hsv, Rgb, encode, half_way, swatch_cell
from stored import answer_record, case_record, malformed, padded, store

NUMBERS, ANSWERS = 8, 3  # in a case, in an answer

SIX, ONE, HALF, QUARTER = 0x40C00000, 0x3F800000, 0x3F000000, 0x3E800000
NAN = 0x7FC00000
SMALLEST, LARGEST_SUBNORMAL, SMALLEST_NORMAL, LARGEST = 0x00000001, 0x007FFFFF, 0x00800000, 0x7F7FFFFF
SMALLEST_OF_CELL_1 = 0x3C000000  # 1/128, below which every coordinate is 0

EDGES = (
    0, MINUS_ZERO, SMALLEST, SMALLEST | MINUS_ZERO, 2, LARGEST_SUBNORMAL, SMALLEST_NORMAL, SMALLEST_NORMAL | MINUS_ZERO,
    SMALLEST_OF_CELL_1 - 1, SMALLEST_OF_CELL_1, QUARTER, HALF - 1, HALF, HALF + 1, ONE - 1, ONE, ONE + 1,
    ONE | MINUS_ZERO, LARGEST, LARGEST | MINUS_ZERO, INFINITY, INFINITY | MINUS_ZERO, NAN,
)  # fmt: skip
SIDES = (0, 1, 2, 3, 33, 63, 64, 65, 4294967295)

# One channel, and one hue, of each sort: accepted, then one for each reason to refuse.
CHANNELS = (HALF, INFINITY, NAN, ONE + 1, SMALLEST | MINUS_ZERO)
HUES = (HALF, INFINITY, NAN, SIX, SMALLEST | MINUS_ZERO)

# Every whole hue with its neighbours, the f32 next to 6 on both sides, both zeros, subnormals, and values out of range.
HUE_EDGES = (
    *(whole + step for whole in map(encode, map(Fraction, range(1, 7))) for step in (-1, 0, 1)),
    0, MINUS_ZERO, SMALLEST, SMALLEST | MINUS_ZERO, LARGEST_SUBNORMAL, SMALLEST_NORMAL, HALF, SIX | MINUS_ZERO, LARGEST,
    INFINITY, INFINITY | MINUS_ZERO, NAN,
)  # fmt: skip
PART_EDGES = (0, MINUS_ZERO, SMALLEST, LARGEST_SUBNORMAL, SMALLEST_NORMAL, HALF, ONE - 1, ONE, ONE + 1)


def document_samples():
    """Document 01's swatch samples, and the sides 64 and 65."""
    yield 2, Grey(HALF)
    yield 3, Grey(QUARTER)
    yield 3, Grey(QUARTER + 1)
    for side in range(2, 66):
        yield side, Grey(ONE)


def boundaries():
    """Every boundary between two coordinates of every side: the f32 on it or nearest to it, and both neighbours."""
    for side in range(2, 65):
        for c in range(side - 1):
            nearest = encode(Fraction(2 * c + 1, 2 * (side - 1)))
            around = (nearest - 1, nearest, nearest + 1)
            yield side, Rgb(*around[c % 3 :], *around[: c % 3])


def edges():
    """The ends of the ranges at every kind of side, and every mixture of accepted and refused channels."""
    for side, bits in product(SIDES, EDGES):
        yield side, Grey(bits)
    for side, channels in product((64, 65), product(CHANNELS, repeat=3)):
        yield side, Rgb(*channels)


def hue_edges():
    """The ends of a hue, a saturation and a value together, and every mixture of accepted and refused ones."""
    for hue, saturation, value in product(HUE_EDGES, PART_EDGES, PART_EDGES):
        yield 64, Hsv(hue, saturation, value)
    for side, parts in product((64, 65), product(HUES, CHANNELS, CHANNELS)):
        yield side, Hsv(*parts)


def number(dice):
    """Any pattern that is no NaN's."""
    return dice.randrange(INFINITY + 1) | dice.choice((0, MINUS_ZERO))


def channel(dice):
    """A pattern from 0 to 1: any, one whose coordinate may be above 0, or the f32 nearest to a short fraction."""
    kind = dice.randrange(6)
    if kind == 0:
        return dice.randrange(ONE + 1)
    if kind == 1:
        return encode(Fraction(dice.randrange(127), 126))
    return dice.randrange(SMALLEST_OF_CELL_1, ONE + 1)


def color(dice, faults):
    """Three channels from 0 to 1, each replaced by any number with the given chance."""
    return Rgb(*(number(dice) if dice.random() < faults else channel(dice) for _ in range(3)))


def hue(dice, faults=0.0):
    """A hue in range, any pattern or one not near 0, a saturation and a value, each any number with the given chance."""
    accepted = (dice.choice((dice.randrange(SIX), dice.randrange(QUARTER, SIX))), channel(dice), channel(dice))
    return Hsv(*(number(dice) if dice.random() < faults else bits for bits in accepted))


def random_cells(dice):
    """Any patterns, and patterns in range, at any accepted side."""
    for _ in range(12000):
        yield dice.randrange(2, 65), Grey(number(dice))
    for _ in range(6000):
        yield dice.randrange(2, 65), color(dice, 0)
    for _ in range(2000):
        yield dice.randrange(66), color(dice, 0.2)
    for _ in range(18000):
        yield dice.randrange(2, 65), hue(dice)
    for _ in range(2000):
        yield dice.randrange(66), hue(dice, 0.2)


def near(dice, bits):
    """A pattern from 0 to 1 within a few places of another."""
    return min(ONE, max(0, bits + dice.randrange(-9, 10)))


def pairs(dice):
    """Pairs of swatches: the bottom of the range, its ends, refusals in order, and random ones of all kinds."""
    low = (*range(8), MINUS_ZERO, LARGEST_SUBNORMAL, SMALLEST_NORMAL, SMALLEST_NORMAL + 1, 0x01000000)
    yield from ((Grey(a), Grey(b)) for a, b in product(low, repeat=2))
    yield from ((Grey(a), Grey(b)) for a, b in product(EDGES, repeat=2))
    for first, second in product(product(CHANNELS, repeat=3), CHANNELS):
        yield Rgb(*first), Grey(second)
        yield Grey(second), Rgb(*first)
    for _ in range(1500):
        a = color(dice, 0)
        yield a, Rgb(*(near(dice, bits) for bits in a))
        yield a, color(dice, 0)
        yield color(dice, 0.05), color(dice, 0.05)
    for _ in range(500):
        yield Grey(channel(dice)), color(dice, 0.05)
        yield color(dice, 0.05), Grey(channel(dice))
    for first, second in product(product(HUES, CHANNELS, CHANNELS), CHANNELS):
        yield Hsv(*first), Grey(second)
        yield Grey(second), Hsv(*first)
    for a, b in product(HUE_EDGES, repeat=2):
        yield Hsv(a, ONE - 1, HALF), Hsv(b, HALF, ONE)
    for _ in range(500):
        yield hue(dice, 0.05), hue(dice, 0.05)
        yield hue(dice, 0.05), color(dice, 0.05)
        yield color(dice, 0.05), hue(dice, 0.05)
        yield hue(dice, 0.05), Grey(channel(dice))
        yield Grey(channel(dice)), hue(dice, 0.05)
    for value in MINUS_ZERO, SMALLEST:  # the sign of a zero is kept, and a product may be 0
        yield Hsv(ONE, HALF, value), Hsv(0, ONE, value)
        yield Hsv(ONE, HALF, value), Grey(MINUS_ZERO)


def answer(refusal, letter, numbers, form):
    """The answer's record: the refusal, or the numbers under the letter."""
    if refusal is not None:
        return answer_record("R", (refusal,), "d", ANSWERS)
    return answer_record(letter, numbers, form, ANSWERS)


def numbers(swatch):
    """A swatch's kind and three numbers."""
    return ((Rgb, Grey, Hsv).index(type(swatch)), *padded(swatch, 3))


def cell_case(side, swatch):
    """The records of a call that turns a swatch into a cell."""
    refusal, cell = swatch_cell(side, swatch)
    case = case_record("C", (side, *numbers(swatch)), NUMBERS)
    return case, answer(refusal, "C", cell, "d")


def pair_case(first, second):
    """The records of a call that mixes two swatches."""
    refusal, mixed = half_way(first, second)
    case = case_record("H", (*numbers(first), *numbers(second)), NUMBERS)
    return case, answer(refusal, "H", mixed, "x")


def no_kind():
    """Cases of a kind of swatch that does not exist."""
    yield case_record("C", (2, 3), NUMBERS)
    yield case_record("H", (3,), NUMBERS)
    yield case_record("H", (0, 0, 0, 0, 3), NUMBERS)


def main():
    """Writes or checks both files; the exit status."""
    dice = random.Random(1)
    cells = [*document_samples(), *boundaries(), *edges(), *hue_edges(), *random_cells(dice)]
    records = [cell_case(*cell) for cell in cells] + [pair_case(*pair) for pair in pairs(dice)]
    no_cases = [*malformed(records[0][0]), *no_kind()]
    return store("swatch_cases", records + [(case, answer_record("B", (), "d", ANSWERS)) for case in no_cases])


if __name__ == "__main__":
    sys.exit(main())
