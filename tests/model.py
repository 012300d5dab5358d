"""A separate model of the key box, from documents 01 and 02: every sample is summed directly from its Bernstein weights.

Whole numbers and fractions are exact throughout; there are no differences and no remainders here.  Imported, the module
gives the expected answers of test programs.  Run as `python3 tests/model.py`, it checks itself on the documents' samples
and exits with 1 if a check fails.  Quoted words are document 01's, for demand 3 also the demand's own, and for cells of
samples, neighbours, hues, totals, new cells, choices, the test that quits, chosen counts, flips, paths, the strip and
solids document 02's.
"""

import random
import re
import struct
import sys
from collections import Counter
from fractions import Fraction
from functools import lru_cache, wraps
from io import BytesIO
from itertools import combinations, count, permutations, product
from math import ceil, floor, prod
from operator import ge, gt, le, lt
from typing import NamedTuple, Optional, Tuple

# The colour cube


def place(side, cell):
    """A cell (x, y, z) "stands at byte x + S × y + S × S × z"."""
    x, y, z = cell
    return x + side * y + side * side * z


OVER, UNDER = "over", "under"  # the choices of a record


class Record(NamedTuple):
    """A curve (counts (n,), 4 points), a patch (counts (n, m), 16) or a solid (counts (n, m, l), 64).

    The coordinates are x y z of point 0, of point 1, ..
    """

    coordinates: Tuple[int, ...]
    counts: Tuple[int, ...]
    mark: int
    choice: str


def curve(coordinates, n, mark, choice=OVER):
    """A curve: "twelve coordinates (x, y, z of points 0 to 3), with its step count n .. and its mark", and a choice."""
    return Record(tuple(coordinates), (n,), mark, choice)


def patch(coordinates, n, m, mark, choice=OVER):
    """A patch: "counts n along t and m along u", "g(i, j) is its point number 4 × i + j", and a choice."""
    return Record(tuple(coordinates), (n, m), mark, choice)


def solid(coordinates, n, m, l, mark, choice=OVER):
    """A solid: "64 points g(i, j, k), k running along v, number 16 × i + 4 × j + k", counts "n along t, m along u and l
    along v", and a choice."""
    return Record(tuple(coordinates), (n, m, l), mark, choice)


def with_points(record, numbers):
    """The record with the points of these numbers, in turn, in place of its own."""
    return record._replace(coordinates=tuple(c for k in numbers for c in record.coordinates[3 * k : 3 * k + 3]))


def flip(record):
    """A curve "with its four points in reverse order"; a patch "with i and j exchanged, n and m exchanged"."""
    if len(record.counts) == 1:
        return with_points(record, (3, 2, 1, 0))
    n, m = record.counts
    return with_points(record, [4 * j + i for i in range(4) for j in range(4)])._replace(counts=(m, n))


def with_other_choice(record):
    """The record with the other of "over or under"."""
    return record._replace(choice=UNDER if record.choice == OVER else OVER)


def of_points_and_counts(function):
    """A function of a record's points and counts alone, its last two values kept, whatever mark and choice are."""
    kept = lru_cache(maxsize=2)(lambda coordinates, counts: function(Record(coordinates, counts, 0, OVER)))
    return wraps(function)(lambda record: kept(record.coordinates, record.counts))


# Exact samples: a value is a pair (numerator, scale)


def bernstein(n, i):
    """The cubic Bernstein weights at i / n, times n³: "(n-i)³", "3 × i × (n-i)²", "3 × i² × (n-i)", "i³"."""
    return (n - i) ** 3, 3 * i * (n - i) ** 2, 3 * i**2 * (n - i), i**3


def scale(counts):
    """The scale N: "n × n × n", for a patch "n³ × m³", and for a solid "n³ × m³ × l³"."""
    return prod(n**3 for n in counts)


def weights(counts, indices):
    """Each control point's weight in a sample, by point number: the product of its weights along every parameter."""
    along = (bernstein(n, i) for n, i in zip(counts, indices, strict=True))
    return [prod(factors) for factors in product(*along)]


def value(counts, indices, controls):
    """The "exact value B / N" of one axis at one sample, for any number of parameters, as (B, N)."""
    return sum(w * g for w, g in zip(weights(counts, indices), controls, strict=True)), scale(counts)


def values(counts, controls):
    """One axis of every sample, times N, by its indices: the sums of `value`, those along the last parameters first."""
    if not counts:
        return {(): controls[0]}
    (n, *later), quarter = counts, len(controls) // 4
    g0, g1, g2, g3 = (values(later, controls[quarter * i : quarter * (i + 1)]) for i in range(4))
    return {
        (i, *at): w0 * g0[at] + w1 * g1[at] + w2 * g2[at] + w3 * g3[at]
        for i, (w0, w1, w2, w3) in enumerate(bernstein(n, i) for i in range(n + 1))
        for at in g0
    }


@of_points_and_counts
def samples(record):
    """The exact x, y, z of every sample of a record, by its indices (i,), (i, j) or (i, j, k)."""
    whole = scale(record.counts)
    x_of, y_of, z_of = (values(record.counts, record.coordinates[axis::3]) for axis in range(3))
    return {at: ((x_of[at], whole), (y_of[at], whole), (z_of[at], whole)) for at in x_of}


def neighbours(record):
    """Every two "neighbouring samples", along t, u or v, everywhere: the parameter, and the indices of both."""
    for parameter, n in enumerate(record.counts):
        for indices in samples(record):
            if indices[parameter] < n:
                yield parameter, indices, indices[:parameter] + (indices[parameter] + 1,) + indices[parameter + 1 :]


# Cells and steps


def owner(exact):
    """The c that owns a value, "above c - 0.5 up to and including c + 0.5": 2c - 1 < 2 × value ≤ 2c + 1."""
    return ceil(exact - Fraction(1, 2))


def nearest(exact):
    """`owner` of a value (B, N), in whole numbers: the smallest c with 2 × B ≤ (2c + 1) × N."""
    blended, n = exact
    return -((n - 2 * blended) // (2 * n))


@of_points_and_counts
def cells(record):
    """The cell of every sample, by its indices: it "depends on its value alone" (document 02, A.3)."""
    return {indices: tuple(map(nearest, exact)) for indices, exact in samples(record).items()}


def row(found, *j):
    """The cells along t, in turn: row(found) of a curve, row(found, j) of a patch, row(found, j, k) of a solid."""
    return [cell for indices, cell in sorted(found.items()) if indices[1:] == j]


def long_step(exact, following):
    """Whether two values lie "more than one cell apart"; "exactly one cell apart is allowed"."""
    return abs(exact[0] - following[0]) > exact[1]


@of_points_and_counts
def steps_too_long(record):
    """Whether "some two neighbouring samples lie more than one cell apart on an axis", along t, u or v, anywhere."""
    exact = samples(record)
    return any(any(map(long_step, exact[here], exact[there])) for _, here, there in neighbours(record))


def largest_gap(controls):
    """The "largest gap between consecutive points" on one axis."""
    return max(abs(there - here) for here, there in zip(controls, controls[1:]))


def quits(record):
    """Whether the test of a curve is to end sooner: "three times the largest gap .., on every axis, is at most n"."""
    (n,) = record.counts
    return all(3 * largest_gap(record.coordinates[axis::3]) <= n for axis in range(3))


# Drawing, listing and checking


class Answer(NamedTuple):
    """The refusal number or None, the count if accepted, and what the lent list or text holds afterwards."""

    refusal: Optional[int]
    count: Optional[int]
    lent: bytes


class DrawAnswer(NamedTuple):
    """The refusal number or None, the numbers of samples and of new cells if accepted, and the grid afterwards."""

    refusal: Optional[int]
    count: Optional[int]
    new: Optional[int]
    lent: bytes


class CheckAnswer(NamedTuple):
    """The refusal number or None, and if accepted whether the test quit."""

    refusal: Optional[int]
    quit: Optional[bool]


# By the number of parameters: a curve's "1 to 512", a patch's "each 1 to 256", a solid's "each 1 to 32".
STEP_LIMITS = {1: 512, 2: 256, 3: 32}


def first_refusal(*ladder):
    """Of pairs (number, test) "the first number that applies, and no number otherwise"."""
    return next((number for number, applies in ladder if applies()), None)


def count_out_of_range(record):
    """13: "a step count outside its range"."""
    return not all(1 <= n <= STEP_LIMITS[len(record.counts)] for n in record.counts)


def drawing_refusal(side, record, grid_length):
    """The order "11, 21, 12, 13, 22, 14, 15", where "a drawing has no list"."""
    return first_refusal(
        (11, lambda: not 2 <= side <= 64),
        (21, lambda: grid_length != side**3),
        (12, lambda: not 1 <= record.mark <= 255),
        (13, lambda: count_out_of_range(record)),
        (14, lambda: max(record.coordinates) >= side),
        (15, lambda: steps_too_long(record)),
    )


def unmarked(grid):
    """How many cells are unmarked, which is byte 0."""
    return grid.count(0)


def mark_cells(side, record, grid, found):
    """The grid after a record's mark is written in these cells, in turn.

    Under, it "writes only cells that are unmarked at that moment".
    """
    drawn = bytearray(grid)
    for cell in found:
        at = place(side, cell)
        if record.choice == OVER or drawn[at] == 0:
            drawn[at] = record.mark
    return bytes(drawn)


def draw(side, record, grid):
    """Draws a curve, a patch or a solid: "writes the mark in every sample's cell, nothing else", answers their number.

    The count of new cells, which "it turned from unmarked to marked", is "the unmarked cells before minus those after".
    """
    refusal = drawing_refusal(side, record, len(grid))
    if refusal is not None:
        return DrawAnswer(refusal, None, None, bytes(grid))
    drawn = mark_cells(side, record, grid, cells(record).values())
    return DrawAnswer(None, prod(n + 1 for n in record.counts), unmarked(grid) - unmarked(drawn), drawn)


def places(side, record, cells_of=cells):
    """The places of the samples' cells, or of those that `cells_of` gives."""
    return {place(side, cell) for cell in cells_of(record).values()}


def new_places(side, record, grid, cells_of=cells):
    """The places of the cells that a drawing turns from unmarked to marked: a second way to its count."""
    return {at for at in places(side, record, cells_of) if grid[at] == 0}


def held_after(record, byte):
    """What one of a drawing's cells holds after it: the mark or, under, the mark that it held."""
    return byte if record.choice == UNDER and byte != 0 else record.mark


def left_as_drawn(side, record, before, after, cells_of=cells):
    """Whether a drawing leaves this grid, said of each cell instead of each sample: a second way to its bytes."""
    drawn = places(side, record, cells_of)
    others = bytearray(after)
    for at in drawn:
        others[at] = before[at]
    return others == before and all(after[at] == held_after(record, before[at]) for at in drawn)


def listing_refusal(side, record, list_length):
    """The same order, where "a listing has no grid and ignores the record's mark", and "ignores the choice"."""
    return first_refusal(
        (11, lambda: not 2 <= side <= 64),
        (13, lambda: count_out_of_range(record)),
        (22, lambda: list_length < 3 * (record.counts[0] + 1)),
        (14, lambda: max(record.coordinates) >= side),
        (15, lambda: steps_too_long(record)),
    )


def list_curve(side, record, lent):
    """Lists a curve: "three bytes, x y z, for each sample in turn from the front", "leaves the rest"."""
    (n,) = record.counts
    refusal = listing_refusal(side, record, len(lent))
    if refusal is not None:
        return Answer(refusal, None, bytes(lent))
    listed = bytes(coordinate for cell in row(cells(record)) for coordinate in cell)
    return Answer(None, n + 1, listed + bytes(lent[len(listed) :]))


def check_refusal(side, record):
    """The same order, where a check has neither grid nor list and ignores mark and choice."""
    return first_refusal(
        (11, lambda: not 2 <= side <= 64),
        (13, lambda: count_out_of_range(record)),
        (14, lambda: max(record.coordinates) >= side),
        (15, lambda: steps_too_long(record)),
    )


def check_curve(side, record):
    """Checks a curve: "beside its verdict the test tells whether it quit so, which is exactly in that case".

    The verdict is by the steps themselves, where the test quits too: "no other answer changes".
    """
    refusal = check_refusal(side, record)
    return CheckAnswer(refusal, quits(record) if refusal is None else None)


# The step count that the box chooses


@lru_cache(maxsize=1 << 10)
def all_weights(n):
    """The Bernstein weights of every sample of a curve of n steps."""
    return [bernstein(n, i) for i in range(n + 1)]


@lru_cache(maxsize=1 << 14)
def values_along(controls, n):
    """One axis of every sample of a curve of n steps, exactly, times n³."""
    g0, g1, g2, g3 = controls
    return [w0 * g0 + w1 * g1 + w2 * g2 + w3 * g3 for w0, w1, w2, w3 in all_weights(n)]


def steps_along(controls, n):
    """How far every two neighbouring samples lie apart on one axis, exactly, times n³."""
    along = values_along(controls, n)
    return [abs(there - here) for here, there in zip(along, along[1:])]


def refuses_count(coordinates, n):
    """Whether the curve rule refuses n steps: some two neighbours "lie more than one cell apart on an axis"."""
    return any(step > n**3 for axis in range(3) for step in steps_along(coordinates[axis::3], n))


def enough(coordinates):
    """What "is always enough": "three times the largest gap on an axis, or 1 if all points agree"."""
    return max(1, *(3 * largest_gap(coordinates[axis::3]) for axis in range(3)))


@lru_cache(maxsize=1 << 12)
def chosen_count(coordinates):
    """The chosen count: "the smallest step count that the curve rule accepts", each from 1 on tried in turn."""
    chosen = next(n for n in count(1) if not refuses_count(coordinates, n))
    assert chosen <= enough(coordinates), coordinates
    return chosen


def with_chosen_count(record):
    """A curve record with the chosen count in place of its n."""
    return record._replace(counts=(chosen_count(record.coordinates),))


class CountAnswer(NamedTuple):
    """The refusal number or None, and the chosen count if accepted."""

    refusal: Optional[int]
    steps: Optional[int]


def choose_steps(side, record):
    """The chosen count for "four points and a side"; the order is "the count alone 11, then 14"."""
    refusal = first_refusal(
        (11, lambda: not 2 <= side <= 64),
        (14, lambda: max(record.coordinates) >= side),
    )
    if refusal is not None:
        return CountAnswer(refusal, None)
    chosen = chosen_count(record.coordinates)
    assert chosen <= 189, record  # "hence never above 189"
    return CountAnswer(None, chosen)


def chosen_refusal(side, record, grid_length):
    """The order "that draw call 11, 21, 12, 14", which "drops 13 and 15, as neither can occur there"."""
    return first_refusal(
        (11, lambda: not 2 <= side <= 64),
        (21, lambda: grid_length != side**3),
        (12, lambda: not 1 <= record.mark <= 255),
        (14, lambda: max(record.coordinates) >= side),
    )


def draw_chosen(side, record, grid):
    """The draw call "with a chosen count", which "takes a curve record and ignores its n"."""
    refusal = chosen_refusal(side, record, len(grid))
    if refusal is not None:
        return DrawAnswer(refusal, None, None, bytes(grid))
    answer = draw(side, with_chosen_count(record), grid)
    assert answer.refusal is None, record
    return answer


# Face-to-face curves (document 02, A.8)


class PathCell(NamedTuple):
    """A cell of a path, and the sample whose cell it is or, where the cell is inserted, the sample before it."""

    cell: Tuple[int, ...]
    sample: int
    inserted: bool


def moves(here, there):
    """Between two cells: "the coordinate x moves first, then y, then z, one cell written after each move"."""
    after = [there[: axis + 1] + here[axis + 1 :] for axis in range(3)]
    return [cell for axis, cell in enumerate(after) if here[axis] != there[axis]]


@of_points_and_counts
def path(record):
    """The path of a curve, from cell to cell "of the present walk"; "a sample whose cell is unchanged adds none"."""
    walk = row(cells(record))
    found = [PathCell(walk[0], 0, False)]
    for i, (here, there) in enumerate(zip(walk, walk[1:])):
        between = moves(here, there)
        found += [PathCell(cell, i, True) for cell in between[:-1]]
        found += [PathCell(cell, i + 1, False) for cell in between[-1:]]
    return found


def path_cells(record):
    """The cells of a path, by their numbers (k,)."""
    return {(k,): each.cell for k, each in enumerate(path(record))}


def draw_path(side, record, grid):
    """Draws a path, by a drawing's order; "the answer is the number of cells"."""
    refusal = drawing_refusal(side, record, len(grid))
    if refusal is not None:
        return DrawAnswer(refusal, None, None, bytes(grid))
    drawn = mark_cells(side, record, grid, path_cells(record).values())
    return DrawAnswer(None, len(path(record)), unmarked(grid) - unmarked(drawn), drawn)


def path_listing_refusal(side, record, list_length):
    """The order of a listing, where 22 "means a list shorter than three times the answer, and comes after 15"."""
    return first_refusal(
        (11, lambda: not 2 <= side <= 64),
        (13, lambda: count_out_of_range(record)),
        (14, lambda: max(record.coordinates) >= side),
        (15, lambda: steps_too_long(record)),
        (22, lambda: list_length < 3 * len(path(record))),
    )


def list_path(side, record, lent):
    """Lists a path: x y z of each of its cells in turn; mark and choice are ignored."""
    refusal = path_listing_refusal(side, record, len(lent))
    if refusal is not None:
        return Answer(refusal, None, bytes(lent))
    listed = bytes(coordinate for cell in path_cells(record).values() for coordinate in cell)
    return Answer(None, len(path(record)), listed + bytes(lent[len(listed) :]))


# The preview strip (document 02, A.9)


def strip_refusal(side, record, grid_length):
    """A drawing's order, with "23 for a side of 18 to 64, right after 11", and 24 "right after 13".

    24 is "for a step count above 64", along either parameter, "that 13 lets pass".
    """
    return first_refusal(
        (11, lambda: not 2 <= side <= 64),
        (23, lambda: 18 <= side <= 64),
        (21, lambda: grid_length != side**3),
        (12, lambda: not 1 <= record.mark <= 255),
        (13, lambda: count_out_of_range(record)),
        (24, lambda: any(n > 64 for n in record.counts)),
        (14, lambda: max(record.coordinates) >= side),
        (15, lambda: steps_too_long(record)),
    )


def draw_strip(side, record, grid):
    """The strip "calls document 01's curve and patch drawing", and what it accepts "gives the grid and the answer"."""
    refusal = strip_refusal(side, record, len(grid))
    if refusal is not None:
        return DrawAnswer(refusal, None, None, bytes(grid))
    answer = draw(side, record, grid)
    assert answer.refusal is None, record
    return answer


# Swatches: an f32 is its 32-bit pattern


class Rgb(NamedTuple):
    """A swatch of "three f32 channels, red, green and blue"."""

    red: int
    green: int
    blue: int


class Grey(NamedTuple):
    """A swatch of "a single f32 grey that stands for three equal channels"."""

    grey: int


class Hsv(NamedTuple):
    """A swatch of "hue h, at least 0 and below 6, saturation s and value v" (document 02, A.1)."""

    hue: int
    saturation: int
    value: int


INFINITY = 0x7F800000
MINUS_ZERO = 0x80000000


def decode(bits):
    """The exact number that a pattern denotes (0 for minus zero); None if "infinite or no number"."""
    exponent, fraction = bits >> 23 & 0xFF, bits & 0x7FFFFF
    if exponent == 0xFF:
        return None
    if exponent > 0:
        fraction += 1 << 23
    magnitude = fraction * Fraction(2) ** (max(exponent, 1) - 150)
    return -magnitude if bits >> 31 else magnitude


def encode(exact):
    """The pattern of the f32 nearest to an exact number not below 0, a tie going to the even pattern."""
    if exact == 0:
        return 0
    power = exact.numerator.bit_length() - exact.denominator.bit_length()
    if exact < Fraction(2) ** power:
        power -= 1
    exponent = max(power + 127, 1)
    whole, rest = divmod(exact / Fraction(2) ** (exponent - 150), 1)
    if 2 * rest > 1 or (2 * rest == 1 and whole % 2 == 1):
        whole += 1
    return min((exponent - 1 << 23) + whole, INFINITY)


def times(a, b):
    """The pattern of a product, "rounded once": minus zero where the signs differ, as one factor is then a zero."""
    return encode(abs(decode(a) * decode(b))) | (a ^ b) & MINUS_ZERO


def one_less(a):
    """The pattern of 1 - a, "rounded once", for an a up to 1."""
    return encode(1 - decode(a))


def hsv_channels(w):
    """Red, green and blue "for k from 0 to 5", with "k the whole part of h and f = h - k"."""
    k = decode(w.hue) // 1
    f = encode(decode(w.hue) - k)
    v, s = w.value, w.saturation
    p = times(v, one_less(s))
    q = times(v, one_less(times(s, f)))
    r = times(v, one_less(times(s, one_less(f))))
    return (Rgb(v, r, p), Rgb(q, v, p), Rgb(p, v, r), Rgb(p, q, v), Rgb(r, p, v), Rgb(v, p, q))[k]


def channels(swatch):
    """Red, green and blue of an accepted swatch of any kind."""
    if isinstance(swatch, Grey):
        return Rgb(*swatch * 3)
    return hsv_channels(swatch) if isinstance(swatch, Hsv) else swatch


def swatch_ladder(swatch):
    """The numbers for "red, green, blue, each 31 then 32", "minus zero counts as 0"; or for "h, s, v in turn"."""
    for place, bits in enumerate(channels(swatch) if isinstance(swatch, Grey) else swatch):
        yield 31, lambda bits=bits: decode(bits) is None
        if isinstance(swatch, Hsv) and place == 0:
            yield 33, lambda bits=bits: not 0 <= decode(bits) < 6
        else:
            yield 32, lambda bits=bits: not 0 <= decode(bits) <= 1


def channel_coordinate(side, bits):
    """An accepted channel's "whole number c with 2c - 1 < 2 × v × (S-1) ≤ 2c + 1"."""
    return owner(decode(bits) * (side - 1))


def swatch_cell(side, swatch):
    """(refusal, None) by the order 11, then the swatch's, or (None, cell)."""
    refusal = first_refusal((11, lambda: not 2 <= side <= 64), *swatch_ladder(swatch))
    if refusal is not None:
        return refusal, None
    return None, tuple(channel_coordinate(side, bits) for bits in channels(swatch))


def half_way_channel(a, b):
    """The pattern after "one f32 addition, rounded once, and then one multiplication by 0.5", rounded once."""
    if a == b == MINUS_ZERO:
        return MINUS_ZERO  # "two minus zeros give minus zero"
    return encode(decode(encode(decode(a) + decode(b))) / 2)


def half_way(first, second):
    """(refusal, None) by the order "first swatch, then second", or (None, Rgb)."""
    refusal = first_refusal(*swatch_ladder(first), *swatch_ladder(second))
    if refusal is not None:
        return refusal, None
    return None, Rgb(*map(half_way_channel, channels(first), channels(second)))


# The stroke sheet
#
# Points that document 01 leaves open, as decided here:
# - A blank is byte 32 and a digit is one of bytes 48 to 57; a field with any other byte (tab, sign, carriage return) is
#   bad, and so are five blanks.  A field is 5 bytes: a part of another length is bad.
# - A line's length is counted without its line feed, 5 or 70.  A line of that length without line feed is 41 as well.
# - Nothing follows the last line feed: a further line feed there is an empty line, 41 (or 44).
# - Lines are judged in turn, each by its whole list of numbers, 15 included, before the next one is looked at.
# - 44 stands at line 202, whatever the byte there, and only if lines 1 to 201 are all accepted.
# - Fields are whole numbers up to 99999, not bytes: a mark above 255 is 12, a step count above 512 is 13, a coordinate
#   above 255 is not below the side, 14, a side above 64 is 11.  All fourteen fields are tried for 42 before 12.
# - After a refused call the buffer is not cleared either: it holds what it held.
# - The refusal line of a number or a line above 99999, which 5 columns do not hold, is refused with 54, which document 01
#   does not have, before 22 for a text shorter than the line.

BUFFER_LENGTH = 64000
CURVE_LINES = 200
HEADING = b"    X    Y    Z MARK\n"
FIELD = re.compile(rb" *(0|[1-9][0-9]*)")


class SheetAnswer(NamedTuple):
    """Refusal and line if refused; side, curve lines and new cells if accepted; and the buffer afterwards."""

    refusal: Optional[int]
    line: Optional[int]
    side: Optional[int]
    curves: Optional[int]
    new: Optional[int]
    buffer: bytes


def refused_sheet(refusal, line, buffer):
    """The answer of a refused sheet call, which "answers no count"."""
    return SheetAnswer(refusal, line, None, None, None, bytes(buffer))


def read_field(field):
    """The digits of "a whole number in 5 columns, right-justified with blanks before it", "empty for a bad field"."""
    found = FIELD.fullmatch(field)
    return found.group(1) if found and len(field) == 5 else b""


def read_line(line):
    """The numbers of a line's fields, None for a bad field."""
    text = line.removesuffix(b"\n")
    digits = [read_field(text[start : start + 5]) for start in range(0, len(text), 5)]
    return [int(part) if part else None for part in digits]


def format_line(*numbers, columns=5):
    """A line of a sheet, or of what is printed: each number in 5 columns, or in others, then a line feed."""
    return b"".join(b"%*d" % (columns, number) for number in numbers) + b"\n"


def sheet_lines(text):
    """The lines, each "to its line feed or to the end of the input", the line feed kept."""
    return BytesIO(text).readlines()


def wrong_length(line, fields):
    """41: "a line of wrong length, a missing line feed"."""
    return len(line) != 5 * fields + 1 or not line.endswith(b"\n")


def line_curve(line):
    """The curve of a line "mark, n, then x y z of points 0 to 3"; "sheets always mean over"."""
    mark, n, *coordinates = read_line(line)
    return curve(coordinates, n, mark, OVER)


def side_line_refusal(line):
    """The order of line 1: "41, 42, 11, 43"."""
    return first_refusal(
        (41, lambda: wrong_length(line, 1)),
        (42, lambda: None in read_line(line)),
        (11, lambda: not 2 <= read_line(line)[0] <= 64),
        (43, lambda: read_line(line)[0] > 40),
    )


def curve_line_refusal(side, number, line):
    """The order of a curve line: "44, 41, 42, then 12, 13, 14, 15", these four as for a drawing into the cube."""
    refusal = first_refusal(
        (44, lambda: number > 1 + CURVE_LINES),
        (41, lambda: wrong_length(line, 14)),
        (42, lambda: None in read_line(line)),
    )
    return drawing_refusal(side, line_curve(line), side**3) if refusal is None else refusal


def draw_sheet(text, buffer):
    """Draws into "the first S × S × S bytes of a lent buffer of exactly 64000 bytes, cleared to 0 first".

    "Over a sheet, from its cleared cube, the counts add up", stroke by stroke, and the call "answers that sum too".
    """
    if len(buffer) != BUFFER_LENGTH:
        return refused_sheet(21, 0, buffer)
    lines = sheet_lines(text) or [b""]  # no line 1 is refused as a line 1 of wrong length
    refusal = side_line_refusal(lines[0])
    if refusal is not None:
        return refused_sheet(refusal, 1, buffer)
    side = read_line(lines[0])[0]
    grid, new = bytes(side**3), 0
    for number, line in enumerate(lines[1:], 2):
        refusal = curve_line_refusal(side, number, line)
        if refusal is not None:
            return refused_sheet(refusal, number, buffer)
        stroke = draw(side, line_curve(line), grid)
        grid, new = stroke.lent, new + stroke.new
    return SheetAnswer(None, None, side, len(lines) - 1, new, grid + bytes(buffer[len(grid) :]))


def refusal_line(number, line, text):
    """Writes "REFUSED, the number in 5 columns, the number of the first refused line in 5 columns" over a lent text."""
    written = b"REFUSED" + format_line(number, line)
    refusal = first_refusal((54, lambda: max(number, line) > 99999), (22, lambda: len(text) < len(written)))
    if refusal is not None:
        return Answer(refusal, None, bytes(text))
    return Answer(None, len(written), written + bytes(text[len(written) :]))


@lru_cache(maxsize=1)
def sheet_printed(answer):
    """A sheet call's answer in print: "a heading, then x, y, z and mark of each marked cell, in rising byte place"."""
    if answer.refusal is not None:
        return refusal_line(answer.refusal, answer.line, bytes(18)).lent
    cube = product(range(answer.side), repeat=3)
    by_place = sorted((place(answer.side, cell), cell) for cell in cube)
    marked = ((*cell, answer.buffer[at]) for at, cell in by_place if answer.buffer[at] != 0)
    return HEADING + b"".join(format_line(*numbers) for numbers in marked)


def sheet_output(text):
    """What the sheet program prints, from "standard input" to the listing or the one line of a refused sheet."""
    return sheet_printed(draw_sheet(text, bytes(BUFFER_LENGTH)))


# The totals of a cube (document 02, A.2)


def totals_line(mark, held):
    """A line: "the mark, the count of its cells, and the sums of their x, y and z, each in 10 columns"."""
    sums = (sum(cell[axis] for cell in held) for axis in range(3))
    return format_line(mark, len(held), *sums, columns=10)


def totals(side, cube):
    """The lines "for every mark held by some cell, in rising order"; "the last line has mark 0", held or not."""
    held = {}
    for cell in product(range(side), repeat=3):
        held.setdefault(cube[place(side, cell)], []).append(cell)
    unmarked = held.pop(0, [])
    return b"".join(totals_line(mark, held[mark]) for mark in sorted(held)) + totals_line(0, unmarked)


@lru_cache(maxsize=1)
def totals_printed(answer):
    """A sheet call's answer as the totals program prints it, a refused one with "the same REFUSED line"."""
    if answer.refusal is not None:
        return sheet_printed(answer)
    return totals(answer.side, answer.buffer[: answer.side**3])


def totals_output(text):
    """What the totals program prints, which "reads a sheet from standard input and draws it as the first does"."""
    return totals_printed(draw_sheet(text, bytes(BUFFER_LENGTH)))


def marked_cells(answer):
    """The "marked cells of the listing" of an accepted sheet, three ways: its cube's, the listing's, the totals'."""
    cube = answer.buffer[: answer.side**3]
    listed = sheet_lines(sheet_printed(answer).removeprefix(HEADING))
    count_of_0 = int(sheet_lines(totals_printed(answer))[-1][10:20])
    return len(cube) - unmarked(cube), len(listed), len(cube) - count_of_0


# Demand 3, for a list of calls (side, record) and the grids before the first call and after each call


class Chosen(NamedTuple):
    """In a list of calls, in place of a record: the draw call with a chosen count of this one."""

    record: Record


class Path(NamedTuple):
    """In a list of calls, in place of a record: the drawing of this curve's path."""

    record: Record


class Strip(NamedTuple):
    """In a list of calls, in place of a record: the strip's drawing of this one."""

    record: Record


def drawn_by(side, called, grid):
    """What a call of the list answers."""
    if isinstance(called, Path):
        return draw_path(side, called.record, grid)
    if isinstance(called, Strip):
        return draw_strip(side, called.record, grid)
    return draw_chosen(side, called.record, grid) if isinstance(called, Chosen) else draw(side, called, grid)


def accepted_object(side, called, grid_length):
    """The object of a call of the list if "no number in its own call's drawing order applies".

    With a chosen count "its count is the chosen one".
    """
    if isinstance(called, Chosen):
        accepted = chosen_refusal(side, called.record, grid_length) is None
        return with_chosen_count(called.record) if accepted else None
    if isinstance(called, Strip):
        return called.record if strip_refusal(side, called.record, grid_length) is None else None
    record = called.record if isinstance(called, Path) else called
    return record if drawing_refusal(side, record, grid_length) is None else None


def run(calls, grid):
    """The start grid and the grid after each call: "each call gets the grid as the last one left it"."""
    grids = [bytes(grid)]
    for side, called in calls:
        grids.append(drawn_by(side, called, grids[-1]).lent)
    return grids


def within_half(exact, coordinate):
    """Whether "its exact value and the cell's coordinate differ by at most a half, a half itself included"."""
    numerator, denominator = exact
    return 2 * abs(numerator - denominator * coordinate) <= denominator


def samples_within_half(record, found):
    """Whether "every one of its exact samples has its cell within half a cell on every axis"."""
    return all(all(map(within_half, exact, found[indices])) for indices, exact in samples(record).items())


def cells_marked(side, record, found, before, after):
    """Whether "every one of its exact samples has its cell .. holding its mark" or, after "an under stroke", marked.

    Then "its mark may be an earlier one", and is so where the cell was marked before; elsewhere it is the stroke's.
    """
    found_at = [place(side, found[indices]) for indices in samples(record)]
    return all(after[at] == held_after(record, before[at]) != 0 for at in found_at)


def neighbour_distances(record, found):
    """How many neighbours along each parameter have cells that differ by so much, on the axis of most difference."""
    return Counter(
        ("tuv"[parameter], max(abs(a - b) for a, b in zip(found[here], found[there], strict=True)))
        for parameter, here, there in neighbours(record)
    )


def neighbours_adjacent(record, found):
    """Whether cells that "follow one another", neighbours along every parameter, "differ by at most one"."""
    return all(distance <= 1 for _, distance in neighbour_distances(record, found))


def distances_line(distances, objects="patches"):
    """In print: how many neighbours were compared along each parameter, and how many lie more than one apart."""
    along = Counter()
    for (parameter, _), pairs in distances.items():
        along[parameter] += pairs
    compared = ", ".join(f"{pairs} along {parameter}" for parameter, pairs in sorted(along.items()))
    apart = sum(pairs for (_, distance), pairs in distances.items() if distance > 1)
    return f"neighbours in accepted {objects}: {compared}, {apart} more than one apart"


def other_end_line(found):
    """In print: how many drawings of a path leave another grid than that of the flip, from the same bytes."""
    drawings = found[False] + found[True]
    return f"accepted drawings of a path: {drawings}, of which {found[False]} leave another grid from the other end"


def near_coordinates(exact):
    """The one or two coordinates within half a cell of a value."""
    below = exact[0] // exact[1]
    return [c for c in (below, below + 1) if within_half(exact, c)]


def places_near_samples(side, record):
    """The places of all cells that have "an exact sample within half a cell" on every axis."""
    return {
        place(side, cell) for exact in samples(record).values() for cell in product(*map(near_coordinates, exact))
    }


def within_one_and_a_half(exact, coordinate):
    """Whether an exact value and a cell's coordinate differ by at most one and a half."""
    numerator, denominator = exact
    return 2 * abs(numerator - denominator * coordinate) <= 3 * denominator


def is_near(record, each):
    """Whether a cell of a path lies where document 02 says it.

    "Cells of samples remain within half a cell; an inserted cell is within one and a half on each axis of the sample
    before it."
    """
    near = within_one_and_a_half if each.inserted else within_half
    return all(map(near, samples(record)[each.sample,], each.cell))


def share_a_face(here, there):
    """Whether two cells differ on one axis alone, by one."""
    return sorted(abs(a - b) for a, b in zip(here, there, strict=True)) == [0, 0, 1]


def face_to_face(found):
    """Whether "neighbouring cells share a face" all along a path."""
    return all(share_a_face(here.cell, there.cell) for here, there in zip(found, found[1:]))


def path_marked(side, record, found, before, after):
    """Whether all cells of a path, and those of all samples, hold the mark or, under, are marked (`cells_marked`)."""
    found_at = {place(side, each.cell) for each in found} | places(side, record)
    return all(after[at] == held_after(record, before[at]) != 0 for at in found_at)


def places_explained(side, called, record, path_of):
    """The places of all cells that an accepted object of the list may have marked.

    Of a path they are its own cells, where they are as near as document 02 says; of others all that have a sample
    within half.
    """
    if isinstance(called, Path):
        return {place(side, each.cell) for each in path_of(record) if is_near(record, each)}
    return places_near_samples(side, record)


def marks_explained(calls, start, end, path_of):
    """Whether each cell holds its start byte or the mark of an accepted object that has it from `places_explained`."""
    explained = {
        (at, record.mark)
        for side, called in calls
        for record in [accepted_object(side, called, len(start))]
        if record is not None
        for at in places_explained(side, called, record, path_of)
    }
    return all(old == new or (at, new) in explained for at, (old, new) in enumerate(zip(start, end, strict=True)))


def drawn_as_demanded(side, called, record, before, after, cells_of, path_of):
    """Whether an accepted object of the list is drawn so; "the accuracy rule reads so for these curves only", paths."""
    found = cells_of(record)
    if not samples_within_half(record, found):
        return False
    if isinstance(called, Path):
        along = path_of(record)
        near = all(is_near(record, each) for each in along)
        return near and path_marked(side, record, along, before, after) and face_to_face(along)
    return cells_marked(side, record, found, before, after) and neighbours_adjacent(record, found)


def demand_3(calls, grids, cells_of=cells, path_of=path):
    """All of demand 3 for these calls and grids (`run` gives the model's own), by these cells and paths."""
    for (side, called), before, after in zip(calls, grids[:-1], grids[1:], strict=True):
        record = accepted_object(side, called, len(before))
        if record is not None and not drawn_as_demanded(side, called, record, before, after, cells_of, path_of):
            return False
    return marks_explained(calls, grids[0], grids[-1], path_of)


# The self-check


class Checks:
    """Counts checks by group and prints every failed one."""

    def __init__(self):
        self.groups = {}
        self.failed = 0
        self.distances = {2: Counter(), 3: Counter()}  # of the cells of neighbours in accepted patches and solids
        self.other_end = Counter()  # the accepted drawings of a path, by whether one from the other end leaves the same

    def equal(self, group, label, found, expected):
        """One check: found and expected agree."""
        self.groups[group] = self.groups.get(group, 0) + 1
        if found != expected:
            self.failed += 1
            print(f"FAILED {group}: {label}: found {found!r}, expected {expected!r}")

    def draw(self, group, side, record, grid):
        """A drawing, held to the laws of its choice; of an accepted patch or solid the neighbours are compared."""
        answer = draw(side, record, grid)
        self.equal(group, f"laws of {record}", broken_laws(side, record, grid, answer), [])
        if answer.refusal is None and len(record.counts) > 1:
            found = neighbour_distances(record, cells(record))
            self.distances[len(record.counts)].update(found)
            self.equal(group, f"neighbours of {record}", max(distance for _, distance in found) <= 1, True)
        return answer

    def draw_path(self, group, side, record, grid):
        """A drawing of a path, held to the laws of its choice and, if accepted, of its cells."""
        answer = draw_path(side, record, grid)
        broken = broken_laws(side, record, grid, answer, draw_path, path_cells)
        broken += broken_path_laws(side, record) if answer.refusal is None else []
        self.equal(group, f"laws of {record}", broken, [])
        return answer

    def sheet(self, group, label, text, buffer):
        """A sheet call; if accepted, the sum of its new cells is the number of its marked cells."""
        answer = draw_sheet(text, buffer)
        if answer.refusal is None:
            self.equal(group, f"marked cells, {label}", marked_cells(answer), (answer.new,) * 3)
        return answer

    def close(self):
        """Prints a line for each group, the neighbours compared, the paths turned and the closing count; the exit status."""
        for group, count in self.groups.items():
            print(f"{group}: {count} checks")
        for parameters, objects in (2, "patches"), (3, "solids"):
            print(distances_line(self.distances[parameters], objects))
        print(other_end_line(self.other_end))
        print(f"{sum(self.groups.values())} checks, {self.failed} failed")
        return 1 if self.failed else 0


def on_axis(axis, controls):
    """The coordinates of points where "one axis is given; the others are 0"."""
    return [g if axis == a else 0 for g in controls for a in range(3)]


K1_TO_K11 = [  # name, points, n, cells if the documents list them, refusal
    ("K1", (0, 1, 2, 3), 3, (0, 1, 2, 3), None),
    ("K2", (0, 1, 2, 3), 2, None, 15),
    ("K3", (0, 1, 2, 3), 6, (0, 0, 1, 1, 2, 2, 3), None),
    ("K4", (3, 2, 1, 0), 6, (3, 2, 2, 1, 1, 0, 0), None),
    ("K5", (0, 0, 0, 1), 1, (0, 1), None),
    ("K6", (0, 0, 0, 2), 1, None, 15),
    ("K7", (0, 0, 0, 6), 17, None, None),
    ("K8", (0, 0, 0, 6), 16, None, 15),
    ("K9", (0, 3, 3, 0), 9, (0, 1, 2, 2, 2, 2, 2, 2, 1, 0), None),
    ("K10", (0, 3, 3, 0), 7, None, 15),
    ("K10, n = 8", (0, 3, 3, 0), 8, None, None),
    ("K11", (5, 5, 5, 5), 1, (5, 5), None),
]
K12 = [i + j for i in range(4) for j in range(4)]


def along_some(points, along, parameters):
    """The points of an object of so many parameters that are those of a smaller one along some, and alike along others.

    Along a parameter that is not named nothing changes: a curve along (0,), or a patch along (0, 2), in disguise.
    """
    numbers = []
    for indices in product(range(4), repeat=parameters):
        number = 0
        for parameter in along:
            number = 4 * number + indices[parameter]
        numbers.append(number)
    return [c for number in numbers for c in points[3 * number : 3 * number + 3]]


def as_patch(coordinates):
    """The points of the patch whose every row along t is this curve."""
    return along_some(coordinates, (0,), 2)


def disguised(record, along, others):
    """The solid that is a curve or a patch along some parameters, and alike along the others, which have these counts."""
    own, rest = iter(record.counts), iter(others)
    counts = [next(own) if parameter in along else next(rest) for parameter in range(3)]
    return solid(along_some(record.coordinates, along, 3), *counts, record.mark, record.choice)


CURVES_IN_DISGUISE = [(0,), (1,), (2,)]  # along t, u, v
PATCHES_IN_DISGUISE = [(0, 1), (0, 2), (1, 2)]


def cells_from(record, start, cells_of=cells):
    """Cells of values that count from the cell of a sample before them, found by their indices, and not from its value."""
    exact, found = samples(record), cells_of(record)
    return {
        indices: tuple(
            nearest((numerator - first + denominator * c, denominator))
            for (numerator, denominator), (first, _), c in zip(exact[indices], exact[at], found[at], strict=True)
        )
        for indices in exact
        for at in [start(indices)]
    }


def cells_with_row_remainder_dropped(record):
    """Figure 3's slip: a row's values count from its first cell instead of from its first value."""
    return cells_from(record, lambda indices: (0, *indices[1:]))


def cells_with_slice_remainder_dropped(record):
    """Figure 4's slip: a slice's values count from its first cell instead of from its first value."""
    return cells_from(record, lambda indices: (0, 0, *indices[2:]))


def comes_from(indices):
    """The sample from which a walk comes to one: along t in its row, else along u at t = 0, else along v at t = u = 0."""
    at = next(parameter for parameter, i in enumerate(indices) if i)
    return (*indices[:at], indices[at] - 1, *indices[at + 1 :])


def cells_by_figure_4(record):
    """Figure 4's move: "at each step .. only one coordinate may be changed", the one that is furthest from its value."""
    exact, found = samples(record), {}
    for indices in row_by_row(record):
        if not any(indices):
            found[indices] = record.coordinates[:3]
            continue
        cell = list(found[comes_from(indices)])
        off = [blended - n * c for (blended, n), c in zip(exact[indices], cell, strict=True)]
        axis = max(range(3), key=lambda a: abs(off[a]))
        wanted = nearest(exact[indices][axis])
        cell[axis] += (wanted > cell[axis]) - (wanted < cell[axis])
        found[indices] = tuple(cell)
    return found


def cells_with_halves(record, rounded):
    """Cells by another rule for a half."""
    return {
        indices: tuple(rounded(Fraction(*coordinate)) for coordinate in exact)
        for indices, exact in samples(record).items()
    }


def cells_with_halves_to_even(record):
    """Cells within half a cell of their samples that may skip one: 1/2 goes to 0 and 3/2 to 2."""
    return cells_with_halves(record, round)


def cells_with_halves_up(record):
    """Cells within half a cell of their samples, and none skipped: 1/2 goes to 1 and 3/2 to 2."""
    return cells_with_halves(record, lambda exact: floor(exact + Fraction(1, 2)))


def row_by_row(record, cells_of=cells):
    """The indices of all samples, along t in each row in turn."""
    return sorted(cells_of(record), key=lambda indices: indices[::-1])


def sample_by_sample(side, record, grid, order, is_new=None, writes=None, cells_of=cells):
    """New cells, counted as they are written, and the grid after a drawing that meets its samples in some order.

    A rule for new cells goes by the byte before the drawing, the byte when sample i of its row is met, the mark and i; a
    rule for writing by the byte when the sample is met, and the mark.
    """
    is_new = is_new or (lambda before, byte, mark, i: byte == 0)
    writes = writes or (lambda byte, mark: record.choice == OVER or byte == 0)
    found, held, new = cells_of(record), bytearray(grid), 0
    for indices in order:
        at = place(side, found[indices])
        new += is_new(grid[at], held[at], record.mark, indices[0])
        if writes(held[at], record.mark):
            held[at] = record.mark
    return new, bytes(held)


WRONG_COUNTS = {  # what a program may take for a new cell
    "every sample": lambda before, byte, mark, i: True,
    "another mark too": lambda before, byte, mark, i: byte != mark,
    "all but the first of a row": lambda before, byte, mark, i: byte == 0 and i > 0,
    "a cell at each of its samples": lambda before, byte, mark, i: before == 0,
    "marked cells": lambda before, byte, mark, i: byte != 0,
}
WRONG_DRAWINGS = {  # by choice, where a program may write the mark
    OVER: {"under": lambda byte, mark: byte == 0},
    UNDER: {
        "over": lambda byte, mark: True,  # to write where the byte is not the mark leaves the same grid
        "over smaller marks": lambda byte, mark: byte < mark,
        "over its own mark alone": lambda byte, mark: byte == mark,
    },
}


def wrong_counts(side, record, grid, cells_of=cells):
    """The number that each wrong way to count gives for a drawing."""
    order = row_by_row(record, cells_of)
    return {
        way: sample_by_sample(side, record, grid, order, is_new, cells_of=cells_of)[0]
        for way, is_new in WRONG_COUNTS.items()
    }


def wrong_grids(side, record, grid, cells_of=cells):
    """The grid that each wrong way to draw a record of its choice leaves."""
    order, ways = row_by_row(record, cells_of), WRONG_DRAWINGS[record.choice]
    return {
        way: sample_by_sample(side, record, grid, order, writes=writes, cells_of=cells_of)[1]
        for way, writes in ways.items()
    }


WRONG_WAYS = [
    (choice, what, way)
    for choice, ways in WRONG_DRAWINGS.items()
    for what, way in (*product(["counts"], WRONG_COUNTS), *product(["draws"], ways))
]


def told_apart(side, record, grid, answer, cells_of=cells):
    """The wrong ways, as (choice, what, way), that give another number or grid than an accepted drawing."""
    numbers, grids = wrong_counts(side, record, grid, cells_of), wrong_grids(side, record, grid, cells_of)
    yield from ((record.choice, "counts", way) for way, new in numbers.items() if new != answer.new)
    yield from ((record.choice, "draws", way) for way, left in grids.items() if left != answer.lent)


def quits_by(record, times=3, gap=largest_gap, axes=(0, 1, 2), of_axes=all, fits=le):
    """The rule by which the test of a curve quits, some part of it exchanged."""
    (n,) = record.counts
    return of_axes(fits(times * gap(record.coordinates[axis::3]), n) for axis in axes)


def rises(controls):
    """From each point to the next, below 0 for a fall."""
    return [there - here for here, there in zip(controls, controls[1:])]


WRONG_RULES = {  # by which a program may take the test to quit
    "two times the gap": {"times": 2},
    "four times the gap": {"times": 4},
    "below n": {"fits": lt},
    "n modulo 256": {"fits": lambda gap, n: gap <= n % 256},
    "points 0 and 3 alone": {"gap": lambda g: abs(g[3] - g[0])},
    "points 0 and 1 left out": {"gap": lambda g: largest_gap(g[1:])},
    "points 1 and 2 left out": {"gap": lambda g: max(abs(g[1] - g[0]), abs(g[3] - g[2]))},
    "points 2 and 3 left out": {"gap": lambda g: largest_gap(g[:3])},
    "rising gaps alone": {"gap": lambda g: max(0, *rises(g))},
    "falling gaps alone": {"gap": lambda g: max(0, *rises(g[::-1]))},
    "the largest gap minus the smallest": {"gap": lambda g: max(rises(g)) - min(rises(g))},  # equation 21's slip
    "x left out": {"axes": (1, 2)},
    "y left out": {"axes": (0, 2)},
    "z left out": {"axes": (0, 1)},
    "one axis is enough": {"of_axes": any},
}
WRONG_CHECKS = [*WRONG_RULES, "told after a walk", "not told", "before 11, 13 and 14"]


def wrong_checks(side, record):
    """The answer that each wrong check of a curve gives; where a wrong rule quits, 15 is not tried."""
    right, quit_so = check_curve(side, record), CheckAnswer(None, True)
    found = dict.fromkeys(WRONG_CHECKS, right)
    if right.refusal is None:
        found.update({way: CheckAnswer(None, quits_by(record, **parts)) for way, parts in WRONG_RULES.items()})
        found["told after a walk"], found["not told"] = quit_so, CheckAnswer(None, False)
    if right.refusal == 15:
        found.update({way: quit_so for way, parts in WRONG_RULES.items() if quits_by(record, **parts)})
    if quits(record):
        found["before 11, 13 and 14"] = quit_so
    return found


def ends_apart(coordinates):
    """The largest distance on an axis from point 0 to point 3."""
    return max(abs(coordinates[axis] - coordinates[9 + axis]) for axis in range(3))


def at_least_ends(coordinates):
    """A count below which all are refused: the distance of the ends, or 1."""
    return max(1, ends_apart(coordinates))


def gap_on_some_axis(coordinates):
    """The largest gap of all axes."""
    return max(largest_gap(coordinates[axis::3]) for axis in range(3))


def refused_by(coordinates, n, axes=(0, 1, 2), of_axes=any, looked_at=list, long=gt):
    """The curve rule for n steps, some part of it exchanged."""
    return of_axes(
        any(long(step, n**3) for step in looked_at(steps_along(coordinates[axis::3], n))) for axis in axes
    )


def cells_apart(coordinates, n):
    """Whether the cells of some two neighbours, in place of their values, are more than one apart on an axis."""
    scaled = 2 * n**3
    for axis in range(3):
        along = [-((n**3 - 2 * blended) // scaled) for blended in values_along(coordinates[axis::3], n)]
        if any(abs(there - here) > 1 for here, there in zip(along, along[1:])):
            return True
    return False


def up_from(coordinates, first, refuses=refuses_count):
    """The first count from some count on that a rule accepts."""
    return next(n for n in count(first) if not refuses(coordinates, n))


def down_to_a_refusal(coordinates):
    """From three times the gap down, as long as the count below is accepted."""
    return next(n for n in range(enough(coordinates), 0, -1) if n == 1 or refuses_count(coordinates, n - 1))


def by_halves(coordinates):
    """A search that halves what is left, as if all counts above an accepted one were accepted."""
    low, high = 1, enough(coordinates)
    while low < high:
        middle = (low + high) // 2
        low, high = (middle + 1, high) if refuses_count(coordinates, middle) else (low, middle)
    return low


def up_in_turn(coordinates, first, done):
    """x goes up to a count that it accepts, y goes on from there, then z, and again from there until it is done."""
    while True:
        came_to = []
        for axis in range(3):
            first = up_from(coordinates, first, lambda c, n: refused_by(c, n, axes=(axis,)))
            came_to.append(first)
        if done(*came_to):
            return first


WRONG_STEPS = {  # how a program may mistake the curve rule
    "x left out": {"axes": (1, 2)},
    "y left out": {"axes": (0, 2)},
    "z left out": {"axes": (0, 1)},
    "one axis is enough": {"of_axes": all},
    "the last of several steps left out": {"looked_at": lambda steps: steps[:-1] or steps},
    "the first of several steps left out": {"looked_at": lambda steps: steps[1:] or steps},
    "the first and the last step alone": {"looked_at": lambda steps: steps[:1] + steps[-1:]},
    "exactly one cell apart refused": {"long": ge},
}
WRONG_SEARCHES = {  # by the points, which count a program may choose
    **{
        way: lambda c, parts=parts: up_from(c, 1, lambda c, n: refused_by(c, n, **parts))
        for way, parts in WRONG_STEPS.items()
    },
    "cells for values": lambda c: up_from(c, 1, cells_apart),
    "up from 2": lambda c: up_from(c, 2),
    "up from the largest gap": lambda c: up_from(c, max(1, gap_on_some_axis(c))),
    "up from one above the distance of the ends": lambda c: up_from(c, 1 + ends_apart(c)),
    "the distance of the ends unexamined": lambda c: at_least_ends(c),
    "three gaps unexamined": enough,
    "three gaps less one unexamined": lambda c: min(chosen_count(c), max(1, enough(c) - 1)),
    "0 if all points agree": lambda c: chosen_count(c) if gap_on_some_axis(c) else 0,
    "down from three gaps to a refusal": down_to_a_refusal,
    "by halves": by_halves,
    "the largest of the axes' own": lambda c: max(
        up_from(c, 1, lambda c, n: refused_by(c, n, axes=(axis,))) for axis in range(3)
    ),
    "each axis once, in turn": lambda c: up_in_turn(c, 1, lambda x, y, z: True),
    "each axis once, from the distance of the ends": lambda c: up_in_turn(c, at_least_ends(c), lambda x, y, z: True),
    "each axis again only if z moved": lambda c: up_in_turn(c, at_least_ends(c), lambda x, y, z: y == z),
    "each axis again only if y moved": lambda c: up_in_turn(c, at_least_ends(c), lambda x, y, z: x == y),
}
SELDOM_WRONG = [way for way in WRONG_SEARCHES if way.startswith("each axis")]  # where an axis refuses a count again
WRONG_OWN = {  # by the points and the record's n, which count a program may choose
    "the record's n": lambda c, n: n,
    "the record's n if accepted": lambda c, n: n if 1 <= n <= 512 and not refuses_count(c, n) else chosen_count(c),
    "up from the record's n": lambda c, n: up_from(c, n) if 1 <= n <= 512 else chosen_count(c),
}
WRONG_ORDERS = {  # of refusals; those of the count alone are those of its numbers in such an order
    "13 for the record's n": (11, 21, 12, 13, 14),
    "15 for the record's n": (11, 21, 12, 14, 15),
    "21 before 11": (21, 11, 12, 14),
    "12 before 11": (12, 11, 21, 14),
    "12 before 21": (11, 12, 21, 14),
    "14 before 11": (14, 11, 21, 12),
    "14 before 21": (11, 14, 21, 12),
    "14 before 12": (11, 21, 14, 12),
    "11 left out": (21, 12, 14),
    "21 left out": (11, 12, 14),
    "12 left out": (11, 21, 14),
    "14 left out": (11, 21, 12),
}
WRONG_CHOICES = {"always over": (OVER, OVER), "always under": (UNDER, UNDER), "over and under exchanged": (UNDER, OVER)}
OF_THE_DRAWING = [*(way for way in WRONG_ORDERS if "12" in way or "21" in way), *WRONG_CHOICES]
OF_THE_COUNT = ["12 of the count alone"]
WRONG_CHOSEN = [*WRONG_SEARCHES, *WRONG_OWN, *WRONG_ORDERS, *OF_THE_COUNT, *WRONG_CHOICES]


@lru_cache(maxsize=1 << 10)
def wrong_searches(coordinates):
    """The count that each wrong search chooses."""
    return {way: search(coordinates) for way, search in WRONG_SEARCHES.items()}


def wrong_counts_chosen(side, record, grid_length=None):
    """The refusal and the count that each wrong way has for a drawing with a chosen count, or for the count alone.

    A grid's length is given for a drawing.
    """
    (n,) = record.counts
    coordinates, alone = record.coordinates, grid_length is None
    applies = {
        11: lambda: not 2 <= side <= 64,
        21: lambda: grid_length != side**3,
        12: lambda: record.mark == 0,
        13: lambda: not 1 <= n <= 512,
        14: lambda: max(coordinates) >= side,
        15: lambda: 1 <= n <= 512 and refuses_count(coordinates, n),
    }

    def answered(order):
        refusal = first_refusal(*((number, applies[number]) for number in order))
        return (refusal, None) if refusal else (None, chosen_count(coordinates))

    right = answered((11, 14) if alone else (11, 21, 12, 14))
    found = dict.fromkeys(WRONG_CHOSEN, right)
    for way, order in WRONG_ORDERS.items():
        found[way] = answered([number for number in order if not (alone and number in (21, 12))])
    if alone:
        found["12 of the count alone"] = answered((11, 12, 14))
    if right[0] is None:
        found.update({way: (None, chosen) for way, chosen in wrong_searches(coordinates).items()})
        found.update({way: (None, chosen(coordinates, n)) for way, chosen in WRONG_OWN.items()})
    return found


def chosen_told_apart(side, record, grid=None, answer=None):
    """The wrong ways that answer otherwise than the count alone or, if grid and answer are given, than the drawing.

    As many samples are another number where the count is another.
    """
    if grid is None:
        right = choose_steps(side, record)
        yield from (way for way, wrong in wrong_counts_chosen(side, record).items() if wrong != right)
        return
    right = answer.refusal, None if answer.count is None else answer.count - 1
    yield from (way for way, wrong in wrong_counts_chosen(side, record, len(grid)).items() if wrong != right)
    if answer.refusal is None:
        chosen = with_chosen_count(record)
        for way, becomes in WRONG_CHOICES.items():
            choice = becomes[record.choice == UNDER]
            if choice != record.choice and draw(side, chosen._replace(choice=choice), grid) != answer:
                yield way


def broken_chosen_laws(side, record, grid, answer):
    """What does not hold of the answer of a drawing with a chosen count."""
    if answer.refusal is None:
        chosen = with_chosen_count(record)
        smaller = [check_refusal(side, record._replace(counts=(n,))) for n in range(1, chosen.counts[0])]
        laws = {
            "that of a drawing with the chosen count": draw(side, chosen, grid) == answer,
            "the chosen count is accepted": check_refusal(side, chosen) is None,
            "no smaller one is": {*smaller} <= {15},
        }
        return [law for law, holds in laws.items() if not holds] + broken_laws(side, chosen, grid, answer)
    laws = {
        "a refusal ignores the choice": draw_chosen(side, with_other_choice(record), grid) == answer,
        "a refused call leaves the grid": answer.lent == grid,
    }
    return [law for law, holds in laws.items() if not holds]


def broken_laws(side, record, grid, answer, drawing=draw, cells_of=cells):
    """What does not hold of a drawing's answer, each said another way than the drawing itself."""
    other = drawing(side, with_other_choice(record), grid)
    if answer.refusal is not None:
        laws = {"a refusal ignores the choice": other == answer, "a refused call leaves the grid": answer.lent == grid}
    else:
        order = row_by_row(record, cells_of)
        shuffled = random.Random(answer.count).sample(order, len(order))
        laws = {
            "the bytes of its cells, and no others": left_as_drawn(side, record, grid, answer.lent, cells_of),
            "new cells are the places that were unmarked": answer.new == len(new_places(side, record, grid, cells_of)),
            "any order of the samples": all(
                sample_by_sample(side, record, grid, turn, cells_of=cells_of) == (answer.new, answer.lent)
                for turn in (order, order[::-1], shuffled)
            ),
            "the same count and as many new cells by the other choice": other[:3] == answer[:3],
        }
    return [law for law, holds in laws.items() if not holds]


def between_samples(record, each):
    """Whether an inserted cell has the next sample's coordinates up to some axis, and from there on the sample's before."""
    here, there = cells(record)[each.sample,], cells(record)[each.sample + 1,]
    return each.cell in (there[:1] + here[1:], there[:2] + here[2:]) and each.cell not in (here, there)


def broken_path_laws(side, record):
    """What does not hold of the path of an accepted curve, each said another way than the path itself."""
    (n,) = record.counts
    found, walk = path(record), row(cells(record))
    of_samples = [each.cell for each in found if not each.inserted]
    apart = [
        max(abs(Fraction(*exact) - c) for exact, c in zip(samples(record)[each.sample,], each.cell, strict=True))
        for each in found
    ]
    steps = sum(abs(a - b) for here, there in zip(walk, walk[1:]) for a, b in zip(here, there, strict=True))
    listed = list_path(side, record, bytes(3 * len(found)))
    laws = {
        "neighbouring cells share a face": face_to_face(found),
        "1 plus the sum over all steps of the axis moves": len(found) == 1 + steps,
        "at most 3 × n + 1": len(found) <= 3 * n + 1,
        "every sample's cell, in turn, where it changes": of_samples
        == [cell for i, cell in enumerate(walk) if i == 0 or walk[i - 1] != cell],
        "x before y before z": all(between_samples(record, each) for each in found if each.inserted),
        "cells of samples within half": all(d <= Fraction(1, 2) for d, each in zip(apart, found) if not each.inserted),
        "inserted ones within one and a half": all(d <= Fraction(3, 2) for d in apart),
        "inside the cube": all(0 <= c < side for each in found for c in each.cell),
        "the cells that are listed": listed.lent == bytes(c for each in found for c in each.cell),
        "from the other end as many cells": len(path(flip(record))) == len(found),
    }
    return [law for law, holds in laws.items() if not holds]


def moves_by(*groups):
    """From cell to cell otherwise: the axes of a group move at once, one group after the other, each with one cell."""
    axes = [["xyz".index(axis) for axis in group] for group in groups]

    def between(here, there):
        at, found = list(here), []
        for group in axes:
            if any(here[axis] != there[axis] for axis in group):
                for axis in group:
                    at[axis] = there[axis]
                found.append(tuple(at))
        return found

    return between


def moves_with(*after):
    """From cell to cell otherwise: a cell for each axis that moves, with the next cell's coordinates on these axes."""
    return lambda here, there: [
        tuple(there[a] if "xyz"[a] in axes else here[a] for a in range(3))
        for axis, axes in enumerate(after)
        if here[axis] != there[axis]
    ]


def along_path(walk, between=moves):
    """The cells from cell to cell of a walk."""
    return walk[:1] + [cell for here, there in zip(walk, walk[1:]) for cell in between(here, there)]


WRONG_MOVES = {  # from one cell to the next
    "x, z, y": moves_by("x", "z", "y"),
    "y, x, z": moves_by("y", "x", "z"),
    "y, z, x": moves_by("y", "z", "x"),
    "z, x, y": moves_by("z", "x", "y"),
    "z, y, x": moves_by("z", "y", "x"),
    "x and y in one move": moves_by("xy", "z"),
    "y and z in one move": moves_by("x", "yz"),
    "x and z in one move": moves_by("xz", "y"),
    "a diagonal step": moves_by("xyz"),
    "each move from the cell before": moves_with("x", "y", "z"),
    "after y's move the y before it": moves_with("x", "x", "xyz"),
    "after y's move the x before it": moves_with("x", "y", "xyz"),
    "after z's move the y before it": moves_with("x", "xy", "xz"),
    "the last move of a step left out": lambda here, there: moves(here, there)[:-1],
    "a cell for a sample that stays": lambda here, there: moves(here, there) or [there],
    "only samples' cells": lambda here, there: [there],
}
WRONG_PATHS = {  # by the samples' cells, which cells a program may take for the path
    **{way: lambda walk, between=between: along_path(walk, between) for way, between in WRONG_MOVES.items()},
    "the last sample's moves left out": lambda walk: along_path(walk[:-1]),
    "the first cell left out": lambda walk: along_path(walk)[1:],
    "from the other end": lambda walk: along_path(walk[::-1])[::-1],
}
WRONG_LENGTHS = {  # what a program may answer
    "counted without the 1": lambda record: len(path(record)) - 1,
    "counted by samples": lambda record: record.counts[0] + 1,
    "counted by the longest path": lambda record: 3 * record.counts[0] + 1,
    "counted by steps that move": lambda record: len(along_path(row(cells(record)), moves_by("xyz"))),
    "counted by different cells": lambda record: len({each.cell for each in path(record)}),
}
PATH_ORDERS = {"drawing": (11, 21, 12, 13, 14, 15), "listing": (11, 13, 14, 15, 22)}


def order_exchanged(order, earlier, later):
    """An order with one number moved before an earlier one."""
    rest = [number for number in order if number != later]
    at = rest.index(earlier)
    return (*rest[:at], later, *rest[at:])


WRONG_PATH_ORDERS = {
    call: {f"{b} before {a}": order_exchanged(order, a, b) for a, b in combinations(order, 2)}
    for call, order in PATH_ORDERS.items()
}
WRONG_ROOMS = {  # how long a list a program may ask for
    "22 by 3 × (n + 1)": lambda record: 3 * (record.counts[0] + 1),
    "22 by 3 × (3 × n + 1)": lambda record: 3 * (3 * record.counts[0] + 1),
    "22 by the cells but one": lambda record: 3 * (len(path(record)) - 1),
    "22 one byte too late": lambda record: 3 * len(path(record)) - 1,
    "22 one byte too early": lambda record: 3 * len(path(record)) + 1,
}
WRONG_LISTS = ["a short list partly written", "22 by 3 × (n + 1) before 14"]
WRONG_PATH_WAYS = {
    "drawing": [*WRONG_PATHS, *WRONG_LENGTHS, *WRONG_PATH_ORDERS["drawing"]],
    "listing": [*WRONG_PATHS, *WRONG_LENGTHS, *WRONG_PATH_ORDERS["listing"], *WRONG_ROOMS, *WRONG_LISTS],
}


def path_refusal(side, record, length, order):
    """The refusal of a call with a path by some order; the cells of a count that 13 refuses are one at least."""
    (n,) = record.counts
    walked = 1 <= n <= 513
    return first_refusal(*((number, {
        11: lambda: not 2 <= side <= 64,
        21: lambda: length != side**3,
        12: lambda: record.mark == 0,
        13: lambda: not 1 <= n <= 512,
        14: lambda: max(record.coordinates) >= side,
        15: lambda: walked and steps_too_long(record),
        22: lambda: length < 3 * (len(path(record)) if walked else 1),
    }[number]) for number in order))  # fmt: skip


def wrong_path_drawings(side, record, grid, answer):
    """The wrong ways that answer otherwise than a drawing of a path, or leave another grid."""
    for way, order in WRONG_PATH_ORDERS["drawing"].items():
        if path_refusal(side, record, len(grid), order) != answer.refusal:
            yield way
    if answer.refusal is None:
        yield from (way for way, length in WRONG_LENGTHS.items() if length(record) != answer.count)
        for way, wrong in WRONG_PATHS.items():
            found = wrong(row(cells(record)))
            drawn = mark_cells(side, record, grid, found)
            if (len(found), unmarked(grid) - unmarked(drawn), drawn) != answer[1:]:
                yield way


def wrong_path_listings(side, record, lent, answer):
    """The wrong ways that answer otherwise than a listing of a path, or leave another list."""
    for way, order in WRONG_PATH_ORDERS["listing"].items():
        if path_refusal(side, record, len(lent), order) != answer.refusal:
            yield way
    if listing_refusal(side, record, len(lent)) != answer.refusal:
        yield "22 by 3 × (n + 1) before 14"
    if answer.refusal in (None, 22):
        for way, room in WRONG_ROOMS.items():
            if (len(lent) < room(record)) != (answer.refusal == 22):
                yield way
    if answer.refusal == 22:
        listed = bytes(c for cell in path_cells(record).values() for c in cell)[: len(lent)]
        if listed + lent[len(listed) :] != lent:
            yield "a short list partly written"
    if answer.refusal is None:
        yield from (way for way, length in WRONG_LENGTHS.items() if length(record) != answer.count)
        for way, wrong in WRONG_PATHS.items():
            found = wrong(row(cells(record)))
            listed = bytes(c for cell in found for c in cell)
            if len(found) != answer.count or listed + lent[len(listed) :] != answer.lent:
                yield way


def broken_strip_laws(side, record, grid, answer):
    """What does not hold of the strip's answer, by itself and beside the main path's from the same grid."""
    main = draw(side, record, grid)
    within = side <= 17 and max(record.counts) <= 64
    laws = {
        "the main path's answer, but for numbers of its own": answer.refusal in (23, 24) or answer == main,
        "what the main path refuses is refused": main.refusal is None or answer.refusal is not None,
        "what the main path accepts is accepted within its bounds": main.refusal is not None
        or (answer.refusal is None) == within,
        "numbers of its own are for what is beyond its bounds": answer.refusal not in (23, 24) or not within,
        "the same from the flip": draw_strip(side, flip(record), grid) == answer,
    }
    return [law for law, holds in laws.items() if not holds] + broken_laws(side, record, grid, answer, draw_strip)


STRIP_ORDER = 11, 23, 21, 12, 13, 24, 14, 15
WRONG_BOUNDS = {  # of the strip
    "side 17 refused": {"most_side": 16},
    "side 18 taken": {"most_side": 18},
    "64 steps refused": {"most_steps": 63},
    "65 steps taken": {"most_steps": 65},
    "24 by n alone": {"looked_at": lambda counts: counts[:1]},
    "24 by m alone": {"looked_at": lambda counts: counts[-1:]},
    "24 by the smaller count": {"looked_at": lambda counts: (min(counts),)},
    "24 by the number of steps": {"looked_at": lambda counts: (prod(counts),)},
    "11 in place of 23": {"instead": {23: 11}},
    "13 in place of 24": {"instead": {24: 13}},
    "23 left out": {"order": [number for number in STRIP_ORDER if number != 23]},
    "24 left out": {"order": [number for number in STRIP_ORDER if number != 24]},
}
WRONG_STRIPS = {
    **WRONG_BOUNDS,
    **{f"{b} before {a}": {"order": order_exchanged(STRIP_ORDER, a, b)} for a, b in combinations(STRIP_ORDER, 2)},
}
OF_PATCHES = [way for way in WRONG_STRIPS if way.startswith("24 by ")]  # a curve has one count


def strip_refused_by(
    side, record, grid_length, order=STRIP_ORDER, most_side=17, most_steps=64, looked_at=tuple, instead=None
):
    """The strip's refusal, some part of it exchanged; 15 is tried of objects with few samples."""
    few = min(record.counts) > 0 and prod(n + 1 for n in record.counts) <= 5000
    refusal = first_refusal(*((number, {
        11: lambda: not 2 <= side <= 64,
        23: lambda: side > most_side,
        21: lambda: grid_length != side**3,
        12: lambda: record.mark == 0,
        13: lambda: count_out_of_range(record),
        24: lambda: any(n > most_steps for n in looked_at(record.counts)),
        14: lambda: max(record.coordinates) >= side,
        15: lambda: few and steps_too_long(record),
    }[number]) for number in order))  # fmt: skip
    return (instead or {}).get(refusal, refusal)


def wrong_strips(side, record, grid_length, answer):
    """The wrong ways by which the strip would be refused with another number, or accept."""
    for way, parts in WRONG_STRIPS.items():
        if strip_refused_by(side, record, grid_length, **parts) != answer.refusal:
            yield way


# Solids drawn wrongly


def parameters_in_order(record, order, points=True, counts=True):
    """The solid whose parameter p is parameter order[p] of this one, of its points or counts alone where so said."""
    numbers = [
        sum(4 ** (2 - order[p]) * index for p, index in enumerate(indices))
        for indices in product(range(4), repeat=3)
    ]
    found = with_points(record, numbers) if points else record
    return found._replace(counts=tuple(record.counts[p] for p in order)) if counts else found


def cells_with_both_remainders_dropped(record):
    """Both slips: a slice's first column counts from the slice's first cell, and each row from its own first cell."""
    return cells_from(record, lambda indices: (0, *indices[1:]), cells_with_slice_remainder_dropped)


def cells_where(record, kept):
    """The cells of some samples alone, by their indices and the counts."""
    return {indices: cell for indices, cell in cells(record).items() if kept(indices, record.counts)}


def cells_with_one_more(record, parameter):
    """The cells of a walk that goes one step on past the end of a parameter."""
    axes = [record.coordinates[axis::3] for axis in range(3)]
    past = record.counts[parameter] + 1
    ranges = [range(n + 1) if p != parameter else [past] for p, n in enumerate(record.counts)]
    more = {at: tuple(nearest(value(record.counts, at, axis)) for axis in axes) for at in product(*ranges)}
    return cells(record) | more


WRONG_SOLID_RECORDS = {  # which solid a program may draw in place of one
    **{
        f"{'ijk'[a]} and {'ijk'[b]} exchanged in the point number": (order, True, False)
        for a, b, order in ((0, 1, (1, 0, 2)), (0, 2, (2, 1, 0)), (1, 2, (0, 2, 1)))
    },
    **{
        f"{'nml'[a]} and {'nml'[b]} exchanged": (order, False, True)
        for a, b, order in ((0, 1, (1, 0, 2)), (0, 2, (2, 1, 0)), (1, 2, (0, 2, 1)))
    },
}
WRONG_SOLID_CELLS = {  # which cells a program may take for those of the samples
    "figure 4's move on one axis alone": cells_by_figure_4,
    "the remainder dropped at a slice's start": cells_with_slice_remainder_dropped,
    "the remainder dropped at a row's start": cells_with_row_remainder_dropped,
    "both remainders dropped": cells_with_both_remainders_dropped,
    "halves up": cells_with_halves_up,
    "halves to even": cells_with_halves_to_even,
    "the last slice left out": lambda record: cells_where(record, lambda at, counts: at[2] < counts[2]),
    "the first slice left out": lambda record: cells_where(record, lambda at, counts: at[2] > 0),
    "the last row of each slice left out": lambda record: cells_where(record, lambda at, counts: at[1] < counts[1]),
    "the last sample of each row left out": lambda record: cells_where(record, lambda at, counts: at[0] < counts[0]),
    "the first slice alone": lambda record: cells_where(record, lambda at, counts: at[2] == 0),
    "a slice too many": lambda record: cells_with_one_more(record, 2),
    "a row too many in each slice": lambda record: cells_with_one_more(record, 1),
    "a sample too many in each row": lambda record: cells_with_one_more(record, 0),
}
MODULO = "the scale modulo 2³²"
WRONG_SOLID_SCALES = {  # over which scale a program may take the values
    **{f"the scale without {'nml'[p]}³": lambda counts, p=p: scale(counts) // counts[p] ** 3 for p in range(3)},
    MODULO: lambda counts: scale(counts) % 2**32 or 1,
}
WRONG_SOLID_NUMBERS = {  # how many samples a program may answer
    "(n + 1) × (m + 1)": lambda n, m, l: (n + 1) * (m + 1),
    "n × m × l": lambda n, m, l: n * m * l,
    "(n + 1) × (m + 1) × l": lambda n, m, l: (n + 1) * (m + 1) * l,
    "(n + 1) × (n + 1) × (n + 1)": lambda n, m, l: (n + 1) ** 3,
}
WRONG_SOLID_STEPS = {  # by its parameter, its first sample, the counts and its axis, which long steps a program may see
    "steps along t unseen": lambda p, at, counts, axis: p != 0,
    "steps along u unseen": lambda p, at, counts, axis: p != 1,
    "steps along v unseen": lambda p, at, counts, axis: p != 2,
    "steps along t seen at v = 0 alone": lambda p, at, counts, axis: p != 0 or at[2] == 0,
    "steps along t seen at u = 0 alone": lambda p, at, counts, axis: p != 0 or at[1] == 0,
    "steps along u seen at v = 0 alone": lambda p, at, counts, axis: p != 1 or at[2] == 0,
    "steps along u seen at t = 0 alone": lambda p, at, counts, axis: p != 1 or at[0] == 0,
    "steps along v seen at u = 0 alone": lambda p, at, counts, axis: p != 2 or at[1] == 0,
    "steps along v seen at t = 0 alone": lambda p, at, counts, axis: p != 2 or at[0] == 0,
    "steps in the last slice unseen": lambda p, at, counts, axis: p == 2 or at[2] < counts[2],
    "the first step along t unseen": lambda p, at, counts, axis: p != 0 or at[0] > 0,
    "the first step along u unseen": lambda p, at, counts, axis: p != 1 or at[1] > 0,
    "the first step along v unseen": lambda p, at, counts, axis: p != 2 or at[2] > 0,
    "the last step along t unseen": lambda p, at, counts, axis: p != 0 or at[0] + 1 < counts[0],
    "the last step along u unseen": lambda p, at, counts, axis: p != 1 or at[1] + 1 < counts[1],
    "the last step along v unseen": lambda p, at, counts, axis: p != 2 or at[2] + 1 < counts[2],
    "steps on x unseen": lambda p, at, counts, axis: axis != 0,
    "steps on y unseen": lambda p, at, counts, axis: axis != 1,
    "steps on z unseen": lambda p, at, counts, axis: axis != 2,
}
WRONG_SOLID_LIMITS = {  # which counts a program may refuse with 13
    "33 taken": lambda counts: not all(1 <= n <= 33 for n in counts),
    "32 refused": lambda counts: not all(1 <= n <= 31 for n in counts),
    "0 taken": lambda counts: any(n > 32 for n in counts),
    "n modulo 256": lambda counts: not all(1 <= n % 256 <= 32 for n in counts),
    "13 by n and m alone": lambda counts: not all(1 <= n <= 32 for n in counts[:2]),
    "13 by n and l alone": lambda counts: not all(1 <= n <= 32 for n in counts[::2]),
    "13 by m and l alone": lambda counts: not all(1 <= n <= 32 for n in counts[1:]),
    "13 by all three counts": lambda counts: all(not 1 <= n <= 32 for n in counts),
}
SOLID_ORDERS = {"drawing": (11, 21, 12, 13, 14, 15), "check": (11, 13, 14, 15)}
WRONG_SOLID_ORDERS = {
    call: {f"{b} before {a}": order_exchanged(order, a, b) for a, b in combinations(order, 2)}
    for call, order in SOLID_ORDERS.items()
}
WRONG_SOLID_WAYS = {
    "drawing": [
        *WRONG_SOLID_RECORDS, *WRONG_SOLID_CELLS, *WRONG_SOLID_SCALES, *WRONG_SOLID_NUMBERS, *WRONG_SOLID_STEPS,
        "exactly one cell apart refused", *WRONG_SOLID_LIMITS, *WRONG_SOLID_ORDERS["drawing"],
    ],
    "check": [
        *WRONG_SOLID_RECORDS, *WRONG_SOLID_SCALES, *WRONG_SOLID_STEPS, "exactly one cell apart refused",
        *WRONG_SOLID_LIMITS, *WRONG_SOLID_ORDERS["check"],
    ],
}  # fmt: skip


def has_long_step(record, whole):
    """Whether some two neighbours are too far apart, of values over another scale."""
    exact = samples(record)
    return any(
        abs(a - b) > whole for _, here, there in neighbours(record) for (a, _), (b, _) in zip(exact[here], exact[there])
    )


def long_steps(record):
    """All neighbours "more than one cell apart on an axis": the parameter, the first sample and the axis.

    And whether some two are exactly one cell apart.
    """
    exact, whole = samples(record), scale(record.counts)
    found, exactly = [], False
    for parameter, here, there in neighbours(record):
        for axis, ((a, _), (b, _)) in enumerate(zip(exact[here], exact[there])):
            if abs(a - b) > whole:
                found.append((parameter, here, axis))
            exactly = exactly or abs(a - b) == whole
    return found, exactly


def solid_refused_by(side, record, grid_length, order, out=count_out_of_range):
    """The refusal of a call with a solid, some part of it exchanged; 15 is tried of solids that are not too large."""
    few = min(record.counts) > 0 and prod(n + 1 for n in record.counts) <= 34**3
    return first_refusal(*((number, {
        11: lambda: not 2 <= side <= 64,
        21: lambda: grid_length != side**3,
        12: lambda: record.mark == 0,
        13: lambda: out(record),
        14: lambda: max(record.coordinates) >= side,
        15: lambda: few and steps_too_long(record),
    }[number]) for number in order))  # fmt: skip


def wrong_solid_refusals(side, record, grid_length, refusal, call):
    """The wrong ways by which a call with a solid would be refused with another number, or accepted."""
    order = SOLID_ORDERS[call]
    for way, other in WRONG_SOLID_ORDERS[call].items():
        if solid_refused_by(side, record, grid_length, other) != refusal:
            yield way
    for way, out in WRONG_SOLID_LIMITS.items():
        if solid_refused_by(side, record, grid_length, order, lambda record: out(record.counts)) != refusal:
            yield way
    if refusal not in (None, 15):
        return
    found, exactly = long_steps(record)
    for way, seen in WRONG_SOLID_STEPS.items():
        if any(seen(p, at, record.counts, axis) for p, at, axis in found) != (refusal == 15):
            yield way
    if exactly and refusal is None:
        yield "exactly one cell apart refused"
    for way, exchange in WRONG_SOLID_RECORDS.items():
        if steps_too_long(parameters_in_order(record, *exchange)) != (refusal == 15):
            yield way
    for way, whole in WRONG_SOLID_SCALES.items():
        if has_long_step(record, whole(record.counts)) != (refusal == 15):
            yield way


def inside(side, found):
    """Those of some cells that are in the cube."""
    return [cell for cell in found if all(0 <= c < side for c in cell)]


def wrong_solid_drawings(side, record, grid, answer):
    """The wrong ways by which a drawing of a solid would answer otherwise, or leave another grid."""
    told = {*wrong_solid_refusals(side, record, len(grid), answer.refusal, "drawing")}
    if answer.refusal is None:
        drawn = {way: cells_of(record).values() for way, cells_of in WRONG_SOLID_CELLS.items()}
        for way, exchange in WRONG_SOLID_RECORDS.items():
            drawn[way] = cells(parameters_in_order(record, *exchange)).values()
        for way, whole in WRONG_SOLID_SCALES.items():
            over = whole(record.counts)
            drawn[way] = [tuple(nearest((b, over)) for b, _ in exact) for exact in samples(record).values()]
        for way, found in drawn.items():
            left = mark_cells(side, record, grid, inside(side, found))
            if (unmarked(grid) - unmarked(left), left) != answer[2:]:
                told.add(way)
        told |= {way for way, number in WRONG_SOLID_NUMBERS.items() if number(*record.counts) != answer.count}
    return told


def broken_solid_laws(side, record, grid, answer):
    """What does not hold of a drawing of a solid, beside those of any drawing."""
    broken = broken_laws(side, record, grid, answer)
    for order in (1, 2, 0), (2, 1, 0):  # from which all orders are made
        if draw(side, parameters_in_order(record, order), grid) != answer:
            broken.append(f"the same from its parameters in the order {order}")
    checked = check_refusal(side, record)
    if checked != (answer.refusal if answer.refusal not in (21, 12) else checked):
        broken.append("a check answers the same where grid and mark are right")
    return broken


def in_reverse(listing):
    """A listing's answer with "the same cells in reverse", the rest of the list and a refusal as they are."""
    if listing.refusal is not None:
        return listing
    end = 3 * listing.count
    return listing._replace(lent=b"".join(listing.lent[k - 3 : k] for k in range(end, 0, -3)) + listing.lent[end:])


def is_on_half(exact):
    """Whether a value lies exactly on a half, where two cells are as near."""
    blended, n = exact
    return 2 * blended % (2 * n) == n


def has_half(record):
    """Whether some sample of a record lies on a half on some axis."""
    return any(is_on_half(coordinate) for exact in samples(record).values() for coordinate in exact)


WRONG_FLIPS = {  # by the number of parameters, what a program may take for the flip of a record
    1: {
        "not at all": lambda record: record,
        "points 1 and 2 left": lambda record: with_points(record, (3, 1, 2, 0)),
        "points 0 and 3 left": lambda record: with_points(record, (0, 2, 1, 3)),
        "x, y and z in reverse too": lambda record: record._replace(coordinates=record.coordinates[::-1]),
    },
    2: {
        "not at all": lambda record: record,
        "n and m left": lambda record: flip(record)._replace(counts=record.counts),
        "i and j left": lambda record: record._replace(counts=record.counts[::-1]),
        "i in reverse": lambda record: with_points(record, [4 * (3 - i) + j for i in range(4) for j in range(4)]),
        "j in reverse": lambda record: with_points(record, [4 * i + 3 - j for i in range(4) for j in range(4)]),
        "i and j in reverse": lambda record: with_points(record, range(15, -1, -1)),
    },
}


# By these a drawing or a check has the same samples, in another order: a listing, or the flip itself, tells them.
THE_SAME_SAMPLES = {1: ["not at all"], 2: ["not at all", "i in reverse", "j in reverse", "i and j in reverse"]}


def wrong_flips(record):
    """What each wrong way takes for the flip of a record."""
    return {way: flipped(record) for way, flipped in WRONG_FLIPS[len(record.counts)].items()}


def calls_apart(side, record, other, grid, lent):
    """The calls that do not agree with a record and with another in place of its flip, lent the same bytes."""
    if draw(side, other, grid) != draw(side, record, grid):
        yield "drawing"
    if check_refusal(side, other) != check_refusal(side, record):
        yield "check"
    if len(record.counts) == 1:
        if list_curve(side, other, lent) != in_reverse(list_curve(side, record, lent)):
            yield "listing"
        if check_curve(side, other) != check_curve(side, record):
            yield "check of a curve"
        if choose_steps(side, other) != choose_steps(side, record):
            yield "chosen count"
        if draw_chosen(side, other, grid) != draw_chosen(side, record, grid):
            yield "drawing with a chosen count"


def grid_of_points(coordinate, parameters=2):
    """Four points along each parameter, where coordinate(i, j) or coordinate(i, j, k) gives x y z of each."""
    return [c for indices in product(range(4), repeat=parameters) for c in coordinate(*indices)]


# Two rows of three samples: x is 0, 1/2, 1 in row 0 and 1, 3/2, 2 in row 1, and y is 0, 1, 2 in both.
HALVES_IN_BOTH_ROWS = grid_of_points(lambda i, j: ((0, 0, 1, 1)[i] + (0, 0, 1, 1)[j], (0, 1, 1, 2)[i], 0))
# With n = m = 3, x is i + j and y is 3 + i - j at sample (i, j): the cells of neighbours touch at an edge alone.
CHESSBOARD = grid_of_points(lambda i, j: (i + j, 3 + i - j, 0))


def check_k1_to_k12(checks):
    """K1 to K12 on each of the three axes, through listing and drawing, side 8."""
    group = "K1 to K12"
    held = bytes([77]) * 60
    for axis in range(3):
        for name, controls, n, expected, refusal in K1_TO_K11:
            label = f"{name}, axis {axis}"
            record = curve(on_axis(axis, controls), n, 9)
            listed = list_curve(8, record, held)
            drawn = checks.draw(group, 8, record, bytes(512))
            checks.equal(group, f"{label}, listing", listed[:2], (refusal, None if refusal else n + 1))
            checks.equal(group, f"{label}, drawing", drawn[:2], (refusal, None if refusal else n + 1))
            if refusal is not None:
                checks.equal(group, f"{label}, list kept", listed.lent, held)
                checks.equal(group, f"{label}, grid kept", drawn.lent, bytes(512))
            if expected is not None:
                written = bytes(on_axis(axis, expected))
                checks.equal(group, f"{label}, list", listed.lent, written + held[len(written) :])
                marked = {8**axis * c for c in expected}
                grid = bytes(9 if at in marked else 0 for at in range(512))
                checks.equal(group, f"{label}, grid", drawn.lent, grid)
        record = patch(on_axis(axis, K12), 4, 4, 9)
        along_axis = [cell[axis] for cell in row(cells(record), 2)]
        slipped = [cell[axis] for cell in row(cells_with_row_remainder_dropped(record), 2)]
        checks.equal(group, f"K12, axis {axis}, row 2", along_axis, [1, 2, 3, 4, 4])
        checks.equal(group, f"K12, axis {axis}, row 2 with the remainder dropped", slipped, [1, 2, 2, 3, 4])
        checks.equal(group, f"K12, axis {axis}, drawing", checks.draw(group, 8, record, bytes(512))[:2], (None, 25))
    for name, n, expected in ("K7", 17, (4902, 4913)), ("K8", 16, (4326, 4096)):
        last, before = (value((n,), (i,), (0, 0, 0, 6)) for i in (n, n - 1))
        checks.equal(group, f"{name}, last step", (last[0] - before[0], last[1]), expected)


def de_casteljau(counts, indices, controls):
    """The exact value by repeated interpolation, parameter by parameter: a second way to `value`."""
    if not counts:
        return Fraction(controls[0])
    quarter = len(controls) // 4
    values = [
        de_casteljau(counts[1:], indices[1:], controls[quarter * k : quarter * (k + 1)]) for k in range(4)
    ]
    t = Fraction(indices[0], counts[0])
    while len(values) > 1:
        values = [(1 - t) * a + t * b for a, b in zip(values, values[1:])]
    return values[0]


def check_exact_samples(checks):
    """The weights, the point order, and the neighbours along t and u."""
    group = "exact samples"
    checks.equal(group, "weights at 1/3", bernstein(3, 1), (8, 12, 6, 1))
    checks.equal(group, "place", place(8, (1, 2, 3)), 209)
    checks.equal(group, "scale of a patch", scale((2, 3)), 216)
    for number in range(16):
        controls = [int(k == number) for k in range(16)]
        i, j = divmod(number, 4)
        expected = (8, 12, 6, 1)[i] * (1, 3, 3, 1)[j]
        checks.equal(group, f"weight of point {number}", value((3, 2), (1, 1), controls), (expected, 216))
    dice = random.Random(1)
    for counts in [(7,), (6, 5), (3, 4, 5)] * 10:
        controls = [dice.randrange(64) for _ in range(4 ** len(counts))]
        indices = tuple(dice.randrange(n + 1) for n in counts)
        found = value(counts, indices, controls)
        label = f"{counts} {indices} {controls}"
        checks.equal(group, label, Fraction(*found), de_casteljau(counts, indices, controls))
        checks.equal(group, f"{label}, among all", values(counts, controls)[indices], found[0])
    k1_along_t = as_patch(on_axis(0, (0, 1, 2, 3)))
    k1_along_u = on_axis(1, [j for _ in range(4) for j in range(4)])
    for label, record, expected in (
        ("every row along t K1's, n = 2", patch(k1_along_t, 2, 3, 1), 15),
        ("every row along t K1's, n = 3", patch(k1_along_t, 3, 1, 1), None),
        ("every row along u K1's, m = 2", patch(k1_along_u, 3, 2, 1), 15),
        ("every row along u K1's, m = 3", patch(k1_along_u, 1, 3, 1), None),
        ("long steps along t in the last two rows only", patch(on_axis(2, [0] * 15 + [2]), 1, 9, 1), 15),
        ("long steps along u in the last two columns only", patch(on_axis(2, [0] * 15 + [2]), 9, 1, 1), 15),
        ("the same with steps to spare", patch(on_axis(2, [0] * 15 + [2]), 9, 9, 1), None),
    ):
        checks.equal(group, label, checks.draw(group, 8, record, bytes(512)).refusal, expected)


def check_cells(checks):
    """One coordinate owns a value, on a half the lower one; a curve from its other end has the same cells."""
    group = "cells"
    for twelfths in range(97):
        exact = Fraction(twelfths, 12)
        owners = [c for c in range(10) if 2 * c - 1 < 2 * exact <= 2 * c + 1]
        checks.equal(group, f"{exact}", [owner(exact)], owners)
        checks.equal(group, f"{exact}, in whole numbers", [nearest((twelfths, 12))], owners)
    # x = 3 - i/2 + j/2 at sample (i, j): falling along t, rising along u
    falling_rising = patch(on_axis(0, [3 - i + j for i in range(4) for j in range(4)]), 6, 6, 1)
    checks.equal(group, "halves along t and u", checks.draw(group, 8, falling_rising, bytes(512))[:2], (None, 49))
    for j, expected in (0, [3, 2, 2, 1, 1, 0, 0]), (1, [3, 3, 2, 2, 1, 1, 0]), (2, [4, 3, 3, 2, 2, 1, 1]):
        found = [x for x, _, _ in row(cells(falling_rising), j)]
        checks.equal(group, f"halves along t and u, row {j}", found, expected)
    dice = random.Random(6)
    for _ in range(100):
        record = curve([dice.randrange(8) for _ in range(12)], dice.randrange(1, 40), 1)
        back = row(cells(flip(record)))
        checks.equal(group, f"from the other end {record}", back, row(cells(record))[::-1])


def check_neighbours(checks):
    """A half in each of two rows: down and up leave no slit, the even cell does; and a patch with holes."""
    group = "neighbours"
    record = patch(HALVES_IN_BOTH_ROWS, 2, 1, 9)
    drawn = bytes([9, 9, 0, 9, 9, 0, 0, 9, 9] + [0] * 18)
    checks.equal(group, "halves in both rows", checks.draw(group, 3, record, bytes(27)), DrawAnswer(None, 6, 6, drawn))
    for label, rule, rows, distances in (
        ("down", cells, [[0, 0, 1], [1, 1, 2]], {("t", 1): 4, ("u", 1): 3}),
        ("up", cells_with_halves_up, [[0, 1, 1], [1, 2, 2]], {("t", 1): 4, ("u", 1): 3}),
        ("to even", cells_with_halves_to_even, [[0, 0, 1], [1, 2, 2]], {("t", 1): 4, ("u", 1): 2, ("u", 2): 1}),
    ):
        found = rule(record)
        checks.equal(group, f"halves {label}", [[x for x, _, _ in row(found, j)] for j in (0, 1)], rows)
        checks.equal(group, f"halves {label}, half a cell", samples_within_half(record, found), True)
        checks.equal(group, f"halves {label}, distances", neighbour_distances(record, found), distances)
    squares = {place(7, (i + j, 3 + i - j, 0)) for i in range(4) for j in range(4)}
    drawn = bytes(9 if at in squares else 0 for at in range(343))
    record = patch(CHESSBOARD, 3, 3, 9)
    checks.equal(group, "a chessboard", checks.draw(group, 7, record, bytes(343)), DrawAnswer(None, 16, 16, drawn))
    dice = random.Random(7)
    records = (
        patch([dice.randrange(3) for _ in range(48)], 2 * dice.randrange(2, 5), dice.randrange(3, 7), 1)
        for _ in range(300)
    )
    accepted = sum(checks.draw(group, 3, record, bytes(27)).refusal is None for record in records)
    checks.equal(group, f"100 patches accepted or more: {accepted}", accepted >= 100, True)


def check_refusals(checks):
    """The orders: each call has every later fault too, and shows the first; then the limits."""
    group = "refusals"
    gap, outside = on_axis(0, (0, 0, 0, 7)), on_axis(0, (0, 0, 0, 8))
    held = bytes(range(256)) * 2
    for parameters, shape in enumerate((curve, patch, solid), 1):
        far, near = (along_some(points, (0,), parameters) for points in (outside, gap))
        later, limit = (1,) * (parameters - 1), (512, 256, 32)[parameters - 1]
        for side, grid, coordinates, n, mark, expected in (
            (1, held + b"x", far, 0, 0, 11),
            (65, held + b"x", far, 0, 0, 11),
            (4294967295, held, far, 0, 0, 11),
            (0, b"", far, 0, 0, 11),
            (8, held + b"x", far, 0, 0, 21),
            (8, held[:-1], far, 0, 0, 21),
            (7, held, far, 0, 0, 21),
            (8, held, far, 0, 0, 12),
            (8, held, far, 0, 1, 13),
            (8, held, far, limit + 1, 255, 13),
            (8, held, far, 1, 255, 14),
            (8, held, near, 1, 255, 15),
        ):
            record = shape(coordinates, n, *later, mark)
            answer = checks.draw(group, side, record, grid)
            checks.equal(group, f"draw {side} {len(grid)} {record}", answer, DrawAnswer(expected, None, None, grid))
        record = shape(near, limit, *later, 255)
        expected = 2 ** (parameters - 1) * (limit + 1)
        checks.equal(group, f"draw {record}", checks.draw(group, 8, record, held)[:2], (None, expected))
    for m, expected in (0, 13), (1, None), (256, None), (257, 13):
        record = patch([5] * 48, 1, m, 3)
        checks.equal(group, f"patch m = {m}", checks.draw(group, 8, record, held).refusal, expected)
    for side, lent, coordinates, n, expected in (
        (1, b"", outside, 0, 11),
        (65, b"", outside, 0, 11),
        (8, b"", outside, 0, 13),
        (8, b"", outside, 513, 13),
        (8, b"12345", outside, 1, 22),
        (8, b"123456", outside, 1, 14),
        (8, b"123456", gap, 1, 15),
    ):
        record = curve(coordinates, n, 0)
        answer = list_curve(side, record, lent)
        checks.equal(group, f"list {side} {len(lent)} {record}", answer, Answer(expected, None, lent))
    record = curve(on_axis(1, (0, 0, 0, 1)), 1, 0)
    answer = list_curve(8, record, b"abcdefgh")
    checks.equal(group, "a listing ignores the mark", answer, Answer(None, 2, bytes([0, 0, 0, 0, 1, 0]) + b"gh"))
    for side, expected in (2, None), (64, None), (65, 11):
        record = curve([side - 1] * 12, 1, 200)
        answer = checks.draw(group, side, record, bytes(side**3))
        checks.equal(group, f"side {side}", answer.refusal, expected)
        checks.equal(group, f"side {side}, last byte", answer.lent[-1], 0 if expected else 200)
        checks.equal(group, f"side {side}, listing", list_curve(side, record, bytes(6)).refusal, expected)
    for n, expected in (512, (None, 513)), (513, (13, None)):
        record = curve(on_axis(2, (0, 63, 0, 63)), n, 1)
        checks.equal(group, f"n = {n}", checks.draw(group, 64, record, bytes(64**3))[:2], expected)
    longer = checks.draw(group, 64, curve([0] * 12, 1, 1), bytes(64**3 + 1))
    checks.equal(group, "a grid one byte longer", longer.refusal, 21)
    everywhere = patch(grid_of_points(lambda i, j: (21 * i, 21 * j, 63 - 21 * i)), 256, 256, 7)
    checks.equal(group, "the largest patch", checks.draw(group, 64, everywhere, bytes(64**3))[:2], (None, 66049))


ZERO, QUARTER, HALF, ONE, NOT_A_NUMBER = 0, 0x3E800000, 0x3F000000, 0x3F800000, 0x7FC00000
SMALLEST = 0x00000001


def check_swatches(checks):
    """Cells of swatches, their refusals, and the slip of rounding the product."""
    group = "swatches"
    checks.equal(group, "side 2, v = 0.5", swatch_cell(2, Grey(HALF)), (None, (0, 0, 0)))
    checks.equal(group, "side 3, v = 0.25", swatch_cell(3, Grey(QUARTER)), (None, (0, 0, 0)))
    checks.equal(group, "side 3, next above 0.25", swatch_cell(3, Grey(QUARTER + 1)), (None, (1, 1, 1)))
    checks.equal(group, "red, green, blue", swatch_cell(3, Rgb(ZERO, HALF, ONE)), (None, (0, 1, 2)))
    checks.equal(group, "minus zero", swatch_cell(64, Rgb(MINUS_ZERO, SMALLEST, ONE)), (None, (0, 0, 63)))
    for side in range(2, 65):
        checks.equal(group, f"side {side}, v = 1", swatch_cell(side, Grey(ONE)), (None, (side - 1,) * 3))
    for side, swatch, expected in (
        (1, Grey(NOT_A_NUMBER), 11),
        (65, Grey(ONE), 11),
        (64, Grey(NOT_A_NUMBER), 31),
        (64, Grey(INFINITY), 31),
        (64, Grey(INFINITY | MINUS_ZERO), 31),
        (64, Grey(SMALLEST | MINUS_ZERO), 32),
        (64, Grey(ONE + 1), 32),
        (64, Rgb(ONE + 1, INFINITY, ONE), 32),
        (64, Rgb(ONE, INFINITY, ONE + 1), 31),
        (64, Rgb(ONE, ZERO, ONE + 1), 32),
        (64, Rgb(ONE, ZERO, NOT_A_NUMBER), 31),
    ):
        checks.equal(group, f"{side} {swatch}", swatch_cell(side, swatch), (expected, None))
    bits = 0x3C020821  # the f32 just above 1/126
    checks.equal(group, "v × 63 above the half", channel_coordinate(64, bits), 1)
    checks.equal(group, "v × 63 rounded to f32 is the half", decode(encode(decode(bits) * 63)), Fraction(1, 2))
    dice = random.Random(2)
    for _ in range(300):
        side, bits = dice.randrange(2, 65), dice.choice((dice.randrange(ONE + 1), dice.randrange(QUARTER, ONE + 1)))
        exact = decode(bits) * (side - 1)
        nearest = min(range(side), key=lambda c: (abs(c - exact), c))
        checks.equal(group, f"nearest, side {side} {bits:#x}", channel_coordinate(side, bits), nearest)


def f32(bits):
    """The same f32 as a machine float, and back with `f32_bits`: used to cross-check only."""
    return struct.unpack("<f", struct.pack("<I", bits))[0]


def f32_bits(number):
    """The pattern of a machine float rounded to f32."""
    return struct.unpack("<I", struct.pack("<f", number))[0]


def check_half_way(checks):
    """Half-way swatches: literals, refusal order, the bounds, and a cross-check by machine floats."""
    group = "half-way"
    for a, b, expected in (
        (ZERO, ONE, HALF),
        (MINUS_ZERO, MINUS_ZERO, MINUS_ZERO),
        (MINUS_ZERO, ZERO, ZERO),
        (ZERO, MINUS_ZERO, ZERO),
        (ONE, ONE, ONE),
        (ONE, ONE - 1, ONE),
        (ONE - 1, ONE - 2, ONE - 2),
        (SMALLEST, ZERO, ZERO),
        (SMALLEST, MINUS_ZERO, ZERO),
        (SMALLEST, SMALLEST, SMALLEST),
        (SMALLEST, 2, 2),
        (2, 3, 2),
        (0x00800000, 0x007FFFFF, 0x00800000),
    ):
        checks.equal(group, f"{a:#x} {b:#x}", half_way(Grey(a), Rgb(b, ZERO, ONE))[1].red, expected)
    mixed = half_way(Rgb(ZERO, HALF, ONE), Grey(ONE))
    checks.equal(group, "the three-channel kind", mixed, (None, Rgb(HALF, 0x3F400000, ONE)))
    checks.equal(group, "of two greys", type(half_way(Grey(ZERO), Grey(ONE))[1]), Rgb)
    for first, second, expected in (
        (Rgb(ZERO, ZERO, ONE + 1), Grey(NOT_A_NUMBER), 32),
        (Grey(INFINITY), Grey(ONE + 1), 31),
        (Grey(ONE), Rgb(ONE, SMALLEST | MINUS_ZERO, INFINITY), 32),
        (Grey(ONE), Rgb(ONE, INFINITY, SMALLEST | MINUS_ZERO), 31),
    ):
        checks.equal(group, f"{first} {second}", half_way(first, second), (expected, None))
    checks.equal(group, "the f32 nearest to 1/3", encode(Fraction(1, 3)), 0x3EAAAAAB)
    checks.equal(group, "the f32 nearest to 1/10", encode(Fraction(1, 10)), 0x3DCCCCCD)
    dice = random.Random(3)
    for _ in range(1000):
        a = dice.randrange(ONE + 1)
        b = dice.choice((dice.randrange(ONE + 1), min(ONE, max(0, a + dice.randrange(-(3 << 23), 3 << 23)))))
        found = half_way_channel(a, b)
        checks.equal(group, f"floats {a:#x} {b:#x}", found, f32_bits(f32(f32_bits(f32(a) + f32(b))) * 0.5))
        checks.equal(group, f"between {a:#x} {b:#x}", min(a, b) <= found <= max(a, b), True)
        wide = dice.randrange(INFINITY)
        checks.equal(group, f"decode {wide:#x}", decode(wide | MINUS_ZERO), Fraction(f32(wide | MINUS_ZERO)))
        checks.equal(group, f"encode {wide:#x}", encode(decode(wide)), wide)


def machine_channels(h, s, v):
    """A hue's channels by machine floats, each operation rounded to f32."""
    k = int(f32(h))

    def rounded(number):
        return f32(f32_bits(number))

    f = rounded(f32(h) - k)
    p = rounded(f32(v) * rounded(1 - f32(s)))
    q = rounded(f32(v) * rounded(1 - rounded(f32(s) * f)))
    r = rounded(f32(v) * rounded(1 - rounded(f32(s) * rounded(1 - f))))
    v = f32(v)
    return tuple(map(f32_bits, ((v, r, p), (q, v, p), (p, v, r), (p, q, v), (r, p, v), (v, p, q))[k]))


SIX = 0x40C00000


def check_hues(checks):
    """Hues: their channels, refusals in turn, and a cross-check by machine floats."""
    group = "hues"
    whole = [encode(Fraction(k)) for k in range(6)]
    pure = ((1, 0, 0), (1, 1, 0), (0, 1, 0), (0, 1, 1), (0, 0, 1), (1, 0, 1))
    for hue, expected in zip(whole, pure, strict=True):
        checks.equal(group, f"pure {hue:#x}", swatch_cell(2, Hsv(hue, ONE, ONE)), (None, expected))
        checks.equal(group, f"grey {hue:#x}", channels(Hsv(hue, ZERO, QUARTER)), Rgb(QUARTER, QUARTER, QUARTER))
        checks.equal(group, f"half {hue:#x}", channels(Hsv(hue, HALF, ONE)), Rgb(*(ONE if x else HALF for x in expected)))
    checks.equal(group, "minus zero", channels(Hsv(MINUS_ZERO, HALF, ONE)), Rgb(ONE, HALF, HALF))
    checks.equal(group, "value minus zero", channels(Hsv(ONE, HALF, MINUS_ZERO)), Rgb(*[MINUS_ZERO] * 3))
    checks.equal(group, "just below 6", channels(Hsv(SIX - 1, ONE, ONE)), Rgb(ONE, ZERO, 0x35000000))
    for swatch, expected in (
        (Hsv(SIX, ZERO, ZERO), 33),
        (Hsv(SMALLEST | MINUS_ZERO, INFINITY, ZERO), 33),
        (Hsv(INFINITY, ONE + 1, ZERO), 31),
        (Hsv(NOT_A_NUMBER, INFINITY, ZERO), 31),
        (Hsv(ZERO, ONE + 1, INFINITY), 32),
        (Hsv(ZERO, INFINITY, ONE + 1), 31),
        (Hsv(ZERO, ONE, ONE + 1), 32),
        (Hsv(SIX - 1, ONE, NOT_A_NUMBER), 31),
    ):
        checks.equal(group, f"{swatch}", swatch_cell(64, swatch), (expected, None))
        checks.equal(group, f"11 {swatch}", swatch_cell(1, swatch), (11, None))
        checks.equal(group, f"first {swatch}", half_way(swatch, Grey(INFINITY)), (expected, None))
        checks.equal(group, f"second {swatch}", half_way(Grey(ONE), swatch), (expected, None))
    # v - v × s is a half here, and v × (1 - s + s × f) is 0x3F666667
    checks.equal(group, "v × (1 - s)", channels(Hsv(ZERO, 0x3ED55555, 0x3F5B6DB7)).blue, HALF + 1)
    checks.equal(group, "v × (1 - s × (1 - f))", channels(Hsv(HALF, 0x3E4CCCCD, ONE)).green, 0x3F666666)
    dice = random.Random(4)
    for _ in range(2000):
        value = dice.choice((dice.randrange(ONE + 1), dice.randrange(QUARTER, ONE)))
        w = Hsv(dice.choice((dice.randrange(SIX), dice.randrange(ONE, SIX))), dice.randrange(ONE + 1), value)
        checks.equal(group, f"floats {w}", tuple(channels(w)), machine_channels(*w))


SAMPLE_SHEET = (
    b"    4\n"
    b"    7    3    0    0    0    1    0    0    2    0    0    3    0    0\n"
)
SAMPLE_LISTING = (
    b"    X    Y    Z MARK\n"
    b"    0    0    0    7\n"
    b"    1    0    0    7\n"
    b"    2    0    0    7\n"
    b"    3    0    0    7\n"
)


def check_sheet(checks):
    """The sample sheet and the empty input byte for byte, fields, lines, and the sheet call's buffer."""
    group = "sheet"
    checks.equal(group, "the sample sheet", sheet_output(SAMPLE_SHEET), SAMPLE_LISTING)
    checks.equal(group, "the empty input", sheet_output(b""), b"REFUSED   41    1\n")
    checks.equal(group, "a side alone", sheet_output(b"   40\n"), b"    X    Y    Z MARK\n")
    for field, digits in (
        (b"    0", b"0"), (b"   10", b"10"), (b"12345", b"12345"), (b"     ", b""), (b"   01", b""), (b"00000", b""),
        (b"1    ", b""), (b"  1 2", b""), (b"   -1", b""), (b"   +1", b""), (b"\t   1", b""), (b"  1.0", b""),
        (b"   1\r", b""), (b"   1\0", b""), (b"   1", b""), (b"     1", b""), (b"", b""),
    ):  # fmt: skip
        checks.equal(group, f"field {field!r}", read_field(field), digits)
    good = format_line(7, 3, 0, 0, 0, 1, 0, 0, 2, 0, 0, 3, 0, 0)
    long_steps = format_line(7, 2, 0, 0, 0, 1, 0, 0, 2, 0, 0, 3, 0, 0)
    side = b"    4\n"
    for text, refusal, line in (
        (b"\n", 41, 1),
        (b"    4", 41, 1),
        (b"   4\n", 41, 1),
        (b"     4\n", 41, 1),
        (b"    4\r\n", 41, 1),
        (b"4    \n", 42, 1),
        (b"     \n", 42, 1),
        (b"   4\r\n", 42, 1),
        (b"    0\n", 11, 1),
        (b"    1\n", 11, 1),
        (b"   41\n", 43, 1),
        (b"   64\n", 43, 1),
        (b"   65\n", 11, 1),
        (b"99999\n", 11, 1),
        (b"    1\n" + long_steps, 11, 1),
        (side + b"\n", 41, 2),
        (side + b" ", 41, 2),
        (side + good[:-1], 41, 2),
        (side + good + b"\n", 41, 3),
        (side + good[:-1] + b" ", 41, 2),
        (side + good[1:], 41, 2),
        (side + b" " + good, 41, 2),
        (side + good[:-2] + b"x\n", 42, 2),
        (side + good[:35] + b"\r" + good[36:], 42, 2),
        (side + format_line(0, 3, *[9] * 11) + good, 41, 2),
        (side + format_line(0, 0, *[99999] * 12).replace(b"    0", b"   00"), 42, 2),
        (side + format_line(0, 0, *[99999] * 12), 12, 2),
        (side + format_line(256, 0, *[99999] * 12), 12, 2),
        (side + format_line(255, 0, *[99999] * 12), 13, 2),
        (side + format_line(255, 513, *[99999] * 12), 13, 2),
        (side + format_line(255, 512, *[0] * 11, 256), 14, 2),
        (side + format_line(255, 512, *[0] * 11, 4), 14, 2),
        (side + long_steps, 15, 2),
        (side + good + long_steps + b"\n", 15, 3),
        (side + good * 200 + b"\n", 44, 202),
        (side + good * 200 + b"x", 44, 202),
        (side + good * 201, 44, 202),
        (side + good * 199 + long_steps + b"x", 15, 201),
    ):
        expected = b"REFUSED%5d%5d\n" % (refusal, line)
        label = f"{len(text)} bytes, {text[-80:]!r}"
        checks.equal(group, label, sheet_output(text), expected)
        checks.equal(group, f"totals, {label}", totals_output(text), expected)
        held = bytes([5]) * 64000
        checks.equal(group, label, draw_sheet(text, held), refused_sheet(refusal, line, held))
    answer = checks.sheet(group, "the sample sheet", SAMPLE_SHEET, bytes([5]) * 64000)
    expected = SheetAnswer(None, None, 4, 1, 4, bytes([7] * 4 + [0] * 60 + [5] * 63936))
    checks.equal(group, "the sample sheet's buffer", answer, expected)
    answer = checks.sheet(group, "200 curve lines", side + good * 200, bytes(64000))
    checks.equal(group, "200 curve lines", answer[:5], (None, None, 4, 200, 4))
    for length in 0, 63999, 64001:
        held = bytes([5]) * length
        checks.equal(group, f"buffer {length}", draw_sheet(b"", held), refused_sheet(21, 0, held))
    over = side + good + format_line(12, 1, *[1, 0, 0] * 4) + format_line(255, 1, *[3, 3, 3] * 4)
    expected = SAMPLE_LISTING.replace(b"    1    0    0    7\n", b"    1    0    0   12\n") + b"    3    3    3  255\n"
    checks.equal(group, "lines in turn", sheet_output(over), expected)
    points = (0, 0, 1), (0, 1, 0), (1, 0, 0)
    order = side + b"".join(format_line(mark, 1, *point * 4) for mark, point in enumerate(points, 1))
    expected = HEADING + b"    1    0    0    3\n    0    1    0    2\n    0    0    1    1\n"
    checks.equal(group, "rising byte place", sheet_output(order), expected)


SAMPLE_TOTALS = (
    b"         7         4         6         0         0\n"
    b"         0        60        90        96        96\n"
)


def check_totals(checks):
    """The sample sheet's totals byte for byte, marks without a cell, no unmarked cell, and the sums over all lines."""
    group = "totals"
    checks.equal(group, "the sample sheet", totals_output(SAMPLE_SHEET), SAMPLE_TOTALS)
    checks.equal(group, "the empty input", totals_output(b""), b"REFUSED   41    1\n")
    for side, only in (
        (2, b"         0         8         4         4         4\n"),
        (40, b"         0     64000   1248000   1248000   1248000\n"),
        (64, b"         0    262144   8257536   8257536   8257536\n"),
    ):
        checks.equal(group, f"unmarked, side {side}", totals(side, bytes(side**3)), only)
        full = b"       255" + only[10:] + b"         0" * 5 + b"\n"
        checks.equal(group, f"255 everywhere, side {side}", totals(side, bytes([255]) * side**3), full)
    over = SAMPLE_SHEET + format_line(200, 3, *on_axis(0, (0, 1, 2, 3))) + format_line(19, 1, *[1, 2, 3] * 4)
    expected = (
        b"        19         1         1         2         3\n"
        b"       200         4         6         0         0\n"
        b"         0        59        89        94        93\n"
    )
    checks.equal(group, "a mark without a cell, falling marks", totals_output(over), expected)
    dice = random.Random(5)
    for number in range(60):
        side = dice.choice((2, 3, 4, 5, 8, 13, 17, 40))
        marks = bytes(dice.randrange(256) for _ in range(dice.choice((1, 2, 3, 30, 1000))))
        cube = bytes(dice.choice(marks) for _ in range(side**3))
        lines = totals(side, cube).splitlines(keepends=True)
        table = [[int(line[at : at + 10]) for at in range(0, 50, 10)] for line in lines]
        checks.equal(group, f"cube {number}, 51 bytes a line", {*map(len, lines)}, {51})
        checks.equal(group, f"cube {number}, marks", [mark for mark, *_ in table], [*sorted({*cube} - {0}), 0])
        for mark, count, *_ in table:
            checks.equal(group, f"cube {number}, count of {mark}", count, cube.count(mark))
        sums = [sum(column) for column in zip(*table, strict=True)]
        checks.equal(group, f"cube {number}, sums over all lines", sums[1:], [side**3, *[side**3 * (side - 1) // 2] * 3])


def check_new_cells(checks):
    """Counts of new cells, which wrong ways of counting do not give; the sums of sheets, which are drawn over."""
    group = "new cells"
    line = [0, 3, 0, 2, 3, 0, 5, 3, 0, 7, 3, 0]
    across = [3, 0, 0, 3, 2, 0, 3, 5, 0, 3, 7, 0]  # 8 cells as well, of which (3, 3, 0) is in both
    half = bytes([0, 6] * 256)  # marked where x is odd
    plane = grid_of_points(lambda i, j: ((0, 2, 5, 7)[i], (0, 2, 5, 7)[j], 0))
    drawn = draw(8, curve(line, 21, 9), bytes(512)).lent
    for label, record, grid, new, wrong in (
        ("a line", curve(line, 21, 9), bytes(512), 8, (22, 8, 7, 22, 14)),
        ("over itself", curve(line, 21, 9), drawn, 0, (22, 0, 0, 0, 22)),
        ("over itself, another mark", curve(line, 21, 8), drawn, 0, (22, 8, 0, 0, 22)),
        ("under itself, another mark", curve(line, 21, 8, UNDER), drawn, 0, (22, 22, 0, 0, 22)),
        ("across", curve(across, 21, 9), drawn, 7, (22, 7, 6, 19, 15)),
        ("across, another mark", curve(across, 21, 8), drawn, 7, (22, 8, 6, 19, 15)),
        ("under, across, another mark", curve(across, 21, 8, UNDER), drawn, 7, (22, 10, 6, 19, 15)),
        ("a full grid", curve(line, 21, 9), bytes([255]) * 512, 0, (22, 8, 0, 0, 22)),
        ("under a full grid", curve(line, 21, 9, UNDER), bytes([255]) * 512, 0, (22, 22, 0, 0, 22)),
        ("every second byte", curve(line, 21, 9), half, 4, (22, 8, 3, 11, 18)),
        ("under every second byte", curve(line, 21, 9, UNDER), half, 4, (22, 15, 3, 11, 18)),
        ("one cell", curve([5] * 12, 512, 9), bytes(512), 1, (513, 1, 0, 513, 512)),
        ("one cell, under", curve([5] * 12, 512, 9, UNDER), bytes(512), 1, (513, 1, 0, 513, 512)),
        ("there and back", curve(on_axis(1, (0, 3, 3, 0)), 9, 9), bytes(512), 3, (10, 3, 2, 10, 7)),
        ("a plane", patch(plane, 21, 21, 9), bytes(512), 64, (484, 64, 56, 484, 420)),
        ("a plane over the line", patch(plane, 21, 21, 9), drawn, 56, (484, 56, 49, 418, 428)),
        ("a plane under the line", patch(plane, 21, 21, 8, UNDER), drawn, 56, (484, 122, 49, 418, 428)),
        ("a plane over every second byte", patch(plane, 21, 21, 9), half, 32, (484, 64, 24, 242, 452)),
        ("one cell, a patch", patch([5] * 48, 16, 16, 9), bytes(512), 1, (289, 1, 0, 289, 288)),
    ):
        answer = checks.draw(group, 8, record, grid)
        found = wrong_counts(8, record, grid)
        checks.equal(group, label, answer[:3], (None, prod(n + 1 for n in record.counts), new))
        checks.equal(group, f"{label}, wrong counts", tuple(found.values()), wrong)
    for number, record in (12, curve(line, 21, 0)), (13, curve(line, 513, 9)), (15, curve(line, 1, 9)):
        checks.equal(group, f"{number}", draw(8, record, bytes(512)), DrawAnswer(number, None, None, bytes(512)))
    stroke, cell = format_line(7, 3, *on_axis(0, (0, 1, 2, 3))), format_line(9, 1, *[0] * 12)
    for label, strokes, new in (
        ("no line", [], 0),
        ("a line twice", [stroke, stroke], 4),
        ("a last line that adds nothing", [stroke, cell], 4),
        ("a first line that the second covers", [cell, stroke], 4),
        ("no overlap", [format_line(k, 3, *[0, k, 0, 1, k, 0, 2, k, 0, 3, k, 0]) for k in (1, 2, 3)], 12),
    ):
        for held in 0, 7, 255:
            text = format_line(4) + b"".join(strokes)
            answer = checks.sheet(group, label, text, bytes([held]) * BUFFER_LENGTH)
            checks.equal(group, f"{label}, bytes {held}", answer[:5], (None, None, 4, len(strokes), new))
    dice = random.Random(8)
    under_differs = 0
    for number in range(60):
        side = dice.randrange(2, 41 if number % 2 else 8)
        records = (random_record(dice, side) for _ in range(dice.randrange(1, 20)))
        strokes = [r for r in records if len(r.counts) == 1 and drawing_refusal(side, r, side**3) is None]
        text = format_line(side) + b"".join(format_line(r.mark, *r.counts, *r.coordinates) for r in strokes)
        answers = [checks.sheet(group, f"sheet {number}", text, bytes([held]) * BUFFER_LENGTH) for held in (0, 9)]
        sums = [answer.new for answer in answers]
        over, under = (
            run([(side, record._replace(choice=choice)) for record in strokes], bytes(side**3))[-1]
            for choice in (OVER, UNDER)
        )
        marked = set().union(*(places(side, record) for record in strokes))
        checks.equal(group, f"sheet {number}, sums", sums, [len(marked)] * 2)
        checks.equal(group, f"sheet {number}, before and after", sums[0], side**3 - unmarked(over))
        checks.equal(group, f"sheet {number}, over", {answer.buffer[: side**3] for answer in answers}, {over})
        under_differs += over != under
    checks.equal(group, f"20 sheets or more that under would change: {under_differs}", under_differs >= 20, True)


def check_choices(checks):
    """Over and under on the same bytes, and what wrong drawings leave; listings and refusals that ignore the choice."""
    group = "over and under"
    held = bytes([0, 6, 12, 9, 0, 0, 255, 1])
    row_of_8 = on_axis(0, (0, 2, 5, 7))
    for rest in 0, 9, 77:
        grid = held + bytes([rest]) * 504
        for record in curve(row_of_8, 21, 9), patch(as_patch(row_of_8), 21, 3, 9):
            for choice, right, wrong in (
                (OVER, [9] * 8, {"under": [9, 6, 12, 9, 9, 9, 255, 1]}),
                (UNDER, [9, 6, 12, 9, 9, 9, 255, 1], {
                    "over": [9] * 8,
                    "over smaller marks": [9, 9, 12, 9, 9, 9, 255, 9],
                    "over its own mark alone": [0, 6, 12, 9, 0, 0, 255, 1],
                }),
            ):  # fmt: skip
                chosen = record._replace(choice=choice)
                answer = checks.draw(group, 8, chosen, grid)
                expected = DrawAnswer(None, prod(n + 1 for n in record.counts), 3, bytes(right) + grid[8:])
                checks.equal(group, f"{choice}, the rest {rest}", answer, expected)
                expected = {way: bytes(left) + grid[8:] for way, left in wrong.items()}
                checks.equal(group, f"{choice}, the rest {rest}, wrongly", wrong_grids(8, chosen, grid), expected)
    full = bytes([3]) * 512
    for record in curve(row_of_8, 21, 9, UNDER), patch(as_patch(row_of_8), 21, 3, 9, UNDER):
        checks.equal(group, "under a full grid", checks.draw(group, 8, record, full).lent, full)
        again = checks.draw(group, 8, record._replace(mark=8), checks.draw(group, 8, record, bytes(512)).lent)
        checks.equal(group, "under itself", again.lent, bytes([9] * 8 + [0] * 504))
    line, across = on_axis(0, (0, 1, 2, 3)), [2, 0, 0, 2, 1, 0, 2, 2, 0, 2, 3, 0]  # of which (2, 0, 0) is in both
    for first, second in product((OVER, UNDER), repeat=2):
        grids = run([(4, curve(line, 3, 5, first)), (4, curve(across, 3, 6, second))], bytes(64))
        shared = 6 if second == OVER else 5
        expected = bytes([5, 5, shared, 5, 0, 0, 6, 0, 0, 0, 6, 0, 0, 0, 6, 0] + [0] * 48)
        checks.equal(group, f"two lines, {first} and {second}", grids[-1], expected)
    for name, points, n, _, refusal in K1_TO_K11:
        record = curve(on_axis(1, points), n, 9, UNDER)
        listed = list_curve(8, record, bytes([77]) * 60)
        checks.equal(group, f"{name}, listing", listed, list_curve(8, with_other_choice(record), bytes([77]) * 60))
        checks.equal(group, f"{name}, drawing", checks.draw(group, 8, record, bytes(512)).refusal, refusal)
    checks.equal(group, "a sheet's line", line_curve(format_line(9, 3, *line)), curve(line, 3, 9, OVER))


def near_quitting(dice, side):
    """The points of a random curve, and a step count within 2 of three times its largest gap.

    On each axis some gap is the largest; the others are any up to it, or about as large and in the same direction, which
    makes for long steps.
    """
    straight = side > 3 and dice.random() < 0.5
    largest = max(dice.randrange(2), dice.randrange((side - 1) // (3 if straight else 1) + 1))
    widest = dice.randrange(3)
    axes = []
    for axis in range(3):
        pair, gap = dice.randrange(3), largest if axis == widest else dice.randrange(largest + 1)
        if straight:
            by = [gap if k == pair else max(0, gap - dice.choice((0, 0, 1, 2))) for k in range(3)]
            controls = [sum(by[:k]) for k in range(4)]
        else:
            controls = [dice.randrange(gap + 1) for _ in range(4)]
            controls[pair : pair + 2] = 0, gap
        low = dice.randrange(side - max(controls))
        axes.append([low + c for c in controls[:: dice.choice((1, -1))]])
    points = [c for point in zip(*axes) for c in point]
    return points, max(1, 3 * largest + dice.choice((-2, -1, -1, -1, 0, 0, 1, 2)))


def check_quitting(checks):
    """Where the test of a curve quits, by name and at random, and that it is then right; wrong tests told apart."""
    group = "the test that quits"
    walked = "K5", "K7", "K10, n = 8"
    for axis, (name, points, n, _, refusal) in product(range(3), K1_TO_K11):
        expected = CheckAnswer(refusal, None if refusal else name not in walked)
        checks.equal(group, f"{name}, axis {axis}", check_curve(8, curve(on_axis(axis, points), n, 0)), expected)
    refused, quit_so, walks = CheckAnswer(15, None), CheckAnswer(None, True), CheckAnswer(None, False)
    for points, n, expected in (
        ((0, 1, 2, 3), 3, quit_so), ((0, 1, 2, 3), 2, refused), ((3, 2, 1, 0), 3, quit_so), ((3, 2, 1, 0), 2, refused),
        ((0, 0, 0, 6), 18, quit_so), ((0, 0, 0, 6), 17, walks), ((0, 0, 0, 6), 16, refused),
        ((5, 5, 5, 5), 1, quit_so), ((5, 5, 5, 5), 512, quit_so), ((0, 0, 0, 1), 2, walks), ((0, 0, 0, 1), 3, quit_so),
        ((0, 63, 63, 63), 189, quit_so), ((0, 63, 63, 63), 188, walks), ((63, 63, 0, 0), 189, quit_so),
        ((63, 63, 0, 0), 188, walks), ((0, 63, 0, 63), 189, quit_so), ((0, 63, 0, 63), 188, walks),
        ((0, 21, 42, 63), 63, quit_so), ((0, 21, 42, 63), 62, refused),
    ):  # fmt: skip
        for axis in range(3):
            found = check_curve(64, curve(on_axis(axis, points), n, 0))
            checks.equal(group, f"{points}, n = {n}, axis {axis}", found, expected)
    for side, points, n, number in (
        (1, [0] * 12, 1, 11), (65, [5] * 12, 1, 11), (8, [5] * 12, 0, 13), (8, [5] * 12, 513, 13), (8, [8] * 12, 1, 14),
        (8, on_axis(1, (5, 6, 7, 8)), 3, 14), (8, on_axis(2, (8, 8, 8, 8)), 512, 14), (1, [9] * 12, 513, 11),
    ):  # fmt: skip
        record = curve(points, n, 0)
        checks.equal(group, f"refused though it would quit, {number}", quits(record), True)
        checks.equal(group, f"{number}, side {side}, {record}", check_curve(side, record), CheckAnswer(number, None))
        checks.equal(group, f"{number} not tried", wrong_checks(side, record)["before 11, 13 and 14"], quit_so)
    for way, axis, points, n, right, wrong in (
        ("two times the gap", 0, (0, 1, 2, 3), 2, refused, quit_so),
        ("two times the gap", 0, (0, 0, 0, 6), 16, refused, quit_so),
        ("two times the gap", 0, (0, 0, 0, 6), 17, walks, quit_so),
        ("four times the gap", 0, (0, 1, 2, 3), 3, quit_so, walks),
        ("below n", 0, (0, 1, 2, 3), 3, quit_so, walks),
        ("n modulo 256", 0, (0, 1, 2, 3), 256, quit_so, walks),
        ("points 0 and 3 alone", 0, (0, 3, 3, 0), 7, refused, quit_so),
        ("points 0 and 3 alone", 0, (0, 3, 3, 0), 8, walks, quit_so),
        ("points 0 and 3 alone", 0, (0, 1, 2, 3), 3, quit_so, walks),
        ("points 0 and 1 left out", 0, (0, 2, 2, 2), 1, refused, quit_so),
        ("points 1 and 2 left out", 0, (0, 0, 2, 2), 1, refused, quit_so),
        ("points 2 and 3 left out", 0, (0, 0, 0, 2), 1, refused, quit_so),
        ("rising gaps alone", 0, (3, 2, 1, 0), 2, refused, quit_so),
        ("falling gaps alone", 0, (0, 1, 2, 3), 2, refused, quit_so),
        ("the largest gap minus the smallest", 0, (0, 1, 2, 3), 2, refused, quit_so),
        ("x left out", 0, (0, 1, 2, 3), 2, refused, quit_so),
        ("y left out", 1, (0, 1, 2, 3), 2, refused, quit_so),
        ("z left out", 2, (0, 1, 2, 3), 2, refused, quit_so),
        ("one axis is enough", 0, (0, 1, 2, 3), 2, refused, quit_so),
        ("told after a walk", 0, (0, 0, 0, 6), 17, walks, quit_so),
        ("not told", 0, (0, 1, 2, 3), 3, quit_so, walks),
    ):
        record = curve(on_axis(axis, points), n, 0)
        found = check_curve(8, record), wrong_checks(8, record)[way]
        checks.equal(group, f"{way}, {points}, n = {n}", found, (right, wrong))
    dice = random.Random(9)
    answered, told = Counter(), Counter()
    for _ in range(600):
        side = dice.choice((2, 3, 4, 8, 13, 20))
        points, n = near_quitting(dice, side)
        record = curve(points, n, 0)
        answer, gap = check_curve(side, record), max(abs(points[k] - points[k + 3]) for k in range(9))
        checks.equal(group, f"from three times the gap on, {record}", quits(record), n >= 3 * gap)
        checks.equal(group, f"the rule itself, {record}", quits_by(record), quits(record))
        checks.equal(group, f"no long step where it quits, {record}", quits(record) and steps_too_long(record), False)
        checks.equal(group, f"from the other end, {record}", check_curve(side, flip(record)), answer)
        answered[answer] += 1
        told.update(way for way, wrong in wrong_checks(side, record).items() if wrong != answer)
    often = {answer for answer, count in answered.items() if count >= 60}
    checks.equal(group, f"each answer 60 times or more: {answered}", often, {quit_so, walks, refused})
    few = {way: told[way] for way in WRONG_RULES if told[way] < 15 and way != "n modulo 256"}
    checks.equal(group, f"wrong rules told apart by 15 curves or more: {told}", few, {})


def check_chosen(checks):
    """Chosen counts by name, of all small curves of one axis and at random, and the draw call; wrong ways told apart."""
    group = "chosen counts"
    k_counts = {"K1": 3, "K2": 3, "K3": 3, "K4": 3, "K5": 1, "K6": 5, "K7": 17, "K8": 17, "K9": 1, "K10": 1, "K11": 1}
    for axis in range(3):
        for name, points, n, _, _ in K1_TO_K11:
            record = curve(on_axis(axis, points), n, 9)
            expected = k_counts[name.split(",")[0]]
            checks.equal(group, f"{name}, axis {axis}", choose_steps(8, record), CountAnswer(None, expected))
        for points, expected in (
            ((0, 0, 0, 6), 17), ((6, 0, 0, 0), 17), ((5, 5, 5, 5), 1), ((0, 0, 3, 0), 1), ((0, 0, 0, 1), 1),
            ((0, 21, 42, 63), 63), ((63, 42, 21, 0), 63), ((0, 63, 63, 63), 188), ((63, 63, 63, 0), 188),
        ):  # fmt: skip
            found = choose_steps(64, curve(on_axis(axis, points), 0, 0))
            checks.equal(group, f"{points}, axis {axis}", found, CountAnswer(None, expected))
    accepted = [n for n in range(1, 10) if not refuses_count(tuple(on_axis(0, (0, 0, 3, 0))), n)]
    checks.equal(group, "0 0 3 0, the accepted counts", accepted, [1, 7, 8, 9])
    # A step is linear in the points, so its largest size with coordinates up to 63 is that of a curve of 0 and 63.
    corners = [tuple(on_axis(0, points)) for points in product((0, 63), repeat=4)]
    checks.equal(group, "188 steps, side 64", any(refuses_count(points, 188) for points in corners), False)
    largest = Counter()
    for points in product(range(7), repeat=4):
        coordinates = tuple(on_axis(0, points))
        rule = [steps_too_long(curve(coordinates, n, 0)) for n in range(1, enough(coordinates) + 1)]
        counts = [refuses_count(coordinates, n) for n in range(1, enough(coordinates) + 1)]
        checks.equal(group, f"the curve rule, {points}", counts, rule)
        checks.equal(group, f"the first accepted, {points}", rule.index(False) + 1, chosen_count(coordinates))
        largest["three gaps" if chosen_count(coordinates) == enough(coordinates) else "less"] += 1
        largest["refused again"] += True in rule[rule.index(False) :]
    checks.equal(group, f"each kind 100 times or more: {largest}", min(largest.values()) >= 100, True)
    for way, points, right, wrong in (
        ("up from 2", (5, 5, 5, 5), 1, 2),
        ("up from 2", (0, 0, 3, 0), 1, 7),
        ("up from the largest gap", (0, 0, 3, 0), 1, 7),
        ("up from one above the distance of the ends", (0, 1, 2, 3), 3, 4),
        ("the distance of the ends unexamined", (0, 0, 0, 6), 17, 6),
        ("three gaps unexamined", (0, 0, 0, 6), 17, 18),
        ("three gaps less one unexamined", (0, 1, 2, 3), 3, 2),
        ("0 if all points agree", (5, 5, 5, 5), 1, 0),
        ("down from three gaps to a refusal", (0, 3, 3, 0), 1, 8),
        ("by halves", (0, 0, 3, 0), 1, 7),
        ("one axis is enough", (0, 1, 2, 3), 3, 1),
        ("the last of several steps left out", (0, 0, 0, 6), 17, 2),
        ("the first of several steps left out", (6, 0, 0, 0), 17, 2),
        ("the first and the last step alone", (0, 0, 6, 6), 9, 4),
        ("exactly one cell apart refused", (0, 1, 2, 3), 3, 4),
        ("cells for values", (0, 0, 0, 6), 17, 13),
    ):
        coordinates = tuple(on_axis(2, points))
        found = chosen_count(coordinates), wrong_searches(coordinates)[way]
        checks.equal(group, f"{way}, {points}", found, (right, wrong))
    back, back_at_2, line_of_3, curve_of_2 = (0, 0, 3, 0), (2, 0, 6, 2), (0, 1, 2, 3), (0, 0, 0, 2)
    for axes, right, ways in (
        # x alone accepts 1, y alone 3, which x refuses; both accept 7.
        ((back, line_of_3, [5] * 4), 7, {
            "x left out": 3, "y left out": 1, "z left out": 7, "the largest of the axes' own": 3,
            "each axis once, in turn": 3, "each axis once, from the distance of the ends": 7,
        }),
        # The first accepts 2, the second 5 and no less, which the first refuses; both accept 9.
        ((back_at_2, curve_of_2, [5] * 4), 9, {
            "the largest of the axes' own": 5, "each axis once, from the distance of the ends": 5,
            "each axis again only if z moved": 5, "each axis again only if y moved": 9,
        }),
        ((back_at_2, [5] * 4, curve_of_2), 9, {
            "each axis once, from the distance of the ends": 5, "each axis again only if z moved": 9,
            "each axis again only if y moved": 5,
        }),
        ((curve_of_2, back_at_2, [5] * 4), 9, {
            "the largest of the axes' own": 5, "each axis once, from the distance of the ends": 9,
        }),
    ):  # fmt: skip
        coordinates = tuple(c for point in zip(*axes) for c in point)
        found = wrong_searches(coordinates)
        checks.equal(group, f"axes {axes}", chosen_count(coordinates), right)
        checks.equal(group, f"axes {axes}, wrong ways", {way: found[way] for way in ways}, ways)
    held = bytes(range(256)) * 2
    gap, outside = on_axis(0, (0, 0, 0, 7)), on_axis(1, (0, 0, 0, 8))
    for n, choice in product((0, 1, 512, 513, 4294967295), (OVER, UNDER)):
        for side, grid, coordinates, mark, expected in (
            (1, held + b"x", outside, 0, 11),
            (65, held, outside, 0, 11),
            (4294967295, held, outside, 0, 11),
            (0, b"", outside, 0, 11),
            (8, held + b"x", outside, 0, 21),
            (8, held[:-1], outside, 0, 21),
            (8, held, outside, 0, 12),
            (8, held, outside, 1, 14),
            (8, held, [255] * 12, 255, 14),
        ):
            record = curve(coordinates, n, mark, choice)
            answer = draw_chosen(side, record, grid)
            checks.equal(group, f"draw {side} {len(grid)} {record}", answer, DrawAnswer(expected, None, None, grid))
            counted = choose_steps(side, record).refusal
            checks.equal(group, f"count {side} {record}", counted, 14 if expected in (12, 21) else expected)
        record = curve(gap, n, 7, choice)
        answer = draw_chosen(8, record, held)
        checks.equal(group, f"draw, n = {n}", answer, draw(8, curve(gap, 20, 7, choice), held))
        checks.equal(group, f"laws, n = {n}", broken_chosen_laws(8, record, held, answer), [])
        checks.equal(group, f"count, n = {n}", choose_steps(8, record._replace(mark=0)), CountAnswer(None, 20))
    start = bytes(512)
    call = 8, Chosen(curve(on_axis(0, (0, 1, 2, 3)), 1, 9))
    checks.equal(group, "demand 3", demand_3([call], [start, bytes([9] * 4) + start[4:]]), True)
    for label, row_of_4 in ("drawn with its own n", [9, 0, 0, 9]), ("one step left out", [9, 9, 9, 0]):
        checks.equal(group, f"demand 3, {label}", demand_3([call], [start, bytes(row_of_4) + start[4:]]), False)
    checks.equal(group, "demand 3, nothing drawn", demand_3([call], [start, start]), False)
    dice = random.Random(10)
    told, refused = Counter(), Counter()
    for number in range(60):
        side = dice.choice((2, 3, 4, 8, 13, 20))
        calls = []
        for _ in range(6):
            record = random_record(dice, side)
            chosen_too = len(record.counts) == 1 and dice.random() < 0.9
            calls.append((dice.choice((1, side, side, side, side)), Chosen(record) if chosen_too else record))
        grids = run(calls, random_grid(dice, side))
        checks.equal(group, f"list {number}", demand_3(calls, grids), True)
        for k, (called, chosen) in enumerate(calls):
            if isinstance(chosen, Chosen):
                record, grid = chosen.record, grids[k]
                answer = draw_chosen(called, record, grid)
                checks.equal(group, f"list {number}, call {k}", broken_chosen_laws(called, record, grid, answer), [])
                checks.equal(group, f"list {number}, call {k}, grid", answer.lent, grids[k + 1])
                counted, back = choose_steps(called, record), choose_steps(called, flip(record))
                checks.equal(group, f"list {number}, call {k}, from the other end", back, counted)
                if answer.refusal is None:
                    checks.equal(group, f"list {number}, call {k}, count", answer.count, counted.steps + 1)
                refused[answer.refusal] += 1
                told.update(chosen_told_apart(called, record, grid, answer))
    checks.equal(group, f"every answer: {refused}", {*refused}, {None, 11, 12, 14})
    ways = [way for way in (*WRONG_SEARCHES, *WRONG_OWN, *WRONG_CHOICES) if way not in SELDOM_WRONG]
    few = {way: told[way] for way in ways if told[way] < 2}
    checks.equal(group, f"wrong ways told apart by 2 calls or more: {told}", few, {})


def check_flips(checks):
    """Flips by name, K3 and K4 with the cells of either document, and every call with random records and their flips."""
    group = "flips"
    numbered = range(12)
    turned = curve((9, 10, 11, 6, 7, 8, 3, 4, 5, 0, 1, 2), 7, 9, UNDER)
    checks.equal(group, "a curve", flip(curve(numbered, 7, 9, UNDER)), turned)
    exchanged = [3 * k + axis for k in (0, 4, 8, 12, 1, 5, 9, 13, 2, 6, 10, 14, 3, 7, 11, 15) for axis in range(3)]
    checks.equal(group, "a patch", flip(patch(range(48), 7, 8, 9, UNDER)), patch(exchanged, 8, 7, 9, UNDER))
    known = {name: expected for name, _, _, expected, _ in K1_TO_K11}
    checks.equal(group, "K3 and K4, document 02", known["K4"], known["K3"][::-1])
    checks.equal(group, "K3 and K4, document 01", (3, 3, 2, 2, 1, 1, 0) == known["K3"][::-1], False)
    for axis in range(3):
        k3, k4 = (curve(on_axis(axis, points), 6, 9) for points in ((0, 1, 2, 3), (3, 2, 1, 0)))
        checks.equal(group, f"K3's flip is K4, axis {axis}", (flip(k3), flip(k4)), (k4, k3))
        checks.equal(group, f"K3 and K4, axis {axis}", [*calls_apart(8, k3, k4, bytes(512), bytes(21))], [])
    dice = random.Random(12)
    refused, told, halves = Counter(), Counter(), Counter()
    for number in range(900):
        side = dice.choice((2, 3, 4, 5, 8, 13))
        record = random_record(dice, side)
        if number % 4 < 2:  # points near one another and even counts, which make for samples on a half; some counts are 0
            parameters = 1 + number % 2
            coordinates = tuple(dice.randrange(min(side, 4)) for _ in range(3 * 4**parameters))
            counts = tuple(2 * dice.randrange(6) for _ in range(parameters))
            record = Record(coordinates, counts, 1 + number % 255, dice.choice((OVER, UNDER)))
        called = dice.choice((0, 1, 65, side + 1)) if dice.randrange(20) == 0 else side
        grid, lent = random_grid(dice, side), dice.randbytes(dice.choice((3, 30, 90, 180)))
        label, parameters = f"{number}, side {called}, {record}", len(record.counts)
        checks.equal(group, f"twice, {label}", flip(flip(record)), record)
        apart = [*calls_apart(called, record, flip(record), grid, lent)]
        checks.equal(group, f"calls that do not agree, {label}", apart, [])
        refusal = draw(called, record, grid).refusal
        refused[parameters, refusal] += 1
        if refusal is None:
            there, back = samples(record), samples(flip(record))
            others = {at: (record.counts[0] - at[0],) if parameters == 1 else at[::-1] for at in there}
            checks.equal(group, f"samples, {label}", there, {at: back[other] for at, other in others.items()})
            halves[parameters] += has_half(record)
        if parameters == 1:
            refused["listing", list_curve(called, record, lent).refusal] += 1
        for way, wrong in wrong_flips(record).items():
            told.update((parameters, way, call) for call in calls_apart(called, record, wrong, grid, lent))
    drawn, listed = {None, 11, 21, 12, 13, 14, 15}, {None, 11, 13, 22, 14, 15}
    for kind, expected in (1, drawn), (2, drawn), ("listing", listed):
        found = {number for which, number in refused if which == kind}
        checks.equal(group, f"every answer: {refused}", found, expected)
    checks.equal(group, f"50 curves and 50 patches or more with a half: {halves}", min(halves[1], halves[2]) >= 50, True)
    for parameters, ways in WRONG_FLIPS.items():
        for way in ways:
            same, seen = way in THE_SAME_SAMPLES[parameters], told[parameters, way, "drawing"]
            checks.equal(group, f"{way} seen by drawings: {told}", seen == 0 if same else seen >= 15, True)
            if parameters == 1:
                checks.equal(group, f"{way} seen by listings: {told}", told[1, way, "listing"] >= 15, True)


def from_cell_to_cell(here, there, n=1, mark=9, choice=OVER):
    """A curve from one cell to another, which it leaves and comes to without speed."""
    return curve([*here, *here, *there, *there], n, mark, choice)


PATHS_OF_K = {"K1": 4, "K3": 4, "K4": 4, "K5": 2, "K7": 7, "K9": 5, "K10, n = 8": 5, "K11": 1}  # on one axis


def check_path_samples(checks):
    """Paths by name: from a cell to each one beside it, K1 to K11, and the order of refusals."""
    group = "paths"
    for there, expected in (
        ((2, 1, 1), [(1, 1, 1), (2, 1, 1)]),
        ((1, 0, 1), [(1, 1, 1), (1, 0, 1)]),
        ((1, 1, 2), [(1, 1, 1), (1, 1, 2)]),
        ((2, 2, 1), [(1, 1, 1), (2, 1, 1), (2, 2, 1)]),
        ((0, 1, 2), [(1, 1, 1), (0, 1, 1), (0, 1, 2)]),
        ((1, 0, 0), [(1, 1, 1), (1, 0, 1), (1, 0, 0)]),
        ((2, 2, 2), [(1, 1, 1), (2, 1, 1), (2, 2, 1), (2, 2, 2)]),
        ((0, 0, 0), [(1, 1, 1), (0, 1, 1), (0, 0, 1), (0, 0, 0)]),
        ((0, 2, 0), [(1, 1, 1), (0, 1, 1), (0, 2, 1), (0, 2, 0)]),
        ((1, 1, 1), [(1, 1, 1)]),
    ):
        record = from_cell_to_cell((1, 1, 1), there)
        checks.equal(group, f"to {there}", [*path_cells(record).values()], expected)
        for n in 3, 5, 13:  # an odd count has no sample on a half, and all axes move in the same step
            checks.equal(group, f"to {there}, n = {n}", [*path_cells(record._replace(counts=(n,))).values()], expected)
    for there in product(range(3), repeat=3):
        record = from_cell_to_cell((1, 1, 1), there)
        answer = checks.draw_path(group, 3, record, bytes(27))
        axes = sum(c != 1 for c in there)
        checks.equal(group, f"to {there}, answer", answer[:3], (None, 1 + axes, 1 + axes))
        back = draw_path(3, flip(record), bytes(27)).lent
        checks.equal(group, f"to {there} and from there", back == answer.lent, axes < 2)
    held = bytes([77]) * 60
    for name, points, n, _, refusal in K1_TO_K11:
        for axes in "x", "y", "z", "xyz":
            record = curve([g if axis in axes else 0 for g in points for axis in "xyz"], n, 9)
            drawn, listed = checks.draw_path(group, 8, record, bytes(512)), list_path(8, record, held)
            answer = None if refusal else 1 + (PATHS_OF_K[name] - 1) * len(axes)
            checks.equal(group, f"{name}, {axes}, drawing", drawn[:2], (refusal, answer))
            checks.equal(group, f"{name}, {axes}, listing", listed[:2], (refusal, answer))
            kept = held if refusal else held[3 * answer :]
            checks.equal(group, f"{name}, {axes}, the rest of the list", listed.lent[-len(kept) :], kept)
            if refusal is None and len(axes) == 1:
                checks.equal(group, f"{name}, {axes}, as the curve's", drawn.lent, draw(8, record, bytes(512)).lent)
    gap, outside = on_axis(0, (0, 0, 0, 7)), on_axis(0, (0, 0, 0, 8))
    for side, length, coordinates, n, expected in (
        (1, 0, outside, 0, 11),
        (65, 0, outside, 0, 11),
        (8, 0, outside, 0, 13),
        (8, 0, outside, 513, 13),
        (8, 0, outside, 1, 14),
        (8, 0, gap, 1, 15),
        (8, 5, [0] * 9 + [1, 0, 0], 1, 22),
        (8, 6, [0] * 9 + [1, 0, 0], 1, None),
        (8, 11, [0] * 9 + [1, 1, 1], 1, 22),
        (8, 12, [0] * 9 + [1, 1, 1], 1, None),
        (8, 2, [0] * 12, 512, 22),
        (8, 3, [0] * 12, 512, None),
    ):
        record, lent = curve(coordinates, n, 0), bytes(range(50, 50 + length))
        answer = list_path(side, record, lent)
        checks.equal(group, f"list {side} {length} {record}", answer.refusal, expected)
        if expected:
            checks.equal(group, f"list {side} {length} {record}, kept", answer.lent, lent)
        for number in (11, 13, 14, 15):
            if expected == number:
                told = [*wrong_path_listings(side, record, lent, answer)]
                checks.equal(group, f"22 before {number}, {record}", f"22 before {number}" in told, True)
    for order, n, mark, length, coordinates in (
        (21, 0, 0, 511, outside), (12, 0, 0, 512, outside), (13, 513, 9, 512, outside), (14, 1, 9, 512, outside),
        (15, 1, 9, 512, gap), (None, 512, 9, 512, gap),
    ):  # fmt: skip
        grid = bytes(range(256)) * 2
        answer = checks.draw_path(group, 8, curve(coordinates, n, mark), grid[:length])
        checks.equal(group, f"draw, {order}", answer.refusal, order)
    # x and y of sample 2 are 94/27, those of sample 3 are 5/2, whose cell is 2.
    steep = curve([c for g in (5, 4, 1, 0) for c in (g, g, 0)], 6, 9)
    checks.equal(group, "an inserted cell further off than one", path_reach(steep), Fraction(40, 27))


def path_reach(record):
    """The largest distance on an axis of an inserted cell from the sample before it, 0 without any."""
    return max(
        (
            abs(Fraction(*exact) - c)
            for each in path(record)
            if each.inserted
            for exact, c in zip(samples(record)[each.sample,], each.cell, strict=True)
        ),
        default=Fraction(0),
    )


def random_path(dice, side):
    """A random curve, now and then with a fault."""
    record = random_record(dice, side)
    while len(record.counts) > 1:
        record = random_record(dice, side)
    return record


def check_paths(checks):
    """Random paths, drawn and listed, held to their laws; wrong ways told apart; from the other end."""
    group = "paths"
    dice = random.Random(13)
    answered, told, reach = Counter(), Counter(), Fraction(0)
    for number in range(700):
        side = dice.choice((2, 3, 4, 5, 8, 13, 20))
        record = random_path(dice, side)
        called = dice.choice((0, 1, 65, side + 1)) if dice.randrange(25) == 0 else side
        grid = random_grid(dice, side)
        answer = checks.draw_path(group, called, record, grid)
        answered["drawing", answer.refusal] += 1
        told.update(("drawing", way) for way in wrong_path_drawings(called, record, grid, answer))
        n = record.counts[0] if record.counts[0] < 600 else 1
        needed = 3 * len(path(record._replace(counts=(max(n, 1),))))
        lent = dice.randbytes(dice.choice((needed, needed, needed + 5, needed - 1, 3 * n + 3, 9 * n + 3, 9 * n + 2)))
        listed = list_path(called, record, lent)
        answered["listing", listed.refusal] += 1
        told.update(("listing", way) for way in wrong_path_listings(called, record, lent, listed))
        other = list_path(called, with_other_choice(record)._replace(mark=record.mark ^ 1), lent)
        checks.equal(group, f"mark and choice ignored {record}", other, listed)
        short = len(lent) < needed and list_path(called, record, bytes(needed)).refusal is None
        checks.equal(group, f"22 {record}", listed.refusal == 22, short)
        if answer.refusal is None:
            told.update(told_apart(called, record, grid, answer, path_cells))
            reach = max(reach, path_reach(record))
            back = draw_path(called, flip(record), grid)
            checks.equal(group, f"from the other end, as many cells {record}", back[:2], answer[:2])
            backwards = [*path_cells(flip(record)).values()][::-1]
            by_z_first = along_path(row(cells(record)), moves_by("z", "y", "x"))
            checks.equal(group, f"from the other end, z first {record}", backwards, by_z_first)
            checks.other_end[back.lent == answer.lent] += 1
        else:
            checks.equal(group, f"kept {record}", (answer.lent, draw_path(called, flip(record), grid)), (grid, answer))
    found = checks.other_end
    checks.equal(group, f"from the other end, both 50 times or more: {found}", min(found[False], found[True]) >= 50, True)
    checks.equal(group, f"inserted cells further off than one: {reach}", 1 < reach <= Fraction(3, 2), True)
    for call, order in PATH_ORDERS.items():
        expected = {None, *(number for number in order if number != 21)}
        found = {number for which, number in answered if which == call} - {21}
        checks.equal(group, f"every answer: {answered}", found, expected)
        orders = WRONG_PATH_ORDERS[call]
        few = {way: told[call, way] for way in WRONG_PATH_WAYS[call] if way not in orders and told[call, way] < 10}
        checks.equal(group, f"wrong ways told apart by 10 {call}s or more: {told}", few, {})
    few = {way: told[way] for way in WRONG_WAYS if told[way] < 5}
    checks.equal(group, f"wrong counts and grids told apart by 5 drawings or more: {told}", few, {})


def check_paths_in_lists(checks):
    """Demand 3 for lists with paths among curves, patches and chosen counts, and what it does not let pass."""
    group = "demand 3, paths"
    dice = random.Random(14)
    kinds = Counter()
    for number in range(200):
        side = dice.choice((2, 3, 4, 5, 8, 13, 20))
        calls = []
        for _ in range(dice.randrange(1, 9)):
            called = dice.choice((0, 1, 65, side + 1)) if dice.randrange(8) == 0 else side
            record = random_record(dice, side)
            kind = dice.choice((Path, Path, Chosen, lambda record: record)) if len(record.counts) == 1 else lambda r: r
            calls.append((called, kind(record)))
        start = random_grid(dice, side)
        grids = run(calls, start)
        checks.equal(group, f"list {number}", demand_3(calls, grids), True)
        news = 0
        for k, (called, which) in enumerate(calls):
            answer = drawn_by(called, which, grids[k])
            news += answer.new or 0
            if isinstance(which, Path):
                checks.draw_path(group, called, which.record, grids[k])
                kinds[which.record.choice, answer.refusal] += 1
        checks.equal(group, f"list {number}, new cells", news, unmarked(start) - unmarked(grids[-1]))
    for choice in OVER, UNDER:
        found = {number for which, number in kinds if which == choice}
        checks.equal(group, f"every answer, {choice}: {kinds}", found, {None, 11, 21, 12, 13, 14, 15})
        checks.equal(group, f"80 accepted or more, {choice}: {kinds}", kinds[choice, None] >= 80, True)
    # From (0, 0, 0) by (1, 0, 0) to (1, 1, 0): bytes 0, 1 and 3 of a cube of side 2.
    step = from_cell_to_cell((0, 0, 0), (1, 1, 0), mark=9)
    right = [PathCell((0, 0, 0), 0, False), PathCell((1, 0, 0), 0, True), PathCell((1, 1, 0), 1, False)]
    start, drawn = bytes(8), bytes([9, 9, 0, 9, 0, 0, 0, 0])
    checks.equal(group, "a step on two axes", draw_path(2, step, start), DrawAnswer(None, 3, 3, drawn))
    others = bytes([0, 0, 7, 0, 0, 0, 0, 5])
    for label, choice, before, after, holds in (
        ("as it is", OVER, start, drawn, True),
        ("a corner left open", OVER, start, bytes([9, 0, 0, 9, 0, 0, 0, 0]), False),
        ("y first", OVER, start, bytes([9, 0, 9, 9, 0, 0, 0, 0]), False),
        ("both ways", OVER, start, bytes([9, 9, 9, 9, 0, 0, 0, 0]), False),
        ("the last cell left out", OVER, start, bytes([9, 9, 0, 0, 0, 0, 0, 0]), False),
        ("nothing drawn", OVER, start, start, False),
        ("another mark in the inserted cell", OVER, start, bytes([9, 8, 0, 9, 0, 0, 0, 0]), False),
        ("over", OVER, others, bytes([9, 9, 7, 9, 0, 0, 0, 5]), True),
        ("over an inserted cell", OVER, bytes([0, 7]) + start[2:], drawn, True),
        ("over as under", OVER, bytes([0, 7]) + start[2:], bytes([9, 7, 0, 9, 0, 0, 0, 0]), False),
        ("under an inserted cell", UNDER, bytes([0, 7]) + start[2:], bytes([9, 7, 0, 9, 0, 0, 0, 0]), True),
        ("under as over", UNDER, bytes([0, 7]) + start[2:], drawn, False),
        ("under, an inserted cell left out", UNDER, start, bytes([9, 0, 0, 9, 0, 0, 0, 0]), False),
    ):
        calls = [(2, Path(step._replace(choice=choice)))]
        checks.equal(group, label, demand_3(calls, [before, after]), holds)
    full = [bytes([9]) * 27] * 2
    for label, found, holds in (
        ("its own path", right, True),
        ("without the inserted cell", [right[0], right[2]], False),
        ("the inserted cell called a sample's", [right[0], right[1]._replace(inserted=False), right[2]], False),
        ("an inserted cell too far off", [right[0], PathCell((2, 0, 0), 0, True), right[2]], False),
        ("an inserted cell counted from the sample after it", [right[0], right[1]._replace(sample=1), right[2]], True),
        ("a cell twice", [right[0], right[0], *right[1:]], False),
        ("a cell for a sample that stays", [*right, right[2]], False),
    ):
        checks.equal(group, label, demand_3([(3, Path(step))], full, path_of=lambda record: found), holds)
    checks.equal(group, "a curve's own cells are no path", demand_3([(2, Path(step))], run([(2, step)], start)), False)
    checks.equal(group, "a path is more than a curve's cells", demand_3([(2, step)], run([(2, Path(step))], start)), False)


STRIP_COUNTS = 0, 1, 64, 65, 256, 257, 512, 513
STRIP_REFUSALS = {  # of a side by itself, and of a count by itself, by the number of parameters
    "side": {0: 11, 1: 11, 2: None, 3: None, 16: None, 17: None, 18: 23, 19: 23, 63: 23, 64: 23, 65: 11, 4294967295: 11},
    1: dict(zip(STRIP_COUNTS, (13, None, None, 24, 24, 24, 24, 13))),
    2: dict(zip(STRIP_COUNTS, (13, None, None, 24, 24, 13, 13, 13))),
}


def beside_each_other(parameters, n=1, mark=9, choice=OVER, m=1):
    """A curve or a patch from cell 0 to the one beside it on all axes."""
    ends = [c for i in range(4) for c in [i // 2] * 3]
    return patch(as_patch(ends), n, m, mark, choice) if parameters == 2 else curve(ends, n, mark, choice)


def check_strip_samples(checks):
    """The strip by name: its bounds, each pair of numbers, K1 to K12 as on the main path."""
    group = "the strip"
    after = {11: 23, 13: 24}
    built = [number for n in PATH_ORDERS["drawing"] for number in (n, after.get(n)) if number]
    checks.equal(group, "the order, from a drawing's", built, [*STRIP_ORDER])
    for side, n in product(STRIP_REFUSALS["side"], STRIP_COUNTS):
        record, grid = beside_each_other(1, n), bytes(side**3 if side < 65 else 8)
        of_side = STRIP_REFUSALS["side"][side]
        expected = of_side or STRIP_REFUSALS[1][n]
        checks.equal(group, f"side {side}, n = {n}", draw_strip(side, record, grid).refusal, expected)
        for m in STRIP_COUNTS:
            refused = {STRIP_REFUSALS[2][n], STRIP_REFUSALS[2][m]}
            expected = of_side or next((number for number in (13, 24) if number in refused), None)
            answer = draw_strip(side, beside_each_other(2, n, m=m), grid)
            checks.equal(group, f"side {side}, n = {n}, m = {m}", answer.refusal, expected)
    held = bytes(range(256)) * 20
    gap, outside = [0] * 9 + [0, 0, 2], [0] * 9 + [0, 255, 255]
    for expected, side, length, n, m, mark, points in (
        (11, 1, 0, 0, 0, 0, outside), (11, 65, 0, 513, 513, 0, outside), (11, 65, 0, 65, 65, 0, outside),
        (23, 18, 0, 0, 0, 0, outside), (23, 18, 5832, 513, 513, 0, outside), (23, 64, 8, 65, 65, 9, gap),
        (23, 64, 8, 1, 1, 9, gap), (21, 17, 4912, 0, 0, 0, outside), (21, 17, 4914, 65, 65, 0, outside),
        (21, 2, 4913, 65, 65, 9, gap), (12, 17, 4913, 0, 0, 0, outside), (12, 17, 4913, 65, 65, 0, outside),
        (12, 17, 4913, 1, 1, 0, gap), (13, 17, 4913, 0, 65, 9, outside), (13, 17, 4913, 513, 65, 9, outside),
        (13, 17, 4913, 0, 1, 9, gap), (24, 17, 4913, 65, 1, 9, outside), (24, 17, 4913, 65, 64, 9, outside),
        (24, 17, 4913, 65, 1, 9, gap), (14, 17, 4913, 64, 64, 9, outside), (14, 17, 4913, 1, 1, 9, outside),
        (15, 17, 4913, 1, 1, 9, gap), (None, 17, 4913, 64, 64, 9, gap), (None, 17, 4913, 6, 6, 9, gap),
    ):  # fmt: skip
        grid = (held * 2)[:length]
        for record in curve(points, n, mark), patch(as_patch(points), n, m, mark):
            answer = draw_strip(side, record, grid)
            checks.equal(group, f"{side} {length} {record}", answer.refusal, expected)
            checks.equal(group, f"laws {side} {length} {record}", broken_strip_laws(side, record, grid, answer), [])
    for n, m, expected in (0, 65, 13), (65, 0, 13), (257, 65, 13), (65, 257, 13), (65, 65, 24), (1, 65, 24), (65, 1, 24):
        answer = draw_strip(2, beside_each_other(2, n, m=m), bytes(8))
        checks.equal(group, f"13 and 24, n = {n}, m = {m}", answer.refusal, expected)
    for axis, (name, points, n, _, refusal) in product(range(3), K1_TO_K11):
        record = curve(on_axis(axis, points), n, 9)
        answer = draw_strip(8, record, held[:512])
        checks.equal(group, f"{name}, axis {axis}", (answer, answer.refusal), (draw(8, record, held[:512]), refusal))
        checks.equal(group, f"{name}, side 18", draw_strip(18, record, bytes(5832)).refusal, 23)
        checks.equal(group, f"{name}, 65 steps", draw_strip(8, record._replace(counts=(65,)), bytes(512)).refusal, 24)
    k12 = patch(on_axis(0, K12), 4, 4, 9)
    checks.equal(group, "K12", draw_strip(8, k12, bytes(512)), draw(8, k12, bytes(512)))
    for way, side, record, wrong in (
        ("side 17 refused", 17, beside_each_other(1), 23),
        ("side 18 taken", 18, beside_each_other(1), None),
        ("64 steps refused", 2, beside_each_other(1, 64), 24),
        ("65 steps taken", 2, beside_each_other(1, 65), None),
        ("24 by n alone", 2, beside_each_other(2, m=65), None),
        ("24 by m alone", 2, beside_each_other(2, 65), None),
        ("24 by the smaller count", 2, beside_each_other(2, 65), None),
        ("24 by the number of steps", 2, beside_each_other(2, 13, m=5), 24),
        ("11 in place of 23", 64, beside_each_other(1), 11),
        ("13 in place of 24", 2, beside_each_other(1, 512), 13),
        ("23 left out", 64, beside_each_other(1), None),
        ("24 left out", 2, beside_each_other(1, 512), None),
        ("23 before 11", 65, beside_each_other(1), 23),
        ("24 before 13", 2, beside_each_other(1, 513), 24),
        ("24 before 13", 2, beside_each_other(2, 65, m=0), 24),
    ):
        found = strip_refused_by(side, record, side**3, **WRONG_STRIPS[way])
        right = strip_refusal(side, record, side**3)
        checks.equal(group, f"{way}, {record}", (found, found == right), (wrong, False))


def random_strip_record(dice, side):
    """A random record, in every third case with a count near 64."""
    record = random_record(dice, side)
    if dice.randrange(3) == 0:
        counts, which = list(record.counts), dice.randrange(len(record.counts))
        counts[which] = dice.choice((63, 64, 65, 66, 128, 256, 257))
        record = record._replace(counts=tuple(counts))
    return record


def check_strip(checks):
    """The strip at random, beside the main path; wrong ways told apart."""
    group = "the strip"
    dice = random.Random(15)
    answered, told = Counter(), Counter()
    for _ in range(900):
        side = dice.choice((2, 3, 5, 8, 13, 16, 17, 18, 19))
        record = random_strip_record(dice, side)
        called = dice.choice((0, 1, 65, side + 1)) if dice.randrange(25) == 0 else side
        grid = random_grid(dice, side)
        answer = draw_strip(called, record, grid)
        checks.equal(group, f"laws of {record}", broken_strip_laws(called, record, grid, answer), [])
        refusal = strip_refused_by(called, record, len(grid))
        checks.equal(group, f"the order itself, {record}", refusal, answer.refusal)
        parameters = len(record.counts)
        answered[parameters, answer.refusal] += 1
        told.update((parameters, way) for way in wrong_strips(called, record, len(grid), answer))
    for parameters in 1, 2:
        found = {number for which, number in answered if which == parameters} | {21}
        checks.equal(group, f"every answer: {answered}", found, {None, *STRIP_ORDER})
        ways = [way for way in WRONG_BOUNDS if parameters == 2 or way not in OF_PATCHES]
        few = {way: told[parameters, way] for way in ways if told[parameters, way] < 3}
        checks.equal(group, f"wrong bounds told apart by 3 calls or more: {told}", few, {})


def check_strip_in_lists(checks):
    """Demand 3 for lists with the strip's drawings among others, which leave the grid that the main path leaves."""
    group = "demand 3, the strip"
    dice = random.Random(16)
    kinds = Counter()
    for number in range(120):
        side = dice.choice((2, 3, 5, 8, 13, 17, 18))
        calls = []
        for _ in range(dice.randrange(1, 9)):
            called = dice.choice((0, 1, 65, side + 1)) if dice.randrange(12) == 0 else side
            record = random_strip_record(dice, side)
            calls.append((called, dice.choice((Strip, Strip, lambda record: record))(record)))
        start = random_grid(dice, side)
        grids = run(calls, start)
        checks.equal(group, f"list {number}", demand_3(calls, grids), True)
        drawn = [accepted_object(called, which, len(start)) for called, which in calls]
        accepted = [(side, record) for record in drawn if record is not None]
        checks.equal(group, f"list {number}, drawn on the main path", run(accepted, start)[-1] == grids[-1], True)
        for (_, which), record in zip(calls, drawn):
            if isinstance(which, Strip):
                kinds[which.record.choice, len(which.record.counts), record is not None] += 1
    found = min(kinds[kind] for kind in product((OVER, UNDER), (1, 2), (True, False)))
    checks.equal(group, f"each kind 8 times or more: {kinds}", found >= 8, True)
    line_of_4, start = curve(on_axis(0, (0, 1, 2, 3)), 3, 9), bytes(64)
    drawn = bytes([9] * 4) + start[4:]
    for label, side, record, after, holds in (
        ("as on the main path", 4, line_of_4, drawn, True),
        ("nothing drawn", 4, line_of_4, start, False),
        ("one cell left out", 4, line_of_4, bytes([9, 9, 9, 0]) + start[4:], False),
        ("65 steps drawn", 4, line_of_4._replace(counts=(65,)), drawn, False),
        ("65 steps not drawn", 4, line_of_4._replace(counts=(65,)), start, True),
    ):
        checks.equal(group, label, demand_3([(side, Strip(record))], [start, after]), holds)


def check_demand_3_can_fail(checks):
    """Document 01's impostors and slips are seen by the checks of demand 3, and strokes that go under wrongly."""
    group = "demand 3, impostors"
    start, full_of_9 = bytes([50]) * 512, bytes([9]) * 512
    k1, k2 = (8, curve(on_axis(0, (0, 1, 2, 3)), 3, 9)), (8, curve(on_axis(0, (0, 1, 2, 3)), 2, 9))
    k12 = (8, patch(on_axis(0, K12), 4, 4, 9))
    drawn = run([k1], start)[1]
    checks.equal(group, "K1's grid", drawn, bytes([9] * 4 + [50] * 508))
    checks.equal(group, "K1 as it is", demand_3([k1], [start, drawn]), True)
    checks.equal(group, "K12 as it is", demand_3([k12], run([k12], start)), True)
    checks.equal(group, "K2 refused", demand_3([k2], [start, start]), True)
    for label, calls, end in (
        ("writing nothing", [k1], start),
        ("marking point 0 for every sample", [k1], bytes([9]) + start[1:]),
        ("one cell past the end", [k1], drawn[:4] + bytes([9]) + drawn[5:]),
        ("another mark", [k1], drawn.replace(b"\x09", b"\x0a")),
        ("clearing a cell", [k1], drawn[:-1] + bytes([0])),
        ("drawing K2", [k2], drawn),
    ):
        checks.equal(group, label, demand_3(calls, [start, end]), False)
    under = (8, k1[1]._replace(choice=UNDER))
    gaps = bytes([0, 50, 0, 9]) + start[4:]
    for label, before, after, holds in (
        ("under marks", start, start, True),
        ("under its own mark", full_of_9, full_of_9, True),
        ("under, gaps filled", gaps, bytes([9, 50, 9, 9]) + start[4:], True),
        ("under an empty grid", bytes(512), bytes([9] * 4 + [0] * 508), True),
        ("under as over", gaps, drawn, False),
        ("under, a gap left", gaps, bytes([9, 50, 0, 9]) + start[4:], False),
        ("under, a gap filled with the mark beside it", gaps, bytes([9, 50, 50, 9]) + start[4:], False),
        ("under, a mark cleared", gaps, bytes([9, 0, 9, 9]) + start[4:], False),
        ("under, one cell past the end", bytes(512), bytes([9] * 5 + [0] * 507), False),
        ("under, writing nothing", bytes(512), bytes(512), False),
    ):
        checks.equal(group, label, demand_3([under], [before, after]), holds)
    checks.equal(group, "over as under", demand_3([k1], [gaps, bytes([9, 50, 9, 9]) + start[4:]]), False)
    slipped = cells_with_row_remainder_dropped(k12[1])
    checks.equal(group, "K12's dropped remainder, half a cell", samples_within_half(k12[1], slipped), False)
    for choice in OVER, UNDER:
        for label, side, record, rule, holds in (
            ("K12's dropped remainder", 8, k12[1], cells_with_row_remainder_dropped, False),
            ("halves to the lower cell", 8, patch(on_axis(0, K12), 3, 6, 9), cells, True),
            ("halves to the even cell", 8, patch(on_axis(0, K12), 3, 6, 9), cells_with_halves_to_even, False),
            ("between rows, down", 3, patch(HALVES_IN_BOTH_ROWS, 2, 1, 9), cells, True),
            ("between rows, up", 3, patch(HALVES_IN_BOTH_ROWS, 2, 1, 9), cells_with_halves_up, True),
            ("between rows, to even", 3, patch(HALVES_IN_BOTH_ROWS, 2, 1, 9), cells_with_halves_to_even, False),
        ):
            grids = [bytes([9]) * side**3] * 2
            found = demand_3([(side, record._replace(choice=choice))], grids, rule)
            checks.equal(group, f"{label}, {choice}", found, holds)
    for label, there, holds in ("a cell left out", (4, 4, 2), False), ("cells side by side", (5, 3, 5), True):
        found = {(0,): (4, 4, 4), (1,): there}
        checks.equal(group, label, neighbours_adjacent(curve([4] * 12, 1, 9), found), holds)
    # K3's sample 1 has the value 1/2, its sample 2 the value 1.
    k3 = curve(on_axis(0, (0, 1, 2, 3)), 6, 9)
    checks.equal(group, "either side of a half", near_coordinates(samples(k3)[1,][0]), [0, 1])
    checks.equal(group, "a whole value", near_coordinates(samples(k3)[2,][0]), [1])


K12_OF_SOLIDS = [i + j + k for i, j, k in product(range(4), repeat=3)]
# Along t at j = 2, k = 1: the cells by the rule, and those by each slip.
ROW_OF_SOLID = [2, 3, 4, 4, 5]
ROWS_BY_SLIPS = {
    cells_with_row_remainder_dropped: [2, 3, 3, 4, 5],
    cells_with_slice_remainder_dropped: [2, 3, 4, 5, 5],
    cells_with_both_remainders_dropped: [2, 3, 3, 4, 5],
    cells_with_halves_up: [2, 3, 4, 5, 5],
    cells_by_figure_4: [2, 3, 4, 4, 5],
}


def long_at_corner(along, corner, axis=0, mark=1, choice=OVER):
    """A solid with one long step, along one parameter at a corner, of 74 / 64; with 5 steps it is 122 / 125.

    One coordinate is 2 t³ u³ v³, or so from another corner; there are 4 steps along the parameter, 5 along others.
    """
    controls = [2 if at == corner else 0 for at in product(range(4), repeat=3)]
    return solid(on_axis(axis, controls), *(4 if p == along else 5 for p in range(3)), mark, choice)


def check_solid_samples(checks):
    """Solids by name: weights, the sibling of K12, the limits of counts, long steps along one parameter alone."""
    group = "solids"
    checks.equal(group, "scale", scale((2, 3, 4)), 13824)
    for number in range(64):
        i, jk = divmod(number, 16)
        j, k = divmod(jk, 4)
        controls = [int(at == number) for at in range(64)]
        expected = (8, 12, 6, 1)[i] * (1, 3, 3, 1)[j] * (27, 27, 9, 1)[k]
        checks.equal(group, f"weight of point {number}", value((3, 2, 4), (1, 1, 1), controls), (expected, 13824))
    for axis in range(3):
        record = solid(on_axis(axis, K12_OF_SOLIDS), 4, 4, 4, 9)
        exact = [Fraction(*samples(record)[i, 2, 1][axis]) for i in range(5)]
        checks.equal(group, f"K12's sibling, axis {axis}, exactly", exact, [Fraction(k, 4) for k in (9, 12, 15, 18, 21)])
        checks.equal(group, f"K12's sibling, axis {axis}", [c[axis] for c in row(cells(record), 2, 1)], ROW_OF_SOLID)
        for along in permutations(range(3)):
            there = [tuple(dict(zip(along, (i, 2, 1)))[p] for p in range(3)) for i in range(5)]
            found = [cells(record)[at][axis] for at in there]
            checks.equal(group, f"K12's sibling, axis {axis}, along {along}", found, ROW_OF_SOLID)
        for slip, expected in ROWS_BY_SLIPS.items():
            found = [cell[axis] for cell in row(slip(record), 2, 1)]
            checks.equal(group, f"K12's sibling, axis {axis}, {slip.__name__}", found, expected)
        answer = checks.draw(group, 16, record, bytes(4096))
        checks.equal(group, f"K12's sibling, axis {axis}, drawing", answer[:3], (None, 125, 10))
    # On all axes at once: figure 4 moves x, then y, then z.
    diagonal = solid([c for c in K12_OF_SOLIDS for _ in range(3)], 4, 4, 4, 9)
    checks.equal(group, "the diagonal", row(cells(diagonal), 2, 1), [(c,) * 3 for c in ROW_OF_SOLID])
    moved = cells_by_figure_4(diagonal)
    checks.equal(group, "figure 4's first row", row(moved, 0, 0), [(0, 0, 0), (1, 0, 0), (1, 1, 0), (1, 1, 1), (2, 1, 1)])
    checks.equal(group, "figure 4, half a cell", samples_within_half(diagonal, moved), False)
    for counts, expected in (
        ((32, 1, 1), None), ((1, 32, 1), None), ((1, 1, 32), None), ((33, 1, 1), 13), ((1, 33, 1), 13), ((1, 1, 33), 13),
        ((0, 1, 1), 13), ((1, 0, 1), 13), ((1, 1, 0), 13), ((33, 33, 33), 13), ((4294967295, 1, 1), 13),
        ((1, 4294967295, 1), 13), ((1, 1, 4294967295), 13), ((256, 256, 256), 13), ((257, 1, 1), 13), ((2, 3, 4), None),
    ):  # fmt: skip
        answer = checks.draw(group, 8, solid([5] * 192, *counts, 3), bytes(512))
        number = None if expected else prod(n + 1 for n in counts)
        checks.equal(group, f"counts {counts}", answer[:2], (expected, number))
        checks.equal(group, f"counts {counts}, check", check_refusal(8, solid([5] * 192, *counts, 0)), expected)
    told = Counter()
    for (along, corner), axis in product(product(range(3), product((0, 3), repeat=3)), range(3)):
        record = long_at_corner(along, corner, axis)
        found, _ = long_steps(record)
        first = [0 if c == 0 else 5 for c in corner]
        first[along] = 0 if corner[along] == 0 else 3
        checks.equal(group, f"one long step along {along} at {corner}", found, [(along, tuple(first), axis)])
        for counts, expected in ((5, 5, 5), None), (record.counts, 15):
            answer = checks.draw(group, 8, record._replace(counts=counts), bytes(512))
            checks.equal(group, f"{corner}, {counts}", answer.refusal, expected)
        told.update(wrong_solid_drawings(8, record, bytes(512), answer))
    few = {way: told[way] for way in WRONG_SOLID_STEPS if told[way] < 6}
    checks.equal(group, f"steps unseen told apart by 6 drawings or more: {told}", few, {})
    line = [i for i, _, _ in product(range(4), repeat=3)]
    for along, axis, (n, expected) in product(range(3), range(3), ((2, 15), (3, None), (4, None))):
        order = [(0, 1, 2), (1, 0, 2), (2, 1, 0)][along]
        record = parameters_in_order(solid(on_axis(axis, line), n, 1, 2, 9), order)
        answer = checks.draw(group, 4, record, bytes(64))
        checks.equal(group, f"K1 along {along}, axis {axis}, n = {n}", answer.refusal, expected)
        told = wrong_solid_drawings(4, record, bytes(64), answer)
        checks.equal(group, f"K1 along {along}, one apart", "exactly one cell apart refused" in told, n == 3)
    everywhere = solid(grid_of_points(lambda i, j, k: (21 * i, 21 * j, 21 * k), 3), 32, 32, 32, 7)
    checks.equal(group, "from corner to corner", checks.draw(group, 64, everywhere, bytes(64**3)).refusal, 15)
    third = solid(grid_of_points(lambda i, j, k: (7 * (i + j + k), 10 * j, 63 - 7 * (i + j + k)), 3), 32, 32, 32, 7)
    checks.equal(group, "the largest", checks.draw(group, 64, third, bytes(64**3))[:2], (None, 35937))


def gaps_along(points):
    """The largest gap between consecutive points of a solid along each parameter, on any axis."""
    gaps = [0, 0, 0]
    for indices in product(range(4), repeat=3):
        at = 3 * (16 * indices[0] + 4 * indices[1] + indices[2])
        for parameter, by in enumerate((48, 12, 3)):
            if indices[parameter] < 3:
                here, there = points[at : at + 3], points[at + by : at + by + 3]
                gaps[parameter] = max(gaps[parameter], *(abs(a - b) for a, b in zip(here, there)))
    return gaps


def random_solid(dice, side, spread=2):
    """A solid with counts about as large as it needs; on each axis free, flat, or alike along one or two parameters."""
    spread = dice.randrange(dice.randrange(2), min(side, spread + 1))
    corner = [dice.randrange(side - spread) for _ in range(3)]
    kept = [dice.choice(((0, 1, 2), (0, 1, 2), (0, 1), (0, 2), (1, 2), (0,), (1,), (2,), ())) for _ in range(3)]
    rolls = [[dice.randrange(spread + 1) for _ in range(64)] for _ in range(3)]

    def coordinate(*indices):
        return [
            corner[axis] + rolls[axis][sum(4**p * indices[p] for p in kept[axis])] for axis in range(3)
        ]

    points = grid_of_points(coordinate, 3)
    fits = [max(1, 3 * gap) for gap in gaps_along(points)]
    counts = [dice.randrange(f, f + 2) if dice.randrange(5) > 1 else dice.randrange(1, f + 1) for f in fits]
    mark, fault = dice.randrange(1, 256), dice.randrange(30)
    if fault == 0:
        points[dice.randrange(192)] = dice.randrange(side, 256)
    if fault == 1:
        counts[dice.randrange(3)] = dice.choice((0, 33, 256, 4294967295))
    if fault == 2:
        mark = 0
    return solid(points, *counts, mark, dice.choice((OVER, UNDER)))


def face(record, parameter, end):
    """The patch that a solid is at one end of a parameter, 0 or 3 of its points."""
    numbers = [
        16 * i + 4 * j + k for i, j, k in product(range(4), repeat=3) if (i, j, k)[parameter] == end
    ]
    counts = record.counts[:parameter] + record.counts[parameter + 1 :]
    return with_points(record, numbers)._replace(counts=counts)


def check_solids(checks):
    """Random solids, held to their laws and to their faces; curves and patches in disguise; wrong ways told apart."""
    group = "solids"
    dice = random.Random(17)
    answered, told, of_half = Counter(), Counter(), Counter()
    for number in range(270):
        side = dice.choice((2, 3, 4, 5, 8, 13))
        record = random_solid(dice, side)
        if number % 3:  # few steps, which makes for long ones along one parameter alone
            record = record._replace(counts=tuple(min(n, dice.randrange(1, 5)) for n in record.counts))
        called = dice.choice((0, 1, 65, side + 1)) if dice.randrange(20) == 0 else side
        grid = random_grid(dice, side)
        answer = checks.draw(group, called, record, grid)
        checks.equal(group, f"laws of {record}", broken_solid_laws(called, record, grid, answer), [])
        refusal = solid_refused_by(called, record, len(grid), SOLID_ORDERS["drawing"])
        checks.equal(group, f"the order itself, {record}", refusal, answer.refusal)
        answered[answer.refusal] += 1
        told.update(wrong_solid_drawings(called, record, grid, answer))
        checked = check_refusal(called, record)
        told.update(("check", way) for way in wrong_solid_refusals(called, record, 0, checked, "check"))
        if answer.refusal is None:
            told.update(told_apart(called, record, grid, answer))
            for way, cells_of in WRONG_SOLID_CELLS.items():
                found = cells_of(record)
                if found.keys() == cells(record).keys():
                    of_half[way] += not samples_within_half(record, found)
            for parameter, end in product(range(3), (0, 3)):
                at = 0 if end == 0 else record.counts[parameter]
                of_face = {
                    indices[:parameter] + indices[parameter + 1 :]: cell
                    for indices, cell in cells(record).items()
                    if indices[parameter] == at
                }
                checks.equal(group, f"face {parameter} {end}", of_face, cells(face(record, parameter, end)))
    checks.equal(group, f"every answer: {answered}", {*answered} | {21}, {None, 11, 21, 12, 13, 14, 15})
    checks.equal(group, f"100 accepted, 40 with a long step: {answered}", answered[None] >= 100 and answered[15] >= 40, True)
    seldom = {*WRONG_SOLID_ORDERS["drawing"], *WRONG_SOLID_LIMITS, *WRONG_SOLID_STEPS, MODULO}
    few = {way: told[way] for way in WRONG_SOLID_WAYS["drawing"] if way not in seldom and told[way] < 3}
    checks.equal(group, f"wrong ways told apart by 3 drawings or more: {told}", few, {})
    few = {way: told[way] for way in WRONG_WAYS if told[way] < 10}
    checks.equal(group, f"wrong counts and grids told apart by 10 drawings or more: {told}", few, {})
    slips = [way for way in WRONG_SOLID_CELLS if "remainder" in way or "figure 4" in way]
    far = {way: count for way, count in of_half.items() if count}
    checks.equal(group, f"more than half a cell off, 5 solids or more: {far}", [way for way in far if far[way] >= 5], slips)


def check_disguises(checks):
    """A solid that is a curve or a patch along some parameters leaves its grid, and has its new cells or refusal."""
    group = "solids in disguise"
    dice = random.Random(18)
    answered = Counter()
    for _ in range(250):
        side = dice.choice((2, 3, 4, 5, 8, 13, 20))
        record = random_record(dice, side)
        while max(record.counts) > 32 and dice.random() < 0.9:
            record = random_record(dice, side)
        grid = random_grid(dice, side)
        right = draw(side, record, grid)
        for along in CURVES_IN_DISGUISE if len(record.counts) == 1 else PATCHES_IN_DISGUISE:
            others = [dice.randrange(1, 4) for _ in range(3 - len(along))]
            hidden = disguised(record, along, others)
            answer = draw(side, hidden, grid)
            number = None if right.refusal else right.count * prod(n + 1 for n in others)
            expected = right._replace(count=number) if max(record.counts) <= 32 else answer
            checks.equal(group, f"along {along}, {others}, {record}", answer, expected)
            if max(record.counts) > 32 and right.refusal in (None, 14, 15):
                checks.equal(group, f"13 along {along}, {record}", answer.refusal, 13)
            if answer.refusal is None:
                found = {tuple(at[p] for p in along): cell for at, cell in cells(hidden).items()}
                checks.equal(group, f"cells along {along}, {record}", found, cells(record))
            answered[along, record.choice, answer.refusal is None] += 1
    kinds = product(CURVES_IN_DISGUISE + PATCHES_IN_DISGUISE, (OVER, UNDER), (True, False))
    few = {kind: answered[kind] for kind in kinds if answered[kind] < 3}
    checks.equal(group, f"each kind 3 times or more: {answered}", few, {})


def check_solids_in_lists(checks):
    """Demand 3 for lists with solids among other drawings, and what it does not let pass."""
    group = "demand 3, solids"
    dice = random.Random(19)
    kinds = Counter()
    for number in range(60):
        side = dice.choice((2, 3, 4, 5, 8, 13))
        calls = []
        for _ in range(dice.randrange(1, 7)):
            called = dice.choice((0, 1, 65, side + 1)) if dice.randrange(8) == 0 else side
            record = random_solid(dice, side) if dice.random() < 0.6 else random_record(dice, side)
            calls.append((called, record))
        start = random_grid(dice, side)
        grids = run(calls, start)
        checks.equal(group, f"list {number}", demand_3(calls, grids), True)
        news = 0
        for k, (called, record) in enumerate(calls):
            answer = draw(called, record, grids[k])
            news += answer.new or 0
            if len(record.counts) == 3:
                kinds[record.choice, answer.refusal] += 1
        checks.equal(group, f"list {number}, new cells", news, unmarked(start) - unmarked(grids[-1]))
    for choice in OVER, UNDER:
        found = {number for which, number in kinds if which == choice} | {12, 13}
        checks.equal(group, f"every answer, {choice}: {kinds}", found, {None, 11, 21, 12, 13, 14, 15})
        checks.equal(group, f"20 accepted or more, {choice}: {kinds}", kinds[choice, None] >= 20, True)
    block = solid(grid_of_points(lambda i, j, k: (i, j, k), 3), 3, 3, 3, 9)
    start, full = bytes(64), bytes([9]) * 64
    checks.equal(group, "a block", draw(4, block, start), DrawAnswer(None, 64, 64, full))
    for label, after, holds in (
        ("as it is", full, True),
        ("nothing drawn", start, False),
        ("its first slice alone", bytes([9] * 16 + [0] * 48), False),
        ("its shell alone", bytes(0 if {1, 2} >= {at % 4, at // 4 % 4, at // 16} else 9 for at in range(64)), False),
        ("the last slice left out", bytes([9] * 48 + [0] * 16), False),
        ("another mark within", full[:21] + bytes([8]) + full[22:], False),
    ):
        checks.equal(group, label, demand_3([(4, block)], [start, after]), holds)
    long = block._replace(counts=(3, 3, 2))
    for label, after, holds in ("refused", start, True), ("drawn with a long step along v", full, False):
        checks.equal(group, label, demand_3([(4, long)], [start, after]), holds)
    held = bytes([7]) + bytes(63)
    for choice, first, holds in (OVER, 9, True), (OVER, 7, False), (UNDER, 7, True), (UNDER, 9, False):
        calls = [(4, block._replace(choice=choice))]
        checks.equal(group, f"{choice}, {first}", demand_3(calls, [held, bytes([first]) + full[1:]]), holds)
    diagonal = solid([c for c in K12_OF_SOLIDS for _ in range(3)], 4, 4, 4, 9)
    marked = [bytes([9]) * 1000] * 2
    for cells_of, holds in (
        (cells, True), (cells_with_halves_up, True), (cells_by_figure_4, False),
        (cells_with_row_remainder_dropped, False), (cells_with_slice_remainder_dropped, False),
    ):  # fmt: skip
        for choice in OVER, UNDER:
            found = demand_3([(10, diagonal._replace(choice=choice))], marked, cells_of)
            checks.equal(group, f"{cells_of.__name__}, {choice}", found, holds)


def random_record(dice, side):
    """A curve or patch about as long as its counts allow, now and then with a fault."""
    parameters = 2 if dice.random() < 0.15 else 1
    spread = dice.randrange(min(side, 7 if parameters == 2 else 64))
    corner = [dice.randrange(side - spread) for _ in range(3)]
    coordinates = [corner[k % 3] + dice.randrange(spread + 1) for k in range(3 * 4**parameters)]
    counts = tuple(dice.randrange(1, 3 * spread + 3) for _ in range(parameters))
    mark, choice = dice.randrange(1, 256), dice.choice((OVER, UNDER))
    fault = dice.randrange(30)
    if fault == 0:
        coordinates[dice.randrange(len(coordinates))] = dice.randrange(side, 256)
    if fault == 1:
        counts = counts[1:] + (dice.choice((0, 513, 4294967295)),)
    if fault == 2:
        mark = 0
    return Record(tuple(coordinates), counts, mark, choice)


GRIDS = {  # what a byte of a random grid becomes
    "any": bytes(range(256)),
    "unmarked": bytes(256),
    "half-marked": bytes(byte if byte % 2 else 0 for byte in range(256)),
    "marked": bytes(byte or 1 for byte in range(256)),
}


def random_grid(dice, side):
    """A grid of any bytes, unmarked, about half-marked, or without an unmarked cell."""
    return dice.randbytes(side**3).translate(GRIDS[dice.choice([*GRIDS])])


def check_random_calls(checks):
    """Seeded lists of calls of both choices, each into one cube of any bytes: demand 3, and the laws of each call."""
    group = "demand 3, random calls"
    dice = random.Random(4)
    answered, told, exchange_matters = Counter(), Counter(), 0
    for number in range(120):
        side = dice.choice((2, 3, 4, 5, 8, 13, 17, 33, 64))
        calls = []
        for _ in range(dice.randrange(13)):
            called = dice.choice((0, 1, 65, side + 1)) if dice.randrange(20) == 0 else side
            calls.append((called, random_record(dice, side)))
        start = random_grid(dice, side)
        grids = run(calls, start)
        checks.equal(group, f"list {number}", demand_3(calls, grids), True)
        news = []
        for k, (called, record) in enumerate(calls):
            answer = checks.draw(group, called, record, grids[k])
            news.append(answer.new or 0)
            checks.equal(group, f"list {number}, call {k}, grid", grids[k + 1], answer.lent)
            answered[len(record.counts), record.choice, answer.refusal] += 1
            if answer.refusal is None:
                told.update(told_apart(called, record, grids[k], answer))
        checks.equal(group, f"list {number}, new cells", sum(news), unmarked(start) - unmarked(grids[-1]))
        exchanged = run([(called, with_other_choice(record)) for called, record in calls], start)[-1]
        marked, marked_too = (grid.translate(bytes([0] + [1] * 255)) for grid in (grids[-1], exchanged))
        checks.equal(group, f"list {number}, choices exchanged, the same cells marked", marked == marked_too, True)
        exchange_matters += exchanged != grids[-1]
    checks.equal(group, f"30 lists or more with other marks then: {exchange_matters}", exchange_matters >= 30, True)
    for choice in OVER, UNDER:
        curves, patches = (
            {number: count for (*which, number), count in answered.items() if which == [parameters, choice]}
            for parameters in (1, 2)
        )
        label = f"{choice}, curves {curves}, patches {patches}"
        checks.equal(group, f"every answer: {label}", {*curves, *patches}, {None, 11, 21, 12, 13, 14, 15})
        checks.equal(group, f"150 curves accepted or more: {label}", curves[None] >= 150, True)
        checks.equal(group, f"18 patches accepted or more: {label}", patches[None] >= 18, True)
        checks.equal(group, f"15 for curves and patches: {label}", min(curves[15], patches[15]) >= 10, True)
    few = {way: told[way] for way in WRONG_WAYS if told[way] < 30}
    checks.equal(group, f"wrong ways told apart by 30 calls or more: {told}", few, {})


def self_check():
    """Runs every group; the exit status."""
    checks = Checks()
    for check in (
        check_k1_to_k12,
        check_exact_samples,
        check_cells,
        check_neighbours,
        check_refusals,
        check_swatches,
        check_half_way,
        check_hues,
        check_sheet,
        check_totals,
        check_new_cells,
        check_choices,
        check_quitting,
        check_chosen,
        check_flips,
        check_path_samples,
        check_paths,
        check_paths_in_lists,
        check_strip_samples,
        check_strip,
        check_strip_in_lists,
        check_solid_samples,
        check_solids,
        check_disguises,
        check_solids_in_lists,
        check_demand_3_can_fail,
        check_random_calls,
    ):
        check(checks)
    return checks.close()


if __name__ == "__main__":
    sys.exit(self_check())
