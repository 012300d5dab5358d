"""Writes the stored cases of curves and patches and their expected answers, by the separate model.

`python3 tests/drawing_cases.py` writes crates/drawing_cases/stdin and stdout; with `--check` it writes nothing and exits
with 1 if they are not what it would write; with `--count` it prints how many cases of each letter and choice got each
answer, how many accepted drawings had all, some or none of their cells unmarked, how many accepted listings have a sample
exactly on a half, how many neighbours of the accepted patches have had their cells compared, for how many drawings a wrong
count of new cells is another number or a wrong drawing leaves another grid, for how many curves the test quit, walked, or
would have quit but for another number, to how many a wrong test would give another answer, how many chosen counts are three
times the gap or less, to how many calls a wrong choice would give another answer, how many calls were made with a record
and with its flip, with how many different records and how many that have a sample on a half, how many calls and flips would
show a wrong flip, how many drawings of a path leave another grid from the other end, to how many calls with a path a
wrong way would give another answer, grid or list, and to how many on the strip wrong bounds or another order would give
another answer.  The forms of both are described in crates/drawing_cases/src.
"""

import random
import sys
from collections import Counter
from itertools import combinations, permutations, product
from math import prod

from model import (
    CHESSBOARD, HALVES_IN_BOTH_ROWS, K1_TO_K11, OF_PATCHES, OF_THE_COUNT, OF_THE_DRAWING, OVER, PATH_ORDERS, PATHS_OF_K,
    SELDOM_WRONG, STRIP_COUNTS, STRIP_ORDER, STRIP_REFUSALS, THE_SAME_SAMPLES, UNDER, WRONG_CHECKS, WRONG_CHOSEN,
    WRONG_FLIPS, WRONG_PATH_WAYS, WRONG_STRIPS, WRONG_WAYS, Answer, Chosen, Path, Record, Strip, as_patch,
    beside_each_other, broken_chosen_laws, broken_laws, broken_path_laws, broken_strip_laws, cells,
    cells_with_halves_to_even, cells_with_halves_up, check_curve, check_refusal, choose_steps, chosen_count,
    chosen_told_apart, curve, demand_3, distances_line, draw, draw_chosen, draw_path, draw_strip, enough, flip,
    from_cell_to_cell, grid_of_points, has_half, in_reverse, is_on_half, list_curve, list_path, near_quitting,
    neighbour_distances, on_axis, other_end_line, patch, path, path_cells, place, places, quits, refused_by, refuses_count,
    row, run, samples, steps_too_long, told_apart, unmarked, with_chosen_count, with_other_choice, wrong_checks,
    wrong_flips, wrong_path_drawings, wrong_path_listings, wrong_searches, wrong_strips,
)  # fmt: skip
from stored import BUFFER, BufferCases, answer_record, case_record, holding, malformed, point_numbers, store

NUMBERS, ANSWERS = 22, 5  # in a case, in an answer
CHOICES = OVER, UNDER
LONGEST_LIST = 1539
LARGEST = 4294967295
MARK = 200
FEW_SAMPLES = 200  # of the records with which wrong flips are tried


def curve_checked(side, record, lent):
    """A check of a curve: 1 where the test quit, 0 where it walked."""
    refusal, quit_so = check_curve(side, record)
    return Answer(refusal, int(quit_so) if refusal is None else None, lent)


def patch_checked(side, record, lent):
    """A check of a patch: 0."""
    refusal = check_refusal(side, record)
    return Answer(refusal, 0 if refusal is None else None, lent)


def count_chosen(side, record, lent):
    """The chosen step count of a curve."""
    return Answer(*choose_steps(side, record), lent)


CALLS = {
    "D": draw, "L": list_curve, "C": curve_checked, "P": draw, "Q": patch_checked, "M": count_chosen, "W": draw_chosen,
    "T": draw_path, "U": list_path, "G": draw_strip, "H": draw_strip,
}  # fmt: skip
ON_PATCHES, DRAWINGS, CHOOSING, WITH_PATHS, ON_STRIP = "PQH", "DPWTGH", "MW", "TU", "GH"
# The flip rule does not speak of paths, and the strip is called beside the main path.
CALLED_TWICE = [letter for letter in CALLS if letter not in WITH_PATHS + ON_STRIP]


def right_length(letter, side, n):
    """The bytes that a call asks for: a grid, a list, of a path the longest with n steps, or nothing."""
    if letter == "L":
        return 3 * (n + 1)
    if letter == "U":
        return 3 * (3 * n + 1)
    return side**3 if letter in DRAWINGS else 0


def halves(record):
    """The samples of a curve that lie exactly on a half: the axis, and whether the values rise or fall there."""
    for axis in range(3):
        values = [exact[axis] for exact in samples(record).values()]
        for (before, scale), (here, _), (after, _) in zip(values, values[1:], values[2:]):
            if is_on_half((here, scale)):
                yield "xyz"[axis], "rising" if before < after else "falling" if before > after else "turning"


def case_numbers(side, record, length, under):
    """The numbers of a case with a record."""
    n, m = (*record.counts, 0)[:2]
    choice = 0 if record.choice == OVER else under
    return side, n, record.mark, length, m, choice, *point_numbers(record.coordinates)


class Cases(BufferCases):
    """The cases and their answers so far, and what the program's buffer then holds."""

    def __init__(self):
        super().__init__(NUMBERS, ANSWERS)
        self.halves = Counter()  # the accepted listings, by where they have a sample on a half
        self.distances = Counter()  # of the cells of neighbours in accepted patches
        self.unmarked = Counter()  # the accepted drawings, by letter, choice and which of their cells were unmarked
        self.told = Counter()  # the accepted drawings, by the wrong ways that give another number or grid
        self.tested = Counter()  # the calls with a curve, by letter and whether the test quit, or would have
        self.checks_told = Counter()  # the calls with a curve, by the wrong checks that give another answer, and letter
        self.chosen = Counter()  # the calls that choose a count, by letter and how it lies to three times the gap
        self.chosen_told = Counter()  # the calls that choose a count, by the wrong ways that answer otherwise, and letter
        self.records_called = {letter: set() for letter in CALLED_TWICE}  # the sides and records of the calls made twice
        self.on_half = Counter()  # the accepted calls with a record that has a sample on a half, by letter
        self.flips_told = Counter()  # the calls and flips, by letter, number of parameters and wrong flip that they show
        self.other_end = Counter()  # the accepted drawings of a path, by whether one from the other end leaves the same
        self.paths_told = Counter()  # the calls with a path, by letter and the wrong ways that give another answer
        self.strip_told = Counter()  # the calls on the strip, by letter and the wrong ways that give another answer

    def call(self, letter, side, record, length=None, under=1):
        """A call that is lent the first bytes of the buffer, by default as many as it asks for; its answer.

        Under is stored as the given number, any but 0.
        """
        called = record
        length = right_length(letter, side, record.counts[0]) if length is None else length
        lent = bytes(self.buffer[:length])
        answer = CALLS[letter](side, record, lent)
        self.buffer[:length] = answer.lent
        numbers = case_numbers(side, record, length, under)
        drawn = letter in DRAWINGS and answer.refusal is None
        said = ("A", answer.count) if answer.refusal is None else ("R", answer.refusal)
        held = answer.new if drawn else 0, *holding(answer.lent)
        self.add(letter, numbers, (said[0], (said[1], *held)), f"{record.choice} {answer.refusal or 'accepted'}")
        if letter in CHOOSING:
            self.count_choice(letter, side, record, lent, answer)
        elif letter not in ON_PATCHES:
            self.count_test(letter, side, record, answer.refusal)
        if letter == "W":
            assert not broken_chosen_laws(side, record, lent, answer), record
            record = with_chosen_count(record) if drawn else record
        elif letter in DRAWINGS and letter not in WITH_PATHS + ON_STRIP:
            assert not broken_laws(side, record, lent, answer), record
        elif letter not in DRAWINGS:
            assert CALLS[letter](side, with_other_choice(record), lent) == answer, record
        if drawn:
            cells_of = path_cells if letter == "T" else cells
            new_of = len(places(side, record, cells_of))
            kind = "none" if answer.new == 0 else "all" if answer.new == new_of else "some"
            self.unmarked[letter, record.choice, kind] += 1
            told = self.paths_told if letter == "T" else self.told
            told.update(told_apart(side, record, lent, answer, cells_of))
        if letter == "L" and answer.refusal is None:
            found = {*halves(record)}
            self.halves.update(found | ({("any axis", "any way")} if found else set()))
        if letter in ON_PATCHES and answer.refusal is None:
            self.distances.update(neighbour_distances(record, cells(record)))
        self.on_half[letter] += answer.refusal is None and letter != "M" and has_half(record)
        if letter in WITH_PATHS:
            self.count_path(letter, side, record, lent, answer)
        elif letter in ON_STRIP:
            assert not broken_strip_laws(side, record, lent, answer), record
            self.strip_told.update((letter, way) for way in wrong_strips(side, record, length, answer))
        else:
            self.call_flips(letter, side, called, lent, answer)
        return answer

    def count_path(self, letter, side, record, lent, answer):
        """The laws of a call with a path; which wrong ways give another answer; whether the flip leaves another grid."""
        wrong = wrong_path_drawings if letter == "T" else wrong_path_listings
        self.paths_told.update((letter, way) for way in wrong(side, record, lent, answer))
        if letter == "U":
            assert list_path(side, record._replace(mark=record.mark ^ 255), lent) == answer, record
            assert answer.refusal is None or answer.lent == lent, record
            return
        assert not broken_laws(side, record, lent, answer, draw_path, path_cells), record
        if answer.refusal is None:
            assert not broken_path_laws(side, record), record
            self.other_end[draw_path(side, flip(record), lent).lent == answer.lent] += 1

    def call_flips(self, letter, side, record, lent, answer):
        """The call with the record's flip agrees; which wrong flips would not, where a record has few samples."""
        expected = in_reverse(answer) if letter == "L" else answer
        assert CALLS[letter](side, flip(record), lent) == expected, record
        self.records_called[letter].add((side, record))
        if letter in CHOOSING or answer.refusal is None and prod(n + 1 for n in record.counts) > FEW_SAMPLES:
            return
        for way, wrong in wrong_flips(record).items():
            if letter == "L" or way not in THE_SAME_SAMPLES[len(record.counts)]:
                self.flips_told[letter, len(record.counts), way] += CALLS[letter](side, wrong, lent) != expected

    def flip(self, record, length=None, under=1):
        """The flip of a record, its points written to the lent bytes, by default as many as there are; the flip."""
        letter = "V" if len(record.counts) == 1 else "X"
        length = len(record.coordinates) if length is None else length
        flipped = flip(record)
        written = bytes(flipped.coordinates)[:length]
        self.buffer[: len(written)] = written
        n, m = (*flipped.counts, 0)[:2]
        mark = flipped.mark + (0 if flipped.choice == OVER else 256)
        answer = letter, (n, m, mark, *holding(bytes(self.buffer[:length]))[1:])
        self.add(letter, case_numbers(0, record, length, under), answer, record.choice, "x")
        if length >= len(record.coordinates):
            for way, wrong in wrong_flips(record).items():
                self.flips_told[letter, len(record.counts), way] += wrong != flipped
        return flipped

    def count_test(self, letter, side, record, refusal):
        """Whether the test of a curve quit; which wrong checks answer otherwise, or let pass what is refused with 15."""
        right = check_curve(side, record)
        assert not (refusal == 15 and quits(record)), record
        if refusal is None:
            self.tested[letter, "quit" if right.quit else "walked"] += 1
        elif quits(record):
            self.tested[letter, f"would quit, refused with {refusal}"] += 1
        for way, wrong in wrong_checks(side, record).items():
            if wrong != right if letter == "C" else refusal == 15 != wrong.refusal:
                self.checks_told[way, letter] += 1

    def count_choice(self, letter, side, record, lent, answer):
        """How a chosen count lies to three times the gap; which wrong ways to choose it answer otherwise."""
        if answer.refusal is None:
            count, most = chosen_count(record.coordinates), enough(record.coordinates)
            self.chosen[letter, "three times the gap, or 1" if count == most else "less"] += 1
            apart = wrong_searches(record.coordinates)["the largest of the axes' own"] < count
            self.chosen[letter, "above the count of each axis alone"] += apart
            later = any(refuses_count(record.coordinates, n) for n in range(count, most))
            self.chosen[letter, "a larger count refused again"] += later
        ways = chosen_told_apart(side, record, *((lent, answer) if letter == "W" else ()))
        self.chosen_told.update((way, letter) for way in ways)

    def all_calls(self, side, record):
        """A drawing into an unmarked grid, a listing into a list that holds bytes, and a check."""
        self.fill(side**3)
        self.call("D", side, record)
        self.fill(3 * record.counts[0] + 8, 17, 3)
        self.call("L", side, record)
        self.call("C", side, record)


def document_samples(cases):
    """K1 to K11 on each axis, with the cells along that axis and the list shown."""
    for axis, (_, points, n, _, refusal) in product(range(3), K1_TO_K11):
        record = curve(on_axis(axis, points), n, MARK)
        cases.fill(512)
        assert cases.call("D", 8, record).refusal == refusal
        cases.show(0, 8**axis)
        cases.fill(3 * n + 8, 17, 3)
        assert cases.call("L", 8, record).refusal == refusal
        for place in range(0, 3 * n + 3, 16):
            cases.show(place)
        assert cases.call("C", 8, record).refusal == refusal


def limits(cases):
    """The ends of the ranges of side, step count and mark, and lengths of grid and list around the right ones."""
    for side in 0, 1, 2, 3, 63, 64, 65, LARGEST:
        cases.fill(min(side**3, BUFFER), 5)
        for letter in "DLC":
            record = curve([min(max(side - 1, 0), 255)] * 12, 1, MARK)
            cases.call(letter, side, record, min(right_length(letter, side, 1), BUFFER))
    for n, points in product((0, 1, 2, 511, 512, 513, LARGEST), ([0] * 12, on_axis(2, (0, 63, 0, 63)), [63, 0, 31] * 4)):
        for letter in "DLC":
            cases.call(letter, 64, curve(points, n, MARK), min(right_length(letter, 64, n), BUFFER))
    for side in 2, 3, 8, 40, 63, 64:
        cases.fill(BUFFER, 3, 7)
        for length in 0, 1, side**2, (side - 1) ** 3, side**3 - 1, side**3, side**3 + 1, (side + 1) ** 3:
            if length <= BUFFER:
                cases.call("D", side, curve([1] * 12, 1, MARK), length)
    for n in 1, 6, 170, 512:
        cases.fill(3 * n + 6, 9, 11)
        for length in 0, 1, 3 * n, 3 * n + 2, 3 * n + 3, 3 * n + 4, 3 * n + 6:
            cases.call("L", 4, curve(on_axis(1, (0, 1, 2, 3)) if n > 1 else [2] * 12, n, 0), length)
            cases.show(max(0, length - 12))
    for mark, letter in product((0, 1, 255), "DLC"):
        cases.fill(8, 255, 255)
        cases.call(letter, 2, curve([1] * 12, 1, mark))


# For each number, two ways to make it apply to a call with side 8 and step count 1 of a curve that stays in one cell.
FAULTS = {
    11: ({"side": 65}, {"side": 1}),
    21: ({"length": 511}, {"length": 513}),
    12: ({"mark": 0}, {"mark": 0}),
    13: ({"n": 0}, {"n": 513}),
    22: ({"length": 5}, {"length": 0}),
    14: ({"z": 8}, {"z": 255}),
    15: ({"x": 2}, {"x": 7}),
}
ORDERS = {"D": (11, 21, 12, 13, 14, 15), "L": (11, 13, 22, 14, 15), "C": (11, 13, 14, 15)}
PATCH_FAULTS = {**FAULTS, 13: ({"n": 257}, {"m": 0})}
PATCH_ORDERS = {"P": ORDERS["D"], "Q": ORDERS["C"]}


def call_with_faults(cases, letter, faults, record_of, choice, numbers, way=0):
    """A call with the faults of some numbers, given in their order: the first is answered; its answer."""
    length = 512 if right_length(letter, 8, 1) else 0
    call = {"side": 8, "n": 1, "m": 1, "mark": MARK, "choice": choice, "x": 0, "z": 0, "length": length}
    for number in numbers:
        call.update(faults[number][way])
    answer = cases.call(letter, call["side"], record_of(call), call["length"])
    assert answer.refusal == next(iter(numbers), None)
    return answer


def refusals(cases, orders, faults, record_of):
    """Each call with up to three of the faults and with all, over in the one way and under in the other.

    The first of the order is answered.
    """
    cases.fill(BUFFER, 1, 1)
    for letter, order in orders.items():
        for way, size in product(range(2), (0, 1, 2, 3, len(order))):
            for numbers in combinations(order, size):
                call_with_faults(cases, letter, faults, record_of, CHOICES[way], numbers, way)


def faulty_curve(call):
    """A curve that stays in cell 0 but for the coordinates of its last point."""
    return curve([0] * 9 + [call["x"], 0, call["z"]], call["n"], call["mark"], call["choice"])


def faulty_patch(call):
    """The same of a patch."""
    return patch([0] * 45 + [call["x"], 0, call["z"]], call["n"], call["m"], call["mark"], call["choice"])


def ties(cases):
    """Samples on a half, reached from below and from above, on every axis."""
    for side, low in (4, 0), (5, 0), (5, 1), (33, 14), (64, 0), (64, 60):
        line = [low, low + 1, low + 2, low + 3]
        cases.fill(side**3)
        for axes, n in product(permutations((line, line[::-1], [low] * 4)), (2, 3, 4, 6, 18)):
            points = [c for point in zip(*axes) for c in point]
            cases.call("D", side, curve(points, n, 1 + len(cases.records) % 255))
            cases.call("L", side, curve(points, n, MARK))
            cases.show(max(0, 3 * (n + 1) - 16))
    for n, points in product(range(10, 21), ((0, 0, 0, 4), (4, 0, 0, 0), (4, 4, 4, 0), (0, 4, 4, 4))):
        cases.all_calls(5, curve(on_axis(n % 3, points), n, MARK))


def ends(cases):
    """Steps of exactly one cell and of a little more, and each coordinate at and past the end of the cube."""
    for n, points in product((62, 63, 64, 126, 189), ((0, 21, 42, 63), (63, 42, 21, 0), (0, 0, 63, 63), (0, 63, 0, 63))):
        cases.all_calls(64, curve(on_axis(n % 3, points), n, MARK))
    for side, k in product((2, 8, 64), range(12)):
        cases.fill(side**3)
        for c in side - 1, side, 255:
            points = [c if k == position else 0 for position in range(12)]
            cases.call("D", side, curve(points, 512, 1 + k))
            cases.call("L", side, curve(points, 512, 1 + k))


def random_curve(dice, side):
    """Points in a box of the cube, and a step count at which every step fits, or about as many as that takes."""
    spread = dice.randrange(side)
    corner = [dice.randrange(side - spread) for _ in range(3)]
    points = [corner[k % 3] + dice.randrange(spread + 1) for k in range(12)]
    gap = max(abs(points[k] - points[k + 3]) for k in range(9))
    fits = max(1, 3 * gap)
    n = dice.randrange(fits, min(2 * fits, 512) + 1) if dice.randrange(3) else dice.randrange(2 * gap, fits) + 1
    return points, n, dice.randrange(1, 256)


def patch_samples(cases):
    """K12's patch, also with each row in a line of its own; and every row along t K1's, on each axis."""
    for z in (0, 0, 0, 0), (0, 0, 2, 2):
        cases.fill(512)
        k12 = patch(grid_of_points(lambda i, j: (i + j, j if any(z) else 0, z[j])), 4, 4, MARK)
        assert cases.call("P", 8, k12).refusal is None
        for place in range(0, 192, 16):
            cases.show(place)
        cases.call("Q", 8, k12)
    for axis, (n, refusal) in product(range(3), ((2, 15), (3, None), (4, None))):
        k1 = patch(grid_of_points(lambda i, j: [i if axis == a else 0 for a in range(3)]), n, 1, MARK)
        cases.fill(64)
        assert cases.call("P", 4, k1).refusal == refusal
        cases.show(0, 4**axis)
        cases.call("Q", 4, k1)


def patch_neighbours(cases):
    """A half in each of two rows, on any two axes and with t and u exchanged, every byte shown; and a chessboard."""
    x_of, y_of = HALVES_IN_BOTH_ROWS[0::3], HALVES_IN_BOTH_ROWS[1::3]
    zero = [0] * 16
    for axes, exchanged in product(permutations((x_of, y_of, zero)), (False, True)):
        points = grid_of_points(lambda i, j: [axis[4 * j + i if exchanged else 4 * i + j] for axis in axes])
        record = patch(points, *((1, 2) if exchanged else (2, 1)), MARK)
        right, up, even = (
            {place(3, cell) for cell in rule(record).values()}
            for rule in (cells, cells_with_halves_up, cells_with_halves_to_even)
        )
        assert right not in (up, even)
        cases.fill(27)
        assert cases.call("P", 3, record).refusal is None
        cases.show(0)
        cases.show(16)
        cases.call("Q", 3, record)
    cases.fill(343)
    assert cases.call("P", 7, patch(CHESSBOARD, 3, 3, MARK)).refusal is None
    for at in range(0, 49, 16):
        cases.show(at)


def patch_limits(cases):
    """The ends of the ranges of counts, side and lengths; steps of exactly one cell, and ties, along u and t only."""
    for n, m in product((0, 1, 2, 256, 257, LARGEST), repeat=2):
        if n * m <= 512 or max(n, m) > 256:
            cases.call("P", 2, patch([1] * 48, n, m, MARK))
            cases.call("Q", 2, patch([0, 1, 0] * 16, n, m, MARK))
    for side, length in product((1, 2, 3, 64, 65), (-1, 0, 1)):
        record = patch([side - 1] * 48, 1, 1, MARK)
        cases.call("P", side, record, min(side**3 + length, BUFFER))
    for k, c in product(range(48), (7, 8)):
        cases.call("P", 8, patch([c if k == position else 0 for position in range(48)], 24, 24, 1 + k))
    for axis, along, (n, m) in product(range(3), range(2), ((2, 3), (3, 2), (3, 3), (6, 6), (6, 1), (1, 6), (4, 5), (18, 6))):
        for line in (0, 1, 2, 3), (3, 2, 1, 0):
            record = patch(grid_of_points(lambda i, j: [line[(i, j)[along]] if axis == a else 1 for a in range(3)]), n, m, MARK)
            cases.fill(64)
            cases.call("P", 4, record)
            cases.show(0, 4**axis)


def large_patches(cases):
    """The largest counts: bent over the whole cube, and with one step along the other parameter."""
    def bent(i, j):
        return 21 * i, 20 * j + (i == 1), 20 * i + (j in (1, 2))

    for n, m, coordinate in (
        (256, 256, bent),
        (256, 1, lambda i, j: (21 * i, 0, 63 - 21 * i)),
        (1, 256, lambda i, j: (63 - 21 * j, 21 * j, 5)),
        (256, 1, lambda i, j: (21 * i, 21 * j, 0)),
    ):
        cases.fill(BUFFER)
        cases.call("P", 64, patch(grid_of_points(coordinate), n, m, MARK))


def random_patch(dice, side):
    """Points in a box of the cube, free, flat on an axis, or alike along a parameter, with counts as for curves."""
    spread = dice.randrange(min(side, 7))
    corner = [dice.randrange(side - spread) for _ in range(3)]
    kinds = [dice.randrange(6) for _ in range(3)]
    rolls = [[dice.randrange(spread + 1) for _ in range(16)] for _ in range(3)]
    keep = {0: lambda i, j: 0, 1: lambda i, j: i, 2: lambda i, j: 4 * j}

    def coordinate(i, j):
        return [corner[a] + rolls[a][keep.get(kinds[a], lambda i, j: 4 * i + j)(i, j)] for a in range(3)]

    points = grid_of_points(coordinate)
    gaps = [
        max(abs(points[k] - points[k + by]) for k in range(48 - by) if by == 12 or k % 12 < 9) for by in (12, 3)
    ]
    fits = [max(1, 3 * gap) for gap in gaps]
    counts = [dice.randrange(f, f + 4) if dice.randrange(6) else dice.randrange(2 * f // 3, f) + 1 for f in fits]
    return points, *counts, dice.randrange(1, 256)


def random_record(dice, letter, side):
    """The points, counts, mark and choice of a random curve or patch."""
    points, *counts, mark = random_patch(dice, side) if letter in ON_PATCHES else random_curve(dice, side)
    return points, counts, mark, dice.choice(CHOICES)


def random_call(cases, dice, letter, side):
    """A call of a random object, in about every seventh case with a fault, which the call may be free to ignore."""
    points, counts, mark, choice = random_record(dice, letter, side)
    length = right_length(letter, side, counts[0]) + (dice.choice((0, 0, 1, 7)) if letter == "L" else 0)
    fault = dice.randrange(42)
    which = dice.randrange(len(counts))
    if fault == 0:
        side = dice.choice((0, 1, 65, 256, LARGEST, side + 1, side - 1))
    if fault == 1:
        points[dice.randrange(len(points))] = dice.choice((side, side + 1, 255, dice.randrange(side, 256)))
    if fault == 2:
        counts[which] = dice.choice((0, 513, 1 << 16, LARGEST, dice.randrange(514, 1 << 32)))
    if fault == 3:
        mark = 0
    if fault == 4 and length:
        length = dice.choice((length - 1, length + 1, dice.randrange(length)))
    if fault == 5:
        counts[which] = max(1, counts[which] // 3)
    make = patch if letter in ON_PATCHES else curve
    cases.call(letter, side, make(points, *counts, mark, choice), min(length, BUFFER))


def random_calls(cases, dice):
    """At every side and of both choices: drawings in turn into empty, partly marked and any grids, listings, checks."""
    for group in range(4 * 63):
        side, step = 2 + group % 63, dice.choice((16, 32, 64, 128))
        partly = step * dice.randrange(256), step  # one byte in 16, 8, 4 or 2 is 0
        fillings = (0, 0), partly, (dice.randrange(256), dice.randrange(256)), partly
        cases.fill(side**3, *fillings[group % 4])
        for letter in "DDPDDPD":
            random_call(cases, dice, letter, side)
        cases.show(dice.randrange(side**3))
        for letter in "LLLLCQ":
            random_call(cases, dice, letter, side)


def with_a_half(dice, side):
    """A curve of either choice and a few steps that fit, some sample of which lies on a half."""
    while True:
        spread = dice.randrange(1, min(side, 12))
        low = [dice.randrange(side - spread) for _ in range(3)]
        points = [low[k % 3] + dice.choice((0, spread, dice.randrange(spread + 1))) for k in range(12)]
        gap = max(abs(points[k] - points[k + 3]) for k in range(9))
        record = curve(points, 2 * dice.randrange(3 * gap // 2 + 1, 3 * gap + 4), MARK, dice.choice(CHOICES))
        if any(halves(record)):
            return record


def listings(cases, dice):
    """Curves listed: K1 to K11, the ends of the ranges, lines through halves, and random ones."""
    cases.fill(LONGEST_LIST, 29, 5)
    for axis, (_, points, n, _, refusal) in product(range(3), K1_TO_K11):
        assert cases.call("L", 8, curve(on_axis(axis, points), n, MARK)).refusal == refusal
    for n, points in product((0, 1, 2, 511, 512, 513, LARGEST), (on_axis(2, (0, 63, 0, 63)), [63, 0, 31] * 4)):
        cases.call("L", 64, curve(points, n, MARK), LONGEST_LIST)
    for side, low in (4, 0), (5, 1), (33, 14), (64, 0), (64, 60):
        line = [low, low + 1, low + 2, low + 3]
        for axes, n in product(permutations((line, line[::-1], [low] * 4)), (2, 4, 6, 18, 54, 512)):
            cases.call("L", side, curve([c for point in zip(*axes) for c in point], n, MARK))
    for by, axis, times in product((2, 5, 7, 13, 21), range(3), (3, 4, 6, 12)):
        lines = [[0, by, 2 * by, 3 * by] if axis == a else [3 * by, 2 * by, by, 0] for a in range(3)]
        cases.call("L", 3 * by + 1, curve([c for point in zip(*lines) for c in point], times * by, MARK))
    for group in range(17 * 63):
        side = 2 + group % 63
        cases.call("L", side, with_a_half(dice, side))
        random_call(cases, dice, "L", side)
    for choice in CHOICES:
        assert cases.answered["L", f"{choice} accepted"] >= 900, cases.answered
    assert cases.halves["any axis", "any way"] >= 1000, cases.halves
    assert all(cases.halves[axis, way] >= 250 for axis, way in product("xyz", ("rising", "falling"))), cases.halves


def line(start, end, mark=MARK, n=None):
    """A straight curve between two cells, in as many steps as surely fit, or in n."""
    fits = 3 * max(abs(a - b) for a, b in zip(start, end))
    return curve([*start, *start, *end, *end], n or max(fits, 1), mark)


def plane(axis, at, low=(0, 0), high=(7, 7), mark=MARK):
    """A patch over a part of a plane across an axis; t runs along the first of the other two axes."""
    def coordinate(i, j):
        around = [low[0] if i < 2 else high[0], low[1] if j < 2 else high[1]]
        return [*around[:axis], at, *around[axis:]]

    n, m = (max(1, 3 * (b - a)) for a, b in zip(low, high))
    return patch(grid_of_points(coordinate), n, m, mark)


def draw_in_turn(cases, side, choice, *drawings):
    """Drawings of one choice, one over or under another, each with the number of its new cells."""
    for record, new in drawings:
        answer = cases.call("D" if len(record.counts) == 1 else "P", side, record._replace(choice=choice))
        assert (answer.refusal, answer.new) == (None, new), (record, answer[:3])


def comes_back(record):
    """Whether a curve comes back to a cell that it has left."""
    path = row(cells(record))
    entered = [cell for k, cell in enumerate(path) if k == 0 or path[k - 1] != cell]
    return len({*entered}) < len(entered)


LOOP = curve((3, 0, 4, 7, 7, 4, 0, 7, 4, 4, 0, 4), 40, MARK)
THERE_AND_BACK = curve(on_axis(1, (0, 3, 3, 0)), 9, MARK)


def into_empty(cases, choice):
    """From an empty grid: again, from the other end, across, one cell in many steps, planes and lines, loops."""
    for axis in range(3):
        others = [a for a in range(3) if a != axis]
        start, end = ([c if a == axis else 3 for a in range(3)] for c in (0, 7))
        across = [line(*([c if a == other else 3 for a in range(3)] for c in (0, 7))) for other in others]
        cases.fill(512)
        draw_in_turn(
            cases, 8, choice, (line(start, end, 9), 8), (line(start, end, 9), 0), (line(start, end, 255), 0),
            (line(end, start, 1), 0), (across[0], 7), (across[1], 7), (line((0, 0, 0), (7, 7, 7)), 7),
            (line((7, 0, 7), (7, 0, 7), 5, 512), 1), (line((7, 0, 7), (7, 0, 7), 6, 512), 0),
        )  # fmt: skip
        cases.fill(512)
        draw_in_turn(
            cases, 8, choice, (line(start, end), 8), (plane(others[0], 3), 56), (plane(others[1], 3), 56),
            (plane(others[1], 3, mark=9), 0), (line(end, start, 7), 0), (line((0, 0, 0), (0, 0, 0), 3, 512), 1),
            (plane(0, 0, (0, 0), (0, 0), 4), 0), (plane(axis, 3), 49),
        )  # fmt: skip
    one_line = patch(grid_of_points(lambda i, j: (7, (0, 0, 7, 7)[i], 0)), 21, 5, MARK)
    assert comes_back(LOOP) and comes_back(THERE_AND_BACK)
    cases.fill(512)
    loops = (LOOP, len(places(8, LOOP))), (THERE_AND_BACK, 3)
    draw_in_turn(cases, 8, choice, *loops, (one_line, 8), (one_line, 0))


def into_bytes(cases, choice):
    """Into grids full of marks, with a mark at every second byte, and with all cells but one marked."""
    for held in MARK, 255:
        cases.fill(512, held)
        one_cell = line((1, 2, 3), (1, 2, 3), 255, 512)
        draw_in_turn(cases, 8, choice, (line((0, 0, 0), (7, 7, 7)), 0), (plane(2, 5), 0), (one_cell, 0))
    for first, odd in (0, 0), (128, 1):
        cases.fill(512, first, 128)
        along_y = line((2, 0, 0), (2, 7, 0))
        draw_in_turn(cases, 8, choice, (line((0, 1, 1), (7, 1, 1), 128), 4), (along_y, 8 - 8 * odd), (plane(2, 7), 32))
        draw_in_turn(cases, 8, choice, (LOOP, len([at for at in places(8, LOOP) if at % 2 == odd])))
        cases.fill(125, first, 128)
        draw_in_turn(cases, 5, choice, (line((0, 0, 0), (4, 0, 0)), 3 - odd), (plane(2, 2, high=(4, 4)), 13 - odd))
    for record in (
        line((0, 3, 1), (5, 3, 1)), line((2, 3, 1), (5, 3, 1)), line((5, 3, 1), (2, 3, 1)), line((2, 3, 1), (2, 3, 1), 56),
        plane(2, 1, high=(5, 5)), plane(2, 1, (2, 0), (5, 5)), plane(2, 1, (0, 0), (2, 3)), plane(0, 2, (3, 1), (5, 4)),
    ):  # fmt: skip
        cases.fill(216, 200, 1)  # byte 56, of cell (2, 3, 1), becomes 0, and no other
        draw_in_turn(cases, 6, choice, (record, 1))


def refused_from_empty(cases, choice):
    """Each number refuses a drawing into an empty grid, which stays empty: the drawing without a fault finds it so."""
    for letter, faults, record_of in ("D", FAULTS, faulty_curve), ("P", PATCH_FAULTS, faulty_patch):
        cases.fill(512)
        for number in ORDERS["D"]:
            assert call_with_faults(cases, letter, faults, record_of, choice, [number]).new is None
        assert call_with_faults(cases, letter, faults, record_of, choice, []).new == 1


def planes_of_the_largest_cube(cases, choice):
    """Two planes that share a line."""
    cases.fill(BUFFER)
    draw_in_turn(cases, 64, choice, (plane(2, 63, high=(63, 63)), 4096), (plane(0, 63, high=(63, 63)), 4032))


def held_and_drawn(cases):
    """A line and a plane of mark 130, of both choices, where bytes are 0, smaller, equal and larger; the plane shown."""
    fillings = (0, 0), (130, 0), (200, 0), (0, 128), (128, 128), (0, 65), (253, 1)
    for (first, step), choice in product(fillings, CHOICES):
        for record in line((0, 1, 0), (3, 1, 0), 130), plane(2, 0, high=(3, 3), mark=130):
            cases.fill(64, first, step)
            held = bytes(cases.buffer[:16])
            draw_in_turn(cases, 4, choice, (record, sum(held[at] == 0 for at in places(4, record))))
            drawn = range(4, 8) if len(record.counts) == 1 else range(16)
            kept = [at not in drawn or choice == UNDER and held[at] > 0 for at in range(16)]
            assert bytes(cases.buffer[:16]) == bytes(held[at] if kept[at] else 130 for at in range(16))
            cases.show()


def shared_cells(cases):
    """Two drawings in turn, lines and planes, by every two choices: the cells of both hold the mark of the upper one."""
    along_x, along_y = line((0, 1, 1), (3, 1, 1), 9), line((1, 0, 1), (1, 3, 1), 8)
    across_z, across_x = plane(2, 1, high=(3, 3), mark=7), plane(0, 1, high=(3, 3), mark=250)
    for first, second in (along_x, along_y), (along_x, across_z), (across_z, along_y), (across_x, across_z):
        both = places(4, first) & places(4, second)
        for choices in product(CHOICES, repeat=2):
            cases.fill(64)
            draw_in_turn(cases, 4, choices[0], (first, len(places(4, first))))
            draw_in_turn(cases, 4, choices[1], (second, len(places(4, second) - both)))
            upper = second if choices[1] == OVER else first
            assert {cases.buffer[at] for at in both} == {upper.mark}
            cases.show(16)


def mixed_lists(cases, dice):
    """Lists of drawings of both choices, from empty, partly marked and full cubes: demand 3, and new cells add up."""
    for side, first, step in (2, 0, 0), (5, 0, 128), (9, 0, 0), (17, 0, 0), (12, 0, 32), (7, 200, 0), (33, 64, 64):
        cases.fill(side**3, first, step)
        start, new, calls = bytes(cases.buffer[: side**3]), 0, []
        for letter in "DPDDPDDP":
            points, counts, mark, choice = random_record(dice, letter, side)
            record = (patch if letter in ON_PATCHES else curve)(points, *counts, mark, choice)
            calls.append((side, record))
            new += cases.call(letter, side, record).new or 0
        grids = run(calls, start)
        assert grids[-1] == cases.buffer[: side**3] and demand_3(calls, grids)
        assert new == unmarked(start) - unmarked(grids[-1])
        assert grids[-1] != run([(side, with_other_choice(record)) for _, record in calls], start)[-1]


def choice_ignored(cases):
    """K1 to K11 and K12 listed and checked, under."""
    cases.fill(LONGEST_LIST, 31, 7)
    for k, (_, points, n, _, refusal) in enumerate(K1_TO_K11):
        for letter in "LC":
            assert cases.call(letter, 8, curve(on_axis(k % 3, points), n, MARK, UNDER)).refusal == refusal
    k12 = patch(grid_of_points(lambda i, j: (i + j, 0, 0)), 4, 4, MARK, UNDER)
    assert cases.call("Q", 8, k12).refusal is None


def under_by_other_numbers(cases):
    """Any number but 0 is under."""
    for under in 2, 255, 256, 65536, LARGEST:
        cases.fill(8, 0, 128)
        answer = cases.call("D", 2, line((0, 0, 0), (1, 0, 0), 7)._replace(choice=UNDER), under=under)
        assert answer.lent[:2] == bytes([7, 128])


def lone_gap(pair, gap):
    """Points of one axis with a gap between two of them, points pair and pair + 1, and no other."""
    return [0] * (pair + 1) + [gap] * (3 - pair)


def steady_gaps(pair, gap):
    """Points of one axis on the rise, with a gap between two of them, and one less between the others."""
    by = [gap if k == pair else gap - 1 for k in range(3)]
    return [sum(by[:k]) for k in range(4)]


def tried(cases, side, record, drawn_too=True):
    """A check of a curve, then a drawing, where the cube is small, and a listing; how the check ended."""
    answer = cases.call("C", side, record)
    if drawn_too:
        for letter in "DL" if side <= 17 else "L":
            assert cases.call(letter, side, record).refusal == answer.refusal
    return answer.refusal or ("quit" if answer.count else "walked")


def around_three_gaps(cases):
    """Three times the gap for n, a little less and one more: the gap between any two points, on any axis, up and down.

    Less is a walk for a lone gap, and with about as large ones beside it a long step; lines, and there and back, as well.
    """
    for points, gaps, ends in (
        (lone_gap, (1, 2, 7, 21, 63), {-1: ["walked"] * 3}),
        (steady_gaps, (2, 3, 6, 21), {-2: [15] * 3, -1: [15, "walked", 15]}),
    ):
        for gap in gaps:
            side = 1 + max(points(0, gap))
            cases.fill(BUFFER if side > 17 else side**3, 0, 64)
            for pair, axis, way in product(range(3), range(3), (1, -1)):
                controls, choice, a_third = points(pair, gap)[::way], CHOICES[axis % 2], (pair + axis + way) % 3 == 0
                for more, found in (*ends.items(), (0, ["quit"] * 3), (1, ["quit"] * 3)):
                    record = curve(on_axis(axis, controls), 3 * gap + more, MARK, choice)
                    assert tried(cases, side, record, a_third) == found[pair], record
    for gap, axis in product((2, 3, 5), range(3)):
        for controls, less in ((0, gap, 2 * gap, 3 * gap), 15), ((0, gap, gap, 0), "walked"), ((gap, 0, 0, gap), "walked"):
            for n, found in (3 * gap - 2, 15), (3 * gap - 1, less), (3 * gap, "quit"):
                assert tried(cases, max(controls) + 1, curve(on_axis(axis, controls), n, MARK)) == found


def gaps_of_all_axes(cases):
    """Unequal gaps on the three axes, and n around three times each; n below three times the largest does not quit."""
    for axes, shape in product(permutations((1, 3, 5)), (lone_gap, steady_gaps)):
        points = [c for point in zip(*(shape(k, gap) for k, gap in enumerate(axes))) for c in point]
        for n in 2, 3, 4, 8, 9, 10, 14, 15, 16:
            assert (tried(cases, 16, curve(points, n, MARK), n > 13) == "quit") == (n >= 15)


def ends_of_gaps(cases):
    """No gap, which quits in one step, the largest gap, and n up to 512, past a byte."""
    for side, point, n in product((2, 8, 64), ((0, 0, 0), (1, 1, 1), (1, 0, 1), (0, 1, 0)), (1, 2, 3, 512)):
        corner = [c * (side - 1) for c in point]
        assert tried(cases, side, curve(corner * 4, n, MARK)) == "quit"
    zigzags = (0, 63, 0, 63), (63, 0, 63, 0), (0, 63, 63, 0), (63, 0, 0, 63)
    for zigzag, axes in product(zigzags, ("x", "y", "z", "xyz")):
        points = [g if axis in axes else 31 for g in zigzag for axis in "xyz"]
        for n in 187, 188, 189, 190:
            assert (tried(cases, 64, curve(points, n, MARK), False) == "quit") == (n >= 189)
    for gap, axis, n in product((1, 21, 63), range(3), (255, 256, 257, 258, 444, 511, 512)):
        assert tried(cases, 64, curve(on_axis(axis, lone_gap(axis, gap)), n, MARK), False) == "quit"


def gaps_and_other_numbers(cases):
    """Curves whose gaps would let the test quit, refused with each other number, and accepted."""
    still, rising = [5] * 12, on_axis(2, (4, 5, 6, 7))
    for letter, choice in ("C", OVER), ("D", UNDER), ("L", OVER):
        for number, calls in (
            (11, ((side, points, 3) for side in (0, 1, 65, 256, LARGEST) for points in ([0] * 12, rising))),
            (13, ((8, points, n) for points in (still, rising) for n in (513, 514, 1 << 16, LARGEST))),
            (13, [(8, still, 0), (2, [1] * 12, 0), (64, [63] * 12, 0)]),
            (14, ((side, points, 3) for side in (2, 4, 5) for points in (still, rising))),
            (14, ((7, on_axis(axis, points), 3) for axis in range(3) for points in ((4, 5, 6, 7), (7, 6, 5, 4)))),
            (None, ((8, points, 3) for points in (still, rising))),
        ):
            for side, points, n in calls:
                record = curve(points, n, MARK, choice)
                length = min(right_length(letter, side, n), BUFFER)
                assert quits(record) and cases.call(letter, side, record, length).refusal == number


def random_near_quitting(cases, dice):
    """2,000 checks with n near three times the gap, some with a fault; about every ninth curve drawn and listed too."""
    for k in range(2000):
        side = dice.randrange(2, 65 if k % 2 else 18)
        points, n = near_quitting(dice, side)
        axis, fault = dice.randrange(3), dice.randrange(18)
        if k % 80 == 0:
            cases.fill(BUFFER, dice.randrange(256), 64)
        if fault == 0:
            side = dice.choice((0, 1, 65, 66, 256, LARGEST))
        if fault == 1:
            n = dice.choice((0, 513, 514, n + 512, 1 << 16, LARGEST))
        if fault == 2:
            past = dice.randrange(side, 256) - max(points[axis::3])  # all points moved along an axis, their gaps kept
            points[axis::3] = [c + past for c in points[axis::3]]
        if fault == 3:
            points[dice.randrange(12)] = dice.choice((side, 255))
        record = curve(points, n, dice.randrange(1, 256), dice.choice(CHOICES))
        tried(cases, side, record, k % 9 == 0 and fault > 1)


# The wrong checks by which no long step passes
SHORT_STEPS = "four times the gap", "below n", "n modulo 256", "told after a walk", "not told", "before 11, 13 and 14"


def quitting(cases, dice):
    """The test that quits: around its ends, beside the other numbers, and at random; enough of each was met."""
    for part in around_three_gaps, gaps_of_all_axes, ends_of_gaps, gaps_and_other_numbers:
        part(cases)
    random_near_quitting(cases, dice)
    assert all(cases.tested["C", end] >= 500 for end in ("quit", "walked")), cases.tested
    assert all(cases.tested[letter, end] >= 150 for letter, end in product("DL", ("quit", "walked"))), cases.tested
    assert all(cases.tested["C", f"would quit, refused with {number}"] >= 60 for number in (11, 13, 14)), cases.tested
    for number in ORDERS["C"]:
        assert sum(cases.answered["C", f"{choice} {number}"] for choice in CHOICES) >= 100, cases.answered
    for way in WRONG_CHECKS:
        assert cases.checks_told[way, "C"] >= (30 if way == "n modulo 256" else 150), (way, cases.checks_told)
        passed = sum(cases.checks_told[way, letter] for letter in "DL")
        assert passed == 0 if way in SHORT_STEPS else passed >= 15, (way, cases.checks_told)


OWN_COUNTS = 0, 1, 512, 513, LARGEST  # of records, not looked at where the count is chosen


def chosen_samples(cases):
    """The documents' curves on each axis, with every n of their own; and counts refused again above the chosen one."""
    for axis, (points, expected) in product(range(3), (((0, 0, 0, 6), 17), ((5, 5, 5, 5), 1), ((0, 0, 3, 0), 1))):
        record = curve(on_axis(axis, points), 0, 0)
        assert cases.call("M", 8, record).count == expected
        for n in range(1, enough(record.coordinates) + 1):
            refusal = cases.call("C", 8, record._replace(counts=(n,))).refusal
            assert n > expected or refusal == (None if n == expected else 15)
            assert points != (0, 0, 3, 0) or (refusal == 15) == (2 <= n <= 6)
    for axis, (_, points, n, _, _) in product(range(3), K1_TO_K11):
        record = curve(on_axis(axis, points), n, MARK)
        assert cases.call("M", 8, record).count == chosen_count(record.coordinates)
        cases.fill(512)
        cases.call("W", 8, record)
        cases.show(0, 8**axis)
    for own, choice, points in product(OWN_COUNTS, CHOICES, ((0, 0, 0, 6), (5, 5, 5, 5), (0, 1, 2, 3), (0, 3, 3, 0))):
        record = curve(on_axis(own % 3, points), own, MARK, choice)
        cases.fill(512, 0, 128)
        assert cases.call("W", 8, record).count == 1 + cases.call("M", 8, record).count


def chosen_of_one_axis(cases):
    """The count of every curve of one axis with coordinates 0 to 6, on each axis in turn, and every seventh drawn."""
    for k, points in enumerate(product(range(7), repeat=4)):
        others = k // 3 % 7, k // 21 % 7
        coordinates = [(c, *others)[(a - k) % 3] for c in points for a in range(3)]
        record = curve(coordinates, OWN_COUNTS[k % 5], k % 256, CHOICES[k % 2])
        cases.call("M", 7, record)
        if k % 7 == 0:
            if k % 49 == 0:
                cases.fill(343, k // 49 % 4 * 64, k // 49 % 3 * 64)
            cases.call("W", 7, record._replace(mark=1 + k % 255))


def chosen_ends(cases):
    """The largest counts and gaps, lines, which need three times the gap, and the ends of sides and lengths."""
    largest = (
        ((0, 63, 63, 63), 188), ((63, 63, 63, 0), 188), ((63, 0, 0, 0), 188), ((0, 0, 0, 63), 188), ((0, 21, 42, 63), 63),
        ((63, 42, 21, 0), 63), ((0, 63, 0, 63), 187), ((0, 0, 63, 63), 95), ((0, 63, 63, 0), 1), ((31, 0, 63, 31), 1),
    )  # fmt: skip
    for axis in range(3):
        cases.fill(BUFFER, 0, 64)
        for k, (points, expected) in enumerate(largest):
            coordinates = [c if a == axis else 31 for c in points for a in range(3)]
            record = curve(coordinates, 512, MARK, CHOICES[axis % 2])
            assert cases.call("M", 64, record).count == expected
            assert cases.call("C", 64, record._replace(counts=(expected,))).refusal is None
            assert expected == 1 or cases.call("C", 64, record._replace(counts=(expected - 1,))).refusal == 15
            if k % 4 == 0:
                cases.call("W", 64, record)
    for gap, axis, way in product(range(1, 22), range(3), (1, -1)):
        record = curve(on_axis(axis, (0, gap, 2 * gap, 3 * gap)[::way]), 1, MARK)
        assert cases.call("M", 3 * gap + 1, record).count == 3 * gap
    for side, coordinate in product((2, 3, 8, 63, 64), (0, 1)):
        record = curve([coordinate * (side - 1)] * 12, LARGEST, MARK)
        assert cases.call("M", side, record).count == 1
    for side in 2, 3, 8, 40, 63, 64:
        cases.fill(BUFFER, 3, 7)
        for length in 0, 1, side**2, (side - 1) ** 3, side**3 - 1, side**3, side**3 + 1, (side + 1) ** 3:
            if length <= BUFFER:
                cases.call("W", side, curve([1, 0, 1] * 2 + [0, 1, 1] * 2, 0, MARK), length)
    for side, k in product((2, 8, 64), range(12)):
        if side < 64:
            cases.fill(side**3)
        for c in side - 1, side, 255:
            record = curve([c if k == position else 0 for position in range(12)], 1, k, CHOICES[k % 2])
            assert cases.call("M", side, record).refusal == (14 if c >= side else None)
            if side < 64:
                cases.call("W", side, record._replace(mark=1 + k))
    for mark, own in product((0, 1, 255), OWN_COUNTS):
        cases.fill(8, 255, 255)
        assert cases.call("M", 2, curve([1] * 12, own, mark)).count == 1
        assert cases.call("W", 2, curve([1] * 12, own, mark)).refusal == (None if mark else 12)


CHOSEN_ORDERS = {"M": (11, 14), "W": (11, 21, 12, 14)}
CHOSEN_FAULTS = {
    11: ({"side": 65}, {"side": 1}, {"side": 0}, {"side": LARGEST}),
    21: ({"length": 511}, {"length": 513}, {"length": 0}, {"length": 1}),
    12: ({"mark": 0},) * 4,
    14: ({"z": 8}, {"z": 255}, {"x": 8}, {"x": 255}),
}


def chosen_with_faults(cases, letter, own, choice, numbers, way):
    """A call that chooses a count, with the faults of some numbers, given in their order: the first is answered."""
    length = 512 if letter == "W" else 0
    call = {"side": 8, "n": own, "mark": MARK, "choice": choice, "x": 7, "z": 0, "length": length}
    for number in numbers:
        call.update(CHOSEN_FAULTS[number][way])
    answer = cases.call(letter, call["side"], faulty_curve(call), call["length"])
    assert answer.refusal == next(iter(numbers), None)


def chosen_refusals(cases):
    """Each call with any of its faults, and every two of them with any n of its own; grids that fit another side."""
    cases.fill(BUFFER, 1, 1)
    for letter, order in CHOSEN_ORDERS.items():
        for size, way in product(range(len(order) + 1), range(4)):
            for k, numbers in enumerate(combinations(order, size)):
                chosen_with_faults(cases, letter, OWN_COUNTS[(k + way) % 5], CHOICES[way % 2], numbers, way)
        for numbers, own, choice in product(combinations(order, 2), OWN_COUNTS, CHOICES):
            chosen_with_faults(cases, letter, own, choice, numbers, 1)
    for side, length in (0, 0), (1, 1), (1, 0):
        for mark in MARK, 0:
            assert cases.call("W", side, curve([0] * 12, 1, mark), length).refusal == 11
    # At side 7 with a grid of side 8, and the other way round, the coordinate 7 tells which side 14 goes by.
    for side, length, mark, refusal in (7, 343, MARK, 14), (7, 512, MARK, 21), (7, 343, 0, 12), (8, 512, MARK, None):
        assert cases.call("W", side, curve([7] * 12, 3, mark), length).refusal == refusal


def chosen_by_axes(cases):
    """Counts that one axis decides, or two: an axis that accepts its own smallest count may refuse the others'."""
    for axes, shape in product(permutations((1, 3, 5)), (lone_gap, steady_gaps)):
        points = tuple(c for point in zip(*(shape(k, gap) for k, gap in enumerate(axes))) for c in point)
        widest = axes.index(5)
        assert cases.call("M", 16, curve(points, 1, MARK)).count == next(
            n for n in range(1, 16) if not refused_by(points, n, axes=(widest,))
        )
    returning = (0, 0, 3, 0), (0, 3, 3, 0), (0, 6, 0, 0), (2, 6, 0, 2), (6, 0, 6, 5), (3, 0, 6, 3)
    rising = (0, 1, 1, 2), (0, 1, 2, 3), (4, 3, 1, 0), (0, 2, 3, 5), (6, 4, 2, 0), (3, 3, 3, 3)
    for k, (back, up, down) in enumerate(product(returning, rising, (rising[1], rising[4], rising[5], returning[4]))):
        lines = [(back, up, down)[(a + k) % 3] for a in range(3)]
        points = [c for point in zip(*lines) for c in point]
        record = curve(points, OWN_COUNTS[k % 5], MARK, CHOICES[k % 2])
        cases.call("M", 7, record)
        if k % 2:
            cases.fill(343, 0, 64)
            cases.call("W", 7, record)


# Points of one axis that accept 2 steps and refuse more: up to 3, 5, 8 and, for the last, many.
REFUSED_AGAIN = (1, 0, 4, 2), (2, 0, 5, 3), (1, 4, 0, 1), (2, 0, 6, 3), (2, 0, 6, 2), (3, 6, 0, 4), (31, 0, 62, 31)
# Points of one axis that lie 2 apart at the ends, with the smallest count that they accept.
FROM_2_ON = {(0, 0, 1, 2): 3, (3, 2, 0, 1): 4, (0, 0, 0, 2): 5, (2, 5, 0, 0): 6, (0, 3, 0, 2): 7, (0, 3, 1, 2): 8}


def chosen_left_behind(cases):
    """One axis accepts 2 steps, the distance of the ends, and refuses the count that another comes to."""
    pairs = permutations(range(3), 2)
    for k, ((one, other), again, late) in enumerate(product(pairs, REFUSED_AGAIN, FROM_2_ON)):
        axes = [(0, 0, 2, 2) if k % 2 else [k % 3] * 4] * 3
        axes[one], axes[other] = again, late
        points = tuple(c for point in zip(*axes) for c in point)
        assert not refused_by(points, 2, axes=(one,)) and refused_by(points, 3, axes=(one,))
        assert chosen_count(tuple(on_axis(0, late))) == FROM_2_ON[late]
        record = curve(points, OWN_COUNTS[k % 5], MARK, CHOICES[k % 2])
        side = 1 + max(points)
        cases.call("M", side, record)
        if side < 9 and k % 5 == 0:
            cases.fill(side**3, 0, 64)
            cases.call("W", side, record)


def random_points(dice, side):
    """Points in a box of the cube: free, in a line, or back to where they began on some axis."""
    spread = dice.randrange(side)
    axes = []
    for _ in range(3):
        low, kind = dice.randrange(side - spread), dice.randrange(6)
        controls = [dice.randrange(spread + 1) for _ in range(4)]
        if kind == 0:
            controls = [spread * k // 3 for k in range(4)][:: dice.choice((1, -1))]
        if kind == 1:
            controls[3] = controls[0]
        if kind == 2:
            controls = [controls[0]] * 4
        axes.append([low + c for c in controls])
    return [c for point in zip(*axes) for c in point]


def random_chosen(cases, dice):
    """At every side: counts, and drawings in turn into empty, partly marked and any grids, some with a fault.

    Some drawings are made once more with the chosen count as the record's own, from the same bytes.
    """
    for group in range(2 * 63):
        side, step = 2 + group % 63, dice.choice((16, 32, 64, 128))
        fillings = (0, 0), (step * dice.randrange(256), step), (dice.randrange(256), dice.randrange(256))
        filling = side**3, *fillings[group % 3]
        cases.fill(*filling)
        for k, letter in enumerate("WMWMWMM"):
            points, own = random_points(dice, side), dice.choice((*OWN_COUNTS, dice.randrange(1, 200)))
            mark, called, fault = dice.randrange(1, 256), side, dice.randrange(24)
            length = side**3 if letter == "W" else 0
            if fault == 0:
                called = dice.choice((0, 1, 65, 256, LARGEST, side + 1, side - 1))
            if fault == 1:
                points[dice.randrange(12)] = dice.choice((side, 255, dice.randrange(side, 256)))
            if fault == 2:
                mark = 0
            if fault == 3 and letter == "W":
                length = dice.choice((length - 1, min(length + 1, BUFFER), dice.randrange(length)))
            record = curve(points, own, mark, dice.choice(CHOICES))
            answer = cases.call(letter, called, record, length)
            if k == 0 and answer.refusal is None:
                cases.fill(*filling)
                assert cases.call("D", called, with_chosen_count(record)) == answer
        cases.show(dice.randrange(side**3))


def mixed_with_chosen(cases, dice):
    """Lists of drawings with chosen counts among others, from empty and partly marked cubes: demand 3."""
    for side, first, step in (3, 0, 0), (6, 0, 128), (11, 0, 32), (18, 0, 0):
        cases.fill(side**3, first, step)
        start, calls = bytes(cases.buffer[: side**3]), []
        for letter in "WDWPWW":
            if letter == "W":
                record = curve(random_points(dice, side), dice.choice(OWN_COUNTS), dice.randrange(1, 256), dice.choice(CHOICES))
                calls.append((side, Chosen(record)))
            else:
                points, counts, mark, choice = random_record(dice, letter, side)
                record = (patch if letter in ON_PATCHES else curve)(points, *counts, mark, choice)
                calls.append((side, record))
            cases.call(letter, side, record)
        grids = run(calls, start)
        assert grids[-1] == cases.buffer[: side**3] and demand_3(calls, grids)


def choosing(cases, dice):
    """Chosen counts, alone and drawn with; enough of each was met."""
    for part in (
        chosen_samples, chosen_of_one_axis, chosen_ends, chosen_refusals, chosen_by_axes, chosen_left_behind,
    ):  # fmt: skip
        part(cases)
    random_chosen(cases, dice)
    mixed_with_chosen(cases, dice)
    for letter in CHOOSING:
        for number in CHOSEN_ORDERS[letter]:
            assert sum(cases.answered[letter, f"{choice} {number}"] for choice in CHOICES) >= 20, cases.answered
        assert all(cases.chosen[kind] >= 20 for kind in product(letter, {end for _, end in cases.chosen})), cases.chosen
        others = OF_THE_DRAWING if letter == "M" else OF_THE_COUNT
        for way in WRONG_CHOSEN:
            if way not in others:
                least = 3 if way in SELDOM_WRONG and letter == "W" else 15
                assert cases.chosen_told[way, letter] >= least, (way, letter, cases.chosen_told)


def k3_and_k4(cases):
    """K3 and K4, each the other's flip, on each axis and of both choices: drawn, listed and flipped, all of it shown."""
    for axis, choice in product(range(3), CHOICES):
        k3, k4 = (curve(on_axis(axis, points), 6, MARK, choice) for points in ((0, 1, 2, 3), (3, 2, 1, 0)))
        for record, other, expected in (k3, k4, (0, 0, 1, 1, 2, 2, 3)), (k4, k3, (3, 2, 2, 1, 1, 0, 0)):
            cases.fill(512, 0, 128)
            assert cases.call("D", 8, record).refusal is None
            cases.show(0, 8**axis)
            cases.fill(32, 17, 3)
            assert cases.call("L", 8, record, 32).lent[axis:21:3] == bytes(expected)
            cases.show()
            cases.show(16)
            assert cases.flip(record) == other
            cases.show()


def flipped_records(cases, dice):
    """Flips, and flips of flips: points that count up or down, a single coordinate, and any; any counts and lengths."""
    for parameters in 1, 2:
        size = 3 * 4**parameters
        points = [range(size), range(255, 255 - size, -1)]
        points += [[255 if k == at else 0 for k in range(size)] for at in range(size)]
        for below in 2, 8, 64, 256:
            points += [[dice.randrange(below) for _ in range(size)] for _ in range(50)]
        cases.fill(256, 7, 5)
        for k, coordinates in enumerate(points):
            some = 0, 1, 2, 7, 256, 257, 512, 513, LARGEST, dice.randrange(1 << 32)
            counts = tuple(dice.choice(some) for _ in range(parameters))
            record = Record(tuple(coordinates), counts, (k + 255) % 256, CHOICES[k % 2])
            assert cases.flip(cases.flip(record), under=dice.choice((1, 2, 256, LARGEST))) == record
            if k % 8 < 2:
                for at in range(0, size, 16):
                    cases.show(at)
        for length in 0, 1, 2, 3, 11, 12, 13, 47, 48, 49, 256:
            cases.fill(256, length, 3)
            cases.flip(record, length)
            for at in range(0, 64, 16):
                cases.show(at)


def turned_curve(call):
    """A curve that stays in cell 0 but for x of its first point and z of its third."""
    return curve([call["x"], *[0] * 7, call["z"], 0, 0, 0], call["n"], call["mark"], call["choice"])


def turned_patch(call):
    """A patch that stays in cell 0 but for x of g(0, 3) and z of g(3, 0), with m twice as given."""
    coordinates = grid_of_points(lambda i, j: (call["x"] * ((i, j) == (0, 3)), 0, call["z"] * ((i, j) == (3, 0))))
    return patch(coordinates, call["n"], 2 * call["m"], call["mark"], call["choice"])


def patch_with_a_half(dice, side):
    """A patch of either choice with two unequal counts that fit, some sample of which lies on a half."""
    while True:
        spread = dice.randrange(1, min(side, 4))
        low = [dice.randrange(side - spread) for _ in range(3)]
        points = [low[k % 3] + dice.choice((0, spread, dice.randrange(spread + 1))) for k in range(48)]
        n, m = dice.sample(range(2 * spread, 4 * spread + 4, 2), 2)
        record = patch(points, n, m, dice.randrange(1, 256), dice.choice(CHOICES))
        if not steps_too_long(record) and has_half(record):
            return record


def drawn_both_ways(cases, dice):
    """At every side, in turn into empty, full and partly marked grids: curves and patches with a sample on a half."""
    for group in range(2 * 63):
        side, step = 2 + group % 63, dice.choice((16, 32, 64, 128))
        fillings = (0, 0), (dice.randrange(1, 256), 0), (step * dice.randrange(256), step)
        cases.fill(side**3, *fillings[group // 2 % 3])
        for letter in "DPPDPP":
            with_half = patch_with_a_half if letter in ON_PATCHES else with_a_half
            cases.call(letter, side, with_half(dice, side)._replace(mark=dice.randrange(1, 256)))
        for letter in "PQC":
            random_call(cases, dice, letter, side)
        cases.show(dice.randrange(side**3))


def flips(cases, dice):
    """Records and their flips; enough of each was met."""
    k3_and_k4(cases)
    flipped_records(cases, dice)
    refusals(cases, ORDERS, FAULTS, turned_curve)
    refusals(cases, PATCH_ORDERS, PATCH_FAULTS, turned_patch)
    drawn_both_ways(cases, dice)
    for letter in "DP":
        assert len(cases.records_called[letter]) >= 1000 and cases.on_half[letter] >= 400, (letter, cases.on_half)
    for parameters, letters in (1, "DLCV"), (2, "PQX"):
        for way, letter in product(WRONG_FLIPS[parameters], letters):
            if letter in "LVX" or way not in THE_SAME_SAMPLES[parameters]:
                alike = (letter, way) == ("C", "x, y and z in reverse too")  # a check takes the axes alike
                least = 0 if alike else 50 if letter == "Q" else 300
                assert cases.flips_told[letter, parameters, way] >= least, (letter, way, cases.flips_told)


def flip_lines(cases):
    """How often a call was made with a record and with its flip, and what would show a wrong flip."""
    for letter in CALLED_TWICE:
        calls = sum(count for (called, _), count in cases.answered.items() if called == letter)
        different, halves = len(cases.records_called[letter]), cases.on_half[letter]
        yield f"{letter} with a record and with its flip: {calls} calls, {different} different; accepted with a half: {halves}"
    for way in WRONG_FLIPS[1]:
        drawings, listed, checks, flipped = (cases.flips_told[letter, 1, way] for letter in "DLCV")
        told = f"{drawings} drawings, {listed} listings, {checks} checks and {flipped} flips"
        yield f"a curve flipped wrongly, {way}: seen by {told}"
    for way in WRONG_FLIPS[2]:
        drawings, checks, flipped = (cases.flips_told[letter, 2, way] for letter in "PQX")
        yield f"a patch flipped wrongly, {way}: seen by {drawings} drawings, {checks} checks and {flipped} flips"


def list_a_path(cases, side, record, length=None):
    """A listing of a path, by default as long as its cells take and two bytes more, which holds bytes; its answer."""
    length = 3 * len(path(record)) + 2 if length is None else length
    cases.fill(length, 17, 3)
    return cases.call("U", side, record, length)


def path_samples(cases):
    """K1 to K11 on each axis and on all three, drawn and listed, the cells along the axis and the list shown."""
    for axes, (name, points, n, _, refusal) in product(("x", "y", "z", "xyz"), K1_TO_K11):
        record = curve([g if axis in axes else 0 for g in points for axis in "xyz"], n, MARK)
        count = None if refusal else 1 + (PATHS_OF_K[name] - 1) * len(axes)
        cases.fill(512)
        assert cases.call("T", 8, record)[:2] == (refusal, count)
        cases.show(0, sum(8 ** "xyz".index(axis) for axis in axes))
        assert list_a_path(cases, 8, record)[:2] == (refusal, count)
        cases.show()
        if count and count > 5:
            cases.show(16)


def path_steps(cases):
    """From the middle cell to each one beside it, in one step and in more, and twice as far; grids and lists shown."""
    for k, towards in enumerate(product((-1, 0, 1), repeat=3)):
        moves = sum(c != 0 for c in towards)
        record = from_cell_to_cell((1, 1, 1), [1 + c for c in towards], 1, MARK, CHOICES[k % 2])
        cases.fill(27)
        assert cases.call("T", 3, record).count == 1 + moves
        cases.show(0)
        cases.show(16)
        assert list_a_path(cases, 3, record).count == 1 + moves
        cases.show()
        in_more_steps = record._replace(counts=((2, 3, 4, 7, 512)[k % 5],))
        cases.fill(27, 0, 128)
        assert cases.call("T", 3, in_more_steps).count == list_a_path(cases, 3, in_more_steps).count == 1 + moves
        cases.show()
        further = from_cell_to_cell((2, 2, 2), [2 + 2 * c for c in towards], 6 + k % 2, MARK)
        cases.fill(125, 0, 64)
        assert cases.call("T", 5, further).count == list_a_path(cases, 5, further).count == 1 + 2 * moves
    for here, there in permutations(product((0, 1), repeat=3), 2):
        record = from_cell_to_cell(here, there, 1, 255)
        cases.fill(8)
        assert cases.call("T", 2, record).count == 1 + sum(a != b for a, b in zip(here, there))
        cases.call("U", 2, record, 3 * len(path(record)))


def path_corners(cases):
    """From corner to opposite corner of larger cubes, with steps to spare and without, and past them by one."""
    for k, here in enumerate(product((0, 1), repeat=3)):
        for side in 8, 64:
            one, other = ([c * (side - 1) for c in corner] for corner in (here, [1 - c for c in here]))
            for n in 3 * (side - 1), 512, side:
                record = from_cell_to_cell(one, other, n, MARK, CHOICES[k % 2])
                if side == 8 or k % 2 == 0 and n == 512:
                    cases.fill(side**3, 0, 64)
                    assert cases.call("T", side, record).count == (None if n == side else 3 * side - 2)
                assert list_a_path(cases, side, record).count == (None if n == side else 3 * side - 2)
            assert list_a_path(cases, side - 1, record._replace(counts=(512,))).refusal == 14
    for zigzag in (0, 63, 0, 63), (63, 0, 63, 0), (0, 63, 63, 0), (63, 0, 0, 63):
        for axes in "x", "yz", "xyz":
            record = curve([g if axis in axes else 63 for g in zigzag for axis in "xyz"], 512, MARK)
            list_a_path(cases, 64, record)
            cases.show(3 * len(path(record)) - 14)
            if axes == "xyz":
                cases.fill(BUFFER)
                cases.call("T", 64, record)


def path_lists(cases):
    """Lists of three times the answer, a byte more and less, and of what samples and the longest path would take."""
    for side, points, n in (
        (2, from_cell_to_cell((0, 0, 0), (1, 1, 1)).coordinates, 1),
        (2, from_cell_to_cell((1, 0, 1), (0, 0, 0)).coordinates, 2),
        (4, [c for g in range(4) for c in (g, g, 3 - g)], 3),
        (4, [c for g in range(4) for c in (g, g, 3 - g)], 4),
        (8, on_axis(1, (0, 3, 3, 0)), 9),
        (8, (0, 7, 1, 7, 0, 7, 3, 3, 3, 6, 5, 0), 27),
        (6, [5] * 12, 1),
        (6, [5, 0, 5] * 4, 512),
        (64, (0, 0, 63, 63, 63, 0, 0, 63, 63, 63, 0, 0), 200),
    ):
        record = curve(points, n, 0)
        exact = 3 * len(path(record))
        lengths = {0, 1, 2, 3, exact - 3, exact - 2, exact - 1, exact, exact + 1, exact + 3, 3 * n + 2, 3 * n + 3}
        for length in sorted(lengths | {9 * n + 2, 9 * n + 3, 9 * n + 4}):
            answer = list_a_path(cases, side, record, length)
            assert answer.refusal == (22 if length < exact else None)
            if exact - 4 < length < exact + 4:
                cases.show(max(0, length - 14))


PATH_FAULTS = {**FAULTS, 22: ({"length": 11}, {"length": 0}), 15: ({"x": 2}, {"x": 7})}


def stepping_curve(call):
    """A curve from cell 0 to the cell that all coordinates have moved to, x and z as given."""
    return from_cell_to_cell((0, 0, 0), (call["x"] or 1, 1, call["z"] or 1), call["n"], call["mark"], call["choice"])


def path_refusals(cases):
    """Each call with up to three of its faults and with all; 22 beside each other number, with lists of many lengths."""
    refusals(cases, {"T": PATH_ORDERS["drawing"], "U": PATH_ORDERS["listing"]}, PATH_FAULTS, stepping_curve)
    for number, side, points, n in (
        (11, 65, [1, 0, 0] * 2 + [0, 1, 1] * 2, 1),
        (11, 1, [0] * 12, 0),
        (13, 8, [1, 0, 0] * 2 + [0, 1, 1] * 2, 513),
        (13, 8, [0] * 12, 0),
        (13, 8, [1, 0, 0] * 2 + [0, 1, 1] * 2, LARGEST),
        (14, 8, [8, 0, 0] * 2 + [7, 1, 1] * 2, 1),
        (14, 8, [255, 0, 0] * 2 + [7, 1, 1] * 2, 4),
        (15, 8, [0, 0, 0] * 2 + [2, 1, 1] * 2, 1),
        (15, 8, on_axis(0, (0, 0, 0, 6)), 16),
        (15, 8, on_axis(2, (0, 1, 2, 3)), 2),
        (15, 8, on_axis(1, (0, 3, 3, 0)), 7),
        (15, 64, [c for g in (0, 21, 42, 63) for c in (g, 63 - g, g)], 62),
    ):
        cases.fill(4611, 17, 3)
        for length in 0, 1, 2, 3, 3 * min(n, 512) + 2, 3 * min(n, 512) + 3, 9 * min(n, 512) + 3:
            assert cases.call("U", side, curve(points, n, MARK), length).refusal == number


def path_limits(cases):
    """The ends of the ranges of side, step count and mark, and grids of other lengths."""
    for side in 0, 1, 2, 3, 63, 64, 65, LARGEST:
        low, high = min(max(side - 2, 0), 254), min(max(side - 1, 0), 255)
        record = from_cell_to_cell([low] * 3, [high] * 3, 1, MARK)
        cases.fill(min(side**3, BUFFER), 5)
        assert cases.call("T", side, record, min(side**3, BUFFER)).count == (4 if 2 <= side <= 64 else None)
        cases.show(min(side**3, BUFFER) - 16 if side > 2 else 0)
        list_a_path(cases, side, record, 12)
    for n in 0, 1, 2, 511, 512, 513, LARGEST:
        record = from_cell_to_cell((0, 1, 0), (1, 0, 1), n, MARK)
        cases.fill(8, 0, 64)
        assert cases.call("T", 2, record).count == list_a_path(cases, 2, record, 12).count == (4 if 1 <= n <= 512 else None)
    for side in 2, 3, 8, 20:
        cases.fill(9261, 3, 7)
        for length in 0, 1, side**2, (side - 1) ** 3, side**3 - 1, side**3, side**3 + 1, (side + 1) ** 3:
            record = from_cell_to_cell((0, 0, 0), (1, 1, 1), 1, MARK)
            assert cases.call("T", side, record, length).refusal == (None if length == side**3 else 21)
    cases.fill(27)
    for k, c in product(range(12), (2, 3)):
        record = curve([c if k == position else 0 for position in range(12)], 6, 1 + k, CHOICES[k % 2])
        assert cases.call("T", 3, record).refusal == (14 if c == 3 else None)
    for mark, choice in product((0, 1, 255), CHOICES):
        record = from_cell_to_cell((1, 1, 1), (0, 0, 0), 1, mark, choice)
        cases.fill(8, 255, 255)
        assert cases.call("T", 2, record).refusal == (None if mark else 12)
        cases.show()
        assert list_a_path(cases, 2, record).refusal is None


def path_in_turn(cases, side, *drawings):
    """Drawings of curves and of paths, each with the number of its new cells, and bytes of the grid shown."""
    for letter, record, new in drawings:
        answer = cases.call(letter, side, record)
        assert (answer.refusal, answer.new) == (None, new), (record, answer[:3])
        cases.show()


def path_over_and_under(cases):
    """A path over and under itself, its curve, the path from the other end, and bytes that are 0, smaller and larger.

    Some come back to cells of their own.
    """
    across = [0, 0, 0, 1, 1, 1, 2, 2, 2, 3, 3, 3]
    for first, second in product(CHOICES, repeat=2):
        record, other = curve(across, 3, 9, first), curve(across, 3, 255, second)
        cases.fill(64)
        path_in_turn(cases, 4, ("T", record, 10), ("T", other, 0), ("D", other, 0), ("T", record, 0))
        cases.fill(64)
        path_in_turn(cases, 4, ("D", record, 4), ("T", other, 6), ("D", record, 0), ("T", flip(record), 6))
        cases.fill(64)
        path_in_turn(cases, 4, ("T", record, 10), ("T", flip(other), 6), ("T", record, 0))
    for (first, step), choice in product(((130, 0), (200, 0), (0, 128), (128, 128), (0, 65), (253, 1), (64, 64)), CHOICES):
        record = curve(across, 3, 130, choice)
        cases.fill(64, first, step)
        held = bytes(cases.buffer[:64])
        path_in_turn(cases, 4, ("T", record, sum(held[at] == 0 for at in places(4, record, path_cells))))
        loop = LOOP._replace(mark=130, choice=choice)
        cases.fill(512, first, step)
        held = bytes(cases.buffer[:512])
        path_in_turn(cases, 8, ("T", loop, sum(held[at] == 0 for at in places(8, loop, path_cells))))
    for axes, choice in product(("x", "y", "z", "xy", "yz", "xyz"), CHOICES):
        record = curve([g if axis in axes else 1 for g in (0, 3, 3, 0) for axis in "xyz"], 9, MARK, choice)
        cases.fill(64)
        assert cases.call("T", 4, record).new == len({*path_cells(record).values()}) < len(path(record))


def random_path_call(cases, dice, letter, side):
    """A call with the path of a random curve, in about every seventh case with a fault; a list of one of many lengths."""
    points, n, mark = random_curve(dice, side)
    fault = dice.randrange(42)
    called = dice.choice((0, 1, 65, 256, LARGEST, side + 1, side - 1)) if fault == 0 else side
    if fault == 1:
        points[dice.randrange(12)] = dice.choice((side, side + 1, 255, dice.randrange(side, 256)))
    if fault == 2:
        n = dice.choice((0, 513, 1 << 16, LARGEST))
    if fault == 3:
        mark = 0
    if fault == 4:
        n = max(1, n // 3)
    record = curve(points, n, mark, dice.choice(CHOICES))
    if letter == "T":
        length = side**3 - (fault == 5) + (fault == 6)
    else:
        exact = 3 * len(path(record)) if 1 <= n <= 513 else 3 * min(n, 512)
        some = exact, exact + 1, exact + 7, exact - 1, 3 * min(n, 512) + 3, 9 * min(n, 512) + 2, 9 * min(n, 512) + 3
        length = max(0, dice.choice((exact, exact, *some)))
    cases.call(letter, called, record, min(length, BUFFER))


def random_paths(cases, dice):
    """At every side, and more at small ones: paths in turn into empty, partly marked and any grids, and listed."""
    for group in range(63 + 40):
        side, step = 2 + (group if group < 63 else group % 13), dice.choice((16, 32, 64, 128))
        fillings = (0, 0), (step * dice.randrange(256), step), (dice.randrange(256), dice.randrange(256))
        cases.fill(side**3, *fillings[group % 3])
        for letter in "TTUTUUTU" if side < 20 else "TTUUU":
            random_path_call(cases, dice, letter, side)
        cases.show(dice.randrange(side**3))


def mixed_with_paths(cases, dice):
    """Lists of drawings with paths among others, from empty and partly marked cubes: demand 3, and new cells add up."""
    for side, first, step in (3, 0, 0), (6, 0, 128), (9, 0, 32), (14, 0, 0):
        cases.fill(side**3, first, step)
        start, new, calls = bytes(cases.buffer[: side**3]), 0, []
        for letter in "TDTPTWTT":
            points, counts, mark, choice = random_record(dice, letter, side)
            record = (patch if letter in ON_PATCHES else curve)(points, *counts, mark, choice)
            calls.append((side, {"T": Path, "W": Chosen}.get(letter, lambda record: record)(record)))
            new += cases.call(letter, side, record).new or 0
        grids = run(calls, start)
        assert grids[-1] == cases.buffer[: side**3] and demand_3(calls, grids)
        assert new == unmarked(start) - unmarked(grids[-1])


CALL_OF = {"T": "drawing", "U": "listing"}


def paths(cases, dice):
    """Paths, drawn and listed; enough of each was met."""
    for part in (
        path_samples, path_steps, path_corners, path_lists, path_refusals, path_limits, path_over_and_under,
    ):  # fmt: skip
        part(cases)
    random_paths(cases, dice)
    mixed_with_paths(cases, dice)
    for letter, call in CALL_OF.items():
        for number in PATH_ORDERS[call]:
            assert sum(cases.answered[letter, f"{choice} {number}"] for choice in CHOICES) >= 15, cases.answered
        for way in WRONG_PATH_WAYS[call]:
            least = 3 if " before " in way else 20
            assert cases.paths_told[letter, way] >= least, (letter, way, cases.paths_told[letter, way])
    assert all(cases.paths_told[way] >= 10 for way in WRONG_WAYS), cases.paths_told
    assert min(cases.other_end[False], cases.other_end[True]) >= 100, cases.other_end


def path_lines(cases):
    """How many drawings of a path are others from the other end, and to how many calls a wrong way answers otherwise."""
    yield other_end_line(cases.other_end)
    for choice, what, way in WRONG_WAYS:
        wrongly = "new cells counted" if what == "counts" else "drawn"
        yield f"a path, {choice}, {wrongly} wrongly, {way}: seen by {cases.paths_told[choice, what, way]} drawings"
    for way in dict.fromkeys(way for ways in WRONG_PATH_WAYS.values() for way in ways):
        seen = [
            f"{cases.paths_told[letter, way]} {call}s" for letter, call in CALL_OF.items() if way in WRONG_PATH_WAYS[call]
        ]
        yield f"a path taken wrongly, {way}: seen by {' and '.join(seen)}"


def strip_samples(cases):
    """K1 to K11 on each axis and K12, on the strip and then on the main path from the other choice: no new cell."""
    k12 = patch(grid_of_points(lambda i, j: (i + j, j, 0)), 4, 4, MARK)
    named = [(k12, None, 1), (flip(k12), None, 8)]
    for axis, (_, points, n, _, refusal) in product(range(3), K1_TO_K11):
        named.append((curve(on_axis(axis, points), n, MARK), refusal, 8**axis))
    for k, (record, refusal, stride) in enumerate(named):
        record = record._replace(choice=CHOICES[k % 2])
        on_strip, on_main = ("G", "D") if len(record.counts) == 1 else ("H", "P")
        cases.fill(512)
        assert cases.call(on_strip, 8, record).refusal == refusal
        cases.show(0, stride)
        if refusal is None and k % 3 == 0:
            assert cases.call(on_main, 8, with_other_choice(record)._replace(mark=9)).new == 0


STRIP_SIDES = 1, 2, 17, 18, 64, 65
FEW_COUNTS = 0, 1, 64, 65  # of a patch, one of each two


def strip_bounds(cases):
    """Sides and counts at the ends of their ranges, each with each, of both choices, into grids of the right length.

    The largest grids are lent with few counts alone, and elsewhere too few bytes.
    """
    def called(letter, side, record, few, expected):
        length = min(side**3, BUFFER) if side < 20 or few else 4913
        if expected is None:
            cases.fill(length, 0, 64)
        assert cases.call(letter, side, record, length).refusal == expected

    cases.fill(6859, 0, 64)
    for side, n, choice in product(STRIP_SIDES, STRIP_COUNTS, CHOICES):
        expected = STRIP_REFUSALS["side"][side] or STRIP_REFUSALS[1][n]
        called("G", side, beside_each_other(1, n, MARK, choice), n in (1, 65) and choice == OVER, expected)
    for k, (side, n, m) in enumerate(product(STRIP_SIDES, STRIP_COUNTS, STRIP_COUNTS)):
        if n not in FEW_COUNTS and m not in FEW_COUNTS:
            continue
        refused = {STRIP_REFUSALS[2][n], STRIP_REFUSALS[2][m]}
        expected = STRIP_REFUSALS["side"][side] or next((number for number in (13, 24) if number in refused), None)
        for choice in CHOICES if side in (2, 17) and (n + 1) * (m + 1) < 600 else CHOICES[k % 2 : k % 2 + 1]:
            called("H", side, beside_each_other(2, n, MARK, choice, m), (n, m) in ((1, 1), (65, 1)), expected)
    for side, of_side in STRIP_REFUSALS["side"].items():
        if side not in STRIP_SIDES:
            for letter, choice in product(ON_STRIP, CHOICES):
                record = beside_each_other(1 + (letter == "H"), 64, MARK, choice)
                called(letter, side, record, choice == UNDER, of_side)


# For each number, four ways to make it apply to a call on the strip with side 8 and counts 1 of a record in one cell.
STRIP_FAULTS = {
    11: ({"side": 65}, {"side": 1}, {"side": 0}, {"side": LARGEST}),
    23: ({"side": 18}, {"side": 33}, {"side": 19}, {"side": 40}),
    21: ({"longer": -1}, {"longer": 1}, {"length": 0}, {"length": 27}),
    12: ({"mark": 0},) * 4,
    13: ({"n": 0}, {"n": 513}, {"n": LARGEST}, {"n": 576}),
    24: ({"n": 65}, {"n": 512}, {"n": 256}, {"n": 128}),
    14: ({"out": 0}, {"out": 255}, {"out": 0}, {"out": 1}),
    15: ({"x": 2}, {"x": 7}, {"x": 3}, {"x": 5}),
}
STRIP_PATCH_FAULTS = {
    **STRIP_FAULTS,
    13: ({"n": 257}, {"m": 0}, {"n": 0}, {"m": 513}),
    24: ({"m": 65}, {"n": 65}, {"m": 256}, {"n": 128}),
}


def strip_with_faults(cases, letter, faults, numbers, way):
    """A call on the strip with the faults of some numbers, given in their order: the first is answered.

    A curve of so many steps that 13 or 24 applies has a long step only past the cube.
    """
    call = {"side": 8, "n": 1, "m": 1, "mark": MARK, "choice": CHOICES[way % 2], "x": 0, "z": 0, "longer": 0}
    for number in numbers:
        call.update(faults[number][way])
    if "out" in call:
        call["z"] = min(255, call["side"] + call["out"])
    if letter == "G" and 15 in numbers and call["n"] > 1:
        call["x"] = 255
    length = call.get("length", max(0, min(call["side"] ** 3, BUFFER - 1) + call["longer"]))
    record = (faulty_patch if letter == "H" else faulty_curve)(call)
    assert cases.call(letter, call["side"], record, length).refusal == next(iter(numbers), None), (numbers, way)


def strip_refusals(cases):
    """Each call with up to two of the faults in four ways, with three in two, and with as many as there can be."""
    cases.fill(64001, 1, 1)
    for letter, faults in ("G", STRIP_FAULTS), ("H", STRIP_PATCH_FAULTS):
        for size, ways in (0, 4), (1, 4), (2, 4), (3, 2), (6, 2), (7, 2):
            for numbers in combinations(STRIP_ORDER, size):
                if {11, 23} <= {*numbers} or letter == "G" and {13, 24} <= {*numbers}:
                    continue  # one side, and of a curve one count, has one of them
                if size > 3 and not {21, 12, 14, 15} <= {*numbers}:
                    continue
                for way in range(ways):
                    strip_with_faults(cases, letter, faults, numbers, way)
    for n, m in (65, 0), (0, 65), (65, 257), (257, 65), (65, LARGEST), (LARGEST, 65), (513, 513), (64, 257), (257, 64):
        assert cases.call("H", 8, beside_each_other(2, n, MARK, m=m)).refusal == 13
    for side in 18, 19, 64:  # whatever the grid is
        for letter, length in product(ON_STRIP, (0, 1, 4913, 5831, 5832, 5833)):
            assert cases.call(letter, side, beside_each_other(1 + (letter == "H"), 1, MARK), length).refusal == 23


def strip_limits(cases):
    """Grids of other lengths, each coordinate at and past the end of the cube, and the ends of marks."""
    for letter, side in product(ON_STRIP, (2, 3, 8, 16, 17)):
        cases.fill(5832, 3, 7)
        for length in 0, 1, side**2, (side - 1) ** 3, side**3 - 1, side**3, side**3 + 1, (side + 1) ** 3:
            record = beside_each_other(1 + (letter == "H"), 1, MARK, CHOICES[side % 2])
            assert cases.call(letter, side, record, length).refusal == (None if length == side**3 else 21)
    cases.fill(4913)
    for k, c in product(range(12), (16, 17)):
        record = curve([c if k == position else 0 for position in range(12)], 64, 1 + k, CHOICES[k % 2])
        assert cases.call("G", 17, record).refusal == (14 if c == 17 else None)
    cases.fill(27)
    for k, c in product(range(48), (2, 3)):
        record = patch([c if k == position else 0 for position in range(48)], 6, 7, 1 + k, CHOICES[k % 2])
        assert cases.call("H", 3, record).refusal == (14 if c == 3 else None)
    for letter, mark, choice in product(ON_STRIP, (0, 1, 255), CHOICES):
        cases.fill(8, 255, 255)
        record = beside_each_other(1 + (letter == "H"), 1, mark, choice)
        assert cases.call(letter, 2, record).refusal == (None if mark else 12)
        cases.show()


def large_on_strip(cases):
    """All over the largest cube of the strip, with the most steps; with one step more; and long steps with fewer."""
    def bent(i, j):
        return 5 * i, 5 * j + (i == 1), (2 * i + 3 * j) % 17

    def flat(i, j):
        return 16 * (i > 1), 16 * (j > 1), 8

    wide = curve([c for g in (0, 16, 0, 16) for c in (g, 16 - g, g)], 64, MARK)
    over_all = [patch(grid_of_points(coordinate), 64, 64, 9) for coordinate in (bent, flat)]
    for choice, (first, step) in product(CHOICES, ((0, 0), (0, 64))):
        cases.fill(4913, first, step)
        for record in wide, *over_all:
            letter = "G" if len(record.counts) == 1 else "H"
            record = record._replace(choice=choice)
            assert cases.call(letter, 17, record).refusal is None
            for at in range(len(record.counts)):
                for n, refusal in (65, 24), (4, 15):
                    other = record._replace(counts=(*record.counts[:at], n, *record.counts[at + 1 :]))
                    assert cases.call(letter, 17, other).refusal == refusal
        cases.show(0, 307)


def strip_over_and_under(cases):
    """A record on the strip, on the main path and from its other end, in turn, by every two choices."""
    across = [0, 0, 0, 1, 1, 1, 2, 2, 2, 3, 3, 3]
    for choices in product(CHOICES, repeat=2):
        for letters, record in ("GD", curve(across, 3, 9)), ("HP", plane(2, 1, high=(3, 3), mark=9)):
            for turns in letters, letters[::-1], letters[0] * 2:
                cases.fill(64)
                of_record = len(places(4, record))
                first = cases.call(turns[0], 4, record._replace(choice=choices[0]))
                second = cases.call(turns[1], 4, flip(record)._replace(mark=255, choice=choices[1]))
                assert (first.new, second.new) == (of_record, 0)
                cases.show(16)
    for (first, step), choice in product(((130, 0), (200, 0), (0, 128), (128, 128), (0, 65), (253, 1), (64, 64)), CHOICES):
        for letter, side, record in ("G", 8, LOOP), ("G", 4, curve(across, 3, 130)), ("H", 4, plane(2, 0, high=(3, 3))):
            cases.fill(side**3, first, step)
            held = bytes(cases.buffer[: side**3])
            answer = cases.call(letter, side, record._replace(mark=130, choice=choice))
            assert (answer.refusal, answer.new) == (None, sum(held[at] == 0 for at in places(side, record)))
        cases.show()


def random_strip_call(cases, dice, letter, side):
    """A call of a random object, in about every seventh case with a fault, and then with a count near 64 or a long step."""
    points, counts, mark, choice = random_record(dice, letter, side)
    fault, which, length = dice.randrange(42), dice.randrange(len(counts)), side**3
    if dice.randrange(4) == 0:
        counts[which] = max(counts[which], dice.choice((60, 61, 62, 63, 64, 64)))
    if fault == 0:
        side = dice.choice((0, 1, 18, 64, 65, LARGEST, side + 1, side - 1))
    if fault == 1:
        points[dice.randrange(len(points))] = dice.choice((side, side + 1, 255))
    if fault == 2:
        counts[which] = dice.choice((0, 257, 513, 1 << 16, LARGEST))
    if fault == 3:
        mark = 0
    if fault == 4:
        length = dice.choice((length - 1, length + 1, dice.randrange(length)))
    if fault in (5, 6):
        counts[which] = dice.choice((65, 66, 67, 100, 128, 256))
    if fault in (7, 8):
        counts[which] = max(1, counts[which] // 3)
    cases.call(letter, side, (patch if letter in ON_PATCHES else curve)(points, *counts, mark, choice), min(length, BUFFER))


def random_on_strip(cases, dice):
    """At every side of the strip, and at some beyond: in turn into empty, partly marked and full grids."""
    for group in range(5 * 16 + 6):
        side, step = 2 + group % 16 if group < 80 else dice.randrange(18, 30), dice.choice((32, 64, 128))
        fillings = (0, 0), (step * dice.randrange(256), step), (dice.randrange(1, 256), 0)
        cases.fill(side**3, *fillings[group % 3])
        for letter in "GHGHGHG" if group < 80 else "GH":
            random_strip_call(cases, dice, letter, side)
        cases.show(dice.randrange(side**3))


def mixed_with_strip(cases, dice):
    """Lists of drawings on the strip among others, from empty and partly marked cubes: demand 3, and new cells add up."""
    for side, first, step in (3, 0, 0), (6, 0, 128), (9, 0, 32), (17, 0, 0), (18, 0, 64):
        cases.fill(side**3, first, step)
        start, new, calls = bytes(cases.buffer[: side**3]), 0, []
        for letter in "GDHTGPWHG":
            points, counts, mark, choice = random_record(dice, letter, side)
            record = (patch if letter in ON_PATCHES else curve)(points, *counts, mark, choice)
            kinds = {"T": Path, "W": Chosen, "G": Strip, "H": Strip}
            calls.append((side, kinds.get(letter, lambda record: record)(record)))
            new += cases.call(letter, side, record).new or 0
        grids = run(calls, start)
        assert grids[-1] == cases.buffer[: side**3] and demand_3(calls, grids)
        assert new == unmarked(start) - unmarked(grids[-1])


def on_strip(cases, dice):
    """Curves and patches on the strip, each beside the main path; enough of each was met."""
    for part in (
        strip_samples, strip_bounds, strip_refusals, strip_limits, large_on_strip, strip_over_and_under,
    ):  # fmt: skip
        part(cases)
    random_on_strip(cases, dice)
    mixed_with_strip(cases, dice)
    for letter in ON_STRIP:
        for number in STRIP_ORDER:
            assert sum(cases.answered[letter, f"{choice} {number}"] for choice in CHOICES) >= 20, cases.answered
        for way in WRONG_STRIPS:
            least = 0 if letter == "G" and way in OF_PATCHES else 3
            assert cases.strip_told[letter, way] >= least, (letter, way, cases.strip_told[letter, way])


def strip_lines(cases):
    """To how many calls on the strip a wrong way answers otherwise."""
    for way in WRONG_STRIPS:
        curves, patches = (cases.strip_told[letter, way] for letter in ON_STRIP)
        yield f"the strip taken wrongly, {way}: seen by {curves} curves and {patches} patches"


def no_cases(cases):
    """Records that are no case, of another form or lent more than there is; and bytes shown past the buffer's end."""
    first = cases.records[0][0]
    longer = [case_record(letter, (2, 1, MARK, BUFFER + 1), NUMBERS) for letter in "FDLPWVXTUGH"]
    for case in *malformed(first), first[:-1] + " ", *longer:
        cases.records.append((case, answer_record("B", (), "d", ANSWERS)))
    cases.fill(8, 1, 1)
    cases.show(0, 0)
    cases.show(BUFFER - 8)
    cases.show(LARGEST, LARGEST)


def main():
    """Writes or checks both files, or prints the counts; the exit status."""
    cases = Cases()
    for part in document_samples, limits, ties, ends, patch_samples, patch_neighbours, patch_limits, large_patches:
        part(cases)
    refusals(cases, ORDERS, FAULTS, faulty_curve)
    refusals(cases, PATCH_ORDERS, PATCH_FAULTS, faulty_patch)
    random_calls(cases, random.Random(2))
    listings(cases, random.Random(3))
    for choice in CHOICES:
        for part in into_empty, into_bytes, refused_from_empty, planes_of_the_largest_cube:
            part(cases, choice)
    for part in held_and_drawn, shared_cells, choice_ignored, under_by_other_numbers:
        part(cases)
    mixed_lists(cases, random.Random(4))
    quitting(cases, random.Random(5))
    choosing(cases, random.Random(6))
    flips(cases, random.Random(7))
    paths(cases, random.Random(8))
    on_strip(cases, random.Random(9))
    no_cases(cases)
    assert all(distance <= 1 for _, distance in cases.distances), cases.distances
    kinds = product(DRAWINGS, CHOICES, ("all", "some", "none"))
    assert all(cases.unmarked[kind] >= 30 for kind in kinds), cases.unmarked
    assert all(cases.told[way] >= 300 for way in WRONG_WAYS), cases.told
    if "--count" in sys.argv[1:]:
        for (letter, kind), count in sorted(cases.answered.items(), key=str):
            print(letter, kind, count)
        for (letter, choice, kind), count in sorted(cases.unmarked.items()):
            print(f"{letter} {choice} accepted, cells unmarked before: {kind}", count)
        for (axis, way), count in sorted(cases.halves.items()):
            print("L accepted, a sample on a half:", axis, way, count)
        print(distances_line(cases.distances))
        for choice, what, way in WRONG_WAYS:
            count = cases.told[choice, what, way]
            if what == "counts":
                print(f"{choice}, new cells counted wrongly, {way}: another number for {count} drawings")
            else:
                print(f"{choice}, drawn wrongly, {way}: another grid after {count} drawings")
        for (letter, end), count in sorted(cases.tested.items()):
            print(f"{letter}, the test of the curve: {end}", count)
        for way in WRONG_CHECKS:
            checks, passed = cases.checks_told[way, "C"], sum(cases.checks_told[way, letter] for letter in "DL")
            print(f"checked wrongly, {way}: another answer to {checks} checks, and to {passed} drawings and listings")
        for (letter, kind), count in sorted(cases.chosen.items()):
            print(f"{letter} accepted, the chosen count: {kind}", count)
        for way in WRONG_CHOSEN:
            counts, drawings = (cases.chosen_told[way, letter] for letter in CHOOSING)
            print(f"chosen wrongly, {way}: another answer to {counts} counts and to {drawings} drawings")
        for said in (*flip_lines(cases), *path_lines(cases), *strip_lines(cases)):
            print(said)
        print(len(cases.records), "records")
        return 0
    return store("drawing_cases", cases.records)


if __name__ == "__main__":
    sys.exit(main())
