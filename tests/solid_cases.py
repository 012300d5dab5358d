"""Writes the stored cases of solids and their expected answers, by the separate model.

`python3 tests/solid_cases.py` writes crates/solid_cases/stdin and stdout; with `--check` it writes nothing and exits
with 1 if they are not what it would write; with `--count` it prints how many cases of each letter and choice got each
answer, how many accepted drawings had all, some or none of their cells unmarked, how many have a sample exactly on a half
on each axis, how many neighbours of the accepted solids have had their cells compared, how many solids were drawn beside a
curve or a patch and agreed, and to how many calls each wrong way would give another answer or grid.  The forms of both
files are described in crates/solid_cases/src.
"""

import random
import sys
from collections import Counter
from itertools import combinations, permutations, product
from math import prod

from model import (
    K1_TO_K11, K12, K12_OF_SOLIDS, MODULO, OVER, PATCHES_IN_DISGUISE, ROW_OF_SOLID, SOLID_ORDERS, UNDER,
    WRONG_SOLID_SCALES, WRONG_SOLID_WAYS, WRONG_WAYS, along_some, broken_solid_laws, cells, check_refusal, curve, demand_3,
    disguised, distances_line, draw, gaps_along, grid_of_points, has_long_step, is_on_half, long_at_corner, long_steps,
    neighbour_distances, on_axis, parameters_in_order, patch, places, row, run, samples, solid, told_apart, unmarked,
    with_other_choice, with_points, wrong_solid_drawings, wrong_solid_refusals,
)  # fmt: skip
from stored import BUFFER, BufferCases, answer_record, case_record, holding, malformed, point_numbers, store

NUMBERS, ANSWERS = 72, 5  # in a case, in an answer
CHOICES = OVER, UNDER
LARGEST = 4294967295
MARK = 200
FEW_SAMPLES = 1500  # of the solids with which wrong cells are tried
ORDERS = [*permutations(range(3))]  # of the parameters, or of the axes
TO_PARAMETER = (0, 1, 2), (1, 0, 2), (1, 2, 0)  # orders by which the first parameter comes to be t, u and v


def beside(letter, record, along):
    """The curve along one parameter of a solid, or the patch along all but one, where the other indices are 0."""
    kept = [p for p in range(3) if (p == along) == (letter == "K")]
    numbers = [16 * i + 4 * j + k for i, j, k in product(range(4), repeat=3)
               if all(index == 0 for p, index in enumerate((i, j, k)) if p not in kept)]  # fmt: skip
    return with_points(record, numbers)._replace(counts=tuple(record.counts[p] for p in kept))


def agree(one, other):
    """Whether two drawings agree: the same refusal, or as many new cells; and the same bytes afterwards."""
    return (one.refusal, one.new, one.lent) == (other.refusal, other.new, other.lent)


def is_large(record, refusal):
    """Whether a solid that comes to the step test has many samples: of these one wrong way is tried."""
    return refusal in (None, 15) and prod(n + 1 for n in record.counts) > FEW_SAMPLES


def large_told(record, refusal):
    """Whether the scale modulo 2³² would give another refusal."""
    found = has_long_step(record, WRONG_SOLID_SCALES[MODULO](record.counts))
    return [MODULO] if found != (refusal == 15) else []


class Cases(BufferCases):
    """The cases and their answers so far, and what the program's buffer then holds."""

    def __init__(self):
        super().__init__(NUMBERS, ANSWERS)
        self.distances = Counter()  # of the cells of neighbours in accepted solids
        self.unmarked = Counter()  # the accepted drawings, by choice and which of their cells were unmarked
        self.halves = Counter()  # the accepted drawings, by the axes on which they have a sample on a half
        self.told = Counter()  # the accepted drawings, by the wrong ways that give another number or grid
        self.solids_told = Counter()  # the drawings and checks, by the wrong ways that give another answer or grid
        self.in_disguise = Counter()  # the drawings beside another, by letter, parameter, choice and how they agree
        self.different = set()  # the solids that were drawn and accepted

    def call(self, letter, side, record, length=None, under=1, along=0):
        """A call that is lent the first bytes of the buffer, by default as many as it asks for; its answer.

        Under is stored as the given number, any but 0, and v in disguises by any number from 2 on.
        """
        length = min(side**3, BUFFER) if length is None else length
        lent = bytes(self.buffer[:length])
        answer = draw(side, record, lent)
        self.buffer[:length] = answer.lent
        said = ("A", answer.count, answer.new) if answer.refusal is None else ("R", answer.refusal, 0)
        if letter != "D":
            agreed = agree(answer, draw(side, beside(letter, record, min(along, 2)), lent))
            said = said if agreed else ("N", 0, 0)
            kind = ("accepted" if answer.refusal is None else "refused") if agreed else "not the same"
            self.in_disguise[letter, "tuv"[min(along, 2)], record.choice, kind] += 1
        numbers = self.case_numbers(side, record, length, under, along)
        kind = f"{record.choice} {answer.refusal or 'accepted'}" if said[0] != "N" else f"{record.choice} not the same"
        self.add(letter, numbers, (said[0], (*said[1:], *holding(answer.lent))), kind)
        assert not broken_solid_laws(side, record, lent, answer), record
        self.count_ways(side, record, lent, answer)
        if answer.refusal is None:
            self.count_drawing(side, record, lent, answer)
        return answer

    def case_numbers(self, side, record, length, under, along=0):
        """The numbers of a case with a solid."""
        n, m, l = record.counts
        choice = 0 if record.choice == OVER else under
        return side, n, record.mark, length, m, choice, l, along, *point_numbers(record.coordinates)

    def check(self, side, record, under=1):
        """A check of a solid; its refusal."""
        refusal = check_refusal(side, record)
        assert refusal == check_refusal(side, with_other_choice(record)), record
        said = ("A", 0) if refusal is None else ("R", refusal)
        numbers = self.case_numbers(side, record, 0, under)
        self.add("C", numbers, (said[0], (said[1], 0, *holding(b""))), f"{record.choice} {refusal or 'accepted'}")
        if is_large(record, refusal):
            ways = large_told(record, refusal)
        else:
            ways = wrong_solid_refusals(side, record, 0, refusal, "check")
        self.solids_told.update(("check", way) for way in ways)
        return refusal

    def count_ways(self, side, record, lent, answer):
        """Which wrong ways give another answer or grid."""
        if is_large(record, answer.refusal):
            ways = large_told(record, answer.refusal)
        else:
            ways = wrong_solid_drawings(side, record, lent, answer)
        self.solids_told.update(("drawing", way) for way in ways)

    def count_drawing(self, side, record, lent, answer):
        """What was met in an accepted drawing."""
        new_of = len(places(side, record))
        kind = "none" if answer.new == 0 else "all" if answer.new == new_of else "some"
        self.unmarked[record.choice, kind] += 1
        self.distances.update(neighbour_distances(record, cells(record)))
        exact = samples(record).values()
        self.halves.update("xyz"[axis] for axis in range(3) if any(is_on_half(value[axis]) for value in exact))
        self.different.add((side, record.coordinates, record.counts))
        if prod(n + 1 for n in record.counts) <= FEW_SAMPLES:
            self.told.update(told_apart(side, record, lent, answer))

    def both(self, side, record, length=None):
        """A drawing and a check of the same solid; the refusal."""
        refusal = self.call("D", side, record, length).refusal
        assert refusal in (21, 12) or self.check(side, record) == refusal, record
        return refusal


def points_of(x_of, y_of=lambda *at: 0, z_of=lambda *at: 0):
    """The 64 points with coordinates by (i, j, k)."""
    return grid_of_points(lambda *at: (x_of(*at), y_of(*at), z_of(*at)), 3)


def axes_in_order(record, order):
    """The solid whose axis a is axis order[a] of this one."""
    points = zip(*(record.coordinates[axis::3] for axis in range(3)))
    return record._replace(coordinates=tuple(point[axis] for point in points for axis in order))


def document_samples(cases):
    """K12's sibling on each axis, its cells shown; the same with a line of its own for every row, in every order."""
    for axis in range(3):
        record = solid(on_axis(axis, K12_OF_SOLIDS), 4, 4, 4, MARK)
        assert [cell[axis] for cell in row(cells(record), 2, 1)] == ROW_OF_SOLID
        cases.fill(4096)
        assert cases.both(16, record) is None
        cases.show(0, 16**axis)
    lines = solid(points_of(lambda i, j, k: i + j + k, lambda i, j, k: j, lambda i, j, k: k), 4, 3, 3, MARK)
    for number, (of_parameters, of_axes) in enumerate(product(ORDERS, ORDERS)):
        record = axes_in_order(parameters_in_order(lines, of_parameters), of_axes)._replace(mark=1 + number)
        if number % 6 == 0:
            cases.fill(1000)
        assert cases.call("D", 10, record).refusal is None
        if of_parameters == of_axes:
            for place in range(0, 400, 100):
                cases.show(place)
            assert cases.check(10, record) is None


def steps_alone(cases):
    """Long steps along one parameter alone, at every corner and in the middle; exactly one cell, and a little more."""
    for k, (along, corner) in enumerate(product(range(3), product((0, 3), repeat=3))):
        record = long_at_corner(along, corner, k % 3, MARK, CHOICES[k % 2])
        cases.fill(512, 3 * (k % 2), 0)
        assert cases.both(8, record) == 15
        assert cases.both(8, record._replace(counts=(5, 5, 5))) is None
    cases.fill(512)
    for along, axis, (h, counts, expected) in product(
        range(3), range(3), ((4, (3, 8, 8), 15), (4, (3, 12, 10), 15), (4, (4, 9, 9), None), (3, (3, 9, 8), None)),
    ):  # fmt: skip
        # 0 0 h h along one parameter, and 0 1 1 0 along each of the others, by which it is multiplied
        controls = [(0, 0, h, h)[i] * (0, 1, 1, 0)[j] * (0, 1, 1, 0)[k] for i, j, k in product(range(4), repeat=3)]
        record = parameters_in_order(solid(on_axis(axis, controls), *counts, MARK), TO_PARAMETER[along])
        found, _ = long_steps(record)
        inner = all(0 < at[along] < record.counts[along] - 1 for _, at, _ in found)
        assert {p for p, _, _ in found} <= {along} and inner
        assert cases.both(8, record) == expected
    line = [i for i, _, _ in product(range(4), repeat=3)]
    for along, axis, rising in product(range(3), range(3), (True, False)):
        cases.fill(64)
        for n, expected in (2, 15), (3, None), (4, None):
            points = on_axis(axis, line if rising else [3 - i for i in line])
            record = solid(points, n, 2, 1, MARK - n, CHOICES[n % 2])
            record = parameters_in_order(record, TO_PARAMETER[along])
            assert cases.both(4, record) == expected


def counts_of_steps(cases):
    """The limits of the counts, one by one, by twos and all; counts far beyond."""
    cases.fill(27)
    for counts in product((0, 1, 32, 33), repeat=3):
        out = any(not 1 <= n <= 32 for n in counts)
        record = solid([1, 0, 2] * 64, *counts, 1 + sum(counts), CHOICES[sum(counts) % 2])
        assert cases.call("D", 3, record).refusal == (13 if out else None)
    for which, n in product(range(3), (0, 2, 31, 32, 33, 34, 64, 255, 256, 257, 288, 512, 513, 1 << 16, 1 << 31, LARGEST)):
        counts = [1, 1, 1]
        counts[which] = n
        assert cases.check(2, solid([0, 1, 1] * 64, *counts, MARK)) == (None if 1 <= n <= 32 else 13)
    for counts in (LARGEST, LARGEST, LARGEST), (LARGEST, 1, LARGEST), (65536, 65536, 1), (0, 0, 0), (1 << 31, 2, 1):
        assert cases.both(3, solid([1, 0, 2] * 64, *counts, MARK)) == 13


def sides_lengths_marks(cases):
    """The ends of the ranges of side and mark, and lengths of the grid around the right one."""
    for side in 0, 1, 2, 3, 63, 64, 65, 256, LARGEST:
        cases.fill(min(side**3, BUFFER), 5)
        for choice in CHOICES:
            refusal = cases.both(side, solid([min(max(side - 1, 0), 255)] * 192, 1, 2, 1, MARK, choice))
            assert refusal == (None if 2 <= side <= 64 else 11)
    for side in 2, 3, 8, 40, 64:
        cases.fill(min((side + 1) ** 3, BUFFER), 3, 7)
        for length in 0, 1, side**2, (side - 1) ** 3, side**3 - 1, side**3, side**3 + 1, (side + 1) ** 3:
            if length <= BUFFER:
                answer = cases.call("D", side, solid([1] * 192, 1, 1, 1, MARK, CHOICES[side % 2]), length)
                assert answer.refusal == (None if length == side**3 else 21)
    for mark, choice in product((0, 1, 255), CHOICES):
        cases.fill(8, 255, 255)
        assert cases.call("D", 2, solid([1] * 192, 1, 1, 1, mark, choice)).refusal == (None if mark else 12)
        cases.show()
        assert cases.check(2, solid([1] * 192, 1, 1, 1, mark, choice)) is None


def each_coordinate(cases, dice):
    """Each of the 192 coordinates in a solid whose grid it changes by one more, and out of the cube."""
    cases.fill(216)
    for at in range(192):
        while True:
            record, _ = random_solid(dice, 6, 2)
            record = record._replace(counts=(4, 5, 6), mark=1 + at, choice=OVER)
            points = [*record.coordinates]
            points[at] += 1
            changed, held = record._replace(coordinates=tuple(points)), bytes(cases.buffer[:216])
            if check_refusal(6, record) is None and draw(6, changed, held).lent != draw(6, record, held).lent:
                break
        assert cases.call("D", 6, record).refusal is None
        points[at] = (6, 7, 255)[at % 3]
        far = record._replace(coordinates=tuple(points), choice=CHOICES[at % 2])
        assert (cases.call("D", 6, far).refusal if at % 4 else cases.check(6, far)) == 14


# For each number, three ways to make it apply to a call with side 8 and counts 1 of a solid that stays in one cell.
FAULTS = {
    11: ({"side": 65}, {"side": 1}, {"side": LARGEST}),
    21: ({"length": 511}, {"length": 513}, {"length": 0}),
    12: ({"mark": 0}, {"mark": 0}, {"mark": 0}),
    13: ({"n": 33}, {"m": 0}, {"l": LARGEST}),
    14: ({"z": 8}, {"z": 255}, {"z": 9}),
    15: ({"x": 2}, {"x": 7}, {"x": 3}),
}


def refusals(cases):
    """A drawing and a check with up to three of the faults and with all: the first of the order is answered."""
    cases.fill(BUFFER, 1, 1)
    for call, order in SOLID_ORDERS.items():
        for way, size in product(range(3), (0, 1, 2, 3, len(order))):
            for numbers in combinations(order, size):
                made = {"side": 8, "n": 1, "m": 1, "l": 1, "mark": MARK, "x": 0, "z": 0, "length": 512}
                for number in numbers:
                    made.update(FAULTS[number][way])
                points = [0] * 189 + [made["x"], 0, made["z"]]
                record = solid(points, made["n"], made["m"], made["l"], made["mark"], CHOICES[way % 2])
                expected = next(iter(numbers), None)
                if call == "check":
                    assert cases.check(made["side"], record) == expected
                else:
                    assert cases.call("D", made["side"], record, made["length"]).refusal == expected


def ties(cases):
    """Samples on a half on every axis and along every parameter, reached from below and from above."""
    step = (0, 0, 1, 1)
    for counts, (first, second, third) in product(((2, 1, 1), (2, 2, 1), (2, 2, 2), (1, 2, 1), (4, 2, 1)), ORDERS):
        def part(at):
            return step[at[first]] + step[at[second]] + step[at[third]]

        points = points_of(lambda *at: part(at), lambda *at: step[at[first]], lambda *at: 3 - part(at))
        cases.fill(64)
        assert cases.call("D", 4, solid(points, *counts, MARK)).refusal is None
    for side, low in (4, 0), (7, 2), (64, 60):
        for signs in product((1, -1), repeat=3):
            def value(*at):
                return low + sum(index if sign > 0 else 3 - index for index, sign in zip(at, signs)) // 3

            record = solid(points_of(value, lambda i, j, k: low + k, lambda i, j, k: low + 3 - i), 6, 4, 6, MARK)
            cases.fill(side**3)
            assert cases.call("D", side, record).refusal is None
    for along, counts in product(range(3), ((6, 3, 2), (6, 1, 1), (18, 2, 1))):
        points = points_of(lambda i, j, k: i, lambda i, j, k: 3 - i, lambda i, j, k: j)
        record = parameters_in_order(solid(points, *counts, MARK, CHOICES[along % 2]), TO_PARAMETER[along])
        cases.fill(64, 0, 128)
        refusal = cases.call("D", 4, record).refusal
        assert refusal == (15 if counts[1] < 3 else None)
        for place in range(0, 64, 16):
            cases.show(place)


def is_changed(side, record, answer):
    """Whether every exchange of points alone, and of counts alone, gives another answer or grid in an unmarked cube."""
    ways = product(ORDERS[1:], ((True, False), (False, True)))
    others = (parameters_in_order(record, order, *which) for order, which in ways)
    return all(draw(side, other, bytes(side**3)) != answer for other in others)


def asymmetric(cases, dice):
    """Counts that are all different and points that are not symmetric: what is exchanged changes the marks."""
    for number in range(8):
        while True:
            record, fits = random_solid(dice, 9, 3)
            record = record._replace(counts=tuple(dice.randrange(f, f + 3) for f in fits), mark=1 + number, choice=OVER)
            answer = draw(9, record, bytes(729))
            if len({*record.counts}) == 3 and answer.refusal is None and is_changed(9, record, answer):
                break
        for order in ORDERS:
            cases.fill(729)
            assert cases.call("D", 9, parameters_in_order(record, order)) == answer


def in_disguise(cases, dice):
    """Curves and patches in disguise, along every parameter and every two, over and under; and solids that are none."""
    for along, choice in product(range(3), CHOICES):
        for number, (_, points, n, _, refusal) in enumerate(K1_TO_K11):
            if number % 4 == 0:
                cases.fill(512, *((0, 0) if choice == OVER else (0, 128)))
            record = curve(on_axis((along + number) % 3, points), n, 1 + number, choice)
            hidden = disguised(record, (along,), (1 + n % 3, 1 + n % 2))
            assert cases.call("K", 8, hidden, along=along).refusal == refusal
    for along, choice, axis in product(PATCHES_IN_DISGUISE, CHOICES, range(3)):
        cases.fill(512, *((0, 0) if choice == OVER else (64, 64)))
        record = disguised(patch(on_axis(axis, K12), 4, 4, MARK, choice), along, (1 + axis,))
        (without,) = {0, 1, 2} - {*along}
        assert cases.call("P", 8, record, along=without).refusal is None
    fillings = (0, 0), (0, 32), (64, 64), (0, 128), (7, 0), (1, 3)
    for number in range(216):
        side, choice = dice.choice((2, 3, 4, 5, 8, 13, 20, 40, 64)), CHOICES[number // 6 % 2]
        letter, which = "KP"[number % 2], number % 3
        along = (which,) if letter == "K" else tuple(p for p in range(3) if p != which)
        if number % 12 < 2:
            cases.fill(side**3, *fillings[number % 6])
        spread = dice.randrange(min(side, 11 if letter == "K" else 4))
        corner = [dice.randrange(side - spread) for _ in range(3)]
        points = [corner[k % 3] + dice.randrange(spread + 1) for k in range(3 * 4 ** len(along))]
        own = [dice.randrange(max(1, 2 * spread), min(3 * spread + 2, 33)) for _ in along]
        if spread == 0:
            own = [dice.randrange(1, 33) for _ in along]
        others = [dice.randrange(1, 5) for _ in range(3 - len(along))]
        fault = number // 12 % 9
        if fault == 0:
            points[dice.randrange(len(points))] = dice.randrange(side, 256)
        if fault == 1:
            own[0] = dice.choice((0, 513, LARGEST))
        mark = 0 if fault == 2 else dice.randrange(1, 256)
        called = dice.choice((1, 65)) if fault == 3 else side
        length = side**3 - 1 if fault == 4 else side**3
        make = curve if letter == "K" else patch
        record = disguised(make(points, *own, mark, choice), along, others)
        stored = which if which < 2 or number % 5 else LARGEST
        answer = cases.call(letter, called, record, length, along=stored, under=1 + number)
        assert cases.records[-1][1][0] == ("A" if answer.refusal is None else "R")
    for number in range(24):  # solids that are no curve or patch, or have counts that only these take
        letter, which = "KP"[number % 2], number // 2 % 3
        cases.fill(125, 0, (0, 128)[number // 6 % 2])
        while True:
            record, _ = random_solid(dice, 5, 2)
            if number < 12:
                kept = [which] if letter == "K" else [p for p in range(3) if p != which]
                points = along_some([dice.randrange(2) for _ in range(3 * 4 ** len(kept))], kept, 3)
                counts = [33 if p == which else 3 for p in range(3)]
                record = solid(points, *counts, MARK, CHOICES[number // 6])
            held = bytes(cases.buffer[:125])
            if not agree(draw(5, record, held), draw(5, beside(letter, record, which), held)):
                break
        cases.call(letter, 5, record, along=which)
    for (letter, along, choice), kind in product(product("KP", "tuv", CHOICES), ("accepted", "refused")):
        assert cases.in_disguise[letter, along, choice, kind] >= 8, cases.in_disguise
    for letter, choice, number in product("KP", CHOICES, SOLID_ORDERS["drawing"]):
        assert cases.answered[letter, f"{choice} {number}"] >= 3, cases.answered
    assert all(sum(cases.in_disguise[letter, along, choice, "not the same"] for choice in CHOICES) >= 3
               for letter, along in product("KP", "tuv")), cases.in_disguise  # fmt: skip


def random_solid(dice, side, most):
    """A solid in a box of the cube, on each axis free or alike along some parameters; and the counts that are enough."""
    spread = dice.randrange(min(side, most + 1))
    corner = [dice.randrange(side - spread) for _ in range(3)]
    kept = [dice.choice(((0, 1, 2), (0, 1, 2), (0, 1), (0, 2), (1, 2), (0,), (1,), (2,))) for _ in range(3)]
    rolls = [[dice.randrange(spread + 1) for _ in range(64)] for _ in range(3)]

    def coordinate(*at):
        return [corner[axis] + rolls[axis][sum(4**p * at[p] for p in kept[axis])] for axis in range(3)]

    points = grid_of_points(coordinate, 3)
    fits = [max(1, 3 * gap) for gap in gaps_along(points)]
    counts = [dice.randrange(f, f + 3) if dice.randrange(4) else dice.randrange(1, f + 1) for f in fits]
    return solid(points, *(min(n, 32) for n in counts), dice.randrange(1, 256), dice.choice(CHOICES)), fits


def random_call(cases, dice, letter, side, most):
    """A call with a random solid, in about every seventh case with a fault, which a check may be free to ignore."""
    record, _ = random_solid(dice, side, most)
    points, counts, mark, length = [*record.coordinates], [*record.counts], record.mark, min(side**3, BUFFER)
    fault = dice.randrange(35)
    if fault == 0:
        side = dice.choice((0, 1, 65, 256, LARGEST, side + 1, side - 1))
    if fault == 1:
        points[dice.randrange(192)] = dice.choice((side, side + 1, 255))
    if fault == 2:
        counts[dice.randrange(3)] = dice.choice((0, 33, 64, 1 << 16, LARGEST))
    if fault == 3:
        mark = 0
    if fault == 4:
        length = dice.choice((length - 1, length + 1, dice.randrange(length)))
    record, under = solid(points, *counts, mark, record.choice), dice.choice((1, 2, 256, LARGEST))
    if letter == "C":
        cases.check(side, record, under)
    else:
        cases.call(letter, side, record, min(length, BUFFER), under)


def random_calls(cases, dice):
    """At every side and of both choices: drawings in turn into empty, partly marked and any grids, and checks."""
    for group in range(2 * 63):
        side, step = 2 + group % 63, dice.choice((16, 32, 64, 128))
        partly = step * dice.randrange(256), step  # one byte in 16, 8, 4 or 2 is 0
        fillings = (0, 0), partly, (dice.randrange(256), dice.randrange(256)), partly
        cases.fill(side**3, *fillings[group % 4])
        for letter, most in zip("DDDDC", (2, 3, 2, 1, 3)):
            random_call(cases, dice, letter, side, most)
        if group % 3 == 0:
            cases.show(dice.randrange(side**3))


def into_one_grid(cases, dice):
    """Several solids into one grid in turn, over and under, the same again and with another mark: demand 3."""
    block = solid(grid_of_points(lambda i, j, k: (i, j, k), 3), 3, 3, 3, 5)
    for first, second in product(CHOICES, repeat=2):
        cases.fill(64)
        for record, new in (
            (block._replace(choice=first), 64),
            (block._replace(choice=second, mark=6), 0),
            (block._replace(choice=first), 0),
        ):
            assert cases.call("D", 4, record).new == new
            cases.show(16)
    for (first, step), choice in product(((5, 0), (200, 0), (0, 128), (128, 128), (0, 65), (253, 1), (64, 64)), CHOICES):
        for mark in 5, 130:
            cases.fill(64, first, step)
            held = unmarked(cases.buffer[:64])
            assert cases.call("D", 4, block._replace(mark=mark, choice=choice)).new == held
            cases.show()
    for side, first, step in (3, 0, 0), (4, 0, 128), (6, 0, 32), (9, 0, 64), (17, 0, 0), (33, 0, 128), (64, 0, 0):
        cases.fill(side**3, first, step)
        start, new, calls = bytes(cases.buffer[: side**3]), 0, []
        for _ in range(6):
            record, _ = random_solid(dice, side, 3)
            calls.append((side, record))
            new += cases.call("D", side, record).new or 0
        grids = run(calls, start)
        assert grids[-1] == cases.buffer[: side**3] and demand_3(calls, grids)
        assert new == unmarked(start) - unmarked(grids[-1])


def large(cases, dice):
    """The largest counts at side 64: over the whole cube, over and under; and coordinates 0 and 63, too far apart."""
    def third(*at):
        return 7 * sum(at)

    shapes = (
        points_of(third, lambda *at: 63 - third(*at), lambda i, j, k: 10 * i + 10 * j),
        points_of(lambda i, j, k: 10 * i + 10 * k, lambda i, j, k: 63 - 10 * j - 10 * k, lambda i, j, k: 10 * j),
        points_of(
            lambda i, j, k: (0, 10, 8, 18)[i], lambda i, j, k: (0, 9, 19, 9)[j], lambda i, j, k: 63 - (0, 1, 11, 9)[k]
        ),
        points_of(lambda i, j, k: 10 * i, lambda i, j, k: 33 + 10 * j, lambda i, j, k: 16 + 10 * k),
    )
    for number, (shape, choice) in enumerate(product(shapes, CHOICES)):
        cases.fill(BUFFER, 0, (0, 128, 85, 64)[number % 4])
        record = solid(shape, 32, 32, 32, 1 + number, choice)
        assert cases.both(64, record) is None, (number, long_steps(record)[0][:3])
        cases.show(number, 4161)
        for which, (n, expected) in product(range(3), ((33, {13}), (2, {15, None}))):
            counts = [32, 32, 32]
            counts[which] = n
            assert cases.check(64, record._replace(counts=tuple(counts))) in expected
    for counts in (32, 31, 30), (29, 32, 31), (32, 1, 1), (1, 32, 1), (1, 1, 32), (32, 32, 1), (1, 32, 32), (32, 1, 32):
        cases.fill(BUFFER)
        along = [10 if n > 1 else 0 for n in counts]
        points = points_of(*(lambda *at, turn=turn: sum(
            (along[p] if p == turn else along[p] // 3) * at[p] for p in range(3)
        ) // 2 for turn in range(3)))  # fmt: skip
        cases.call("D", 64, solid(points, *counts, MARK))
    for pattern in (
        lambda i, j, k: 63 * (i % 2), lambda i, j, k: 63 * (j % 2), lambda i, j, k: 63 * (k % 2),
        lambda i, j, k: 63 * ((i + j + k) % 2), lambda i, j, k: 63 * (k > 1), lambda i, j, k: 63 * (i > 1),
        lambda i, j, k: 63 * (i == j == k == 3), lambda i, j, k: 63 * (i == j == k == 0),
        lambda i, j, k: 63 * (i + j + k > 4), lambda i, j, k: 21 * k, lambda i, j, k: 21 * j, lambda i, j, k: 21 * i,
    ):  # fmt: skip
        for axis in range(3):
            points = on_axis(axis, [pattern(*at) for at in product(range(4), repeat=3)])
            assert cases.check(64, solid(points, 32, 32, 32, MARK)) == 15
    cases.fill(BUFFER, 1, 1)
    for _ in range(12):
        points = [63 * dice.randrange(2) for _ in range(192)]
        assert cases.call("D", 64, solid(points, 32, 32, 32, MARK)).refusal == 15


def no_cases(cases):
    """Records that are no case, of another form or lent more than there is; and bytes shown past the buffer's end."""
    first = cases.records[0][0]
    longer = [case_record(letter, (2, 1, MARK, BUFFER + 1), NUMBERS) for letter in "FDKP"]
    others = [case_record(letter, (2, 1, MARK, 8, 1, 0, 1), NUMBERS) for letter in "LQTUVX"]
    for case in *malformed(first), first[:-1] + " ", *longer, *others:
        cases.records.append((case, answer_record("B", (), "d", ANSWERS)))
    cases.fill(8, 1, 1)
    cases.show(0, 0)
    cases.show(BUFFER - 8)
    cases.show(LARGEST, LARGEST)


def counted(cases):
    """In print, what the cases meet and how many each wrong way would change."""
    for (letter, kind), count in sorted(cases.answered.items(), key=str):
        yield f"{letter} {kind} {count}"
    for (choice, kind), count in sorted(cases.unmarked.items()):
        yield f"{choice} accepted, cells unmarked before: {kind} {count}"
    for axis, count in sorted(cases.halves.items()):
        yield f"accepted drawings with a sample on a half on {axis}: {count}"
    yield f"different solids drawn and accepted: {len(cases.different)}"
    yield distances_line(cases.distances, "solids")
    for (letter, along, choice, kind), count in sorted(cases.in_disguise.items()):
        what = f"beside the curve along {along}" if letter == "K" else f"beside the patch without {along}"
        yield f"{letter} {choice}, {what}: {kind} {count}"
    for choice, what, way in WRONG_WAYS:
        said = "new cells counted wrongly" if what == "counts" else "drawn wrongly"
        yield f"{choice}, {said}, {way}: seen by {cases.told[choice, what, way]} drawings"
    for way in WRONG_SOLID_WAYS["drawing"]:
        checks = f" and {cases.solids_told['check', way]} checks" if way in WRONG_SOLID_WAYS["check"] else ""
        yield f"solids taken wrongly, {way}: seen by {cases.solids_told['drawing', way]} drawings{checks}"
    yield f"{len(cases.records)} records"


def main():
    """Writes or checks both files, or prints the counts; the exit status."""
    cases = Cases()
    for part in (
        document_samples, steps_alone, counts_of_steps, sides_lengths_marks, refusals, ties,
    ):  # fmt: skip
        part(cases)
    asymmetric(cases, random.Random(6))
    each_coordinate(cases, random.Random(5))
    in_disguise(cases, random.Random(1))
    random_calls(cases, random.Random(2))
    into_one_grid(cases, random.Random(3))
    large(cases, random.Random(4))
    no_cases(cases)
    assert all(distance <= 1 for _, distance in cases.distances), cases.distances
    assert min(cases.unmarked[kind] for kind in product(CHOICES, ("all", "some", "none"))) >= 60, cases.unmarked
    assert min(cases.told[way] for way in WRONG_WAYS) >= 100, cases.told
    for call, ways in WRONG_SOLID_WAYS.items():
        few = {way: cases.solids_told[call, way] for way in ways if cases.solids_told[call, way] < 3}
        assert not few, few
    if "--count" in sys.argv[1:]:
        for said in counted(cases):
            print(said)
        return 0
    return store("solid_cases", cases.records)


if __name__ == "__main__":
    sys.exit(main())
