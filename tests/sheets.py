"""Stroke sheets, good and bad, and what each is an example of: what the writers of stored sheets share."""

import re
import sys
from collections import Counter
from functools import lru_cache
from itertools import combinations, product

from model import (
    CURVE_LINES, K1_TO_K11, SAMPLE_SHEET, curve, draw_sheet, format_line, marked_cells, on_axis, read_field, sheet_lines,
    steps_too_long, wrong_length,
)  # fmt: skip
from stored import store

SIDE_NUMBERS, CURVE_NUMBERS = (41, 42, 11, 43), (44, 41, 42, 12, 13, 14, 15)  # in their orders
LARGEST = 6 + 71 * CURVE_LINES + 1  # past so many bytes nothing matters
LONGEST = 16384  # the longest sheet that a program takes from its stored cases


# What a sheet is an example of


def values(line, fields):
    """The numbers of a line's first fields, whatever follows them; None for a bad field."""
    digits = (read_field(line[5 * k : 5 * k + 5]) for k in range(fields))
    return [int(part) if part else None for part in digits]


def side_line_numbers(line):
    """All numbers that apply to line 1, whatever their order."""
    (side,) = values(line, 1)
    applies = {
        41: wrong_length(line, 1),
        42: side is None,
        11: side is not None and not 2 <= side <= 64,
        43: side is not None and 41 <= side <= 64,
    }
    return [number for number in SIDE_NUMBERS if applies[number]]


@lru_cache(maxsize=None)
def curve_line_numbers(line, side, late):
    """All numbers that apply to a curve line, whatever their order; of a late one, past line 201, also 44."""
    mark, n, *points = values(line, 14)
    applies = {
        44: late,
        41: wrong_length(line, 14),
        42: None in (mark, n, *points),
        12: mark is not None and not 1 <= mark <= 255,
        13: n is not None and not 1 <= n <= 512,
        14: any(c is not None and c >= side for c in points),
        15: n in range(1, 514) and None not in points and steps_too_long(curve(points, n, 1)),
    }
    return [number for number in CURVE_NUMBERS if applies[number]]


def standing(line, last):
    """Where a line stands."""
    if line == 1:
        return "line 1"
    if line == 2:
        return "the only curve line" if last == 2 else "the first curve line"
    return "the last line" if line == last else "a middle line"


def refusal_kinds(lines, answer):
    """The refusal and its line, and each pair of refusals on the line, or on it and a later line."""
    at = answer.line - 1
    yield f"{answer.refusal} on {standing(answer.line, len(lines))}"
    (side,) = values(lines[0], 1)
    cube = side if side in range(2, 65) else 64
    applying = [
        curve_line_numbers(line, cube, number > 1 + CURVE_LINES) if number > 1 else side_line_numbers(line)
        for number, line in enumerate(lines[at:], answer.line)
    ]
    for a, b in combinations(applying[0], 2):
        yield f"{a} and {b} on {'a curve line' if at else 'line 1'}"
    for b in {number for numbers in applying[1:] for number in numbers}:
        yield f"{answer.refusal} on {'a curve line' if at else 'line 1'}, {b} on a later line"


FIELDS = {  # kinds of bad fields
    "a tab": rb".*\t.*",
    "a sign +": rb" *\+[0-9]+",
    "a sign -": rb" *-[0-9]+",
    "a leading zero": rb" *0[0-9]+",
    "only blanks": rb" {5}",
    "a blank inside the number": rb" *[0-9]+ +[0-9]+",
    "a blank after the number": rb" *[0-9]+ +",
    "a carriage return": rb".*\r.*",
    "a byte 0": rb".*\0.*",
    "a byte 255": rb".*\xff.*",
}


def form_kinds(lines, answer):
    """How the line is that is refused by 41 or 42."""
    where = "line 1" if answer.line == 1 else "a curve line"
    fields = 1 if answer.line == 1 else 14
    line = lines[answer.line - 1]
    columns = len(line.removesuffix(b"\n"))
    if line.endswith(b"\r\n"):
        yield f"{answer.refusal} on {where} that ends with CR LF"
    if answer.refusal == 42:
        for kind, form in FIELDS.items():
            if any(re.fullmatch(form, line[5 * k : 5 * k + 5], re.DOTALL) for k in range(fields)):
                yield f"{kind} in {where}"
    elif line == b"\n":
        yield f"an empty line, {standing(answer.line, len(lines))}"
    elif line.endswith(b"\n"):
        yield f"{where} of {columns} columns"
    elif columns == 5 * fields:
        yield f"no line feed on {standing(answer.line, len(lines))}"


def value_kinds(lines, answer):
    """The values of line 1 and of the first curve line, where the answer is about them."""
    if answer.refusal in (None, 11, 43):
        yield f"side {int(lines[0])}"
    if len(lines) > 1 and answer.refusal in (None, 12, 13, 14) and answer.line in (None, 2):
        side = int(lines[0])
        mark, n, *points = values(lines[1], 14)
        if answer.refusal in (None, 12):
            yield f"mark {mark}"
        if answer.refusal in (None, 13):
            yield f"n {n}"
        if answer.refusal in (None, 14):
            for k, c in enumerate(points):
                if c in (side - 1, side):
                    yield f"coordinate {k} {'side - 1' if c < side else 'side'}"
                elif c >= side:
                    yield f"coordinate {c}"


def kinds(sheet, answer):
    """Every kind of which a sheet is an example, whose answer this is."""
    lines = sheet_lines(sheet)
    if not sheet:
        yield "the empty input"
        return
    if sheet == SAMPLE_SHEET:
        yield "the sample sheet"
    if len(sheet) > LARGEST:
        yield f"more than {LARGEST} bytes"
    yield from value_kinds(lines, answer)
    if answer.refusal is None:
        yield "accepted"
        if answer.curves in (0, 1, CURVE_LINES):
            yield f"accepted, with {answer.curves} curve lines"
        return
    yield from refusal_kinds(lines, answer)
    if answer.refusal in (41, 42):
        yield from form_kinds(lines, answer)
    if answer.refusal == 44:
        if lines[201:] and len(lines[201]) == 71:
            yield "201 curve lines"
        if len(sheet) == LARGEST:
            yield f"a single byte {sheet[-1]} after line 201"


WANTED = (  # of every writer
    *("accepted", "the empty input", "the sample sheet"),
    *(f"accepted, with {curves} curve lines" for curves in (0, 1, CURVE_LINES)),
    *(f"{number} on line 1" for number in SIDE_NUMBERS),
    *(
        f"{number} on {where}"
        for number, where in product(
            CURVE_NUMBERS[1:], ("the only curve line", "the first curve line", "a middle line", "the last line")
        )
    ),
    *("44 on a middle line", "44 on the last line", "201 curve lines"),
    *(f"41 and {number} on line 1" for number in (42, 11, 43)),
    *(f"{a} and {b} on a curve line" for a, b in combinations(CURVE_NUMBERS, 2)),
    *(f"{a} on line 1, {b} on a later line" for a, b in product(SIDE_NUMBERS, CURVE_NUMBERS[1:])),
    *(f"{a} on a curve line, {b} on a later line" for a, b in product(CURVE_NUMBERS[1:], repeat=2)),
    *(f"side {side}" for side in (*range(42), 64, 65, 99999)),
    *("overlapping strokes", *(f"a full cube of side {side}" for side in (2, 3, 40))),
    *("a random sheet", "a random sheet with one byte changed"),
)


# The cases


class Cases:
    """The cases and their answers so far, and how many there are of each kind."""

    def __init__(self):
        self.records = []
        self.found = Counter()

    def draw(self, sheet, buffer, expected):
        """A sheet call's answer, which begins as expected; if accepted, its new cells are as many as its marked ones."""
        answer = draw_sheet(sheet, buffer)
        assert answer[: len(expected)] == expected, (answer[:5], expected)
        assert answer.refusal is not None or {*marked_cells(answer)} == {answer.new}, answer[:5]
        return answer

    def keep(self, record, found, kind):
        """A case and its answer, the kinds of its sheet, and a kind by which the sheet was made, or None."""
        self.records.append(record)
        self.found.update(found)
        if kind:
            self.found[kind] += 1

    def store(self, program, wanted):
        """Writes or checks both files of a program, or prints the counts; the exit status."""
        missing = [kind for kind in wanted if not self.found[kind]]
        assert not missing, missing
        if "--count" in sys.argv[1:]:
            for kind in wanted:
                print(f"{self.found[kind]:5} {kind}")
            print(f"{len(self.records):5} in all")
            return 0
        return store(program, self.records)


# The sheets, each added to the cases


SIDE = format_line(4)
STROKE = format_line(7, 3, *on_axis(0, (0, 1, 2, 3)))
CELL = format_line(9, 1, *[0] * 12)  # a stroke that stays in cell 0


def with_field(line, k, field):
    """The line with another field k."""
    return line[: 5 * k] + b"%5b" % field + line[5 * k + 5 :]


# For each number, two ways to make it apply to a stroke that stays in cell 0, in a cube of side 4; in the second way a bad
# field takes the mark's place.
FAULTS = {
    12: (lambda line: with_field(line, 0, b"0"), lambda line: with_field(line, 0, b"256")),
    13: (lambda line: with_field(line, 1, b"0"), lambda line: with_field(line, 1, b"513")),
    14: (lambda line: with_field(line, 13, b"4"), lambda line: with_field(line, 13, b"99999")),
    15: (lambda line: with_field(line, 11, b"2"), lambda line: with_field(line, 11, b"3")),
    42: (lambda line: with_field(line, 6, b"+0"), lambda line: with_field(line, 0, b"09")),
    41: (lambda line: line[:-1] + b" \n", lambda line: line[1:]),
}
# Lines 1 to which one number applies, or two.
BAD_SIDES = {
    (41,): (b"   4\n", b"     4\n", b"    4 \n", b"\n"),
    (42,): (b"   +4\n", b"   04\n", b"4    \n", b"     \n"),
    (11,): (b"    0\n", b"    1\n", b"   65\n", b"99999\n"),
    (43,): (b"   41\n", b"   64\n"),
    (41, 42): (b"4   \n", b"  +4\n", b"4     \n", b"   04 \n"),
    (41, 11): (b"    1 \n", b"   65 \n", b"    0\r\n"),
    (41, 43): (b"   41 \n", b"   64 \n", b"   50\r\n"),
    (42, 11): (b"   01\n", b"   -1\n", b"  065\n", b"1    \n"),
    (42, 43): (b"  041\n", b"  +64\n", b"64   \n"),
}


def samples(cases):
    """The sample sheet, the empty input, K1 to K11 as strokes, and every side alone."""
    cases.add(SAMPLE_SHEET, None, None, 4, 1)
    cases.add(b"", 41, 1)
    for axis, (_, points, n, _, refusal) in product(range(3), K1_TO_K11):
        cases.add(format_line(8) + format_line(9, n, *on_axis(axis, points)), refusal)
    for side in *range(68), 99, 100, 258, 260, 1000, 9999, 10000, 65535, 65538, 65540, 99999:
        cases.add(format_line(side))
    for side in 2, 3, 39, 40, 41, 64, 65, 99999:
        cases.add(format_line(side) + CELL)


def faulty(numbers, way):
    """The stroke that stays in cell 0, with these faults."""
    line = CELL
    for number in sorted(numbers, key=list(FAULTS).index):
        line = FAULTS[number][way](line)
    return line


def refusals(cases):
    """One fault on every kind of line, and faults together, on a line and on two: the first of the order is answered."""
    for way, number in product(range(2), FAULTS):
        for before, after in (0, 0), (0, 3), (1, 2), (2, 1), (3, 0), (9, 9):
            cases.add(SIDE + STROKE * before + faulty([number], way) + CELL * after, number, 2 + before)
    for way, size in product(range(2), (2, 3, len(FAULTS))):
        for numbers in combinations(CURVE_NUMBERS[1:], size):
            cases.add(SIDE + STROKE + faulty(numbers, way) + STROKE, numbers[0], 3)
    cases.add(SIDE + format_line(0, 513, *[0] * 11, 99999), 12)
    cases.add(SIDE + format_line(1, 513, *[0] * 11, 99999), 13)
    for numbers, lines in BAD_SIDES.items():
        for line, after in product(lines, (b"", STROKE * 2)):
            cases.add(line + after, numbers[0], 1)
    for k, ((way, a), b) in enumerate(product(product(range(2), FAULTS), FAULTS), 1):
        between = STROKE * (way + k % 2)
        cases.add(SIDE + CELL * way + faulty([a], way) + between + faulty([b], 1 - way) + CELL, a, 2 + way)
    for way, number, a in product(range(2), SIDE_NUMBERS, FAULTS):
        cases.add(BAD_SIDES[number,][way] + STROKE * way + faulty([a], 1), number, 1)


def overlaps(cases):
    """Strokes over one another, in both orders, and a cell marked again and again."""
    lines = [format_line(1 + axis, 39, *on_axis(axis, (0, 13, 26, 39))) for axis in range(3)]
    lines += [format_line(200, 200, *[0] * 6, *[39] * 6), format_line(255, 200, *[39] * 6, *[0] * 6)]
    for chosen in (*combinations(lines, 2), *combinations(lines, 3), lines, [STROKE, CELL, STROKE], [STROKE, CELL]):
        forth, back = format_line(40) + b"".join(chosen), format_line(40) + b"".join(reversed(chosen))
        answers = [cases.add(sheet, None, kind="overlapping strokes") for sheet in (forth, back)]
        assert len(set(answers)) == 2 or list(chosen) == list(reversed(chosen))
    for count in 2, 3, 20:
        strokes = (format_line(1 + k, 3, *on_axis(0, (0, 1, 2, 3))) for k in range(count))
        answer = cases.add(SIDE + b"".join(strokes), None, kind="overlapping strokes")
        assert answer.buffer[:4] == bytes([count] * 4)


def dense_strokes():
    """200 strokes that mark about 95 cells each in a cube of side 40."""
    for i, j in product(range(20), range(10)):
        c, z = 39 - 2 * i, (6 * i + 4 * j) % 40
        yield format_line(1 + 10 * i + j, 512, c, 0, z, 39, 39, 39, 39, 39, z, 0, c, z)


def full_cubes(cases):
    """As full as 200 strokes can make a cube: every cell of the small ones, 19000 cells of the largest."""
    for side in 2, 3:
        cells = [(k % side, k // side % side, k // side**2) for k in range(side**3)]
        strokes = (format_line(1 + k, 1, *cells[(5 * k + 3) % side**3] * 4) for k in range(CURVE_LINES))
        sheet, kind = format_line(side) + b"".join(strokes), f"a full cube of side {side}"
        answer = cases.add(sheet, None, None, side, CURVE_LINES, kind=kind)
        assert 0 not in answer.buffer[: side**3]
    sheet = format_line(40) + b"".join(dense_strokes())
    answer = cases.add(sheet, None, None, 40, CURVE_LINES, kind="a full cube of side 40")
    assert answer.buffer.count(0) < 40**3 - 19000


def random_stroke(dice, side):
    """Points in a box of the cube, and a step count at which every step fits."""
    spread = dice.randrange(side)
    corner = [dice.randrange(side - spread) for _ in range(3)]
    points = [corner[k % 3] + dice.randrange(spread + 1) for k in range(12)]
    fits = max(1, *(3 * abs(points[k] - points[k + 3]) for k in range(9)))
    return format_line(dice.randrange(1, 256), dice.choice((fits, fits, fits + dice.randrange(fits), 512)), *points)


def random_sheet(dice, side, curves):
    """A sheet of random strokes, all good."""
    return format_line(side) + b"".join(random_stroke(dice, side) for _ in range(curves))


def damaged(dice, sheet):
    """The sheet with one byte changed, left out or put in, in about every fifth sheet one of line 1."""
    at = dice.randrange(6 if dice.randrange(5) == 0 else len(sheet))
    old = sheet[at : at + 1]
    others = (dice.choice(b"0123456789"), dice.choice(b"\0\t\n\r +-.:\xff"), dice.randrange(256))
    new = dice.choice([bytes([byte]) for byte in others if byte != old[0]])
    return sheet[:at] + dice.choice((new, new, b"", new + old)) + sheet[at + 1 :]


def random_sheets(cases, dice, good, changed):
    """Sheets of every side and many lengths, and such sheets with one byte changed; so many of each side."""
    for count in range(good * 39):
        sheet = random_sheet(dice, 2 + count % 39, dice.choice((0, 1, 2, 3, 5, 8, 13)))
        cases.add(sheet, None, kind="a random sheet")
    for curves in 34, 55, 89, 144, 199, 200, 200:
        sheet = random_sheet(dice, dice.choice((5, 40, 40)), curves)
        cases.add(sheet, None, kind="a random sheet")
        cases.add(damaged(dice, sheet), kind="a random sheet with one byte changed")
    for count in range(changed * 39):
        sheet = random_sheet(dice, 2 + count % 39, dice.choice((1, 1, 1, 2, 2, 3, 4)))
        cases.add(damaged(dice, sheet), kind="a random sheet with one byte changed")
