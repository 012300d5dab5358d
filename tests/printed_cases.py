"""Writes stored sheets and what the sheet programs print for each, by the separate model of documents 01 and 02.

`python3 tests/printed_cases.py` writes crates/printed_cases/stdin and stdout; with `--check` it writes nothing and exits
with 1 if they are not what it would write; with `--count` it prints how many cases are of each kind.  A case is a
heading, which has the report and the sheet's length, and then the sheet; its answer is all that the sheet program, or
the totals program, prints for that sheet.
"""

import random
import sys
from collections import Counter
from itertools import product

import sheets
from model import BUFFER_LENGTH, CURVE_LINES, format_line, sheet_lines, sheet_printed, totals_printed
from sheets import CELL, CURVE_NUMBERS, LONGEST, SIDE, SIDE_NUMBERS, STROKE, faulty, with_field
from stored import case_record

LISTING, TOTALS = REPORTS = 0, 1
TEXT, CELL_LINE = 65536, 21  # bytes of the text that a listing is written from, and of a cell's line
LINE = 51  # bytes of a mark's line
FULL = 2, 3, 4, 5, 14  # sides of cubes filled row by row: 14 × 14 rows are still not above 200

WANTED = (
    *sheets.WANTED,
    *(f"a line of mark {mark}" for mark in range(256)),
    *("mark 1 alone", "mark 255 alone", "only the line of mark 0"),
    *(f"marks {marks} of one cell each" for marks in ("1 to 200", "56 to 255")),
    *("marks in rising order", "marks in falling order", "a mark without a cell"),
    *(f"a stroke in a cube of side {side}" for side in range(2, 41)),
    *(f"no unmarked cell, side {side}" for side in FULL),
    *(f"one mark in every cell, side {side}" for side in FULL),
    *(f"a {column} of {digits} digits" for column, most in (("count", 5), ("sum", 7)) for digits in range(1, most + 1)),
    *(f"a mark's {what}" for what in ("count above 15000", "sum above 300000")),
    "sums of x, y and z that all differ",
    *(f"a listing of {writes}" for writes in ("1 write", "2 writes", "3 writes or more", "10 writes or more")),
    *(f"a listing of side {side}" for side in range(2, 41)),
    *(f"a listing with every cell of plane {z} of side 40 marked" for z in (0, 1, 2, 20, 39)),
    *("a listing without a cell", "a listing of the empty input"),
    *(f"a listing refused by {number}" for number in sorted({*SIDE_NUMBERS, *CURVE_NUMBERS})),
)


# The records


def totals_kinds(sheet, answer, printed):
    """Every kind of which the totals of an accepted sheet are an example."""
    rows = [[int(line[at : at + 10]) for at in range(0, LINE - 1, 10)] for line in sheet_lines(printed)]
    marks = [mark for mark, *_ in rows[:-1]]
    drawn = [int(line[:5]) for line in sheet_lines(sheet)[1:]]
    for mark, count, *sums in rows:
        yield f"a line of mark {mark}"
        yield f"a count of {len(str(count))} digits"
        yield from (f"a sum of {len(str(total))} digits" for total in sums)
        if mark > 0 and count > 15000:
            yield "a mark's count above 15000"
        if mark > 0 and max(sums) > 300000:
            yield "a mark's sum above 300000"
        if len({*sums}) == 3:
            yield "sums of x, y and z that all differ"
    if not marks:
        yield "only the line of mark 0"
    else:
        yield f"a stroke in a cube of side {answer.side}"
    if len(marks) == 1:
        yield f"mark {marks[0]} alone"
    if len(marks) == CURVE_LINES and all(count == 1 for _, count, *_ in rows[:-1]):
        yield f"marks {marks[0]} to {marks[-1]} of one cell each"
    if len(marks) > 1 and drawn in (marks, marks[::-1]):
        yield f"marks in {'rising' if drawn == marks else 'falling'} order"
    if {*drawn} - {*marks}:
        yield "a mark without a cell"
    if rows[-1][1] == 0:
        yield f"no unmarked cell, side {answer.side}"
        if len(marks) == 1:
            yield f"one mark in every cell, side {answer.side}"


def listing_writes(side, planes):
    """How many writes a listing takes, by the number of marked cells in each plane.

    A write has whole planes, as many as the text has room for with every cell of the next plane marked.
    """
    room, count, held = CELL_LINE * (side * side + 1), 0, TEXT
    for z in range(side):
        if TEXT - held < room:
            count, held = count + 1, 0
        held += CELL_LINE * (planes[z] + (z == 0))
    return count


def listing_kinds(sheet, answer, printed):
    """Every kind of which a listing is an example."""
    if answer.refusal is not None:
        yield f"a listing refused by {answer.refusal}"
        if not sheet:
            yield "a listing of the empty input"
        return
    yield f"a listing of side {answer.side}"
    planes = Counter(int(line[10:15]) for line in sheet_lines(printed)[1:])
    if not planes:
        yield "a listing without a cell"
    if answer.side == 40:
        full = (z for z, count in planes.items() if count == 1600)
        yield from (f"a listing with every cell of plane {z} of side 40 marked" for z in full)
    writes = listing_writes(answer.side, planes)
    if writes < 3:
        yield f"a listing of {writes} write{'s' if writes > 1 else ''}"
    yield from (f"a listing of {least} writes or more" for least in (3, 10) if writes >= least)


def kinds(sheet, answer, report, printed):
    """Every kind of which a sheet and what is printed of it are an example."""
    yield from sheets.kinds(sheet, answer)
    if report == LISTING:
        yield from listing_kinds(sheet, answer, printed)
    elif answer.refusal is None:
        yield from totals_kinds(sheet, answer, printed)


class Cases(sheets.Cases):
    """The cases of what is printed."""

    def add(self, sheet, *expected, kind=None, reports=REPORTS):
        """A sheet, its answer, which begins as expected, and what is printed of it by each report."""
        answer = self.draw(sheet, bytes(BUFFER_LENGTH), expected)
        for report in reports:
            printed = (sheet_printed, totals_printed)[report](answer)
            heading = case_record("P", (report, len(sheet)), 2)
            case = heading + sheet.decode("latin-1"), printed.decode()
            self.keep(case, kinds(sheet, answer, report, printed), kind)
        return answer


# The sheets


def dot(mark, cell):
    """A stroke that stays in a cell."""
    return format_line(mark, 1, *cell * 4)


def add_strokes(cases, side, strokes, reports=REPORTS):
    """A sheet of good strokes."""
    return cases.add(format_line(side) + b"".join(strokes), None, None, side, reports=reports)


def single_cells(cases, dice):
    """Marks of one cell each: marks 1 and 255 in every cell of a small cube, and 200 marks at once."""
    for mark, cell in product((1, 255), product(range(2), repeat=3)):
        add_strokes(cases, 2, [dot(mark, cell)])
    for axis, side in product(range(3), (3, 17, 40)):
        cell = [side - 1 if a == axis else 0 for a in range(3)]
        add_strokes(cases, side, [dot(7 + axis, cell), dot(100, [side - 1] * 3)])
    rising, falling = range(1, 1 + CURVE_LINES), range(255, 255 - CURVE_LINES, -1)
    shuffled = dice.sample(range(1, 256), CURVE_LINES)
    for side, marks in (6, rising), (40, rising), (6, falling), (40, falling), (9, shuffled):
        places = dice.sample(range(side**3), CURVE_LINES)
        cells = [(place % side, place // side % side, place // side**2) for place in places]
        add_strokes(cases, side, map(dot, marks, cells))


def painted_over(cases):
    """Marks that later strokes leave without a cell, or with some."""
    for side in 4, 40:
        one_cell = dot(1, (3, 3, 3)), dot(255, (3, 3, 3))
        for lines in (STROKE, CELL), (CELL, STROKE), one_cell, (STROKE,) * 5 + (CELL,) * 5:
            add_strokes(cases, side, lines)
    for marks in range(1, 201), range(255, 55, -1):
        add_strokes(cases, 2, (dot(mark, (1, 0, 1)) for mark in marks))


def rows(cases):
    """Cubes filled by a stroke for each row along an axis, each with a mark of its own, or all with one."""
    for axis, side in product(range(3), FULL):
        starts = [cell for cell in product(range(side), repeat=3) if cell[axis] == 0]
        ends = [[side - 1 if a == axis else c for a, c in enumerate(cell)] for cell in starts]
        along = [(3 * (side - 1), *cell * 2, *end * 2) for cell, end in zip(starts, ends, strict=True)]
        if side < 14 or axis == 1:
            add_strokes(cases, side, (format_line(255 - k, *row) for k, row in enumerate(along)))
        if side < 14 or axis == 2:
            add_strokes(cases, side, (format_line(1 + 127 * axis, *row) for row in along))


def dense_cubes(cases):
    """The fullest cube of side 40, with one mark and with two, as totals; and full planes of it, as a listing."""
    for marks in (b"255",), (b"1", b"255"):
        strokes = enumerate(sheets.dense_strokes())
        lines = (with_field(line, 0, marks[k % len(marks)]) for k, line in strokes)
        add_strokes(cases, 40, lines, reports=(TOTALS,))
    along = product((0, 1, 2, 20, 39), range(40))
    lines = (format_line(56 + k, 117, *(0, y, z) * 2, *(39, y, z) * 2) for k, (z, y) in enumerate(along))
    add_strokes(cases, 40, lines, reports=(LISTING,))


def long_sheets(cases):
    """Sheets of 200 curve lines: what stands after line 201, faults on it, and the longest input."""
    full = SIDE + STROKE * (CURVE_LINES - 1) + CELL
    cases.add(full, None, None, 4, CURVE_LINES)
    for after in b"\n", STROKE + CELL, faulty([41, 42, 12], 0), faulty([13, 14, 15], 1), b"\n" * (LONGEST - len(full)):
        cases.add(full + after, 44, 202)
    cases.add(full[:-1], 41, 201)
    cases.add(full[:-71] + faulty([15], 0) + b"7", 15, 201)


def main():
    """Writes or checks both files, or prints the counts; the exit status."""
    cases, dice = Cases(), random.Random(6)
    for part in sheets.samples, sheets.refusals, sheets.overlaps, sheets.full_cubes:
        part(cases)
    single_cells(cases, dice)
    for part in painted_over, rows, dense_cubes, long_sheets:
        part(cases)
    sheets.random_sheets(cases, dice, good=3, changed=2)
    return cases.store("printed_cases", WANTED)


if __name__ == "__main__":
    sys.exit(main())
