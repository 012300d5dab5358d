"""Writes the stored stroke sheets and their expected answers, by the separate model of documents 01 and 02.

`python3 tests/sheet_cases.py` writes crates/sheet_cases/stdin and stdout; with `--check` it writes nothing and exits with
1 if they are not what it would write; with `--count` it prints how many sheets are of each kind.  The forms of both are
described in crates/sheet_cases/src.
"""

import random
import sys
from itertools import product
from pathlib import Path

import sheets
from model import BUFFER_LENGTH, CURVE_LINES, SAMPLE_SHEET, draw_sheet, format_line, on_axis, sheet_lines, sheet_printed
from sheets import (
    BAD_SIDES, CELL, CURVE_NUMBERS, FAULTS, FIELDS, LARGEST, LONGEST, SIDE, SIDE_NUMBERS, STROKE, faulty, with_field,
)  # fmt: skip
from stored import answer_record, case_record

NUMBERS, ANSWERS = 5, 9  # in a case's heading, in an answer
BUFFER = 65536  # of the program
PRIMES = 99999989, 99999959
PARTS = 0, 7, 1600, 0, 41, 999, 0, 1, 64, 1599  # 0: plane by plane
FULLEST = Path(__file__).with_name("fullest.sheet").read_bytes()  # of side 40, the most cells that a search found

WANTED = (
    *sheets.WANTED,
    f"more than {LARGEST} bytes",
    *(f"{a} on line 1, 44 on a later line" for a in SIDE_NUMBERS),
    *(f"{a} on a curve line, 44 on a later line" for a in CURVE_NUMBERS[1:]),
    *(f"{number} on {where} that ends with CR LF" for number, where in product((41, 42), ("line 1", "a curve line"))),
    *(f"{kind} in {where}" for kind, where in product(FIELDS, ("line 1", "a curve line"))),
    *("line 1 of 4 columns", "line 1 of 6 columns", "a curve line of 69 columns", "a curve line of 71 columns"),
    *(f"an empty line, {where}" for where in ("line 1", "a middle line", "the last line")),
    *(f"no line feed on {where}" for where in ("line 1", "the only curve line", "the last line")),
    *(f"a single byte {byte} after line 201" for byte in (10, 32, 48, 0, 255)),
    *(f"mark {mark}" for mark in (0, 1, 255, 256, 99999)),
    *(f"n {n}" for n in (0, 1, 512, 513, 99999)),
    *(f"coordinate {k} {c}" for k, c in product(range(12), ("side - 1", "side"))),
    *(f"coordinate {c}" for c in (255, 256, 99999)),
    *(
        f"21, by a buffer of {lent} bytes, of {of} sheet"
        for lent, of in product((0, 63999, 64001), ("an accepted", "a refused"))
    ),
    *("no new cell", "as many new cells as samples", "fewer new cells than samples"),
    *("more new cells than the last line has samples", "a last line that adds nothing"),
    *("a buffer full of marks", "fewer new cells in the buffer as it was"),
)


# The records


def holding(held):
    """What bytes hold: how many are not 0, and the number of base 256 with the digits 1 and these, by each prime."""
    number = int.from_bytes(b"\1" + held, "big")
    return len(held) - held.count(0), *(number % prime for prime in PRIMES)


def sum_kinds(sheet, buffer, answer):
    """What the sum of new cells of an accepted sheet is, beside the numbers that a program may take for it."""
    cube = answer.buffer[: answer.side**3]
    samples = [sheets.values(line, 2)[1] + 1 for line in sheet_lines(sheet)[1:]]
    if answer.new == 0:
        yield "no new cell"
    elif answer.new == sum(samples):
        yield "as many new cells as samples"
    else:
        yield "fewer new cells than samples"
    if answer.new > max(samples[-1:], default=0):
        yield "more new cells than the last line has samples"
    if 0 not in buffer[: len(cube)]:
        yield "a buffer full of marks"
    if answer.new > sum(mark > 0 and held == 0 for mark, held in zip(cube, buffer)):
        yield "fewer new cells in the buffer as it was"


def kinds(sheet, buffer, answer):
    """Every kind of which a stored sheet is an example, that is drawn into this buffer."""
    if len(buffer) == BUFFER_LENGTH:
        yield from sheets.kinds(sheet, answer)
        if answer.refusal is None:
            yield from sum_kinds(sheet, buffer, answer)
    else:
        of = "an accepted" if draw_sheet(sheet, bytes(BUFFER_LENGTH)).refusal is None else "a refused"
        yield f"21, by a buffer of {len(buffer)} bytes, of {of} sheet"


class Cases(sheets.Cases):
    """The cases of a sheet call."""

    def add(self, sheet, *expected, kind=None, lent=BUFFER_LENGTH, fill=None):
        """A sheet, and its answer, which begins as expected.

        It is drawn into lent bytes that are filled before, byte i with first + step × i, modulo 256.
        """
        count = len(self.records)
        first, step = fill or (1 + count % 255, 7 * count % 256)
        part = PARTS[count % len(PARTS)]
        filled = (bytes((first + step * i) % 256 for i in range(256)) * (lent // 256 + 1))[:lent]
        answer = self.draw(sheet, filled, expected)
        said = "R", (answer.refusal, answer.line, 0)
        if answer.refusal is None:
            said = "A", (answer.side, answer.curves, answer.new)
        heading = case_record("S", (lent, first, step, part, len(sheet)), NUMBERS)
        numbers = (*said[1], *holding(answer.buffer), *holding(sheet_printed(answer)))
        record = heading + sheet.decode("latin-1"), answer_record(said[0], numbers, "d", ANSWERS)
        self.keep(record, kinds(sheet, filled, answer), kind)
        return answer


# The sheets


BAD_FIELDS = (
    b"\t   4", b"   \t4", b"   4\t", b"    \t", b"   +4", b"+   4", b"    +", b"   4+", b"   -4", b"-   4", b"    -",
    b"   -0", b"   00", b"   04", b"00000", b"00004", b" 0000", b"00010", b"     ", b"  1 2", b"1   2", b" 1 2 ", b"4    ",
    b"   4 ", b"  40 ", b"0    ", b"\0   4", b"   \x004", b"   4\0", b"\0\0\0\0\0", b"\xff   4", b"   4\xff",
    b"\xff\xff\xff\xff\xff", b"    /", b"    :", b"    @", b"   4a", b"  0x4", b"  4.0", b"  4e0", b"   4,", b"\r   4",
    b"   4\r", b"\xa0   4", b"\x0b   4", b"\x0c   4", b"    \xb2", b"    \xb4",
)  # fmt: skip


def forms(cases):
    """Bad fields everywhere, lines of other lengths and ends, and line feeds where none should be."""
    for field in BAD_FIELDS:
        cases.add(field + b"\n" + CELL, 42, 1)
        for k in 0, 1, 2, 7, 13:
            cases.add(SIDE + with_field(CELL, k, field) + STROKE, 42, 2)
    for k in range(14):
        cases.add(SIDE + STROKE + with_field(STROKE, k, b" " * 5), 42, 3)
    for columns in *range(5), 6, 7, 9, 10, 70:
        line = b" " * (columns - 1) + b"4"[:columns]
        cases.add(line, 41, 1)
        cases.add(line + b"\n" + STROKE, 41, 1)
    for columns in 0, 1, 4, 5, 6, 7, 35, 65, 66, 69, 71, 74, 75, 140, 141, 1000:
        line = (CELL[:-1] * 16)[:columns]
        cases.add(SIDE + line, 41 if line else None)
        cases.add(SIDE + STROKE + line, 41 if line else None)
        for before, after in product((b"", STROKE), repeat=2):
            cases.add(SIDE + before + line + b"\n" + after, 41, 3 if before else 2)
    for end in b"", b"\r\n", b"\r", b"\0", b"\xff", b" ", b"\n\n", b"\n\r", b"\0\n", b"\x0c\n", b"\x1a":
        for lines in (SIDE,), (SIDE, CELL), (SIDE, STROKE, CELL, STROKE):
            cases.add(b"".join(lines)[:-1] + end, 41)
            cases.add(b"".join(line[:-1] + end for line in lines) + b" ", 41)
        cases.add(SIDE + CELL + CELL[:-1] + end + CELL, 41, 4 if end.startswith(b"\n") else 3)
    for curves, last in product(range(5), (STROKE, faulty([12], 0), faulty([15], 0), faulty([42], 0))):
        cases.add(SIDE + STROKE * curves + last[:-1], 41, 2 + curves)
    for k in *range(0, 70, 7), 34, 35, 69:
        cases.add(SIDE + STROKE + STROKE[:k] + b"\n" + STROKE[k + 1 :], 41, 3)
        cases.add(SIDE + STROKE + STROKE[:k] + b"\r" + STROKE[k + 1 :], 42, 3)
    for sheet in b"\n", b"\n" + SIDE, STROKE, STROKE + SIDE, b"\xef\xbb\xbf" + SIDE:
        cases.add(sheet, 41, 1)
    for byte in range(256):
        if byte not in b"0123456789":
            odd = b"    " + bytes([byte])
            cases.add(odd + b"\n" if byte % 2 else SIDE + with_field(CELL, 7, odd), 41 if byte == 10 else 42)


def numbers(cases):
    """The ends of the ranges of mark, step count and coordinates, and numbers that a byte or two cannot hold."""
    for mark in 0, 1, 2, 9, 10, 99, 100, 254, 255, 256, 257, 511, 512, 999, 1000, 9999, 10000, 65535, 65536, 65537, 99999:
        cases.add(format_line(2) + format_line(mark, 1, *[1] * 12))
    for n in 0, 1, 2, 117, 255, 256, 257, 511, 512, 513, 514, 768, 1000, 65535, 65536, 65537, 66048, 99999:
        cases.add(format_line(2) + format_line(255, n, *[1] * 12))
        cases.add(format_line(40) + CELL + format_line(1, n, *on_axis(n % 3, (0, 39, 0, 39))))
    for side, k in product((2, 17, 40), range(12)):
        for c in side - 1, side, 255, 256, 99999:
            points = [c if k == position else 0 for position in range(12)]
            cases.add(format_line(side) + format_line(1 + k, 512, *points), None if c < side else 14)
    for c in 64, 257, 258, 511, 512, 1000, 10000, 65535, 65536, 65537, 65538:
        cases.add(format_line(40) + format_line(3, 512, *[0] * 11, c), 14)


def long_sheets(cases):
    """Sheets of 200 curve lines: what stands after line 201, faults before and on it, and longer inputs."""
    full = SIDE + STROKE * CURVE_LINES
    cases.add(full, None, None, 4, CURVE_LINES)
    for after in b"\n", b" ", b"0", b"\0", b"\xff", b"7", STROKE, STROKE + CELL, STROKE[:-1]:
        cases.add(full + after, 44, 202)
    for number in FAULTS:
        cases.add(full + faulty([number], 0), 44, 202)
        cases.add(full[:-71] + faulty([number], 1) + b"7", number, 201)
    for number in SIDE_NUMBERS:
        cases.add(BAD_SIDES[number,][0] + full[6:] + b" ", number, 1)
    cases.add(full[:-1], 41, 201)
    cases.add(full[:-71] + faulty([15], 0), 15, 201)
    for after in STROKE + b"\0" * 1000, b"\n" * (LONGEST - len(full)), CELL * 20 + b" ":
        cases.add(full + after, 44, 202)
    cases.add(b" " * LONGEST, 41, 1)
    cases.add(SIDE + b"1" * 15000, 41, 2)
    cases.add(SIDE + STROKE + faulty([13], 0) + STROKE * 215, 13, 3)
    cases.add(full[:-71] + faulty([15], 0) + b"\xff" * 1500, 15, 201)


def lent_buffers(cases):
    """Buffers of other lengths than a sheet asks for."""
    for lent in 0, 1, 8, 64, 16384, 63999, 64001, BUFFER:
        for sheet in SAMPLE_SHEET, b"", b"    4", b"    0\n", format_line(40), SIDE + faulty([15], 0), SIDE + STROKE + b"\n":
            cases.add(sheet, 21, 0, lent=lent)


def row(mark, axis, start, side):
    """A stroke through every cell of a row along an axis."""
    end = [side - 1 if a == axis else c for a, c in enumerate(start)]
    return format_line(mark, 3 * (side - 1), *start * 2, *end * 2)


def sums(cases):
    """Sums of new cells: strokes that share cells and that share none, lines that add nothing, and full buffers."""
    along_x = [row(1 + k, 0, (0, k, 0), 10) for k in range(10)]
    along_y = [row(11 + k, 1, (k, 0, 0), 10) for k in range(10)]
    through = [row(9 + axis, axis, [0 if a == axis else 4 for a in range(3)], 10) for axis in range(3)]
    dot = format_line(5, 512, *[4] * 12)  # in the cell that these three share
    steps = format_line(3, 9, *on_axis(2, (0, 3, 6, 9)))  # a sample in each of its cells
    idle = "a last line that adds nothing"
    for strokes, new, kind in (
        ([], 0, None),
        ([steps], 10, None),
        (along_x, 100, None),
        ([*along_x, *along_x], 100, idle),
        ([*along_x, *reversed(along_y)], 100, idle),
        ([*along_x, along_y[3], steps], 109, None),
        (through, 28, None),
        ([*through, dot], 28, idle),
        ([dot, *through], 28, None),
        ([*through[:2], dot, through[2]], 28, None),
        ([dot], 1, None),
        ([dot] * CURVE_LINES, 1, idle),
    ):
        sheet = format_line(10) + b"".join(strokes)
        cases.add(sheet, None, None, 10, len(strokes), new, kind=kind)
    for fill in (0, 0), (7, 0), (255, 0), (0, 128), (128, 128), (1, 1):
        cases.add(SAMPLE_SHEET, None, None, 4, 1, 4, fill=fill)
        cases.add(format_line(10) + b"".join((*through, dot)), None, None, 10, 4, 28, fill=fill)
        cases.add(SIDE + STROKE * 2 + faulty([15], 0), 15, 4, fill=fill)
    starts = [(0, y, z) for y, z in product(range(14), repeat=2)]
    cube = [row(1 + k, 0, start, 14) for k, start in enumerate(starts)]
    planes = [row(1 + k, 0, (0, k % 40, k // 40), 40) for k in range(CURVE_LINES)]
    for side, strokes, new in (14, cube + cube[:4], 14**3), (40, planes, 8000):
        cases.add(format_line(side) + b"".join(strokes), None, None, side, CURVE_LINES, new)
    for fill in (255, 0), (0, 0):
        cases.add(FULLEST, None, None, 40, CURVE_LINES, 24669, fill=fill)


def main():
    """Writes or checks both files, or prints the counts; the exit status."""
    cases = Cases()
    for part in sheets.samples, sheets.refusals, forms, numbers, sheets.overlaps, sheets.full_cubes, long_sheets, lent_buffers:
        part(cases)
    sheets.random_sheets(cases, random.Random(3), good=4, changed=6)
    sums(cases)
    return cases.store("sheet_cases", WANTED)


if __name__ == "__main__":
    sys.exit(main())
