"""Runs the sheet programs on inputs in several reads, on reads and writes that fail, and on inputs of every length that
matters, and compares standard output, standard error and the exit status with what the separate model says.

`python3 tests/programs.py DIRECTORY`, with the directory of the programs; the exit status is 1 if anything differs.
"""

import fcntl
import os
import random
import resource
import struct
import subprocess
import sys
import tempfile
import termios
import time
from functools import lru_cache
from pathlib import Path

import sheets
from model import CURVE_LINES, SAMPLE_SHEET, format_line, sheet_output, totals_output
from sheets import CELL, SIDE, STROKE, faulty

PROGRAMS = {"stroke_sheet": sheet_output, "key_totals": totals_output}
UNREAD, UNWRITTEN = ": the sheet cannot be read\n", ": the output cannot be written, or not all of it\n"
FULL = SIDE + STROKE * (CURVE_LINES - 1) + CELL  # the longest sheet, of 14206 bytes
MOST_READ = len(FULL) + 1  # what a program reads at most
DENSE = format_line(40) + b"".join(sheets.dense_strokes())  # its listing has far more than one write holds
SHEETS = {
    "the empty input": b"",
    "the sample sheet": SAMPLE_SHEET,
    "no line feed at the end": SAMPLE_SHEET[:-1],
    "a refused line 1": b"   41\n" + STROKE,
    **{f"refused by {number}": SIDE + STROKE + faulty([number], 0) + CELL for number in sheets.FAULTS},
    "14206 bytes": FULL,
    "14206 bytes, refused": FULL[:-71] + faulty([15], 0),
    **{f"{len(FULL) + more} bytes": FULL + (CELL * 99)[:more] for more in (1, 2, 71, 2178, 7000)},
    "14207 bytes, the last a line feed": FULL + b"\n",
    "14205 bytes": FULL[:-1],
    "a listing of many writes": DENSE,
}


class Runs:
    """The runs of a program so far, and what differed."""

    def __init__(self, directory, name):
        self.path, self.name, self.count, self.wrong = directory / name, name, 0, 0

    def expect(self, what, found, output, message=b""):
        """A run's standard output, standard error and exit status, held to what they should be."""
        self.count += 1
        wanted = output, message and (self.name + message).encode(), 0
        for stream, a, b in zip(("standard output", "standard error", "the exit status"), found, wanted, strict=True):
            if a != b:
                self.wrong += 1
                shown = f"{a!r}, and not {b!r}" if max(len(repr(a)), len(repr(b))) < 200 else "other bytes"
                print(f"{self.name}, {what}: {stream} is {shown}")

    def run(self, stdin, feed=lambda: None, **streams):
        """Starts the program, feeds it, and waits: what it wrote, and its exit status."""
        streams = {"stdout": subprocess.PIPE, **streams}
        with subprocess.Popen([self.path], stdin=stdin, stderr=subprocess.PIPE, **streams) as program:
            feed()
            out, err = program.communicate(timeout=60)
            return out or b"", err, program.returncode

    def in_pieces(self, pieces):
        """A run on an input that comes in pieces, each only after the program has read those before."""
        reads, writes = os.pipe()

        def feed():
            sent, deadline = 0, time.monotonic() + 30
            for piece in pieces:
                os.write(writes, piece)
                sent += len(piece)
                while sent <= MOST_READ and unread(reads) and time.monotonic() < deadline:
                    time.sleep(0.0005)
            os.close(writes)

        found = self.run(reads, feed)
        os.close(reads)
        return found


def unread(pipe):
    """How many bytes wait in a pipe."""
    return struct.unpack("i", fcntl.ioctl(pipe, termios.FIONREAD, b"\0" * 4))[0]


def cut(sheet, places):
    """A sheet cut at some places."""
    ends = sorted({0, len(sheet), *(place for place in places if place < len(sheet))})
    return [sheet[a:b] for a, b in zip(ends, ends[1:])]


def whole_inputs(runs, output):
    """Each sheet at once, from a file and through a pipe."""
    for what, sheet in SHEETS.items():
        with tempfile.TemporaryFile() as file:
            file.write(sheet)
            file.seek(0)
            runs.expect(f"{what}, from a file", runs.run(file), output(sheet))
        runs.expect(f"{what}, through a pipe", runs.in_pieces([sheet] if sheet else []), output(sheet))


def several_reads(runs, output):
    """Each sheet in pieces, cut at the ends of lines and fields, beside them, and anywhere; short ones byte by byte."""
    dice = random.Random(7)
    for what, sheet in SHEETS.items():
        ways = [[1], [5, 6, 7], [76, 77, 78], [4096, 8192], range(0, len(sheet), 999), [14205], [14206], [14207]]
        ways += [dice.sample(range(len(sheet) + 1), min(len(sheet), 9)) for _ in range(3)]
        if len(sheet) < 400:
            ways.append(range(len(sheet)))
        for places in ways:
            pieces = cut(sheet, places)
            if len(pieces) > 1:
                runs.expect(f"{what}, in {len(pieces)} pieces", runs.in_pieces(pieces), output(sheet))


def failed_reads(runs):
    """Standard input a directory, closed, or failing after some bytes: a line on standard error and no output."""
    with_directory = os.open(".", os.O_RDONLY)
    runs.expect("a directory for standard input", runs.run(with_directory), b"", UNREAD)
    os.close(with_directory)
    closed = runs.run(subprocess.DEVNULL, preexec_fn=lambda: os.close(0))
    runs.expect("standard input closed", closed, b"", UNREAD)
    for sheet in SAMPLE_SHEET, FULL, b"":
        reads, writes = os.pipe()
        os.set_blocking(reads, False)
        os.write(writes, sheet) if sheet else None
        found = runs.run(reads)  # a read of an empty pipe whose other end is open fails
        os.close(reads)
        os.close(writes)
        runs.expect(f"a read that fails after {len(sheet)} bytes", found, b"", UNREAD)


def failed_writes(runs, output):
    """Standard output full, closed, without a reader, or full after some bytes: a line on standard error."""
    for what in "the sample sheet", "the empty input", "a listing of many writes":
        sheet = SHEETS[what]
        with tempfile.TemporaryFile() as file:
            file.write(sheet)

            def run(**streams):
                file.seek(0)
                return runs.run(file, **streams)

            with open("/dev/full", "wb") as full:
                runs.expect(f"{what}, standard output full", run(stdout=full), b"", UNWRITTEN)
            runs.expect(f"{what}, standard output closed", run(preexec_fn=lambda: os.close(1)), b"", UNWRITTEN)
            reads, writes = os.pipe()
            os.close(reads)
            found = run(stdout=writes, restore_signals=False)  # the signal for a pipe without a reader stays ignored
            os.close(writes)
            runs.expect(f"{what}, standard output without a reader", found, b"", UNWRITTEN)
            for most in 10, 40000, 70000:
                if most < len(output(sheet)):
                    with tempfile.TemporaryFile() as kept:
                        limit = lambda: resource.setrlimit(resource.RLIMIT_FSIZE, (most, most))
                        _, err, status = run(stdout=kept, restore_signals=False, preexec_fn=limit)
                        kept.seek(0)
                        found = kept.read(), err, status
                        runs.expect(f"{what}, room for {most} bytes", found, output(sheet)[:most], UNWRITTEN)


def main():
    """Runs both programs; the exit status."""
    wrong = 0
    for name, output in PROGRAMS.items():
        runs, output = Runs(Path(sys.argv[1]).resolve(), name), lru_cache(maxsize=None)(output)
        whole_inputs(runs, output)
        several_reads(runs, output)
        failed_reads(runs)
        failed_writes(runs, output)
        print(f"{name}: {runs.count} runs, {runs.wrong} differences")
        wrong += runs.wrong
    return 1 if wrong else 0


if __name__ == "__main__":
    sys.exit(main())
