"""What the writers of stored cases share: the records of crates/cases, and the two files of a program that runs them."""

import sys
from collections import Counter
from pathlib import Path

CRATES = Path(__file__).resolve().parent.parent / "crates"
BUFFER = 262144  # bytes of the buffer of a program that draws
PRIMES = 99999989, 99999959


def padded(numbers, count):
    """The numbers of a record, with 0 for those that are not given."""
    return (*numbers, *[0] * (count - len(numbers)))


def case_record(letter, numbers, count):
    """A case: a letter, numbers of eight hexadecimal digits with a blank between two, and a line feed."""
    return letter + " ".join(f"{n:08x}" for n in padded(numbers, count)) + "\n"


def answer_record(letter, numbers, form, count):
    """An answer: a letter, numbers of eight digits, each after a blank, and a line feed."""
    return letter + "".join(f" {n:08{form}}" for n in padded(numbers, count)) + "\n"


def malformed(case):
    """The case with another letter, and with a blank and a digit that are none."""
    return "Z" + case[1:], case.replace(" ", "-", 1), case.replace("0", "O", 1)


def holding(lent):
    """What bytes hold: how many are not 0, and length and bytes as one number of base 256, by each prime."""
    number = int.from_bytes(len(lent).to_bytes(4, "big") + lent, "big")
    return len(lent) - lent.count(0), *(number % prime for prime in PRIMES)


def point_numbers(coordinates):
    """Each point as one number, 00xxyyzz in hexadecimal digits."""
    points = zip(*(coordinates[axis::3] for axis in range(3)))
    return [x << 16 | y << 8 | z for x, y, z in points]


class BufferCases:
    """The cases of a program with one buffer and their answers so far, and what the buffer then holds."""

    def __init__(self, numbers, answers):
        self.numbers, self.answers = numbers, answers  # in a case, in an answer
        self.buffer = bytearray(BUFFER)
        self.records = []
        self.answered = Counter()

    def add(self, letter, numbers, answer, kind, form="d"):
        """One case with its answer."""
        case = case_record(letter, numbers, self.numbers)
        self.records.append((case, answer_record(*answer, form, self.answers)))
        self.answered[letter, kind] += 1

    def fill(self, length, first=0, step=0):
        """Byte i becomes first + step × i, modulo 256."""
        period = bytes((first + step * i) % 256 for i in range(256))
        self.buffer[:length] = (period * (length // 256 + 1))[:length]
        self.add("F", (first, step, 0, length), ("F", (0, 0, *holding(self.buffer[:length]))), "filled")

    def show(self, place=0, stride=1):
        """16 bytes, a stride apart, four to a number."""
        places = [place + stride * i for i in range(16)]
        shown = bytes(self.buffer[p] if p < BUFFER else 0 for p in places)
        numbers = [int.from_bytes(shown[k : k + 4], "big") for k in range(0, 16, 4)]
        self.add("S", (place, stride), ("S", numbers), "shown", "x")


def store(program, records):
    """Writes a program's stdin and stdout from pairs of a case and its answer, a byte for each character; the exit status.

    With `--check` it writes nothing, and the status is 1 if they are not what it would write.
    """
    cases, answers = zip(*records)
    files = {"stdin": "".join(cases), "stdout": "".join(answers) + "END\n"}
    wrong = 0
    for name, text in files.items():
        path = CRATES / program / name
        if "--check" in sys.argv[1:]:
            if not path.exists() or path.read_bytes() != text.encode("latin-1"):
                print(f"{path}: not what the model gives")
                wrong = 1
        else:
            path.write_bytes(text.encode("latin-1"))
    return wrong
