"""Cases and answers as the program of compare/market.c takes and gives them."""
import itertools
import struct
import subprocess
import sys

from market_cases import Read
from market_reader import size

BEFORE_BYTE, BEFORE_NUMBER = b"\xa5", 77  # what the program lends to be written
BEFORE_FLOAT = struct.pack("=d", -7.25)


def request(case):
    """A case as the program takes it."""
    if isinstance(case, Read):
        return struct.pack("=5Q", 1, case.width, 0, case.floats, len(case.text)) + case.text
    count = len(case.words)
    return struct.pack(f"=5Q{count}Q", 2, case.width, case.n, count, case.bytes, *case.words)


def lent_size(case):
    """The bytes of what the case lends to be written."""
    return 8 * case.floats if isinstance(case, Read) else case.bytes


def answers(program, cases):
    """What the program gives for each case: five numbers, then what was lent to be written."""
    done = subprocess.run([program], input=b"".join(map(request, cases)), stdout=subprocess.PIPE)
    lengths = [40 + lent_size(case) for case in cases]
    if done.returncode or len(done.stdout) != sum(lengths):
        sys.exit(f"{program} ended with status {done.returncode} and {len(done.stdout)} of {sum(lengths)} bytes")
    for length, end in zip(lengths, itertools.accumulate(lengths)):
        yield done.stdout[end - length:end]


def answer_of_reading(case, outcome):
    """An answer, from (number, n, floats): what is refused is as it was before the call."""
    number, n, floats = outcome
    size_number, size_n = size(case.text)
    numbers = (number, BEFORE_NUMBER if number else n, size_number, BEFORE_NUMBER if size_number else size_n, 0)
    lent = BEFORE_FLOAT * case.floats if number else struct.pack(f"={len(floats)}d", *floats)
    return struct.pack("=5Q", *numbers) + lent


def answer_of_writing(case, outcome):
    """An answer, from (number, text)."""
    number, text = outcome
    lent = BEFORE_BYTE * case.bytes if number else text.ljust(case.bytes, b"\0")
    return struct.pack("=5Q", number, BEFORE_NUMBER if number else len(text), 0, 0, 0) + lent
