"""The recorded cases of crates/replay_market/data: compare/market.py writes them, from the reader and the writer of
compare/market_reader.py alone."""
import itertools
import os
import random
import sys

from market_cases import (
    FILLS, SMALL, Write, a_matrix, a_reading, a_writing, comments, ends, entries, every_byte, floats_of, headers,
    lent_lengths, longest, one_float, reading, single_numbers, size_lines, too_large, two_faults, whole, word,
    wrong_lengths)
from market_reader import LARGEST_TEXT, PAGE, SYMMETRIC, read, size, write

DATA = os.path.join(os.path.dirname(os.path.dirname(os.path.abspath(__file__))), "crates", "replay_market", "data")
SEED = 12
SMALL_MATRIX = 200  # floats: most cases have no more, since each that is answered with 0 is a line


def readings():
    """Edges first, then by chance; the large ones are few."""
    dice = random.Random(SEED)
    yield from whole(dice, range(7))
    yield from (case for case in whole(dice, (8, 16)) if case.width == 2)
    yield from (case for case in whole(dice, (32,)) if case.width == 2 or case.text.startswith(SYMMETRIC))
    yield from two_faults()
    others = itertools.chain(
        reading("", headers()), reading("", size_lines()), reading("", list(entries())[::2]), reading("", ends()),
        reading("", comments()), lent_lengths((0, 1, 2, 3, 4, 7)), reading("", every_byte(SMALL[:3], 1)))
    yield from (case for case in others if case.floats <= SMALL_MATRIX)
    yield from (case for case in lent_lengths((31, 32)) if abs(case.floats - case.width * 32 * 32) == 1)
    yield from reading("", longest(FILLS[:3], (LARGEST_TEXT,)))
    yield from reading("", longest(FILLS[:1], (LARGEST_TEXT + 1,)))
    chance = (a_reading(dice) for _ in itertools.count())
    yield from itertools.islice((case for case in chance if case.floats <= SMALL_MATRIX and len(case.text) < 1000), 500)


def writings():
    """The same of writing."""
    dice = random.Random(SEED)
    for n, width in itertools.chain(itertools.product(range(7), (2, 4)), ((8, 2), (16, 2), (32, 4))):
        yield Write("", n, tuple(a_matrix(dice, n, width)), width, PAGE)
    yield Write("", 32, (word(-2.0**53), 0) * 1024, 2, PAGE)  # the longest text
    yield Write("", 32, tuple(a_matrix(dice, 32, 2)[:-1] + [1]), 2, PAGE)
    yield from single_numbers()
    for n, width in itertools.product((1, 2), (2, 4)):
        each = 40 if n == 1 else 4
        for words in one_float(a_matrix(dice, n, width), width, lambda others, at: (others * 9)[at * each:][:each]):
            yield Write("", n, words, width, PAGE)
    yield from wrong_lengths(dice, (0, 1, 2, 3))
    yield from (case for case in too_large() if len(case.words) <= SMALL_MATRIX)
    yield Write("", 33, (0,) * 2 * 33 * 33, 2, PAGE)
    chance = (a_writing(dice) for _ in itertools.count())
    yield from itertools.islice((case for case in chance if len(case.words) <= SMALL_MATRIX), 350)


def fields(*numbers):
    return b" ".join(b"%08x" % number for number in numbers) + b"\n"


def lines(words):
    return b"".join(b"%016x\n" % word for word in words)


def of_reading(case):
    """A case of read.txt."""
    number, n, floats = read(case.text, case.floats, case.width)
    head = fields(len(case.text), case.width, case.floats, number, n, size(case.text)[0])
    return head + case.text + b"\n" + lines(map(word, floats))


def of_writing(case):
    """A case of write.txt."""
    number, text = write(case.n, floats_of(case.words), case.width, case.bytes)
    head = fields(case.width, min(case.n, 0xffffffff), len(case.words), case.bytes, number, len(text))
    return head + lines(case.words) + (text + b"\n" if number == 0 else b"")


def file_of(what, cases):
    """A file: no case twice."""
    cases = list(dict.fromkeys(cases))
    head = [f"# Matrix Market texts {what}, and what comes of it.",
            "# Written by compare/market.py --record, by a reader and a writer that are made from document 02 alone.",
            "# The lines are described in oracle/README.md.", f"{len(cases):08x}", ""]
    return len(cases), "\n".join(head).encode() + b"".join(cases)


def main(check):
    """Writes the files, or compares with them."""
    for name, what, cases in (("read.txt", "to be read", map(of_reading, readings())),
                              ("write.txt", "to be written from matrices", map(of_writing, writings()))):
        path = os.path.join(DATA, name)
        count, data = file_of(what, cases)
        if not check:
            os.makedirs(DATA, exist_ok=True)
            open(path, "wb").write(data)
        elif not os.path.exists(path) or open(path, "rb").read() != data:
            sys.exit(f"{name} is not what compare/market.py writes")
        print(f"{name}: {count} cases, {len(data)} bytes" + (", as in the repository" if check else ""))
    return 0
