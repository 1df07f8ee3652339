#!/usr/bin/env python3
"""The port's reader and writer of Matrix Market texts against SciPy, and against a reader and a writer of their own.

usage: compare/market.py PROGRAM CASES SEED     as compare/market calls it; PROGRAM is compare/market.c, built
       compare/market.py --record               writes crates/replay_market/data/read.txt and write.txt again
       compare/market.py --check                compares with them

The recorded cases are made by compare/market_reader.py alone and need no SciPy; oracle/README.md has their lines."""
import itertools
import os
import random
import struct
import sys
from collections import Counter

sys.dont_write_bytecode = True
import market_record
from market_cases import Read, all_cases, floats_of
from market_frames import answer_of_reading, answer_of_writing, answers
from market_reader import read, write

BATCH = 2000  # cases that go through one process of the program


def wanted(case):
    """The answer by the reader and the writer of compare/market_reader.py, and its number."""
    if isinstance(case, Read):
        outcome = read(case.text, case.floats, case.width)
        return answer_of_reading(case, outcome), outcome[0]
    outcome = write(case.n, floats_of(case.words), case.width, case.bytes)
    return answer_of_writing(case, outcome), outcome[0]


class Counts:
    """What was compared and what differed, by name."""

    def __init__(self):
        self.compared, self.different = Counter(), Counter()

    def add(self, names, same, about):
        for name in names:
            self.compared[name] += 1
            self.different[name] += not same
        if not same and self.different[names[0]] == 1:
            print(f"the first that differs of '{names[0]}': {about()}")

    def show(self, names):
        for name in names:
            print(f"{name}: {self.compared[name]} compared, {self.different[name]} different")


def shown(case, answer):
    """A case and an answer, short."""
    if isinstance(case, Read):
        case = case._replace(text=case.text[:200])
    else:
        case = case._replace(words=[f"{word:016x}" for word in case.words[:8]])
    return f"{case} gives {struct.unpack('=5Q', answer[:40])}"


def compare_damaged(program, count, seed, counts):
    """The cases, each against the other reader or writer."""
    cases = itertools.islice(all_cases(random.Random(seed)), count)
    while batch := list(itertools.islice(cases, BATCH)):
        for case, answer in zip(batch, answers(program, batch)):
            right, number = wanted(case)
            verb = "reading" if isinstance(case, Read) else "writing"
            counts.add([f"{verb}, {case.kind}", f"{verb}, {number}"], answer == right, lambda: shown(case, answer))


def main():
    arguments = sys.argv[1:]
    if arguments in (["--record"], ["--check"]):
        return market_record.main(arguments == ["--check"])
    if len(arguments) != 3 or not (arguments[1] + arguments[2]).isdigit():
        helped = arguments in (["-h"], ["--help"])
        print(__doc__, file=sys.stdout if helped else sys.stderr)
        return 0 if helped else 2
    import market_scipy  # the one that needs SciPy

    program, counts = arguments[0], Counts()
    market_scipy.compare(lambda cases: answers(program, cases), counts)
    compare_damaged(program, int(arguments[1]), int(arguments[2]), counts)
    numbers = [name for name in counts.compared if name.rsplit(", ")[-1].isdigit()]
    kinds = [name for name in counts.compared if name not in numbers]
    counts.show(kinds)
    counts.show(sorted(numbers, key=lambda name: (name[:7], int(name[9:]))))
    compared, different = (sum(counter[name] for name in kinds) for counter in (counts.compared, counts.different))
    print(f"{compared} compared, {different} different")
    return 1 if different else 0


if __name__ == "__main__":
    sys.exit(main())
