#!/usr/bin/env python3
"""Texts for `dualrun` that cannot be read, or nearly: judged by a reader that is written apart from the port, from
document 01 alone.

usage: compare/texts.py [--check]     writes crates/replay_dualrun/data/damaged.txt again; --check: compares with it

What a text that can be read gives is the Rust's: such a text here differs from one of dualrun.txt in leading zeros or
in the bits of a NaN, and gives what that one gives. `compare/dualrun` damages many more texts by the same reader."""
import os
import re
import sys

DATA = os.path.join(os.path.dirname(os.path.dirname(os.path.abspath(__file__))), "crates", "replay_dualrun", "data")
FIRST = re.compile(rb"(?:lu (?P<lu>[0-9]{1,9})|eig (?P<eig>[0-9]{1,9}) (?P<limit>[0-9]{1,9}))\n")
LINE = re.compile(rb"[0-9a-f]{16} [0-9a-f]{16}\n")
LARGEST = 65536  # bytes that the runner looks at


def judged(text):
    """What document 01 says of a text: the whole output where the first line or the reading decides it, else None."""
    first = FIRST.match(text)
    if not first:
        return b"9\n"
    eig = first.group("eig") is not None
    n = int(first.group("eig") if eig else first.group("lu"))
    if n > 32:
        return b"1 0\n"
    if eig and n == 0:
        return b"3 0\n"
    if eig and int(first.group("limit")) > 1000:
        return b"4 0\n"
    rest = text[first.end():]
    lines = [rest[k:k + 34] for k in range(0, len(rest), 34)]
    if len(rest) != 34 * n * n or not all(LINE.fullmatch(line) for line in lines):
        return b"9\n"
    return None


def damaged(text, dice):
    """A copy with one thing wrong, or nearly, by chance."""
    at = dice.randrange(len(text) + 1)
    lines = text.split(b"\n")
    some = dice.randrange(len(lines))
    return dice.choice([
        lambda: text[:-1],
        lambda: text + b"\n",
        lambda: text + bytes([dice.randrange(256)]),
        lambda: text.replace(b"\n", b"\r\n"),
        lambda: text.replace(b" ", b"\t", 1),
        lambda: text.replace(b" ", b"  ", 1),
        lambda: text.upper(),
        lambda: text[:at] + text[at + 1:],
        lambda: text[:at] + bytes([dice.randrange(256)]) + text[at:],
        lambda: text[:at] + bytes([dice.randrange(256)]) + text[at + 1:],
        lambda: b"\n".join(lines[:some] + lines[some + 1:]),
        lambda: b"\n".join(lines[:some] + lines[some:some + 1] + lines[some:]),
        lambda: re.sub(rb"^(\w+) \d*", rb"\1 ", text),
        lambda: re.sub(rb"^(\w+) (\d+)", rb"\1 000000000\2", text),
        lambda: re.sub(rb"^(\w+) (\d+)", rb"\1 0\2", text),
        lambda: re.sub(rb"^(\w+) (\d+)", rb"\1 33", text),
        lambda: b"",
        lambda: text + text,
        lambda: text * 200,
    ])()


def pairs(data):
    """Input and output of each case of a file like dualrun.txt."""
    at = 0
    while data[at:at + 1] == b"#":
        at = data.index(b"\n", at) + 1
    count = int(data[at:at + 8], 16)
    at += 9
    for _ in range(count):
        length_in, length_out = int(data[at:at + 8], 16), int(data[at + 9:at + 17], 16)
        at += 18
        yield data[at:at + length_in], data[at + length_in:at + length_in + length_out]
        at += length_in + length_out


# First lines that are none, though a body may follow: the N of the body is 2, the S of eig is 5.
NO_FIRST_LINES = [
    "", "l", "lu", "lu ", "lu  ", "LU 2", "Lu 2", "lU 2", "lu2", "luu 2", "u 2", " lu 2", "\tlu 2", "lu\t2",
    "lu  2", "lu 2 ", "lu 2\t", "lu 2\r", "lu +2", "lu -2", "lu 2.0", "lu 2.", "lu 0x2", "lu 2h", "lu 2,", "lu two",
    "lu a", "lu 2a", "lu f", "lu :", "lu /", "lu 2:", "lu 2/", "lu ,2", "lu 0000000002", "lu 00000000002",
    "lu 0000000000000000000000002", "lu 2 5", "lu 2 2", "lu 2 lu 2", "lu 2\0", "lu \0002", "lu\0 2", "\0lu 2",
    "lu 1000000000", "lu 4294967298", "lu 18446744073709551618", "lu 9999999999", "lu 33 ", "lu 33\r",
    "lu 0033000000", "lu 33,", "e", "ei", "eig", "eig ", "eig  ", "eig 2", "eig 2 ", "eig 2  ", "EIG 2 5",
    "Eig 2 5", "eiG 2 5", "eig2 5", "eigg 2 5", "eigen 2 5", "ig 2 5", " eig 2 5", "\neig 2 5", "\nlu 2",
    "eig\t2 5", "eig  2 5", "eig 2  5", "eig 2\t5", "eig 2,5", "eig 2\n5", "eig 2 5 ", "eig 2 5\t", "eig 2 5\r",
    "eig 2 5 5", "eig 2 -5", "eig -2 5", "eig +2 5", "eig 2 +5", "eig 2 5.", "eig 2 0x5", "eig 2 five", "eig 2 a",
    "eig a 5", "eig 2 5a", "eig 2 :", "eig 2/5", "eig 2:5", "eig 0000000002 5", "eig 2 0000000005",
    "eig 2 00000000005", "eig 1000000000 5", "eig 2 1000000000", "eig 2 4294967301", "eig 33 1000000000",
    "eig 0 1000000000", "eig 1000000000 1000000000", "eig 33", "eig 33 ", "eig 0", "eig 0 ", "eig 33 5 ",
    "eig 0 5\r", "eig 2 1001 ", "eig 2\0005", "eig 2 5\0", "ei g 2 5", "l u 2", "lueig 2 5", "eiglu 2",
    "lu eig 2 5", "2", "2 5", "lu 2;", "\ufefflu 2", "lu \uff12", "lu 2\u2028",
]

# First lines that are tried without a newline, at the end of the text and before a body.
BY_THEMSELVES = [
    "lu", "lu ", "lu 2", "lu 0", "lu 33", "eig", "eig ", "eig 2", "eig 2 ", "eig 2 5", "eig 0 5", "eig 33 5",
    "eig 1 1001", "lu 000000002",
]

# First lines that refuse by themselves, whatever follows.
REFUSING = [
    "lu 33", "lu 34", "lu 100", "lu 000000033", "lu 999999999", "eig 33 0", "eig 33 1001", "eig 34 5",
    "eig 999999999 999999999", "eig 0 0", "eig 0 5", "eig 0 1000", "eig 0 1001", "eig 000000000 000000000",
    "eig 1 1001", "eig 2 1001", "eig 32 1001", "eig 1 999999999", "eig 000000001 000001001",
]

# What may follow such a line.
FOLLOWING = [b"", b"\n", b"x", b"0", b"0000000000000000 000000000000000", b"\0\0\0", b"\xff\xfe", b"lu 2\n"]

# Bodies for N = 2 that are none, from one that is: four lines.
NO_BODIES = [
    lambda b: b"", lambda b: b[:-1], lambda b: b + b"\n", lambda b: b + b"\n\n", lambda b: b + b" ",
    lambda b: b + b"\0", lambda b: b + b"x", lambda b: b + b"\xff", lambda b: b + b"0", lambda b: b"\n" + b,
    lambda b: b" " + b, lambda b: b[:-1] + b"\r\n", lambda b: b[:-1] + b" ", lambda b: b[:-1] + b"\0",
    lambda b: b[:-1] + b"\r", lambda b: b[:-2], lambda b: b[:-17], lambda b: b[:-18], lambda b: b[:-33],
    lambda b: b[:-34], lambda b: b[:34], lambda b: b[:33], lambda b: b[:17], lambda b: b[:16], lambda b: b[:15],
    lambda b: b[:1], lambda b: b[34:], lambda b: b[17:], lambda b: b + b[:34], lambda b: b[:34] + b,
    lambda b: b + b, lambda b: b[:68] + b[34:], lambda b: b[:34] + b"\n" + b[34:],
    lambda b: b[:68] + b"\n" + b[68:], lambda b: b.replace(b"\n", b"\r\n"), lambda b: b.replace(b"\n", b"\r"),
    lambda b: b.replace(b"\n", b" "), lambda b: b.replace(b" ", b"\n"), lambda b: b.replace(b" ", b"\t"),
    lambda b: b.replace(b" ", b"  "), lambda b: b.replace(b" ", b""), lambda b: b.replace(b"\n", b""),
    lambda b: b.replace(b"\n", b"\n\n"), lambda b: b.replace(b" ", b"\n", 1), lambda b: b.replace(b"\n", b" ", 1),
    lambda b: b.replace(b" ", b"_"), lambda b: b.replace(b"\n", b" \n"), lambda b: b.replace(b"\n", b"\0"),
    lambda b: b.replace(b" ", b","), lambda b: b.replace(b" ", b"\0"), lambda b: b"0" + b, lambda b: b[1:],
    lambda b: b"0" + b[:15] + b[16:], lambda b: b[:16] + b"0" + b[16:], lambda b: b[:15] + b" " + b[15:],
    lambda b: b[:15] + b" 0" + b[17:], lambda b: b[:17] + b" " + b[17:], lambda b: b[:15] + b[16:],
    lambda b: b[:15] + b[16:33] + b"0\n" + b[34:], lambda b: b"0x" + b[2:], lambda b: b"-" + b[1:],
    lambda b: b"+" + b[1:], lambda b: b" " + b[1:], lambda b: b"\n" + b[1:], lambda b: b"1.0" + b[3:],
    lambda b: b[:33] + b" " + b[34:50] + b"\n" + b[51:], lambda b: b[34:68] + b[:34] + b[68:102] + b[102:135],
    lambda b: b[:-34] + b"\n" * 34, lambda b: b[:-34] + b" " * 34, lambda b: b[:-34] + b"\0" * 34,
    lambda b: b[:-34] + b"7ff0000000000000 7FF0000000000000\n",
    lambda b: b[:-34] + b"7FF0000000000000 7ff0000000000000\n",
    lambda b: b[:-34] + b"infinity         nan             \n",
]

# Bytes that are no digits, put for one: those beside the digits, upper case, spaces, NUL, bytes above 127.
NO_DIGITS = b"/:`gAFGZ@ \t\n\r\0\x7f\x80\xb0\xff-+.xz_"


def first_lines(body):
    """First lines that are none, with the body of N = 2 after them, and by themselves with and without a newline."""
    for line in NO_FIRST_LINES:
        yield line.encode() + b"\n" + body
    for line in BY_THEMSELVES:
        yield line.encode()
        yield line.encode() + body
        yield line.encode() + b" "
        yield line.encode() + b"\r\n"
    yield from [b"", b"\n", b"\0", b" ", b"\n\n", b"\xff", b"9\n", b"x" * 100, b"\0" * 100, body]
    yield from [b"lu 1\n", b"lu 2\n", b"lu 32\n", b"eig 1 5\n", b"eig 32 5\n"]


def other_sizes(body):
    """The body of N = 2 after another N: each asks for another number of lines."""
    for n in [0, 1, 3, 4, 5, 8, 16, 31, 32]:
        yield b"lu %d\n" % n + body
        if n:
            yield b"eig %d 5\n" % n + body


def byte_by_byte(text):
    """Each byte of a text left out, doubled, and replaced by one that is no digit, each of these in turn."""
    for k in range(len(text)):
        yield text[:k] + text[k + 1:]
        yield text[:k] + text[k:k + 1] + text[k:]
        yield text[:k] + NO_DIGITS[k % len(NO_DIGITS):][:1] + text[k + 1:]


def first_of(known, line):
    """The first text with this first line."""
    return next(text for text in known if text.startswith(line))


def unreadable(known):
    """The texts, from the smallest of each command that can be read."""
    lu, eig, one, largest = (first_of(known, line) for line in (b"lu 2\n", b"eig 2 5\n", b"lu 1\n", b"lu 32\n"))
    body, eig_body = lu[5:], eig[8:]
    yield from first_lines(body)
    yield from other_sizes(body)
    for line in REFUSING:
        for rest in FOLLOWING:
            yield line.encode() + b"\n" + rest
    for change in NO_BODIES:
        yield b"lu 2\n" + change(body)
    for change in NO_BODIES[::3]:
        yield b"eig 2 5\n" + change(eig_body)
        yield b"lu 000000002\n" + change(body)
    yield from byte_by_byte(one)
    for k, byte in enumerate(NO_DIGITS):
        at = 5 + 34 * (k % 4) + (17 if k % 8 > 3 else 0) + k % 16
        yield lu[:at] + bytes([byte]) + lu[at + 1:]
    yield b"lu 2\n" + body.upper()
    yield largest[:-1]
    yield b"lu 33\n" + b"0" * (LARGEST - 6)


def readable(known):
    """Near misses that can be read: leading zeros, and other bits of a NaN. Each gives what the Rust gives for the text
    that it was made of."""
    for first in (b"lu 0\n", b"lu 1\n", b"lu 2\n", b"lu 3\n", b"eig 1 200\n", b"eig 2 5\n", b"eig 2 1000\n"):
        text = first_of(known, first)
        words = first.split()
        for zeros in (b"0", b"0" * (9 - len(words[1]))):
            yield text.replace(words[1], zeros + words[1], 1), known[text]
            if len(words) > 2:
                line = b" ".join([words[0], zeros + words[1], b"0" * (9 - len(words[2])) + words[2]]) + b"\n"
                yield line + text[len(first):], known[text]
    nan = b"7ff8000000000000"
    for text in [text for text in known if nan in text and len(text) < 150][:4]:
        for other in (b"fff8000000000000", b"7ff0000000000001", b"ffffffffffffffff", b"7fffffffffffffff"):
            yield text.replace(nan, other), known[text]


def recorded():
    """The cases of damaged.txt: no text twice, and none whose output is not known."""
    known = dict(pairs(open(os.path.join(DATA, "dualrun.txt"), "rb").read()))
    cases = {}
    for text in unreadable(known):
        wanted = judged(text) or known.get(text)
        if wanted is None:
            sys.exit(f"this text can be read, and nothing says what it gives: {text!r}")
        if text not in known:
            cases[text] = wanted
    for text, wanted in readable(known):
        if judged(text) is not None:
            sys.exit(f"this text cannot be read: {text!r}")
        cases[text] = wanted
    return cases


def file_of(cases):
    head = ["# Texts for dualrun that cannot be read, or nearly, and what it prints.",
            "# Written by compare/texts.py, whose reader is made from document 01 alone.",
            "# The lines are described in oracle/README.md.", f"{len(cases):08x}", ""]
    texts = [b"%08x %08x\n%s%s" % (len(text), len(wanted), text, wanted) for text, wanted in cases.items()]
    return "\n".join(head).encode() + b"".join(texts)


def main():
    if sys.argv[1:] not in ([], ["--check"]):
        print(__doc__, file=sys.stdout if sys.argv[1:] in (["-h"], ["--help"]) else sys.stderr)
        sys.exit(0 if sys.argv[1:] in (["-h"], ["--help"]) else 2)
    path, cases = os.path.join(DATA, "damaged.txt"), recorded()
    data = file_of(cases)
    if sys.argv[1:]:
        if open(path, "rb").read() != data:
            sys.exit("damaged.txt is not what compare/texts.py writes")
        print("the damaged texts are those in the repository")
    else:
        open(path, "wb").write(data)
        print(f"{len(cases)} texts, {len(data)} bytes")


if __name__ == "__main__":
    main()
