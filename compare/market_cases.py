"""Cases for reading and writing Matrix Market texts: the edges one after the other, then others by chance."""
import itertools
import struct
from typing import NamedTuple

from market_reader import GENERAL, LARGEST, LARGEST_N, LARGEST_TEXT, PAGE, SYMMETRIC, size


class Read(NamedTuple):
    """A text to be read into so many lent floats, `width` a record."""
    kind: str
    text: bytes
    width: int
    floats: int


class Write(NamedTuple):
    """A matrix of n, by the words of its floats, to be written into so many lent bytes."""
    kind: str
    n: int
    words: tuple
    width: int
    bytes: int


def reading(kind, texts, floats=None):
    """Each text over both records in turn, with the floats that its size line wants, or else so many."""
    for turn, text in enumerate(texts):
        width = (2, 4)[turn % 2]
        number, n = size(text)
        yield Read(kind, text, width, width * n * n if number == 0 else 8 if floats is None else floats)


# Reading: the edges.

# Bytes that tell: those beside the digits, signs, spaces, ends of lines, letters of numbers, NUL, bytes above 127.
TELLING = b"\n\r \t%-+.,059/:_aAexX\0\x7f\x80\xb2\xff"

SMALL = [
    GENERAL + b"% c\n2 2\n-1\n20\n003\n-0\n",
    SYMMETRIC + b"%\n2 2\n1\n-2\n3\n",
    GENERAL + b"1 1\n-9007199254740992\n",
    GENERAL + b"0 0\n",
    SYMMETRIC + b"01 1\n7\n",
]


def every_byte(texts, bytes_each):
    """Each byte of a text left out, doubled, and made and preceded by some that tell; and the text cut there."""
    for text in texts:
        for at in range(len(text) + 1):
            before, here, after = text[:at], text[at:at + 1], text[at + 1:]
            yield before
            if here:
                yield before + after
                yield before + here + here + after
            for k in range(bytes_each):
                byte = TELLING[(at * bytes_each + k) % len(TELLING):][:1]
                yield before + byte + after
                yield before + byte + here + after


def headers():
    """First lines that are none, nearly, each before a matrix of one entry; the last begins a comment line."""
    words = GENERAL.split()
    for at, others in enumerate([
        [b"%MatrixMarket", b"%%%MatrixMarket", b"%%matrixmarket", b"%%MATRIXMARKET", b"%% MatrixMarket",
        b"MatrixMarket", b"%%MatrixMarkt", b"%%MatrixMarkets", b"", b"\xef\xbb\xbf%%MatrixMarket"],
        [b"Matrix", b"MATRIX", b"vector", b"matrixx", b"", b"matrix array"],
        [b"Array", b"coordinate", b"arrays", b"", b"array coordinate"],
        [b"Integer", b"real", b"double", b"complex", b"pattern", b"unsigned-integer", b"int", b"integers", b""],
        [b"General", b"GENERAL", b"Symmetric", b"SYMMETRIC", b"skew-symmetric", b"hermitian", b"genera", b"generals",
         b"symmetrical", b"symmetri", b"symmetricgeneral", b"general symmetric", b"general %", b""],
    ]):
        for other in others:
            yield b" ".join(words[:at] + [other] + words[at + 1:]) + b"\n1 1\n7\n"
    for header in (GENERAL, SYMMETRIC):
        for text in (header.replace(b" ", b"  "), header.replace(b" ", b"\t"), header[:-1] + b" \n", b" " + header,
                     b"\n" + header, header[:-1] + b"\r\n", header[:-1], header.upper(), header.lower(),
                     b"%\n" + header, header + header, header + header[1:], header[:-1] + b"\0\n"):
            yield text + b"1 1\n7\n"


SIZES = [
    "", " ", "1", "1 ", " 1", " 1 1", "1  1", "1 1 ", "1 1 1", "1\t1", "1,1", "1x1", "11", "-1 1", "1 -1", "-1 -1",
    "+1 1", "1 +1", "-0 0", "0 -0", "- -", "1.0 1", "1 1.0", "0x1 0x1", "a a", "1 a", "a 1", "1 1a", "1 1\r",
    "1 1\0", "\x001 1", "1 1%", "1 1 %", "1\r1", "\u0661 \u0661", "1 2", "2 1", "0 1", "1 0", "0 0", "00 0",
    "0 0000", "01 1", "1 001", "0002 2", "2 0002", "3 03", "8 8", "9 9", "10 10", "16 16", "31 31", "32 32", "33 33",
    "34 34", "32 33", "33 32", "32 31", "99 99", "100 100", "033 33", "32 032",
    "0000000000000000000000000000000032 32", "320 320", "3 33", "33 3", "255 255", "256 256", "257 1", "258 2",
    "65537 1", "65538 2", "4294967296 0", "4294967297 1", "4294967298 2", "4294967297 4294967297",
    "18446744073709551616 0", "18446744073709551617 1", "18446744073709551618 2",
    "18446744073709551617 18446744073709551617", "18446744073709551615 18446744073709551615",
    "9007199254740993 9007199254740992", "9007199254740993 9007199254740993",
    "340282366920938463463374607431768211457 1", "9" * 30 + " " + "9" * 30, "9" * 30 + " " + "9" * 29 + "8",
    "1" + "0" * 29 + " 1" + "0" * 30, "0" * 9 + "9" * 30 + " " + "9" * 30, "9" * 30 + " " + "0" * 9 + "9" * 30,
    "0" * 400 + "1 1", "1 " + "0" * 400 + "1", "0" * 400 + " 0", "0" * 30 + "1 " + "0" * 30 + "2",
    "7" * 300 + " " + "7" * 300, "7" * 300 + " " + "7" * 150 + "8" + "7" * 149, "7" * 300 + " 7",
]


def size_lines():
    """Each with as many entries as it wants, with one less, with none, and at the end of the text."""
    for turn, line in enumerate(SIZES):
        text = (GENERAL, SYMMETRIC)[turn % 2] + line.encode() + b"\n"
        n = size(text)[1]
        entries = n * (n + 1) // 2 if turn % 2 else n * n
        yield text + b"7\n" * entries
        yield text + b"7\n" * (entries - 1)
        yield text
        yield text[:-1]


# Entries about the limit and about what machines can hold, then those that are no whole numbers.
NUMBERS = [sign + zeros + str(number) for sign in ("", "-") for zeros in ("", "0", "0" * 30) for number in (
    0, 1, 9, 10, 2**52, 2**53 - 2, 2**53 - 1, 2**53, 2**53 + 1, 2**53 + 2, 2**53 + 3, 9007199254740999,
    9007199254741000, 9999999999999999, 10**16, 10 * 2**53, 2**63 - 1, 2**63, 2**63 + 1, 2**64 - 1, 2**64, 2**64 + 1,
    2**65 + 7, 2**128 + 7, 10**30, 10**40 + 7)] + [
    "", "-", "--", "--1", "-+1", "+1", "+", "1-", "1-1", "- 1", "-\t1", " 1", "1 ", " 1 ", "\t1", "1\t", "1\r",
    "\r1", "1\0", "\x001", "1\x0b", "1\x0c", "1.", "1.0", ".5", "-.5", "1e3", "1E3", "1e0", "0x1", "0b1", "1_0",
    "1,0", "1'0", "NaN", "nan", "inf", "-inf", "Infinity", "a", "z", "1a", "%", "%c", "%1", "1%", "1 %", "/", ":",
    "1/1", "1:", "1 2", "1;", "()", "\u0661", "\uff11", "\u22121", "\u20131", "1\u2028", "\ufeff1", "0" * 400,
    "-" + "0" * 400, "0" * 400 + "7", "9" * 400,
]


def entries():
    """Each as the only entry, the first and the last, with a newline and at the end of the text."""
    for turn, number in enumerate(NUMBERS):
        header, line = (GENERAL, SYMMETRIC)[turn % 2], number.encode() + b"\n"
        rest = 2 if turn % 2 else 3
        yield header + b"1 1\n" + line
        yield header + b"1 1\n" + line[:-1]
        yield header + b"2 2\n" + line + b"7\n" * rest
        yield header + b"2 2\n" + b"7\n" * rest + line
        yield header + b"2 2\n" + b"7\n" * rest + line[:-1]


def ends():
    """Something after the last entry, and fewer entries."""
    for text in SMALL:
        for after in (b"\n", b"\n\n", b" ", b"\0", b"\r", b"x", b"%", b"%\n", b"% c\n", b"0\n", b"7\n", b"-", b"-7\n",
                      b"\xff", b"1 1\n", text, b"9007199254740993\n", b"\n" * 100, b"\0" * 100):
            yield text + after
        lines = text.splitlines(keepends=True)
        for count in range(len(lines)):
            yield b"".join(lines[:count])


def comments():
    """Comment lines where they may stand and where not, with any bytes in them."""
    lines = [GENERAL, b"1 1\n", b"7\n"]
    for comment in (
            b"%\n", b"%%\n", b"%c\n", b"% 1 1\n", b"%\r\n", b"%\0\n", b"%\xff\xfe\n", b"%%%\n%\n%%\n", GENERAL,
            SYMMETRIC, b"%" + bytes(range(11, 256)) + b"\n", b"%\n" * 100, b"%" + b"c" * 1000 + b"\n", b"\n", b" \n",
            b" %\n", b"#\n", b"%\n\n", b"%\n \n", b"%\n%", b"%", b"\t%\n"):
        for at in range(4):
            yield b"".join(lines[:at]) + comment + b"".join(lines[at:])
        yield GENERAL + comment
        yield GENERAL + comment + SYMMETRIC + comment + b"2 2\n1\n2\n3\n4\n"


def two_faults():
    """Several things wrong at once: the first of them in the order of the checks is the answer."""
    for header, sizes, bodies, floats, width in itertools.product(
            (GENERAL, GENERAL[:-1] + b" \n"), (b"2 2\n", b"2 3\n", b"33 33\n", b"2 x\n", b"2 2"),
            (b"1\n2\n3\n4\n", b"1\n2\n3\n", b"1\n2\n3\n4\n5\n", b"x\n2\n3\n4\n5\n", b"1\n2\n3\nx\n5\n", b"1\n2\nx\n",
             b"1\n2\nx", b"9007199254740993\n2\n", b"1\n2\n3\n9007199254740993", b"1\n2\n3\n900719925474099", b""),
            (0, 1), (2, 4)):
        yield Read("several faults at once", header + sizes + bodies, width, width * 4 + floats)


def lent_lengths(sizes):
    """Every size with the floats that it wants, and with others."""
    for n, width in itertools.product(sizes, (2, 4)):
        text = GENERAL + b"%d %d\n" % (n, n) + b"-7\n" * (n * n)
        wanted = width * n * n
        others = {0, 1, n, 2 * n, n * n, wanted - 1, wanted + 1, wanted + width, 6 * n * n - wanted}
        for floats in sorted({wanted} | others):
            if floats >= 0:
                yield Read("lent lengths", text, width, floats)


def whole(dice, sizes):
    """Texts that can be read, of every size."""
    for n, symmetric in itertools.product(sizes, (False, True)):
        text = a_text(dice, n, symmetric)
        for width in (2, 4):
            yield Read("whole texts", text, width, width * n * n)


# What texts are filled with to be long: header, what comes before, what fills, what comes after.
FILLS = [
    (GENERAL, b"%", b"c", b"\n1 1\n7\n"),
    (GENERAL, b"1 1\n", b"0", b"7\n"),
    (GENERAL, b"1 1\n7\n", b"\n", b""),
    (SYMMETRIC, b"%\n%", b"\n%", b"\n2 2\n1\n2\n3\n"),
    (GENERAL, b"1 1\n-", b"0", b"9007199254740993\n"),
    (SYMMETRIC, b"", b"0", b"1 1\n7\n"),
    (GENERAL, b"1 ", b"0", b"1\n7\n"),
    (GENERAL, b"2 2\n1\n", b"0", b"\n3\n4\n"),
    (GENERAL, b"33 33\n", b"7\n", b""),
    (GENERAL[1:], b"1 1\n", b"0", b"7\n"),
    (GENERAL, b"1 1\n", b"0", b""),
    (GENERAL, b"", b"9", b" 9\n"),
]


def longest(fills, lengths):
    """Texts of about 65,536 bytes."""
    for (header, before, fill, after), length in itertools.product(fills, lengths):
        room = length - len(header + before + after)
        yield header + before + (fill * room)[:room] + after


def edges_of_reading(dice):
    everything = range(LARGEST_N + 1)
    yield from whole(dice, everything)
    yield from two_faults()
    yield from reading("headers", headers())
    yield from reading("size lines", size_lines())
    yield from reading("entries", entries())
    yield from reading("ends", ends())
    yield from reading("comments", comments())
    yield from lent_lengths(everything)
    yield from reading("about 65,536 bytes", longest(FILLS, range(LARGEST_TEXT - 1, LARGEST_TEXT + 4)))
    yield from reading("every byte of small texts", every_byte(SMALL, len(TELLING)))


# Reading: by chance.

def a_size(dice):
    """Mostly small, so that many texts are tried."""
    if dice.random() < 0.02:
        return dice.randrange(LARGEST_N + 1)
    return dice.choice([0, 1, 1, 2, 2, 2, 3, 3, 4, dice.randrange(9)])


def a_number(dice):
    """Of any number of digits, and now and then one of the ends."""
    if dice.random() < 0.1:
        return dice.choice([0, 1, -1, LARGEST, -LARGEST, LARGEST - 1, 1 - LARGEST])
    return dice.choice((1, -1)) * dice.randrange(min(10 ** dice.randrange(1, 17), LARGEST + 1))


def a_line(dice):
    """An entry's, now and then with leading zeros or a minus before a zero."""
    number = a_number(dice)
    sign = "-" if number < 0 or number == 0 and dice.random() < 0.5 else ""
    zeros = "0" * dice.randrange(1, 4) if dice.random() < 0.05 else ""
    return (sign + zeros + str(abs(number)) + "\n").encode()


def a_text(dice, n, symmetric):
    """A text that can be read."""
    count = n * (n + 1) // 2 if symmetric else n * n
    remarks = b"".join(b"%" + bytes(dice.choice(b"rate 24%\r\0\xff") for _ in range(dice.randrange(9))) + b"\n"
                       for _ in range(dice.choice((0, 0, 1, 2))))
    header = SYMMETRIC if symmetric else GENERAL
    return header + remarks + b"%d %d\n" % (n, n) + b"".join(a_line(dice) for _ in range(count))


def put_line(text, line, dice):
    """The text with one more line somewhere."""
    lines = text.splitlines(keepends=True)
    lines.insert(dice.randrange(len(lines) + 1), line)
    return b"".join(lines)


def change_lines(text, change, dice):
    """The text with the lines from one to another, or one alone, as `change` makes them."""
    lines = text.splitlines(keepends=True) or [b""]
    one, other = sorted(dice.randrange(len(lines)) for _ in range(2))
    return b"".join(lines[:one] + change(lines[one:other + 1]) + lines[other + 1:])


def with_sizes(text, line):
    """The text with another size line: the first that begins with a digit."""
    lines = text.splitlines(keepends=True)
    at = next((at for at, old in enumerate(lines) if old[:1].isdigit()), len(lines))
    return b"".join(lines[:at] + [line + b"\n"] + lines[at + 1:])


def a_byte(dice):
    return bytes([dice.choice(TELLING) if dice.random() < 0.7 else dice.randrange(256)])


def about_the_limit(dice):
    number = LARGEST * dice.choice((1, 1, 1, 10, 2048)) + dice.randrange(-3, 4)
    return dice.choice((b"", b"-", b"0", b"-00")) + b"%d\n" % number


def some_sizes(dice):
    """A size line: unequal, long, too large, or leading zeros."""
    digits = dice.choice((1, 2, 3, 10, 20, 30, 300))
    one = dice.choice((str(a_size(dice)), str(dice.randrange(10**digits)), "0" * digits + str(a_size(dice))))
    other = dice.choice((one, one, "0" * dice.randrange(1, 30) + one, one + "0", str(a_size(dice)), one[:-1] + "7"))
    return f"{one} {other}".encode()


DAMAGE = {
    "a byte changed": lambda text, at, dice: text[:at] + a_byte(dice) + text[at + 1:],
    "a byte left out": lambda text, at, dice: text[:at] + text[at + 1:],
    "a byte added": lambda text, at, dice: text[:at] + a_byte(dice) + text[at:],
    "cut": lambda text, at, dice: text[:at],
    "a line doubled": lambda text, at, dice: change_lines(text, lambda lines: lines[:1] + lines, dice),
    "a line left out": lambda text, at, dice: change_lines(text, lambda lines: lines[1:], dice),
    "lines turned about": lambda text, at, dice: change_lines(text, lambda lines: lines[::-1], dice),
    "carriage returns": lambda text, at, dice: text.replace(b"\n", b"\r\n", dice.choice((-1, 1, 2, 3))),
    "another size line": lambda text, at, dice: with_sizes(text, some_sizes(dice)),
    "an entry about 2^53": lambda text, at, dice: change_lines(
        text, lambda lines: [about_the_limit(dice)] + lines[1:], dice),
    "a comment somewhere": lambda text, at, dice: put_line(
        text, dice.choice((b"%\n", b"% 7\n", b"%%\n", b" %\n")), dice),
    "an empty line": lambda text, at, dice: put_line(text, dice.choice((b"\n", b" \n", b"\r\n", b"\t\n")), dice),
    "something after the last": lambda text, at, dice: text + dice.choice((b"\n", b"7\n", b"%\n", b"\0", a_byte(dice))),
    "leading zeros": lambda text, at, dice: text[:at] + b"0" * dice.randrange(1, 40) + text[at:],
    "other spaces": lambda text, at, dice: text.replace(
        b" ", dice.choice((b"  ", b"\t", b"")), dice.choice((-1, 1, 4, 5))),
    "the other symmetry": lambda text, at, dice: text.replace(GENERAL, SYMMETRIC) if text.startswith(GENERAL)
    else text.replace(SYMMETRIC, GENERAL),
    "nothing damaged": lambda text, at, dice: text,
}


def a_reading(dice):
    """A text with one thing wrong, or nearly, sometimes two; its lent floats sometimes wrong too."""
    n, width = a_size(dice), dice.choice((2, 4))
    text = a_text(dice, n, dice.random() < 0.4)
    kind = dice.choice(list(DAMAGE))
    for change in [kind] + dice.choices(list(DAMAGE), k=dice.choice((0, 0, 0, 1))):
        text = DAMAGE[change](text, dice.randrange(len(text) + 1), dice)
    wanted = size(text)[1] if dice.random() < 0.9 else n
    floats = width * wanted * wanted + (dice.choice((-1, 1, 2, width)) if dice.random() < 0.05 else 0)
    return Read(kind, text, width, max(floats, 0))


def a_long_reading(dice):
    """About 65,536 bytes, by a comment, by zeros before the last entry or the size line, or by anything anywhere."""
    text = a_text(dice, a_size(dice), dice.random() < 0.5)
    last, header = text.rindex(b"\n", 0, -1) + 1, text.index(b"\n") + 1
    at, fill = dice.choice((
        (header, b"%" + b"c" * LARGEST_TEXT), (last, b"0" * LARGEST_TEXT), (header, b"0" * LARGEST_TEXT),
        (dice.randrange(header, len(text) + 1), dice.choice((b"%\n", b"0\n", b"\n", b"-7\n")) * LARGEST_TEXT)))
    fill = fill[:LARGEST_TEXT + dice.randrange(-3, 4) - len(text)]
    text = text[:at] + (fill[:-1] + b"\n" if fill[:1] == b"%" else fill) + text[at:]
    return Read("long texts", text, 2, 2 * size(text)[1] ** 2)


# Writing.

def word(value):
    return struct.unpack("=Q", struct.pack("=d", value))[0]


def floats_of(words):
    return struct.unpack(f"={len(words)}d", struct.pack(f"={len(words)}Q", *words))


MAGNITUDES = [2**k for k in range(54)] + [10**k - step for k in range(1, 16) for step in (0, 1)] + [
    2**52 + 1, 2**53 - 1, 9007199254740990]
WRITABLE = [word(float(sign * magnitude)) for magnitude in MAGNITUDES for sign in (1, -1)] + [0, 1 << 63]

UNWRITABLE = [
    0x7ff8000000000000, 0xfff8000000000000, 0x7ff0000000000001, 0xfff0000000000001, 0x7fffffffffffffff,
    0xffffffffffffffff, 0x7ff0000000000000, 0xfff0000000000000, 0x4340000000000001, 0xc340000000000001,
    0x4350000000000000, 0xc350000000000000, 0x43e0000000000000, 0xc3e0000000000000, 0x43f0000000000000,
    0x7fefffffffffffff, 0xffefffffffffffff, 0x0000000000000001, 0x8000000000000001, 0x000fffffffffffff,
    0x0010000000000000, 0x8010000000000000, 0x3fefffffffffffff, 0x3ff0000000000001, 0xbff0000000000001, word(0.5),
    word(-0.5), word(1.5), word(-2.5), word(2**52 - 0.5), word(0.5 - 2**52), word(2**51 + 0.25), word(0.1),
    word(1e-300), word(1e300)]

NO_SLOPES = UNWRITABLE + [word(1.0), word(-1.0), word(float(LARGEST))]

WRONG_SIZES = [33, 34, 64, 2**16, 2**31, 2**32 - 1, 2**32, 2**32 + 2, 2**63, 2**63 + 1, 2**64 - 1]


def a_matrix(dice, n, width):
    """Words of a matrix that can be written, with zeros of either sign."""
    parts = (a_number(dice) if at % width == 0 else 0 for at in range(width * n * n))
    return [word(float(part)) if part else dice.choice((0, 1 << 63)) for part in parts]


def one_float(words, width, chosen):
    """Each float of a matrix in turn made one that cannot stand there: `chosen` picks some of the list for a place."""
    for at in range(len(words)):
        for other in chosen(UNWRITABLE if at % width == 0 else NO_SLOPES, at):
            yield tuple(words[:at] + [other] + words[at + 1:])


def wrong_lengths(dice, sizes):
    """Every size with the lengths that it wants and with others, and then with a float that cannot be written."""
    for n, width in itertools.product(sizes, (2, 4)):
        words = a_matrix(dice, n, width)
        broken = words[:-1] + [UNWRITABLE[0]]
        for lent in (words[:-1], words + [0], words + [0] * width, words[:n * n], [], words + words, broken[1:]):
            yield Write("lent lengths", n, tuple(lent), width, PAGE)
        for lent in (0, 1, PAGE - 1, PAGE + 1, PAGE + 64):
            yield Write("lent lengths", n, tuple(words), width, lent)
        yield Write("lent lengths", n, tuple(broken) if n else (), width, PAGE - 1)


def too_large():
    """Sizes above the largest, among them those whose square wraps to 0, 1 or 4, with right lengths and wrong ones."""
    for n, width, lent in itertools.product(WRONG_SIZES, (2, 4), (PAGE, 0)):
        wrapped = width * n * n % 2**64
        for count in sorted({0, 1, wrapped if wrapped <= width * 34 * 34 else 0}):
            yield Write("too large", n, (UNWRITABLE[0],) * count, width, lent)


def edges_of_writing(dice):
    for n, width in itertools.product(range(LARGEST_N + 1), (2, 4)):
        yield Write("whole matrices", n, tuple(a_matrix(dice, n, width)), width, PAGE)
    yield from single_numbers()
    for n, width in itertools.product((1, 2), (2, 4)):
        for words in one_float(a_matrix(dice, n, width), width, lambda others, at: others):
            yield Write("a float that cannot be written", n, words, width, PAGE)
    yield from wrong_lengths(dice, range(LARGEST_N + 1))
    yield from too_large()


def single_numbers():
    """Every number of the list by itself."""
    for turn, number in enumerate(WRITABLE):
        width = (2, 4)[turn % 2]
        yield Write("single numbers", 1, (number,) + (0,) * (width - 1), width, PAGE)


def a_writing(dice):
    """A matrix with nothing wrong, or one float or two, or a length."""
    n, width = a_size(dice), dice.choice((2, 4))
    words, lent = a_matrix(dice, n, width), PAGE
    kind = dice.choice(("writable", "writable", "a float that cannot be written", "any float", "a wrong length"))
    for _ in range(dice.choice((1, 1, 2)) if words else 0):
        at = dice.randrange(len(words))
        if kind == "a float that cannot be written":
            words[at] = dice.choice(UNWRITABLE if at % width == 0 else NO_SLOPES)
        if kind == "any float":
            power = dice.choice((1, -1)) * 2.0 ** dice.randrange(-3, 56)
            words[at] = dice.choice((dice.randrange(2**64), word(power), word(power + 0.5)))
    if kind == "a wrong length":
        words, lent = dice.choice(((words[1:], PAGE), (words + [0], PAGE), (words, PAGE + dice.choice((-1, 1)))))
    return Write(kind, n, tuple(words), width, lent)


def all_cases(dice):
    """Edges first, then by chance without end: one in six is written, one in five hundred long."""
    yield from edges_of_reading(dice)
    yield from edges_of_writing(dice)
    while True:
        draw = dice.random()
        yield a_writing(dice) if draw < 1 / 6 else a_long_reading(dice) if draw > 0.998 else a_reading(dice)
