"""Matrix Market texts read and written a second time, apart from the port: made from the words of document 02's wish 2
and what was decided where they are open, alone. compare/market.py compares with it and records from it."""

LARGEST_TEXT = 65536
LARGEST_N = 32
LARGEST = 2**53
PAGE = 20480  # the bytes that the writer wants
TITLE = b"%%MatrixMarket matrix array integer "
GENERAL, SYMMETRIC = TITLE + b"general\n", TITLE + b"symmetric\n"
DIGITS = b"0123456789"


class Refused(Exception):
    """With the number of the refusal."""


def line_at(text, at):
    """A line without its newline, and where the next begins."""
    end = text.find(b"\n", at)
    if end < 0:
        raise Refused(10)
    return text[at:end], end + 1


def head(text):
    """n, whether the text is symmetric, and where the entries begin."""
    if len(text) > LARGEST_TEXT:
        raise Refused(10)
    if not text.startswith((GENERAL, SYMMETRIC)):
        raise Refused(10)
    line, at = line_at(text, 0)
    symmetric = line + b"\n" == SYMMETRIC
    line, at = line_at(text, at)
    while line.startswith(b"%"):
        line, at = line_at(text, at)
    sizes = line.split(b" ")
    if len(sizes) != 2 or not all(size and not size.strip(DIGITS) for size in sizes):
        raise Refused(10)
    rows, columns = (size.lstrip(b"0") or b"0" for size in sizes)  # equal as digits where equal in value
    if rows != columns:
        raise Refused(11)
    if len(rows) > 2 or int(rows) > LARGEST_N:
        raise Refused(1)
    return int(rows), symmetric, at


def entry(text, at):
    """One whole number with its newline, byte by byte, and where the next begins."""
    negative = text[at:at + 1] == b"-"
    at += negative
    number, first = 0, at
    while True:
        if at == len(text):
            raise Refused(12)
        byte = text[at:at + 1]
        at += 1
        if byte == b"\n" and at - 1 > first:
            return (-number if negative else number), at
        if not byte.isdigit():
            raise Refused(10)
        number = number * 10 + int(byte)
        if number > LARGEST:
            raise Refused(10)


def read_or_refuse(text, floats, width):
    n, symmetric, at = head(text)
    if floats != width * n * n:
        raise Refused(2)
    matrix = [[0] * n for _ in range(n)]
    for column in range(n):
        for row in range(column if symmetric else 0, n):
            matrix[row][column], at = entry(text, at)
            if symmetric:
                matrix[column][row] = matrix[row][column]
    if at < len(text):
        raise Refused(12)
    return n, [float(part) for row in matrix for number in row for part in [number] + [0] * (width - 1)]


def read(text, floats, width):
    """The answer for a text and so many lent floats: its number, n, and the floats; 0 and none where it is refused."""
    try:
        return (0, *read_or_refuse(text, floats, width))
    except Refused as refused:
        return refused.args[0], 0, []


def size(text):
    """The number of the answer, and n: from the text down to the size line alone."""
    try:
        return 0, head(text)[0]
    except Refused as refused:
        return refused.args[0], 0


def write(n, floats, width, bytes_lent):
    """The number of the answer, and the text; none where it is refused."""
    if n > LARGEST_N:
        return 1, b""
    if len(floats) != width * n * n or bytes_lent != PAGE:
        return 2, b""
    for at, part in enumerate(floats):
        # a NaN is equal to nothing, and an infinity above every number
        if at % width > 0 and part != 0 or at % width == 0 and not (abs(part) <= LARGEST and part == int(part)):
            return 20, b""
    entries = [int(floats[(row * n + column) * width]) for column in range(n) for row in range(n)]
    return 0, GENERAL + b"%d %d\n" % (n, n) + b"".join(b"%d\n" % number for number in entries)
