"""The port's reader and writer of Matrix Market texts against SciPy's, both ways; and where the two differ, by the
smallest examples."""
import io
import random
import signal
import struct
import sys
import warnings

import numpy
import scipy
import scipy.io
import scipy.sparse

from market_cases import Read, Write, a_number, word
from market_frames import answer_of_reading
from market_reader import GENERAL, LARGEST, LARGEST_N, PAGE, SYMMETRIC, size

SOME = b"1 1\n7\n"  # a size line and its entry
PATIENCE = 1  # seconds for SciPy's answer
AS_LISTED = scipy.__version__ == "1.10.1" and sys.version_info >= (3, 11)  # Debian 12's, which the rows are of


def written(matrix, **options):
    """The file that SciPy writes."""
    file = io.BytesIO()
    scipy.io.mmwrite(file, matrix, **options)
    return file.getvalue()


def no_answer(*_):
    raise TimeoutError


def taken(text):
    """What SciPy reads, as lists; or that it refuses, or gives no answer."""
    signal.signal(signal.SIGALRM, no_answer)
    signal.setitimer(signal.ITIMER_REAL, PATIENCE)
    try:
        matrix = scipy.io.mmread(io.BytesIO(text))
        return (matrix.toarray() if scipy.sparse.issparse(matrix) else matrix).tolist()
    except TimeoutError:
        return "no answer"
    except (ValueError, IndexError, OverflowError, TypeError, StopIteration):
        return "refused"
    finally:
        signal.setitimer(signal.ITIMER_REAL, 0)


def matrices(dice):
    """Of every size: mixed numbers, zeros, both ends; as they come and made symmetric."""
    for n in range(LARGEST_N + 1):
        for entry in (lambda: a_number(dice), lambda: a_number(dice), lambda: 0, lambda: LARGEST, lambda: -LARGEST,
                      lambda: dice.randrange(-9, 10)):
            matrix = numpy.array([entry() for _ in range(n * n)], dtype=numpy.int64).reshape(n, n)
            yield matrix
            yield numpy.tril(matrix) + numpy.tril(matrix, -1).T


def is_skew(matrix):
    """SciPy writes such a matrix as skew-symmetric unless it is told otherwise."""
    return (matrix == -matrix.T).all() and not (matrix == matrix.T).all()


def files(dice):
    """Matrices with files of them that SciPy writes in the format: integer arrays, general or symmetric."""
    remarks = ("", "rate 24", "two\nlines", "\n\n", " % 1 1\r", "\xff\0")
    for matrix in matrices(dice):
        remark = dice.choice(remarks)
        yield matrix, written(matrix, symmetry="general", comment=remark)
        if (matrix == matrix.T).all():
            yield matrix, written(matrix, symmetry="symmetric", field="integer", comment=remark)
        if not is_skew(matrix):
            yield matrix, written(matrix)
        if abs(matrix).max(initial=0) < 2**15:
            yield matrix, written(matrix.astype(numpy.int16), symmetry="general", precision=3)


def parts(matrix, width):
    """The floats of a matrix of whole numbers, derivative parts zero."""
    return [float(part) for number in matrix.ravel().tolist() for part in [number] + [0] * (width - 1)]


def compare_files(ask, counts):
    """SciPy's files, read by the port."""
    both = [(matrix, Read("", text, width, width * matrix.size))
            for matrix, text in files(random.Random(3)) for width in (2, 4)]
    for (matrix, case), answer in zip(both, ask([case for _, case in both])):
        right = answer_of_reading(case, (0, len(matrix), parts(matrix, case.width)))
        kind = "symmetric" if case.text.startswith(SYMMETRIC) else "general"
        counts.add([f"SciPy's files read by the port, {kind}"], answer == right, lambda: case.text[:200])


def compare_texts(ask, counts):
    """The port's texts, read by SciPy."""
    both = [(matrix, Write("", len(matrix), tuple(map(word, parts(matrix, width))), width, PAGE))
            for matrix in matrices(random.Random(4)) for width in (2, 4)]
    for (matrix, case), answer in zip(both, ask([case for _, case in both])):
        number, length = struct.unpack_from("=2Q", answer)
        text = answer[40:40 + length]
        same = number == 0 and taken(text) == matrix.tolist()
        counts.add(["the port's texts read by SciPy"], same, lambda: text[:200])


def other_files():
    """Files of SciPy that are not in the format, each with the port's number."""
    whole = numpy.array([[1, 2], [3, 4]])
    yield "floats, though whole (field real)", written(whole.astype(float)), 10
    yield "complex numbers", written(whole.astype(complex)), 10
    yield "unsigned integers", written(whole.astype(numpy.uint8)), 10
    yield "a skew-symmetric matrix, unless symmetry is given", written(numpy.array([[0, -5], [5, 0]])), 10
    yield "a sparse matrix (coordinate)", written(scipy.sparse.coo_matrix(whole)), 10
    yield "its pattern", written(scipy.sparse.coo_matrix(whole), field="pattern"), 10
    yield "not square", written(numpy.array([[1, 2, 3]])), 11
    yield "33 by 33", written(numpy.zeros((33, 33), dtype=int), symmetry="general"), 1
    yield "a magnitude above 2^53", written(numpy.array([[LARGEST + 1]])), 10
    yield "a file above 65,536 bytes, by its comment", written(numpy.array([[7]]), comment="c" * 65536), 10


# Texts that SciPy reads otherwise than the port: what it gives, and the port's number.
OTHER_TEXTS = [
    ("capitals after the header's first word", GENERAL.replace(b"array", b"Array") + SOME, [[7]], 10),
    ("a first word that goes on", GENERAL.replace(b"Market", b"Markets") + SOME, [[7]], 10),
    ("more than one space in the header", GENERAL.replace(b" ", b"  ") + SOME, [[7]], 10),
    ("a tab in the header", GENERAL.replace(b" ", b"\t") + SOME, [[7]], 10),
    ("a space at the header's end", GENERAL[:-1] + b" \n" + SOME, [[7]], 10),
    ("carriage returns", (GENERAL + SOME).replace(b"\n", b"\r\n"), [[7]], 10),
    ("real", GENERAL.replace(b"integer", b"real") + SOME, [[7.0]], 10),
    ("unsigned-integer", GENERAL.replace(b"integer", b"unsigned-integer") + SOME, [[7]], 10),
    ("skew-symmetric", GENERAL.replace(b"general", b"skew-symmetric") + b"2 2\n5\n", [[0, -5], [5, 0]], 10),
    ("coordinate", GENERAL.replace(b"array", b"coordinate") + b"1 1 1\n1 1 7\n", [[7]], 10),
    ("an empty line before the size line", GENERAL + b"\n" + SOME, [[7]], 10),
    ("spaces before, between and after sizes", GENERAL + b" 1  1 \n7\n", [[7]], 10),
    ("a plus in a size", GENERAL + b"+1 1\n7\n", [[7]], 10),
    ("a size of -0", GENERAL + b"-0 0\n", [], 10),
    ("a low line in a size", GENERAL + b"0_1 1\n7\n", [[7]], 10),
    ("not square", GENERAL + b"1 2\n7\n8\n", [[7, 8]], 11),
    ("33 by 33", GENERAL + b"33 33\n" + b"0\n" * 1089, [[0] * 33] * 33, 1),
    ("a comment among the entries", GENERAL + b"1 1\n%\n7\n", [[7]], 10),
    ("an empty line among the entries", GENERAL + b"1 1\n\n7\n", [[7]], 10),
    ("a space before an entry", GENERAL + b"1 1\n 7\n", [[7]], 10),
    ("a space after an entry", GENERAL + b"1 1\n7 \n", [[7]], 10),
    ("a plus", GENERAL + b"1 1\n+7\n", [[7]], 10),
    ("a low line in a number", GENERAL + b"1 1\n1_0\n", [[10]], 10),
    ("2^53 + 1", GENERAL + b"1 1\n9007199254740993\n", [[9007199254740993]], 10),
    ("no newline after the last entry", GENERAL + b"1 1\n7", [[7]], 12),
    ("an empty line after the last entry", GENERAL + b"1 1\n7\n\n", [[7]], 12),
    ("a comment after the last entry", GENERAL + b"1 1\n7\n%\n", [[7]], 12),
    ("a text above 65,536 bytes", GENERAL + b"%" + b"c" * 65536 + b"\n" + SOME, [[7]], 10),
    ("an end before the size line", GENERAL, "no answer", 10),
    ("a number of more than 4,300 digits, zeros before it", GENERAL + b"1 1\n" + b"0" * 4300 + b"7\n", "refused", 0),
    ("the same in a size", GENERAL + b"0" * 4300 + b"1 1\n7\n", "refused", 0),
]


def number_of(answer):
    return struct.unpack_from("=Q", answer)[0]


def reading(text):
    """Over `Dual`, with the floats that the size line wants; two where it cannot be read."""
    number, n = size(text)
    return Read("", text, 2, 2 if number else 2 * n * n)


def compare_rows(ask, counts):
    """The differences, each printed as a row."""
    print(f"SciPy {scipy.__version__} writes these otherwise than the format, and the port gives:")
    rows = list(other_files())
    for (what, text, number), answer in zip(rows, ask([reading(text) for _, text, _ in rows])):
        print(f"  {number_of(answer):2} {what}: {short(text)}")
        counts.add(["SciPy's files that are not in the format"], number_of(answer) == number, lambda: what)
    print("and reads these otherwise than the port, which gives:")
    for (what, text, theirs, number), answer in zip(OTHER_TEXTS, ask([reading(row[1]) for row in OTHER_TEXTS])):
        got = taken(text)
        print(f"  {number_of(answer):2} {what}: {short(text)} gives SciPy {str(got)[:40]}")
        same = number_of(answer) == number and (got == theirs or not AS_LISTED)
        counts.add(["texts that SciPy reads otherwise"], same, lambda: what)


def short(text):
    """A text without the header that all have, and no longer than a line."""
    text = text[len(GENERAL):] if text.startswith(GENERAL) else text
    return repr(text)[1:] if len(text) < 90 else repr(text[:30])[1:] + f" .. {len(text)} bytes"


def compare(ask, counts):
    warnings.simplefilter("ignore")
    compare_rows(ask, counts)
    compare_files(ask, counts)
    compare_texts(ask, counts)
