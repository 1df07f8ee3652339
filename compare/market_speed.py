"""Times SciPy's reader and writer on a Matrix Market text, for scale beside the table of compare/speed, which calls it.

usage: compare/market_speed.py TEXT"""
import io
import statistics
import sys
import time

import scipy
import scipy.io

RUNS = 51


def nanoseconds(work):
    """The median of the runs, by the thread's own time."""
    times = []
    for _ in range(RUNS):
        start = time.thread_time_ns()
        work()
        times.append(time.thread_time_ns() - start)
    return statistics.median(times)


def main():
    text = open(sys.argv[1], "rb").read()
    matrix = scipy.io.mmread(io.BytesIO(text))
    read = nanoseconds(lambda: scipy.io.mmread(io.BytesIO(text)))
    written = nanoseconds(lambda: scipy.io.mmwrite(io.BytesIO(), matrix, symmetry="general"))
    print(f"SciPy {scipy.__version__}, for scale, on the first text of n = {len(matrix)}:"
          f" mmread {read:.0f} ns, mmwrite {written:.0f} ns")


main()
