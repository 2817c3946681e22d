#!/usr/bin/env python3
"""Usage: split.py [PROGRAM [RUNS]]

Times the splitting of lists of SIZE marks and of twice that, as probe_times.py says. Ends with 1 where an answer is
wrong, or where SIZE marks take more than half a second.
"""
import sys

from probe_times import hexadecimal, time_requests

SIZE = 1 << 20
LIMIT = (SIZE, 0.5)


def requests(size):
    """The name of each case, its request, and the answer"""
    yield "one field", line(b" ", [b"R61"] * size), b",".join([b"R61"] * size)
    yield "words", line(b" \t\n", [b"R61", b"R20"] * (size // 2)), b" ".join([b"R61"] * (size // 2))
    yield "blanks", line(b" ", [b"R20"] * size), b"-"
    yield "separators", line(b":", [b"R3a"] * size), b" ".join([b"."] * size)
    yield "blanks and separators", line(b" :", [b"R20", b"R3a"] * (size // 2)), b" ".join([b"."] * (size // 2))
    yield "breaks", line(b"", [b"Q61", b"B"] * (size // 2)), b" ".join([b"Q61"] * (size // 2))
    yield "a long IFS", line(bytes(range(97)) * (size // 97), [b"R61", b"R60"] * (size // 2)), (
        b" ".join([b"R61"] * (size // 2))
    )


def line(ifs, marks):
    """A request"""
    return b"split " + hexadecimal(ifs) + b" " + b",".join(marks)


if __name__ == "__main__":
    sys.exit(time_requests(SIZE, requests, "marks", LIMIT))
