#!/usr/bin/env python3
"""Usage: redirs.py [PROGRAM [RUNS]]

Times the reading of here-documents, assignments and regular expressions of SIZE bytes and of twice that, as
probe_times.py says. SIZE bytes are 20,000 here-documents on lines of their own. Ends with 1 where an answer is wrong, or
where SIZE bytes take more than a second.
"""
import sys

from probe_times import hexadecimal, time_requests

SIZE = 1 << 20
LIMIT = (SIZE, 1.0)
LINE = b"x" * 63 + b"\n"
DOCUMENT = b"<<A\n" + b"x" * 45 + b"\nA\n"


def requests(size):
    """The name of each case, its request, and the answer"""
    body = LINE * (size // len(LINE))
    yield documents("one body", b"<<A\n%sA\n" % body, [b"2 parts %d" % len(body)])
    yield documents("one quoted body", b"<<'A'\n%sA\n" % body, [b"2 literal " + hexadecimal(body)])
    yield documents("one body without tabs", b"<<-A\n%sA\n" % (b"\tx\n" * (size // 3)), [b"3 parts %d" % (size // 3 * 2)])
    yield documents("one body of names", b"<<A\n%sA\n" % (b"$x\n" * (size // 3)), [b"2 parts %d" % (size // 3 * 2)])
    count = size // len(DOCUMENT)
    yield documents("here-documents", DOCUMENT * count, [b"%d parts 46" % (len(DOCUMENT) * i + 2) for i in range(count)])
    yield place("one value", b"assign", b"a=" + b"x" * size)
    yield place("one array", b"assign", b"a=(%s)" % (b"x\n" * (size // 2)))
    yield place("one regular expression", b"regex", b"(a b)|" * (size // 6))
    yield "one delimiter", b"mark " + hexadecimal(b"x" * size), b"place %d bare " % size + hexadecimal(b"x" * size)


def documents(name, text, bodies):
    """A case of here-documents: the whole text is read, and no body is still to come"""
    return name, b"documents " + hexadecimal(text), b" ".join([b"place %d" % len(text)] + bodies + [b"waiting 0"])


def place(name, request, text):
    """A case whose whole text is read"""
    return name, request + b" " + hexadecimal(text), b"place %d" % len(text)


if __name__ == "__main__":
    sys.exit(time_requests(SIZE, requests, "bytes", LIMIT))
