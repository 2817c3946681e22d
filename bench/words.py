#!/usr/bin/env python3
"""Usage: words.py [PROGRAM [RUNS]]

Times where words of SIZE bytes end, as probe_times.py says: words of bytes, of quotes, of parameters, of an arithmetic
text, words of three bytes between blanks, and words in which much opens and nothing closes. Ends with 1 where an answer
is wrong, or where a case takes more than a second at SIZE.
"""
import sys

from probe_times import hexadecimal, time_requests

SIZE = 1 << 20
LIMIT = (SIZE, 1.0)


def requests(size):
    """The name of each case, its request, and the answer"""
    yield "plain bytes", *whole(b"", b"a", b"", size)
    yield "bytes that begin other pieces", *whole(b"", b"@", b"", size)
    yield "escaped bytes", *whole(b"", b"\\;", b"", size)
    yield "one text in single quotes", *whole(b"'", b"a", b"'", size)
    yield "one text in $'..'", *whole(b"$'", b"a", b"'", size)
    yield "bytes in double quotes", *whole(b'"', b"a", b'"', size)
    yield "$x in double quotes", *whole(b'"', b"$x", b'"', size)
    yield "pairs of double quotes", *whole(b"", b'""', b"", size)
    yield "${x} one after another", *whole(b"", b"${x}", b"", size)
    yield "words of three bytes in a group", *whole(b"@(", b"abc ", b")", size)
    yield "words of three bytes in ${x-..}", *whole(b"${x-", b"abc ", b"}", size)
    yield "one arithmetic text", *whole(b"$((", b"1+", b"1))", size)
    yield "$x in an arithmetic text", *whole(b"$((", b"$x+", b"1))", size)
    yield "one subscript", *whole(b"${x[", b"1+", b"1]}", size)
    yield "one slice", *whole(b"${x:", b"1+", b"1}", size)
    yield "words of three bytes that end at once", line(b"abc " * (size // 4)), b"place 3"
    yield "double quotes that do not close", line(b'"' + b"$x" * (size // 2)), b"no"
    yield "a group that does not close", line(b"@(" + b"abc " * (size // 4)), b"place 1"
    yield "groups that do not close", line(b"${x-" + b"@( " * (size // 3)), b"deep 1"
    yield "199 groups that do not close, and bytes", line(b"${x-" + b"@(" * 199 + b"a" * size), b"no"
    yield "199 ${x- that do not close, and bytes", line(b"${x-" * 199 + b"a" * size), b"no"


def whole(start, middle, end, size):
    """The request of a word of about `size` bytes, and its answer"""
    word = start + middle * ((size - len(start + end)) // len(middle)) + end
    return line(word), b"place %d" % len(word)


def line(text):
    """A request"""
    return b"word " + hexadecimal(text)


if __name__ == "__main__":
    sys.exit(time_requests(SIZE, requests, "bytes", LIMIT))
