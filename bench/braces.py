#!/usr/bin/env python3
"""Usage: braces.py [PROGRAM [RUNS]]

Times the braces that give the most words there may be, and some that give too many, as probe_times.py says, with the
same texts at both sizes but for those of SIZE bytes without a pair. Ends with 1 where an answer is wrong, or where a
case takes more than half a second at SIZE.
"""
import itertools
import sys

from probe_times import hexadecimal, time_requests

SIZE = 1 << 17
LIMIT = (SIZE, 0.5)


def requests(size):
    """The name of each case, its request, and the answer"""
    yield "{1..65536}", line(b"{1..65536}"), answer(b"%d" % number for number in range(1, 65537))
    yield "{1..65537}", line(b"{1..65537}"), b"many"
    sides = itertools.product(range(1, 257), repeat=2)
    yield "@({1..256}|{1..256})", line(b"@({1..256}|{1..256})"), answer(b"@(%d|%d)" % side for side in sides)
    yield "@({1..256}|{0..256})", line(b"@({1..256}|{0..256})"), b"many"
    pairs = map(bytes, itertools.product(b"ab", repeat=16))
    yield "16 times {a,b}", line(b"{a,b}" * 16), answer(pairs)
    yield "{1..9223372036854775807}", line(b"{1..9223372036854775807}"), b"many"
    least_to_greatest = b"{-9223372036854775808..9223372036854775807..1}"
    yield least_to_greatest.decode(), line(least_to_greatest), b"many"
    yield "60 times {a,b}", line(b"{a,b}" * 60), b"many"
    yield "60 nested pairs", line(b"{1..9}{a," * 60 + b"b" + b"}" * 60), b"many"
    for text in (b"a", b"{", b"}", b",", b"{}", b"{a", b",}", b"@(a|b)"):
        whole = text * (size // len(text))
        yield f"{text.decode()} repeated", line(whole), answer([whole])


def line(text):
    """A request"""
    return b"braces " + hexadecimal(text)


def answer(words):
    """The answer that gives these words"""
    return b" ".join([b"ok", *map(hexadecimal, words)])


if __name__ == "__main__":
    sys.exit(time_requests(SIZE, requests, "bytes", LIMIT))
