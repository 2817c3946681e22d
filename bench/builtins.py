#!/usr/bin/env python3
"""Usage: builtins.py [PROGRAM [RUNS]]

Times what `printf`, `echo` and `declare -p` print and what `read` gives to names, of texts of SIZE bytes and of twice that, as
probe_times.py says. Ends with 1 where an answer is wrong, or where SIZE bytes take more than a second.
"""
import sys

from probe_times import hexadecimal, time_requests

SIZE = 1 << 19
LIMIT = (2 * SIZE, 1)


def requests(size):
    """The name of each case, its request, and the answer"""
    text = b"a" * size
    yield "printf of one word", printf(b"%s", [text]), printed(text)
    words = size // 10
    yield "printf of 10 bytes a word", printf(b"%s", [b"b" * 10] * words), printed(b"b" * 10 * words)
    yield "printf of numbers", printf(b"%d,", [b"12"] * (size // 4)), printed(b"12," * (size // 4))
    yield "printf of a width", printf(b"%%%dd" % size, [b"1"]), printed(b" " * (size - 1) + b"1")
    yield "printf of escapes", printf(b"%b", [b"\\t" * (size // 2)]), printed(b"\t" * (size // 2))
    yield "a width that is not paid", printf(b"%%%d0d" % (size << 10), [b"1"]), fault(b"StepsSpent", 5_000_000)
    yield "echo of words", b"echo" + fields([b"c"] * (size // 2 - 1)), printed(b" ".join([b"c"] * (size // 2 - 1)) + b"\n")
    line = b"d " * (size // 2)
    whole = b"d " * (size // 2 - 3) + b"d"
    names = b" x=64 y=64 z=" + hexadecimal(whole)
    yield "read of three names", reads(line, [b"x", b"y", b"z"]), taken(line, names)
    elements = b"".join(b" x[%d]=64" % index for index in range(size // 2))
    yield "read of an array", reads(line, [b"-a", b"x"]), taken(line, elements)
    yield "read of one field", reads(text, [b"x"]), taken(text, b" x=" + hexadecimal(text))
    yield "an array declared and shown", declares(size // 16), shown(size // 16)


def fields(words):
    """Words as the fields of a request"""
    return b"".join(b" " + hexadecimal(word) for word in words)


def printf(form, words):
    """A request"""
    return b"printf" + fields([form]) + fields(words)


def reads(line, words):
    """A request"""
    return b"reads " + hexadecimal(line + b"\n") + b" unset" + fields(words)


def declares(count):
    """A request: an array of so many elements, and what `declare -p` shows of it"""
    array = b"x=(" + b" ".join([b"e"] * count) + b")"
    words = [[b"declare", array], [b"declare", b"-p", b"x"]]
    return b"declares" + b"".join(b" do:" + b",".join(hexadecimal(word) for word in call) for call in words)


def shown(count):
    """The answer to that"""
    text = b"declare -a x=(" + b" ".join(b'[%d]="e"' % index for index in range(count)) + b")\n"
    return b"ok 0 - ok 0 %s steps %d" % (hexadecimal(text), (len(text) + 1) // 64)


def printed(text):
    """The answer of a builtin that prints a text"""
    return b"ok 0 %s steps %d" % (hexadecimal(text), (len(text) + 1) // 64)


def taken(line, variables):
    """The answer of `read`"""
    return b"ok 0 - took %d%s" % (len(line) + 1, variables)


def fault(text, steps):
    """The answer of a builtin that is at fault"""
    return b"fault %s steps %d" % (hexadecimal(text), steps)


if __name__ == "__main__":
    sys.exit(time_requests(SIZE, requests, "bytes", LIMIT))
