#!/usr/bin/env python3
"""Usage: versions.py [PROGRAM [RUNS]]

Times requests on versions with texts of SIZE bytes and of twice that, as probe_times.py says. Ends with 1 where an
answer is wrong.
"""
import sys

from probe_times import hexadecimal, time_requests

SIZE = 1 << 20


def digits(size):
    """A version of one number, and one that is greater by one"""
    return b"7" * size, b"7" * (size - 1) + b"8"


def components(size):
    """A version of many components, and one whose last component is greater"""
    text = b"1.02" * (size // 4)
    return text, text[:-1] + b"3"


def suffixes(size):
    """A version of many suffixes, and one with one more"""
    text = b"1" + b"_rc9" * (size // 4)
    return text, text + b"_p"


def requests(size):
    """The name of each case, its request, and the answer"""
    for name, (a, b) in (("digits", digits(size)), ("components", components(size)), ("suffixes", suffixes(size))):
        yield f"version, {name}", line(b"version", a, b), b"less"
    text = b"1." * (size // 2)
    yield "cut", line(b"cut", b"2-", text), b"ok " + hexadecimal(text[2:])
    yield "rs", line(b"rs", text, b"1-", b"-"), b"ok " + hexadecimal(text.replace(b".", b"-"))


def line(name, *texts):
    """A request"""
    return b" ".join((name, *(hexadecimal(text) for text in texts)))


if __name__ == "__main__":
    sys.exit(time_requests(SIZE, requests, "bytes"))
