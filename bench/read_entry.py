#!/usr/bin/env python3
"""Usage: read_entry.py [PROGRAM [RUNS]]

Times the reading of entries from texts of about SIZE bytes and of twice that, as probe_times.py says. Ends with 1 where
an answer is wrong.
"""
import sys

from probe_times import hexadecimal, time_requests

SIZE = 2 << 20
DIGEST = b"0123456789abcdef" * 2
MD5 = b"_md5_=" + DIGEST + b"\n"


def entry(description, eclasses=b""):
    """An entry with this description, and this line of eclasses"""
    return b"DEFINED_PHASES=-\nDESCRIPTION=" + description + b"\nEAPI=8\nSLOT=0\n" + eclasses + MD5


def texts(size):
    """The name of each case, its text, and whether it is an entry"""
    yield "one word", entry(b"x" * size), True
    yield "many words", entry(b"a " * (size // 2 - 1) + b"a"), True
    record = b"\t".join(b"e%07d\t%s" % (number, DIGEST) for number in range(size // 42))
    yield "many eclasses", entry(b"a", b"_eclasses_=" + record + b"\n"), True
    yield "many lines of one key", b"SLOT=0\n" * (size // 7) + MD5, False
    yield "many blanks", entry(b"a" + b" " * (size - 2) + b"a"), False
    yield "no newline", b"DESCRIPTION=" + b"x" * size, False


def requests(size):
    """The name of each case, its request, and the answer"""
    for name, text, is_entry in texts(size):
        field = hexadecimal(text)
        yield name, b"entry " + field, b"ok " + field if is_entry else b"bad"


if __name__ == "__main__":
    sys.exit(time_requests(SIZE, requests, "bytes"))
