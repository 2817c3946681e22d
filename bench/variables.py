#!/usr/bin/env python3
"""Usage: variables.py [PROGRAM [RUNS]]

Times histories of calls on variables, of SIZE parts and of twice that, as probe_times.py says. Twice SIZE parts are
100,000 names that are set and then read, an array of 65,536 elements that is built element by element, from its front
and from its end, and a text of 1 MiB that is built by 16,384 appends of 64 bytes. Ends with 1 where an answer is wrong,
or where twice SIZE parts take more than a second.
"""
import sys

from probe_times import time_requests

SIZE = 16
LIMIT = (2 * SIZE, 1)


def cases(parts):
    """The name of each case, its calls, and their answers"""
    names = [b"name_%d" % number for number in range(parts * 3125)]
    calls = [b"set:%s=61" % name for name in names] + [b"get:%s" % name for name in names]
    yield f"{len(names)} names", calls, [b"61"] * len(names)
    count = parts * 2048
    size = b"%d" % (len(b"a") + count * (1 + 16))
    yield f"{count} elements", [b"set:a[%d]=61" % index for index in range(count)] + [b"bytes"], [size]
    calls = [b"set:a[%d]=61" % index for index in reversed(range(count))] + [b"bytes"]
    yield f"{count} elements, last first", calls, [size]
    count = parts * 512
    calls = [b"append:x=" + b"61" * 64] * count + [b"bytes"]
    yield f"{count} appends", calls, [b"%d" % (len(b"x") + 64 * count + 16)]


def requests(parts):
    """The name of each case, its request, and the answer"""
    for name, calls, answers in cases(parts):
        yield name, b" ".join([b"vars"] + calls), b" ".join(answers)


if __name__ == "__main__":
    sys.exit(time_requests(SIZE, requests, "parts", LIMIT))
