#!/usr/bin/env python3
"""Usage: operators.py [PROGRAM [RUNS]]

Times parameter operators on texts of a size and of twice that, as probe_times.py says: `${x//pattern/string}` on
128 KiB, `${x##*/}`, `${x%%-*}` and `${x^^}` on 1 MiB. Ends with 1 where an answer is wrong, where a replacement takes
more than a second, or another more than half a second.
"""
import sys

from probe_times import hexadecimal, time_requests

REPLACED = 1 << 17
SIZE = 1 << 20


def marks(pattern):
    """The field of a request that stands for a pattern"""
    return b",".join(b"L%02x" % byte for byte in pattern)


def request(name, op, pattern, text, *rest):
    """A request on a pattern and a text"""
    return b" ".join((name, op, marks(pattern), hexadecimal(text), *map(hexadecimal, rest)))


def replacements(size):
    """The name of each case of a replacement, its request, and the answer"""
    texts = (
        ("a*b, none", b"a*b", b"a" * size, b"-", b"a" * size),
        ("blank", b" ", b"ab c" * (size // 4), b"", b"abc" * (size // 4)),
        ("[!a-z]", b"[!a-z]", b"a-b1" * (size // 4), b"_", b"a_b_" * (size // 4)),
        ("a", b"a", b"a" * size, b"b", b"b" * size),
        ("?", b"?", b"a" * size, b"b", b"b" * size),
        ("@(ab|a)c, none", b"@(ab|a)c", b"ab" * (size // 2), b"-", b"ab" * (size // 2)),
        ("@(ab|a)c", b"@(ab|a)c", b"abcac-" * (size // 6), b"+", b"++-" * (size // 6)),
    )
    for name, pattern, text, by, new in texts:
        line = request(b"replace", b"//", pattern, text, by)
        yield f"replace // {name} ({len(text)})", line, b"ok " + hexadecimal(new)


def strips(size):
    """The name of each case of a strip or a change of case, its request, and the answer"""
    texts = (
        (b"strip", b"##", b"*/", b"/usr" * (size // 4), b"usr"),
        (b"strip", b"##", b"*/", b"a" * size, b"a" * size),
        (b"strip", b"%%", b"-*", b"foo-" * (size // 4), b"foo"),
        (b"strip", b"%%", b"-*", b"a" * size, b"a" * size),
        (b"case", b"^^", b"?", b"aB1." * (size // 4), b"AB1." * (size // 4)),
    )
    for name, op, pattern, text, new in texts:
        title = b" ".join((name, op, pattern)).decode()
        yield f"{title} ({len(text)})", request(name, op, pattern, text), b"ok " + hexadecimal(new)


if __name__ == "__main__":
    late = time_requests(REPLACED, replacements, "bytes", (REPLACED, 1))
    sys.exit(time_requests(SIZE, strips, "bytes", (SIZE, 0.5)) | late)
