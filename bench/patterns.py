#!/usr/bin/env python3
"""Usage: patterns.py [PROGRAM [RUNS]]

Times patterns on texts of SIZE bytes and of twice that, as probe_times.py says: `match`, which makes eight walks over
the text (one for `matches`, one for each of four searches, two for the first match, and what is left of it for the
third); `all`, all matches in one walk; and patterns of as many brackets that never close, on one of them. Ends with 1
where an answer is wrong, or where SIZE brackets, or all matches in SIZE bytes, take more than a second.
"""
import sys

from probe_times import hexadecimal, time_requests

SIZE = 1 << 20
LIMIT = (SIZE, 1)


def cases(n):
    """The name of each case, its pattern, its text, and the answer"""
    yield "*a*a*b", b"*a*a*b", b"a" * n, b"no none none none none none"
    yield "*(a|ab)*(b)c", b"*(a|ab)*(b)c", b"ab" * (n // 2), b"no none none none none none"
    yield "*(a|ab)*(b)c, found", b"*(a|ab)*(b)c", b"ab" * (n // 2 - 1) + b"bc", f"yes {n} {n} {n - 1} 0 0-{n}".encode()
    yield "*(*(*(a)))b", b"*(*(*(a)))b", b"a" * n, b"no none none none none none"
    yield "[!a]", b"[!a]", b"a" * n, b"no none none none none none"
    yield "!(*b)c", b"!(*b)c", b"a" * n, b"no none none none none none"
    yield "!(a*b)", b"!(a*b)", b"a" * n, f"yes 0 {n} {n} 0 0-{n}".encode()
    yield "!(!(a))", b"!(!(a))", b"a" * n, f"no 1 1 {n - 1} {n - 1} 0-1".encode()
    yield "*!(a!(b)c)d", b"*!(a!(b)c)d", b"acbd" * (n // 4), f"yes 4 {n} {n - 1} 0 0-{n}".encode()
    yield "*(!(a|b)c)d", b"*(!(a|b)c)d", (b"abc" * n)[:n], b"no none none none none none"
    yield "!(*a??????????)b", b"!(*a??????????)b", b"ab" * (n // 2), f"no 2 10 {n - 1} {n - 11} 0-10".encode()


def searches(size):
    """The name of each case of `match`, its request, and the answer"""
    for name, pattern, text, answer in cases(size):
        marks = b",".join(b"L%02x" % byte for byte in pattern)
        yield f"match {name} ({len(text)})", b" ".join((b"match", b"1", marks, hexadecimal(text))), answer


def all_matches(size):
    """The name of each case of `all`, its request, and the answer"""
    texts = (
        ("a*b", b"a*b", b"a" * size, b"none"),
        (" ", b" ", b"a" * size, b"none"),
        ("[!a-z]", b"[!a-z]", b"a" * size, b"none"),
        ("a", b"a", b"b" * (size - 1) + b"a", f"{size - 1}-{size}".encode()),
        ("?", b"?", b"a" * size, " ".join(f"{i}-{i + 1}" for i in range(size)).encode()),
        ("@(ab|a)c", b"@(ab|a)c", b"ab" * (size // 2), b"none"),
    )
    for name, pattern, text, answer in texts:
        marks = b",".join(b"L%02x" % byte for byte in pattern)
        yield f"all {name} ({len(text)})", b" ".join((b"all", b"1", marks, hexadecimal(text))), answer


def brackets(size):
    """The name of each case of brackets that never close, its request, and the answer"""
    yield "matches [[[..", b"matches 0 L" + b"5b" * size + b" 5b", b"no"
    open_class = hexadecimal(b"[[:alpha:]")
    yield "matches [[:alpha:][[:alpha:]..", b"matches 0 L" + open_class * (size // 10) + b" 5b", b"no"


if __name__ == "__main__":
    late = time_requests(SIZE, all_matches, "bytes", LIMIT) | time_requests(SIZE, brackets, "bytes", LIMIT)
    sys.exit(time_requests(SIZE, searches, "bytes") | late)
