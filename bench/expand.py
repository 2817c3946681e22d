#!/usr/bin/env python3
"""Usage: expand.py [PROGRAM [RUNS]]

Times what words of SIZE bytes expand to, as probe_times.py says: `$x`, `"${a[@]}"` of an array with 65,536 elements,
plain text, a here-document's body with 10,000 parameters, `${x:-` in one another, and where a limit comes: braces that
give too many words, doublings of `"$@"`, a field of 1 MiB and a byte. Ends with 1 where an answer is wrong, or where a
case takes more than a second at SIZE. It stands on the request `expand`, whose form is at the head of
tests/rows/expand.rows; the probe does not answer that yet, so until then every case is WRONG.
"""
import sys

from probe_times import hexadecimal, time_requests

SIZE = 1 << 20
LIMIT = (SIZE, 1.0)
FULL = 1 << 20  # the bytes of a field, at most


def requests(size):
    """The name of each case, its request, and the answer"""
    yield from texts(size)
    yield from lists(size)
    yield from limits(size)


def texts(size):
    """Words that give one text or few"""
    yield "$x in one word", line(b"$x" * (size // 2), b"x=" + hexadecimal(b"a")), ok([b"a" * (size // 2)])
    yield "$x in one word, unset", line(b"$x" * (size // 2)), ok([])
    quoted = line(b'"' + b"$x" * (size // 2) + b'"', b"x=" + hexadecimal(b"b"))
    yield "$x in double quotes", quoted, ok([b"b" * (size // 2)])
    yield "$x, a word each", line(b"$x " * (size // 3), b"x=" + hexadecimal(b"a")), ok([b"a"] * (size // 3))
    yield "plain text, a word each", line(b"ab " * (size // 3)), ok([b"ab"] * (size // 3))
    yield "plain text, one word", line(b"a" * min(size, FULL)), ok([b"a" * min(size, FULL)])
    body = (b"$x" + b"-" * (size // 10000 - 3) + b"\n") * 10000
    text = body.replace(b"$x", b"v")
    if len(text) <= FULL:
        yield "a here-document with 10,000 parameters", line(body, b"x=" + hexadecimal(b"v"), b"want:here"), ok([text])
    nested = b"${x:-" * 200 + b"a" + b"}" * 200
    count = size // len(nested)
    yield "200 ${x:- in one another, many times", line((nested + b" ") * count), ok([b"a"] * count)


def lists(size):
    """Lists of 65,536 elements"""
    elements = [b"%d" % at for at in range(65536)]
    array = b" ".join(b"a[%d]=%s" % (at, hexadecimal(text)) for at, text in enumerate(elements))
    yield '"${a[@]}" with 65,536 elements', line(b'"${a[@]}"', array), ok(elements)
    yield "${a[@]} with 65,536 elements", line(b"${a[@]}", array), ok(elements)
    yield '"${a[*]}" with 65,536 elements', line(b'"${a[*]}"', array), ok([b" ".join(elements)])
    yield "the indices of 65,536 elements", line(b'"${!a[@]}"', array), ok(elements)


def limits(size):
    """What is refused before there is want of memory"""
    yield "{1..65536}{1..2}", line(b"{1..65536}{1..2}"), fault(b"BraceCount", 0)
    yield "{1..9223372036854775807}", line(b"{1..9223372036854775807}"), fault(b"BraceCount", 0)
    text = hexadecimal(b"a" * FULL)
    yield "a field of 1 MiB and a byte", line(b'"${x}a"', b"x=" + text), fault(b"ValueSize", 0)
    yield "32 fields of 1 MiB", line(b" ".join([b'"$x"'] * 32), b"x=" + text), fault(b"TotalSize", 0)
    # the list that doubling seven times would give: 128 times 300,000 bytes are more than 33,554,432
    arguments = b"1=" + hexadecimal(b"a" * 299999)
    yield 'seven doublings of "$@"', line(b" ".join([b'"$@"'] * 128), arguments), fault(b"TotalSize", 0)


def line(text, *settings):
    """A request"""
    return b" ".join([b"expand", hexadecimal(text), *settings])


def ok(fields):
    """The answer of fields, or of one text: a step for each 64 bytes, one more byte for each field counted"""
    steps = sum(len(field) + 1 for field in fields) // 64
    return b" ".join([b"ok", *map(hexadecimal, fields), b"steps %d" % steps])


def fault(text, steps):
    """The answer of a fault"""
    return b"fault " + hexadecimal(text) + b" steps %d" % steps


if __name__ == "__main__":
    sys.exit(time_requests(SIZE, requests, "bytes", LIMIT))
