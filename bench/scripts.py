#!/usr/bin/env python3
"""Usage: scripts.py [PROGRAM [RUNS]]

Times reading scripts of SIZE bytes and of four times that, as probe_times.py says: short commands, one long function,
nested `if`, one `case`, here-documents that wait on one line, and much that opens and never closes. Ends with 1 where an
answer is wrong, or where a case takes more than a second for each SIZE bytes or more than ROOM bytes of memory for each
byte of the script.
"""
import sys

from probe_times import hexadecimal, time_requests

SIZE = 1 << 20
LIMIT = (SIZE, 1.0)
ROOM = 200


def requests(size):
    """The name of each case, its request, and the answer"""
    yield "short commands", *repeated(b"", b"a b\n", b"", size)
    yield "commands of 10 bytes", *repeated(b"", b"dodoc x.1\n", b"", size)
    yield "assignments before one command", *repeated(b"", b"a=b ", b"c", size)
    yield "words after one command", *repeated(b"a", b" b", b"", size)
    yield "one pipeline", *repeated(b"a", b" | b", b"", size)
    yield "one AND list", *repeated(b"a", b" && b", b"", size)
    yield "comments", *repeated(b"", b"# a\n", b"", size)
    yield "one function", *repeated(b"f() {\n", b"\tinstall -m 0644 x.conf \"${D}\"/etc || die\n", b"}", size)
    yield "functions", *repeated(b"", b"f() { a; }\n", b"", size)
    yield "150 nested if, again and again", *repeated(b"", b"if " * 150 + b"a;" + b" then b; fi;" * 150, b"", size)
    yield "one case", *repeated(b"case x in\n", b"a) b ;;\n", b"esac", size)
    yield "one case of longer clauses", *repeated(b"case x in\n", b"\tone|two*) export x=\"${y}\"; break ;;\n", b"esac", size)
    yield "one condition", *repeated(b"[[ a", b" && b", b" ]]", size)
    yield "one array", *repeated(b"a=(", b"b ", b")", size)
    yield "one declaration", *repeated(b"export", b" a=b", b"", size)
    yield "here-documents on lines of their own", *repeated(b"", b"a <<E\nb\nE\n", b"", size)
    yield "here-documents that wait on one line", line(waiting(size // 16)), b"script"
    yield "a function with commands of 4 bytes", *repeated(b"f() {\n", b"\ta b; c\n", b"}", size)
    yield "substitutions", *repeated(b"a", b" $(b)", b"", size)
    yield "200 groups that do not close, and commands", line(b"{ " * 200 + b"a b\n" * (size // 4)), b"refused 1"
    yield "100 arrays that do not close, and words", line(b"a=($(" * 100 + b"b " * (size // 2)), b"refused 1"
    yield "assignments before a name that is none", line(b"a=$(b) " * (size // 7) + b"fi"), b"refused 1"


def repeated(start, middle, end, size):
    """The request of a script of about `size` bytes, and its answer"""
    return line(start + middle * ((size - len(start + end)) // len(middle)) + end), b"script"


def waiting(count):
    """Here-documents whose bodies all stand after their one line"""
    return b"a" + b" <<E" * count + b"\n" + b"b\nE\n" * count


def line(text):
    """A request"""
    return b"parse " + hexadecimal(text)


if __name__ == "__main__":
    sys.exit(time_requests(SIZE, requests, "bytes", LIMIT, times=4, room=ROOM))
