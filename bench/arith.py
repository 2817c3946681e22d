#!/usr/bin/env python3
"""Usage: arith.py [PROGRAM [RUNS]]

Times the evaluation of expressions of about SIZE bytes and of twice that, as probe_times.py says. No nesting stands
inside another in them, since a text of any length may have at most 64 open at once. What limits an expression otherwise
is its steps, one for each variable whose text is evaluated, of which the probe allows 5,000,000: `x+x+..` of twice the
size takes 1,048,576. Ends with 1 where an answer is wrong.
"""
import sys

from probe_times import hexadecimal, time_requests

SIZE = 1 << 20
WORD = 1 << 64


def signed(number):
    """The lowest 64 bits of a number, as a number with a sign"""
    number %= WORD
    return number - WORD if number >= WORD // 2 else number


def sevens(count):
    """The number that so many digits 7 write, modulo 2^64"""
    return 7 * ((pow(10, count, 9 * WORD) - 1) // 9)


def cases(size):
    """The name of each case, its expression, its variables, its number and its steps"""
    count = size // 2
    yield "1+1+..", b"+".join([b"1"] * count), b"", count, 0
    yield "x+x+..", b"+".join([b"x"] * count), b" x=31", count, count
    yield "1,1,..", b",".join([b"1"] * count), b"", 1, 0
    yield "1?2:3,..", b",".join([b"1?2:3"] * (size // 6)), b"", 2, 0
    yield "one constant", b"7" * size, b"", signed(sevens(size)), 0


def requests(size):
    """The name of each case, its request, and the answer"""
    for name, text, variables, number, steps in cases(size):
        answer = b"ok %d steps %d" % (number, steps)
        yield name, b"arith " + hexadecimal(text) + variables, answer + variables


if __name__ == "__main__":
    sys.exit(time_requests(SIZE, requests, "bytes"))
