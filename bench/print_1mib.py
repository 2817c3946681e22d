#!/usr/bin/env python3
"""Usage: print_1mib.py [PROGRAM [RUNS]]

Times `egencache print` on an ebuild of almost 1 MiB with 20,000 names, and on one of half that size with half as many:
the best of RUNS runs (5) of PROGRAM (crates/egencache/out/egencache). If twice the size takes about twice the time,
the time is linear. Each output is compared with the entry that this script works out. Ends with 1 where one is wrong.
"""
import hashlib
import os
import subprocess
import sys
import tempfile
import time

LIMIT = 1 << 20
PLACE = "app-misc/large/large-1.ebuild"
HEAD = b'EAPI=8\nDESCRIPTION="A  large\tebuild"\nSLOT=0\n'
TAIL = b"SLOT=1\n"


def ebuild(size, names):
    """An ebuild of plain lines: at most so many bytes, so many names beside the keys"""
    each = (size - len(HEAD) - len(TAIL)) // names
    lines = []
    for number in range(names):
        before = b'NAME_%05d="' % number
        lines.append(before + b"x" * (each - len(before) - 2) + b'"\n')
    return HEAD + b"".join(lines) + TAIL


def entry(text):
    """The entry of such an ebuild"""
    md5 = hashlib.md5(text).hexdigest().encode()
    return b"DEFINED_PHASES=-\nDESCRIPTION=A large ebuild\nEAPI=8\nSLOT=1\n_md5_=" + md5 + b"\n"


def best(program, repository, runs, wanted):
    """The seconds of the quickest run, and whether each run put what was wanted and nothing else"""
    seconds, is_right = [], True
    for _ in range(runs):
        start = time.perf_counter()
        ran = subprocess.run([program, "print", repository, PLACE], stdin=subprocess.DEVNULL, capture_output=True)
        seconds.append(time.perf_counter() - start)
        is_right = is_right and (ran.returncode, ran.stdout, ran.stderr) == (0, wanted, b"")
    return min(seconds), is_right


def main(words):
    top = os.path.dirname(os.path.dirname(os.path.abspath(__file__)))
    program = words[0] if words else os.path.join(top, "crates/egencache/out/egencache")
    runs = int(words[1]) if words[1:] else 5
    if not os.access(program, os.X_OK):
        print(f"{program} is not there: build it by `rt run` in crates/egencache", file=sys.stderr)
        return 2
    status = 0
    with tempfile.TemporaryDirectory() as repository:
        path = os.path.join(repository, PLACE)
        os.makedirs(os.path.dirname(path))
        for size, names in ((LIMIT // 2, 10_000), (LIMIT, 20_000)):
            text = ebuild(size, names)
            with open(path, "wb") as file:
                file.write(text)
            seconds, is_right = best(program, repository, runs, entry(text))
            print(f"{len(text)} bytes, {names} names: {seconds:.4f} s, {'right' if is_right else 'WRONG'}")
            status = status if is_right else 1
    return status


if __name__ == "__main__":
    sys.exit(main(sys.argv[1:]))
