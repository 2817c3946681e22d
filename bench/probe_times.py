"""What the benchmarks of the libraries share: they time requests to the probe, of a size and of multiples of that size.

Each script that stands on this takes PROGRAM (crates/probe/out/probe) and RUNS (3) as its words. It prints, for each
case, the processor time of the best of RUNS runs of PROGRAM, from reading the request to writing the answer, and beside
it that of a line of the same size that is no request, which is the time that reading it takes. If twice the size takes
about twice the time, the time is linear. It prints too the most memory that a run held for each byte of the size; as
much as the script itself holds is counted at least, since a program begins as a copy of the one that starts it. A
request is given in a file, since from a pipe the probe reads byte by byte. Each answer is compared with one that the
script works out.
"""
import os
import subprocess
import sys
import tempfile
from typing import NamedTuple


class Spent(NamedTuple):
    """What runs of the program took: the processor seconds of the quickest, the most bytes of memory, and whether each
    gave the answer"""

    seconds: float
    memory: int
    is_right: bool


def answer_to(program, file):
    """What a run of the program that reads the file writes, none where it does not end well, and what it took"""
    file.seek(0)
    with subprocess.Popen([program], stdin=file, stdout=subprocess.PIPE) as process:
        given = process.stdout.read()
        _, status, usage = os.wait4(process.pid, 0)
        process.returncode = os.waitstatus_to_exitcode(status)
    return given if process.returncode == 0 else None, usage


def run_once(program, file, answer):
    """What one run took that reads the file"""
    given, usage = answer_to(program, file)
    return Spent(usage.ru_utime + usage.ru_stime, usage.ru_maxrss * 1024, given == answer + b"\n")


def best(program, runs, request, answer):
    """What the runs of a request took"""
    with tempfile.TemporaryFile() as file:
        file.write(request + b"\n")
        file.flush()
        took = [run_once(program, file, answer) for _ in range(runs)]
    return Spent(min(it.seconds for it in took), max(it.memory for it in took), all(it.is_right for it in took))


def hexadecimal(text):
    """The field of a request that stands for a text"""
    return text.hex().encode() or b"-"


def time_requests(size, requests, unit, limit=None, times=2, room=None):
    """Times what `requests` gives at the size and at `times` that: the name of each case, its request, and the answer.
    `limit` is a size and the seconds that a case may take up to there, without the reading of the line; beyond it a case
    may take as much longer as its size is larger. `room` is how many bytes of memory a case may take for each byte of its
    size. Gives 1 where an answer is wrong or a case takes more, else 0."""
    here = os.path.dirname(os.path.abspath(__file__))
    program = sys.argv[1] if len(sys.argv) > 1 else os.path.join(here, "../crates/probe/out/probe")
    runs = int(sys.argv[2]) if len(sys.argv) > 2 else 3
    all_right = True
    for now in (size, times * size):
        for name, request, answer in requests(now):
            idle = best(program, runs, b"none" + request, b"what")
            took = best(program, runs, request, answer)
            wrongs = list(what_is_wrong(now, idle, took, limit, room))
            all_right &= not wrongs
            times_said = f"{took.seconds:.3f} s, a line that is no request {idle.seconds:.3f} s"
            print(", ".join([f"{name}, {now} {unit}: {times_said}, memory {took.memory / now:.0f}", *wrongs]), flush=True)
    return 0 if all_right else 1


def what_is_wrong(now, idle, took, limit, room):
    """What is wrong with a case of this size"""
    if not (idle.is_right and took.is_right):
        yield "WRONG"
    if limit is not None and took.seconds - idle.seconds > limit[1] * max(now / limit[0], 1):
        yield "TOO SLOW"
    if room is not None and took.memory > room * now:
        yield "TOO LARGE"
