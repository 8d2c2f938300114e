#!/usr/bin/env python3
"""Runs a built `usbrun` on streams that fail, and compares its status, its line and its output with docs/FORMATS.md.

    check_streams.py PROGRAM

No contract speaks of what the real streams hold, so these runs are all that shows it: a closed input and a folder as input, an
input that fails after some lines, a closed output, a full device, a file that may not grow, a reader that goes away, and
the same of standard error, whose faults change nothing. Each run has 60 seconds. The exit status is 1 where one differs.
"""

import os
import pty
import subprocess
import sys
import tempfile
import tty

from job_model import expected
from program_run import LIMIT, stop_growth

HEAD = b"device 1201000200000040feca0140000100000001\nconfig 0902120001010080320904000000ff000000\nbegin\n"
LINES = b"reset\nirq\ntask\nstate\n"
JOB = HEAD + LINES * 20000 + b"end\n"
BAD = HEAD + b"reset\nirq\nin 0 16 ok\n"
# bytes that a file may have, in the run whose output is a file that may not grow
MOST = 10000


class Lacking(Exception):
    """What a case needs isn't here."""


def close(number):
    """What a new process does before it is the program: it has no such stream."""
    return lambda: os.close(number)


def ended(process):
    """Status, standard output and standard error of a process once it has ended, or a text for its status where it is late."""
    try:
        wrote, told = process.communicate(timeout=LIMIT)
    except subprocess.TimeoutExpired:
        process.kill()
        wrote, told = process.communicate()
        return f"none within {LIMIT} seconds", wrote, told
    return process.returncode, wrote, told


def start(program, given, out=None, err=None, before=None):
    """The program on an open file, with other streams than pipes of its own where they are given."""
    how = {"stdin": given, "stdout": out or subprocess.PIPE, "stderr": err or subprocess.PIPE}
    return subprocess.Popen([program, "device"], preexec_fn=before, **how)


def run(program, job, **how):
    """What comes of a job's bytes in a file."""
    with tempfile.TemporaryFile() as given:
        given.write(job)
        given.seek(0)
        with start(program, given, **how) as process:
            return ended(process)


def folder_as_input(program):
    given = os.open("/", os.O_RDONLY)
    with start(program, given) as process:
        os.close(given)
        return ended(process)


def failing_input(program):
    """A terminal whose other end goes away after some whole lines and a part of one: a read fails then."""
    try:
        ours, theirs = pty.openpty()
    except OSError as why:
        raise Lacking(f"there is no terminal: {why}") from None
    tty.setraw(theirs)
    with start(program, ours) as process:
        os.close(ours)
        os.write(theirs, HEAD + LINES + b"sta")
        os.close(theirs)
        return ended(process)


def gone_reader(program):
    """Standard output is a pipe whose reader goes away after it read a little."""
    ours, theirs = os.pipe()
    with tempfile.TemporaryFile() as given:
        given.write(JOB)
        given.seek(0)
        with start(program, given, out=theirs) as process:
            os.close(theirs)
            os.read(ours, 100)
            os.close(ours)
            return ended(process)


def limited_file(program):
    with tempfile.TemporaryFile() as out:
        status, _, told = run(program, JOB, out=out, before=lambda: stop_growth(MOST))
        out.seek(0)
        return status, out.read(), told


def with_full_device(program, job, stream):
    """What comes of a job where this stream, `out` or `err`, is a device that is full."""
    try:
        full = open("/dev/full", "wb")
    except OSError as why:
        raise Lacking(f"there is no full device: {why}") from None
    with full:
        return run(program, job, **{stream: full})


def cases(program):
    """Each case's name, how it is run, and what is to come. None stands for a stream that isn't looked at."""
    answers, read_fault, write_fault = expected(JOB)[1], b"usbrun: read fault\n", b"usbrun: write fault\n"
    return [
        ("a folder as input", lambda: folder_as_input(program), (4, b"", read_fault)),
        ("a closed input", lambda: run(program, b"", before=close(0)), (4, b"", read_fault)),
        ("an input that fails", lambda: failing_input(program), (4, expected(HEAD + LINES)[1], read_fault)),
        ("a full device", lambda: with_full_device(program, JOB, "out"), (5, None, write_fault)),
        ("a full device for errors", lambda: with_full_device(program, BAD, "err"), (2, b"ok\nok\n", None)),
        ("a closed output", lambda: run(program, JOB, before=close(1)), (5, b"", write_fault)),
        ("a file that may not grow", lambda: limited_file(program), (5, answers[:MOST], write_fault)),
        ("a reader that goes away", lambda: gone_reader(program), (5, None, write_fault)),
        ("closed errors", lambda: run(program, BAD, before=close(2)), (2, b"ok\nok\n", b"")),
        ("no fault", lambda: run(program, JOB), (0, answers, b"")),
    ]


def short(end):
    return tuple(it[:60] if isinstance(it, bytes) else it for it in end)


def main():
    faults, all_cases = 0, cases(sys.argv[1])
    for name, given, wanted in all_cases:
        try:
            got = given()
        except Lacking as why:
            print(f"streams: SKIPPED {name}: {why}")
            continue
        if got != wanted:
            faults += 1
            print(f"streams: {name}: {short(got)}, and not {short(wanted)}")
    print(f"streams: {len(all_cases)} runs, {faults} faults")
    return 1 if faults else 0


if __name__ == "__main__":
    sys.exit(main())
