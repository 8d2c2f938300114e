#!/usr/bin/env python3
"""Runs a built `usbrun` on a job of exactly 2^30 bytes, the most that a job has up to and with its line `end`, and on one
of a byte more.

    length_limit.py PROGRAM

The first ends with status 0 and an answer to each line. The second ends with status 10, with an answer to each line but
`end`, and with the line of that status on standard error. Each run has 600 seconds. The exit status is 1 where a run differs.
"""

import subprocess
import sys
import tempfile
import threading

# seconds that a run may take
SECONDS = 600

LIMIT = 1 << 30
HEAD = b"device 1201000200000040feca0140000100000001\nconfig 0902120001010080320904000000ff000000\nbegin\n"
END = b"end\n"
# a long line, a block of many, and two short lines whose lengths fill what is left
LONG = b"out 0 1 0 " + b"5a" * 64 + b" bad\n"
BLOCK = 4096
SHORT = (b"irq\n", b"task\n")


def pieces(size):
    """A job of so many bytes, in pieces, and how many lines its schedule has before `end`."""
    left = size - len(HEAD) - len(END)
    blocks, left = divmod(left - 64, len(LONG) * BLOCK)
    longs, left = divmod(left, len(LONG))
    left += 64
    tasks = left % len(SHORT[0])
    irqs = (left - tasks * len(SHORT[1])) // len(SHORT[0])
    tail = LONG * longs + SHORT[1] * tasks + SHORT[0] * irqs + END
    return [HEAD] + [LONG * BLOCK] * blocks + [tail], blocks * BLOCK + longs + tasks + irqs


def run(program, size):
    """Status, number of answers and text on standard error of a job of so many bytes."""
    job, lines = pieces(size)
    assert sum(len(piece) for piece in job) == size
    with tempfile.TemporaryFile() as out:
        process = subprocess.Popen([program, "device"], stdin=subprocess.PIPE, stdout=out, stderr=subprocess.PIPE)
        late = threading.Timer(SECONDS, process.kill)
        late.start()
        try:
            for piece in job:
                process.stdin.write(piece)
            process.stdin.close()
        except BrokenPipeError:
            pass
        told = process.stderr.read()
        status = process.wait()
        late.cancel()
        out.seek(0)
        answers = sum(block.count(b"\n") for block in iter(lambda: out.read(1 << 20), b""))
    return status, answers - lines, told


def main():
    program = sys.argv[1]
    right = True
    for size, wanted in ((LIMIT, (0, 0, b"")), (LIMIT + 1, (10, 0, b"usbrun: job too long\n"))):
        got = run(program, size)
        if got != wanted:
            print(f"a job of {size} bytes: {got}, wanted {wanted}")
            right = False
    print("the limit of bytes holds" if right else "the limit of bytes fails")
    return 0 if right else 1


if __name__ == "__main__":
    sys.exit(main())
