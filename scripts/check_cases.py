#!/usr/bin/env python3
"""The thirteen cases of Bulk-Only Transport 6.7, worked by hand, and each of them with something in its way at each line.

    check_cases.py [--ahead] [PROGRAM]

Each row of WORKED is a command for a disk of two blocks with what the host gets of it. With no program the models answer them
(`job_model.py`), also those whose disk fails at some of its calls. With one it answers the rows whose disk is a file, and then each row
with an event put in at each line: a clear, a halt, the class's Reset, a session that begins anew, a bus reset, a call. There the
answers and the disk are compared with the models'. As long as no program drives a disk, nothing is run without `--ahead`.
"""

import pathlib
import sys
from collections import namedtuple

from device_model import DRIVEN, words_left
from disk_model import COMMAND_SIGNATURE, STATUS_SIGNATURE, Disk
from job_model import expected
from program_run import DISK, disk_outcome
from scsi_model import BLOCK

HEAD = "device 1201000200000040feca0140000100000001\nconfig 0902200001010080320904000002080650000705010240000007058102400000\nbegin\n"
READY, SENSE, SYNCHRONIZE = "00", "0300000012", "35"
READ_ONE, READ_TWO, WRITE_ONE, WRITE_TWO = "28000000000100000100", "28000000000000000200", "2a000000000100000100", "2a000000000000000200"
FIRST, LAST, OTHER = b"\x0a" * BLOCK, b"\x0b" * BLOCK, b"\x0c" * BLOCK

# Of a command: its case, the host's way and length, the command block, and how many packets of 64 bytes the host sends. What comes of it:
# the data that the host gets, the pipe that is halted then, status and residue, the sense behind it, and what the two blocks are.
# `fails` are the disk's calls that fail, 1 the one that attaches it; `most` is where a file fails as well.
Row = namedtuple("Row", "case way length block sent data halted status residue sense blocks fails most", defaults=((), None))
WORKED = [
    Row(1, "", 0, READY, 0, b"", "", 0, 0, (0, 0), (FIRST, LAST)),
    Row(2, "", 0, READ_ONE, 0, b"", "", 2, 0, (0, 0), (FIRST, LAST)),
    Row(3, "", 0, WRITE_ONE, 0, b"", "", 2, 0, (0, 0), (FIRST, LAST)),
    Row(4, "in", 512, READY, 0, b"", "in", 0, 512, (0, 0), (FIRST, LAST)),
    Row(5, "in", 1024, READ_ONE, 0, LAST, "in", 0, 512, (0, 0), (FIRST, LAST)),
    Row(6, "in", 512, READ_ONE, 0, LAST, "", 0, 0, (0, 0), (FIRST, LAST)),
    Row(7, "in", 512, READ_TWO, 0, b"", "in", 2, 512, (0, 0), (FIRST, LAST)),
    Row(8, "in", 512, WRITE_ONE, 0, b"", "in", 2, 512, (0, 0), (FIRST, LAST)),
    Row(9, "out", 512, READY, 0, b"", "out", 0, 512, (0, 0), (FIRST, LAST)),
    Row(10, "out", 512, READ_ONE, 0, b"", "out", 2, 512, (0, 0), (FIRST, LAST)),
    Row(11, "out", 1024, WRITE_ONE, 8, b"", "out", 0, 512, (0, 0), (FIRST, OTHER)),
    Row(12, "out", 512, WRITE_ONE, 8, b"", "", 0, 0, (0, 0), (FIRST, OTHER)),
    Row(13, "out", 512, WRITE_TWO, 0, b"", "out", 2, 512, (0, 0), (FIRST, LAST)),
    # more than a block
    Row(6, "in", 1024, READ_TWO, 0, FIRST + LAST, "", 0, 0, (0, 0), (FIRST, LAST)),
    Row(12, "out", 1024, WRITE_TWO, 16, b"", "", 0, 0, (0, 0), (OTHER, OTHER)),
    # data that is no whole block
    Row(5, "in", 64, SENSE, 0, b"\x70" + bytes(6) + b"\x0a" + bytes(10), "in", 0, 46, (0, 0), (FIRST, LAST)),
    Row(6, "in", 8, "25", 0, bytes.fromhex("0000000100000200"), "", 0, 0, (0, 0), (FIRST, LAST)),
    # commands that fail move nothing: block 1 and one behind it, an unknown code
    Row(4, "in", 1024, "28000000000100000200", 0, b"", "in", 1, 1024, (5, 0x21), (FIRST, LAST)),
    Row(9, "out", 1024, "2a000000000100000200", 0, b"", "out", 1, 1024, (5, 0x21), (FIRST, LAST)),
    Row(1, "", 0, "ff", 0, b"", "", 1, 0, (5, 0x20), (FIRST, LAST)),
    # disks that fail
    Row(6, "in", 512, READ_ONE, 0, b"", "in", 1, 512, (3, 0x11), (FIRST, LAST), (2,)),
    Row(6, "in", 1024, READ_TWO, 0, FIRST, "in", 1, 512, (3, 0x11), (FIRST, LAST), (3,)),
    Row(5, "in", 2048, READ_TWO, 0, FIRST, "in", 1, 1536, (3, 0x11), (FIRST, LAST), (3,)),
    Row(12, "out", 512, WRITE_ONE, 8, b"", "", 1, 0, (3, 0x0C), (FIRST, LAST), (2,), 512),
    Row(12, "out", 1024, WRITE_TWO, 8, b"", "out", 1, 512, (3, 0x0C), (FIRST, LAST), (2,), 0),
    Row(12, "out", 1024, WRITE_TWO, 16, b"", "", 1, 0, (3, 0x0C), (OTHER, LAST), (3,), 512),
    Row(11, "out", 1024, WRITE_ONE, 8, b"", "out", 1, 512, (3, 0x0C), (FIRST, LAST), (2,), 512),
    Row(1, "", 0, SYNCHRONIZE, 0, b"", "", 1, 0, (3, 0x0C), (FIRST, LAST), (2,)),
    Row(4, "in", 64, SYNCHRONIZE, 0, b"", "in", 1, 64, (3, 0x0C), (FIRST, LAST), (2,)),
    Row(9, "out", 64, SYNCHRONIZE, 0, b"", "out", 1, 64, (3, 0x0C), (FIRST, LAST), (2,)),
]


def order(setup):
    """A request without data."""
    return [f"setup 0 {setup} ok", "irq", "task", "irq", "in 0 0 ok", "irq", "task"]


PIPES = {"in": "81", "out": "01"}
SESSION = ["reset", "irq", *order("0009010000000000")]
STATUS = ["irq", "in 0 1 ok", "irq", "task"]
CLEARS = {pipe: order(f"02010000{address}000000") for pipe, address in PIPES.items()}
EVENTS = [
    *CLEARS.values(),
    *(order(f"02030000{address}000000") for address in PIPES.values()),
    order("010b000000000000"),
    order("21ff000000000000"),
    order("21ff000000000000")[:4],
    order("0009010000000000"),
    ["reset", "irq"],
    ["msc eject"],
    ["msc insert"],
    ["msc protect 1"],
    ["irq"],
    ["task"],
    ["in 0 1 noack"],
    ["out 0 1 0 - ok"],
    ["out 0 1 1 - ok"],
]


class Host:
    """The lines of a host that sends commands. `toggle` is that of its next packet."""

    def __init__(self, lines):
        self.lines, self.toggle = [*lines], 0

    def out(self, data):
        self.lines += [f"out 0 1 {self.toggle} {data.hex()} ok", "irq", "task"]
        self.toggle ^= 1

    def wrapper(self, way, length, block):
        fields = b"tagg" + length.to_bytes(4, "little") + bytes([0x80 * (way == "in"), 0, 10])
        self.out(COMMAND_SIGNATURE + fields + bytes.fromhex(block).ljust(16, b"\0"))

    def clear(self, pipe):
        self.lines += CLEARS[pipe]
        self.toggle = 0 if pipe == "out" else self.toggle

    def command(self, row):
        """The lines of a row up to its status, and then a command for the sense."""
        self.wrapper(row.way, row.length, row.block)
        for _ in range(row.sent):
            self.out(OTHER[:64])
        blocks = (len(row.data) + BLOCK - 1) // BLOCK
        self.lines += (["irq", "in 0 1 ok", "in 0 1 ok"] * (BLOCK // 128) + ["irq", "task"]) * blocks
        if row.halted:
            self.lines += ["in 0 1 ok"] if row.halted == "in" else [f"out 0 1 {self.toggle} - ok"]
        if row.halted == "in":
            self.clear("in")
        self.lines += STATUS
        if row.halted == "out":
            self.clear("out")
        self.wrapper("in", 18, SENSE)
        self.lines += STATUS + STATUS


def seen_of(row, lines, answers):
    """What the host got, from the answers to these lines: data, the pipe that stalled, status and residue, sense."""
    told = list(zip(lines, answers))
    data = [answer[6:].replace("-", "") for line, answer in told if line.startswith("in 0 1 ") and answer.startswith("data")]
    got = [bytes.fromhex(each) for each in data]
    at = next((n for n, each in enumerate(got) if each[:4] == STATUS_SIGNATURE), len(got))
    stalled = {line.split(" ")[0] for line, answer in told if answer == "stall"}
    status, sense = b"".join(got[at : at + 1]), b"".join(got[at + 1 : at + 2]).ljust(18, b"\0")
    return b"".join(got[:at]), "".join(stalled), status[12:].hex(), int.from_bytes(status[8:12], "little"), (sense[2], sense[12])


def text_of(lines):
    return (HEAD + "\n".join([*lines, "end"]) + "\n").encode()


def outcome_of(program, lines, disk):
    """How these lines end, by the program or by the models, and what the disk then holds."""
    if program is None:
        return expected(text_of(lines), disk), bytes(disk.data)
    return disk_outcome([program, "device", "--disk", DISK], text_of(lines), disk)


def worked_fault(program, row):
    """What is wrong with a row as it was worked, or None."""
    host = Host(SESSION)
    host.command(row)
    disk = Disk(FIRST + LAST, row.fails) if program is None else Disk(FIRST + LAST, most=row.most)
    (status, answers, told), blocks = outcome_of(program, host.lines, disk)
    if (status, told) != (0, b""):
        return f"it ends {status} {told!r}"
    got = *seen_of(row, host.lines, answers.decode().split("\n")), blocks
    wanted = row.data, row.halted, f"{row.status:02x}", row.residue, row.sense, b"".join(row.blocks)
    return None if got == wanted else f"{got} for {wanted}"


def disturbed(row, event):
    """The lines of a row with an event in front of each, one after another. Each begins with a medium and without news of it."""
    plain = Host([])
    plain.command(row._replace(fails=(), most=None))
    start = Host([*SESSION, "msc insert", "msc protect 0"])
    start.wrapper("", 0, READY)
    begun = start.lines + STATUS + CLEARS["out"]
    return [line for at in range(len(plain.lines) + 1) for line in (*begun, *plain.lines[:at], *event, *plain.lines[at:])]


def disturbed_fault(program, row, event):
    """What differs between the program and the models, or None."""
    lines = disturbed(row, event)
    got, wanted = (outcome_of(it, lines, Disk(FIRST + LAST, most=row.most)) for it in (program, None))
    return None if got == wanted else f"with {event} it ends {got[0][0]} and is answered otherwise, or the disk holds something else"


def main():
    words = words_left(sys.argv[1:])
    if "msc" not in DRIVEN:
        print("cases: SKIPPED: no program drives a disk yet")
        return 0
    program = str(pathlib.Path(words[0]).resolve()) if words else None
    rows = [row for row in WORKED if program is None or not row.fails or row.most is not None]
    faults = [(row, worked_fault(program, row)) for row in rows]
    if program:
        faults += [(row, disturbed_fault(program, row, event)) for row in rows for event in EVENTS]
    failed = [(row, why) for row, why in faults if why is not None]
    for row, why in failed:
        print(f"cases: case {row.case}, {row.block} of {row.length} bytes: {why}")
    by = f"the program, and {len(faults) - len(rows)} jobs with something in the way" if program else "the models"
    print(f"cases: {len(rows)} rows, answered by {by}, {len(failed)} faults")
    return 1 if failed else 0


if __name__ == "__main__":
    sys.exit(main())
