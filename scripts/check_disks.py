#!/usr/bin/env python3
"""Runs a built `usbrun` on files that are no disks, and on disks that fail: check_disks.py [--ahead] PROGRAM

No contract speaks of what a real file holds, so these runs are all that shows it. Each has 60 seconds: a name that no file has, a
folder, files of no disk's size, the largest disk and one of a block more; a file that may not be written past some block; and a
file that is cut while the job waits, so that its last block can't be read. The program hands on all its answers before it waits
for more of the job, so the file is cut between two lines. No file here fails when it is flushed, and none fails once and then no
more: that is left to tests with a disk in memory. The exit status is 1 where a run differs. As long as the program drives no disk,
nothing is run.
"""

import os
import pathlib
import subprocess
import sys
import tempfile
import threading

from device_model import DRIVEN, words_left
from disk_model import COMMAND_SIGNATURE, MOST_BLOCKS, Disk
from job_model import SCHEDULE, device_of, expected, read_line
from program_run import DISK, LIMIT, disk_outcome, outcome
from scsi_model import BLOCK

HEAD = "device 1201000200000040feca0140000100000001\nconfig 0902200001010080320904000002080650000705010240000007058102400000\nbegin\n"
ORDER = "setup 0 {} ok\nirq\ntask\nirq\nin 0 0 ok\nirq\ntask\n"
SESSION = "reset\nirq\n" + ORDER.format("0009010000000000")
CLEAR = ORDER.format("0201000081000000")
STATUS = "irq\nin 0 1 ok\nirq\ntask\n"
DATA = "irq\nin 0 1 ok\nin 0 1 ok\n" * 4 + "irq\ntask\n"


class Lacking(Exception):
    """What a case needs isn't here."""


class Host:
    """Lines of a host with commands for a disk. `toggle` is that of the next packet to it."""

    def __init__(self):
        self.lines, self.toggle = HEAD + SESSION, 0

    def out(self, data):
        self.lines += f"out 0 1 {self.toggle} {data.hex()} ok\nirq\ntask\n"
        self.toggle ^= 1

    def command(self, way, length, code, at=0, count=0):
        block = bytes([code, 0, *at.to_bytes(4, "big"), 0, *count.to_bytes(2, "big")]).ljust(16, b"\0")
        self.out(COMMAND_SIGNATURE + b"tagg" + length.to_bytes(4, "little") + bytes([way, 0, 10]) + block)

    def read(self, at, tail=DATA + STATUS):
        self.command(0x80, BLOCK, 0x28, at, 1)
        self.lines += tail

    def write(self, at, byte):
        self.command(0, BLOCK, 0x2A, at, 1)
        for _ in range(BLOCK // 64):
            self.out(bytes([byte]) * 64)
        self.lines += STATUS

    def sense(self):
        self.out(COMMAND_SIGNATURE + b"tagg" + bytes([18, 0, 0, 0, 0x80, 0, 6, 3, 0, 0, 0, 18]) + bytes(11))
        self.lines += STATUS + STATUS

    def job(self):
        return (self.lines + "end\n").encode()


def refused(program, prepare):
    """How a run ends whose disk is made so."""
    with tempfile.TemporaryDirectory() as folder:
        prepare(pathlib.Path(folder) / DISK)
        return outcome([program, "device", "--disk", DISK], (HEAD + "end\n").encode(), cwd=folder)


def sized(size):
    def prepare(path):
        path.touch()
        try:
            os.truncate(path, size)
        except OSError as why:
            raise Lacking(f"no file may be so large: {why}") from None

    return prepare


def limited(program):
    """A disk of three blocks, of which the first two can be written."""
    host, disk = Host(), Disk(bytes(3 * BLOCK), most=2 * BLOCK)
    for at in (0, 2, 1):
        host.write(at, 0xA0 + at)
        host.sense()
        host.read(at)
    got = disk_outcome([program, "device", "--disk", DISK], host.job(), disk)
    return got, (expected(host.job(), disk), bytes(disk.data))


def cut_run(program, path, lines, rest):
    """How a run ends whose disk loses its last block once these lines were answered."""
    streams = {name: subprocess.PIPE for name in ("stdin", "stdout", "stderr")}
    with subprocess.Popen([program, "device", "--disk", path], bufsize=0, **streams) as process:
        late = threading.Timer(LIMIT, process.kill)
        late.start()
        try:
            process.stdin.write(lines.encode())
        except BrokenPipeError:
            pass
        first = b"".join(process.stdout.readline() for _ in range(lines.count("\n") - HEAD.count("\n")))
        os.truncate(path, 2 * BLOCK)
        wrote, told = process.communicate(rest.encode())
        late.cancel()
    return process.returncode, first + wrote, told


def answered(device, lines):
    return "".join(device.answer(read_line(line, SCHEDULE)) + "\n" for line in lines.encode().split(b"\n")[:-1])


def cut(program):
    """A disk of three blocks that loses its last one after the first was read."""
    host = Host()
    host.read(0)
    lines, host.lines = host.lines, ""
    host.read(1)
    host.read(2, "in 0 1 ok\n" + CLEAR + STATUS)
    host.sense()
    disk = Disk(bytes(range(256)) * (3 * BLOCK // 256))
    with tempfile.TemporaryDirectory() as folder:
        path = pathlib.Path(folder) / DISK
        path.write_bytes(disk.data)
        got = cut_run(program, path, lines, host.lines + "end\n")
    device = device_of(lines.encode(), disk)
    answers = answered(device, lines[len(HEAD) :])
    disk.data = disk.data[: 2 * BLOCK]
    return got, (0, (answers + answered(device, host.lines)).encode(), b"")


def size_fault(size):
    return 8, b"", f"usbrun: disk size {size}\n".encode()


def cases(program):
    """Each case's name, and how it is run: what comes of it, and what is to."""
    fault, most = (7, b"", b"usbrun: disk fault\n"), MOST_BLOCKS * BLOCK
    wrong = [("no file", lambda _: None, fault), ("a folder", pathlib.Path.mkdir, fault)]
    wrong += [(f"a file of {size} bytes", sized(size), size_fault(size)) for size in (0, 1, BLOCK - 1, BLOCK + 1, most + BLOCK)]
    wrong += [(f"a file of {size} bytes", sized(size), (0, b"", b"")) for size in (BLOCK, most)]
    made = [(name, lambda how=how, wanted=wanted: (refused(program, how), wanted)) for name, how, wanted in wrong]
    return [*made, ("a file that may not grow", lambda: limited(program)), ("a file that is cut", lambda: cut(program))]


def main():
    program = str(pathlib.Path(words_left(sys.argv[1:])[0]).resolve())
    if "msc" not in DRIVEN:
        print("disks: SKIPPED: no program drives a disk yet")
        return 0
    faults, all_cases = 0, cases(program)
    for name, run in all_cases:
        try:
            got, wanted = run()
        except Lacking as why:
            print(f"disks: SKIPPED {name}: {why}")
            continue
        if got != wanted:
            faults += 1
            print(f"disks: {name}: {got}, and not {wanted}")
    print(f"disks: {len(all_cases)} runs, {faults} faults")
    return 1 if faults else 0


if __name__ == "__main__":
    sys.exit(main())
