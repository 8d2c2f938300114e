#!/usr/bin/env python3
"""Replays the jobs of examples/ and compares what comes out with the files beside them: check_examples.py [--ahead] [PROGRAM]

With no program the models in Python answer (`job_model.py`): that needs no build and takes a second. With one it answers,
and the accesses that it tells with `--regs` have to be a run of the model of the controller's registers.

Beside NAME.job stands NAME.answers, what standard output gets. NAME.status has the status and its line where the status
isn't 0, and NAME.words the command's words, one a line, where they aren't `device` alone. Where they name a disk, NAME.blocks
has the number of its blocks, which are zeros at first, and then each block that isn't so at the end: its number and the byte that it
is full of. Such a job is passed over where no program drives a disk yet, unless `--ahead` has the models drive it.
"""

import pathlib
import sys

from device_model import DRIVEN, words_left
from disk_model import Disk
from job_model import disk_name, expected, schedule_of
from program_run import disk_outcome
from register_model import Trace, check_trace
from scsi_model import BLOCK

FOLDER = pathlib.Path(__file__).resolve().parent.parent / "examples"


def text_of(path, other):
    return path.read_text() if path.exists() else other


def wanted_of(job):
    status, _, told = text_of(job.with_suffix(".status"), "0").strip().partition(" ")
    return int(status), job.with_suffix(".answers").read_bytes(), f"{told}\n".encode() if told else b""


def disks_of(path):
    """The disk that a job begins with, and what it is to hold at the end."""
    count, *changed = text_of(path.with_suffix(".blocks"), "0").split()
    data = bytearray(BLOCK * int(count))
    disk = Disk(data)
    for at, byte in zip(map(int, changed[::2]), changed[1::2]):
        data[BLOCK * at : BLOCK * (at + 1)] = bytes.fromhex(byte) * BLOCK
    return disk, bytes(data)


def modelled(words, job, disk):
    name = disk_name(words[1:]) if words[0] == "device" else None
    return (1, b"", b"usbrun: usage\n") if name is None else expected(job, disk if name else None), bytes(disk.data)


def trace_fault(program, words, job, disk, answers):
    """What is wrong with the trace of a job that ends with status 0, or None."""
    (status, trace, told), _ = disk_outcome([program, *words, "--regs"], job, disk)
    if (status, told) != (0, b""):
        return f"with --regs it ends {status} {told!r}"
    try:
        check_trace(schedule_of(job), trace.decode(), answers.decode())
    except Trace as wrong:
        return f"its trace: {wrong}"
    return None


def fault_of_example(path, program):
    """What is wrong with an example, or None."""
    if not path.with_suffix(".answers").exists():
        return "it has no file of answers"
    job, words, wanted, (disk, after) = path.read_bytes(), words_of(path), wanted_of(path), disks_of(path)
    got = disk_outcome([program, *words], job, disk) if program else modelled(words, job, disk)
    if got != (wanted, after):
        return f"{got[0]} for {wanted}" if got[0] != wanted else "its disk holds something else"
    return trace_fault(program, words, job, disk, wanted[1]) if program and wanted[0] == 0 else None


def words_of(path):
    return text_of(path.with_suffix(".words"), "device").split()


def is_served(path):
    return "msc" in DRIVEN or "--disk" not in words_of(path)


def main():
    words = words_left(sys.argv[1:])
    program = str(pathlib.Path(words[0]).resolve()) if words else None
    every = sorted(FOLDER.glob("*.job"))
    paths = [it for it in every if is_served(it)]
    lone = [it.name for it in FOLDER.iterdir() if it.suffix != ".md" and it.with_suffix(".job") not in every]
    faults = [(it.stem, fault_of_example(it, program)) for it in paths] + [(it, "it has no job") for it in sorted(lone)]
    faults = [(name, why) for name, why in faults if why is not None]
    for name, why in faults:
        print(f"examples: {name}: {why}")
    by = "the program" if program else "the models"
    print(f"examples: {len(paths)} jobs, answered by {by}, {len(faults)} faults")
    for it in sorted({*every} - {*paths}):
        print(f"examples: SKIPPED {it.stem}: no program drives a disk yet")
    return 1 if faults or not paths else 0


if __name__ == "__main__":
    sys.exit(main())
