#!/usr/bin/env python3
"""Replays a job in models of a device: what `usbrun device` is to answer, by docs/MODEL.md and docs/FORMATS.md, with no code of
the crates and nothing built.

    job_model.py [--ahead] [--disk NAME] <JOB

It writes the answers and the line of the status as `usbrun device` does, and ends with that status. With a disk it leaves the file as
the job does. `--ahead` has the models drive the classes that no program drives yet.
"""
import pathlib
import re
import sys

from descriptor_model import fault_of
from device_model import PACKET, Device, words_left
from disk_model import MOST_BLOCKS, Disk, DiskFault
from scsi_model import BLOCK

MOST_LINE = 8400


def number(word, least, most):
    return int(word) if re.fullmatch(rb"0|[1-9][0-9]*", word) and least <= int(word) <= most else None


def data(word, least, most):
    if not re.fullmatch(rb"-|([0-9a-f]{2})+", word):
        return None
    value = b"" if word == b"-" else bytes.fromhex(word.decode())
    return value if least <= len(value) <= most else None


def choice(word, yes, no):
    return {yes: True, no: False}.get(word)


# what the words after a line's name are: a number or a HEX with its bounds, or a choice of two
ADDRESS, ENDPOINT, FATE = (5, number, 0, 127), (5, number, 0, 15), (7, choice, b"ok", b"bad")
SCHEDULE = {
    b"reset": [],
    b"irq": [],
    b"task": [],
    b"state": [],
    b"end": [],
    b"setup": [ADDRESS, (6, data, 8, 8), FATE],
    b"out": [ADDRESS, ENDPOINT, (5, number, 0, 1), (6, data, 0, PACKET), FATE],
    b"in": [ADDRESS, ENDPOINT, (7, choice, b"ok", b"noack")],
}
CALLS = {
    b"cdc write": [(6, data, 1, 1024)],
    b"cdc read": [(5, number, 1, 1024)],
    b"cdc flush": [],
    b"cdc avail": [],
    b"cdc line": [],
    b"cdc notify": [(5, number, 0, 65535)],
    b"hid report": [(6, data, 1, 64)],
    b"hid take": [],
    b"hid set": [],
    b"hid idle": [],
    b"msc eject": [],
    b"msc insert": [],
    b"msc protect": [(5, number, 0, 1)],
    b"midi send": [(6, data, 1, 1024)],
    b"midi recv": [(5, number, 1, 1024)],
    b"midi bytes": [(5, number, 1, 1024)],
}
SCHEDULE.update(CALLS)
HEAD = {
    b"device": [(6, data, 1, 64)],
    b"config": [(6, data, 1, 600)],
    b"string": [(5, number, 1, 255), (6, data, 2, 60)],
    b"report": [(6, data, 1, 512)],
    b"begin": [],
}


def read_line(line, table):
    """The name and the fields of a line, or the lowest rule that it breaks."""
    if len(line) > MOST_LINE:
        return 1
    if any(not 0x20 <= b <= 0x7E for b in line):
        return 2
    words = line.split(b" ")
    whole = [word for word in words if word]
    named = next((n for n in (1, 2) if b" ".join(whole[:n]) in table), None)
    if named is None or len(whole) < named:
        return 3
    name = b" ".join(whole[:named])
    fields = table[name]
    if len(words) != len(fields) + named or b"" in words:
        return 4
    values = [(rule, read(word, *bounds)) for (rule, read, *bounds), word in zip(fields, words[named:])]
    broken = [rule for rule, value in values if value is None]
    return min(broken) if broken else (*("in_" if name == b"in" else name.decode()).split(), *(value for _, value in values))


class Head:
    """The lines of a head so far."""

    def __init__(self):
        self.device = self.config = self.report = None
        self.strings = {}

    def add(self, name, *fields):
        """Whether the line has its place."""
        if name == "device":
            good, self.device = self.device is None and self.config is None, fields[0]
        elif name == "config":
            good, self.config = self.device is not None and self.config is None, fields[0]
        elif name == "string":
            index, body = fields
            good = self.config is not None and self.report is None and len(self.strings) < 8
            good = good and index > max(self.strings, default=0)
            self.strings[index] = body
        elif name == "report":
            good, self.report = self.config is not None and self.report is None, fields[0]
        else:
            good = self.config is not None
        return good


def bad_line(at, rule, text=""):
    return 2, text.encode(), f"usbrun: line {at} rule {rule}\n".encode()


def short(lines, text=""):
    return 9, text.encode(), f"usbrun: job ends at line {lines}\n".encode()


def disk_fault(disk):
    """How a run ends whose disk can't be attached or has a wrong size, or None."""
    try:
        size = disk.attach()
    except DiskFault:
        return 7, b"", b"usbrun: disk fault\n"
    good = size > 0 and size % BLOCK == 0 and size <= MOST_BLOCKS * BLOCK
    return None if good else (8, b"", f"usbrun: disk size {size}\n".encode())


def expected(job, disk=None):
    """The status, the answers and the line of the status of a job's bytes; the disk is left as the job does."""
    lines = job.split(b"\n")
    if lines[-1] == b"":
        lines.pop()
    head, at = Head(), 0
    for at, line in enumerate(lines, 1):
        read = read_line(line, HEAD)
        if isinstance(read, int):
            return bad_line(at, read)
        if not head.add(*read):
            return bad_line(at, 8)
        if read[0] == "begin":
            break
    else:
        return short(len(lines))
    fault = fault_of(head.device, head.config, head.report)
    if fault is not None:
        return 3, b"", "usbrun: set rule {} at {}\n".format(*fault).encode()
    ended = disk_fault(disk) if disk else None
    return ended or run(Device(head.device, head.config, head.strings, head.report, disk), lines, at)


def device_of(job, disk=None):
    """The device of a job whose head is one, with a disk that was attached."""
    head = Head()
    for line in job.split(b"\n"):
        read = read_line(line, HEAD)
        head.add(*read)
        if read[0] == "begin":
            return Device(head.device, head.config, head.strings, head.report, disk)


def run(device, lines, start):
    text = ""
    for at, line in enumerate(lines[start:], start + 1):
        read = read_line(line, SCHEDULE)
        if isinstance(read, int):
            return bad_line(at, read, text)
        if read[0] == "end":
            return 0, text.encode(), b""
        text += device.answer(read) + "\n"
    return short(len(lines), text)


def schedule_of(job):
    """The lines between `begin` and `end` of a job that has both."""
    lines, schedule = job.split(b"\n"), []
    for line in lines[lines.index(b"begin") + 1 :]:
        read = read_line(line, SCHEDULE)
        if read[0] == "end":
            break
        schedule.append(read)
    return schedule


def disk_name(words):
    """The name behind `--disk` in the words after `device`, `` where there is none, and None where the words are none of a command's."""
    words = [*words]
    if words.count("--regs") == 1:
        words.remove("--regs")
    if not words:
        return ""
    is_named = len(words) == 2 and words[0] == "--disk" and 1 <= len(words[1].encode()) <= 255 and words[1][0] != "-"
    return words[1] if is_named else None


def disk_of(path):
    """The disk that a file is."""
    return Disk(path.read_bytes() if path.is_file() else None)


def main():
    words = words_left(sys.argv[1:])
    name = None if "--regs" in words else disk_name(words)
    if name is None:
        sys.exit(__doc__)
    path = pathlib.Path(name)
    disk = disk_of(path) if name else None
    status, answers, told = expected(sys.stdin.buffer.read(), disk)
    if disk and disk.data is not None and disk.data != path.read_bytes():
        path.write_bytes(disk.data)
    sys.stdout.buffer.write(answers)
    sys.stdout.buffer.flush()
    sys.stderr.buffer.write(told)
    return status


if __name__ == "__main__":
    sys.exit(main())
