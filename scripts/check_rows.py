#!/usr/bin/env python3
"""Runs the worked rows of a folder on the built program: check_rows.py PROGRAM FOLDER

Only rows that this state of the program serves are run, each for at most 60 seconds. The status, the answers and the line of
the status are compared whole, and the disk, which none of them changes. A served row that isn't in the folder fails.

    check_rows.py --models [--ahead] FOLDER

Here models in Python answer (`job_model.py`), and with `--ahead` also the rows of the classes that no program drives yet. A row
whose disk fails at some of its calls is one for the models alone: no file fails on demand.
"""

import json
import pathlib
import sys

from device_model import DRIVEN, words_left
from disk_model import Disk
from job_model import disk_name, expected
from program_run import DISK, disk_outcome

SERVED = (
    *("row01a", "row01b", "row02", "row03a", "row03b", "row04", "row05", "row06", "row07", "row08", "row09a", "row09b"),
    *("row10", "row11", "row12a", "row17", "row19", "row25a", "row25b", "row25c"),
)
# those of mass storage; the last two have a disk that fails
STORED = ("row12b", "row12c", "row13", "row14", "row15", "row25d", "row25e", "row16a", "row16b")


def wanted_of(row):
    out = row["out"] if "out" in row else "\n".join(row["answers"]) + "\n"
    return row["status"], out.encode(), row["err"].encode()


def disk_of(row):
    """The disk of a row: the bytes of its file, none where there is no such file, and the numbers of the calls that fail."""
    data = next(iter(row["disks"].values()), None)
    return Disk(None if data is None else bytes.fromhex(data), row.get("fails", ()))


def modelled(words, job, disk):
    name = disk_name(words[1:])
    return (1, b"", b"usbrun: usage\n") if name is None else expected(job, disk if name else None)


def named(words, disks):
    """The words of a row with the name that the disk's file has here."""
    return [DISK if word in disks else word for word in words]


def fault_of(program, path):
    """What is wrong with a row, or None."""
    if not path.exists():
        return "it isn't there"
    row = json.loads(path.read_text())
    job, disk, wanted = row["job"].encode(), disk_of(row), wanted_of(row)
    before = disk.data and bytes(disk.data)
    if program is None:
        got, after = modelled(row["words"], job, disk), disk.data and bytes(disk.data)
    else:
        got, after = disk_outcome([program, *named(row["words"], row["disks"])], job, disk)
    if after != before:
        return "its disk was written"
    return None if got == wanted else f"{got} for {wanted}"


def rows_of(is_modelled):
    stored = [name for name in STORED if is_modelled or not name.startswith("row16")]
    return [*SERVED, *stored] if "msc" in DRIVEN else SERVED


def main():
    words = words_left(sys.argv[1:])
    program = None if words[0] == "--models" else str(pathlib.Path(words[0]).resolve())
    folder, rows = pathlib.Path(words[1]), rows_of(program is None)
    faults = {name: fault_of(program, folder / f"{name}.json") for name in rows}
    failed = [name for name, why in faults.items() if why is not None]
    for name in failed:
        print(f"rows: {name}: {faults[name]}")
    by = "the program" if program else "the models"
    print(f"rows: {len(rows) - len(failed)} of {len(rows)} pass, answered by {by}")
    return 1 if failed else 0


if __name__ == "__main__":
    sys.exit(main())
