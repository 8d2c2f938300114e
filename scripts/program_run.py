"""Runs of a built program, each within a time limit."""

import pathlib
import resource
import signal
import subprocess
import tempfile

# seconds that a run may take
LIMIT = 60
# the name of a disk's file, in a folder of its own
DISK = "disk.img"


def stop_growth(most):
    """What a new process does before it is the program: no byte of a file from `most` on can be written, and a write there fails."""
    signal.signal(signal.SIGXFSZ, signal.SIG_IGN)
    resource.setrlimit(resource.RLIMIT_FSIZE, (most, most))


def outcome(words, job=b"", limit=LIMIT, **how):
    """Status, standard output and standard error. A run that passes the limit is ended, and its status is a text."""
    try:
        done = subprocess.run(words, input=job, capture_output=True, check=False, timeout=limit, **how)
    except subprocess.TimeoutExpired as late:
        return f"none within {limit} seconds", late.stdout or b"", late.stderr or b""
    return done.returncode, done.stdout, done.stderr


def disk_outcome(words, job, disk):
    """As `outcome`, in a folder with a disk's bytes in a file, and what the file then holds. It is None where there was none."""
    before = None if disk.most is None else lambda: stop_growth(disk.most)
    with tempfile.TemporaryDirectory() as folder:
        path = pathlib.Path(folder) / DISK
        if disk.data is not None:
            path.write_bytes(disk.data)
        got = outcome(words, job, cwd=folder, preexec_fn=before)
        return got, path.read_bytes() if path.exists() else None
