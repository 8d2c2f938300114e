"""A disk on a device, by USB Mass Storage Class Bulk-Only Transport 1.0, with no code of the crates."""

from collections import Counter, namedtuple

from scsi_model import BLOCK, READ_ERROR, WRITE_ERROR, Unit

WRAPPER, COMMAND_SIGNATURE, STATUS_SIGNATURE = 31, b"USBC", b"USBS"
MOST_BLOCKS = 2**32 - 1
PASSED, FAILED, PHASE_ERROR = 0, 1, 2

# The thirteen cases (6.7). A side is to move nothing, or data in (to the host) or out; the host's length stands so to the device's.
# Whether the data moves, which pipe is halted, whether it is a phase error, and the residue of the host's length (H, less D).
Case = namedtuple("Case", "number host device relation moves halts is_phase residue")
CASES = [
    Case(1, "none", "none", "=", False, None, False, "0"),
    Case(2, "none", "in", "<", False, None, True, "0"),
    Case(3, "none", "out", "<", False, None, True, "0"),
    Case(4, "in", "none", ">", False, "in", False, "H"),
    Case(5, "in", "in", ">", True, "in", False, "H-D"),
    Case(6, "in", "in", "=", True, None, False, "0"),
    Case(7, "in", "in", "<", False, "in", True, "H"),
    Case(8, "in", "out", "any", False, "in", True, "H"),
    Case(9, "out", "none", ">", False, "out", False, "H"),
    Case(10, "out", "in", "any", False, "out", True, "H"),
    Case(11, "out", "out", ">", True, "out", False, "H-D"),
    Case(12, "out", "out", "=", True, None, False, "0"),
    Case(13, "out", "out", "<", False, "out", True, "H"),
]


class DiskFault(Exception):
    """A call on a disk failed, and no block changed."""


class Disk:
    """The bytes of a file, None where no file has the name. `fails` are the numbers of the calls that fail, counted from 1 with the
    one that attaches it. No byte from `most` on can be written, where that is given. A block that was cut off can't be read."""

    def __init__(self, data, fails=(), most=None):
        self.data = None if data is None else bytearray(data)
        self.fails, self.most, self.calls = frozenset(fails), most, 0

    def count(self, can=True):
        self.calls += 1
        if self.calls in self.fails or not can:
            raise DiskFault

    def attach(self):
        self.count(self.data is not None)
        return len(self.data)

    def read(self, at):
        self.count((at + 1) * BLOCK <= len(self.data))
        return bytes(self.data[at * BLOCK : (at + 1) * BLOCK])

    def write(self, at, block):
        self.count(self.most is None or (at + 1) * BLOCK <= self.most)
        self.data[at * BLOCK : (at + 1) * BLOCK] = block

    def sync(self):
        self.count()


def is_good(wrapper):
    """Whether a packet is a command wrapper (5.1) that means something (6.2)."""
    return len(wrapper) == WRAPPER and wrapper[:4] == COMMAND_SIGNATURE and wrapper[13] == 0 and 1 <= wrapper[14] <= 16


def moved_by(move):
    """Which way and how many bytes a command moves."""
    size = {"in": lambda: len(move[1]), "read": lambda: BLOCK * move[2], "write": lambda: BLOCK * move[2]}.get(move[0], lambda: 0)()
    return ("none" if size == 0 else "out" if move[0] == "write" else "in"), size


def case_of(host, wanted, device, size):
    relation = "=" if wanted == size else ">" if wanted > size else "<"
    return next(it for it in CASES if (it.host, it.device) == (host, device) and it.relation in (relation, "any"))


class MassStorage:
    """The unit and the disk outlive a session. In one `data_in` and `data_out` are the pipes, and `state` is `command`, `broken`, `in`,
    `out` or `status`. `cases` counts the commands by their case."""

    def __init__(self, disk=None):
        self.disk, self.unit = disk, Unit(len(disk.data) // BLOCK if disk else 0)
        self.cases, self.faults = Counter(), 0
        self.closed()

    def room(self, _kind):
        return 512

    def closed(self):
        self.data_in = self.data_out = None
        self.forget()
        self.is_reset, self.packet, self.has_ended = False, None, False

    def forget(self):
        """No command runs; `runs` says that a transfer to the host does, and `waits` that one is queued and not begun."""
        self.state, self.runs, self.waits = "command", False, False

    def opened(self, pipes):
        self.closed()
        self.data_in, self.data_out = pipes[:2]
        self.unit.begin()

    def request(self, setup):
        """The data of a request, `status` where it has none, and None where it is refused."""
        asked, value, length = tuple(setup[:2]), int.from_bytes(setup[2:4], "little"), int.from_bytes(setup[6:], "little")
        if asked == (0x21, 0xFF) and value == 0 and length == 0:
            self.is_reset = True
            return "status"
        if asked == (0xA1, 0xFE) and value == 0:
            return b"\x00"
        return None

    def takes(self, data):
        return False

    def came(self, pipe):
        self.packet = pipe.read(len(pipe.held))

    def ended(self, pipe, count):
        self.runs, self.has_ended = False, True

    def cleared(self, pipe):
        """A transfer that a clear drops, or whose end wasn't told yet, counts as sent."""
        if pipe is self.data_in and self.runs:
            self.ended(pipe, self.size)

    def work(self):
        if self.data_in is None:
            return
        if self.is_reset:
            self.data_in.drop()
            self.data_out.drop()
            self.forget()
        elif self.packet is not None:
            self.take(self.packet)
        elif self.has_ended:
            self.go_on()
        self.is_reset, self.packet, self.has_ended = False, None, False
        self.serve()

    def serve(self):
        """Halts, starts and arms what the state asks for."""
        if self.state == "broken":
            self.data_in.halted = self.data_out.halted = True
        if self.waits and self.data_in.seen() == "rest":
            self.data_in.start()
            self.waits, self.runs = False, True
        if self.state in ("command", "out") and self.data_out.seen() == "rest":
            self.data_out.phase = "armed"

    def take(self, packet):
        if self.state == "out":
            self.store(packet)
        elif is_good(packet):
            self.begin(packet)
        else:
            self.state = "broken"

    def begin(self, wrapper):
        """Works a command as far as this task does it."""
        self.tag, self.wanted, self.moved = wrapper[4:8], int.from_bytes(wrapper[8:12], "little"), 0
        move = self.unit.command(wrapper[15:])
        host = "none" if self.wanted == 0 else "in" if wrapper[12] & 0x80 else "out"
        device, self.length = moved_by(move)
        self.case = case_of(host, self.wanted, device, self.length)
        self.cases[self.case.number] += 1
        if self.case.is_phase:
            self.end(PHASE_ERROR)
        elif move[0] == "sync":
            self.end(PASSED if self.ask(self.disk.sync, WRITE_ERROR) is not None else FAILED)
        elif not self.case.moves:
            self.end(FAILED if move[0] == "fail" else PASSED)
        elif device == "out":
            self.state, self.at, self.kept = "out", move[1], b""
        elif move[0] == "read":
            self.state, self.at = "in", move[1]
            self.read_next()
        else:
            self.state = "in"
            self.send(move[1])

    def ask(self, call, sense, *values):
        """What a call on the disk gives, or None where it fails, which sets the sense."""
        try:
            return call(*values) or b""
        except DiskFault:
            self.unit.sense = sense
            self.faults += 1
            return None

    def send(self, data):
        self.data_in.write(data)
        self.size, self.waits = len(data), True

    def read_next(self):
        data = self.ask(self.disk.read, READ_ERROR, self.at)
        if data is None:
            self.stop()
        else:
            self.at += 1
            self.send(data)

    def go_on(self):
        """A transfer to the host ended."""
        if self.state == "status":
            self.state = "command"
            return
        self.moved += self.size
        if self.moved < self.length:
            self.read_next()
        else:
            self.end(PASSED)

    def store(self, packet):
        """Takes the bytes of a packet up to the command's length, and writes each block that they make whole."""
        left, failed = packet[: self.length - self.moved], False
        is_over = len(packet) > len(left)
        while left and not failed:
            more = BLOCK - len(self.kept)
            self.kept, self.moved, left = self.kept + left[:more], self.moved + len(left[:more]), left[more:]
            if len(self.kept) == BLOCK:
                failed = self.ask(self.disk.write, WRITE_ERROR, self.at, self.kept) is None
                self.at, self.kept = self.at + 1, b""
        if is_over:
            self.end(PHASE_ERROR)
        elif failed:
            self.stop()
        elif self.moved == self.length:
            self.end(PASSED)

    def stop(self):
        """A fault of the disk ends the data: the pipe is halted where bytes are still due."""
        residue = self.wanted - self.moved
        pipe = self.data_out if self.case.device == "out" else self.data_in
        if residue > 0:
            pipe.halted = True
        self.status(FAILED, residue)

    def end(self, status):
        """The command ends as its case says."""
        if self.case.halts:
            pipe = self.data_in if self.case.halts == "in" else self.data_out
            pipe.halted = True
        self.status(status, {"0": 0, "H": self.wanted, "H-D": self.wanted - self.length}[self.case.residue])

    def status(self, status, residue):
        """Queues the status wrapper (5.2)."""
        self.state = "status"
        self.send(STATUS_SIGNATURE + self.tag + residue.to_bytes(4, "little") + bytes([status]))

    def call(self, verb, *values):
        return getattr(self, "call_" + verb)(*values)

    def call_eject(self):
        self.unit.present = False
        return "done"

    def call_insert(self):
        self.unit.insert()
        self.unit.attention |= self.unit.blocks > 0
        return "done"

    def call_protect(self, protected):
        self.unit.protected = protected == 1
        return "done"
