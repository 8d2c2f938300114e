#!/usr/bin/env python3
"""Runs random jobs on a built `usbrun` and compares its status, its answers and what it tells with models of its own.

The models (`job_model.py`) do what docs/MODEL.md and docs/FORMATS.md say, and use no code of the crates. Their authors are
those of the crates, so what both read wrongly stays unseen. A job that ends with status 0 is run with `--regs` too, and its
trace has to be a run of a model of the controller's registers. A run has 60 seconds.

    random_jobs.py [--ahead] PROGRAM [JOBS [SEED]]

A quarter of the jobs have some bytes changed, so that most of these are refused, and a quarter a set that may be one
that isn't accepted. A job that ends with status 0 and whose device has classes is run again without the lines of each owner: without
its calls and the packets on its endpoints, the core's among them. What is left has to be answered as before. The status is 1 where a
run differs; the first job that does is printed.

Where a disk is driven most jobs have a file as one, which is compared with the model's after each run, whatever its status. Some
jobs are cut at a byte. No file fails on demand, but a write past the most bytes that a file may have does, so some disks fail from
one of their blocks on.
"""
import pathlib
import random
import sys

from descriptor_model import fault_of, first, grouped, left_of, report_lengths, row_of, serial_group
from device_model import DRIVEN, PACKET, words_left
from disk_host import DiskHost
from disk_model import CASES, Disk, MassStorage
from job_model import SCHEDULE, device_of, disk_fault, expected, read_line, schedule_of
from music_model import MusicPort
from program_run import DISK, disk_outcome, outcome
from register_model import Trace, check_trace
from report_model import HumanInterface
from scsi_model import BLOCK
from serial_model import SerialPort

CLASSES = {"cdc": SerialPort, "hid": HumanInterface, "msc": MassStorage, "midi": MusicPort}


def random_interface(rng, number_, free, sound):
    """An interface with some of the free endpoints."""
    vendor = b"\xff\x00\x00"
    codes = rng.choice([vendor, vendor, b"\x08\x06\x50", b"\x01\x03\x00", b"\x03\x01\x01", b"\x0a\x00\x00"])
    if sound and codes[0] != 10:
        codes = vendor
    ends = b""
    wanted = 2 if codes[0] in (1, 8, 10) and rng.random() < 0.8 else rng.choice([0, 1, 2, 4])
    chosen = [free.pop(rng.randrange(len(free))) for _ in range(min(wanted, len(free)))]
    if codes[0] in (1, 8, 10) and len(chosen) == 2 and not sound:
        chosen[1] = chosen[0] ^ 128
    for address in chosen:
        bulk = codes[0] in (1, 8, 10) or rng.random() < 0.5
        size = 64 if bulk else rng.choice([1, 8, 16, 64])
        ends += bytes([7, 5, address, 2 if bulk else 3, size, 0, rng.randrange(256)])
    count = len(chosen) if sound or rng.random() < 0.98 else rng.randrange(4)
    extra = bytes([rng.choice([2, 3, 5]), 0x24]).ljust(5, b"\0") if rng.random() < 0.2 else b""
    extra = extra[: extra[0]] if extra else b""
    other = bytes([9, 4, number_, 1, 1, 255, 0, 0, 0, 7, 5, 0x81, 3, 8, 0, 1]) if rng.random() < 0.15 else b""
    return bytes([9, 4, number_, 0, count]) + codes + b"\0" + extra + ends + other


def serial_port(number_):
    """Two interfaces of a serial port (CDC PSTN 1.2)."""
    control = bytes([9, 4, number_, 0, 1, 2, 2, 0, 0, 5, 0x24, 6, number_, number_ + 1, 7, 5, 0x83, 3, 8, 0, 16])
    return control + bytes([9, 4, number_ + 1, 0, 2, 10, 0, 0, 0, 7, 5, 3, 2, 64, 0, 0, 7, 5, 0x82, 2, 64, 0, 0])


def hid(rng, number_, free, sound):
    """A HID interface with packets of 8 bytes (HID 1.11, 6.2.1), and a report descriptor of it; or neither."""
    ins, outs = ([a for a in free if a & 128 == way] for way in (128, 0))
    if not ins or rng.random() < 0.7:
        return b"", None
    ends = [rng.choice(ins)] + rng.choice([[], outs[:1]])
    for address in ends:
        free.remove(address)
    number = rng.choice([b"", b"\x85\x01"])
    fields = [(item, rng.choice([0, 1, 7, 8 - len(number) // 2])) for item in rng.sample([0x81, 0x91, 0xB1], 2)]
    if not sound and rng.random() < 0.3:
        fields.append((rng.choice([0x81, 0x91]), rng.choice([8, 9, 63, 64])))
    report = b"\x75\x08" + number + b"".join(bytes([0x95, count, item, 2]) for item, count in fields)
    declared = len(report) if sound or rng.random() < 0.8 else rng.choice([0, len(report) - 1, len(report) + 1])
    named = bytes([0x22, declared, 0]) + rng.choice([b"", b"\x23\x04\x00"])
    described = bytes([6 + len(named), 0x21, 0x11, 1, 0, len(named) // 3]) + named
    pipes = b"".join(bytes([7, 5, address, 3, 8, 0, 10]) for address in ends)
    if not sound and rng.random() < 0.2:
        report = rng.choice([None, report + b"\xc0", report[:-1], b"\xa1\x01" + report])
    return bytes([9, 4, number_, 0, len(ends), 3, 0, 0, 0]) + described + pipes, report


def music(rng, number_, free):
    """A MIDI streaming interface with an endpoint in each direction (USB MIDI 1.0, 6), or nothing."""
    ends = [next((a for a in free if a & 128 == way), None) for way in (0, 128)]
    if None in ends or rng.random() < 0.7:
        return b""
    for address in ends:
        free.remove(address)
    sized = [bytes([9, 5, address, 2, 64, 0, 0, 0, 0, 5, 0x25, 1, 1, 1]) for address in ends]
    return bytes([9, 4, number_, 0, 2, 1, 3, 0, 0]) + b"".join(sized)


def storage(rng, number_, free):
    """An interface of a disk with an endpoint in each direction (Bulk-Only Transport 4), or nothing."""
    if "msc" not in DRIVEN or rng.random() < 0.4:
        return b""
    ends = [next(a for a in free if a & 128 == way) for way in (0, 128)]
    for address in ends:
        free.remove(address)
    rng.shuffle(ends)
    return bytes([9, 4, number_, 0, 2, 8, 6, 0x50, 0]) + b"".join(bytes([7, 5, address, 2, 64, 0, 0]) for address in ends)


def random_config(rng, sound):
    """A configuration of up to five interfaces, and its report descriptor, where there is one. A sound one is of an accepted set."""
    body, count, free = b"", 0, [1, 2, 3, 0x81, 0x82, 0x83]
    if rng.random() < 0.4:
        body, count, free = serial_port(0), 2, [1, 2, 0x81]
    interface = storage(rng, count, free)
    body, count = body + interface, count + (interface != b"")
    interface, report = hid(rng, count, free, sound)
    body, count = body + interface, count + (interface != b"")
    interface = music(rng, count, free)
    body, count = body + interface, count + (interface != b"")
    for _ in range(rng.choice([0, 1, 1, 2, 3])):
        body += random_interface(rng, count, free, sound)
        count += 1
    wholes = [64 * packets - 9 - len(body) for packets in (1, 2, 3, 8)]
    pad = rng.choice([0, 0, 0, *wholes, rng.randrange(200), rng.randrange(512 - 9 - len(body))])
    while pad >= 2:
        size = min(pad, 255)
        size -= 1 if pad - size == 1 else 0
        body += bytes([size, 0x41]).ljust(size, b"\x55")
        pad -= size
    total = 9 + len(body)
    config = bytearray(bytes([9, 2]) + total.to_bytes(2, "little") + bytes([count, rng.choice([1, 1, 2, 255]), 0]))
    config += bytes([rng.choice([0x80, 0xC0]), 50]) + body
    if not sound and rng.random() < 0.25:
        config[rng.randrange(len(config))] = rng.choice([0, 1, 2, 3, 4, 5, 7, 9, 11, 64, 0x81, 255])
    return bytes(config), report


def random_setup(rng, config):
    value = config[5] if len(config) > 5 else 1
    if rng.random() < 0.1:
        return bytes(rng.choice([0, 1, 2, 5, 6, 9, 128, 129]) for _ in range(8))
    kind, request, values = rng.choice(
        [
            (0x80, 6, [0x100, 0x200, 0x200, 0x300, 0x301, 0x302, 0x201, 0x2200]),
            (0x80, 6, [0x100, 0x200, 0x300, 0x301]),
            (0x00, 9, [value, value, value, 0, value + 1]),
            (0x00, 5, [1, 2, 127, 128, 0]),
            (0x80, 8, [0]),
            (0x80, 0, [0]),
            (0x81, 0, [0]),
            (0x82, 0, [0]),
            (0x02, 1, [0, 0, 1]),
            (0x02, 3, [0, 0, 0, 1]),
            (0x81, 10, [0]),
            (0x01, 11, [0, 0, 1]),
            (0x81, 6, [0x2100, 0x2200]),
            (0x21, 0x22, [3]),
            (0xA1, 0x21, [0]),
        ]
    )
    index = rng.choice([0, 0, 1, 2, 3, 0x80, 0x81, 0x82, 0x83, 0x101])
    length = rng.choice([0, 1, 2, 8, 18, 19, 63, 64, 64, 65, 128, 255, 512, 65535])
    value = rng.choice(values)
    return bytes([kind, request]) + b"".join(n.to_bytes(2, "little") for n in (value, index, length))


def likely_setup(rng, config):
    """A request that a device with this configuration takes, if its session stands where it has to."""
    value, index = config[5] if len(config) > 5 else 1, rng.choice([1, 2, 3, 0x81, 0x82, 0x83])
    length = rng.choice([8, 64, 128, 255, 512, 65535])
    kind, request, value, index, length = rng.choice(
        [
            (0x80, 6, 0x200, 0, length),
            (0x80, 6, 0x200, 0, length),
            (0x80, 6, 0x100, 0, length),
            (0x80, 8, 0, 0, 1),
            (0x82, 0, 0, index, 2),
            (0x02, 3, 0, index, 0),
            (0x02, 1, 0, index, 0),
            (0x01, 11, 0, 0, 0),
            (0x00, 5, rng.choice([1, 2, 127]), 0, 0),
            (0x00, 9, value, 0, 0),
            (0x00, 9, rng.choice([0, value]), 0, 0),
        ]
    )
    return bytes([kind, request]) + b"".join(n.to_bytes(2, "little") for n in (value, index, length))


def owners_of(config):
    """The interface number and the endpoints of each class that a configuration has."""
    _, interfaces = grouped(left_of(row_of(config)[0]))
    groups = {"cdc": serial_group(interfaces), "hid": first(interfaces, 3), "midi": first(interfaces, 1, 3)}
    groups["hid"], groups["midi"] = ([groups[name]] if groups[name] else None for name in ("hid", "midi"))
    disk = first(interfaces, 8, 6, 0x50) if "msc" in DRIVEN else None
    groups["msc"] = [disk] if disk else None
    ends = {name: [e[2] for i in group for _, e in i.endpoints] for name, group in groups.items() if group}
    return {name: (groups[name][0].data[2], all_) for name, all_ in ends.items()}


class Lines:
    """Random lines of a schedule, most of them at the address that the device may have. `device` is a model that has answered them
    all, where there is a disk for a host that reacts."""

    def __init__(self, rng, config, report, owners, device):
        self.rng, self.config, self.owners, self.device = rng, config, owners, device
        self.host = DiskHost(self, owners["msc"][1]) if device else None
        self.weights = [rng.random() * most for most in (0.1, 1.5, 1.5, 1, 1, 1.5, 0.5)]
        self.control_share = rng.choice([0.5, 0.85, 0.85])
        self.stray_share = rng.choice([0, 0.02, 0.1, 0.3])
        self.likely_share = rng.choice([0.1, 0.5, 0.9])
        self.address = 0
        self.lines = []
        self.lengths = report_lengths(report or b"") or {}
        self.toggles = {}

    def next(self):
        rng = self.rng
        if self.owners and rng.random() < 0.2:
            return self.call(rng.choice(list(self.owners)))
        kind = rng.choices(["reset", "irq", "task", "setup", "out", "in", "state"], self.weights)[0]
        address = self.address if rng.random() < 0.95 else rng.choice([0, 1, 2, rng.randrange(128)])
        endpoint = 0 if rng.random() < self.control_share else rng.randrange(5)
        if self.host and endpoint == self.host.outward and rng.random() < 0.9:
            endpoint = 0
        fate = "ok" if rng.random() < 0.85 else ("noack" if kind == "in" else "bad")
        if kind == "setup":
            return f"setup {address} {self.request().hex()} {fate}"
        if kind == "out":
            body = rng.randbytes(rng.choice([0, 0, 0, 1, 8, 16, PACKET])).hex() or "-"
            return f"out {address} {endpoint} {rng.choice([0, 1, 1, 1])} {body} {fate}"
        if kind == "reset":
            self.address = 0
        return f"in {address} {endpoint} {fate}" if kind == "in" else kind

    def request(self):
        return (likely_setup if self.rng.random() < self.likely_share else random_setup)(self.rng, self.config)

    def add(self, line):
        self.lines.append(line)
        if self.device:
            self.device.answer(read_line(line.encode(), SCHEDULE))

    def put(self, *lines):
        """These lines at the device's address, with strays between them."""
        for line in lines:
            while self.rng.random() < self.stray_share:
                self.add(self.next())
            self.add(line.format(self.address))

    def turn(self):
        """What the device's software does after a stage, mostly all that is to be done."""
        whole = ["irq", "task", "irq"]
        self.put(*self.rng.choice([whole] * 6 + [["irq"], ["irq", "task"], ["task", "irq"], whole + ["task", "irq"]]))

    def control(self, setup):
        """A whole request as a host makes it: SETUPs up to one too many, lost acknowledgements, repeated packets."""
        rng = self.rng
        earlier = [self.request() for _ in range(rng.choice([0, 0, 0, 0, 0, 1, 2, 3]))]
        for each in [*earlier, setup]:
            self.put(f"setup {{}} {each.hex()} ok")
        self.turn()
        most = 1 + int.from_bytes(setup[6:], "little") // PACKET
        for _ in range(min(most, rng.choice([1, 1, 2, 3, 8, 9]))):
            self.put(*["in {} 0 noack"] * rng.choice([0, 0, 1, 2]), "in {} 0 ok")
            self.turn()
        if setup[:2] == b"\x00\x05" and setup[2] < 128 and setup[3] == 0:
            self.address = setup[2]
        for _ in range(rng.choice([0, 1, 1, 2]) if setup[0] & 128 else 0):
            body = rng.randbytes(rng.choice([0, 0, 0, 8, PACKET])).hex() or "-"
            self.put(*(f"out {{}} 0 {toggle} {body} ok" for toggle in rng.choice([[1], [1, 1], [0, 1], [1, 0, 1]])))
            self.put(*rng.choice([[], [], ["in {} 0 ok"], ["setup {} 8008000000000100 ok"]]))
            self.turn()

    def session(self):
        """A host that gives the device an address and configures it, and then tokens of data endpoints."""
        self.address = 0
        self.put("reset", "irq")
        for request, value in ((5, self.rng.choice([1, 2, 127])), (9, self.config[5])):
            setup = bytes([0, request, value]) + bytes(5)
            self.put(f"setup {{}} {setup.hex()} ok", "irq", "task", "irq", "in {} 0 ok", "irq", "task")
            self.address = value if request == 5 else self.address
        self.toggles = {}
        for _ in range(self.rng.choice([1, 3, 10])):
            if not self.host or self.rng.random() < 0.1:
                self.put(self.data_token())
            if self.rng.random() < 0.3:
                self.control(self.request())
            for name in self.rng.sample(list(self.owners), len(self.owners)):
                self.class_turn(name)
                if self.rng.random() < 0.2:
                    getattr(self, name + "_requests", lambda: None)()

    def call(self, name):
        return getattr(self, name + "_call")()

    def class_turn(self, name):
        """Some of what an application, a host and a class do to each other: bytes either way, with handshakes that are lost."""
        if name == "msc":
            return self.host.command()
        rng, ends = self.rng, self.owners[name][1]
        outs, ins = [a for a in ends if a < 128], [a - 128 for a in ends if a >= 128]
        if outs and rng.random() < 0.5:
            toggle = self.toggles.get(outs[0], 0)
            packet = f"out {{}} {outs[0]} {toggle} {getattr(self, name + '_packet')().hex() or '-'} ok"
            self.put(*[packet] * rng.choice([1, 1, 1, 2]))
            self.toggles[outs[0]] = toggle ^ (rng.random() < 0.95)
        elif ins:
            self.put(self.call(name), *rng.choice([[], ["cdc flush"] if name == "cdc" else ["task"]]), "irq")
            self.put(*(f"in {{}} {rng.choice(ins)} {rng.choice(['ok', 'ok', 'noack'])}" for _ in range(rng.choice([1, 2, 5]))))
        self.turn()
        self.put(*rng.choice([[], [self.call(name)], [{"cdc": "cdc read 1024", "hid": "hid take", "midi": "midi bytes 1024"}[name]]]))

    def cdc_call(self):
        rng = self.rng
        verb = rng.choice(["write", "write", "read", "read", "flush", "flush", "avail", "line", "notify"])
        if verb == "write":
            return f"cdc write {rng.randbytes(rng.choice([1, 2, 63, 64, 64, 65, 128, 192, 256, 257, 300])).hex()}"
        if verb == "read":
            return f"cdc read {rng.choice([1, 2, 63, 64, 65, 128, 256, 1024])}"
        return f"cdc notify {rng.choice([0, 1, 3, 64, 65535])}" if verb == "notify" else f"cdc {verb}"

    def cdc_packet(self):
        return self.rng.randbytes(self.rng.choice([0, 1, 8, 63, PACKET, PACKET, PACKET]))

    def cdc_requests(self):
        """A line coding, which may be one that is refused, and other requests to the port."""
        rng = self.rng
        coding = rng.randrange(2**32).to_bytes(4, "little") + bytes(rng.choice(c) for c in ((0, 1, 2, 3), (0, 4, 5), (5, 8, 16, 9)))
        coding = coding[: rng.choice([7, 7, 7, 7, 6, 0])] + b"\0" * rng.choice([0, 0, 0, 0, 1])
        port = rng.choice(["00", "00", "00", "01"])
        self.give(bytes.fromhex(f"21200000{port}000700"), coding)
        for setup in rng.sample([f"a1210000{port}000700", f"2122{rng.randrange(4):02x}00{port}000000", "0203000082000000", "0201000082000000"], 2):
            self.control(bytes.fromhex(setup))

    def give(self, setup, data):
        """A request with data from the host."""
        self.put(f"setup {{}} {setup.hex()} ok")
        self.turn()
        self.put(f"out {{}} 0 {self.rng.choice([1, 1, 1, 0])} {data.hex() or '-'} ok")
        self.turn()
        self.put("in {} 0 ok", "irq", "task")

    def report(self, sort):
        """The bytes of a report of a type with its id, mostly one that there is."""
        rng = self.rng
        number = rng.choice([*self.lengths, *self.lengths, 0, 1, 2])
        length = self.lengths.get(number, (0, 0, 0))[sort - 1]
        length = length if rng.random() < 0.85 else rng.choice([0, 1, 8, length + 1])
        return number, (bytes([number]) if number else b"") + rng.randbytes(length)

    def hid_call(self):
        data = self.report(1)[1] or b"\0"
        return self.rng.choice([f"hid report {data[:PACKET].hex()}"] * 3 + ["hid take", "hid take", "hid set", "hid idle"])

    def hid_packet(self):
        return self.rng.randbytes(self.rng.choice([0, 1, 2, 8, 8, 9]))

    def hid_requests(self):
        """SET_REPORT, and other requests of HID 1.11, 7.2."""
        rng, at = self.rng, self.owners["hid"][0]
        sort = rng.choice([1, 2, 2, 3, 3])
        number, data = self.report(sort)
        said = len(data) if rng.random() < 0.85 else rng.choice([0, 1, 8, 64, 65])
        self.give(bytes([0x21, 9, number, sort, at, 0, said, 0]), data[:PACKET])
        asked = [
            bytes([0xA1, 1, number, rng.choice([sort, 1, 2, 3]), at, 0, rng.choice([1, 8, 64]), 0]),
            bytes([0xA1, rng.choice([2, 3]), 0, 0, at, 0, 1, 0]),
            bytes([0x21, 10, 0, rng.choice([0, 1, 125]), at, 0, rng.choice([0, 0, 0, 1]), 0]),
            bytes([0x21, 11, rng.choice([0, 1, 2]), 0, at, 0, 0, 0]),
            bytes([0x81, 6, 0, rng.choice([0x21, 0x22]), at, 0, rng.choice([9, 12, 255]), 0]),
        ]
        for setup in rng.sample(asked, 2):
            self.control(setup)

    def midi_call(self):
        rng = self.rng
        verb = rng.choice(["send", "send", "recv", "bytes"])
        if verb != "send":
            return f"midi {verb} {rng.choice([1, 2, 16, 1024])}"
        heads = [0x90, 0xC0, 0xF0, 0xF1, 0xF2, 0xF3, 0xF6, 0xF7, 0xF7, 0xF8, 0xFF, *[None] * 20]
        stream = bytes(rng.randrange(128) if (head := rng.choice(heads)) is None else head for _ in range(rng.choice([1, 3, 20, 200])))
        return f"midi send {stream.hex()}"

    def midi_packet(self):
        rng = self.rng
        data = b"".join(bytes([rng.randrange(16) + 16 * rng.choice([0, 0, 3]), *rng.randbytes(3)]) for _ in range(rng.choice([0, 1, 2, 16, 16])))
        return data if rng.random() < 0.8 else data[: rng.randrange(PACKET)]

    def msc_call(self):
        return self.rng.choice(["msc eject", "msc insert", "msc insert", "msc protect 0", "msc protect 0", "msc protect 1"])

    def msc_requests(self):
        """Requests of Bulk-Only Transport 3, and the halts as GET_STATUS tells them."""
        rng, (at, ends) = self.rng, self.owners["msc"]
        asked = [
            bytes([0xA1, 0xFE, rng.choice([0, 0, 0, 1]), 0, at, 0, rng.choice([1, 1, 0, 2]), 0]),
            bytes([0x21, 0xFF, rng.choice([0, 0, 1]), 0, at, 0, rng.choice([0, 0, 1]), 0]),
            bytes([0xA1, rng.choice([0xFD, 0xFF]), 0, 0, at, 0, 1, 0]),
            *(bytes([0x82, 0, 0, 0, address, 0, 2, 0]) for address in ends),
        ]
        self.control(rng.choice(asked))

    def data_token(self):
        rng = self.rng
        endpoint = rng.choice([1, 2, 3])
        if rng.random() < 0.5:
            return f"in {{}} {endpoint} {rng.choice(['ok', 'noack'])}"
        body = rng.randbytes(rng.choice([0, 1, 2, 8, 9, 16, 17, PACKET])).hex() or "-"
        return f"out {{}} {endpoint} {rng.choice([0, 1])} {body} ok"


def random_disk(rng):
    """A disk for a run, or None: a few blocks, some of which may fail to be written. Few are such that the program refuses."""
    if "msc" not in DRIVEN or rng.random() < 0.1:
        return None
    if rng.random() < 0.04:
        return Disk(rng.choice([None, b"", bytes(BLOCK - 1), bytes(BLOCK + 1)]))
    blocks = rng.choice([1, 2, 3, 5, 9])
    most = BLOCK * rng.randrange(blocks) if rng.random() < 0.35 else None
    return Disk(rng.randbytes(BLOCK * blocks), most=most)


def fresh(disk):
    """A disk as a run finds it."""
    return disk and Disk(disk.data, disk.fails, disk.most)


def live_device(head, owners, disk):
    """A model of the device for a host that reacts to it, where it has a disk's interface."""
    if "msc" not in owners:
        return None
    disk = fresh(disk)
    return device_of("\n".join([*head, "begin"]).encode(), None if disk is None or disk_fault(disk) else disk)


def random_job(rng, sound, disk=None):
    """A job, and the model of its device that the host of its disk had, or None."""
    device = b"\x12\x01" + rng.randbytes(5) + b"\x40" + rng.randbytes(9) + bytes([rng.choice([1, 1, 1, 2])])
    config, report = random_config(rng, sound)
    head = [f"device {device.hex()}", f"config {config.hex()}"]
    for index in sorted(rng.sample(range(1, 6), rng.choice([0, 0, 1, 2]))):
        head.append(f"string {index} {rng.randbytes(rng.choice([2, 12, 60])).hex()}")
    if report is None and not sound and rng.random() < 0.03:
        report = b"\x06\x00"
    if report is not None:
        head.append(f"report {report.hex()}")
    owners = owners_of(config) if fault_of(device, config, report) is None else {}
    source, whole = Lines(rng, config, report, owners, live_device(head, owners, disk)), rng.choice([0.03, 0.15, 0.5])
    source.put("reset", "irq")
    length = rng.choice([60, 200, 500, 1000] if source.host else [3, 20, 60, 200])
    while len(source.lines) < length:
        if rng.random() < whole:
            source.control(source.request())
        elif len(config) > 5 and rng.random() < (0.3 if source.owners else 0.05):
            source.session()
        else:
            source.add(source.next())
    last = ["end", ""] if sound else rng.choice([["end", ""], ["end", ""], ["end"], [""], []])
    return "\n".join(head + ["begin"] + source.lines + last).encode(), source.device


def changed(rng, job):
    job = bytearray(job)
    for _ in range(rng.choice([1, 1, 2, 3])):
        at = rng.randrange(len(job)) if rng.random() < 0.5 else rng.randrange(min(len(job), 300))
        new = bytes([rng.choice(b" \n\r\t019-afAFz\x00\xff")])
        job[at : at + rng.choice([0, 1, 1, 5])] = rng.choice([b"", new, new])
    if rng.random() < 0.1:
        lines = bytes(job).split(b"\n")
        a, b = rng.randrange(min(len(lines), 6)), rng.randrange(min(len(lines), 6))
        lines[a], lines[b] = lines[b], lines[a]
        return b"\n".join(lines)
    return bytes(job)


def wrong_words():
    """Words that are none of a command's, one that is no text among them."""
    wrong = [[], [b"\xff"], [b"device", b"\xff\xfe"], [b"device", b"device"]]
    if "msc" in DRIVEN:
        names = (["--disk"], ["--disk", "-d"], ["--disk", ""], ["--disk", "d" * 256], ["--disk=d"], ["--disk", "d"] * 2, ["d", "--disk"])
        wrong += [["device", *name] for name in names]
    return wrong


def words_are_refused(program):
    """Whether these end with status 1 and its line."""
    for words in wrong_words():
        got = outcome([program, *words])
        if got != (1, b"", b"usbrun: usage\n"):
            print(f"words {words} differ: {got[0]} {got[2]!r}")
            return False
    return True


def run(program, job, disk, *words):
    """How the program ends with a job, and the disk behind it."""
    return disk_outcome([program, "device", *(["--disk", DISK] if disk else []), *words], job, disk or Disk(None))


def modelled(job, disk):
    """The same of the models."""
    disk = fresh(disk)
    return expected(job, disk), disk and disk.data


def trace_of(program, job, disk, answers):
    """The accesses of a job's trace. Raises `Trace` where it isn't a run of the model of the registers."""
    (status, trace, told), after = run(program, job, disk, "--regs")
    if (status, told) != (0, b"") or after != modelled(job, disk)[1]:
        raise Trace(f"with --regs it ends {status} {told!r}, or its disk holds something else")
    return check_trace(schedule_of(job), trace.decode(), answers.decode())


def line_owner(owners, line):
    """Whose a line of a schedule is alone: a call's class, the class of a packet's endpoint, or the core; None where all see it."""
    words = line.split(b" ")
    if words[0] == b"state":
        return "core"
    if words[0] in (b"out", b"in") and words[2] != b"0":
        address = int(words[2]) + (128 if words[0] == b"in" else 0)
        return next((name for name, (_, ends) in owners.items() if address in ends), "core")
    return words[0].decode() if words[0] in (b"cdc", b"hid", b"msc", b"midi") else None


def stages_of(job, sort):
    """Of each line of a job's schedule, whether it is a packet of a control transfer of a class; no disk tells on that."""
    device, stages = device_of(job), []
    for line in schedule_of(job):
        mine = isinstance(device.control, sort) and line[0] in ("out", "in_") and line[2] == 0
        stages.append(mine)
        device.answer(line)
    return stages


def part_fault(program, job, disk, whole, owners, name):
    """What differs where the lines of one owner are left out, or None. What is told of its control transfers isn't compared, and the
    disk not where they are those of mass storage."""
    lines, told = job.split(b"\n"), whole[0].split(b"\n")
    start = lines.index(b"begin") + 1
    kept = [at for at, line in enumerate(lines[start:]) if line_owner(owners, line) != name]
    short = b"\n".join(lines[:start] + [lines[start + at] for at in kept])
    (status, got, _), after = run(program, short, disk)
    stages = stages_of(job, CLASSES[name]) if name in CLASSES else []
    pairs = zip((at for at in kept if at < len(told)), got.split(b"\n"))
    same = all(told[at] == answer or (at < len(stages) and stages[at]) for at, answer in pairs)
    same = same and (name == "msc" or after == whole[1])
    return None if status == 0 and same else short


def owners_in(job):
    """The classes of the device of a job."""
    line = next(line for line in job.split(b"\n") if line.startswith(b"config "))
    return owners_of(bytes.fromhex(line[7:].decode()))


def parts_fault(program, job, disk, whole, owners):
    """The job without one owner's lines that is answered otherwise, or leaves its disk otherwise, or None. `whole` has the answers
    to the job and what its disk holds."""
    faults = (part_fault(program, job, disk, whole, owners, name) for name in ("core", *owners))
    return next((fault for fault in faults if fault is not None), None)


def told_cases(devices):
    """Which of the thirteen cases the hosts of disks came to, in a line for the reader."""
    stored = [device.driven(MassStorage) for device in devices if device]
    cases = {case.number: sum(each.cases[case.number] for each in stored) for case in CASES}
    told = ", ".join(f"{number}: {count}" for number, count in cases.items())
    return f"disks: commands by their case {told}; {sum(each.faults for each in stored)} calls on a disk failed"


def drawn(rng, count):
    """The next job, the model of its device that the host of its disk had, and its disk."""
    disk = random_disk(rng)
    job, device = random_job(rng, count % 2 == 1, disk)
    if count % 4 == 0:
        job = changed(rng, job)
    if device and count % 8 == 2:
        job = job[: rng.randrange(len(job))]
    return job, device, disk


def difference(got, wanted):
    """How two ends of a job differ, each with the disk behind it."""
    ends = f"{got[0][0]} {got[0][2]!r}, and not {wanted[0][0]} {wanted[0][2]!r}"
    return "the disk holds something else" if got[0] == wanted[0] else ends


def main():
    words = words_left(sys.argv[1:])
    program = str(pathlib.Path(words[0]).resolve())
    if not words_are_refused(program):
        return 1
    jobs = int(words[1]) if len(words) > 1 else 400
    rng = random.Random(int(words[2]) if len(words) > 2 else 1)
    statuses, accesses, parts, devices = {}, 0, 0, []
    for count in range(jobs):
        job, device, disk = drawn(rng, count)
        devices.append(device)
        (got, after), wanted = run(program, job, disk), modelled(job, disk)
        if (got, after) != wanted:
            sys.stdout.buffer.write(job)
            print(f"job {count} differs: {difference((got, after), wanted)}")
            return 1
        try:
            accesses += trace_of(program, job, disk, got[1]) if got[0] == 0 else 0
        except Trace as wrong:
            sys.stdout.buffer.write(job)
            print(f"the trace of job {count} differs: {wrong}")
            return 1
        owners = owners_in(job) if got[0] == 0 else {}
        fault = parts_fault(program, job, disk, (got[1], after), owners) if owners else None
        if fault is not None:
            sys.stdout.buffer.write(job + b"\n-- without one owner's lines:\n" + fault)
            print(f"a part of job {count} is answered otherwise")
            return 1
        parts += bool(owners)
        statuses[got[0]] = statuses.get(got[0], 0) + 1
    told = ", ".join(f"{count} with status {status}" for status, count in sorted(statuses.items()))
    print(f"random jobs: {jobs} of {jobs} agree ({told})")
    print(f"parts: {parts} jobs are answered alike without one owner's lines")
    print(f"register accesses: {accesses} checked in {statuses.get(0, 0)} traces")
    if "msc" in DRIVEN:
        print(told_cases(devices))
    return 0


if __name__ == "__main__":
    sys.exit(main())
