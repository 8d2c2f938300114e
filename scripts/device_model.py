"""A device as a host and its own software see it, by docs/MODEL.md, with no code of the crates."""

from descriptor_model import first, grouped, hid_descriptor, is_in, kind, left_of, report_lengths, row_of, serial_group
from disk_model import MassStorage
from music_model import MusicPort
from pipe_model import InPipe, OutPipe
from report_model import HumanInterface
from serial_model import SerialPort

PACKET = 64
MOST_UNSERVED = 3
LANGUAGES = b"\x04\x03\x09\x04"
# the classes that the program drives; the endpoints of the others are the core's
DRIVEN = {"cdc", "hid", "midi"}
# those that have a model and that no program drives yet
AHEAD = {"msc"}


def words_left(words):
    """A script's words without `--ahead`, which has the models drive the classes that no program drives yet."""
    if "--ahead" in words:
        DRIVEN.update(AHEAD)
    return [word for word in words if word != "--ahead"]


class Device:
    def __init__(self, device, config, strings, report=None, disk=None):
        self.device, self.config, self.strings, self.report, self.disk = device, config, strings, report, disk
        _, self.interfaces = grouped(left_of(row_of(config)[0]))
        group = first(self.interfaces, 3) if "hid" in DRIVEN else None
        self.reports_at = group.data[2] if group else None
        self.sizes = {e[2]: e[4] for i in self.interfaces for _, e in i.endpoints}
        self.classes, self.owners = {}, {}
        self.drive()
        self.pipes, self.dropped = {}, set()
        self.session = self.awake = self.was_reset = False
        self.clear()

    def drive(self):
        """The class of each interface that is driven, in the order of their work."""
        serial, human, music = serial_group(self.interfaces), first(self.interfaces, 3), first(self.interfaces, 1, 3)
        storage = first(self.interfaces, 8, 6, 0x50)
        if "cdc" in DRIVEN and serial:
            self.own(SerialPort(serial[0].data[2]), serial)
        if "hid" in DRIVEN and human:
            self.own(HumanInterface(report_lengths(self.report)), [human])
        if "msc" in DRIVEN and storage:
            self.own(MassStorage(self.disk), [storage])
        if "midi" in DRIVEN and music:
            self.own(MusicPort(), [music])

    def own(self, owner, group):
        """The interfaces of a class, and their endpoints."""
        for interface in group:
            self.classes[interface.data[2]] = owner
            self.owners.update({e[2]: owner for _, e in interface.endpoints})

    def works(self):
        return dict.fromkeys(self.classes.values())

    def end_session(self):
        if self.session:
            for each in self.works():
                each.closed()
        self.dropped |= {a for a, p in self.pipes.items() if a < 128 and p.phase in ("landed", "stale")}
        self.session, self.halted, self.pipes = False, set(), {}

    def begin_session(self):
        self.session = True
        for interface in self.interfaces:
            for _, e in interface.endpoints:
                if e[2] in self.owners:
                    self.pipes[e[2]] = self.pipe(e)
        for each in self.works():
            each.opened(self.pipes_of(each))

    def pipe(self, e):
        room = self.owners[e[2]].room(kind(e))
        if is_in(e):
            return InPipe(e[4], room)
        stale = e[2] in self.dropped
        self.dropped.discard(e[2])
        return OutPipe(e[4], room, stale)

    def pipes_of(self, owner):
        """Its pipe for the host, the one from the host, and the one for notifications, None where it has none."""
        ends = {a: p for a, p in self.pipes.items() if self.owners[a] is owner}
        control = set()
        if isinstance(owner, SerialPort):
            control = {e[2] for _, e in self.interfaces[owner.interface].endpoints}
        inward = next(p for a, p in ends.items() if a >= 128 and a not in control)
        return inward, next((p for a, p in ends.items() if a < 128), None), next((p for a, p in ends.items() if a in control), None)

    def clear(self):
        self.end_session()
        self.address, self.dropped = 0, set()
        self.setups = []
        self.side, self.packet, self.is_last = "off", b"", False
        self.taken = False
        self.note = None
        self.setup_note = None
        self.to_come, self.taking, self.control = [], None, None
        self.new_address = None
        self.toggle = 1

    def answer(self, line):
        kind, *fields = line
        return getattr(self, kind)(*fields)

    def state(self):
        return f"state {self.address} {int(self.session)}"

    def driven(self, sort):
        """The class of this sort, or None."""
        return next((each for each in self.works() if isinstance(each, sort)), None)

    def asked(self, sort, *call):
        """The answer to a call of a class."""
        owner = self.driven(sort)
        return "closed" if owner is None or not self.session else owner.call(*call)

    def cdc(self, *call):
        return self.asked(SerialPort, *call)

    def hid(self, *call):
        return self.asked(HumanInterface, *call)

    def midi(self, *call):
        return self.asked(MusicPort, *call)

    def msc(self, *call):
        """Its calls are of the medium, which is there without a session too."""
        owner = self.driven(MassStorage)
        return "closed" if owner is None else owner.call(*call)

    def reset(self):
        self.awake, self.was_reset = False, True
        return "ok"

    def irq(self):
        if self.was_reset:
            self.clear()
            self.awake, self.was_reset = True, False
            return "ok"
        if self.side in ("sent", "came"):
            self.note, self.side = (self.side, self.packet), "off"
            if self.new_address is not None:
                self.address, self.new_address = self.new_address, None
                return "ok"
        if self.setups:
            self.setup_note, self.setups, self.side = self.setups[-1], [], "off"
        elif self.side == "wait":
            self.side = "last" if self.is_last else "loaded"
        for each in self.pipes.values():
            each.irq()
        self.dropped.clear()
        return "ok"

    def task(self):
        if self.note is not None:
            self.go_on(*self.note)
        self.note = None
        if self.setup_note is not None:
            self.to_come, self.taking, self.new_address = [], None, None
            self.start(self.setup_note)
            self.setup_note = None
        for address, pipe in sorted(self.pipes.items()):
            told = pipe.task()
            if address < 128 and told:
                self.owners[address].came(pipe)
            elif address >= 128 and told is not None:
                self.owners[address].ended(pipe, told)
        for each in self.works():
            each.work()
        return "ok"

    def go_on(self, note, packet):
        if note == "sent" and self.to_come:
            self.give_next()
        elif note == "came" and self.taking is not None:
            self.side, self.packet, self.is_last = "wait" if self.taking.takes(packet) else "stall", b"", False
            self.taking = None
        else:
            self.to_come, self.taking = [], None

    def start(self, setup):
        value, length = int.from_bytes(setup[2:4], "little"), int.from_bytes(setup[6:], "little")
        owner = self.class_of(setup)
        self.control = self.recipient(setup)
        data = owner.request(setup) if owner else self.request(tuple(setup[:2]), value, setup[4])
        if data is None:
            self.side = "stall"
        elif isinstance(data, int):
            self.side, self.taking = "armed", owner
        elif data == "status" or length == 0:
            self.side, self.packet, self.is_last = "wait", b"", False
        else:
            cut = data[:length]
            self.to_come = [cut[at : at + PACKET] for at in range(0, len(cut), PACKET)]
            if len(cut) < length and len(cut) % PACKET == 0:
                self.to_come.append(b"")
            self.give_next()

    def class_of(self, setup):
        """The class that decides a request: in a session that of the interface which a class request names."""
        return self.classes.get(setup[4]) if self.session and setup[0] in (0x21, 0xA1) else None

    def recipient(self, setup):
        """The class whose interface or endpoint a request names, None where that is the core."""
        return {1: self.classes, 2: self.owners}.get(setup[0] & 31, {}).get(setup[4])

    def halts(self, address, halted):
        """Halts an endpoint, or clears its halt."""
        if address in self.pipes:
            pipe = self.pipes[address]
            if halted:
                pipe.halted = True
            else:
                pipe.clear()
                self.owners[address].cleared(pipe)
        else:
            (self.halted.add if halted else self.halted.discard)(address)

    def is_halted(self, address):
        return self.pipes[address].halted if address in self.pipes else address in self.halted

    def request(self, asked, value, index):
        """The data of a request, `status` where it has none, and None where it is refused."""
        interface = self.session and index < len(self.interfaces)
        endpoint = index in (0, 0x80) or (self.session and index in self.sizes)
        if asked == (0x80, 0):
            return bytes([self.config[7] >> 6 & 1, 0])
        if asked == (0x81, 0):
            return bytes(2) if interface else None
        if asked == (0x82, 0):
            return bytes([self.is_halted(index), 0]) if endpoint else None
        if asked in ((0x02, 1), (0x02, 3)) and value == 0 and endpoint:
            if index not in (0, 0x80):
                self.halts(index, asked[1] == 3)
            return "status"
        if asked == (0x00, 5) and value <= 127:
            self.new_address = value
            return "status"
        if asked == (0x80, 6):
            return self.descriptor(value)
        if asked == (0x81, 6) and interface and index == self.reports_at:
            return self.hid_descriptor(value)
        if asked == (0x80, 8):
            return bytes([self.config[5] if self.session else 0])
        if asked == (0x00, 9) and value in (0, self.config[5]):
            self.end_session()
            if value:
                self.begin_session()
            return "status"
        if asked == (0x81, 10):
            return bytes(1) if interface else None
        if asked == (0x01, 11) and interface and value == 0:
            for _, e in self.interfaces[index].endpoints:
                self.halts(e[2], False)
            return "status"
        return None

    def hid_descriptor(self, value):
        """What an interface of HID gives: its own descriptor, whole, or that of its reports (HID 1.11, 7.1.1)."""
        if value == 0x2100:
            return hid_descriptor(self.interfaces)
        return self.report if value == 0x2200 else None

    def descriptor(self, value):
        kind, index = value >> 8, value & 255
        if value == 0x0100:
            return self.device
        if value == 0x0200:
            return self.config
        if kind != 3:
            return None
        if index == 0:
            return LANGUAGES if self.strings else None
        body = self.strings.get(index)
        return None if body is None else bytes([len(body) + 2, 3]) + body

    def give_next(self):
        self.packet = self.to_come.pop(0)
        self.side, self.is_last = "wait", not self.to_come

    def setup(self, address, setup, good):
        if not self.awake or not good or address != self.address or len(self.setups) == MOST_UNSERVED:
            return "none"
        self.setups.append(setup)
        self.taken, self.toggle = False, 1
        if self.side in ("loaded", "last", "armed", "stall"):
            self.side = "off"
        return "ack"

    def out(self, address, endpoint, toggle, data, good):
        if not self.awake or not good or address != self.address:
            return "none"
        if endpoint != 0:
            if not self.session or len(data) > self.sizes.get(endpoint, -1):
                return "none"
            return self.pipes[endpoint].packet(toggle, data) if endpoint in self.pipes else "nak"
        if self.setups:
            return "nak"
        if self.side == "stall":
            return "stall"
        if self.taken:
            return "ack" if toggle == 1 else "nak"
        if self.side not in ("armed", "last"):
            return "nak"
        if toggle == 1:
            self.taken, self.side, self.packet = True, "came", data
        return "ack"

    def in_(self, address, endpoint, acknowledged):
        if not self.awake or address != self.address:
            return "none"
        if endpoint != 0:
            endpoint += 128
            if not self.session or endpoint not in self.sizes:
                return "none"
            return self.pipes[endpoint].token(acknowledged) if endpoint in self.pipes else "nak"
        if self.setups:
            return "nak"
        if self.side == "stall":
            return "stall"
        if self.side not in ("loaded", "last"):
            return "nak"
        answer = f"data{self.toggle} {self.packet.hex() or '-'}"
        if acknowledged:
            self.toggle ^= 1
            self.side = "armed" if self.side == "last" else "sent"
        return answer
