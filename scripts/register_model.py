"""A DWC2 controller (RM0090, OTG_FS) in device mode as its registers and the bus show it, with no code of the crates.

The table is one of effects: what each read gives, what each write and each bus event changes. A register or a bit that
no rule below names is read as it was written, and does nothing. The controller has the endpoints 0 to 3 in each
direction and the channels 0 to 7. Registers are numbered to 11: those that the controller lacks read 0 and do nothing.
`check_trace` walks the trace of a run of `usbrun device --regs` with it.
"""

import re

PACKET = 64
MOST_UNSERVED = 3
MOST_ACCESSES = 400
ENDPOINTS, CHANNELS, MOST_NUMBERED = range(4), range(8), 12
TRANSMIT_DEPTHS = [16, 32, 32, 32]
RECEIVE_DEPTH = 12 + 18 * len(ENDPOINTS)
ALL = 0xFFFFFFFF

GRSTCTL, GINTSTS, GINTMSK, GRXSTSR, GRXSTSP = 0x10, 0x14, 0x18, 0x1C, 0x20
GRXFSIZ, DIEPTXF0, HPTXFSIZ = 0x24, 0x28, 0x100
HCFG, HAINT, HAINTMSK, HPRT = 0x400, 0x414, 0x418, 0x440
DCFG, DCTL, DSTS, DIEPMSK, DOEPMSK, DAINT, DAINTMSK, DIEPEMPMSK = 0x800, 0x804, 0x808, 0x810, 0x814, 0x818, 0x81C, 0x834

# GRSTCTL, whose TXFNUM stands from bit 6 on; 16 is every transmit FIFO
RXFFLSH, TXFFLSH, EVERY_FIFO = 1 << 4, 1 << 5, 16
# GINTSTS
RXFLVL, USBRST, ENUMDNE, IEPINT, OEPINT = 1 << 4, 1 << 12, 1 << 13, 1 << 18, 1 << 19
# DIEPCTL and DOEPCTL: the states among the bits, and those that act when 1 is written and are read as 0
USBAEP, NAKSTS, STALL, EPENA = 1 << 15, 1 << 17, 1 << 21, 1 << 31
CNAK, SNAK, SD0PID, EPDIS = 1 << 26, 1 << 27, 1 << 28, 1 << 30
# DIEPINT and DOEPINT
XFRC, EPDISD, STUP, TXFE = 1 << 0, 1 << 1, 1 << 3, 1 << 7
# the packet status of an entry of the receive FIFO
OUT_CAME, OUT_DONE, SETUP_DONE, SETUP_CAME = 2, 3, 4, 6


def dieptxf(x):
    return 0x104 + 4 * (x - 1)


def window(x):
    return 0x1000 + 0x1000 * x


def numbered(offsets, stride, first):
    """The registers at these offsets from a number on, up to the highest that has registers."""
    return {off + stride * x for off in offsets for x in range(first, MOST_NUMBERED)}


# the registers and windows of endpoints and channels that have offsets, and that the controller lacks
LACKING = (
    numbered((0x500, 0x508, 0x50C, 0x510), 0x20, len(CHANNELS))
    | numbered((0x900, 0x908, 0x910, 0x918, 0xB00, 0xB08, 0xB10), 0x20, len(ENDPOINTS))
    | numbered((window(0),), 0x1000, len(ENDPOINTS))
    | {dieptxf(x) for x in range(len(ENDPOINTS), MOST_NUMBERED)}
)


def words_of(data):
    """The words that hold these bytes, the lowest byte first, the last one filled with 0."""
    return [int.from_bytes(data[at : at + 4], "little") for at in range(0, len(data), 4)]


def word_count(size):
    return (size + 3) // 4


def status_word(endpoint, status, count=0, toggle=0):
    """What GRXSTSR shows of an entry; its PID is 0 for DATA0 and 2 for DATA1."""
    return endpoint | count << 4 | 2 * toggle << 15 | status << 17


class ReceiveFifo:
    """Entries of a status word and data words, and what is left of the words of the entry that was popped last."""

    def __init__(self):
        self.entries, self.left = [], []

    def room(self):
        return RECEIVE_DEPTH - len(self.left) - sum(1 + len(words) for _, words in self.entries)

    def push(self, status, data=b""):
        self.entries.append((status, words_of(data)))

    def front(self):
        return self.entries[0][0] if self.entries else 0

    def pop(self):
        """The front entry's status word; what is left of the words of the one before is dropped. 0 where none is."""
        if not self.entries:
            return 0
        status, self.left = self.entries.pop(0)
        return status

    def pop_word(self):
        return self.left.pop(0) if self.left else 0

    def has_setup(self):
        return any(status >> 17 & 15 in (SETUP_DONE, SETUP_CAME) for status, _ in self.entries)

    def empty(self):
        self.entries, self.left = [], []


class TransmitFifo:
    """Whole packets, and one that is still written. A packet takes the room of all its words from its first word on."""

    def __init__(self, depth):
        self.depth = depth
        self.empty()

    def empty(self):
        self.packets, self.begun, self.size = [], b"", 0

    def free(self):
        return self.depth - word_count(self.size) - sum(word_count(len(packet)) for packet in self.packets)

    def push(self, word):
        self.begun += word.to_bytes(4, "little")
        if len(self.begun) >= self.size:
            self.packets.append(self.begun[: self.size])
            self.begun, self.size = b"", 0


class Endpoint:
    """One direction of an endpoint. `control` has the bits of DIEPCTL or DOEPCTL that are read as they were written."""

    def __init__(self, number):
        self.number = number
        self.control = self.interrupts = self.transfer = 0
        self.nak = self.stall = self.enabled = False
        self.toggle = 0

    def packet_size(self):
        """The bytes of a packet; a size that no packet has counts as 64."""
        if self.number == 0:
            return (64, 32, 16, 8)[self.control & 3]
        size = self.control & 0x7FF
        return size if 1 <= size <= PACKET else PACKET

    def read_control(self):
        return self.control | self.nak * NAKSTS | self.stall * STALL | self.enabled * EPENA

    def write_control(self, value, setup_lies):
        """SNAK and EPDIS act before CNAK and EPENA. EPENA and NAKSTS aren't taken away by a 0 that is written."""
        self.control = value & ~(NAKSTS | STALL | EPENA | CNAK | SNAK | SD0PID | EPDIS)
        self.stall = bool(value & STALL)
        if value & SNAK:
            self.nak = True
        if value & EPDIS:
            self.disable()
            self.interrupts |= EPDISD
        if value & SD0PID:
            self.toggle = 0
        if value & CNAK and not (self.number == 0 and setup_lies):
            self.nak = False
        if value & EPENA:
            self.enabled = True

    def disable(self):
        self.enabled = False

    def is_ready(self):
        return self.enabled and not self.nak


class InEndpoint(Endpoint):
    """`uncut` are the bytes of the transfer that aren't in a packet of the FIFO yet."""

    def __init__(self, number):
        super().__init__(number)
        self.fifo = TransmitFifo(TRANSMIT_DEPTHS[number])
        self.uncut = 0

    def size(self):
        return self.transfer & (0x7F if self.number == 0 else 0x7FFFF)

    def count(self):
        return self.transfer >> 19 & (3 if self.number == 0 else 0x3FF)

    def write_transfer(self, value):
        """A write of DIEPTSIZ begins the cut of a transfer into packets."""
        self.transfer = value
        self.uncut = self.size()

    def push(self, word):
        """A word of the window. It is dropped where no packet wants it, and where its packet has no room."""
        if self.fifo.size == 0:
            size = min(self.uncut, self.packet_size())
            if size == 0 or word_count(size) > self.fifo.free():
                return
            self.fifo.size, self.uncut = size, self.uncut - size
        self.fifo.push(word)

    def fifo_is_ready(self):
        """TXFE: the free words of the FIFO hold a packet."""
        return self.fifo.free() >= word_count(self.packet_size())

    def packet(self):
        """What a token gets: the front packet, or the empty one of a transfer of one packet and no bytes."""
        if not self.is_ready() or self.count() == 0:
            return None
        if self.size() == 0:
            return b"" if self.count() == 1 else None
        return self.fifo.packets[0] if self.fifo.packets else None

    def acknowledged(self):
        """The packet leaves. With the last one the transfer is complete, and the endpoint disabled."""
        if self.size() != 0:
            self.fifo.packets.pop(0)
        self.toggle ^= 1
        self.transfer -= 1 << 19
        if self.count() == 0:
            self.interrupts |= XFRC
            self.disable()


class Registers:
    """The controller from the state on in which a driver has opened it: masks, and FIFO sizes one after another."""

    def __init__(self):
        self.receive = ReceiveFifo()
        self.ins, self.outs = [InEndpoint(x) for x in ENDPOINTS], [Endpoint(x) for x in ENDPOINTS]
        self.usbrst = self.enumdne = self.awake = False
        self.unserved = 0
        self.landed = None
        kept = [GRSTCTL, HPTXFSIZ, HCFG, HPRT, DCFG, DCTL, DIEPEMPMSK]
        kept += [at + 0x20 * x for at in (0x500, 0x510) for x in CHANNELS]
        masks = [GINTMSK, HAINTMSK, DIEPMSK, DOEPMSK, DAINTMSK] + [0x50C + 0x20 * x for x in CHANNELS]
        self.kept = dict.fromkeys(kept, 0) | dict.fromkeys(masks, ALL) | {GRXFSIZ: RECEIVE_DEPTH}
        start = RECEIVE_DEPTH
        for x, depth in enumerate(TRANSMIT_DEPTHS):
            self.kept[dieptxf(x) if x else DIEPTXF0] = start | depth << 16
            start += depth

    def parts(self, off):
        """Where the offset is of a register of an endpoint: the endpoint, whether it is IN, and which register."""
        if 0x900 <= off < 0x900 + 0x20 * len(ENDPOINTS):
            return self.ins[(off - 0x900) // 0x20], True, off % 0x20
        if 0xB00 <= off < 0xB00 + 0x20 * len(ENDPOINTS):
            return self.outs[(off - 0xB00) // 0x20], False, off % 0x20
        return None, False, 0

    def read(self, off):
        """The word read there, or None where no register is."""
        if off in self.kept:
            return self.kept[off]
        endpoint, is_in, part = self.parts(off)
        if endpoint is not None:
            return self.read_endpoint(endpoint, is_in, part)
        if off == GRXSTSP:
            return self.pop()
        if off == window(0):
            return self.receive.pop_word()
        computed = {GINTSTS: self.gintsts, GRXSTSR: self.receive.front, DAINT: self.daint}
        if off in computed:
            return computed[off]()
        # nothing of a host comes about here, and what goes out is read at no window
        others = {HAINT, DSTS} | {window(x) for x in ENDPOINTS} | {0x508 + 0x20 * x for x in CHANNELS}
        return 0 if off in others | LACKING else None

    def read_endpoint(self, endpoint, is_in, part):
        if part == 0x00:
            return endpoint.read_control()
        if part == 0x08:
            return endpoint.interrupts | (TXFE if is_in and endpoint.fifo_is_ready() else 0)
        if part == 0x10:
            return endpoint.transfer
        return endpoint.fifo.free() if is_in and part == 0x18 else None

    def pop(self):
        """GRXSTSP: the word, and what taking an entry does. A SETUP is served with the entry that tells its end."""
        word = self.receive.pop()
        endpoint, status = word & 15, word >> 17 & 15
        if status == OUT_DONE:
            self.outs[endpoint].interrupts |= XFRC
        if status == SETUP_DONE:
            self.outs[endpoint].interrupts |= STUP
            self.unserved -= 1
        return word

    def daint(self):
        """IN in the lower half, OUT in the upper one: the endpoints with an interrupt bit under its mask."""
        bits, empty = 0, self.kept[DIEPEMPMSK]
        for x in ENDPOINTS:
            if self.ins[x].interrupts & self.kept[DIEPMSK] or (empty >> x & 1 and self.ins[x].fifo_is_ready()):
                bits |= 1 << x
            if self.outs[x].interrupts & self.kept[DOEPMSK]:
                bits |= 1 << 16 + x
        return bits

    def gintsts(self):
        endpoints = self.daint() & self.kept[DAINTMSK]
        level = bool(self.receive.entries) and not self.receive.left
        return (
            level * RXFLVL
            | self.usbrst * USBRST
            | self.enumdne * ENUMDNE
            | bool(endpoints & 0xFFFF) * IEPINT
            | bool(endpoints >> 16) * OEPINT
        )

    def write(self, off, value):
        """Whether there is a register or a window. What only tells a state stays as it is."""
        endpoint, is_in, part = self.parts(off)
        if endpoint is not None:
            return self.write_endpoint(endpoint, is_in, part, value)
        if off == GINTSTS:
            self.clear(value)
        elif off == GRSTCTL:
            self.flush(value)
        elif off == HPRT:
            # PCSTS, PCDET, PENA and PENCHNG: of a host, and none of them is ever set here
            self.kept[off] = value & ~0xF
        elif off in self.kept:
            self.kept[off] = value
        elif off in [window(x) for x in ENDPOINTS]:
            self.ins[off // 0x1000 - 1].push(value)
        else:
            return off in (GRXSTSR, GRXSTSP) or self.read(off) is not None
        return True

    def write_endpoint(self, endpoint, is_in, part, value):
        if part == 0x00:
            endpoint.write_control(value, self.receive.has_setup())
        elif part == 0x08:
            endpoint.interrupts &= ~value
        elif part == 0x10 and is_in:
            endpoint.write_transfer(value)
        elif part == 0x10:
            endpoint.transfer = value
        else:
            return is_in and part == 0x18
        return True

    def clear(self, value):
        """GINTSTS: a 1 clears USBRST and ENUMDNE. Clearing USBRST wakes the device."""
        if value & USBRST and self.usbrst:
            self.usbrst, self.awake = False, True
        if value & ENUMDNE:
            self.enumdne = False

    def flush(self, value):
        named = value >> 6 & 31
        if value & TXFFLSH:
            for endpoint in self.ins:
                if named in (endpoint.number, EVERY_FIFO):
                    endpoint.fifo.empty()
        if value & RXFFLSH:
            self.receive.empty()
        self.kept[GRSTCTL] = value & ~(RXFFLSH | TXFFLSH)

    def bus(self, event):
        """The answer of a bus event, which is `reset`, `setup`, `out` or `in_` with the fields of its line."""
        kind, *fields = event
        return getattr(self, kind)(*fields)

    def reset(self):
        self.usbrst = self.enumdne = True
        self.awake, self.landed = False, None
        return "ok"

    def hears(self, address, good=True):
        return self.awake and good and address == self.kept[DCFG] >> 4 & 127

    def is_open(self, endpoints, number):
        return number == 0 or (number in ENDPOINTS and endpoints[number].control & USBAEP != 0)

    def setup(self, address, data, good):
        needed = 1 + word_count(len(data)) + 1
        if not self.hears(address, good) or self.unserved == MOST_UNSERVED or self.receive.room() < needed:
            return "none"
        self.receive.push(status_word(0, SETUP_CAME, len(data)), data)
        self.receive.push(status_word(0, SETUP_DONE))
        self.unserved += 1
        self.landed = None
        for endpoint in (self.ins[0], self.outs[0]):
            endpoint.nak, endpoint.stall, endpoint.toggle = True, False, 1
            endpoint.disable()
        self.ins[0].fifo.empty()
        return "ack"

    def out(self, address, number, toggle, data, good):
        if not self.hears(address, good) or not self.is_open(self.outs, number):
            return "none"
        endpoint = self.outs[number]
        if len(data) > endpoint.packet_size():
            return "none"
        if number == 0 and self.receive.has_setup():
            return "nak"
        if endpoint.stall:
            return "stall"
        if number == 0 and toggle == self.landed:
            return "ack"
        if not endpoint.is_ready():
            return "nak"
        if toggle != endpoint.toggle:
            return "ack"
        if self.receive.room() < 1 + word_count(len(data)) + 1:
            return "nak"
        self.land(endpoint, toggle, data)
        return "ack"

    def land(self, endpoint, toggle, data):
        self.receive.push(status_word(endpoint.number, OUT_CAME, len(data), toggle), data)
        self.receive.push(status_word(endpoint.number, OUT_DONE))
        endpoint.toggle ^= 1
        endpoint.nak = True
        endpoint.disable()
        if endpoint.number == 0:
            self.landed = toggle
            self.ins[0].disable()
            self.ins[0].fifo.empty()

    def in_(self, address, number, acknowledged):
        if not self.hears(address) or not self.is_open(self.ins, number):
            return "none"
        endpoint = self.ins[number]
        if number == 0 and self.receive.has_setup():
            return "nak"
        if endpoint.stall:
            return "stall"
        packet = endpoint.packet()
        if packet is None:
            return "nak"
        answer = f"data{endpoint.toggle} {packet.hex() or '-'}"
        if acknowledged:
            endpoint.acknowledged()
        return answer


BUS_LINES = ("reset", "setup", "out", "in_")
ACCESS = re.compile(r"([rw]) ([0-9a-f]{4}) ([0-9a-f]{8})")


class Trace(Exception):
    """What at a trace isn't a run of the table."""


def step(registers, line):
    """Goes one register line on."""
    read = ACCESS.fullmatch(line)
    if read is None:
        raise Trace("is no register line")
    off, value = int(read[2], 16), int(read[3], 16)
    if read[1] == "w":
        if not registers.write(off, value):
            raise Trace("writes where no register is")
        return
    expected = registers.read(off)
    if expected is None:
        raise Trace("reads where no register is")
    if expected != value:
        raise Trace(f"reads another word than {expected:08x}")


def check_trace(schedule, trace, answers):
    """The number of accesses in the trace of a schedule, where the trace is a run of the table that gives the answers.

    Raises `Trace` where it isn't one. The schedule is a list of lines as tuples of a name and its fields.
    """
    registers, lines, told = Registers(), trace.splitlines(), answers.splitlines()
    accesses = at = 0
    if len(told) != len(schedule):
        raise Trace(f"{len(told)} answers to {len(schedule)} lines")
    for number, (event, answer) in enumerate(zip(schedule, told), 1):
        place = f"line {number} of the schedule ({event[0].strip('_')})"
        before = 0
        while at < len(lines) and lines[at][:2] in ("r ", "w "):
            try:
                step(registers, lines[at])
            except Trace as wrong:
                raise Trace(f"{place}: access {before + 1}, `{lines[at]}`, {wrong}") from None
            before, at = before + 1, at + 1
        if before > MOST_ACCESSES:
            raise Trace(f"{place}: {before} accesses")
        if at == len(lines) or lines[at] != answer:
            raise Trace(f"{place}: the trace has not the answer `{answer}`")
        if event[0] in BUS_LINES:
            expected = registers.bus(event)
            if before or expected != answer:
                raise Trace(f"{place}: {before} accesses and `{answer}`, and not none and `{expected}`")
        accesses, at = accesses + before, at + 1
    if at != len(lines):
        raise Trace(f"the trace goes on after the last answer with `{lines[at]}`")
    return accesses
