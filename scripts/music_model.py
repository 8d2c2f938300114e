"""A device's MIDI port, by docs/MODEL.md, with no code of the crates."""

from pipe_model import FULL

EVENT = 4
# the bytes that an event carries, by its code index (USB MIDI 1.0, table 4-1)
CARRIED = {1: (5, 15), 2: (2, 6, 12, 13), 3: (3, 4, 7, 8, 9, 10, 11, 14)}
COMMON = {0xF1: (2, 1), 0xF3: (2, 1), 0xF2: (3, 2)}


def event(index, data):
    return bytes([index]) + data + bytes(3 - len(data))


def unpacked(packet):
    size = next((n for n, indices in CARRIED.items() if packet[0] & 15 in indices), 0)
    return packet[1 : 1 + size]


class Packer:
    """A stream of bytes that becomes events: the running status, and what no event has carried yet."""

    def __init__(self):
        self.running, self.index, self.wanted, self.kept = None, None, 0, b""

    def begin(self, index, wanted, byte):
        self.index, self.wanted, self.kept = index, wanted, bytes([byte])

    def push(self, byte):
        """The event that this byte makes whole, or None."""
        if byte >= 0xF8:
            return event(15, bytes([byte]))
        return self.status(byte) if byte >= 0x80 else self.data(byte)

    def status(self, byte):
        if byte == 0xF7 and self.index == "sysex":
            data = self.kept + b"\xf7"
            self.__init__()
            return event(4 + len(data), data)
        self.__init__()
        if byte < 0xF0:
            self.running = byte
            self.begin(byte >> 4, 1 if 0xC0 <= byte < 0xE0 else 2, byte)
        elif byte == 0xF0:
            self.begin("sysex", None, byte)
        elif byte in COMMON:
            self.begin(*COMMON[byte], byte)
        elif byte == 0xF6:
            return event(5, b"\xf6")
        return None

    def data(self, byte):
        if self.index is None:
            if self.running is None:
                return None
            self.begin(self.running >> 4, 1 if 0xC0 <= self.running < 0xE0 else 2, self.running)
        self.kept += bytes([byte])
        if self.index == "sysex":
            if len(self.kept) < 3:
                return None
            data, self.kept = self.kept, b""
            return event(4, data)
        if len(self.kept) <= self.wanted:
            return None
        made, self.index = event(self.index, self.kept), None
        return made


class MusicPort:
    """In a session `data_in` and `data_out` are its pipes."""

    def __init__(self):
        self.closed()

    def room(self, _kind):
        return 256

    def closed(self):
        self.data_in = self.data_out = None
        self.packer = Packer()

    def opened(self, pipes):
        self.closed()
        self.data_in, self.data_out = pipes[:2]

    def request(self, setup):
        return None

    def takes(self, data):
        return False

    def came(self, pipe):
        pass

    def ended(self, pipe, count):
        pass

    def cleared(self, pipe):
        pass

    def work(self):
        if self.data_in is None:
            return
        if self.data_out.seen() == "rest" and self.data_out.room() >= FULL:
            self.data_out.phase = "armed"
        if self.data_in.seen() == "rest" and self.data_in.queue:
            self.data_in.start()

    def call(self, verb, *values):
        return getattr(self, "call_" + verb)(*values)

    def call_send(self, data):
        count = 0
        while count < len(data) and self.data_in.room() >= EVENT:
            self.data_in.write(self.packer.push(data[count]) or b"")
            count += 1
        return f"took {count}"

    def taken(self, most):
        data = self.data_out.read(EVENT * min(most, len(self.data_out.held) // EVENT))
        return [data[at : at + EVENT] for at in range(0, len(data), EVENT)]

    def call_recv(self, most):
        return f"events {b''.join(self.taken(most)).hex() or '-'}"

    def call_bytes(self, most):
        return f"got {b''.join(map(unpacked, self.taken(most))).hex() or '-'}"
