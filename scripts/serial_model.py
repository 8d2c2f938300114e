"""A device's serial port, by docs/MODEL.md, with no code of the crates."""

from descriptor_model import INTERRUPT
from pipe_model import FULL

CODING = (115200).to_bytes(4, "little") + bytes([0, 0, 8])


class SerialPort:
    """`interface` is the number of the communication interface. In a session `data_in`, `data_out` and `notices` are its pipes."""

    def __init__(self, interface):
        self.interface = interface
        self.closed()

    def room(self, kind):
        return 16 if kind == INTERRUPT else 256

    def closed(self):
        self.data_in = self.data_out = self.notices = None
        self.coding, self.dtr, self.rts, self.whole = CODING, 0, 0, False

    def opened(self, pipes):
        self.closed()
        self.data_in, self.data_out, self.notices = pipes

    def request(self, setup):
        """The data of a request, `status` where it has none, the bytes that it takes, and None where it is refused."""
        asked, length = tuple(setup[:2]), int.from_bytes(setup[6:], "little")
        if setup[4] != self.interface:
            return None
        if asked == (0x21, 0x20) and length == 7:
            return 7
        if asked == (0xA1, 0x21):
            return self.coding
        if asked == (0x21, 0x22) and length == 0:
            self.dtr, self.rts = setup[2] & 1, setup[2] >> 1 & 1
            return "status"
        return None

    def takes(self, data):
        good = len(data) == 7 and data[4] <= 2 and data[5] <= 4 and data[6] in (5, 6, 7, 8, 16)
        if good:
            self.coding = data
        return good

    def came(self, pipe):
        pass

    def ended(self, pipe, count):
        if pipe is self.data_in:
            self.whole = count > 0 and count % FULL == 0

    def cleared(self, pipe):
        pass

    def work(self):
        if self.data_in is None:
            return
        if self.data_out.seen() == "rest" and self.data_out.room() >= FULL:
            self.data_out.phase = "armed"
        if self.whole and self.data_in.seen() == "rest" and not self.data_in.queue:
            self.data_in.start()
        self.whole = False

    def call(self, verb, *values):
        if self.data_in is None:
            return "closed"
        return getattr(self, "call_" + verb)(*values)

    def call_write(self, data):
        return f"took {self.data_in.write(data)}"

    def call_read(self, most):
        return f"got {self.data_out.read(most).hex() or '-'}"

    def call_avail(self):
        return f"held {len(self.data_out.held)}"

    def call_line(self):
        rate = int.from_bytes(self.coding[:4], "little")
        return "line " + " ".join(map(str, (rate, *self.coding[4:], self.dtr, self.rts)))

    def call_flush(self):
        return self.begin(self.data_in, b"")

    def call_notify(self, bits):
        return self.begin(self.notices, bytes([0xA1, 0x20, 0, 0, self.interface, 0, 2, 0]) + bits.to_bytes(2, "little"))

    def begin(self, pipe, data):
        """Starts a transfer of what is queued behind these bytes, where there is anything."""
        seen = pipe.seen()
        if seen != "rest":
            return "halted" if seen == "halted" else "busy"
        pipe.write(data)
        if pipe.queue:
            pipe.start()
        return "done"
