"""A device's HID class, a keyboard or a mouse, by docs/MODEL.md, with no code of the crates."""

INPUT, OUTPUT, FEATURE = 1, 2, 3
MOST = 64


class HumanInterface:
    """`lengths` has the bytes of the input, output and feature report of each id. In a session `data_in` and `data_out` are its pipes."""

    def __init__(self, lengths):
        self.lengths = lengths
        self.closed()

    def room(self, _kind):
        return 64

    def closed(self):
        self.data_in = self.data_out = self.due = None
        self.last, self.given, self.idle, self.protocol = {}, None, 0, 1

    def opened(self, pipes):
        self.closed()
        self.data_in, self.data_out = pipes[:2]

    def size(self, sort, number):
        """The bytes of a report with its id, or None where there is none."""
        if number not in self.lengths or sort not in (INPUT, OUTPUT, FEATURE):
            return None
        length = self.lengths[number][sort - 1]
        return length + (number != 0) if length else None

    def request(self, setup):
        """The data of a request, `status` where it has none, the bytes that it takes, and None where it is refused."""
        asked, value, length = tuple(setup[:2]), int.from_bytes(setup[2:4], "little"), int.from_bytes(setup[6:], "little")
        if asked == (0xA1, 1):
            return self.told(value >> 8, value & 255)
        if asked in ((0xA1, 2), (0xA1, 3)):
            return bytes([self.idle if asked[1] == 2 else self.protocol])
        if asked == (0x21, 9) and value >> 8 != INPUT and length <= MOST and self.size(value >> 8, value & 255) == length:
            self.due = value >> 8, value & 255, length
            return length
        if asked == (0x21, 10) and length == 0:
            self.idle = value >> 8
            return "status"
        if asked == (0x21, 11) and length == 0 and value <= 1:
            self.protocol = value
            return "status"
        return None

    def told(self, sort, number):
        """The report that was sent last, or zeros behind its id."""
        size = self.size(sort, number)
        if size is None:
            return None
        if sort == INPUT and number in self.last:
            return self.last[number]
        if self.given and self.given[:2] == (sort, number):
            return self.given[2]
        return bytes([number] if number else []) + bytes(size - (number != 0))

    def takes(self, data):
        good = len(data) == self.due[2]
        if good:
            self.given = *self.due[:2], data
        return good

    def came(self, pipe):
        pass

    def ended(self, pipe, count):
        pass

    def cleared(self, pipe):
        pass

    def work(self):
        if self.data_out is not None and self.data_out.seen() == "rest" and not self.data_out.held:
            self.data_out.phase = "armed"

    def call(self, verb, *values):
        return getattr(self, "call_" + verb)(*values)

    def call_report(self, data):
        number = data[0] if any(self.lengths) else 0
        if self.size(INPUT, number) != len(data):
            return "badlength"
        seen = self.data_in.seen()
        if seen != "rest":
            return "halted" if seen == "halted" else "busy"
        self.last[number] = data
        self.data_in.write(data)
        self.data_in.start()
        return "done"

    def call_take(self):
        if self.data_out is None or not self.data_out.held:
            return "none"
        return f"report {self.data_out.read(MOST).hex()}"

    def call_set(self):
        return "none" if self.given is None else f"set {self.given[0]} {self.given[2].hex()}"

    def call_idle(self):
        return f"idle {self.idle} {self.protocol}"
