"""The commands of a disk, by SPC-2 and SBC-2 as far as a device here has them, with no code of the crates."""

BLOCK = 512
# sense keys with their additional sense codes and qualifiers (SPC-2, 7.20)
NO_SENSE = (0x0, 0x00, 0)
NO_MEDIUM = (0x2, 0x3A, 0)
READ_ERROR = (0x3, 0x11, 0)
WRITE_ERROR = (0x3, 0x0C, 0)
UNKNOWN_COMMAND = (0x5, 0x20, 0)
OUT_OF_RANGE = (0x5, 0x21, 0)
WRONG_FIELD = (0x5, 0x24, 0)
MAY_NOT_LEAVE = (0x5, 0x53, 2)
MEDIUM_CHANGED = (0x6, 0x28, 0)
WRITE_PROTECTED = (0x7, 0x27, 0)
# the codes of commands
TEST_UNIT_READY, REQUEST_SENSE, INQUIRY, MODE_SENSE, START_STOP, PREVENT = 0x00, 0x03, 0x12, 0x1A, 0x1B, 0x1E
FORMAT_CAPACITIES, CAPACITY, READ, WRITE, VERIFY, SYNCHRONIZE = 0x23, 0x25, 0x28, 0x2A, 0x2F, 0x35
ABOUT = b"\x00\x80\x02\x02\x1f\x00\x00\x00" + b"usbrun  " + b"block file      " + b"0001"


class Failed(Exception):
    """A command ends with this sense."""


def number(data):
    return int.from_bytes(data, "big")


def sense_data(key, code, qualifier):
    """Fixed format sense data (SPC-2, 7.20.2)."""
    return bytes([0x70, 0, key, 0, 0, 0, 0, 10, 0, 0, 0, 0, code, qualifier, 0, 0, 0, 0])


class Unit:
    """A disk of so many blocks, 0 where none was given: its medium, and what commands left."""

    def __init__(self, blocks):
        self.blocks, self.present = blocks, blocks > 0
        self.protected = self.prevented = self.attention = False
        self.sense = NO_SENSE

    def begin(self):
        """A session begins. The medium, its protection and the attention stay."""
        self.prevented, self.sense = False, NO_SENSE

    def insert(self):
        if self.blocks:
            self.present = True

    def command(self, block):
        """What a command of 16 bytes is to move, with what it needs: nothing (`none`, `sync`, `fail`), the bytes of `in`, or the first
        block and the number of blocks of `read` and `write`."""
        if block[0] == REQUEST_SENSE:
            return "in", self.told_sense()[: block[4]]
        self.sense = NO_SENSE
        try:
            if block[0] != INQUIRY:
                self.see_ready(block)
            return self.row(block)
        except Failed as why:
            self.sense = why.args[0]
            return ("fail",)

    def told_sense(self):
        told, self.sense = self.sense, NO_SENSE
        if told == NO_SENSE and self.attention:
            told, self.attention = MEDIUM_CHANGED, False
        return sense_data(*told)

    def see_ready(self, block):
        """What fails before a command looks at its own fields, in this order."""
        if self.attention:
            self.attention = False
            raise Failed(MEDIUM_CHANGED)
        if not self.present and block[0] not in (START_STOP, PREVENT):
            raise Failed(NO_MEDIUM)
        if block[0] in (READ, WRITE, VERIFY) and number(block[2:6]) + number(block[7:9]) > self.blocks:
            raise Failed(OUT_OF_RANGE)
        if block[0] == WRITE and self.protected:
            raise Failed(WRITE_PROTECTED)

    def row(self, block):
        rows = {
            TEST_UNIT_READY: lambda _: ("none",),
            INQUIRY: self.about,
            MODE_SENSE: lambda _: ("in", bytes([3, 0, 0x80 * self.protected, 0])[: block[4]]),
            START_STOP: self.start_stop,
            PREVENT: self.prevent,
            FORMAT_CAPACITIES: self.capacities,
            CAPACITY: lambda _: ("in", (self.blocks - 1).to_bytes(4, "big") + BLOCK.to_bytes(4, "big")),
            READ: lambda _: ("read", number(block[2:6]), number(block[7:9])),
            WRITE: lambda _: ("write", number(block[2:6]), number(block[7:9])),
            VERIFY: self.verify,
            SYNCHRONIZE: lambda _: ("sync",),
        }
        if block[0] not in rows:
            raise Failed(UNKNOWN_COMMAND)
        return rows[block[0]](block)

    def about(self, block):
        if block[1] & 1:
            raise Failed(WRONG_FIELD)
        return "in", ABOUT[: number(block[3:5])]

    def start_stop(self, block):
        if block[4] == 2:
            if self.prevented:
                raise Failed(MAY_NOT_LEAVE)
            self.present = False
        elif block[4] == 3:
            self.insert()
        return ("none",)

    def prevent(self, block):
        self.prevented = bool(block[4] & 1)
        return ("none",)

    def capacities(self, block):
        data = bytes([0, 0, 0, 8]) + self.blocks.to_bytes(4, "big") + bytes([2, 0, 2, 0])
        return "in", data[: number(block[7:9])]

    def verify(self, block):
        if block[1] & 2:
            raise Failed(WRONG_FIELD)
        return ("none",)
