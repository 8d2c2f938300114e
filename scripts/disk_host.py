"""A host that drives a disk at random, and reacts to what a model of the device does: wrappers, data and status of commands, with
lost handshakes, odd packets, clears, resets and sessions between them. It uses no code of the crates."""

import copy

from disk_model import COMMAND_SIGNATURE, MassStorage, moved_by
from scsi_model import BLOCK

PACKET = 64
MOST = 2**32 - 1
# the codes of commands, as often as they come
CODES = [0x28] * 6 + [0x2A] * 7 + [0x1B] * 3 + [0x1E] * 2 + [0x00, 0x03, 0x03, 0x12, 0x1A, 0x23, 0x25, 0x2F, 0x35, 0x35, 0x04, 0xFF]


class DiskHost:
    """`lines` is the job that grows, with a model of the device that has answered it so far."""

    def __init__(self, lines, ends):
        self.lines, self.rng = lines, lines.rng
        self.outward = next(a for a in ends if a < 128)
        self.inward = next(a for a in ends if a >= 128)

    def storage(self):
        return self.lines.device.driven(MassStorage)

    def is_there(self):
        """Whether a session stands that the host can reach."""
        device = self.lines.device
        return device.awake and device.session and device.address == self.lines.address

    def toggle(self):
        """The toggle that the next packet to the disk is to have."""
        pipe = self.lines.device.pipes.get(self.outward)
        return pipe.toggle if pipe else 0

    def is_halted(self, address):
        pipe = self.lines.device.pipes.get(address)
        return pipe is not None and pipe.halted

    def command(self):
        """One command, mostly to its end."""
        rng = self.rng
        if not self.is_there():
            return
        self.make_ready()
        block = self.block()
        self.is_odd, self.disturbed = rng.random() < 0.25, rng.choice([0, 0, 0.02, 0.05, 0.2])
        self.out(self.wrapper(block))
        self.lines.turn()
        for _ in range(rng.choice([3, 40, 80, 120])):
            if not self.is_there() or self.step():
                return

    def make_ready(self):
        """Mostly a medium that is there and may be written."""
        unit, rng = self.storage().unit, self.rng
        for wrong, often, call in ((not unit.present, 0.7, "msc insert"), (unit.protected, 0.5, "msc protect 0"), (True, 0.05, "msc protect 1")):
            if wrong and rng.random() < often:
                self.lines.put(call)

    def block(self):
        """The bytes of a command."""
        rng, unit = self.rng, self.storage().unit
        code = 0x03 if unit.attention and rng.random() < 0.6 else 0x1B if unit.prevented and rng.random() < 0.2 else rng.choice(CODES)
        block = bytearray([code]) + bytes(15)
        if code in (0x03, 0x12, 0x1A):
            block[4] = rng.choice([0, 1, 4, 8, 18, 36, 252, 255])
        if code == 0x12:
            block[1], block[3] = rng.choice([0, 0, 0, 0, 1, 2]), rng.choice([0, 0, 0, 1])
        if code == 0x1B:
            block[4] = rng.choice([0, 1, 2, 2, 3, 3, 0x12])
        if code == 0x1E:
            block[4] = rng.choice([0, 1, 1, 2, 3])
        if code == 0x23:
            block[7:9] = rng.choice([0, 4, 12, 12, 252, 256]).to_bytes(2, "big")
        if code in (0x28, 0x2A, 0x2F):
            block[2:6], block[7:9] = self.place(unit.blocks)
        if code == 0x2F:
            block[1] = rng.choice([0, 0, 2, 4])
        if rng.random() < 0.05:
            block[rng.randrange(16)] = rng.randrange(256)
        return bytes(block)

    def place(self, blocks):
        """A first block and a count, mostly on the disk and small."""
        rng = self.rng
        at = rng.randrange(blocks) if blocks and rng.random() < 0.9 else rng.choice([blocks, blocks + 1, MOST])
        count = rng.choice([0, 1, 1, 1, 1, 2, 2, 3]) if rng.random() < 0.97 else rng.choice([blocks & 0xFFFF, 0xFFFF])
        if at + count > blocks and rng.random() < 0.7:
            at = max(0, blocks - count)
        return at.to_bytes(4, "big"), count.to_bytes(2, "big")

    def wrapper(self, block):
        """A command wrapper whose length is right, longer, shorter or none, in the command's way or the other; or none that is good."""
        rng = self.rng
        way, size = moved_by(copy.deepcopy(self.storage().unit).command(block))
        more, less = size + rng.choice([1, 13, 63, 64, 512, 600]), rng.choice([size - 1, size // 2, size - 64, size - BLOCK])
        wanted = rng.choice([size, size, size, size, more, more, max(less, 0), max(less, 0), 0 if rng.random() < 0.7 else MOST])
        wanted = rng.choice([0, more]) if size == 0 else wanted
        inward = way == "in" if way != "none" else rng.random() < 0.5
        if rng.random() < 0.12:
            inward = not inward
        fields = [rng.randbytes(4), wanted.to_bytes(4, "little"), bytes([0x80 * inward + rng.choice([0, 0, 0, 1])])]
        length = rng.choice([6, 10, 10, 16, 1])
        wrapper = COMMAND_SIGNATURE + b"".join(fields) + bytes([0, length]) + block
        return wrapper if rng.random() < 0.94 else self.bad(wrapper)

    def bad(self, wrapper):
        at, value = self.rng.choice([(0, 0x54), (3, 0), (13, 1), (13, 0x80), (14, 0), (14, 17), (14, 0xFF)])
        changed = wrapper[:at] + bytes([value]) + wrapper[at + 1 :]
        return self.rng.choice([changed, changed, wrapper[:30], wrapper + b"\0", wrapper + bytes(33), b"", b"USBC"])

    def out(self, data):
        """A packet from the host. It may be damaged, have the other toggle, or come again after its handshake was lost."""
        rng = self.rng
        toggle = self.toggle() ^ (rng.random() < 0.02)
        line = f"out {{}} {self.outward} {toggle} {data.hex() or '-'}"
        self.lines.put(*[f"{line} bad"] * (rng.random() < 0.04), f"{line} ok", *[f"{line} ok"] * (rng.random() < 0.05))
        if rng.random() < 0.05:
            self.lines.turn()
            self.lines.put(f"{line} ok")

    def step(self):
        """What a host does next in a command. It answers whether nothing is left to do."""
        rng, state = self.rng, self.storage().state
        if rng.random() < self.disturbed:
            self.disturb()
        elif state == "broken":
            return self.mend()
        elif state == "out":
            self.give()
        elif state == "command":
            return True
        else:
            self.fetch()
        return False

    def give(self):
        """Data of a command."""
        rng = self.rng
        size = rng.choice([0, 1, 8, 31, 60, 63, 64]) if self.is_odd and rng.random() < 0.6 else PACKET
        if self.is_halted(self.outward) and rng.random() < 0.8:
            self.clear(self.outward)
        self.out(rng.randbytes(size))
        self.lines.turn()

    def fetch(self):
        """IN tokens for data and status, and now and then a packet too many."""
        rng = self.rng
        if self.is_halted(self.inward) and rng.random() < 0.8:
            self.clear(self.inward)
        elif rng.random() < 0.06:
            self.out(rng.randbytes(rng.choice([0, 31, PACKET])))
        self.lines.put(*(f"in {{}} {self.inward - 128} {rng.choice(['ok'] * 9 + ['noack'])}" for _ in range(rng.choice([1, 2, 2, 3]))))
        self.lines.turn()

    def mend(self):
        """A recovery (Bulk-Only Transport 5.3.4), or a part of it, or another order. It answers whether the host has done enough."""
        rng = self.rng
        steps = [self.reset, lambda: self.clear(self.inward), lambda: self.clear(self.outward)]
        if rng.random() < 0.3:
            steps = rng.sample(steps, rng.choice([1, 2, 3]))
        for each in steps:
            each()
        self.lines.put(f"in {{}} {self.inward - 128} ok")
        return rng.random() < 0.8

    def order(self, *setup):
        """A request without data, whole or left where it is."""
        setup = bytes(setup).hex()
        whole = [f"setup {{}} {setup} ok", "irq", "task", "irq", "in {} 0 ok", "irq", "task"]
        self.lines.put(*whole if self.rng.random() < 0.9 else whole[: self.rng.randrange(1, 7)])

    def clear(self, address):
        self.order(2, 1, 0, 0, address, 0, 0, 0)

    def reset(self):
        """The class's Reset, now and then with a field that it hasn't (3.1)."""
        value, length = self.rng.choice([(0, 0)] * 8 + [(1, 0), (0, 1)])
        self.order(0x21, 0xFF, value, 0, self.number(), 0, length, 0)

    def reset_bus(self):
        self.lines.put("reset")
        self.lines.address = 0
        self.lines.put("irq")

    def number(self):
        return self.lines.owners["msc"][0]

    def disturb(self):
        """Something that comes at any state."""
        rng, lines = self.rng, self.lines
        ends = [self.inward, self.outward]
        rng.choice(
            [
                lambda: self.clear(self.inward),
                lambda: self.clear(self.inward),
                lambda: self.clear(self.outward),
                lambda: self.order(2, 3, 0, 0, rng.choice(ends), 0, 0, 0),
                lambda: self.order(1, 11, 0, 0, self.number(), 0, 0, 0),
                self.reset,
                self.reset,
                lambda: self.order(0, 9, lines.config[5], 0, 0, 0, 0, 0),
                self.reset_bus,
                lambda: lines.put(lines.msc_call()),
                lines.msc_requests,
                lambda: lines.put("task"),
                lambda: lines.put("irq"),
            ]
        )()
