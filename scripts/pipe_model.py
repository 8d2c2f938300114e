"""The data pipes of a device, by docs/MODEL.md, with no code of the crates."""

FULL = 64


class OutPipe:
    """A pipe for packets from the host. `stale` says that a dropped packet lies in the receive FIFO as it opens."""

    def __init__(self, size, capacity, stale):
        self.size, self.capacity = size, capacity
        self.phase = "stale" if stale else "rest"
        self.halted, self.toggle = False, 0
        self.landed = self.held = b""

    def packet(self, toggle, data):
        if self.halted:
            return "stall"
        if self.phase != "armed":
            return "nak"
        if toggle == self.toggle:
            self.phase, self.landed, self.toggle = "landed", data, self.toggle ^ 1
        return "ack"

    def irq(self):
        if self.phase == "landed":
            self.held, self.phase = self.held + self.landed, "posted"
        elif self.phase == "stale":
            self.phase = "rest"

    def task(self):
        """Whether a packet came."""
        came = self.phase == "posted"
        if came:
            self.phase = "rest"
        return came

    def seen(self):
        """What the class sees of it."""
        if self.halted:
            return "halted"
        return self.phase if self.phase in ("rest", "posted") else "running"

    def room(self):
        return self.capacity - len(self.held)

    def read(self, most):
        data, self.held = self.held[:most], self.held[most:]
        return data

    def clear(self):
        self.halted, self.toggle = False, 0

    def drop(self):
        self.held = b""


class InPipe:
    """A pipe for packets to the host."""

    def __init__(self, size, capacity):
        self.size, self.capacity = size, capacity
        self.queue, self.phase = b"", "rest"
        self.running, self.left, self.loaded = 0, [], 0
        self.toggle, self.halted = 0, False

    def token(self, acknowledged):
        if self.halted:
            return "stall"
        if not self.loaded:
            return "nak"
        answer = f"data{self.toggle} {self.left[0].hex() or '-'}"
        if acknowledged:
            self.left, self.loaded, self.toggle = self.left[1:], self.loaded - 1, self.toggle ^ 1
        return answer

    def irq(self):
        if self.phase != "running":
            return
        if not self.left:
            self.queue, self.phase = self.queue[self.running :], "posted"
        elif not self.loaded:
            self.loaded = min(2, len(self.left))

    def task(self):
        """The bytes of a transfer that ended, or None."""
        if self.phase != "posted":
            return None
        self.phase = "rest"
        return self.running

    def seen(self):
        return "halted" if self.halted else self.phase

    def room(self):
        return self.capacity - len(self.queue)

    def write(self, data):
        taken = data[: self.room()]
        self.queue += taken
        return len(taken)

    def start(self):
        self.phase, self.running = "running", len(self.queue)
        self.left = [self.queue[at : at + self.size] for at in range(0, len(self.queue), self.size)] or [b""]

    def clear(self):
        if self.phase == "running":
            self.queue = self.queue[self.running :]
        self.phase, self.left, self.loaded = "rest", [], 0
        self.halted, self.toggle = False, 0

    def drop(self):
        self.queue, self.phase, self.left, self.loaded = b"", "rest", [], 0
