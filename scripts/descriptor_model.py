"""Which descriptor sets are accepted, by docs/FORMATS.md, with no code of the crates."""

IN_TOP = OUT_TOP = 3
BULK, INTERRUPT = 2, 3


class Interface:
    """An interface with what comes after it."""

    def __init__(self, place, data):
        self.place, self.data, self.endpoints, self.others = place, data, [], []

    def is_a(self, *codes):
        return tuple(self.data[5 : 5 + len(codes)]) == codes


def is_in(endpoint):
    return endpoint[2] >= 128


def kind(endpoint):
    return endpoint[3] & 3


def row_of(config):
    """The descriptors behind the configuration's own, with their places, and where they end."""
    at, row = 9, []
    while at < len(config) and config[at] >= 2 and at + config[at] <= len(config):
        row.append((at, config[at : at + config[at]]))
        at += config[at]
    return row, at


def left_of(row):
    """The row without alternate settings other than 0."""
    left, skipped = [], False
    for place, data in row:
        if data[1] == 4:
            skipped = data[3] != 0
        if not skipped:
            left.append((place, data))
    return left


def grouped(left):
    """What stands before the first interface, and the interfaces."""
    before, interfaces = [], []
    for place, data in left:
        if data[1] == 4:
            interfaces.append(Interface(place, data))
        elif not interfaces:
            before.append((place, data))
        elif data[1] == 5:
            interfaces[-1].endpoints.append((place, data))
        else:
            interfaces[-1].others.append((place, data))
    return before, interfaces


def has_pair(interface):
    """Exactly one bulk endpoint in each direction, and no other."""
    ends = [e for _, e in interface.endpoints]
    return len(ends) == 2 and all(kind(e) == BULK for e in ends) and is_in(ends[0]) != is_in(ends[1])


def first(interfaces, *codes):
    return next((i for i in interfaces if i.is_a(*codes)), None)


def serial_group(interfaces):
    """The communication interface and the data interface of the serial port that is driven, or None (CDC 1.2, 5.2.3.2)."""
    group = first(interfaces, 2, 2)
    for _, d in group.others if group else []:
        if d[0] >= 5 and d[1] == 0x24 and d[2] == 6 and d[3] == group.data[2]:
            data = [i for i in interfaces if i.data[2] == d[4] and i.is_a(0x0A)]
            if data:
                return group, data[0]
    return None


def serial_is_good(interfaces):
    if first(interfaces, 2, 2) is None:
        return True
    group = serial_group(interfaces)
    if group is None:
        return False
    ends = [e for _, e in group[0].endpoints]
    return len(ends) == 1 and is_in(ends[0]) and kind(ends[0]) == INTERRUPT and has_pair(group[1])


def is_hid_descriptor(d):
    """A HID descriptor of a report descriptor (HID 1.11, 6.2.1)."""
    return d[1] == 0x21 and d[0] >= 9 and d[6] == 0x22 and 1 <= d[7] + 256 * d[8] <= 512


def hid_descriptor(interfaces):
    """The HID descriptor of the first HID interface, whole, or None."""
    group = first(interfaces, 3)
    return next((d for _, d in group.others if is_hid_descriptor(d)), None) if group else None


def reports_are_good(interfaces):
    group = first(interfaces, 3)
    if group is None:
        return True
    described = any(is_hid_descriptor(d) for _, d in group.others)
    ends = [e for _, e in group.endpoints]
    ins = [e for e in ends if is_in(e)]
    return described and all(kind(e) == INTERRUPT for e in ends) and len(ins) == 1 and len(ends) - len(ins) <= 1


MOST_IDS, MOST_PUSHED, MOST_BITS = 8, 4, 512
REPORT_SIZE, REPORT_ID, REPORT_COUNT, PUSH, POP = 7, 8, 9, 10, 11
INPUT, OUTPUT, COLLECTION, FEATURE, END_COLLECTION = 8, 9, 10, 11, 12


class Items:
    """The items of a report descriptor so far (HID 1.11, 6.2.2): the bits of each id by main item."""

    def __init__(self):
        self.size = self.id = self.count = self.open = 0
        self.pushed, self.bits = [], {}

    def take(self, kind, tag, value):
        """Whether an item may stand here."""
        if kind == 0:
            return self.main(tag)
        return kind != 1 or self.set(tag, value)

    def main(self, tag):
        if tag == COLLECTION:
            self.open += 1
        elif tag == END_COLLECTION:
            self.open -= 1
        elif tag in (INPUT, OUTPUT, FEATURE):
            return self.field(tag)
        return self.open >= 0

    def field(self, tag):
        if self.id == 0 and any(self.bits):
            return False
        lengths = self.bits.setdefault(self.id, {INPUT: 0, OUTPUT: 0, FEATURE: 0})
        lengths[tag] += self.size * self.count
        return len(self.bits) <= MOST_IDS and lengths[tag] + (8 if self.id else 0) <= MOST_BITS

    def set(self, tag, value):
        if tag == REPORT_SIZE:
            self.size = value
        elif tag == REPORT_COUNT:
            self.count = value
        elif tag == REPORT_ID:
            self.id = value
            return 1 <= value <= 255 and 0 not in self.bits
        elif tag == PUSH:
            self.pushed.append((self.size, self.id, self.count))
            return len(self.pushed) <= MOST_PUSHED
        elif tag == POP:
            if not self.pushed:
                return False
            self.size, self.id, self.count = self.pushed.pop()
        return True


def report_lengths(report):
    """The bytes of the input, output and feature report of each id, without the id's own, or None where they can't be told."""
    items, at = Items(), 0
    while at < len(report):
        prefix = report[at]
        size = (0, 1, 2, 4)[prefix & 3]
        data = report[at + 1 : at + 1 + size]
        if prefix == 0xFE or len(data) < size:
            return None
        if not items.take(prefix >> 2 & 3, prefix >> 4, int.from_bytes(data, "little")):
            return None
        at += 1 + size
    if items.open:
        return None
    return {n: tuple((bits[tag] + 7) // 8 for tag in (INPUT, OUTPUT, FEATURE)) for n, bits in items.bits.items()}


def fits(endpoint, number, length):
    """Whether a report of that id fits an endpoint's packets, where there are both."""
    return endpoint is None or length == 0 or length + (number != 0) <= endpoint[4] + 256 * endpoint[5]


def report_is_good(interfaces, report):
    """A report descriptor is given exactly where there is a HID interface, and is the one that this declares."""
    group = first(interfaces, 3)
    if group is None or report is None:
        return group is None and report is None
    declared, lengths = hid_descriptor(interfaces), report_lengths(report)
    if declared is None or lengths is None or declared[7] + 256 * declared[8] != len(report):
        return False
    ends = [e for _, e in group.endpoints]
    in_, out = (next((e for e in ends if is_in(e) == way), None) for way in (True, False))
    return all(fits(in_, n, lengths[n][0]) and fits(out, n, lengths[n][1]) for n in lengths)


def endpoint_faults(left):
    """The first place at which each of the rules 11 to 13 fails."""
    found, seen = {}, set()
    for place, d in left:
        if d[1] != 5:
            continue
        address, number, size = d[2], d[2] & 15, d[4] + 256 * d[5]
        if address & 0x70 or number == 0 or address in seen or kind(d) not in (BULK, INTERRUPT):
            found.setdefault(11, place)
        seen.add(address)
        if (kind(d) == BULK and size != 64) or (kind(d) == INTERRUPT and not 1 <= size <= 64):
            found.setdefault(12, place)
        if number > (IN_TOP if is_in(d) else OUT_TOP):
            found.setdefault(13, place)
    return found


def count_fault(before, interfaces):
    for place, d in before:
        if d[1] == 5:
            return place
    return next((i.place for i in interfaces if len(i.endpoints) != i.data[4]), None)


def fault_of(device, config, report):
    """The lowest rule that a set breaks, with its place, or None."""
    if len(device) != 18 or device[:2] != b"\x12\x01":
        return 1, 0
    if device[7] != 64:
        return 2, 0
    if device[17] == 0:
        return 3, 0
    if not 9 <= len(config) <= 512 or config[:2] != b"\x09\x02":
        return 4, 0
    if config[2] + 256 * config[3] != len(config):
        return 5, 0
    if config[5] == 0:
        return 6, 0
    row, end = row_of(config)
    if end != len(config):
        return 7, end
    for place, d in row:
        if (d[1] == 4 and d[0] != 9) or (d[1] == 5 and d[0] not in (7, 9)) or (d[1] == 11 and d[0] != 8):
            return 8, place
    left = left_of(row)
    before, interfaces = grouped(left)
    if [i.data[2] for i in interfaces] != list(range(len(interfaces))) or config[4] != len(interfaces):
        return 9, 0
    place = count_fault(before, interfaces)
    if place is not None:
        return 10, place
    found = endpoint_faults(left)
    for rule in (11, 12, 13):
        if rule in found:
            return rule, found[rule]
    for place, d in left:
        if d[1] == 11 and (d[3] == 0 or d[2] + d[3] > len(interfaces)):
            return 14, place
    if not serial_is_good(interfaces):
        return 15, 0
    if not reports_are_good(interfaces):
        return 16, 0
    if not report_is_good(interfaces, report):
        return 17, 0
    pairs = (first(interfaces, 8, 6, 0x50), first(interfaces, 1, 3))
    if any(i is not None and not has_pair(i) for i in pairs):
        return 18, 0
    return None
