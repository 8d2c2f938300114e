#!/usr/bin/env python3
"""A job of about so many lines: jobs.py KIND LINES

    enumeration    an enumeration again and again
    received       a serial port takes packets of 64 bytes, and its application reads them
    sent           its application writes 64 bytes, and the host gets them with the empty packet behind them
    reports        a keyboard sends a report of 8 bytes, and the host gets it
    music          a MIDI port takes a packet of 16 events, its application reads them and sends the bytes of 16 more
    reading        a disk of at least 16 blocks gets READ(10) of 8 blocks
    writing        it gets WRITE(10) of 8 blocks

Handler runs and tasks come only where they have something to do, so that idle ones don't make a line look cheap.
"""

import sys

DEVICE = "device 1201000200000040feca0140000100000001\n"
PLAIN = DEVICE + "config 0902120001010080320904000000ff000000\nbegin\n"
SERIAL = (
    DEVICE
    + "config 09023500020100803209040000010202000005240600010705810310001009040100020a0000000705020240000007058202400000\n"
    + "begin\n"
)
KEYBOARD = (
    DEVICE
    + "config 090222000101008032090400000103010100092111010001223f000705810308000a\n"
    + "report 05010906a101050719e029e71500250175019508810295017508810195057501050819012905910295017503910195067508150025650507190029658100c0\n"
    + "begin\n"
)
MIDI = (
    DEVICE
    + "config 0902350001010080320904000002010300000724010001230009050102400000000005250101010905820240000000000525010101\n"
    + "begin\n"
)
STORAGE = DEVICE + "config 0902200001010080320904000002080650000705010240000007058102400000\nbegin\n"
RESET = "reset\nirq\n"
BYTES = bytes(range(64)).hex()


def reading(address, setup):
    """A control transfer with one packet of data for the host. Its last two stages are worked in one turn."""
    return f"setup {address} {setup} ok\nirq\ntask\nirq\nin {address} 0 ok\nout {address} 0 1 - ok\nirq\ntask\n"


def order(address, setup):
    """A control transfer without data."""
    return f"setup {address} {setup} ok\nirq\ntask\nirq\nin {address} 0 ok\nirq\ntask\n"


SESSION = RESET + order(0, "0005010000000000") + order(1, "0009010000000000")
ENUMERATION = (
    RESET
    + reading(0, "8006000100004000")
    + RESET
    + order(0, "0005010000000000")
    + reading(1, "8006000100001200")
    + reading(1, "8006000200000900")
    + reading(1, "8006000200001200")
    + order(1, "0009010000000000")
)
RECEIVED = "".join(f"out 1 2 {toggle} {BYTES} ok\nirq\ntask\ncdc read 64\n" for toggle in (0, 1))
SENT = f"cdc write {BYTES}\ncdc flush\nirq\nin 1 2 ok\nirq\ntask\nirq\nin 1 2 ok\nirq\ntask\n"

REPORTS = "hid report 0000040000000000\nirq\nin 1 1 ok\nirq\ntask\n"
NOTES = bytes([9, 0x90, 60, 127] * 16).hex()
CHORD = (bytes([0x90]) + bytes([60, 127] * 16)).hex()
MUSIC = "".join(
    f"out 1 1 {toggle} {NOTES} ok\nirq\ntask\nmidi recv 16\nmidi send {CHORD}\ntask\nirq\nin 1 2 ok\nirq\ntask\n" for toggle in (0, 1)
)

# what a disk's command of 8 blocks from block 8 on is in front of its 16 command bytes, and the packets of a block
WRAPPED, BLOCKS, PER_BLOCK = "555342430100000000100000{}000a{}0000000008000008" + "00" * 7, 8, 8
STATUS = "irq\nin 1 1 ok\nirq\ntask\n"


def to_disk(toggle, data):
    return f"out 1 1 {toggle} {data} ok\nirq\ntask\n"


def reading_blocks(toggle):
    """A READ(10): two packets are loaded at a time, and each block is a transfer."""
    block = "irq\nin 1 1 ok\nin 1 1 ok\n" * (PER_BLOCK // 2) + "irq\ntask\n"
    return to_disk(toggle, WRAPPED.format("80", "28")) + block * BLOCKS + STATUS


def writing_blocks(toggle):
    """A WRITE(10): the packets behind the wrapper have the other toggle first."""
    packets = (to_disk((toggle + 1 + n) & 1, BYTES) for n in range(BLOCKS * PER_BLOCK))
    return to_disk(toggle, WRAPPED.format("00", "2a")) + "".join(packets) + STATUS


READING = reading_blocks(0) + reading_blocks(1)
WRITING = writing_blocks(0) + writing_blocks(1)

# the lines before the rounds, and those of a round
JOBS = {
    "enumeration": (PLAIN, ENUMERATION),
    "received": (SERIAL + SESSION, RECEIVED),
    "sent": (SERIAL + SESSION, SENT),
    "reports": (KEYBOARD + SESSION, REPORTS),
    "music": (MIDI + SESSION, MUSIC),
    "reading": (STORAGE + SESSION, READING),
    "writing": (STORAGE + SESSION, WRITING),
}

first, each = JOBS[sys.argv[1]]
sys.stdout.write(first)
for _ in range(int(sys.argv[2]) // each.count("\n")):
    sys.stdout.write(each)
sys.stdout.write("end\n")
