#!/usr/bin/env python3
"""Writes a sound image of ten entries, and images that are not sound, into the folder named on the command line.

docs/FORMATS.md tells the bytes of a block and of an entry.
"""
import struct
import sys
from pathlib import Path


def entry(group, kind, order_type, order, broker, account, quantity, price, trade, running, of_type):
    """The 72 bytes of an entry; `running` and `of_type` are each a quantity and an amount in cents."""
    return (bytes([group, 0, kind, order_type]) + order + broker
            + struct.pack("<IIIIIQIQ", account, quantity, price, trade, *running, *of_type) + bytes(19))


def seal(block):
    """Makes the checksum of a block right."""
    total = sum(byte * (place + 1) for place, byte in enumerate(block[:508]))
    block[508:] = struct.pack("<I", total)


def block(number, entries):
    """A sealed block of some entries."""
    made = bytearray(512)
    made[:4] = struct.pack("<HH", len(entries), number)
    made[4:4 + 72 * len(entries)] = b"".join(entries)
    seal(made)
    return made


def ten_entries():
    """Nine entries of board lots of a plan, 1,000 shares to a unit, and one of odd lots in an omnibus account."""
    entries = []
    quantity = amount = 0
    for i in range(1, 10):
        price = 5000 + i
        quantity += i
        amount += i * 1000 * price
        entries.append(entry(0, 0, 0, b"A%04d" % i, b"9801", i, i, price, 90000000 + i - 1, (quantity, amount), (0, 0)))
    odd = (120, 148080)
    entries.append(entry(1, 2, 1, b"B0001", b"    ", 7654321, 120, 1234, 94000000, odd, odd))
    return entries


def sound():
    entries = ten_entries()
    return [block(0, entries[:7]), block(1, entries[7:]), block(2, [])]


def with_byte(place, value):
    """The sound image with one byte of block 1 changed, and its checksum right again."""
    blocks = sound()
    blocks[1][place] = value
    seal(blocks[1])
    return blocks


def gap():
    """Block 0 holds six entries, and block 1 one."""
    entries = ten_entries()
    return [block(0, entries[:6]), block(1, entries[6:7]), block(2, [])]


def checksum():
    """The checksum of block 1 is one too high."""
    blocks = sound()
    stored, = struct.unpack("<I", blocks[1][508:])
    blocks[1][508:] = struct.pack("<I", stored + 1)
    return blocks


IMAGES = {
    "sound": sound(),
    "damaged": with_byte(500, 7),  # past the last entry
    "gap": gap(),
    "count": with_byte(0, 9),
    "number": with_byte(2, 2),
    "checksum": checksum(),
    "filler": with_byte(4 + 72 + 1, 1),  # byte 1 of entry 8, the second in block 1
}

folder = Path(sys.argv[1])
folder.mkdir(parents=True, exist_ok=True)
for name, blocks in IMAGES.items():
    (folder / (name + ".img")).write_bytes(b"".join(blocks))
