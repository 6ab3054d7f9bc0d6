#!/usr/bin/env python3
"""Writes a capture of 100,000 UDP packets of 100 keys, of random lengths, to standard output.

    python3 checks/hundred_keys.py SEED RUN
"""

import random
import struct
import sys

PACKETS = 100_000
KEYS = 100


def record(number, key, length):
    """The packet record: raw IPv4, a microsecond timestamp, and so many octets of payload."""
    total = 28 + length
    header = struct.pack("<IIII", 1000 + number // 1000, number % 1000 * 1000, total, total)
    ip = struct.pack(">BBHHHBBHII", 0x45, 0, total, 0, 0, 64, 17, 0, 0xC0000201, 0xC0000202)
    return header + ip + struct.pack(">HHHH", 4000 + key, 53, 8 + length, 0) + bytes(length)


def main():
    chance = random.Random(f"{sys.argv[1]} {sys.argv[2]}")
    out = sys.stdout.buffer
    out.write(struct.pack("<IHHiIII", 0xA1B2C3D4, 2, 4, 0, 0, 65535, 101))
    for number in range(PACKETS):
        out.write(record(number, chance.randrange(KEYS), chance.randrange(21)))


main()
