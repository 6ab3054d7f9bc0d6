#!/usr/bin/env python3
"""Writes a stream of RECORDS flow records of one key and its reverse to standard output.

    python3 bench/make_flows.py RECORDS

The first half of the records has the key, the second half its reverse. Record k is of one packet, at 1,000 s and k
milliseconds. So each record's mate stands half a list behind it.
"""

import struct
import sys

FIELDS = [(8, 4), (12, 4), (7, 2), (11, 2), (4, 1), (6, 2), (2, 8), (1, 8), (152, 8), (153, 8), (136, 1)]
EACH = 28  # records in a message of 1400 octets


def message(sequence: int, body: bytes) -> bytes:
    return struct.pack(">HHIII", 10, 16 + len(body), 1000, sequence, 1) + body


def main() -> None:
    records = int(sys.argv[1])
    out = sys.stdout.buffer
    template = struct.pack(">HH", 256, len(FIELDS)) + b"".join(struct.pack(">HH", *field) for field in FIELDS)
    out.write(message(0, struct.pack(">HH", 2, 4 + len(template)) + template))
    keys = struct.pack(">IIHHB", 1, 2, 3, 4, 17), struct.pack(">IIHHB", 2, 1, 4, 3, 17)
    for start in range(0, records, EACH):
        body = b""
        for place in range(start, min(start + EACH, records)):
            time = 1_000_000 + place
            body += keys[2 * place >= records] + struct.pack(">HQQQQB", 0, 1, 28, time, time, 4)
        out.write(message(start, struct.pack(">HH", 256, 4 + len(body)) + body))


if __name__ == "__main__":
    main()
