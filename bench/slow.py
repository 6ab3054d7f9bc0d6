#!/usr/bin/env python3
"""Copies standard input to standard output at a rate.

    python3 bench/slow.py MEGABYTES

It copies MEGABYTES megabytes a second, in pieces of 64 KiB, as a network or a decompressor gives them.
"""

import sys
import time

PIECE = 65_536


def main() -> None:
    rate = float(sys.argv[1]) * 1_000_000
    began = time.monotonic()
    given = 0
    while piece := sys.stdin.buffer.read(PIECE):
        sys.stdout.buffer.write(piece)
        sys.stdout.buffer.flush()
        given += len(piece)
        early = given / rate - (time.monotonic() - began)
        if early > 0:
            time.sleep(early)


if __name__ == "__main__":
    main()
