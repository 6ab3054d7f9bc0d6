#!/usr/bin/env python3
"""Takes datagrams at a port of this host and drops them, until it is ended.

    python3 bench/discard.py PORT

It writes a line once it listens.
"""

import socket
import sys


def main() -> None:
    with socket.socket(socket.AF_INET, socket.SOCK_DGRAM) as taken:
        taken.setsockopt(socket.SOL_SOCKET, socket.SO_RCVBUF, 1 << 22)
        taken.bind(("127.0.0.1", int(sys.argv[1])))
        print("listens", flush=True)
        room = bytearray(65536)
        while True:
            taken.recv_into(room)


if __name__ == "__main__":
    main()
