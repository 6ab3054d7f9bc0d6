#!/usr/bin/env python3
"""Writes the sample captures of this folder, byte by byte from the formats' own descriptions.

    python3 examples/make_captures.py [FOLDER]

udp-flows.pcap     five packets of three UDP flows over IPv4, one of them idle for longer than five minutes
web-exchange.pcap  an ARP request, a DNS query and its reply, and a TCP exchange of seven packets

web-exchange.ipfix beside it is what `meter` writes of it; `make check` compares them. FOLDER is the folder of this program unless
given. The status is 1 where a capture can't be written, and 2 where the command line is wrong.
"""

import ipaddress
import struct
import sys
from pathlib import Path

ETHERNET = 1
UDP, TCP = 17, 6
CONTROL_BITS = {"S": 0x002, "SA": 0x012, "A": 0x010, "PA": 0x018, "R": 0x004}


def ethernet(kind: int, payload: bytes) -> bytes:
    return bytes.fromhex("020000000002 020000000001") + struct.pack(">H", kind) + payload


def ipv4(protocol: int, source: str, destination: str, payload: bytes) -> bytes:
    """An IPv4 header of 20 octets (RFC 791) in front of the payload. The checksum is left at 0."""
    header = struct.pack(
        ">BBHHHBBH4s4s", 0x45, 0, 20 + len(payload), 0, 0, 64, protocol, 0,
        ipaddress.IPv4Address(source).packed, ipaddress.IPv4Address(destination).packed,
    )
    return ethernet(0x0800, header + payload)


def udp(source: str, source_port: int, destination: str, destination_port: int, octets: int) -> bytes:
    """A UDP datagram (RFC 768) whose IPv4 packet has this many octets."""
    data = bytes(octets - 28)
    datagram = struct.pack(">HHHH", source_port, destination_port, 8 + len(data), 0) + data
    return ipv4(UDP, source, destination, datagram)


def tcp(source: str, source_port: int, destination: str, destination_port: int, octets: int, flags: str) -> bytes:
    """A TCP segment (RFC 9293) with a header of 20 octets, whose IPv4 packet has this many octets."""
    data = bytes(octets - 40)
    header = struct.pack(">HHIIHHHH", source_port, destination_port, 0, 0, 0x5000 | CONTROL_BITS[flags], 1024, 0, 0)
    return ipv4(TCP, source, destination, header + data)


def arp() -> bytes:
    return ethernet(0x0806, bytes.fromhex("0001 0800 06 04 0001 020000000001 0a000005 000000000000 0a000001"))


def capture(packets: list[tuple[int, bytes]]) -> bytes:
    """A classic capture, least byte first, microseconds, link type Ethernet. Times are in milliseconds."""
    out = struct.pack("<IHHIIII", 0xA1B2C3D4, 2, 4, 0, 0, 262144, ETHERNET)
    for milliseconds, frame in packets:
        seconds, rest = divmod(milliseconds, 1000)
        out += struct.pack("<IIII", seconds, rest * 1000, len(frame), len(frame)) + frame
    return out


def udp_flows() -> bytes:
    resolver, client, clock = "192.0.2.53", "192.0.2.1", "192.0.2.123"
    return capture([
        (1_000_000, udp(client, 4000, resolver, 53, 60)),
        (1_000_020, udp(resolver, 53, client, 4000, 160)),
        (1_000_500, udp(client, 4000, resolver, 53, 61)),
        (1_001_000, udp(client, 123, clock, 123, 76)),
        (1_400_000, udp(client, 123, clock, 123, 76)),
    ])


def web_exchange() -> bytes:
    start = 1_700_000_000_000
    client, resolver, server = "10.0.0.5", "10.0.0.1", "198.51.100.7"

    def to_server(octets: int, flags: str) -> bytes:
        return tcp(client, 40000, server, 80, octets, flags)

    def to_client(octets: int, flags: str) -> bytes:
        return tcp(server, 80, client, 40000, octets, flags)

    exchange = [
        (0, arp()),
        (10, udp(client, 50000, resolver, 53, 60)),
        (25, udp(resolver, 53, client, 50000, 76)),
        (30, to_server(60, "S")),
        (50, to_client(60, "SA")),
        (51, to_server(52, "A")),
        (52, to_server(152, "PA")),
        (72, to_client(52, "A")),
        (80, to_client(1500, "PA")),
        (90, to_server(40, "R")),
    ]
    return capture([(start + later, frame) for later, frame in exchange])


def main(words: list[str]) -> int:
    if "--help" in words or "-h" in words:
        print(__doc__, end="")
        return 0
    if len(words) > 1 or words and words[0].startswith("-"):
        print(f"make_captures: not expected: {words[-1]}; --help tells more", file=sys.stderr)
        return 2
    folder = Path(words[0]) if words else Path(__file__).parent
    try:
        (folder / "udp-flows.pcap").write_bytes(udp_flows())
        (folder / "web-exchange.pcap").write_bytes(web_exchange())
    except OSError as fault:
        print(f"make_captures: {fault.filename}: {fault.strerror}", file=sys.stderr)
        return 1
    return 0


if __name__ == "__main__":
    sys.exit(main(sys.argv[1:]))
