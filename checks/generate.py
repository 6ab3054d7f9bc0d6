#!/usr/bin/env python3
"""Writes captures for the checks, byte by byte from the formats' own descriptions.

    python3 checks/generate.py FOLDER

empty.pcap       no packet at all
expiry.pcap      UDP and TCP over IPv4 with gaps, for records that end by the idle and by the active time-out
transports.pcap  over IPv4: each of the twelve TCP control bits, ICMP, fragments, options, tags, and values at the ends
extensions.pcap  over IPv6: TCP, UDP, ICMPv6, extension headers in every order, fragments, addresses at the ends
cooked.pcap      Linux cooked packets with nanoseconds, big-endian
late.pcap        raw IP at the last seconds that a capture can express
counts.pcap      one key of more octets than 32 bits hold
keys.pcap        600 keys of both versions, taking turns, in no order of time
both_ways.pcap   40 conversations of both versions, each packet in one of the two directions, with pauses
"""

import ipaddress
import itertools
import struct
import sys
from pathlib import Path

sys.dont_write_bytecode = True
sys.path.insert(0, str(Path(__file__).resolve().parent.parent / "examples"))

from make_captures import TCP, UDP, ethernet, tcp, udp  # noqa: E402

ETHERNET, RAW, COOKED = 1, 101, 113
ICMP, ESP, ICMP6 = 1, 50, 58
HOP_BY_HOP, ROUTING, FRAGMENT, AUTHENTICATION, NO_NEXT, DESTINATION = 0, 43, 44, 51, 59, 60
EXTENSIONS = (HOP_BY_HOP, ROUTING, FRAGMENT, AUTHENTICATION, DESTINATION)
START = 1_700_000_000_000


def capture(packets: list[tuple[int, bytes]], link: int = ETHERNET, order: str = "<", nano: bool = False,
            octets: int | None = None) -> bytes:
    """A classic capture of frames at times in milliseconds. Where octets are given, they are each original length."""
    magic, unit = (0xA1B23C4D, 1_000_000) if nano else (0xA1B2C3D4, 1000)
    out = [struct.pack(order + "IHHIIII", magic, 2, 4, 0, 0, 262144, link)]
    for milliseconds, frame in packets:
        seconds, rest = divmod(milliseconds, 1000)
        out.append(struct.pack(order + "IIII", seconds, rest * unit, len(frame), octets or len(frame)))
        out.append(frame)
    return b"".join(out)


def raw4(protocol: int, source: str, destination: str, payload: bytes, *, fragment: int = 0, options: bytes = b"",
         total: int | None = None) -> bytes:
    """An IPv4 packet (RFC 791) with nothing in front of it. The checksum is left at 0."""
    words = 5 + len(options) // 4
    length = total if total is not None else 4 * words + len(payload)
    return struct.pack(
        ">BBHHHBBH4s4s", 0x40 | words, 0, length, 0, fragment, 64, protocol, 0,
        ipaddress.IPv4Address(source).packed, ipaddress.IPv4Address(destination).packed,
    ) + options + payload


def raw6(following: int, source: str, destination: str, payload: bytes) -> bytes:
    """An IPv6 packet (RFC 8200) with nothing in front of it."""
    return struct.pack(
        ">IHBB16s16s", 0x60000000, len(payload), following, 64,
        ipaddress.IPv6Address(source).packed, ipaddress.IPv6Address(destination).packed,
    ) + payload


def extension(kind: int, following: int, units: int = 0) -> bytes:
    """An extension header other than a fragment's, with this length in its second byte (RFC 8200, section 4; RFC 4302)."""
    length = 4 * (units + 2) if kind == AUTHENTICATION else 8 * (units + 1)
    return bytes([following, units]) + bytes(length - 2)


def fragment(following: int, place: int, flags: int = 1, second: int = 0) -> bytes:
    """The header of a fragment at this place (RFC 8200, section 4.5)."""
    return struct.pack(">BBHI", following, second, place << 3 | flags, 99)


def chain(kinds: tuple[int, ...], following: int, place: int) -> bytes:
    """Extension headers one behind the other, a fragment's with this place."""
    named = kinds[1:] + (following,)
    return b"".join(
        fragment(name, place) if kind == FRAGMENT else extension(kind, name) for kind, name in zip(kinds, named)
    )


def datagram(source: int, destination: int, data: bytes = b"") -> bytes:
    return struct.pack(">HHHH", source, destination, 8 + len(data), 0) + data


def segment(source: int, destination: int, control: int, data: bytes = b"") -> bytes:
    return struct.pack(">HHIIHHHH", source, destination, 1, 2, 0x5000 | control, 1024, 0, 0) + data


def tagged(tags: list[int], kind: int, payload: bytes) -> bytes:
    """An Ethernet frame with these tags (IEEE 802.1Q), each of the identifier 5."""
    kinds = tags + [kind]
    behind = b"".join(struct.pack(">HH", 5, following) for following in kinds[1:])
    return ethernet(kinds[0], behind + payload)


def cooked(kind: int, payload: bytes) -> bytes:
    """A Linux cooked packet, version 1, with an address of six bytes."""
    return struct.pack(">HHH8sH", 0, 1, 6, bytes.fromhex("0200000000010000"), kind) + payload


def expiry() -> bytes:
    client, server = "192.0.2.1", "198.51.100.7"
    packets = [(START + 1000 * second, udp(client, 4000, server, 53, 60 + second)) for second in range(12)]
    packets += [(START + 20_000 + gap, udp(client, 4001, server, 53, 61)) for gap in (0, 2000, 4001, 9000, 9001)]
    packets += [(START + 700 * step, tcp(client, 40000, server, 80, 40 + step, "A")) for step in range(20)]
    packets += [(START + 400_000, tcp(client, 40000, server, 80, 40, "R"))]
    return capture(packets)


def transports() -> bytes:
    low, high, other = "0.0.0.0", "255.255.255.255", "203.0.113.9"
    frames = [tagged([], 0x0800, raw4(TCP, other, low, segment(1000 + bit, 80, 1 << bit))) for bit in range(12)]
    frames += [ethernet(0x0800, raw4(TCP, other, high, segment(65535, 0, 1 << bit))) for bit in range(12)]
    first, later = 0x2000, 0x2000 | 185
    frames += [
        ethernet(0x0800, raw4(TCP, low, high, segment(0, 65535, 0xFFF))),
        ethernet(0x0800, raw4(ICMP, other, low, bytes(8))),
        ethernet(0x0800, raw4(UDP, other, low, datagram(9, 9, bytes(16)), fragment=first)),
        ethernet(0x0800, raw4(UDP, other, low, bytes(24), fragment=later)),
        ethernet(0x0800, raw4(UDP, other, low, bytes(3), fragment=185)),
        ethernet(0x0800, raw4(255, other, low, b"")),
        ethernet(0x0800, raw4(0, other, low, bytes(40))),
        ethernet(0x0800, raw4(UDP, other, high, datagram(7, 8), options=bytes(40))),
        ethernet(0x0800, raw4(UDP, other, high, datagram(7, 8)) + bytes(18)),
        ethernet(0x0800, raw4(UDP, other, low, datagram(7, 8), total=0)),
        tagged([0x8100], 0x0800, raw4(UDP, other, high, datagram(70, 80))),
        tagged([0x88A8, 0x8100], 0x0800, raw4(UDP, other, high, datagram(71, 81))),
    ]
    return capture([(START + 7 * place, frame) for place, frame in enumerate(frames)])


def extensions() -> bytes:
    low, high, one, two = "::", "ffff:ffff:ffff:ffff:ffff:ffff:ffff:ffff", "2001:db8::1", "2001:db8:0:1::ff00:42"

    packets = [raw6(TCP, one, two, segment(40000, 443, 1 << bit)) for bit in range(12)]
    packets += [
        raw6(TCP, one, two, segment(40001, 443, 0x012, bytes(700))),
        raw6(UDP, low, high, datagram(0, 65535)),
        raw6(UDP, high, low, datagram(65535, 0, bytes(1200))),
        raw6(ICMP6, one, two, bytes(8)),
        raw6(NO_NEXT, one, two, b""),
        raw6(HOP_BY_HOP, one, two, extension(HOP_BY_HOP, UDP) + datagram(1, 2)),
        raw6(AUTHENTICATION, one, two, extension(AUTHENTICATION, UDP, 4) + datagram(5, 6)),
        raw6(DESTINATION, one, two, extension(DESTINATION, NO_NEXT, 2)),
        raw6(FRAGMENT, one, two, fragment(UDP, 0) + datagram(7, 8)),
    ]
    packets += [raw6(FRAGMENT, one, two, fragment(kind, 150) + bytes(64)) for kind in (TCP, UDP, ESP, ICMP6, HOP_BY_HOP)]
    for place in (0, 1):
        for order in itertools.permutations(EXTENSIONS):
            packets.append(raw6(order[0], one, two, chain(order, UDP, place) + datagram(9, 10)))
    return capture([(START + 13 * place, ethernet(0x86DD, packet)) for place, packet in enumerate(packets)])


def late() -> bytes:
    last = 4_294_967_295_999
    return capture([
        (last - 300_000, raw4(UDP, "192.0.2.1", "192.0.2.2", datagram(1, 2))),
        (last - 200, raw6(UDP, "2001:db8::1", "2001:db8::2", datagram(1, 2))),
        (last, raw4(UDP, "192.0.2.1", "192.0.2.2", datagram(1, 2))),
        (0, raw4(UDP, "192.0.2.1", "192.0.2.2", datagram(1, 2))),
        (1, raw6(UDP, "2001:db8::1", "2001:db8::2", datagram(1, 2))),
    ], RAW)


def counts() -> bytes:
    packet = raw4(UDP, "192.0.2.1", "192.0.2.2", datagram(1, 2), total=65535)
    return capture([(START + place // 100, packet) for place in range(65_700)], RAW, octets=65535)


def keys() -> bytes:
    packets = []
    for place in range(1200):
        key = place * 7919 % 600
        time = START + place * 104_729 % 60_000
        if key % 2 == 0 or key % 5 == 0:
            source = str(ipaddress.IPv4Address(0x0A000000 + key))
            packets.append((time, raw4(UDP, source, "192.0.2.1", datagram(1024 + key, 53, bytes(key % 50)))))
        else:
            source = str(ipaddress.IPv6Address((0x20010DB8 << 96) + key))
            packets.append((time, raw6(TCP, source, "2001:db8::1:1", segment(1024 + key, 443, 0x010, bytes(key % 50)))))
    return capture(packets, RAW)


def both_ways() -> bytes:
    packets = []
    for place in range(600):
        talk, out = place * 7919 % 40, place * 31 % 7 < 4
        time = START + place * 104_729 % 60_000 + 7_000 * (place % 3)
        ports = (1024 + talk, 443) if out else (443, 1024 + talk)
        if talk % 3 > 0:
            ends = ("192.0.2.1", "198.51.100.7") if out else ("198.51.100.7", "192.0.2.1")
            packet = raw4(TCP, *ends, segment(*ports, 0x010 | 1 << talk % 12, bytes(place % 50)))
        else:
            ends = ("2001:db8::1", "2001:db8::2") if out else ("2001:db8::2", "2001:db8::1")
            packet = raw6(UDP, *ends, datagram(*ports, bytes(place % 50)))
        packets.append((time, packet))
    return capture(packets, RAW)


def main() -> None:
    folder = Path(sys.argv[1])
    mixed = [(START + 999, cooked(0x0800, raw4(UDP, "192.0.2.1", "192.0.2.2", datagram(5, 6)))),
             (START + 1001, cooked(0x86DD, raw6(UDP, "2001:db8::1", "2001:db8::2", datagram(5, 6))))]
    written = {
        "empty": capture([]),
        "expiry": expiry(),
        "transports": transports(),
        "extensions": extensions(),
        "cooked": capture(mixed, COOKED, ">", nano=True),
        "late": late(),
        "counts": counts(),
        "keys": keys(),
        "both_ways": both_ways(),
    }
    for name, content in written.items():
        (folder / f"{name}.pcap").write_bytes(content)


if __name__ == "__main__":
    main()
