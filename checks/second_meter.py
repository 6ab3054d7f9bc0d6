#!/usr/bin/env python3
"""A second meter, written after docs/FORMATS.md, and a comparison with the first on random captures.

    python3 checks/second_meter.py [CAPTURES [SEED]]
    python3 checks/second_meter.py --stream < CAPTURE

Each of the captures (300 unless given) has some tens of packets. Most of them are whole; some are cut, have bytes changed, or
odd links and times. One capture in five has bursts of a few keys that meet in the cache behind the front. `meter` of the
program, at ROMTYALIG or bin/romtyalig, must write the very bytes that this one writes: by one worker always, and by several if
nothing cuts a session. If something does, what several workers write must be a stream of records that are in order, apart, and
have the packets, octets, flags and reasons that this one's have together. The first difference ends the run with status 1 and
leaves the capture in the current folder.

Before it compares anything, the script checks itself: 500 captures must tell two wrong caches from the right one.

With --stream it writes the stream that one worker makes of one capture, with each option left out.
"""

import os
import random
import struct
import subprocess
import sys
from dataclasses import dataclass
from pathlib import Path

sys.dont_write_bytecode = True

import generate  # noqa: E402

TOP = Path(__file__).resolve().parent.parent
FIELDS = [(7, 2), (11, 2), (4, 1), (6, 2), (2, 8), (1, 8), (152, 8), (153, 8), (136, 1)]
# How many places of two entries a worker's front has.
PLACES = 2048
TEMPLATES = {256: [(8, 4), (12, 4)] + FIELDS, 257: [(27, 16), (28, 16)] + FIELDS}


@dataclass
class Packet:
    key: tuple
    time: int
    octets: int
    flags: int


class Ignored(Exception):
    """A record that gives no packet, by the name that its cause has in the summary."""


def need(holds: bool, cause: str = "short") -> None:
    if not holds:
        raise Ignored(cause)


def number(octets: bytes) -> int:
    return int.from_bytes(octets, "big")


def records_of(capture: bytes):
    """The records of a capture: seconds, fraction, original length, captured bytes."""
    magic = capture[:4]
    order = "<" if magic in (b"\xd4\xc3\xb2\xa1", b"\x4d\x3c\xb2\xa1") else ">"
    unit = 1000 if magic in (b"\xd4\xc3\xb2\xa1", b"\xa1\xb2\xc3\xd4") else 1_000_000
    link = struct.unpack(order + "I", capture[20:24])[0]
    at = 24
    while len(capture) - at >= 16:
        seconds, fraction, captured, original = struct.unpack(order + "IIII", capture[at:at + 16])
        if len(capture) - at - 16 < captured:
            return
        yield link, unit, seconds, fraction, original, capture[at + 16:at + 16 + captured]
        at += 16 + captured


def transport(protocol: int, payload: bytes) -> tuple[int, int, int]:
    """Ports and flags."""
    if protocol == 6:
        need(len(payload) >= 14, "short-transport")
        return number(payload[0:2]), number(payload[2:4]), number(payload[12:14]) & 0xFFF
    if protocol == 17:
        need(len(payload) >= 4, "short-transport")
        return number(payload[0:2]), number(payload[2:4]), 0
    return 0, 0, 0


def over_ipv4(ip: bytes, original: int, time: int) -> Packet:
    need(len(ip) >= 20)
    header = 4 * (ip[0] & 15)
    need(ip[0] >> 4 == 4 and header >= 20, "bad-header")
    need(len(ip) >= header)
    octets = number(ip[2:4])
    if octets == 0:
        octets = max(original, header)
    need(header <= octets <= 16_777_215, "bad-header")
    ports = (0, 0, 0)
    if number(ip[6:8]) & 0x1FFF == 0:
        ports = transport(ip[9], ip[header:octets])
    return Packet((4, ip[12:16], ip[16:20], ip[9], *ports[:2]), time, octets, ports[2])


def over_ipv6(ip: bytes, original: int, time: int) -> Packet:
    need(len(ip) >= 40)
    need(ip[0] >> 4 == 6, "bad-header")
    octets = 40 + number(ip[4:6])
    if octets == 40 and ip[6] != 59:
        octets = max(original, 40)
    need(octets <= 16_777_215, "bad-header")
    kind, rest = ip[6], ip[40:octets]
    while kind in (0, 43, 60, 51, 44):
        need(len(rest) >= 2)
        length = 8 if kind == 44 else 4 * (rest[1] + 2) if kind == 51 else 8 * (rest[1] + 1)
        need(len(rest) >= length)
        if kind == 44 and number(rest[2:4]) >> 3 != 0:
            return Packet((6, ip[8:24], ip[24:40], rest[0], 0, 0), time, octets, 0)
        kind, rest = rest[0], rest[length:]
    ports = transport(kind, rest)
    return Packet((6, ip[8:24], ip[24:40], kind, *ports[:2]), time, octets, ports[2])


def network_of(link: int, frame: bytes) -> tuple[int, int]:
    """Where the IP header stands, and the type of what stands there."""
    if link == 101:
        need(len(frame) >= 1)
        return 0, {4: 0x0800, 6: 0x86DD}.get(frame[0] >> 4, 0)
    start = 14 if link == 1 else 16
    need(len(frame) >= start)
    kind = number(frame[start - 2:start])
    tags = 0
    while kind in (0x8100, 0x88A8) and tags < 2:
        start, tags = start + 4, tags + 1
        need(len(frame) >= start)
        kind = number(frame[start - 2:start])
    return start, kind


def packet_of(link: int, unit: int, seconds: int, fraction: int, original: int, frame: bytes) -> Packet:
    need(fraction < 1000 * unit, "bad-time")
    time = 1000 * seconds + fraction // unit
    start, kind = network_of(link, frame)
    need(kind in (0x0800, 0x86DD), "not-ip")
    over = over_ipv4 if kind == 0x0800 else over_ipv6
    return over(frame[start:], max(0, original - start), time)


def packets_of(capture: bytes) -> list[Packet]:
    packets = []
    for record in records_of(capture):
        try:
            packets.append(packet_of(*record))
        except Ignored:
            pass
    return packets


def ends(key: tuple, flags: int) -> bool:
    """Whether FIN or RST of TCP is among the flags."""
    return key[3] == 6 and flags & 0x005 != 0


@dataclass
class Limits:
    """Both time-outs in milliseconds."""
    idle: int
    active: int


def alone(packet: Packet) -> list:
    """A flow of one packet: key, packets, octets, first, last, flags, reason."""
    return [packet.key, 1, packet.octets, packet.time, packet.time, packet.flags, 0]


def joinable(one: list, other: list, limits: Limits) -> bool:
    """Whether two flows can be one."""
    first, last = min(one[3], other[3]), max(one[4], other[4])
    near = max(one[3], other[3]) - min(one[4], other[4]) <= limits.idle
    late = all(flow[4] == last for flow in (one, other) if ends(flow[0], flow[5]))
    return one[0] == other[0] and near and last - first <= limits.active and late


def joined(one: list, other: list) -> list:
    first, last = min(one[3], other[3]), max(one[4], other[4])
    return [one[0], one[1] + other[1], one[2] + other[2], first, last, one[5] | other[5], 0]


def set_of(key: tuple, sets: int) -> int:
    """The set of the cache for a key."""
    version, source, destination, protocol, *ports = key
    words = [version << 40 | protocol << 32 | ports[0] << 16 | ports[1]]
    for address in (number(source), number(destination)):
        words += [address >> 64, address & (1 << 64) - 1]
    hashed = 0
    for word in words:
        hashed = (hashed ^ word) * 0x9E3779B97F4A7C15 & (1 << 64) - 1
    return (hashed >> 32) % sets


def put_in(entries: list, own: list, limits: Limits, joins: bool = True):
    """Puts a flow into one of the entries of its place or set. The flow that is evicted for it, or None."""
    places = [place for place, entry in enumerate(entries) if entry and entry[0] == own[0]]
    fit = [place for place in places if joins and joinable(entries[place], own, limits)]
    empty = [place for place, entry in enumerate(entries) if not entry]
    if fit:
        entries[fit[0]] = joined(entries[fit[0]], own)
        return None
    oldest = [min(range(len(entries)), key=lambda place: entries[place][4])] if not empty else []
    place = (places or empty or oldest)[0]
    out, entries[place] = entries[place], own
    return out


def through_front(packets: list[Packet], limits: Limits):
    """What leaves a worker's front of two entries a place, in order: behind the last packet what is open, place by place."""
    front: dict[int, list] = {}
    for packet in packets:
        out = put_in(front.setdefault(set_of(packet.key, PLACES), [None] * 2), alone(packet), limits)
        if out:
            yield out
    for place in sorted(front):
        yield from (entry for entry in front[place] if entry)


def cached(packets: list[Packet], limits: Limits, sets: int, entries: int = 4, joins: bool = True) -> list[list]:
    """What a cache of so many sets of four entries evicts and keeps, if one worker meters all packets.

    A fragment of one packet that leaves the front bypasses the cache. With fewer entries, or if nothing is joined, it is a wrong
    cache, which the captures must tell from the right one.
    """
    cache: dict[int, list] = {}
    out = []
    for part in through_front(packets, limits):
        if part[1] == 1:
            out.append(part)
            continue
        left = put_in(cache.setdefault(set_of(part[0], sets), [None] * entries), part, limits, joins)
        if left:
            out.append(left)
    return out + [entry for entries in cache.values() for entry in entries if entry]


def gathered(parts: list[list], clock: int, limits: Limits) -> list[list]:
    """Parts of flows gathered: those of one key that follow each other are joined as long as may be.

    They are taken by last time, first time, packets, octets and flags.
    """
    by_key: dict[tuple, list[list]] = {}
    for part in sorted(parts, key=lambda part: (part[4], part[3], part[1], part[2], part[5])):
        flows, whole = by_key.setdefault(part[0], []), part
        while flows and joinable(flows[-1], whole, limits):
            whole = joined(flows.pop(), whole)
        flows.append(whole)
    return reasoned(by_key, clock, limits.idle)


def reasoned(by_key: dict[tuple, list[list]], clock: int, idle: int) -> list[list]:
    """The flows with their reasons, in the order in which they are written."""
    for flows in by_key.values():
        for flow, later in zip(flows, flows[1:]):
            flow[6] = 1 if later[3] - flow[4] > idle else 2
        flows[-1][6] = 1 if clock - flows[-1][4] > idle else 4
        for flow in flows:
            if ends(flow[0], flow[5]):
                flow[6] = 3
    return sorted((flow for flows in by_key.values() for flow in flows), key=lambda flow: (flow[4], flow[0]))


def clock_of(packets: list[Packet]) -> int:
    return max((packet.time for packet in packets), default=0)


def is_uncut(packets: list[Packet], limits: Limits) -> bool:
    """Whether no session outlasts the active time-out, and each packet that ends its flow has its session's last time."""
    by_key: dict[tuple, list[list[Packet]]] = {}
    for packet in sorted(packets, key=lambda packet: packet.time):
        sessions = by_key.setdefault(packet.key, [])
        if not sessions or packet.time - sessions[-1][-1].time > limits.idle:
            sessions.append([])
        sessions[-1].append(packet)
    return all(
        session[-1].time - session[0].time <= limits.active
        and all(packet.time == session[-1].time for packet in session if ends(packet.key, packet.flags))
        for sessions in by_key.values() for session in sessions
    )


def totals(flows: list[list]) -> dict[tuple, tuple]:
    """Packets, octets, flags, the first and the last time of each key."""
    by_key: dict[tuple, tuple] = {}
    for key, packets, octets, first, last, flags, _ in flows:
        some = by_key.get(key, (0, 0, 0, first, last))
        by_key[key] = (some[0] + packets, some[1] + octets, some[2] | flags, min(some[3], first), max(some[4], last))
    return by_key


def is_lawful(flows: list[list], packets: list[Packet], limits: Limits) -> bool:
    """Whether flows have what the packets have together, are in order and apart, and have the reasons."""
    by_key: dict[tuple, list[list]] = {}
    for flow in flows:
        by_key.setdefault(flow[0], []).append(list(flow))
    times = {(packet.key, packet.time) for packet in packets}
    return (
        totals(flows) == totals([alone(packet) for packet in packets])
        and reasoned(by_key, clock_of(packets), limits.idle) == flows
        and all((flow[0], time) in times for flow in flows for time in flow[3:5])
        and not any(joinable(*pair, limits) for some in by_key.values() for pair in zip(some, some[1:]))
    )


def message(export_time: int, sequence: int, sets: bytes) -> bytes:
    return struct.pack(">HHIII", 10, 16 + len(sets), export_time, sequence, 1) + sets


def stream_of(flows: list[list], export_time: int, size: int) -> bytes:
    templates = b"".join(
        struct.pack(">HH", template, len(fields)) + b"".join(struct.pack(">HH", *field) for field in fields)
        for template, fields in TEMPLATES.items()
    )
    out = message(export_time, 0, struct.pack(">HH", 2, 4 + len(templates)) + templates)
    written, held, sets = 0, 0, []

    def joined() -> bytes:
        return b"".join(struct.pack(">HH", template, 4 + len(body)) + body for template, body in sets)

    for (version, source, destination, protocol, *ports), packets, octets, first, last, flags, reason in flows:
        template = 256 if version == 4 else 257
        record = source + destination + struct.pack(
            ">HHBHQQQQB", *ports, protocol, flags, packets, octets, first, last, reason)
        grown = len(record) + (0 if sets and sets[-1][0] == template else 4)
        if sets and 16 + len(joined()) + grown > size:
            out += message(export_time, written, joined())
            written, held, sets = written + held, 0, []
        if sets and sets[-1][0] == template:
            sets[-1] = (template, sets[-1][1] + record)
        else:
            sets.append((template, record))
        held += 1
    return out + (message(export_time, written, joined()) if sets else b"")


def flows_in(stream: bytes) -> list[list]:
    """The flows of a stream of templates 256 and 257."""
    flows, at = [], 0
    while at < len(stream):
        end = at + number(stream[at + 2:at + 4])
        at += 16
        while at < end:
            template, behind = number(stream[at:at + 2]), at + number(stream[at + 2:at + 4])
            at += 4
            width, length = {256: (4, 48), 257: (16, 72)}.get(template, (0, behind - at))
            for place in range(at, behind if width else at, length):
                rest = stream[place + 2 * width:place + length]
                *ports, protocol, flags, packets, octets, first, last, reason = struct.unpack(">HHBHQQQQB", rest)
                addresses = stream[place:place + width], stream[place + width:place + 2 * width]
                key = (4 if width == 4 else 6, *addresses, protocol, *ports)
                flows.append([key, packets, octets, first, last, flags, reason])
            at = behind
    return flows


def differs(stream: bytes, packets: list[Packet], limits: Limits, size: int, sets: int, workers: int) -> bool:
    """Whether this is no stream that so many workers may write."""
    export_time = clock_of(packets) // 1000
    if workers == 1 or is_uncut(packets, limits):
        flows = gathered(cached(packets, limits, sets), clock_of(packets), limits)
    else:
        flows = flows_in(stream)
        if not is_lawful(flows, packets, limits):
            return True
    return stream != stream_of(flows, export_time, size)


def crowd(count: int) -> list[int]:
    """Ports to which UDP from port 53 of 10.0.0.1 to 10.0.0.2 has one place in a front."""
    source, destination = bytes((10, 0, 0, 1)), bytes((10, 0, 0, 2))
    places = {port: set_of((4, source, destination, 17, 53, port), PLACES) for port in range(1, 1 << 13)}
    return [port for port, place in places.items() if place == places[1]][:count]


CROWD = crowd(8)


def random_chain(chance: random.Random, kind: int, payload: bytes) -> tuple[int, bytes]:
    """A payload of this kind behind extension headers: none, a few, or all five kinds in some order."""
    kinds = list(generate.EXTENSIONS)
    chance.shuffle(kinds)
    if chance.random() < 0.7:
        kinds = [chance.choice(generate.EXTENSIONS) for _ in range(chance.choice((0, 0, 1, 1, 2, 3)))]
    for extension in kinds:
        if extension == generate.FRAGMENT:
            place, flags = chance.choice((0, 0, 1, 0x1FFF)), chance.randrange(8)
            header = generate.fragment(kind, place, flags, chance.randrange(256))
        else:
            header = generate.extension(extension, kind, chance.choice((0, 0, 1, 2)))
        kind, payload = extension, header + payload
    return kind, payload


def random_ip(chance: random.Random) -> bytes:
    """An IP packet of few keys, most often whole."""
    six = chance.random() < 0.4
    ports = 53, chance.choice((1, 1, 1, 2, *CROWD[:3]))
    kind = chance.choice((6, 6, 6, 17, 17, 17, 1))
    data = bytes(chance.choice((0, 0, 5, 40)))
    control = chance.randrange(1 << 12) & (0xFFF if chance.random() < 0.2 else 0xFFA)
    payload = {6: generate.segment(*ports, control, data), 17: generate.datagram(*ports, data), 1: data}[kind]
    if chance.random() < 0.1:
        payload = payload[:chance.randrange(len(payload) + 1)]
    if not six:
        return generate.raw4(
            kind, "10.0.0.1", chance.choice(("10.0.0.2", "10.0.0.2", "10.0.0.3")), payload,
            fragment=chance.choice((0, 0, 0, 0x2000, 0x2001, 0x4000, 0x1FFF)),
            options=bytes(4 * chance.choice((0, 0, 0, 1, 10))),
            total=chance.choice((None, None, None, None, 0, 19, 20, 24, 60, 65535)),
        )
    kind, payload = random_chain(chance, chance.choice((kind, kind, kind, 50, 59, 135)), payload)
    destination = chance.choice(("2001:db8::2", "2001:db8::2", "2001:db8::3"))
    packet = bytearray(generate.raw6(kind, "2001:db8::1", destination, payload))
    if chance.random() < 0.2:
        packet[4:6] = struct.pack(">H", chance.choice((0, 0, 1, 7, 8, 20, 65535)))
    return bytes(packet)


def random_capture(chance: random.Random, idle: int, active: int) -> bytes:
    order, unit = chance.choice("<>"), chance.choice((1000, 1_000_000))
    link = chance.choice((1, 101, 113))
    out = struct.pack(order + "IHHIIII", 0xA1B2C3D4 if unit == 1000 else 0xA1B23C4D, 2, 4, 7, 9, 11, link)
    time = chance.choice((0, 1_000_000, 1_700_000_000_123, 4_294_000_000_999))
    for _ in range(chance.randrange(60)):
        gap = chance.choice((0, 1, 99, 100 * idle, 300 * idle))
        if chance.random() < 0.1:
            gap = 1000 * chance.choice((idle, active)) + chance.choice((0, 0, 1))
        time = min(max(time + chance.choice((gap, gap, gap, -gap)), 0), 4_294_967_295_999)
        packet = random_ip(chance)
        kind = 0x0800 if packet[0] >> 4 == 4 else 0x86DD
        if link != 101:
            for _ in range(chance.choice((0, 0, 0, 0, 1, 2, 3))):
                packet = struct.pack(">HH", 5, kind) + packet
                kind = chance.choice((0x8100, 0x88A8, 0x8100, 0x88A8, 0x9100))
            packet = generate.ethernet(kind, packet) if link == 1 else generate.cooked(kind, packet)
        frame = bytearray(packet + bytes(chance.choice((0, 0, 6))))
        if chance.random() < 0.1 and frame:
            frame[chance.randrange(len(frame))] = chance.randrange(256)
        original = len(frame) + chance.choice((0, 0, 0, 100, -20, 17_000_000))
        if chance.random() < 0.15:
            frame = frame[:chance.randrange(len(frame) + 1)]
        fraction = time % 1000 * unit + chance.randrange(unit)
        if chance.random() < 0.03:
            fraction = 1000 * unit + chance.choice((-1, 0, 1))
        out += struct.pack(order + "IIII", time // 1000, fraction, len(frame), max(original, 0)) + frame
    return out[:-chance.randrange(1, 9)] if chance.random() < 0.1 and len(out) > 40 else out


def crowded_capture(chance: random.Random, active: int) -> bytes:
    """Short bursts of keys that have one place in a front, not in order of time, in sessions that outlast the active
    time-out.

    So fragments of several packets are evicted from the front, and meet others of their keys in the cache. Where the
    cut between two records falls then depends on which fragments are joined there.
    """
    out = struct.pack("<IHHIIII", 0xA1B2C3D4, 2, 4, 7, 9, 11, 101)
    time, ports = 100_000_000_000, CROWD[:chance.choice((3, 4, 5, 8))]
    for _ in range(chance.randrange(10, 60)):
        port = chance.choice(ports)
        for _ in range(chance.choice((1, 2, 2, 3))):
            packet = generate.raw4(17, "10.0.0.1", "10.0.0.2", generate.datagram(53, port, b""))
            out += struct.pack("<IIII", time // 1000, time % 1000 * 1000, len(packet), len(packet)) + packet
            time += chance.choice((0, 1))
        time += chance.choice((-1, 1, 1)) * active * chance.choice((1, 40, 200, 700))
    return out


def tells_wrong_caches(count: int = 500) -> None:
    """Ends with status 1 unless captures of this count tell two wrong caches from the right one."""
    chance, limits = random.Random(1), Limits(10_000, 3000)
    wrong = {"one entry of four is used": (1, True), "what joins is written apart": (4, False)}
    told = dict.fromkeys(wrong, 0)
    for _ in range(count):
        found = packets_of(crowded_capture(chance, 3))
        clock = clock_of(found)
        right = gathered(cached(found, limits, 1), clock, limits)
        for name, (entries, joins) in wrong.items():
            told[name] += gathered(cached(found, limits, 1, entries, joins), clock, limits) != right
    for name, captures in told.items():
        if captures == 0:
            sys.exit(f"{count} captures don't tell a cache in which {name}")
    print(f"{count} captures tell: " + ", ".join(f"{name} ({captures})" for name, captures in told.items()))


def write_stream() -> None:
    """Writes the stream that one worker makes of the capture on standard input, with each option left out."""
    found, limits = packets_of(sys.stdin.buffer.read()), Limits(300_000, 1_800_000)
    clock = clock_of(found)
    flows = gathered(cached(found, limits, 4096), clock, limits)
    sys.stdout.buffer.write(stream_of(flows, clock // 1000, 1400))


def main() -> None:
    if sys.argv[1:] == ["--stream"]:
        write_stream()
        return
    wanted = int(sys.argv[1]) if len(sys.argv) > 1 else 300
    seed = int(sys.argv[2]) if len(sys.argv) > 2 else 1
    program = os.environ.get("ROMTYALIG", str(TOP / "bin" / "romtyalig"))
    tells_wrong_caches()
    chance = random.Random(seed)
    packets = flows = 0
    for place in range(wanted):
        idle, active = chance.choice(((300, 1800), (1, 1), (2, 5), (10, 3), (86400, 86400)))
        size = chance.choice((116, 140, 163, 164, 400, 1400, 65535))
        if chance.random() < 0.2:
            capture = crowded_capture(chance, active)
        else:
            capture = random_capture(chance, idle, active)
        workers, sets, piece = chance.choice((1, 1, 2, 8)), chance.choice((1, 2, 4096)), chance.choice((1, 7, 256))
        options = {"idle": idle, "active": active, "size": size, "workers": workers, "sets": sets, "piece": piece}
        words = [program, "meter"] + [f"--{name}={value}" for name, value in options.items()]
        ran = subprocess.run(words, input=capture, capture_output=True)
        limits, found = Limits(1000 * idle, 1000 * active), packets_of(capture)
        if ran.returncode != 0 or differs(ran.stdout, found, limits, size, sets, workers):
            Path("different.pcap").write_bytes(capture)
            sys.exit(f"different: capture {place} of seed {seed}, left in different.pcap: {' '.join(words[1:])}")
        packets += len(found)
        flows += len(flows_in(ran.stdout))
    print(f"same: {wanted} captures of seed {seed}, packets {packets}, flows {flows}")


if __name__ == "__main__":
    main()
