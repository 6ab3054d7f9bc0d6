#!/usr/bin/env python3
"""A second pairer of flow records, written after docs/FORMATS.md, and a comparison with the first on random streams.

    python3 checks/second_pairer.py [STREAMS [SEED]]
    romtyalig show < STREAM | python3 checks/second_pairer.py lines [SECONDS]

Each of the streams (300 unless given) has some tens of flow records of few keys, most of them with their reverse, in no
order. `romtyalig-pair` of the program, at ROMTYALIG_PAIR or bin/romtyalig-pair, must write the very bytes that this one
writes. As many further streams have their records under templates of any number and domain, some of them with a record
that is no flow record: a field that is left out, added, moved, of an enterprise or of another length, no packet, a
first time behind the last; and some have a fault. There it must have the status that this program finds, and write
nothing unless that is 0. The first difference ends the run with status 1 and leaves the stream in the current folder.

The second form reads the lines of flow records, pairs them with an idle time-out in seconds, and writes a line for each biflow:
the template's number, then NUMBER=VALUE for each field, with 29305. in front of the number of a reverse element.
"""

import os
import random
import struct
import subprocess
import sys
from dataclasses import dataclass
from ipaddress import IPv4Address
from pathlib import Path

sys.dont_write_bytecode = True

import second_reader  # noqa: E402

TOP = Path(__file__).resolve().parent.parent
COUNTS = [(6, 2), (2, 8), (1, 8), (152, 8), (153, 8), (136, 1)]
FIELDS = [(7, 2), (11, 2), (4, 1)] + COUNTS
TEMPLATES = {256: [(8, 4), (12, 4)] + FIELDS, 257: [(27, 16), (28, 16)] + FIELDS}
REVERSE = 29305


@dataclass
class Flow:
    """The version, both addresses, the protocol and both ports; then the values behind them in the order of the fields."""

    version: int
    source: bytes
    destination: bytes
    protocol: int
    ports: tuple[int, int]
    counts: tuple[int, ...]

    def key(self) -> tuple:
        return self.version, self.source, self.destination, self.protocol, *self.ports

    def reverse(self) -> tuple:
        return self.version, self.destination, self.source, self.protocol, *self.ports[::-1]

    def span(self) -> tuple[int, int]:
        return self.counts[3], self.counts[4]

    def octets(self) -> bytes:
        return self.source + self.destination + struct.pack(">HHB", *self.ports, self.protocol) + octets_of(self.counts)


def octets_of(counts: tuple[int, ...]) -> bytes:
    return struct.pack(">HQQQQB", *counts)


def are_mates(one: Flow, other: Flow, idle: int) -> bool:
    gap = max(other.span()[0] - one.span()[1], one.span()[0] - other.span()[1])
    return other.key() == one.reverse() and other.key() != one.key() and gap <= idle


def pairs_of(flows: list[Flow], idle: int) -> list[tuple[Flow, Flow | None]]:
    """The biflows, with an idle time-out in milliseconds."""
    left = sorted(flows, key=lambda flow: (*flow.span(), flow.key()))
    pairs = []
    while left:
        forward = left.pop(0)
        place = next((place for place, other in enumerate(left) if are_mates(forward, other, idle)), None)
        pairs.append((forward, None if place is None else left.pop(place)))
    return pairs


def message(export_time: int, sequence: int, sets: bytes) -> bytes:
    return struct.pack(">HHIII", 10, 16 + len(sets), export_time, sequence, 1) + sets


def set_of(number: int, records: bytes) -> bytes:
    return struct.pack(">HH", number, 4 + len(records)) + records


def template(number: int, fields: list, reverse: list) -> bytes:
    specifiers = b"".join(struct.pack(">HH", *field) for field in fields)
    specifiers += b"".join(struct.pack(">HHI", 0x8000 | element, length, REVERSE) for element, length in reverse)
    return struct.pack(">HH", number, len(fields) + len(reverse)) + specifiers


def data_of(records: list[tuple[int, bytes]], export_time: int, size: int) -> bytes:
    """Messages with these records, each under its template's number."""
    out, sequence, start = b"", 0, 0
    while start < len(records):
        sets: list[list] = []
        length, place = 16, start
        while place < len(records):
            number, octets = records[place]
            more = len(octets) + (0 if sets and sets[-1][0] == number else 4)
            if length + more > size:
                break
            if not sets or sets[-1][0] != number:
                sets.append([number, b""])
            sets[-1][1] += octets
            length, place = length + more, place + 1
        out += message(export_time, sequence, b"".join(set_of(number, octets) for number, octets in sets))
        sequence, start = (sequence + place - start) % 2**32, place
    return out


def stream_of(flows: list[Flow], export_time: int, size: int) -> bytes:
    known = b"".join(template(number, fields, []) for number, fields in TEMPLATES.items())
    records = [(256 if flow.version == 4 else 257, flow.octets()) for flow in flows]
    return message(export_time, 0, set_of(2, known)) + data_of(records, export_time, size)


def paired(flows: list[Flow], idle: int, size: int) -> bytes:
    export_time = max((flow.span()[1] for flow in flows), default=0) // 1000 % 2**32
    known = b"".join(template(number, fields, []) for number, fields in TEMPLATES.items())
    known += b"".join(template(number + 2, fields, COUNTS) for number, fields in TEMPLATES.items())
    records = []
    for forward, reverse in pairs_of(flows, idle):
        number = 256 if forward.version == 4 else 257
        if reverse is None:
            records.append((number, forward.octets()))
        else:
            records.append((number + 2, forward.octets() + octets_of(reverse.counts)))
    return message(export_time, 0, set_of(2, known)) + data_of(records, export_time, size)


def flow_of(line: str) -> Flow:
    """The flow of a line of `show`."""
    _, *fields = line.split()
    values = dict(field.split("=", 1) for field in fields)
    if "8" in values:
        version, source, destination = 4, IPv4Address(values["8"]).packed, IPv4Address(values["12"]).packed
    else:
        version, source, destination = 6, bytes.fromhex(values["27"]), bytes.fromhex(values["28"])
    counts = tuple(int(values[str(element)]) for element, _ in COUNTS)
    return Flow(version, source, destination, int(values["4"]), (int(values["7"]), int(values["11"])), counts)


def line_of(forward: Flow, reverse: Flow | None) -> str:
    four = forward.version == 4
    number = (256 if four else 257) + (0 if reverse is None else 2)
    addresses = [str(IPv4Address(address)) if four else address.hex() for address in (forward.source, forward.destination)]
    line = f"{number} {8 if four else 27}={addresses[0]} {12 if four else 28}={addresses[1]}"
    line += f" 7={forward.ports[0]} 11={forward.ports[1]} 4={forward.protocol}"
    line += "".join(f" {element}={value}" for (element, _), value in zip(COUNTS, forward.counts))
    if reverse is not None:
        line += "".join(f" {REVERSE}.{element}={value}" for (element, _), value in zip(COUNTS, reverse.counts))
    return line


def random_flow(chance: random.Random, idle: int) -> Flow:
    version, width = chance.choice(((4, 4), (4, 4), (6, 16)))
    ends = [bytes(width - 1) + bytes([end]) for end in chance.choice(((1, 2), (2, 1), (1, 2), (2, 1), (1, 1)))]
    ports = (53, 54) if ends[0] < ends[1] else (54, 53)
    if chance.random() < 0.2:
        ports = chance.choice(((53, 54), (54, 53), (53, 53)))
    first = chance.choice((0, 1_000_000)) + chance.choice((0, 0, 1, 500 * idle, 1000 * idle, 1000 * idle + 1, 2000 * idle))
    last = first + chance.choice((0, 0, 1, 500 * idle))
    counts = (
        chance.randrange(1 << 12), chance.choice((1, 2, 2**64 - 1)), chance.choice((0, 40, 2**64 - 1)),
        first, last, chance.randrange(256),
    )
    return Flow(version, *ends, chance.choice((6, 6, 17)), ports, counts)


def judged(values: list[tuple[int | None, int, bytes]]) -> Flow | None:
    """The flow record that a data record is."""
    for version, template in ((4, 256), (6, 257)):
        if [(enterprise, element, len(octets)) for enterprise, element, octets in values] == [
            (None, element, length) for element, length in TEMPLATES[template]
        ]:
            source, destination = (octets for _, _, octets in values[:2])
            numbers = [int.from_bytes(octets, "big") for _, _, octets in values[2:]]
            flow = Flow(version, source, destination, numbers[2], (numbers[0], numbers[1]), tuple(numbers[3:]))
            return flow if flow.counts[1] > 0 and flow.span()[0] <= flow.span()[1] else None
    return None


def answer_to(stream: bytes, idle: int, size: int) -> tuple[int, bytes, str]:
    """The status and the output for any stream, and what kind of stream it is."""
    reader = second_reader.Reader()
    try:
        reader.stream(stream)
    except second_reader.Fault as fault:
        return 9, b"", str(fault.args[0])
    flows = [judged(values) for values in reader.records]
    if None in flows:
        return 12, b"", "no flow record"
    return 0, paired(flows, idle, size), "flow records"


def odd_fields(chance: random.Random, flow: Flow) -> list[list]:
    """A flow record's fields, one of them odd, or its numbers: enterprise, element, told length and octets."""
    counts = list(flow.counts)
    kind = chance.randrange(9)
    if kind == 0:
        counts[1] = 0
    elif kind == 1:
        counts[3], counts[4] = counts[4] + 1, counts[3]
    flow = Flow(flow.version, flow.source, flow.destination, flow.protocol, flow.ports, tuple(counts))
    fields = fields_of(flow)
    place = chance.randrange(len(fields))
    if kind == 2:
        fields[place][0] = chance.choice((0, REVERSE, 2**32 - 1))
    elif kind == 3:
        del fields[place]
    elif kind == 4:
        fields.insert(place, [None, chance.choice((210, 12, fields[place][1])), 2, bytes(2)])
    elif kind == 5:
        other = chance.randrange(len(fields))
        fields[place], fields[other] = fields[other], fields[place]
    elif kind == 6:
        fields[place][2:] = [len(fields[place][3]) + 1, b"\0" + fields[place][3]]
    elif kind == 7 and len(fields[place][3]) > 1:
        fields[place][2:] = [len(fields[place][3]) - 1, fields[place][3][1:]]
    elif kind == 8:
        fields[place][1] = chance.choice((1, 2, 27, 152, 153, 61))
    return fields


def fields_of(flow: Flow) -> list[list]:
    fields, octets, at = [], flow.octets(), 0
    for element, length in TEMPLATES[256 if flow.version == 4 else 257]:
        fields.append([None, element, length, octets[at:at + length]])
        at += length
    return fields


def odd_message(chance: random.Random, fields: list[list], domain: int, sequence: int) -> bytes:
    """A message with a template of these fields and their record; some values have a variable length."""
    number, options = chance.choice((256, 257, 258, 300, 65535)), chance.random() < 0.1
    known, record = b"", b""
    for enterprise, element, length, octets in fields:
        variable = chance.random() < 0.1
        known += struct.pack(">HH", element | (0 if enterprise is None else 0x8000), 65535 if variable else length)
        known += b"" if enterprise is None else struct.pack(">I", enterprise)
        record += (bytes([length]) if variable else b"") + octets
    head = struct.pack(">HH", number, len(fields)) + (struct.pack(">H", 1) if options else b"")
    sets = set_of(3 if options else 2, head + known) + set_of(number, record)
    return struct.pack(">HHIII", 10, 16 + len(sets), chance.randrange(2**32), sequence, domain) + sets


def odd_stream(chance: random.Random, flows: list[Flow]) -> bytes:
    """A message for each record, of one of two domains; few records are none of a flow, and few streams have a fault."""
    rate, out, sequences = chance.choice((0, 0, 0.05, 0.3)), bytearray(), {1: 0, 4_000_000_000: 2**32 - 1}
    for flow in flows:
        domain = chance.choice(list(sequences))
        fields = odd_fields(chance, flow) if chance.random() < rate else fields_of(flow)
        out += odd_message(chance, fields, domain, sequences[domain])
        sequences[domain] = (sequences[domain] + 1) % 2**32
    if out and chance.random() < 0.2:
        out[chance.randrange(len(out))] = chance.choice((0, 1, 255))
    if out and chance.random() < 0.1:
        del out[chance.randrange(len(out)):]
    return bytes(out)


def compare_odd(wanted: int, seed: int) -> None:
    program = os.environ.get("ROMTYALIG_PAIR", str(TOP / "bin" / "romtyalig-pair"))
    chance = random.Random(seed)
    found: dict[str, int] = {}
    for place in range(wanted):
        stream = odd_stream(chance, [random_flow(chance, 300) for _ in range(chance.choice((0, 1, 2, 10, 20)))])
        status, output, kind = answer_to(stream, 300_000, 1400)
        ran = subprocess.run([program, "pair"], input=stream, capture_output=True)
        said = ran.stderr.splitlines()
        told = bool(said) == (status != 0) and all(line.startswith(b"romtyalig-pair: ") for line in said)
        if (ran.returncode, ran.stdout) != (status, output) or not told:
            Path("different.ipfix").write_bytes(stream)
            sys.exit(f"different: odd stream {place} of seed {seed}, left in different.ipfix: {ran.returncode}, not {status}")
        found[kind] = found.get(kind, 0) + 1
    listed = ", ".join(f"{kind} {count}" for kind, count in sorted(found.items()))
    print(f"same: {wanted} odd streams of seed {seed}: {listed}")


def compare(wanted: int, seed: int) -> None:
    program = os.environ.get("ROMTYALIG_PAIR", str(TOP / "bin" / "romtyalig-pair"))
    chance = random.Random(seed)
    flows = both = 0
    for place in range(wanted):
        idle = chance.choice((1, 2, 300, 86400))
        size = chance.choice((308, 309, 400, 1400, 65535))
        given = [random_flow(chance, idle) for _ in range(chance.choice((0, 1, 2, 10, 40)))]
        stream = stream_of(given, chance.randrange(2**32), chance.choice((116, 400, 1400)))
        words = [program, "pair", "--size", str(size), f"--idle={idle}"]
        ran = subprocess.run(words, input=stream, capture_output=True)
        if ran.returncode != 0 or ran.stdout != paired(given, 1000 * idle, size):
            Path("different.ipfix").write_bytes(stream)
            sys.exit(f"different: stream {place} of seed {seed}, left in different.ipfix: {' '.join(words[1:])}")
        flows += len(given)
        both += sum(reverse is not None for _, reverse in pairs_of(given, 1000 * idle))
    print(f"same: {wanted} streams of seed {seed}, flows {flows}, of them {both} with a reverse")


def main() -> None:
    if sys.argv[1:2] == ["lines"]:
        idle = int(sys.argv[2]) if len(sys.argv) > 2 else 300
        for forward, reverse in pairs_of([flow_of(line) for line in sys.stdin], 1000 * idle):
            print(line_of(forward, reverse))
    else:
        wanted, seed = (int(sys.argv[1]) if len(sys.argv) > 1 else 300), (int(sys.argv[2]) if len(sys.argv) > 2 else 1)
        compare(wanted, seed)
        compare_odd(wanted, seed)


if __name__ == "__main__":
    main()
