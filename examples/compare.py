#!/usr/bin/env python3
"""Compares two streams of flow records key by key: packets and octets of each flow in both.

    compare.py [--lines N] FIRST SECOND

    examples/compare.py flows.ipfix other.ipfix

The streams are files of IPFIX messages, of whatever meter; messages of NetFlow version 9, one datagram after the other, are
read too. All records of a key (addresses, protocol, ports) are added up, so time-outs may differ. The reverse counts of a biflow
(RFC 5103) count for the reverse key. Ports count for TCP and UDP alone: other meters put an ICMP type there.

    --lines N   names at most N keys that differ, 0 to 1000000, by default 20; those that differ by most octets come first
    --help      this text

Standard output has a line for each key that differs, then what each stream has, and then how many keys are alike. What can't
be counted (records without addresses or counts, and records whose template isn't there) is told on standard error. The status
is 0 where all keys are alike, 1 where one differs, and 2 where the command line is wrong, a stream can't be read, or neither has
a record.
"""
import os
import sys
from collections import defaultdict
from ipaddress import ip_address

NAME = os.path.splitext(os.path.basename(sys.argv[0]))[0]
IPFIX, NETFLOW = 10, 9
HEADERS = {IPFIX: 16, NETFLOW: 20}
# The numbers of sets: templates, and templates of options, whose records aren't flows.
TEMPLATES, OPTIONS = {IPFIX: 2, NETFLOW: 0}, {IPFIX: 3, NETFLOW: 1}
VARIABLE, ENTERPRISE, REVERSE = 65535, 0x8000, 29305
# By the numbers of the IANA registry: counts since the last record of the flow, or since its begin.
OCTETS, PACKETS, PROTOCOL, PORTS = (1, 85), (2, 86), 4, (7, 11)
ADDRESSES = ((8, 12), (27, 28))
PROTOCOLS = {1: "ICMP", 6: "TCP", 17: "UDP", 58: "ICMPv6"}
WITH_PORTS = (6, 17)


class Wrong(Exception):
    """What is wrong with the command line."""


def number_at(octets, at, length=2):
    if at + length > len(octets):
        raise ValueError(f"cut short at {len(octets)}")
    return int.from_bytes(octets[at:at + length], "big")


class Stream:
    """A stream: its records, each a dictionary from element to bytes, and how many couldn't be read."""

    def __init__(self, octets):
        self.octets, self.templates = octets, {}
        self.records, self.unknown = [], 0
        at = 0
        while at < len(octets):
            at = self.message(at)

    def message(self, at):
        """Reads the message that begins here, and returns where it ends."""
        version = number_at(self.octets, at)
        if version not in HEADERS:
            raise ValueError(f"no message of IPFIX at {at}")
        header = HEADERS[version]
        domain = version, number_at(self.octets, at + header - 4, 4)
        end = at + number_at(self.octets, at + 2) if version == IPFIX else len(self.octets)
        if end > len(self.octets) or end < at + header:
            raise ValueError(f"the message at {at} isn't whole")
        at += header
        # NetFlow doesn't tell the length of a message. No set has the number with which the next one begins.
        while at < end and not (version == NETFLOW and number_at(self.octets, at) == NETFLOW):
            length = number_at(self.octets, at + 2)
            if length < 4 or at + length > end:
                raise ValueError(f"the set at {at} isn't whole")
            self.set(domain, number_at(self.octets, at), self.octets[at + 4:at + length])
            at += length
        return at

    def set(self, domain, number, body):
        version = domain[0]
        if number in (TEMPLATES[version], OPTIONS[version]):
            self.learn(domain, body, number == OPTIONS[version])
        elif (domain, number) in self.templates:
            fields = self.templates[domain, number]
            if fields:
                self.records += records_of(body, fields)
        elif number > 255:
            self.unknown += 1

    def learn(self, domain, body, is_options):
        """Takes in templates. One of options gets no fields, so that its records are passed over."""
        at = 0
        while len(body) - at >= 4 and number_at(body, at):
            template, count = number_at(body, at), number_at(body, at + 2)
            if is_options:
                self.templates[domain, template] = []
                if domain[0] == NETFLOW:
                    at += 6 + number_at(body, at + 2) + number_at(body, at + 4)
                    continue
            at, fields = fields_of(body, at + (6 if is_options else 4), count)
            if not is_options:
                self.templates[domain, template] = fields


def fields_of(body, at, count):
    """So many fields of a template, and where they end: each an element, (enterprise, number) or a number, and a length."""
    fields = []
    for _ in range(count):
        element, length = number_at(body, at), number_at(body, at + 2)
        at += 4
        if element & ENTERPRISE:
            element, at = (number_at(body, at, 4), element & ~ENTERPRISE), at + 4
        fields.append((element, length))
    return at, fields


def records_of(body, fields):
    """The records of a set. Padding is shorter than any record."""
    at, least = 0, sum(1 if length == VARIABLE else length for _, length in fields)
    while least and len(body) - at >= least:
        record = {}
        for element, length in fields:
            if length == VARIABLE:
                length, at = number_at(body, at, 1), at + 1
                if length == 255:
                    length, at = number_at(body, at), at + 2
            record[element] = body[at:at + length]
            at += length
        yield record


def count_of(record, elements, is_reverse=False):
    """A count of a record, or nothing."""
    for element in elements:
        value = record.get((REVERSE, element) if is_reverse else element)
        if value is not None:
            return int.from_bytes(value, "big")
    return None


def key_of(record):
    """Source, destination, protocol and ports of a record, or nothing."""
    ends = next((pair for pair in ADDRESSES if pair[0] in record and pair[1] in record), None)
    if ends is None or PROTOCOL not in record:
        return None
    protocol = record[PROTOCOL][0]
    ports = tuple(int.from_bytes(record.get(port, b""), "big") if protocol in WITH_PORTS else 0 for port in PORTS)
    return record[ends[0]], record[ends[1]], protocol, *ports


def turned(key):
    return key[1], key[0], key[2], key[4], key[3]


def totals_of(stream):
    """Packets and octets by key, and how many records have none."""
    totals, left_out = defaultdict(lambda: [0, 0]), 0
    for record in stream.records:
        key = key_of(record)
        counts = count_of(record, PACKETS), count_of(record, OCTETS)
        if key is None or None in counts:
            left_out += 1
            continue
        back = count_of(record, PACKETS, True), count_of(record, OCTETS, True)
        for side, (packets, octets) in ((key, counts), (turned(key), back)):
            if packets:
                totals[side][0] += packets
                totals[side][1] += octets or 0
    return totals, left_out


def named(key):
    """A key as text."""
    source, destination, protocol, *ports = key
    ends = []
    for address, port in zip((source, destination), ports):
        text = str(ip_address(address))
        if protocol in WITH_PORTS:
            text = f"[{text}]:{port}" if len(address) == 16 else f"{text}:{port}"
        ends.append(text)
    return f"{ends[0]} -> {ends[1]} {PROTOCOLS.get(protocol, f'protocol {protocol}')}"


def read(path):
    """The totals of a stream, and how many records it has."""
    with open(path, "rb") as file:
        octets = file.read()
    try:
        stream = Stream(octets)
        totals, left_out = totals_of(stream)
    except (ValueError, IndexError) as fault:
        raise ValueError(f"{path}: {fault}") from None
    if left_out:
        print(f"{NAME}: {path}: {left_out} records without addresses or counts aren't compared", file=sys.stderr)
    if stream.unknown:
        print(f"{NAME}: {path}: {stream.unknown} sets whose template isn't there aren't compared", file=sys.stderr)
    return totals, len(stream.records) - left_out


def compare(paths, lines):
    """Prints what differs. The status."""
    (first, first_records), (second, second_records) = (read(path) for path in paths)
    if not first and not second:
        raise ValueError("neither stream has a flow record")
    nothing = [0, 0]
    both = {key: (first.get(key, nothing), second.get(key, nothing)) for key in first.keys() | second.keys()}
    others = [key for key, (one, other) in both.items() if one != other]
    others.sort(key=lambda key: (-abs(both[key][0][1] - both[key][1][1]), key))
    for key in others[:lines]:
        (packets, octets), (other_packets, other_octets) = both[key]
        print(f"{named(key)}: packets {packets} and {other_packets}, octets {octets} and {other_octets}")
    if len(others) > lines:
        print(f"and {len(others) - lines} more that differ")
    for path, totals, records in ((paths[0], first, first_records), (paths[1], second, second_records)):
        packets, octets = (sum(count[place] for count in totals.values()) for place in (0, 1))
        print(f"{path}: records {records}, keys {len(totals)}, packets {packets}, octets {octets}")
    only = [sum(key not in there for key in here) for here, there in ((first, second), (second, first))]
    print(f"keys: {len(both) - len(others)} alike, {len(others) - sum(only)} with other totals, "
          f"{only[0]} only in the first, {only[1]} only in the second")
    return 1 if others else 0


def command_line(words):
    """Both paths, and how many lines."""
    lines, rest = 20, list(words)
    while rest and rest[0].startswith("--"):
        name, has_value, value = rest.pop(0).partition("=")
        if name != "--lines":
            raise Wrong(f"no option {name}")
        if not has_value and not rest:
            raise Wrong("--lines has no value")
        value = value if has_value else rest.pop(0)
        if not (value.isascii() and value.isdigit() and int(value) <= 1_000_000):
            raise Wrong(f"--lines is a number from 0 to 1000000, not {value!r}")
        lines = int(value)
    if len(rest) != 2:
        raise Wrong("two streams are wanted")
    return rest, lines


if __name__ == "__main__":
    if "--help" in sys.argv[1:] or "-h" in sys.argv[1:]:
        print(__doc__, end="")
        sys.exit(0)
    try:
        sys.exit(compare(*command_line(sys.argv[1:])))
    except Wrong as wrong:
        print(f"{NAME}: {wrong}; --help tells more", file=sys.stderr)
    except BrokenPipeError:
        sys.stderr.close()
    except OSError as fault:
        print(f"{NAME}: {fault.filename}: {fault.strerror}", file=sys.stderr)
    except ValueError as fault:
        print(f"{NAME}: {fault}", file=sys.stderr)
    sys.exit(2)
