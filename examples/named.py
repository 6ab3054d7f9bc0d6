#!/usr/bin/env python3
"""Prints the lines of `romtyalig show` with the names of the IANA registry, for whatever takes no IPFIX.

    romtyalig show < flows.ipfix | named.py [--line | --csv | --json]

With no option each record is a line of NAME=VALUE, in the order of its fields.

    --line   each record is a sentence, with addresses, ports, the protocol and times in UTC as one reads them:
             10.9.0.1:56214 -> 10.9.0.2:8080 TCP 6 packets 1200 octets from 2026-11-29 12:00:00.250 to 12:00:01.000 SYN ACK, idle
    --csv    the first line has the names of all fields that occur, and each record is a line, with nothing where it has no such
             field; all lines are read before the first is written
    --json   each record is an object in a line of its own; there and in CSV the last of two fields of one name counts
    --help   this text

IPv6 addresses are written as addresses, and the elements of a biflow's reverse flow (RFC 5103) as reverseNAME; times are in
milliseconds since 1970, but for --line. An element that isn't in the table of this program keeps its number and its value. The
number of the template is left out. The status is 1 where a line isn't one of `show` or, with --line, no flow record, and 2 where
the command line is wrong.
"""
import csv
import ipaddress
import json
import os
import re
import sys
from datetime import datetime, timedelta

NAME = os.path.splitext(os.path.basename(sys.argv[0]))[0]
EPOCH = datetime(1970, 1, 1)
PROTOCOLS = {1: "ICMP", 6: "TCP", 17: "UDP", 47: "GRE", 50: "ESP", 58: "ICMPv6"}
WITH_PORTS = (6, 17)
FLAGS = ("FIN", "SYN", "RST", "PSH", "ACK", "URG", "ECE", "CWR", "AE", "0x200", "0x400", "0x800")
REASONS = {1: "idle", 2: "active", 3: "end seen", 4: "capture ended"}
FIELD = re.compile(r"(\d+\.)?\d+=\S*")

# Written by checks/element_names.py from crates/ipfix_model/src/elements.rt.
# names begin
REVERSE = 29305
NAMES = {
    1: "octetDeltaCount",
    2: "packetDeltaCount",
    4: "protocolIdentifier",
    6: "tcpControlBits",
    7: "sourceTransportPort",
    8: "sourceIPv4Address",
    11: "destinationTransportPort",
    12: "destinationIPv4Address",
    27: "sourceIPv6Address",
    28: "destinationIPv6Address",
    136: "flowEndReason",
    152: "flowStartMilliseconds",
    153: "flowEndMilliseconds",
}
# names end


def named(field):
    """The name and the value of a field NUMBER=VALUE or ENTERPRISE.NUMBER=VALUE."""
    number, value = field.split("=", 1)
    enterprise, _, element = number.rpartition(".")
    name = NAMES.get(int(element))
    if name is None or enterprise not in ("", str(REVERSE)):
        return number, value
    if enterprise:
        name = "reverse" + name[0].upper() + name[1:]
    return name, value_of(name, value, enterprise != "")


def value_of(name, value, is_bytes):
    """A number where the element is one, else text. The values of a reverse flow stand as bytes in hexadecimal."""
    if "IPv6" in name:
        return str(ipaddress.IPv6Address(bytes.fromhex(value))) if len(value) == 32 else value
    if "IPv4" in name:
        return value
    if is_bytes:
        return int(value, 16) if 2 <= len(value) <= 16 else value
    return int(value) if value.isdigit() else value


def records(lines):
    """The names and values of each line."""
    for line in lines:
        if "\0" in line:
            raise ValueError(f"a stream goes through show first, as in: romtyalig show < flows.ipfix | {NAME}")
        template, *fields = line.split() or [""]
        if not template.isdigit() or not all(FIELD.fullmatch(field) for field in fields):
            raise ValueError(f"not a line of romtyalig show: {line.strip()[:60]!r}")
        yield [named(field) for field in fields]


def columns_of(rows):
    """All names that occur: those of the first record first."""
    columns = {}
    for row in rows:
        for name, _ in row:
            columns.setdefault(name)
    return list(columns)


def write_csv(rows):
    rows = [dict(row) for row in rows]
    columns = columns_of(row.items() for row in rows)
    table = csv.DictWriter(sys.stdout, columns, restval="", lineterminator="\n")
    if columns:
        table.writeheader()
    table.writerows(rows)


def end_of(address, port, has_port):
    if not has_port:
        return address
    return f"[{address}]:{port}" if ":" in address else f"{address}:{port}"


def counted(number, what):
    return f"{number} {what}" if number == 1 else f"{number} {what}s"


def times(first, last):
    """Both times in UTC, the second without its date where that is the same."""
    texts = [(EPOCH + timedelta(milliseconds=time)).isoformat(" ", "milliseconds") for time in (first, last)]
    return f"from {texts[0]} to {texts[1][11:] if texts[0][:10] == texts[1][:10] else texts[1]}"


def way(flow, prefix=""):
    """Packets, octets, times, flags and reason of one direction, of whose names this is the prefix."""
    def field(name):
        return flow[prefix + name[0].upper() + name[1:] if prefix else name]

    flags = "".join(f" {flag}" for bit, flag in enumerate(FLAGS) if field("tcpControlBits") & 1 << bit)
    reason = REASONS.get(field("flowEndReason"), f"reason {field('flowEndReason')}")
    counts = f"{counted(field('packetDeltaCount'), 'packet')} {counted(field('octetDeltaCount'), 'octet')}"
    return f"{counts} {times(field('flowStartMilliseconds'), field('flowEndMilliseconds'))}{flags}, {reason}"


def sentence(row):
    """A flow record as a sentence."""
    flow = dict(row)
    version = "IPv4" if "sourceIPv4Address" in flow else "IPv6"
    try:
        protocol = flow["protocolIdentifier"]
        ports = flow["sourceTransportPort"], flow["destinationTransportPort"]
        # A later fragment has no ports.
        has_ports = protocol in WITH_PORTS and ports != (0, 0)
        source = end_of(flow[f"source{version}Address"], ports[0], has_ports)
        destination = end_of(flow[f"destination{version}Address"], ports[1], has_ports)
        text = f"{source} -> {destination} {PROTOCOLS.get(protocol, f'protocol {protocol}')} {way(flow)}"
        return f"{text}; back {way(flow, 'reverse')}" if "reversePacketDeltaCount" in flow else text
    except KeyError as missing:
        raise ValueError(f"no flow record: it has no {missing.args[0]}") from None
    except (TypeError, OverflowError):
        raise ValueError(f"no flow record: {' '.join(f'{name}={value}' for name, value in row)}") from None


def main(words):
    if len(words) > 1 or words and words[0] not in ("--line", "--csv", "--json"):
        print(f"{NAME}: not expected: {words[-1]}; --help tells more", file=sys.stderr)
        sys.exit(2)
    rows = records(sys.stdin)
    if words == ["--csv"]:
        write_csv(rows)
        return
    for row in rows:
        if words == ["--line"]:
            print(sentence(row))
        else:
            print(json.dumps(dict(row)) if words else " ".join(f"{name}={value}" for name, value in row))


if __name__ == "__main__":
    if "--help" in sys.argv[1:] or "-h" in sys.argv[1:]:
        print(__doc__, end="")
        sys.exit(0)
    try:
        main(sys.argv[1:])
    except UnicodeDecodeError:
        sys.exit(f"{NAME}: not lines of romtyalig show")
    except ValueError as fault:
        sys.exit(f"{NAME}: {fault}")
    except BrokenPipeError:
        sys.stderr.close()
