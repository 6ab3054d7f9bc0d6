#!/usr/bin/env python3
"""Turns what tshark decodes of an IPFIX file stream into the lines of `romtyalig show`.

    tshark -n -r STREAM -T pdml | python3 checks/tshark_records.py [SIZE]

One line per data record: the template number, then per field in tshark's order NUMBER=VALUE, where 29305. stands in
front of the number of a reverse element (RFC 5103). The values are those that tshark shows; no byte of the stream is
decoded here. Any remark of tshark's, such as that of an unexpected sequence number or of a malformed message, and any
message of more than SIZE octets, ends the program with status 1.
"""

import ipaddress
import sys
from datetime import datetime, timedelta, timezone
from xml.etree import ElementTree

EPOCH = datetime(1970, 1, 1, tzinfo=timezone.utc)


def milliseconds(shown: str) -> str:
    """Such as 'Nov 14, 2023 22:13:20.009000000 UTC'."""
    whole, fraction = shown.removesuffix(" UTC").split(".")
    time = datetime.strptime(whole, "%b %d, %Y %H:%M:%S").replace(tzinfo=timezone.utc)
    return str((time - EPOCH) // timedelta(milliseconds=1) + int(fraction) // 1_000_000)


def address6(shown: str) -> str:
    return ipaddress.IPv6Address(shown).packed.hex()


def same(shown: str) -> str:
    return shown


def flags(shown: str) -> str:
    return str(int(shown, 16))


ELEMENTS = {
    "cflow.srcaddr": (8, same),
    "cflow.dstaddr": (12, same),
    "cflow.srcaddrv6": (27, address6),
    "cflow.dstaddrv6": (28, address6),
    "cflow.srcport": (7, same),
    "cflow.dstport": (11, same),
    "cflow.protocol": (4, same),
    "cflow.tcpflags": (6, flags),
    "cflow.packets": (2, same),
    "cflow.octets": (1, same),
    "cflow.abstimestart": (152, milliseconds),
    "cflow.abstimeend": (153, milliseconds),
    "cflow.flow_end_reason": (136, same),
}


def record_line(template: str, flow: ElementTree.Element) -> str:
    line, seen = template, set()
    for part in flow:
        for field in part if part.get("name") == "cflow.timedelta" else [part]:
            name = field.get("name")
            if name not in ELEMENTS:
                sys.exit(f"a field that no record of a flow has: {field.get('showname')}")
            number, value = ELEMENTS[name]
            # tshark says of which element a field is the reverse, but for times.
            if part is field and (name in seen) != (f"(Reverse Type {number} " in field.get("showname")):
                sys.exit(f"a field of the wrong direction: {field.get('showname')}")
            line += f" {'29305.' if name in seen else ''}{number}={value(field.get('show'))}"
            seen.add(name)
    return line


def sets_of(message: ElementTree.Element):
    """The fields of each set: those whose first field is the number of a set."""
    for part in message.iter("field"):
        if len(part) > 0 and part[0].get("name") == "cflow.flowset_id":
            yield part


def main() -> None:
    size = int(sys.argv[1]) if len(sys.argv) > 1 else 65535
    lines = []
    for _, packet in ElementTree.iterparse(sys.stdin.buffer):
        if packet.tag != "packet":
            continue
        messages = [part for part in packet if part.get("name") == "cflow"]
        if len(messages) != 1:
            sys.exit("a message that tshark does not take for one")
        for field in packet.iter("field"):
            if field.get("name") in ("_ws.expert.message", "_ws.malformed", "_ws.short"):
                sys.exit(f"tshark remarks: {field.get('show') or field.get('showname')}")
            if field.get("name") == "cflow.len" and int(field.get("show")) > size:
                sys.exit(f"a message of {field.get('show')} octets")
        for part in sets_of(messages[0]):
            template = part[0].get("show")
            for flow in part:
                if flow.get("show", "").startswith("Flow "):
                    lines.append(record_line(template, flow))
        packet.clear()
    sys.stdout.write("".join(line + "\n" for line in lines))


if __name__ == "__main__":
    main()
