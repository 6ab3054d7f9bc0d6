#!/usr/bin/env python3
"""Turns what ipfixDump of libfixbuf decodes of an IPFIX file stream into lines like those of `romtyalig show`.

    ipfixDump --in STREAM | python3 checks/dumped_records.py

One line per data record: the template number, then per field in ipfixDump's order NUMBER=VALUE, where 29305. stands in front
of the number of a reverse element (RFC 5103). The values are those that ipfixDump shows, its times in UTC; no byte of the
stream is decoded here. A line of a record that isn't of this form ends the program with status 1.
"""

import ipaddress
import re
import sys
from datetime import datetime, timedelta, timezone

EPOCH = datetime(1970, 1, 1, tzinfo=timezone.utc)
TEMPLATE = re.compile(r"\tcount: *\d+ +tid: *(\d+) ")
FIELD = re.compile(r"\t\((?:(\d+)/)?(\d+)\) +(\w+) : (\S.*)")


def milliseconds(shown: str) -> int:
    time = datetime.strptime(shown, "%Y-%m-%d %H:%M:%S.%f").replace(tzinfo=timezone.utc)
    return (time - EPOCH) // timedelta(milliseconds=1)


def value_of(element: str, shown: str) -> str:
    if element in ("152", "153"):
        return str(milliseconds(shown))
    if element in ("27", "28"):
        return ipaddress.IPv6Address(shown).packed.hex()
    return shown


def main() -> None:
    lines, inside = [], False
    for line in sys.stdin:
        if line.startswith("--- "):
            inside = line.startswith("--- data record ")
            if inside:
                lines.append("")
        elif inside and line.startswith("\t"):
            template, field = TEMPLATE.match(line), FIELD.match(line.rstrip("\n"))
            if template:
                lines[-1] = template[1]
            elif field:
                enterprise, element, _, shown = field.groups()
                lines[-1] += f" {'' if enterprise is None else enterprise + '.'}{element}={value_of(element, shown)}"
            else:
                sys.exit(f"a line of a record that has another form: {line}")
    sys.stdout.write("".join(line + "\n" for line in lines))


if __name__ == "__main__":
    main()
