#!/usr/bin/env python3
"""The lines, CSV, JSON and sentences of examples/named.py say what `show` says, by the names of the registry.

    python3 checks/named.py

For the captures of examples/ and of checks/generate.py, the flow records of `meter` and the biflows of `romtyalig-pair` go
through `show` and examples/named.py, and each name and value is compared with the line of `show`. The names are taken from
crates/ipfix_model/specs/Elements.antt, which examples/named.py doesn't read, and must be names that libfixbuf knows (ipfixDump of
the Debian package libfixbuf-tools; without it that is skipped with one line). The sentences of --line are compared with those that
stand below beside their records, and what is refused by status and line. The table of the fields in docs/OPERATORS.md and in the
manual page of romtyalig has the numbers and names of Elements.antt, in the order in which `show` has the fields. The status is 1 where anything differs. ROMTYALIG
and ROMTYALIG_PAIR are the programs' paths (bin/romtyalig and bin/romtyalig-pair unless set).
"""
import csv
import io
import ipaddress
import json
import os
import re
import shutil
import subprocess
import sys
import tempfile
from pathlib import Path

TOP = Path(__file__).resolve().parent.parent
PROGRAM = os.environ.get("ROMTYALIG", str(TOP / "bin" / "romtyalig"))
PAIR = os.environ.get("ROMTYALIG_PAIR", str(TOP / "bin" / "romtyalig-pair"))
NAMED = [sys.executable, "-B", str(TOP / "examples" / "named.py")]
ELEMENTS = (TOP / "crates" / "ipfix_model" / "specs" / "Elements.antt").read_text()
NAMES = {int(number): name for name, number in re.findall(r"^-- (\w+)\nabbrev pub \w+ : ℕ\n\w+ = (\d+)$", ELEMENTS, re.M)}

REVERSED = "29305.6=0012 29305.2=0000000000000001 29305.1=0000000000000028 29305.152=0000018bcfe56819 29305.153=0000018bcfe56819"
# Records and what --line makes of them. 1,700,000,000 seconds after 1970 it was 22:13:20 on 14 November 2023 (UTC).
SENTENCES = [
    ("256 8=10.9.0.1 12=10.9.0.2 7=56214 11=8080 4=6 6=27 2=6 1=1200 152=1700000000250 153=1700000001000 136=3",
     "10.9.0.1:56214 -> 10.9.0.2:8080 TCP 6 packets 1200 octets "
     "from 2023-11-14 22:13:20.250 to 22:13:21.000 FIN SYN PSH ACK, end seen"),
    ("257 27=20010db8000000000000000000000001 28=20010db8000000000000000000000053 7=5000 11=53 4=17 6=0 2=1 1=1"
     " 152=1700000000000 153=1700086400000 136=1",
     "[2001:db8::1]:5000 -> [2001:db8::53]:53 UDP 1 packet 1 octet "
     "from 2023-11-14 22:13:20.000 to 2023-11-15 22:13:20.000, idle"),
    ("256 8=10.0.0.1 12=10.0.0.2 7=0 11=0 4=1 6=0 2=2 1=168 152=1700000000000 153=1700000000000 136=4",
     "10.0.0.1 -> 10.0.0.2 ICMP 2 packets 168 octets from 2023-11-14 22:13:20.000 to 22:13:20.000, capture ended"),
    ("256 8=10.0.0.1 12=10.0.0.2 7=0 11=0 4=17 6=0 2=2 1=168 152=0 153=0 136=2",
     "10.0.0.1 -> 10.0.0.2 UDP 2 packets 168 octets from 1970-01-01 00:00:00.000 to 00:00:00.000, active"),
    ("256 8=10.0.0.1 12=10.0.0.2 7=0 11=80 4=6 6=4095 2=2 1=168 152=0 153=0 136=5",
     "10.0.0.1:0 -> 10.0.0.2:80 TCP 2 packets 168 octets from 1970-01-01 00:00:00.000 to 00:00:00.000 "
     "FIN SYN RST PSH ACK URG ECE CWR AE 0x200 0x400 0x800, reason 5"),
    ("256 8=10.0.0.1 12=10.0.0.2 7=0 11=0 4=132 6=0 2=2 1=168 152=0 153=0 136=4",
     "10.0.0.1 -> 10.0.0.2 protocol 132 2 packets 168 octets from 1970-01-01 00:00:00.000 to 00:00:00.000, capture ended"),
    (f"258 8=10.0.0.1 12=10.0.0.2 7=4000 11=80 4=6 6=2 2=2 1=120 152=1700000000010 153=1700000000020 136=4 {REVERSED} 29305.136=04",
     "10.0.0.1:4000 -> 10.0.0.2:80 TCP 2 packets 120 octets from 2023-11-14 22:13:20.010 to 22:13:20.020 SYN, capture ended; "
     "back 1 packet 40 octets from 2023-11-14 22:13:20.025 to 22:13:20.025 SYN ACK, capture ended"),
]
# Words, input, status and how the line on standard error begins.
REFUSED = [
    (["--xml"], b"", 2, "named: not expected: --xml; --help tells more"),
    (["--csv", "--json"], b"", 2, "named: not expected: --json; --help tells more"),
    ([], b"hello\n", 1, "named: not a line of romtyalig show: 'hello'"),
    ([], b"\n", 1, "named: not a line of romtyalig show: ''"),
    ([], b"256 8:10.0.0.1\n", 1, "named: not a line of romtyalig show: '256 8:10.0.0.1'"),
    ([], b"\x00\x0a\x00\x74", 1, "named: a stream goes through show first"),
    (["--line"], b"256 8=10.0.0.1 12=10.0.0.2\n", 1, "named: no flow record: it has no protocolIdentifier"),
]


def ran(words: list[str], octets: bytes) -> bytes:
    return subprocess.run(words, input=octets, stdout=subprocess.PIPE, stderr=subprocess.DEVNULL, check=True).stdout


def wanted(line: str) -> dict[str, str]:
    """The names and values of a line of `show`."""
    out = {}
    for field in line.split()[1:]:
        number, value = field.split("=")
        if number.startswith("29305."):
            name = NAMES[int(number[6:])]
            out["reverse" + name[0].upper() + name[1:]] = str(int(value, 16))
        else:
            six = number in ("27", "28")
            out[NAMES[int(number)]] = str(ipaddress.IPv6Address(bytes.fromhex(value))) if six else value
    return out


def compare(what: str, stream: bytes) -> str:
    """The first form that differs, or nothing."""
    shown = ran([PROGRAM, "show"], stream)
    rows = [wanted(line) for line in shown.decode().splitlines()]
    lines = ran(NAMED, shown).decode().splitlines()
    if lines != [" ".join(f"{name}={value}" for name, value in row.items()) for row in rows]:
        return f"DIFFERS: {what}, lines"
    table = csv.DictReader(io.StringIO(ran(NAMED + ["--csv"], shown).decode()))
    if [{name: value for name, value in row.items() if value != ""} for row in table] != rows:
        return f"DIFFERS: {what}, CSV"
    objects = [json.loads(line) for line in ran(NAMED + ["--json"], shown).decode().splitlines()]
    if [{name: str(value) for name, value in row.items()} for row in objects] != rows:
        return f"DIFFERS: {what}, JSON"
    return f"same: {what}, records {len(rows)}"


def sentences() -> str:
    out = ran(NAMED + ["--line"], "".join(f"{line}\n" for line, _ in SENTENCES).encode()).decode()
    for got, (_, sentence) in zip(out.splitlines() + [""] * len(SENTENCES), SENTENCES):
        if got != sentence:
            return f"DIFFERS: sentences: {got}"
    return "same: sentences" if out.count("\n") == len(SENTENCES) else "DIFFERS: sentences: more lines"


def refused() -> str:
    for words, octets, status, line in REFUSED:
        run = subprocess.run(NAMED + words, input=octets, capture_output=True, check=False)
        if run.returncode != status or run.stdout or not run.stderr.decode().startswith(line):
            return f"DIFFERS: what is refused: {words} {octets}: status {run.returncode}, {run.stderr.decode()}"
    helped = subprocess.run(NAMED + ["--help"], stdin=subprocess.DEVNULL, capture_output=True, check=True)
    return "same: what is refused" if helped.stdout and not helped.stderr else "DIFFERS: --help"


def documented() -> str:
    """The fields in both documents are those of a record, in its order, where one row has both addresses of a kind."""
    rows = re.search(r"^## Fields of a record\n(.*?)^## ", (TOP / "docs" / "OPERATORS.md").read_text(), re.M | re.S)
    in_operators = re.findall(r"^\| ([0-9, ]+) \| `(\w+)`(?:, `(\w+)`)? \|", rows[1] if rows else "", re.M)
    page = (TOP / "man" / "romtyalig.1").read_text()
    in_page = re.findall(r"^\.It Li ([0-9]+)(?: No or Li ([0-9]+))?\n\.Li (\w+)(?: No or Li (\w+))?", page, re.M)
    shown = ran([PROGRAM, "show"], (TOP / "examples" / "web-exchange.ipfix").read_bytes()).decode().splitlines()[0]
    six = {8: [27], 12: [28]}
    wanted = [[int(number)] + six.get(int(number), []) for number in re.findall(r" (\d+)=", shown)]
    operators = [[int(number) for number in numbers.split(", ")] for numbers, *_ in in_operators]
    pages = [[int(number) for number in row[:2] if number] for row in in_page]
    names = [[NAMES[number] for number in numbers] for numbers in wanted]
    if operators != wanted or [[name for name in row[1:] if name] for row in in_operators] != names:
        return f"DIFFERS: fields of docs/OPERATORS.md: {in_operators}"
    if pages != wanted or [[name for name in row[2:] if name] for row in in_page] != names:
        return f"DIFFERS: fields of the manual page: {in_page}"
    return "same: the fields in docs/OPERATORS.md and the manual page"


def known_names(stream: bytes) -> str:
    """The names of the fields that ipfixDump finds in a stream are those of its lines."""
    if not shutil.which("ipfixDump"):
        return "skipped: no ipfixDump (package libfixbuf-tools)"
    with tempfile.NamedTemporaryFile() as file:
        Path(file.name).write_bytes(stream)
        dumped = ran(["ipfixDump", "--data", "--in", file.name], b"").decode()
    shown = ran(NAMED, ran([PROGRAM, "show"], stream)).decode()
    names = set(re.findall(r"(\w+)=", shown))
    missing = [name for name in names if not re.search(rf"\b{name}\b", dumped)]
    return f"DIFFERS: ipfixDump has no {' '.join(missing)}" if missing or not names else "same: the names of ipfixDump"


def main() -> None:
    said = []
    with tempfile.TemporaryDirectory() as folder:
        subprocess.run([sys.executable, "-B", str(TOP / "checks" / "generate.py"), folder], check=True)
        captures = sorted((TOP / "examples").glob("*.pcap")) + sorted(Path(folder).glob("*.pcap"))
        for capture in captures:
            flows = ran([PROGRAM, "meter"], capture.read_bytes())
            said += [compare(f"{capture.name}, flows", flows)]
            said += [compare(f"{capture.name}, biflows", ran([PAIR, "pair"], flows))]
        both = ran([PAIR, "pair"], ran([PROGRAM, "meter"], (Path(folder) / "both_ways.pcap").read_bytes()))
        said += [known_names(both), sentences(), refused(), documented()]
    print("\n".join(said))
    sys.exit(1 if any(line.startswith("DIFFERS") for line in said) else 0)


if __name__ == "__main__":
    main()
