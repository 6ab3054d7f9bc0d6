#!/usr/bin/env python3
"""examples/compare.py finds what differs between two streams, and nothing where other meters count the same.

    python3 checks/compare.py

Pairs of streams are made here whose totals are known: the same flows cut otherwise, flows as biflows, NetFlow version 9, and one with a
count changed, a key missing and a key more, for which the lines that it must write stand below. Then two other meters read a
capture that is made here, and the stream of `meter` must have the same totals by key as theirs: softflowd (package softflowd)
sends IPFIX, and nfpcapd's files go out by nfreplay (package nfdump). On a capture with IP fragments they must differ in the lines
that stand below, and in no other: as docs/RECIPES.md says. What is missing is skipped with one line. The status is 1 where
anything differs. ROMTYALIG and ROMTYALIG_PAIR are the programs' paths (bin/romtyalig and bin/romtyalig-pair unless set).
"""
import os
import shutil
import socket
import struct
import subprocess
import sys
import tempfile
from pathlib import Path

sys.dont_write_bytecode = True

import generate  # noqa: E402
import second_meter  # noqa: E402

TOP = Path(__file__).resolve().parent.parent
PROGRAM = os.environ.get("ROMTYALIG", str(TOP / "bin" / "romtyalig"))
PAIR = os.environ.get("ROMTYALIG_PAIR", str(TOP / "bin" / "romtyalig-pair"))
COMPARE = [sys.executable, "-B", str(TOP / "examples" / "compare.py")]
HOST, START = "127.0.0.1", generate.START


def run(*words: str, octets: bytes = b"") -> subprocess.CompletedProcess:
    return subprocess.run([*words], input=octets, capture_output=True, timeout=60, check=False)


def address(text: str) -> bytes:
    return socket.inet_pton(socket.AF_INET6 if ":" in text else socket.AF_INET, text)


def flow(source: str, destination: str, protocol: int, ports: tuple[int, int], packets: int, octets: int, at: int = 0) -> list:
    version = 6 if ":" in source else 4
    key = (version, address(source), address(destination), protocol, *ports)
    return [key, packets, octets, START + at, START + at + 10, 0, 4]


def stream(*flows: list) -> bytes:
    return second_meter.stream_of(list(flows), START // 1000, 1400)


def netflow(*flows: list) -> bytes:
    """Two datagrams of NetFlow version 9 (RFC 3954), of the flows over IPv4: templates, options among them, and records."""
    fields = [(8, 4), (12, 4), (4, 1), (7, 2), (11, 2), (2, 4), (1, 4)]
    template = struct.pack(">HH", 300, len(fields)) + b"".join(struct.pack(">HH", *field) for field in fields)
    options = struct.pack(">HHHHHHH", 301, 4, 4, 1, 4, 34, 4) + bytes(2)
    sets = struct.pack(">HH", 0, 4 + len(template)) + template + struct.pack(">HH", 1, 4 + len(options)) + options
    header = struct.pack(">HHIIII", 9, 2, 0, 0, 0, 7)
    body = b"".join(
        key[1] + key[2] + struct.pack(">BHHII", *key[3:], packets, octets) for key, packets, octets, *_ in flows)
    body += bytes(-len(body) % 4)
    return header + sets + header + struct.pack(">HH", 301, 12) + bytes(8) + struct.pack(">HH", 300, 4 + len(body)) + body


WEB = flow("10.0.0.1", "10.0.0.2", 6, (40000, 80), 5, 700)
QUERY = flow("2001:db8::1", "2001:db8::2", 17, (5000, 53), 2, 120)
PING = flow("10.0.0.1", "10.0.0.2", 1, (0, 0), 3, 252)
TYPED = flow("10.0.0.1", "10.0.0.2", 1, (0, 2048), 3, 252)
OTHERS = """\
10.0.0.1:40000 -> 10.0.0.2:80 TCP: packets 5 and 6, octets 700 and 1000
10.0.0.1 -> 10.0.0.2 ICMP: packets 3 and 0, octets 252 and 0
10.0.0.9 -> 10.0.0.2 protocol 47: packets 0 and 1, octets 0 and 60
first: records 3, keys 3, packets 10, octets 1072
second: records 3, keys 3, packets 9, octets 1180
keys: 1 alike, 1 with other totals, 1 only in the first, 1 only in the second
"""


def compared(first: bytes, second: bytes, *words: str) -> subprocess.CompletedProcess:
    """What is said of two streams, by the names `first` and `second`."""
    with tempfile.TemporaryDirectory() as folder:
        for name, octets in (("first", first), ("second", second)):
            (Path(folder) / name).write_bytes(octets)
        words = [*COMPARE, *words, "first", "second"]
        return subprocess.run(words, cwd=folder, capture_output=True, text=True, timeout=60, check=False)


def fault_of(first: bytes, second: bytes, status: int, out: str | None, *words: str) -> str:
    """What is wrong with a comparison, or nothing."""
    ran = compared(first, second, *words)
    return "" if ran.returncode == status and out in (None, ran.stdout) else f"status {ran.returncode}\n{ran.stdout}{ran.stderr}"


def made() -> str:
    """Streams whose totals are known."""
    cut = [flow("10.0.0.1", "10.0.0.2", 6, (40000, 80), 2, 300), flow("10.0.0.1", "10.0.0.2", 6, (40000, 80), 3, 400, 99)]
    other = [flow("10.0.0.1", "10.0.0.2", 6, (40000, 80), 6, 1000), QUERY, flow("10.0.0.9", "10.0.0.2", 47, (0, 0), 1, 60)]
    back = flow("10.0.0.2", "10.0.0.1", 6, (80, 40000), 4, 5000)
    alone = stream(WEB, back)
    biflows = run(PAIR, "pair", octets=alone).stdout
    short = OTHERS.replace("10.0.0.9 -> 10.0.0.2 protocol 47: packets 0 and 1, octets 0 and 60\n", "and 1 more that differ\n")
    rows = [
        ("cut otherwise", stream(WEB, QUERY), stream(*cut, QUERY), 0, None, ()),
        ("an ICMP type in a port", stream(WEB, PING), netflow(WEB, TYPED), 0, None, ()),
        ("biflows", alone, biflows, 0, None, ()),
        ("what differs", stream(WEB, QUERY, PING), stream(*other), 1, OTHERS, ()),
        ("two lines", stream(WEB, QUERY, PING), stream(*other), 1, short, ("--lines", "2")),
        ("ports swapped", stream(WEB), stream(flow("10.0.0.1", "10.0.0.2", 6, (80, 40000), 5, 700)), 1, None, ()),
        ("nothing in the first", stream(), stream(WEB), 1, None, ()),
        ("nothing in both", stream(), stream(), 2, "", ()),
        ("cut short", stream(WEB), stream(WEB)[:-1], 2, "", ()),
        ("a capture", stream(WEB), generate.capture([]), 2, "", ()),
    ]
    for what, first, second, status, out, words in rows:
        if fault := fault_of(first, second, status, out, *words):
            return f"{what}: {fault}"
    return ""


def refused() -> str:
    """Command lines that are wrong, with their lines."""
    for words, line in [((), "two streams are wanted"), (("a",), "two streams are wanted"), (("--line=1", "a", "b"), "no option --line"),
                        (("--lines",), "--lines has no value"), (("--lines=-1", "a", "b"), "--lines is a number from 0 to 1000000, not '-1'"),
                        (("none", "none"), "none: No such file or directory")]:
        ran = run(*COMPARE, *words)
        if ran.returncode != 2 or ran.stdout or not ran.stderr.decode().startswith(f"compare: {line}"):
            return f"{words}: status {ran.returncode}, {ran.stderr.decode()}"
    helped = run(*COMPARE, "--help")
    return "" if helped.returncode == 0 and helped.stdout and not helped.stderr else "--help"


def ethernet(packet: bytes) -> bytes:
    return generate.ethernet(0x86DD if packet[0] >> 4 == 6 else 0x0800, packet)


def plain_capture() -> bytes:
    """TCP, UDP and ICMP over both versions, in both directions, and ESP."""
    packets = []
    for talk in range(8):
        ends, ends6 = (f"10.0.0.{talk + 1}", "198.51.100.7"), (f"2001:db8::{talk + 1:x}", "2001:db8:1::53")
        for place in range(6 + talk):
            out = place % 2 == 0
            there, ports = (ends, (40000 + talk, 443)) if out else (ends[::-1], (443, 40000 + talk))
            segment = generate.segment(*ports, (0x002, 0x012)[place] if place < 2 else 0x010, bytes(31 * place))
            packets.append((100 * talk + 10 * place, generate.raw4(6, *there, segment)))
        packets.append((70 * talk, generate.raw4(17, *ends, generate.datagram(5000 + talk, 53, bytes(40)))))
        packets.append((70 * talk, generate.raw6(17, *ends6, generate.datagram(5000 + talk, 53, bytes(50)))))
        packets.append((70 * talk + 3, generate.raw6(17, *ends6[::-1], generate.datagram(53, 5000 + talk, bytes(90)))))
        packets.append((90 * talk, generate.raw6(6, *ends6, generate.segment(6000 + talk, 80, 0x010, bytes(60)))))
        packets.append((500 + talk, generate.raw4(1, "10.0.0.1", "10.0.0.2", bytes([8]) + bytes(63))))
        packets.append((501 + talk, generate.raw6(58, "2001:db8::1", "2001:db8::2", bytes([128]) + bytes(63))))
    packets.append((600, generate.raw4(50, "10.0.0.1", "10.0.0.2", bytes(64))))
    return generate.capture([(START + time, ethernet(packet)) for time, packet in sorted(packets)])


def fragments_capture() -> bytes:
    """A datagram in three fragments over each version, and one whole."""
    data = generate.datagram(7000, 7001, bytes(4000))
    packets = [generate.raw4(17, "10.0.0.1", "10.0.0.2", generate.datagram(7000, 7001, bytes(100)))]
    for start in (0, 1480, 2960):
        more = 0x2000 if start < 2960 else 0
        packets.append(generate.raw4(17, "10.0.0.1", "10.0.0.2", data[start:start + 1480], fragment=more | start // 8))
    for start in (0, 1448, 2896):
        head = generate.fragment(17, start // 8, 1 if start < 2896 else 0)
        packets.append(generate.raw6(44, "2001:db8::1", "2001:db8::2", head + data[start:start + 1448]))
    return generate.capture([(START + 10 * place, ethernet(packet)) for place, packet in enumerate(packets)])


# The lines on the fragments, by meter. Of the second datagram each fragment has a header of 48 octets; the three have 1496, 1496 and
# 1160 octets. softflowd takes no protocol from a later fragment of IPv6. nfpcapd makes fragments of IPv4 one packet, with one header,
# and takes those of IPv6 as a protocol of its own.
FRAGMENTS = {
    "softflowd": """\
2001:db8::1 -> 2001:db8::2 protocol 0: packets 0 and 2, octets 0 and 2656
[2001:db8::1]:0 -> [2001:db8::2]:0 UDP: packets 2 and 0, octets 2656 and 0
""",
    "nfpcapd": """\
2001:db8::1 -> 2001:db8::2 protocol 44: packets 0 and 3, octets 0 and 4152
[2001:db8::1]:0 -> [2001:db8::2]:0 UDP: packets 2 and 0, octets 2656 and 0
10.0.0.1:0 -> 10.0.0.2:0 UDP: packets 2 and 0, octets 2568 and 0
10.0.0.1:7000 -> 10.0.0.2:7001 UDP: packets 2 and 2, octets 1628 and 4156
[2001:db8::1]:7000 -> [2001:db8::2]:7001 UDP: packets 1 and 0, octets 1496 and 0
""",
}


def sent_by(command) -> bytes:
    """The datagrams that a command sends to the port that it is given, one after the other."""
    with socket.socket(socket.AF_INET, socket.SOCK_DGRAM) as receiver:
        receiver.setsockopt(socket.SOL_SOCKET, socket.SO_RCVBUF, 1 << 20)
        receiver.bind((HOST, 0))
        receiver.settimeout(1)
        command(receiver.getsockname()[1])
        found = []
        try:
            while True:
                found.append(receiver.recv(65_536))
        except TimeoutError:
            return b"".join(found)


def by_softflowd(capture: Path) -> bytes:
    words = ["softflowd", "-r", str(capture), "-v", "10", "-A", "milli", "-d", "-c", "none", "-n"]
    return sent_by(lambda port: run(*words, f"{HOST}:{port}"))


def by_nfpcapd(capture: Path) -> bytes:
    with tempfile.TemporaryDirectory() as folder:
        run("nfpcapd", "-r", str(capture), "-w", folder)
        files = sorted(Path(folder).iterdir())
        return b"".join(sent_by(lambda port: run("nfreplay", "-r", str(file), "-H", HOST, "-p", str(port), "-v", "9")) for file in files)


def other_meter(meter: str, sender) -> str:
    """What is wrong with the comparison with this meter."""
    with tempfile.TemporaryDirectory() as folder:
        for name, octets, wanted in (("plain", plain_capture(), ""), ("fragments", fragments_capture(), FRAGMENTS[meter])):
            capture = Path(folder) / name
            capture.write_bytes(octets)
            ran = compared(run(PROGRAM, "meter", octets=octets).stdout, sender(capture))
            lines = [line for line in ran.stdout.splitlines() if " -> " in line]
            if ran.returncode != bool(wanted) or sorted(lines) != sorted(wanted.splitlines()):
                return f"{name}: status {ran.returncode}\n{ran.stdout}{ran.stderr}"
    return ""


def main() -> None:
    rows = [("streams whose totals are known", made), ("what is refused", refused)]
    for meter, sender, needed in (("softflowd", by_softflowd, ["softflowd"]), ("nfpcapd", by_nfpcapd, ["nfpcapd", "nfreplay"])):
        missing = [name for name in needed if not shutil.which(name) and not Path("/usr/sbin", name).exists()]
        if missing:
            print(f"skipped: no {missing[0]} (packages softflowd, nfdump)")
        else:
            rows.append((f"by {meter}, and what it does otherwise about fragments", lambda m=meter, s=sender: other_meter(m, s)))
    differs = 0
    for what, row in rows:
        fault = row()
        print(f"DIFFERS: {what}: {fault}" if fault else f"same: {what}")
        differs += bool(fault)
    sys.exit(1 if differs else 0)


if __name__ == "__main__":
    os.environ["PATH"] += ":/usr/sbin"
    main()
