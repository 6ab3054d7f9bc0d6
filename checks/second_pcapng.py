#!/usr/bin/env python3
"""A second reader of pcapng files, written after docs/FORMATS.md, and a comparison with the first on random files.

    python3 checks/second_pcapng.py [FILES [SEED]]

Each of the files (300 unless given) has a few sections in either order of octets, interfaces of known and unknown links with
resolutions and offsets, enhanced, simple and obsolete packets and blocks that are skipped; most are whole, the others are cut
or have a number changed. `romtyalig-pcapng` of the program, at ROMTYALIG_PCAPNG or bin/romtyalig-pcapng, must have the status
that this reader finds, and write the very bytes and, to standard error, the very summary. Then the same for the files that programs of wireshark-common write (editcap,
mergecap, text2pcap) and for those below /usr/share and /usr/lib, if there are any. The first difference ends the run with
status 1 and leaves the file in the current folder.
"""

import os
import random
import shutil
import struct
import subprocess
import sys
import tempfile
from dataclasses import dataclass
from pathlib import Path

sys.dont_write_bytecode = True

import generate  # noqa: E402
import second_meter  # noqa: E402

TOP = Path(__file__).resolve().parent.parent
SECTION, INTERFACE, OBSOLETE, SIMPLE, ENHANCED = 0x0A0D0D0A, 1, 2, 3, 6
LINKS = (1, 101, 113)
HEADER = bytes.fromhex("4d3cb2a1 02000400 00000000 00000000 00000400 65000000")
MOST = 262_144


class Bad(Exception):
    pass


class NoPcapng(Exception):
    pass


def bad_unless(holds: bool) -> None:
    if not holds:
        raise Bad


@dataclass
class Interface:
    link: int
    units: int = 10**6
    offset: int = 0


def order_at(octets: bytes) -> str | None:
    """The order that a section header's bytes from 8 on give."""
    return {b"\x1a\x2b\x3c\x4d": ">", b"\x4d\x3c\x2b\x1a": "<"}.get(octets[8:12])


def padded(length: int) -> int:
    return (length + 3) // 4 * 4


class Reader:
    """The records of a file: link type, seconds, fraction, original length and captured bytes; no time is None."""

    def __init__(self) -> None:
        self.order = "<"
        self.blocks = self.tail = 0
        self.interfaces: list[Interface] = []
        self.records: list[tuple[int, int | None, int, int, bytes]] = []

    def number(self, octets: bytes, at: int, kind: str = "I") -> int:
        return struct.unpack_from(self.order + kind, octets, at)[0]

    def file(self, octets: bytes) -> None:
        if len(octets) < 12 or octets[:4] != b"\x0a\x0d\x0d\x0a" or order_at(octets) is None:
            raise NoPcapng
        at = 0
        while len(octets) - at >= 12:
            length = self.block_length(octets[at:at + 12])
            if length > len(octets) - at:
                break
            bad_unless(self.number(octets, at + length - 4) == length)
            self.block(octets[at:at + length])
            self.blocks += 1
            at += length
        self.tail = len(octets) - at

    def block_length(self, head: bytes) -> int:
        if head[:4] == b"\x0a\x0d\x0d\x0a":
            order = order_at(head)
            bad_unless(order is not None)
            self.order = order
        length = self.number(head, 4)
        bad_unless(length >= 12 and length % 4 == 0)
        return length

    def block(self, block: bytes) -> None:
        kind = self.number(block, 0)
        if kind == SECTION:
            bad_unless(len(block) >= 28 and self.number(block, 12, "H") == 1)
            self.interfaces = []
        elif kind == INTERFACE:
            bad_unless(len(block) >= 20)
            self.interfaces.append(self.interface(block))
        elif kind == ENHANCED:
            self.records.append(self.enhanced(block))
        elif kind == SIMPLE:
            bad_unless(len(block) >= 16)
            self.records.append((0, None, 0, 0, b""))

    def interface(self, block: bytes) -> Interface:
        found, options = Interface(self.number(block, 8, "H")), block[16:-4]
        while len(options) >= 4:
            code, length = struct.unpack_from(self.order + "HH", options)
            if code == 0:
                break
            bad_unless(4 + padded(length) <= len(options))
            value, options = options[4:4 + length], options[4 + padded(length):]
            if code == 9:
                bad_unless(length == 1)
                bad_unless(value[0] <= 18 or 128 <= value[0] <= 128 + 62)
                found.units = 10**value[0] if value[0] < 128 else 2**(value[0] - 128)
            elif code == 14:
                bad_unless(length == 8)
                found.offset = self.number(value, 0, "q")
        return found

    def enhanced(self, block: bytes) -> tuple[int, int | None, int, int, bytes]:
        bad_unless(len(block) >= 32)
        number, upper, lower, captured, original = struct.unpack_from(self.order + "IIIII", block, 8)
        bad_unless(number < len(self.interfaces) and captured <= MOST and 28 + padded(captured) + 4 <= len(block))
        interface = self.interfaces[number]
        seconds, rest = divmod(upper * 2**32 + lower, interface.units)
        seconds += interface.offset
        fits = 0 <= seconds < 2**32
        return (interface.link, seconds if fits else None, rest * 10**9 // interface.units, original,
                block[28:28 + captured])


CAUSES = ("not-ip", "short", "bad-header", "short-transport", "bad-time")


def cause_of(link: int, seconds: int | None, fraction: int, original: int, frame: bytes) -> str | None:
    """Why a record is left out, or None."""
    if seconds is None:
        return "bad-time"
    if link not in LINKS:
        return "not-ip"
    try:
        second_meter.packet_of(link, 1_000_000, seconds, fraction, original, frame)
    except second_meter.Ignored as ignored:
        return str(ignored)
    return None


def written_of(records: list[tuple[int, int | None, int, int, bytes]]) -> bytes:
    """The classic capture of the accepted packets."""
    out = HEADER
    for link, seconds, fraction, original, frame in records:
        if cause_of(link, seconds, fraction, original, frame) is None:
            start, _ = second_meter.network_of(link, frame)
            out += struct.pack("<IIII", seconds, fraction, len(frame) - start, max(0, original - start)) + frame[start:]
    return out


def summary_of(reader: Reader) -> bytes:
    """The lines of the summary: the numbers, and the link types that aren't read."""
    causes = [cause_of(*record) for record in reader.records]
    unread = sorted(record[0] for record, cause in zip(reader.records, causes)
                    if cause == "not-ip" and record[0] not in LINKS)
    numbers = [("blocks", reader.blocks), ("packets", len(causes)), ("written", causes.count(None))]
    numbers += [(name, causes.count(name)) for name in CAUSES]
    numbers += [("tail", reader.tail)]
    numbers += [(f"link-type-{link}", unread.count(link)) for link in sorted(set(unread))]
    return "".join(f"romtyalig-pcapng: {name} {number}\n" for name, number in numbers).encode()


def answer_to(octets: bytes) -> tuple[int, bytes, bytes | None]:
    """The status, the output and the summary for a file. Without one, any lines may stand on standard error."""
    reader = Reader()
    try:
        reader.file(octets)
    except NoPcapng:
        return 4, b"", None
    except Bad:
        return 6, b"", None
    return 0, written_of(reader.records), summary_of(reader)


class Maker:
    """A random file, whole but for what is changed with the given chance."""

    def __init__(self, chance: random.Random, rate: float) -> None:
        self.chance, self.rate = chance, rate
        self.order, self.links = "<", []

    def odd(self, usual: int, others: tuple[int, ...]) -> int:
        return self.chance.choice(others) if self.chance.random() < self.rate else usual

    def block(self, kind: int, body: bytes) -> bytes:
        body += bytes(-len(body) % 4)
        length = 12 + len(body)
        told = self.odd(length, (0, 8, length - 1, length - 4, length + 4, 2**32 - 4))
        return (struct.pack(self.order + "II", kind, told) + body
                + struct.pack(self.order + "I", self.odd(told, (told ^ 4, 0))))

    def option(self, code: int, value: bytes, length: int | None = None) -> bytes:
        told = self.odd(len(value) if length is None else length, (0, 2, 9, 200))
        return struct.pack(self.order + "HH", code, told) + value + bytes(-len(value) % 4)

    def section(self) -> bytes:
        self.order, self.links = self.chance.choice("<>"), []
        magic = self.odd(0x1A2B3C4D, (0x1A2B3C4E, 0))
        body = struct.pack(self.order + "IHHq", magic, self.odd(1, (0, 2, 256)), self.chance.choice((0, 2)), -1)
        if self.chance.random() < 0.3:
            body += self.option(1, b"made") + self.chance.choice((b"", bytes(4)))
        if self.chance.random() < self.rate:
            body = body[:12]
        return self.block(SECTION, body)

    def interface(self) -> bytes:
        chance, link = self.chance, self.chance.choice((1, 1, 101, 113, 276, 0, 228))
        self.links.append(link)
        body = struct.pack(self.order + "HHI", link, 0, chance.choice((0, 65535)))
        for _ in range(chance.choice((0, 0, 1, 1, 2, 3))):
            code = chance.choice((9, 9, 14, 2, 12, 0 if chance.random() < 0.2 else 9))
            if code == 9:
                units = chance.choice((3, 6, 9, 0, 18, 128, 138, 190))
                body += self.option(9, bytes([self.odd(units, (19, 127, 191, 255))]))
            elif code == 14:
                body += self.option(14, struct.pack(self.order + "q", chance.choice((0, 1, -1, 2**31, -10**9, 2**63 - 1))))
            else:
                body += self.option(code, b"eth0"[:chance.randrange(5)] if code else b"")
        if chance.random() < self.rate:
            body = body[:4]
        return self.block(INTERFACE, body + chance.choice((b"", bytes(4))))

    def packet(self, kind: int) -> bytes:
        chance = self.chance
        number = self.odd(chance.randrange(len(self.links)) if self.links else 0, (len(self.links), 2**32 - 1))
        link = self.links[number] if number < len(self.links) else 1
        ip = second_meter.random_ip(chance)
        kind_of_ip = 0x0800 if ip[0] >> 4 == 4 else 0x86DD
        frame = {1: generate.ethernet, 113: generate.cooked}.get(link, lambda _, payload: payload)(kind_of_ip, ip)
        if chance.random() < 0.1:
            frame = frame[:chance.randrange(len(frame) + 1)]
        usual = 1_700_000_000_000_000 + chance.randrange(10**9)
        time = chance.choice((usual, usual, usual, usual, 0, 2**32 * 10**6 - 1, 2**32 * 10**6, 2**62, chance.randrange(2**64)))
        original = max(0, len(frame) + chance.choice((0, 0, 100, -30)))
        captured = self.odd(len(frame), (len(frame) + 5, 262_145, 0))
        body = struct.pack(self.order + "IIIII", number, time >> 32, time % 2**32, captured, original) + frame
        if kind == OBSOLETE:
            body = struct.pack(self.order + "HHIIII", number % 65536, 0, time >> 32, time % 2**32, captured, original) + frame
        if chance.random() < 0.2:
            body += bytes(-len(body) % 4) + self.option(2, bytes(4)) + bytes(4)
        return self.block(kind, body[:8] if chance.random() < self.rate else body)

    def part(self) -> bytes:
        draw = self.chance.random()
        if draw < 0.06:
            return self.section()
        if draw < 0.2 or not self.links:
            return self.interface()
        if draw < 0.75:
            return self.packet(ENHANCED)
        if draw < 0.8:
            return self.packet(OBSOLETE)
        if draw < 0.87:
            return self.block(SIMPLE, struct.pack(self.order + "I", 40) + bytes(40 if self.chance.random() < 0.9 else 0))
        return self.block(self.chance.choice((4, 5, 10, 0x0BAD, 0x80000001)), self.chance.randbytes(self.chance.randrange(30)))

    def file(self) -> bytes:
        parts = [self.section()] if self.chance.random() > self.rate else []
        parts += [self.part() for _ in range(self.chance.randrange(20))]
        out = bytearray(b"".join(parts))
        if out and self.chance.random() < 3 * self.rate:
            out[self.chance.randrange(len(out))] = self.chance.randrange(256)
        if self.chance.random() < 0.1:
            out = out[:self.chance.randrange(len(out) + 1)]
        return bytes(out)


def compare(program: str, octets: bytes, what: str) -> int:
    status, written, summary = answer_to(octets)
    ran = subprocess.run([program, "pcapng"], input=octets, capture_output=True)
    if (ran.returncode, ran.stdout) != (status, written) or summary not in (None, ran.stderr):
        Path("different.pcapng").write_bytes(octets)
        sys.exit(f"different: {what}, left in different.pcapng: status {ran.returncode}, here {status}")
    return status


def made_by_programs(folder: Path) -> None:
    """Files of editcap, mergecap and text2pcap from the captures of examples/ and of generate.py."""
    subprocess.run([sys.executable, "-B", str(TOP / "checks" / "generate.py"), str(folder)], check=True)
    captures = sorted((TOP / "examples").glob("*.pcap")) + [folder / f"{name}.pcap" for name in ("cooked", "keys")]
    (folder / "hex").write_text("000000 45 00 00 1c 00 00 00 00 40 11 00 00 c0 00 02 01 c0 00 02 02 00 01 00 02 00 08 00 00\n")
    commands = [["mergecap", "-F", "pcapng", "-w", folder / "merged.pcapng", *captures],
                ["text2pcap", "-q", "-l", "101", folder / "hex", folder / "text.pcapng"]]
    for capture in captures:
        options = {"plain": [], "commented": ["-a", "1:a comment"], "cut": ["-s", "30"], "moved": ["-t", "-9"]}
        for name, words in options.items():
            commands.append(["editcap", "-F", "pcapng", *words, capture, folder / f"{capture.stem}_{name}.pcapng"])
    for words in commands:
        if shutil.which(words[0]):
            subprocess.run(words, check=True, capture_output=True)


def compare_others(program: str) -> None:
    """The files of other programs."""
    if not all(shutil.which(name) for name in ("editcap", "mergecap", "text2pcap")):
        print("skipped: no editcap, mergecap or text2pcap (package wireshark-common)")
    with tempfile.TemporaryDirectory() as folder:
        made_by_programs(Path(folder))
        files = sorted(Path(folder).glob("*.pcapng"))
        for place in ("/usr/share", "/usr/lib"):
            files += sorted(path for path in Path(place).rglob("*.pcapng") if path.is_file())
        for path in files:
            compare(program, path.read_bytes(), str(path))
    print(f"same: {len(files)} files of other programs")


def main() -> None:
    wanted = int(sys.argv[1]) if len(sys.argv) > 1 else 300
    seed = int(sys.argv[2]) if len(sys.argv) > 2 else 1
    program = os.environ.get("ROMTYALIG_PCAPNG", str(TOP / "bin" / "romtyalig-pcapng"))
    chance, statuses = random.Random(seed), {}
    for place in range(wanted):
        octets = Maker(chance, chance.choice((0, 0, 0, 0.02, 0.05))).file()
        status = compare(program, octets, f"file {place} of seed {seed}")
        statuses[status] = statuses.get(status, 0) + 1
    listed = ", ".join(f"status {status} {count}" for status, count in sorted(statuses.items()))
    print(f"same: {wanted} files of seed {seed}: {listed}")
    compare_others(program)


if __name__ == "__main__":
    main()
