#!/usr/bin/env python3
"""A second reader of IPFIX streams, written after docs/FORMATS.md, and a comparison with `show` on random streams.

    python3 checks/second_reader.py [STREAMS [SEED]]

Each of the streams (300 unless given) has a few messages of one or two domains: templates and options templates of known and
unknown elements, of enterprises, of fixed and variable lengths, data, skipped sets and padding. Most are whole; the others
are cut, or have a byte or a number changed. `show` of the program, at ROMTYALIG or bin/romtyalig, must write the very lines
that this reader finds, and succeed just where this one finds no fault. The first difference ends the run with status 1 and
leaves the stream in the current folder.
"""

import os
import random
import struct
import subprocess
import sys
from pathlib import Path

TOP = Path(__file__).resolve().parent.parent
NUMBERS = {1, 2, 4, 6, 7, 11, 136, 152, 153}
VARIABLE = 65535


class Fault(Exception):
    pass


def number(octets: bytes) -> int:
    return int.from_bytes(octets, "big")


def value_of(enterprise: int | None, element: int, octets: bytes) -> str:
    if enterprise is not None:
        return f"{enterprise}.{element}={octets.hex()}"
    if element in NUMBERS and 1 <= len(octets) <= 8:
        return f"{element}={number(octets)}"
    if element in (8, 12) and len(octets) == 4:
        return f"{element}={'.'.join(str(octet) for octet in octets)}"
    return f"{element}={octets.hex()}"


class Reader:
    def __init__(self) -> None:
        self.templates: dict[tuple[int, int], list[tuple[int | None, int, int]]] = {}
        self.expected: dict[int, int] = {}
        self.records: list[list[tuple[int | None, int, bytes]]] = []
        self.lines: list[str] = []

    def stream(self, octets: bytes) -> None:
        at = 0
        while at < len(octets):
            left = octets[at:]
            if len(left) < 16:
                raise Fault("cut", at)
            version, length, _, sequence, domain = struct.unpack(">HHIII", left[:16])
            if version != 10:
                raise Fault("version", at)
            if length < 16:
                raise Fault("length", at)
            if length > len(left):
                raise Fault("cut", at)
            if self.expected.get(domain, sequence) != sequence:
                raise Fault("sequence", at)
            before = len(self.lines)
            self.message(left[:length], domain, at)
            self.expected[domain] = (sequence + len(self.lines) - before) % 2**32
            at += length

    def message(self, octets: bytes, domain: int, start: int) -> None:
        at = 16
        while at < len(octets):
            length = number(octets[at + 2:at + 4])
            if len(octets) - at < 4 or length < 4 or at + length > len(octets):
                raise Fault("length", start + at)
            kind, body = number(octets[at:at + 2]), octets[at + 4:at + length]
            if kind in (2, 3):
                rest = self.template_set(body, domain, kind == 3, start + at + 4)
            elif kind >= 256:
                if (domain, kind) not in self.templates:
                    raise Fault("template", start + at)
                rest = self.data_set(body, domain, kind, start + at + 4)
            else:
                rest = b""
            if any(rest):
                raise Fault("padding", start + at + length - len(rest))
            at += length

    def template_set(self, body: bytes, domain: int, options: bool, start: int) -> bytes:
        at = 0
        while len(body) - at >= 4:
            first = at
            template, count = struct.unpack(">HH", body[at:at + 4])
            if count == 0:
                raise Fault("withdrawal", start + first)
            if options and len(body) - at < 6 or template < 256:
                raise Fault("bad template", start + first)
            if options and not 1 <= number(body[at + 4:at + 6]) <= count:
                raise Fault("bad template", start + first)
            at += 6 if options else 4
            fields = []
            for _ in range(count):
                wide = 8 if body[at:at + 1] >= b"\x80" else 4
                if len(body) - at < wide:
                    raise Fault("bad template", start + first)
                enterprise = number(body[at + 4:at + 8]) if wide == 8 else None
                fields.append((enterprise, number(body[at:at + 2]) & 0x7FFF, number(body[at + 2:at + 4])))
                at += wide
            if self.least(fields) == 0:
                raise Fault("bad template", start + first)
            self.templates[domain, template] = fields
        return body[at:]

    @staticmethod
    def least(fields: list[tuple[int | None, int, int]]) -> int:
        return sum(1 if length == VARIABLE else length for _, _, length in fields)

    def data_set(self, body: bytes, domain: int, template: int, start: int) -> bytes:
        fields = self.templates[domain, template]
        at = 0
        while len(body) - at >= self.least(fields):
            first, values = at, []
            for enterprise, element, length in fields:
                if length == VARIABLE:
                    length, at = number(body[at:at + 1]), at + 1
                    if length == 255:
                        length, at = number(body[at:at + 2]), at + 2
                if at + length > len(body):
                    raise Fault("length", start + first)
                values.append((enterprise, element, body[at:at + length]))
                at += length
            self.records.append(values)
            self.lines.append(" ".join([str(template)] + [value_of(*value) for value in values]))
        return body[at:]


class Maker:
    """A stream of random messages, whole but for what is changed with the given chance."""

    def __init__(self, chance: random.Random, rate: float) -> None:
        self.chance = chance
        self.rate = rate
        self.templates: dict[tuple[int, int], list[tuple[int | None, int, int]]] = {}
        self.sequence = {1: chance.choice((0, 7, 2**32 - 2)), 2**32 - 1: 0}

    def odd(self, usual: int, others: tuple[int, ...]) -> int:
        return self.chance.choice(others) if self.chance.random() < self.rate else usual

    def field(self) -> tuple[int | None, int, int]:
        chance = self.chance
        enterprise = chance.choice((None, None, None, 0, 29305, 2**32 - 1))
        element = chance.choice((1, 2, 4, 6, 7, 8, 11, 12, 27, 28, 136, 152, 153, 0, 82, 32767))
        return enterprise, element, chance.choice((0, 1, 2, 3, 4, 4, 4, 5, 8, 8, 9, 16, VARIABLE, VARIABLE))

    def template(self, domain: int, options: bool) -> bytes:
        number_, fields = self.chance.randrange(256, 260), [self.field() for _ in range(self.chance.randrange(1, 6))]
        if Reader.least(fields) == 0 and self.chance.random() >= self.rate:
            fields.append((None, 4, 1))
        self.templates[domain, number_] = fields
        out = struct.pack(">HH", self.odd(number_, (0, 255, 256)), self.odd(len(fields), (0, len(fields) + 1, 1)))
        if options:
            out += struct.pack(">H", self.odd(self.chance.randrange(1, len(fields) + 1), (0, len(fields) + 1)))
        for enterprise, element, length in fields:
            out += struct.pack(">HH", element | (0 if enterprise is None else 0x8000), length)
            out += b"" if enterprise is None else struct.pack(">I", enterprise)
        return out

    def record(self, fields: list[tuple[int | None, int, int]]) -> bytes:
        out = b""
        for _, _, length in fields:
            if length == VARIABLE:
                length = self.chance.choice((0, 1, 5, 253, 254, 255, 256, 300))
                short = length < 255 and self.chance.random() < 0.8
                out += bytes([length]) if short else b"\xff" + struct.pack(">H", length)
            out += self.chance.choice((bytes(length), self.chance.randbytes(length)))
        return out

    def part(self, domain: int) -> tuple[bytes, int]:
        """A set, and the number of its data records."""
        chance, records = self.chance, 0
        known = [template for of, template in self.templates if of == domain]
        if known and chance.random() < 0.6:
            kind, least = chance.choice(known), 0
            least = Reader.least(self.templates[domain, kind])
            records = chance.choice((0, 1, 1, 2, 5))
            body = b"".join(self.record(self.templates[domain, kind]) for _ in range(records))
        elif chance.random() < 0.8:
            kind, least = chance.choice((2, 2, 3)), 4
            body = b"".join(self.template(domain, kind == 3) for _ in range(chance.choice((0, 1, 1, 2))))
        else:
            kind, least = chance.choice((0, 1, 4, 5, 255)), 9
            body = chance.randbytes(chance.randrange(20))
        padding = bytes(chance.choice((0, 0, 1, 2, 3)))
        padding = padding if len(padding) < least else b""
        if padding and chance.random() < self.rate:
            padding = padding[1:] + b"\x01"
        body += padding
        kind = self.odd(kind, (0, 2, 3, 256, 260))
        return struct.pack(">HH", kind, self.odd(4 + len(body), (0, 3, 4, 5 + len(body)))) + body, records

    def message(self) -> bytes:
        domain = self.chance.choice((1, 1, 2**32 - 1))
        parts = [self.part(domain) for _ in range(self.chance.randrange(5))]
        sets, records = b"".join(part for part, _ in parts), sum(count for _, count in parts)
        sequence = self.sequence[domain]
        self.sequence[domain] = (sequence + records) % 2**32
        version, length = self.odd(10, (9, 11, 0x0A00)), self.odd(16 + len(sets), (15, 16, 17 + len(sets)))
        return struct.pack(">HHIII", version, length, 5, self.odd(sequence, (0, sequence ^ 1)), domain) + sets

    def stream(self) -> bytes:
        out = bytearray(b"".join(self.message() for _ in range(self.chance.randrange(7))))
        if out and self.chance.random() < 5 * self.rate:
            out[self.chance.randrange(len(out))] = self.chance.choice((0, 1, 255, self.chance.randrange(256)))
        if out and self.chance.random() < 3 * self.rate:
            out = out[:self.chance.randrange(len(out))]
        return bytes(out)


def main() -> None:
    wanted = int(sys.argv[1]) if len(sys.argv) > 1 else 300
    seed = int(sys.argv[2]) if len(sys.argv) > 2 else 1
    program = os.environ.get("ROMTYALIG", str(TOP / "bin" / "romtyalig"))
    chance = random.Random(seed)
    records, faults = 0, {}
    for place in range(wanted):
        stream = Maker(chance, chance.choice((0, 0, 0.01, 0.05))).stream()
        reader, fault = Reader(), None
        try:
            reader.stream(stream)
        except Fault as found:
            fault = found.args[0]
            faults[fault] = faults.get(fault, 0) + 1
        text = b"" if fault else "".join(line + "\n" for line in reader.lines).encode()
        records += 0 if fault else len(reader.lines)
        ran = subprocess.run([program, "show"], input=stream, capture_output=True)
        if ran.stdout != text or (ran.returncode == 0) != (fault is None):
            Path("different.ipfix").write_bytes(stream)
            sys.exit(f"different: stream {place} of seed {seed}, left in different.ipfix: {fault or 'no fault'}")
    listed = ", ".join(f"{kind} {count}" for kind, count in sorted(faults.items()))
    print(f"same: {wanted} streams of seed {seed}, records {records}, faults: {listed}")


if __name__ == "__main__":
    main()
