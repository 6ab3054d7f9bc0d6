#!/usr/bin/env python3
"""A second joiner of streams, written after docs/FORMATS.md, and a comparison with the first on random sets of streams.

    python3 checks/second_joiner.py [SETS [SEED]]

Each of the sets (2,000 unless given) is some packets of few keys, cut into some captures in a random way, each metered by this
program into a stream. `romtyalig-join` of the program, at ROMTYALIG_JOIN or bin/romtyalig-join, must write the very bytes that
this one writes: of all records, and of each share of several; where joins are made of joins; and where nothing cuts a session,
what metering all packets as one capture gives. The shares together must have just the records of the whole. The first difference
ends the run with status 1 and leaves the streams in the current folder.
"""

import os
import random
import subprocess
import sys
import tempfile
from pathlib import Path

sys.dont_write_bytecode = True

from second_meter import Limits, Packet, alone, clock_of, flows_in, gathered, is_uncut, packets_of, set_of, stream_of  # noqa: E402
from workers import many_flows  # noqa: E402

TOP = Path(__file__).resolve().parent.parent
PROGRAM = os.environ.get("ROMTYALIG_JOIN", str(TOP / "bin" / "romtyalig-join"))


def metered(packets: list[Packet], limits: Limits, size: int) -> bytes:
    """A stream of packets: one of the lawful ones."""
    parts = [alone(packet) for packet in packets]
    return stream_of(gathered(parts, clock_of(packets), limits), clock_of(packets) // 1000, size)


def joined(streams: list[bytes], limits: Limits, size: int, share: tuple[int, int] | None) -> bytes:
    """The streams joined, of all records or of one share of several."""
    flows = [flow for stream in streams for flow in flows_in(stream)]
    clock = max((flow[4] for flow in flows), default=0)
    if share:
        flows = [flow for flow in flows if set_of(flow[0], share[1]) + 1 == share[0]]
    return stream_of(gathered(flows, clock, limits), clock // 1000 % 2**32, size)


def run(folder: Path, streams: list[bytes], limits: Limits, size: int, share: tuple[int, int] | None) -> bytes:
    """What the program writes of these streams."""
    names = []
    for place, stream in enumerate(streams):
        names.append(f"{place}.ipfix")
        (folder / names[-1]).write_bytes(stream)
    words = [PROGRAM, "join", f"--idle={limits.idle // 1000}", f"--active={limits.active // 1000}", f"--size={size}"]
    if share:
        words += ["--part", str(share[0]), "--parts", str(share[1])]
    ran = subprocess.run(words + names, cwd=folder, capture_output=True, stdin=subprocess.DEVNULL, check=False)
    return ran.stdout if ran.returncode == 0 and not ran.stderr else b"status %d: " % ran.returncode + ran.stderr


def random_packets(chance: random.Random, limits: Limits) -> list[Packet]:
    keys = []
    for _ in range(chance.randrange(1, 6)):
        version = chance.choice((4, 6))
        width = 4 if version == 4 else 16
        source, destination = chance.randbytes(width), chance.randbytes(width)
        protocol = chance.choice((6, 6, 17, 1))
        ports = (chance.randrange(65536), chance.randrange(65536)) if protocol != 1 else (0, 0)
        keys.append((version, source, destination, protocol, *ports))
    time, packets = chance.choice((0, 1_000_000, 1_700_000_000_123)), []
    for _ in range(chance.randrange(60)):
        time += chance.choice((0, 1, 99, limits.idle // 3, limits.idle // 3, limits.idle, limits.idle + 1, limits.active // 2))
        key = chance.choice(keys)
        flags = chance.choice((0x010, 0x010, 0x002, 0x018, 0x011, 0x004)) if key[3] == 6 else 0
        packets.append(Packet(key, time, chance.randrange(20, 1500), flags))
    return packets


def cut_up(chance: random.Random, packets: list[Packet]) -> list[list[Packet]]:
    """The packets in some captures: each packet anywhere, or each capture the next packets in time."""
    count = chance.randrange(1, 6)
    captures: list[list[Packet]] = [[] for _ in range(count)]
    anywhere = chance.random() < 0.5
    for place, packet in enumerate(packets):
        captures[chance.randrange(count) if anywhere else place * count // len(packets)].append(packet)
    return captures


def compare(chance: random.Random, folder: Path, place: int, seed: int) -> tuple[int, int]:
    """Compares one set: how many streams it has, and whether sessions were cut."""
    limits = Limits(*(1000 * seconds for seconds in chance.choice(((300, 1800), (1, 1), (2, 5), (10, 3)))))
    size = chance.choice((116, 164, 400, 1400, 65535))
    packets = random_packets(chance, limits)
    streams = [metered(capture, limits, chance.choice((116, 1400))) for capture in cut_up(chance, packets)]
    whole = joined(streams, limits, size, None)
    count = chance.choice((1, 2, 3, 7))
    shares = [joined(streams, limits, size, (number, count)) for number in range(1, count + 1)]
    uncut = is_uncut(packets, limits)
    cases = [run(folder, streams, limits, size, None) == whole]
    cases += [run(folder, streams, limits, size, (number + 1, count)) == share for number, share in enumerate(shares)]
    cases += [sorted(flow for share in shares for flow in flows_in(share)) == sorted(flows_in(whole))]
    if uncut:
        some = chance.randrange(len(streams) + 1)
        front = [run(folder, streams[:some], limits, size, None)] if some else []
        mixed = streams[some:] + front
        chance.shuffle(mixed)
        cases += [metered(packets, limits, size) == whole, run(folder, mixed, limits, size, None) == whole]
    if not all(cases):
        for number, stream in enumerate(streams):
            Path(f"different-{number}.ipfix").write_bytes(stream)
        sys.exit(f"different: set {place} of seed {seed}, cases {cases}, size {size}, {limits}; left in different-*.ipfix")
    return len(streams), 0 if uncut else 1


def compare_few_of_many(folder: Path) -> None:
    """Compares one part of 4,096 of the join of a stream of 20,000 flows."""
    limits = Limits(300_000, 1_800_000)
    stream = metered(packets_of(many_flows()), limits, 1400)
    share = joined([stream], limits, 1400, (9, 4096))
    if run(folder, [stream], limits, 1400, (9, 4096)) != share or not flows_in(share):
        sys.exit("different: part 9 of 4,096 of 20,000 flows")


def main() -> None:
    wanted = int(sys.argv[1]) if len(sys.argv) > 1 else 2000
    seed = int(sys.argv[2]) if len(sys.argv) > 2 else 1
    chance = random.Random(seed)
    streams = cut = 0
    with tempfile.TemporaryDirectory() as folder:
        compare_few_of_many(Path(folder))
        for place in range(wanted):
            some, other = compare(chance, Path(folder), place, seed)
            streams, cut = streams + some, cut + other
    print(f"same: part 9 of 4,096, and {wanted} sets of seed {seed}, streams {streams}; sessions were cut in {cut} sets")


if __name__ == "__main__":
    main()
