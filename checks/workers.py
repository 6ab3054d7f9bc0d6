#!/usr/bin/env python3
"""`meter` by several workers, judged by the second meter.

    python3 checks/workers.py [RUNS [SEED]]

Each capture of examples/ and of generate.py, some of `make` by the seed (1 unless given), and two of 20,000 and of 200,000 flows,
which are so many that several threads gather and write them, is metered by 1 to 64 workers, with the sets and pieces of the
program and with one set and pieces of one record. Each stream must be one that so many workers may write, by second_meter.py: if
the capture has one lawful list of records, all streams are the same. Then the web exchange of examples/ is metered so many times
(1,000 unless given) by eight workers with one set and pieces of one record. The first stream that isn't allowed ends the run with
status 1. ROMTYALIG is the program's path (bin/romtyalig unless set).
"""

import os
import subprocess
import sys
import tempfile
from pathlib import Path

sys.dont_write_bytecode = True

import generate  # noqa: E402
import second_meter  # noqa: E402

CHECKS = Path(__file__).resolve().parent
TOP = CHECKS.parent
PROGRAM = os.environ.get("ROMTYALIG", str(TOP / "bin" / "romtyalig"))
IDLE, ACTIVE, SIZE, SETS, PIECE = 300, 1800, 1400, 4096, 256
SETTINGS = [(workers, sets, piece) for workers in (1, 2, 4, 8, 64) for sets, piece in ((SETS, PIECE), (1, PIECE), (SETS, 1), (1, 1))]
SETTINGS += [(workers, sets, 1) for workers in (3, 7, 17, 33) for sets in (SETS, 1)]
MADE = [(1000, 1), (5000, 64), (20000, 4096)]
MANY = 20_000
MORE = 200_000


def stream_of(capture: bytes, workers: int, sets: int, piece: int) -> bytes:
    words = [PROGRAM, "meter", f"--workers={workers}", f"--sets={sets}", f"--piece={piece}"]
    ran = subprocess.run(words, input=capture, capture_output=True)
    if ran.returncode != 0:
        sys.exit(f"status {ran.returncode}: {' '.join(words[1:])}")
    return ran.stdout


def many_flows(count: int = MANY) -> bytes:
    """UDP flows of two packets each, in raw IP; all first packets come before the second ones, a tenth of a millisecond apart."""
    frames = [
        generate.raw4(17, f"10.{n >> 8 & 255}.{n & 255}.{1 + (n >> 16)}", "192.0.2.1", generate.datagram(1024 + n % 60_000, 53))
        for n in range(count)
    ]
    return generate.capture([(generate.START + k // 10, frame) for k, frame in enumerate(frames * 2)], generate.RAW)


def captures(seed: int) -> dict[str, bytes]:
    found = {path.name: path.read_bytes() for path in sorted((TOP / "examples").glob("*.pcap"))}
    with tempfile.TemporaryDirectory() as folder:
        subprocess.run([sys.executable, str(CHECKS / "generate.py"), folder], check=True)
        found |= {path.name: path.read_bytes() for path in sorted(Path(folder).glob("*.pcap"))}
    for packets, keys in MADE:
        words = [PROGRAM, "make", f"--seed={seed}", f"--packets={packets}", f"--keys={keys}"]
        found[" ".join(words[1:])] = subprocess.run(words, capture_output=True, check=True).stdout
    found["many flows"], found["more flows"] = many_flows(), many_flows(MORE)
    return found


def main() -> None:
    runs = int(sys.argv[1]) if len(sys.argv) > 1 else 1000
    seed = int(sys.argv[2]) if len(sys.argv) > 2 else 1
    limits = second_meter.Limits(1000 * IDLE, 1000 * ACTIVE)
    found = captures(seed)
    for name, capture in found.items():
        packets = second_meter.packets_of(capture)
        streams = {setting: stream_of(capture, *setting) for setting in SETTINGS}
        if second_meter.is_uncut(packets, limits):
            if len(set(streams.values())) != 1:
                sys.exit(f"different streams of {name}, whose records are one list")
            streams = dict(list(streams.items())[:1])
        for (workers, sets, piece), stream in streams.items():
            if second_meter.differs(stream, packets, limits, SIZE, sets, workers):
                sys.exit(f"{name}: not by {workers} workers, {sets} sets and pieces of {piece} records")
    exchange = found["web-exchange.pcap"]
    wanted = stream_of(exchange, 1, SETS, PIECE)
    for turn in range(runs):
        if stream_of(exchange, 8, 1, 1) != wanted:
            sys.exit(f"another stream in turn {turn}")
    print(f"right: {len(found)} captures by {len(SETTINGS)} settings, {runs} turns")


if __name__ == "__main__":
    main()
