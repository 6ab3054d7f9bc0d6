#!/usr/bin/env python3
"""A second generator of captures, written after crates/capture_maker/README.md, beside `romtyalig make`.

    python3 checks/second_maker.py

For some seeds, numbers of packets and numbers of keys, `make` must write the very bytes of this program and report how many
packets they have. ROMTYALIG is the program's path (bin/romtyalig unless set).
"""
import os
import struct
import subprocess
import sys
from pathlib import Path

PROGRAM = os.environ.get('ROMTYALIG', str(Path(__file__).resolve().parent.parent / 'bin' / 'romtyalig'))
CASES = [
    (1, 1, 1), (1, 20_000, 64), (7, 200_000, 4096), (0, 1000, 1), (2**64 - 1, 1000, 4096), (2**63, 999, 256), (3, 1_000_000, 257),
]


def draws(seed: int):
    """The draws by a seed: 31 bits each."""
    state = seed
    while True:
        state = (state * 6364136223846793005 + 1442695040888963407) % 2**64
        yield state >> 33


def capture(seed: int, packets: int, keys: int) -> bytes:
    """The capture by a seed."""
    draw = draws(seed)
    parts = [struct.pack('<LHHLLLL', 0xA1B2C3D4, 2, 4, 0, 0, 65535, 101)]
    for number in range(packets):
        payload, key = next(draw) % 1000, next(draw) % keys
        second, millisecond = divmod(number, 1000)
        parts.append(struct.pack('<LLLL', 1000 + second, millisecond * 1000, 28, 28 + payload))
        parts.append(struct.pack('>BBHLBBH', 0x45, 0, 28 + payload, 0, 64, 17, 0))
        parts.append(bytes([10, 0, key >> 8, key & 255, 192, 0, 2, 1]))
        parts.append(struct.pack('>HHHH', 1024 + key, 53, 8 + payload, 0))
    return b''.join(parts)


def main() -> None:
    differ = 0
    for seed, packets, keys in CASES:
        words = [PROGRAM, 'make', '--seed', str(seed), '--packets', str(packets), f'--keys={keys}']
        run = subprocess.run(words, stdin=subprocess.DEVNULL, capture_output=True, check=False)
        same = run.returncode == 0 and run.stdout == capture(seed, packets, keys)
        same = same and run.stderr == f'packets {packets}\n'.encode()
        differ += not same
        print(f'{"same" if same else "DIFFERS"}: seed {seed}, packets {packets}, keys {keys}')
    print(f'{len(CASES) - differ} the same, {differ} that differ')
    sys.exit(1 if differ else 0)


if __name__ == '__main__':
    main()
