#!/usr/bin/env python3
"""The two worked captures in every split into two files, and one file a packet, metered and joined.

    python3 checks/splits.py

The captures are examples/web-exchange.pcap, of ten packets, and one of two packets that is written here. The packets of each are
dealt into two files in all ways, each packet to one file or the other, in the order of the capture; and then to one file a packet.
`meter` makes a stream of each file, and `romtyalig-join` joins them: it must write the very bytes that `meter` writes of the whole
capture. So it must of the 20,000 flows of workers.py, which several threads gather and write, if the first packet of each flow is
in one file and the second in the other; and of a made capture of 2,000 packets, each in a file of its own. One line for each
capture. The status is 1 if any differs. ROMTYALIG and ROMTYALIG_JOIN are the programs' paths (bin/romtyalig and bin/romtyalig-join
unless set).
"""

import os
import subprocess
import sys
import tempfile
from concurrent.futures import ThreadPoolExecutor
from pathlib import Path

sys.dont_write_bytecode = True

import workers  # noqa: E402

TOP = Path(__file__).resolve().parent.parent
PROGRAM = os.environ.get("ROMTYALIG", str(TOP / "bin" / "romtyalig"))
JOIN = os.environ.get("ROMTYALIG_JOIN", str(TOP / "bin" / "romtyalig-join"))
# Two datagrams of one flow, 1,000 and 1,001 seconds after 1970: a capture's header, with link type Ethernet, and two records, each
# with its frame (link, IPv4 and UDP headers). It is the input of the stored run in crates/romtyalig.
TWO_PACKETS = """
d4c3b2a1 0200 0400 00000000 00000000 00000400 01000000
e8030000 00000000 2a000000 2a000000
020000000002 020000000001 0800 4500001c 00000000 40110000 c0000201 c0000202 0fa0 0035 0008 0000
e9030000 00000000 2a000000 2a000000
020000000002 020000000001 0800 4500001c 00000000 40110000 c0000201 c0000202 0fa0 0035 0008 0000
"""


def packets_of(capture: bytes) -> list[bytes]:
    """The records of a capture whose numbers have their least byte first, each with its header."""
    packets, at = [], 24
    while at < len(capture):
        end = at + 16 + int.from_bytes(capture[at + 8:at + 12], "little")
        packets.append(capture[at:end])
        at = end
    return packets


def metered(capture: bytes) -> bytes:
    return subprocess.run([PROGRAM, "meter"], input=capture, capture_output=True, check=True).stdout


def joined(paths: list[Path]) -> bytes:
    """The streams joined, or what was said instead."""
    ran = subprocess.run([JOIN, "join", *paths], stdin=subprocess.DEVNULL, capture_output=True, check=False)
    return ran.stdout if ran.returncode == 0 and not ran.stderr else b"status %d: " % ran.returncode + ran.stderr


def faults(capture: bytes, folder: Path, pool: ThreadPoolExecutor) -> list[str]:
    """The ways to deal this capture's packets into files that don't give its stream."""
    packets, wanted = packets_of(capture), metered(capture)
    # The stream of some of the packets: of packet k where bit k of the number is 1.
    names = [folder / f"{some}.ipfix" for some in range(2 ** len(packets))]

    def write(some: int) -> None:
        dealt = [packet for place, packet in enumerate(packets) if some >> place & 1]
        names[some].write_bytes(metered(capture[:24] + b"".join(dealt)))

    list(pool.map(write, range(len(names))))
    splits = [[names[some], names[-1 - some]] for some in range(len(names))]
    splits.append([names[1 << place] for place in range(len(packets))])
    same = pool.map(lambda paths: joined(paths) == wanted, splits)
    return [" ".join(path.stem for path in paths) for paths, holds in zip(splits, same) if not holds]


def is_joined_alike(capture: bytes) -> bool:
    """Whether the two halves of this capture give its stream."""
    packets = packets_of(capture)
    half = len(packets) // 2
    with tempfile.TemporaryDirectory() as folder:
        names = [Path(folder) / "first.ipfix", Path(folder) / "second.ipfix"]
        for name, part in zip(names, (packets[:half], packets[half:])):
            name.write_bytes(metered(capture[:24] + b"".join(part)))
        return joined(names) == metered(capture)


def is_joined_of_files(count: int, pool: ThreadPoolExecutor) -> bool:
    """Whether so many files of one packet each give the stream of a made capture."""
    made = [PROGRAM, "make", "--seed=1", f"--packets={count}", "--keys=64"]
    capture = subprocess.run(made, capture_output=True, check=True).stdout
    packets = packets_of(capture)
    with tempfile.TemporaryDirectory() as folder:
        names = [Path(folder) / f"{place}.ipfix" for place in range(len(packets))]
        list(pool.map(lambda name, packet: name.write_bytes(metered(capture[:24] + packet)), names, packets))
        return len(names) == count and joined(names) == metered(capture)


def main() -> None:
    captures = {"web-exchange": (TOP / "examples" / "web-exchange.pcap").read_bytes(), "two packets": bytes.fromhex(TWO_PACKETS)}
    differs = 0
    with ThreadPoolExecutor(os.cpu_count()) as pool:
        for name, capture in captures.items():
            with tempfile.TemporaryDirectory() as folder:
                found = faults(capture, Path(folder), pool)
            count = len(packets_of(capture))
            if found:
                print(f"DIFFERS: {name}: {len(found)} of {2**count + 1}, first the files of these packets (as bits): {found[0]}")
            else:
                print(f"same: {name}, {2**count} splits of {count} packets into two files, and one file a packet")
            differs += len(found)
        of_files = is_joined_of_files(2_000, pool)
    print(f"{'same' if of_files else 'DIFFERS'}: 2000 files of one packet each")
    alike = is_joined_alike(workers.many_flows())
    print(f"{'same' if alike else 'DIFFERS'}: {workers.MANY} flows, each with a packet in each of two files")
    sys.exit(0 if alike and of_files and not differs else 1)


if __name__ == "__main__":
    main()
