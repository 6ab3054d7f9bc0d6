#!/usr/bin/env python3
"""What examples/to_collector.py sends is read whole by a reader, and by nfcapd.

    python3 checks/collector.py

Three streams are made here, of keys of both versions, by the second meter's writer. On the loopback interface a socket takes what is
sent of them: as one stream it must be one that the second reader takes, sequence numbers among it, with the records of all
three. From each place on where templates are sent again, the rest must be readable by itself, as for a collector that starts
late. What is refused, by the command line, by the input or by the other host, is compared by status and line. Then nfcapd
(Debian package nfdump; skipped with one line where it isn't there) collects the three streams in one session, and must find all
records and no sequence error; in three sessions, one for each stream, it must find errors, so that its count counts. The status
is 1 where anything differs.
"""
import re
import shutil
import socket
import subprocess
import sys
import tempfile
import time
from pathlib import Path

sys.dont_write_bytecode = True

import second_meter  # noqa: E402
import second_reader  # noqa: E402

TOP = Path(__file__).resolve().parent.parent
SENDER = [sys.executable, "-B", str(TOP / "examples" / "to_collector.py")]
HOST = "127.0.0.1"
START = 1_700_000_000_000
# Flows of each stream, and the size of its messages.
STREAMS = ((90, 300), (41, 200), (7, 1400))


def made_flows(place: int, count: int) -> list[list]:
    """Flows of keys that no other stream has: key, packets, octets, first, last, flags, reason."""
    flows = []
    for number in range(count):
        version, width = ((4, 4), (6, 16))[number % 3 == 0]
        ends = bytes([32 + place] * (width - 1) + [1]), bytes([32 + place] * (width - 1) + [2])
        time_of = START + 1000 * number
        flows.append([(version, *ends, 17, 1000 + number, 53), 1 + number, 60 * (1 + number), time_of, time_of + 900, 0, 4])
    return flows


def lines_of(octets: bytes) -> list[str]:
    """The records of a stream as the second reader has them; it raises a fault where a number is out of order."""
    reader = second_reader.Reader()
    reader.stream(octets)
    return reader.lines


def has_templates(message: bytes) -> bool:
    return message[16:18] == b"\x00\x02"


class Receiver:
    """A socket on the loopback interface that takes all that comes."""

    def __init__(self) -> None:
        self.socket = socket.socket(socket.AF_INET, socket.SOCK_DGRAM)
        self.socket.setsockopt(socket.SOL_SOCKET, socket.SO_RCVBUF, 1 << 20)
        self.socket.bind((HOST, 0))
        self.socket.settimeout(0.3)
        self.port = str(self.socket.getsockname()[1])

    def taken(self) -> list[tuple[bytes, int]]:
        """What came, with its source port, up to a pause."""
        found = []
        try:
            while True:
                message, source = self.socket.recvfrom(65_536)
                found.append((message, source[1]))
        except TimeoutError:
            return found


def run(*words: str, octets: bytes = b"") -> subprocess.CompletedProcess:
    return subprocess.run([*SENDER, *words], input=octets, capture_output=True, timeout=60, check=False)


def fault_of_sent(messages: list[bytes], wanted: list[str]) -> str:
    """What is wrong with messages of a whole session, or nothing."""
    if lines_of(b"".join(messages)) != wanted:
        return "other records"
    counts = [len(lines_of(b"".join(messages[:place]))) for place in range(len(messages) + 1)]
    for place, message in enumerate(messages):
        if has_templates(message) and lines_of(b"".join(messages[place:])) != wanted[counts[place]:]:
            return f"the rest from message {place} on"
    return ""


def in_one_session(folder: Path, names: list[str], wanted: list[str]) -> str:
    receiver = Receiver()
    ran = run("--messages", "5", HOST, receiver.port, *names)
    messages = [message for message, _ in receiver.taken()]
    told = f"messages {len(messages)}\nrepeated {sum(map(has_templates, messages)) - len(names)}\n".encode()
    if ran.returncode or ran.stderr != told:
        return f"status {ran.returncode}, {ran.stderr}"
    places = [place for place, message in enumerate(messages) if has_templates(message)]
    if any(later - place > 6 for place, later in zip(places, places[1:] + [len(messages)])):
        return f"templates at {places}"
    return fault_of_sent(messages, wanted)


def from_standard_input(folder: Path, names: list[str], wanted: list[str]) -> str:
    """All streams, one after the other in a pipe: each begins with sequence number 0."""
    receiver = Receiver()
    ran = run(HOST, receiver.port, octets=b"".join(Path(name).read_bytes() for name in names))
    messages = [message for message, _ in receiver.taken()]
    return f"status {ran.returncode}" if ran.returncode else fault_of_sent(messages, wanted)


def by_seconds(folder: Path, names: list[str], wanted: list[str]) -> str:
    """At four messages a second, and templates after a second: six messages take more than a second."""
    receiver = Receiver()
    stream = Path(names[0]).read_bytes()
    end = 0
    for _ in range(7):
        end += int.from_bytes(stream[end + 2:end + 4], "big")
    ran = run("--rate=4", "--seconds=1", HOST, receiver.port, octets=stream[:end])
    messages = [message for message, _ in receiver.taken()]
    repeats = sum(map(has_templates, messages)) - 1
    if ran.returncode or repeats not in (1, 2):
        return f"status {ran.returncode}, templates again {repeats} times"
    return fault_of_sent(messages, lines_of(stream[:end]))


def kept_session(folder: Path, names: list[str], wanted: list[str]) -> str:
    """Three runs that keep their session are as one."""
    receiver = Receiver()
    for name in names:
        ran = run("--session", str(folder / "session"), HOST, receiver.port, name)
        if ran.returncode:
            return f"status {ran.returncode}, {ran.stderr}"
    taken = receiver.taken()
    if len({source for _, source in taken}) != 1:
        return "other source ports"
    return fault_of_sent([message for message, _ in taken], wanted)


def refused(folder: Path, names: list[str], wanted: list[str]) -> str:
    """Status and last line of what can't be done."""
    with socket.socket(socket.AF_INET, socket.SOCK_DGRAM) as closed:
        closed.bind((HOST, 0))
        port = str(closed.getsockname()[1])
    stream = Path(names[0]).read_bytes()
    rows = [
        ((), b"", 2, "a host and a port are wanted"),
        ((HOST,), b"", 2, "a host and a port are wanted"),
        ((HOST, "0"), b"", 2, "the port is a number from 1 to 65535, not '0'"),
        ((HOST, "65536"), b"", 2, "the port is a number from 1 to 65535, not '65536'"),
        (("--rate=0", HOST, port), b"", 2, "--rate is a number from 1 to 1000000, not '0'"),
        (("--rate", "-1", HOST, port), b"", 2, "--rate is a number from 1 to 1000000, not '-1'"),
        (("--messages=0", HOST, port), b"", 2, "--messages is a number from 1 to 1000000, not '0'"),
        (("--seconds=86401", HOST, port), b"", 2, "--seconds is a number from 1 to 86400, not '86401'"),
        (("--rates=1", HOST, port), b"", 2, "no option --rates"),
        (("--rate",), b"", 2, "--rate has no value"),
        ((HOST, port), b"", 1, "nothing was read"),
        ((HOST, port), b"\xd4\xc3\xb2\xa1" + bytes(20), 1, "not an IPFIX message"),
        ((HOST, port), stream[:10], 1, "the stream ends within a header"),
        ((HOST, port), stream[:-1], 1, "the stream ends within a message"),
        ((HOST, port, str(folder / "none")), b"", 1, f"{folder / 'none'}: No such file or directory"),
        ((HOST, port), stream, 1, f"{HOST} port {port} refused datagrams, at least "),
    ]
    for words, octets, status, line in rows:
        ran = run(*words, octets=octets)
        said = ran.stderr.decode().splitlines()
        if ran.returncode != status or not said or not said[-1].startswith(f"to_collector: {line}") or ran.stdout:
            return f"{' '.join(words)}: status {ran.returncode}, {said[-1:]}"
    helped = run("--help")
    return "" if helped.returncode == 0 and helped.stdout and not helped.stderr else "--help"


def collected(folder: Path, sendings: list[list[str]]) -> tuple[int, int]:
    """Flows and sequence errors that nfcapd tells of these runs."""
    with socket.socket(socket.AF_INET, socket.SOCK_DGRAM) as free:
        free.bind((HOST, 0))
        port = str(free.getsockname()[1])
    with tempfile.TemporaryDirectory(dir=folder) as store:
        words = ["nfcapd", "-p", port, "-b", HOST, "-w", store]
        with subprocess.Popen(words, stdout=subprocess.PIPE, stderr=subprocess.STDOUT, text=True) as collector:
            try:
                time.sleep(1)
                for names in sendings:
                    run("--rate", "1000", HOST, port, *names)
                time.sleep(1)
            finally:
                collector.terminate()
            said = collector.communicate(timeout=30)[0]
    found = re.search(r"Flows: (\d+), .*Sequence Errors: (\d+)", said)
    return (int(found[1]), int(found[2])) if found else (-1, -1)


def by_nfcapd(folder: Path, names: list[str], wanted: list[str]) -> str:
    flows, errors = collected(folder, [names])
    if (flows, errors) != (len(wanted), 0):
        return f"flows {flows} of {len(wanted)}, sequence errors {errors}"
    flows, errors = collected(folder, [[name] for name in names])
    return "" if flows == len(wanted) and errors > 0 else f"three sessions: flows {flows}, sequence errors {errors}"


def main() -> None:
    rows = [("three streams in one session", in_one_session), ("the same from standard input", from_standard_input),
            ("templates by seconds", by_seconds), ("a session that is kept", kept_session), ("what is refused", refused)]
    if shutil.which("nfcapd"):
        rows.append(("three streams by nfcapd, no sequence error", by_nfcapd))
    else:
        print("skipped: no nfcapd (package nfdump)")
    differs = 0
    with tempfile.TemporaryDirectory() as name:
        folder, names, wanted = Path(name), [], []
        for place, (count, size) in enumerate(STREAMS):
            stream = second_meter.stream_of(made_flows(place, count), START // 1000, size)
            (folder / f"{place}.ipfix").write_bytes(stream)
            names.append(str(folder / f"{place}.ipfix"))
            wanted += lines_of(stream)
        for what, row in rows:
            fault = row(folder, names, wanted)
            print(f"DIFFERS: {what}: {fault}" if fault else f"same: {what}")
            differs += bool(fault)
    sys.exit(1 if differs else 0)


if __name__ == "__main__":
    main()
