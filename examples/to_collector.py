#!/usr/bin/env python3
"""Sends IPFIX streams to a collector over UDP, each message as a datagram (RFC 7011, section 10.3).

    to_collector.py [OPTION VALUE].. HOST PORT [STREAM..]

    romtyalig meter < c.pcap | examples/to_collector.py 192.0.2.9 4739
    examples/to_collector.py --rate 500 192.0.2.9 4739 monday.ipfix tuesday.ipfix

The streams are files, one after the other, or else standard input, where one may follow the other too. All go out in one
session: the sequence numbers of the second stream go on where those of the first ended. Templates are sent again before the next message (section 8.1), so that a
collector that starts late can read the rest. UDP has no flow control, so there is a pause after each message.

    --rate N         messages a second, 1 to 1000000, by default 2000
    --messages N     templates again after so many messages, 1 to 1000000, by default 20
    --seconds N      templates again after so many seconds, 1 to 86400, by default 60
    --session FILE   goes on with the session of FILE, with its sequence numbers and source port, and keeps there how far it
                     came; where there is no FILE, it begins one
    --help           this text

At the end standard error has the messages that were sent and, of those, the ones that repeat templates. The status is 1 where
nothing was read, an input can't be read or isn't whole, or the collector's host refused a datagram; what was read up to there
is sent. It is 2 where the command line is wrong.
"""
import json
import os
import socket
import struct
import sys
import time

NAME = os.path.splitext(os.path.basename(sys.argv[0]))[0]
HEADER = struct.Struct("!HHLLL")
TEMPLATES, OPTIONS, VARIABLE = 2, 3, 65535
# What UDP over IPv4 carries at most.
DATAGRAM = 65507
DEFAULTS = {"--rate": (2000, 1, 1_000_000), "--messages": (20, 1, 1_000_000), "--seconds": (60, 1, 86_400)}


class Wrong(Exception):
    """What is wrong with the command line."""


def messages(stream):
    """The messages of a stream, each with its header."""
    while header := stream.read(HEADER.size):
        if len(header) < HEADER.size:
            raise ValueError("the stream ends within a header")
        version, length, *_ = HEADER.unpack(header)
        if version != 10 or length < HEADER.size:
            raise ValueError("not an IPFIX message")
        body = stream.read(length - HEADER.size)
        if len(body) < length - HEADER.size:
            raise ValueError("the stream ends within a message")
        yield header + body


def sets_of(message):
    """The sets of a message: number and body."""
    at = HEADER.size
    while len(message) - at >= 4:
        number, length = struct.unpack_from("!HH", message, at)
        if not 4 <= length <= len(message) - at:
            raise ValueError("a set isn't whole")
        yield number, message[at + 4:at + length]
        at += length


def template_records(body, head):
    """The template records of a set: number, lengths of the fields, and bytes. The head of a record has 4 bytes or 6."""
    at = 0
    while len(body) - at >= head:
        number, count = struct.unpack_from("!HH", body, at)
        if number == 0:
            return
        end, lengths = at + head, []
        for _ in range(count):
            if len(body) - end < 4:
                raise ValueError("a template isn't whole")
            element, length = struct.unpack_from("!HH", body, end)
            lengths.append(length)
            end += 8 if element & 0x8000 else 4
        yield number, lengths, body[at:end]
        at = end


def record_end(body, at, lengths):
    """Where the record ends that begins here."""
    for length in lengths:
        if length == VARIABLE:
            length, at = body[at], at + 1
            if length == 255:
                length, at = int.from_bytes(body[at:at + 2], "big"), at + 2
        at += length
    return at


def count_records(body, lengths):
    """How many data records a set has. Padding is shorter than any record."""
    least = sum(1 if length == VARIABLE else length for length in lengths)
    if VARIABLE not in lengths:
        return len(body) // least if least else 0
    at = count = 0
    while len(body) - at >= least:
        at, count = record_end(body, at, lengths), count + 1
    return count


class Domain:
    """What the collector knows of an observation domain: its templates and the next sequence number."""

    def __init__(self, following):
        self.following = following
        self.shift = None
        self.templates = {}
        self.since, self.told = 0, time.monotonic()

    def renumbered(self, message):
        """The message with the sequence number that it has in this session. A number 0 that isn't the next one begins a stream."""
        version, length, exported, sequence, number = HEADER.unpack_from(message)
        if self.shift is None or sequence == 0 and (self.following - self.shift) % 2**32 != 0:
            self.shift = self.following - sequence
        sequence = (sequence + self.shift) % 2**32
        return HEADER.pack(version, length, exported, sequence, number) + message[HEADER.size:]

    def learn(self, message):
        """Takes in the message's templates, and counts its data records."""
        records = 0
        for number, body in sets_of(message):
            if number in (TEMPLATES, OPTIONS):
                for template, lengths, record in template_records(body, 4 if number == TEMPLATES else 6):
                    self.templates[template] = number, lengths, record
                self.since, self.told = 0, time.monotonic()
            elif number in self.templates:
                records += count_records(body, self.templates[number][1])
        self.following = (HEADER.unpack_from(message)[3] + records) % 2**32

    def template_messages(self, message):
        """The templates again, a message for each kind, to stand before this message."""
        _, _, exported, sequence, domain = HEADER.unpack_from(message)
        for kind in (TEMPLATES, OPTIONS):
            body = b"".join(record for number, _, record in self.templates.values() if number == kind)
            if body:
                length = HEADER.size + 4 + len(body)
                yield HEADER.pack(10, length, exported, sequence, domain) + struct.pack("!HH", kind, 4 + len(body)) + body
        self.since, self.told = 0, time.monotonic()


class Session:
    """A session with a collector: what is sent goes on from stream to stream."""

    def __init__(self, collector, given, numbers):
        self.collector, self.given = collector, given
        self.domains = {int(domain): Domain(following) for domain, following in numbers.items()}
        self.sent = self.repeated = self.refused = 0

    def send(self, stream):
        """Sends a stream."""
        for domain in self.domains.values():
            domain.shift = None
        for message in messages(stream):
            domain = self.domains.setdefault(HEADER.unpack_from(message)[4], Domain(0))
            message = domain.renumbered(message)
            has_templates = any(number in (TEMPLATES, OPTIONS) for number, _ in sets_of(message))
            if not has_templates and self.is_time(domain):
                for again in domain.template_messages(message):
                    self.repeated += 1
                    self.put(again)
            self.put(message)
            domain.since += 1
            domain.learn(message)

    def is_time(self, domain):
        """Whether the templates are to be sent again."""
        return domain.since >= self.given["--messages"] or time.monotonic() - domain.told >= self.given["--seconds"]

    def put(self, message):
        """Sends a datagram. Where the host refused an earlier one, the system says so here and sends nothing: so twice."""
        if len(message) > DATAGRAM:
            raise ValueError(f"a message of {len(message)} octets doesn't fit a datagram, which has at most {DATAGRAM}")
        try:
            self.collector.send(message)
        except ConnectionRefusedError:
            self.refused += 1
            self.collector.send(message)
        self.sent += 1
        time.sleep(1 / self.given["--rate"])

    def numbers(self):
        return {number: domain.following for number, domain in self.domains.items()}


def number_of(text, what, least, most):
    if not (text.isascii() and text.isdigit() and least <= int(text) <= most):
        raise Wrong(f"{what} is a number from {least} to {most}, not {text!r}")
    return int(text)


def command_line(words):
    """The options by name, and the other words."""
    given, rest = {name: default for name, (default, _, _) in DEFAULTS.items()}, list(words)
    while rest and rest[0].startswith("--"):
        name, has_value, value = rest.pop(0).partition("=")
        if name not in DEFAULTS and name != "--session":
            raise Wrong(f"no option {name}")
        if not has_value and not rest:
            raise Wrong(f"{name} has no value")
        value = value if has_value else rest.pop(0)
        given[name] = value if name == "--session" else number_of(value, name, *DEFAULTS[name][1:])
    if len(rest) < 2:
        raise Wrong("a host and a port are wanted")
    return given, rest[0], number_of(rest[1], "the port", 1, 65_535), rest[2:]


def kept(path):
    """The session that a file keeps: its source port and its sequence numbers."""
    try:
        with open(path, encoding="ascii") as file:
            session = json.load(file)
        return int(session["port"]), {int(domain): int(number) for domain, number in session["next"].items()}
    except FileNotFoundError:
        return 0, {}
    except (ValueError, KeyError, TypeError, AttributeError):
        raise ValueError(f"{path} is no session") from None


def keep(path, collector, numbers):
    """Keeps the session in a file, whole or not at all."""
    with open(f"{path}.part", "w", encoding="ascii") as file:
        json.dump({"port": collector.getsockname()[1], "next": numbers}, file)
    os.replace(f"{path}.part", path)


def send_all(session, streams):
    """Sends the streams, or standard input where there is none."""
    if not streams:
        session.send(sys.stdin.buffer)
    for path in streams:
        with open(path, "rb") as stream:
            try:
                session.send(stream)
            except ValueError as fault:
                raise ValueError(f"{path}: {fault}") from None


def main(words):
    given, host, port, streams = command_line(words)
    path = given.pop("--session", None)
    source, numbers = kept(path) if path else (0, {})
    family, kind, protocol, _, address = socket.getaddrinfo(host, port, type=socket.SOCK_DGRAM)[0]
    with socket.socket(family, kind, protocol) as collector:
        collector.bind(("", source))
        collector.connect(address)
        session = Session(collector, given, numbers)
        try:
            send_all(session, streams)
        finally:
            if path:
                keep(path, collector, session.numbers())
            print(f"messages {session.sent}\nrepeated {session.repeated}", file=sys.stderr)
    if session.sent == 0:
        raise ValueError("nothing was read")
    if session.refused:
        raise ValueError(f"{host} port {port} refused datagrams, at least {session.refused}: no collector there, or not all the time")


if __name__ == "__main__":
    if "--help" in sys.argv[1:] or "-h" in sys.argv[1:]:
        print(__doc__, end="")
        sys.exit(0)
    try:
        main(sys.argv[1:])
    except Wrong as wrong:
        print(f"{NAME}: {wrong}; --help tells more", file=sys.stderr)
        sys.exit(2)
    except OSError as fault:
        sys.exit(f"{NAME}: {fault.filename + ': ' if fault.filename else ''}{fault.strerror}")
    except (ValueError, IndexError) as fault:
        sys.exit(f"{NAME}: {fault}")
    except KeyboardInterrupt:
        sys.exit(130)
