#!/usr/bin/env python3
"""Cuts the addresses of an IPFIX stream short, so that it tells of networks and no longer of hosts.

    cut_addresses.py [--ipv4 BITS] [--ipv6 BITS] < flows.ipfix > public.ipfix

The first BITS of each source and destination address stay, and the others become 0: 24 of IPv4 and 48 of IPv6 unless given. All
else of the stream stays as it is, so several records may have the same key. The status is 1 where the input isn't a stream of
flow records, and 2 where the command line is wrong; what was read up to there is written.
"""
import argparse
import struct
import sys

HEADER = struct.Struct("!HHLLL")
TEMPLATES, OPTIONS = 2, 3
# The addresses, by the numbers of the IANA registry, and the option that tells how much of them stays.
ADDRESSES = {8: "ipv4", 12: "ipv4", 27: "ipv6", 28: "ipv6"}
LENGTHS = {"ipv4": 4, "ipv6": 16}


def messages(stream):
    """The messages of a stream, each as bytes that can be changed."""
    while header := stream.read(HEADER.size):
        version, length, *_ = HEADER.unpack(header) if len(header) == HEADER.size else (0, 0)
        body = stream.read(max(length - HEADER.size, 0))
        if version != 10 or len(header) + len(body) != length:
            raise ValueError("not a stream of whole IPFIX messages")
        yield bytearray(header + body)


def sets_of(message):
    """The sets of a message: number, and where the records begin and end."""
    at = HEADER.size
    while at < len(message):
        number, length = struct.unpack_from("!HH", message, at)
        if not 4 <= length <= len(message) - at:
            raise ValueError("a set isn't whole")
        yield number, at + 4, at + length
        at += length


def learn(message, at, end, templates):
    """Takes in the templates of a set: for each, the length of a record, and the place, length and version of each address."""
    while end - at >= 4:
        number, count = struct.unpack_from("!HH", message, at)
        at, length, places = at + 4, 0, []
        for _ in range(count):
            element, octets = struct.unpack_from("!HH", message, at)
            if octets == 65535:
                raise ValueError("a field of variable length")
            version = ADDRESSES.get(element)
            if version and octets != LENGTHS[version]:
                raise ValueError(f"an address of {octets} octets")
            if version:
                places.append((length, octets, version))
            length += octets
            at += 8 if element & 0x8000 else 4
        templates[number] = length, places


def cut(message, at, end, template, kept):
    """Cuts the addresses of the records of a set. The set may end with padding, shorter than a record."""
    length, places = template
    while length and end - at >= length:
        for place, octets, version in places:
            field = slice(at + place, at + place + octets)
            gone = 8 * octets - kept[version]
            message[field] = (int.from_bytes(message[field], "big") >> gone << gone).to_bytes(octets, "big")
        at += length


def main(kept):
    templates = {}
    for message in messages(sys.stdin.buffer):
        domain = HEADER.unpack_from(message)[4]
        for number, at, end in sets_of(message):
            if number == TEMPLATES:
                learn(message, at, end, templates.setdefault(domain, {}))
            elif number in templates.get(domain, {}):
                cut(message, at, end, templates[domain][number], kept)
            else:
                raise ValueError(f"a set {number} without a template of flow records")
        sys.stdout.buffer.write(message)
    sys.stdout.buffer.flush()


def bits_up_to(most):
    def bits(text):
        if not (text.isascii() and text.isdigit() and int(text) <= most):
            raise argparse.ArgumentTypeError(f"a number from 0 to {most} is wanted, not {text!r}")
        return int(text)
    return bits


class Words(argparse.ArgumentParser):
    """The command line; what is wrong with it has one line."""

    def error(self, message):
        self.exit(2, f"{self.prog}: {message}; --help tells more\n")


def command_line():
    words = Words(prog="cut_addresses.py", usage=argparse.SUPPRESS, description=__doc__, allow_abbrev=False,
                  formatter_class=argparse.RawDescriptionHelpFormatter)
    words.add_argument("--ipv4", metavar="BITS", type=bits_up_to(32), default=24, help="by default 24")
    words.add_argument("--ipv6", metavar="BITS", type=bits_up_to(128), default=48, help="by default 48")
    return vars(words.parse_args())


if __name__ == "__main__":
    KEPT = command_line()
    try:
        main(KEPT)
    except BrokenPipeError:
        sys.stderr.close()
    except OSError as fault:
        sys.exit(f"cut_addresses.py: {fault.strerror}")
    except (ValueError, struct.error) as fault:
        sys.exit(f"cut_addresses.py: {fault}")
