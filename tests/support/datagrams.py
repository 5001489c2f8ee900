"""Datagrams of RIPng, as RFC 2080 has them, and large tables that are fed to a router."""

import ipaddress
import time

REQUEST = bytes([1, 1, 0, 0] + [0] * 19 + [16])
"""A Request for the whole table."""

MOST = 3_275
"""How many entries the longest datagram of UDP over IPv4 brings: (65,507 - 4) / 20."""


def entry(prefix, metric, tag=0):
    """A route table entry: a prefix, the tag, the length, the metric."""
    addr, _, length = prefix.partition("/")
    return ipaddress.IPv6Address(addr).packed + tag.to_bytes(2, "big") + bytes([int(length), metric])


def response(*entries):
    return bytes([2, 1, 0, 0]) + b"".join(entries)


def request(*entries):
    return bytes([1, 1, 0, 0]) + b"".join(entries)


def table(second, count):
    """Responses with the routes 2001:SECOND:X::/48 of metric 1, so many different X, seventy in each."""
    entries = [entry(f"2001:{second}:{number:x}::/48", 1) for number in range(count)]
    return [response(*entries[first:first + 70]) for first in range(0, count, 70)]


def waiting_at(port):
    """How many bytes wait at a UDP port of this machine, and how many datagrams it has lost."""
    with open("/proc/net/udp") as file:
        for line in file:
            words = line.split()
            if words[1].endswith(f":{port:04X}"):
                return int(words[4].partition(":")[2], 16), int(words[-1])
    return 0, 0


def feed(neighbor, port, datagrams):
    """Sends datagrams to a port, no faster than they are taken there."""
    for number, datagram in enumerate(datagrams):
        while number % 16 == 0 and waiting_at(port)[0] > 32_768:
            time.sleep(0.001)
        neighbor.send(port, datagram)
