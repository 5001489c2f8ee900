"""Frames as a link carries them: Ethernet, IPv6, UDP, neighbor discovery, and the datagrams of RIPng (RFC 2080, section 2.1)."""

import struct
from dataclasses import dataclass, field
from ipaddress import IPv6Address, IPv6Network

GROUP, PORT, HOPS = IPv6Address("ff02::9"), 521, 255
REQUEST, RESPONSE = 1, 2
INFINITY, NEXT_HOP = 16, 255
ENTRY, HEADER = 20, 4
# Next headers of IPv6, and kinds of ICMPv6.
UDP, FRAGMENT, ICMP = 17, 44, 58
SOLICITATION, ADVERTISEMENT = 135, 136
ETHERTYPE = b"\x86\xdd"


@dataclass(frozen=True)
class Entry:
    """A route table entry."""

    address: IPv6Address
    length: int
    metric: int
    tag: int = 0

    @property
    def prefix(self):
        """Its prefix as a text; where the length is none, of the address alone."""
        if self.length > 128:
            return f"{self.address}/{self.length}"
        return str(IPv6Network((self.address, self.length), strict=False))

    def packed(self):
        return self.address.packed + struct.pack("!HBB", self.tag, self.length, self.metric)

    def __str__(self):
        if self.metric == NEXT_HOP:
            words = f"next hop {self.address}"
            return words + (f" (tag {self.tag}, length {self.length})" if self.tag or self.length else "")
        tag = f" tag {self.tag}" if self.tag else ""
        return f"{self.address}/{self.length} at {self.metric}{tag}"


def entry(prefix, metric, tag=0, length=None):
    """An entry for a prefix in text, whose address may have bits past its length; another length may be said."""
    address, _, bits = prefix.partition("/")
    return Entry(IPv6Address(address), int(bits) if length is None else length, metric, tag)


def next_hop(address, tag=0, length=0):
    """A next hop entry (RFC 2080, section 2.1.1)."""
    return Entry(IPv6Address(address), length, NEXT_HOP, tag)


def message(command, entries, version=1, zero=0, tail=b""):
    """The bytes of a datagram."""
    return struct.pack("!BBH", command, version, zero) + b"".join(one.packed() for one in entries) + tail


def entries_of(payload):
    """The whole entries of a datagram's bytes."""
    starts = range(HEADER, len(payload) - ENTRY + 1, ENTRY)
    fields = (struct.unpack_from("!16sHBB", payload, start) for start in starts)
    return [Entry(IPv6Address(address), length, metric, tag) for address, tag, length, metric in fields]


def checksum(source, to, protocol, body):
    """The checksum of UDP and ICMPv6 over IPv6, of a body in which it is zero (RFC 8200, section 8.1)."""
    whole = source.packed + to.packed + struct.pack("!II", len(body), protocol) + body + b"\0" * (len(body) % 2)
    total = sum(struct.unpack(f"!{len(whole) // 2}H", whole))
    while total >> 16:
        total = (total & 0xFFFF) + (total >> 16)
    return ~total & 0xFFFF or 0xFFFF


def mac_of(address):
    """The address at Ethernet of whoever has that address, as the bench gives them out: by its last four bytes."""
    return b"\x02\xbe" + address.packed[-4:]


def group_mac(address):
    """The address at Ethernet of a multicast group."""
    return b"\x33\x33" + address.packed[-4:]


def ipv6(source, to, protocol, body, hops, to_mac):
    """A frame of the bench's."""
    head = struct.pack("!IHBB", 6 << 28, len(body), protocol, hops)
    return to_mac + mac_of(source) + ETHERTYPE + head + source.packed + to.packed + body


def udp(source, port, to, to_port, payload, hops, to_mac):
    """A frame with a UDP datagram."""
    head = struct.pack("!HHH", port, to_port, 8 + len(payload))
    total = checksum(source, to, UDP, head + b"\0\0" + payload)
    return ipv6(source, to, UDP, head + struct.pack("!H", total) + payload, hops, to_mac)


def advertisement(address, to, to_mac):
    """A frame that says where an address is (RFC 4861, section 4.4): solicited, and it replaces what was known."""
    body = address.packed + b"\x02\x01" + mac_of(address)
    head = struct.pack("!BB", ADVERTISEMENT, 0)
    flags = b"\x60\0\0\0"
    total = checksum(address, to, ICMP, head + b"\0\0" + flags + body)
    return ipv6(address, to, ICMP, head + struct.pack("!H", total) + flags + body, HOPS, to_mac)


@dataclass
class Frame:
    """A frame with an IPv6 packet, read."""

    time: float
    link: str
    raw: bytes
    is_sent: bool = False
    """By the bench, not by the router."""
    source: IPv6Address = None
    to: IPv6Address = None
    hops: int = 0
    protocol: int = 0
    port: int = 0
    to_port: int = 0
    payload: bytes = b""
    checksum_is_right: bool = True
    entries: list = field(default_factory=list)

    @property
    def to_mac(self):
        return self.raw[:6]

    @property
    def from_mac(self):
        return self.raw[6:12]

    @property
    def is_ripng(self):
        return self.protocol == UDP and PORT in (self.port, self.to_port) and len(self.payload) >= HEADER

    @property
    def is_response(self):
        return self.is_ripng and self.payload[0] == RESPONSE

    @property
    def is_request(self):
        return self.is_ripng and self.payload[0] == REQUEST

    @property
    def is_update(self):
        """A Response to the group."""
        return self.is_response and self.to == GROUP

    @property
    def is_any(self):
        """A datagram of RIPng, or a piece of a packet, which may be one of it."""
        return self.is_ripng or self.protocol == FRAGMENT

    @property
    def solicited(self):
        """The address that a neighbor solicitation asks for, or None."""
        if self.protocol == ICMP and len(self.payload) >= 24 and self.payload[0] == SOLICITATION:
            return IPv6Address(self.payload[8:24])
        return None


def read(raw, time=0.0, link="", is_sent=False):
    """A frame from its bytes, or None where it is no IPv6."""
    if len(raw) < 54 or raw[12:14] != ETHERTYPE:
        return None
    frame = Frame(time, link, raw, is_sent)
    length, frame.protocol, frame.hops = struct.unpack_from("!HBB", raw, 18)
    frame.source, frame.to = IPv6Address(raw[22:38]), IPv6Address(raw[38:54])
    body = raw[54 : 54 + length]
    if frame.protocol == UDP and len(body) >= 8:
        frame.port, frame.to_port, _, total = struct.unpack_from("!HHHH", body)
        frame.payload = body[8:]
        frame.checksum_is_right = checksum(frame.source, frame.to, UDP, body[:6] + b"\0\0" + body[8:]) == total
        frame.entries = entries_of(frame.payload) if frame.is_ripng else []
    else:
        frame.payload = body
    return frame
