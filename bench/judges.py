"""Judges of datagrams that a router has sent: each is given them, and answers what is wrong, a line for each fault. They are pure."""

from ipaddress import IPv6Network

from frames import ENTRY, FRAGMENT, GROUP, HEADER, HOPS, INFINITY, NEXT_HOP, PORT, REQUEST, RESPONSE
from verdicts import whole

LINK_LOCAL, MULTICAST = IPv6Network("fe80::/10"), IPv6Network("ff00::/8")
HEADERS = 40 + 8 + HEADER


def faults(frames, is_right, say):
    return sorted({say(frame) for frame in frames if not is_right(frame)})


def from_the_port(frames):
    """From port 521, and to it."""
    return faults(frames, lambda one: (one.port, one.to_port) == (PORT, PORT), lambda one: f"from port {one.port} to {one.to_port}")


def near_source(address_of):
    """From the link-local address of the link, and no other."""

    def judge(frames):
        return faults(frames, lambda one: one.source == address_of[one.link], lambda one: f"from {one.source} on link {one.link}")

    return judge


def full_hops(frames):
    return faults(frames, lambda one: one.hops == HOPS, lambda one: f"hop limit {one.hops}")


def to_the_group(frames):
    return faults(frames, lambda one: one.to == GROUP, lambda one: f"to {one.to}")


def version_1(frames):
    return faults(frames, lambda one: one.payload[1] == 1, lambda one: f"version {one.payload[1]}")


def known_command(frames):
    return faults(frames, lambda one: one.payload[0] in (REQUEST, RESPONSE), lambda one: f"command {one.payload[0]}")


def zero_bytes(frames):
    return faults(frames, lambda one: one.payload[2:4] == b"\0\0", lambda one: f"bytes 3 and 4 are {one.payload[2:4].hex()}")


def whole_entries(frames):
    return faults(frames, lambda one: whole(one.payload), lambda one: f"{len(one.payload)} bytes")


def right_checksum(frames):
    return faults(frames, lambda one: one.checksum_is_right, lambda one: f"a wrong checksum, from {one.source}")


def routes_of(frames):
    return [entry for frame in frames for entry in frame.entries if entry.metric != NEXT_HOP]


def metrics(frames):
    """1 to 16; 255 marks a next hop."""
    return sorted({str(entry) for entry in routes_of(frames) if not 1 <= entry.metric <= INFINITY})


def lengths(frames):
    return sorted({str(entry) for entry in routes_of(frames) if entry.length > 128})


def routable(frames):
    """No multicast prefix, and no link-local one."""
    return sorted({str(one) for one in routes_of(frames) if one.address in LINK_LOCAL or one.address in MULTICAST})


def next_hops(frames):
    """With tag and length 0, and link-local or unspecified."""
    hops = [entry for frame in frames for entry in frame.entries if entry.metric == NEXT_HOP]
    return sorted({str(one) for one in hops if one.tag or one.length or not (one.address in LINK_LOCAL or one.address.is_unspecified)})


def fits(mtu):
    """No datagram is longer than the link takes at once, nor in fragments."""

    def judge(frames):
        most = (mtu - HEADERS) // ENTRY
        long = faults(frames, lambda one: len(one.entries) <= most, lambda one: f"{len(one.entries)} entries where {most} fit")
        return long + faults(frames, lambda one: one.protocol != FRAGMENT, lambda one: "a fragment")

    return judge


def filled(mtu):
    """Of the datagrams of one list all are full but the last."""

    def judge(frames):
        most = (mtu - HEADERS) // ENTRY
        return [f"{len(one.entries)} entries, not the last, where {most} fit" for one in frames[:-1] if len(one.entries) != most]

    return judge


def once(frames):
    """No route stands twice in one list."""
    prefixes = [entry.prefix for entry in routes_of(frames)]
    return [f"{prefix} stands {prefixes.count(prefix)} times" for prefix in sorted(set(prefixes)) if prefixes.count(prefix) > 1]


def asks_for_all(frames):
    """A Request whose only entry is ::/0 with metric 16 (section 2.4.1)."""

    def is_whole(one):
        found = [(str(entry.address), entry.length, entry.metric) for entry in one.entries]
        return whole(one.payload) and found == [("::", 0, INFINITY)]

    return faults(frames, is_whole, lambda one: f"a Request for {', '.join(map(str, one.entries)) or 'nothing'}")
