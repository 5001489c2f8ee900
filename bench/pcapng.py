"""Captures: files of pcapng, with an interface for each link, that Wireshark and tcpdump read."""

import struct

SECTION, INTERFACE, PACKET = 0x0A0D0D0A, 1, 6
MAGIC, ETHERNET = 0x1A2B3C4D, 1
# Options: the end, a comment, an interface's name, its resolution of time.
END, COMMENT, NAME, RESOLUTION = 0, 1, 2, 9
NANOSECONDS = b"\x09"


def padded(data):
    return data + b"\0" * (-len(data) % 4)


def option(code, value):
    return struct.pack("<HH", code, len(value)) + padded(value)


def block(kind, body):
    length = struct.pack("<I", 12 + len(body))
    return struct.pack("<I", kind) + length + body + length


def section(comment):
    """The block that begins a file, with a comment on all of it."""
    head = struct.pack("<IHHq", MAGIC, 1, 0, -1)
    return block(SECTION, head + option(COMMENT, comment.encode()) + option(END, b""))


def interface(name):
    """The block of a link."""
    options = option(NAME, name.encode()) + option(RESOLUTION, NANOSECONDS) + option(END, b"")
    return block(INTERFACE, struct.pack("<HHI", ETHERNET, 0, 0) + options)


def packet(number, frame):
    """The block of a frame that was on the link of that number."""
    time = round(frame.time * 1e9)
    head = struct.pack("<IIIII", number, time >> 32, time & 0xFFFFFFFF, len(frame.raw), len(frame.raw))
    comment = b"sent by the bench" if frame.is_sent else b"sent by the router"
    return block(PACKET, head + padded(frame.raw) + option(COMMENT, comment) + option(END, b""))


def capture(frames, links, comment):
    """The bytes of a file of these frames, in the order of their times."""
    ordered = sorted(frames, key=lambda frame: frame.time)
    blocks = [section(comment), *map(interface, links)]
    return b"".join(blocks + [packet(links.index(frame.link), frame) for frame in ordered])
