"""Captures by the definitions of their formats: files of pcap and pcapng, and the frames of Ethernet, Linux and plain IPv6 in them. They
are written in each byte order, and those of pcapng are read."""

import dataclasses
import ipaddress
import struct

SECTION, INTERFACE, OLD_PACKET, SIMPLE_PACKET, PACKET = 0x0A0D0D0A, 1, 2, 3, 6
END, COMMENT, NAME, RESOLUTION = 0, 1, 2, 9
ETHERNET, RAW, COOKED, IPV6, COOKED_2 = 1, 101, 113, 229, 276
ETHER_IPV6, ETHER_IPV4, ETHER_TAG, ETHER_OUTER_TAG = 0x86DD, 0x0800, 0x8100, 0x88A8
UDP = 17


@dataclasses.dataclass(frozen=True)
class Datagram:
    """A datagram of UDP over IPv6."""

    payload: bytes
    source: str = "fe80::a0"
    destination: str = "ff02::9"
    source_port: int = 521
    destination_port: int = 521
    hops: int = 255


def checksum(pieces):
    """The complement of the ones' complement sum of 16-bit words."""
    data = b"".join(pieces)
    data += b"\0" * (len(data) % 2)
    total = sum(struct.unpack(f">{len(data) // 2}H", data))
    while total > 0xFFFF:
        total = (total & 0xFFFF) + (total >> 16)
    return 0xFFFF - total


def udp(datagram):
    """The header of UDP with its checksum, and the payload (RFC 768; RFC 8200, 8.1)."""
    length = 8 + len(datagram.payload)
    source, destination = (ipaddress.IPv6Address(text).packed for text in (datagram.source, datagram.destination))
    ports = struct.pack(">HHH", datagram.source_port, datagram.destination_port, length)
    found = checksum([source, destination, struct.pack(">II", length, UDP), ports, b"\0\0", datagram.payload])
    return ports + struct.pack(">H", found or 0xFFFF) + datagram.payload


def ipv6(datagram, extensions=b"", first=UDP, body=None):
    """A packet of IPv6 (RFC 8200, 3), with extension headers of which the first has that number."""
    body = extensions + (udp(datagram) if body is None else body)
    source, destination = (ipaddress.IPv6Address(text).packed for text in (datagram.source, datagram.destination))
    return struct.pack(">IHBB", 6 << 28, len(body), first, datagram.hops) + source + destination + body


def ethernet(packet, kind=ETHER_IPV6, tags=(), tail=b""):
    """A frame of Ethernet, with tags of VLANs, each a pair of its type and its number."""
    frame = bytes.fromhex("333300000009020000000001")
    for tag, number in tags:
        frame += struct.pack(">HH", tag, number)
    return frame + struct.pack(">H", kind) + packet + tail


def cooked(packet, kind=ETHER_IPV6):
    """The header of a capture of all interfaces (LINKTYPE_LINUX_SLL)."""
    return struct.pack(">HHH8sH", 1, 1, 6, b"\2\0\0\0\0\1\0\0", kind) + packet


def cooked_2(packet, kind=ETHER_IPV6):
    """Its second version (LINKTYPE_LINUX_SLL2)."""
    return struct.pack(">HHIHBB8s", kind, 0, 7, 1, 1, 6, b"\2\0\0\0\0\1\0\0") + packet


def pcap(frames, link_type, order="<", nanoseconds=False, version=2):
    """A file of pcap of frames, each with its time in nanoseconds."""
    magic, unit = (0xA1B23C4D, 1) if nanoseconds else (0xA1B2C3D4, 1_000)
    file = struct.pack(f"{order}IHHiIII", magic, version, 4, 0, 0, 262_144, link_type)
    for time, frame in frames:
        seconds, rest = divmod(time, 1_000_000_000)
        file += struct.pack(f"{order}IIII", seconds, rest // unit, len(frame), len(frame)) + frame
    return file


def padded(data):
    return data + b"\0" * (-len(data) % 4)


def option(order, code, value):
    return struct.pack(f"{order}HH", code, len(value)) + padded(value)


def block(order, kind, body):
    """A block of pcapng: its length stands at both ends."""
    length = struct.pack(f"{order}I", 12 + len(body))
    return struct.pack(f"{order}I", kind) + length + body + length


def section(order="<", version=1):
    return block(order, SECTION, struct.pack(f"{order}IHHq", 0x1A2B3C4D, version, 0, -1))


def interface(order, link_type, resolution=None, name=None):
    """The block of an interface; its times are in microseconds if nothing is said."""
    body = struct.pack(f"{order}HHI", link_type, 0, 0)
    if name is not None:
        body += option(order, NAME, name)
    if resolution is not None:
        body += option(order, RESOLUTION, bytes([resolution]))
    return block(order, INTERFACE, body + option(order, END, b""))


def packet(order, number, time, frame, kind=PACKET, comment=None):
    """The block of a packet, whose time counts in the units of its interface."""
    numbers = struct.pack(f"{order}HH", number, 0) if kind == OLD_PACKET else struct.pack(f"{order}I", number)
    body = numbers + struct.pack(f"{order}IIII", time >> 32, time & 0xFFFFFFFF, len(frame), len(frame)) + padded(frame)
    if comment is not None:
        body += option(order, COMMENT, comment) + option(order, END, b"")
    return block(order, kind, body)


def simple(order, frame):
    return block(order, SIMPLE_PACKET, struct.pack(f"{order}I", len(frame)) + padded(frame))


def options(order, data):
    """The options of a block, as pairs of a code and a value."""
    while data:
        code, length = struct.unpack_from(f"{order}HH", data)
        if code == END:
            return
        yield code, data[4:4 + length]
        data = data[4 + length + -length % 4:]


@dataclasses.dataclass(frozen=True)
class Read:
    """A packet of a file of pcapng: the name of its interface, its time in seconds and units of which so many make a second."""

    name: str
    link_type: int
    time: int
    units: int
    frame: bytes
    comment: str


def read(file):
    """The names of the interfaces of a file of pcapng with one section, and its packets."""
    order = {b"\x1a\x2b\x3c\x4d": ">", b"\x4d\x3c\x2b\x1a": "<"}[file[8:12]]
    interfaces, packets, place = [], [], 0
    while place < len(file):
        kind, length = struct.unpack_from(f"{order}II", file, place)
        body = file[place + 8:place + length - 4]
        if struct.unpack_from(f"{order}I", file, place + length - 4) != (length,):
            raise ValueError(f"the lengths of the block at {place} differ")
        place += length
        if kind == INTERFACE:
            has = dict(options(order, body[8:]))
            interfaces.append((has[NAME].decode(), *struct.unpack_from(f"{order}H", body), 10 ** has[RESOLUTION][0]))
        elif kind == PACKET:
            number, high, low, held, whole = struct.unpack_from(f"{order}IIIII", body)
            if held != whole:
                raise ValueError("a packet is not whole")
            name, link_type, units = interfaces[number]
            has = dict(options(order, body[20 + held + -held % 4:]))
            packets.append(Read(name, link_type, (high << 32) + low, units, body[20:20 + held], has.get(COMMENT, b"").decode()))
    return [name for name, _, _ in interfaces], packets
