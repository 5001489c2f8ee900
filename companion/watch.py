"""What the kernel tells of devices, addresses and routes as they change, at a socket of rtnetlink(7)."""

import errno
import socket
import struct
from dataclasses import dataclass, field
from ipaddress import IPv6Address

# Of the kernel's headers: groups of links, of addresses and of routes; kinds of messages; attributes; and flags of a device.
GROUPS = 0x1 | 0x100 | 0x400
NEW_LINK, NEW_ROUTE, DEL_ROUTE = 16, 24, 25
NAME, TO, GATEWAY, PRIORITY, TABLE = 3, 1, 5, 6, 15
LOWER_UP = 0x10000
HEADER, OF_LINK, OF_ROUTE = struct.Struct("=IHHII"), struct.Struct("=BxHiII"), struct.Struct("=8BI")
# Bytes that may wait in the socket, and that are read at once.
ROOM, AT_ONCE = 4 << 20, 1 << 16


@dataclass
class Route:
    """A route of IPv6 that came or went."""

    is_gone: bool
    prefix: str
    gateway: str | None
    table: int
    protocol: int
    priority: int


@dataclass
class News:
    """What has happened: whether devices or addresses may be others, which devices had no carrier meanwhile, routes, and whether
    something was lost, so that all has to be looked at."""

    is_moved: bool = False
    were_down: set[str] = field(default_factory=set)
    routes: list[Route] = field(default_factory=list)
    is_lost: bool = False


def attributes(data):
    """The attributes of a message, by number."""
    found, at = {}, 0
    while at + 4 <= len(data):
        length, kind = struct.unpack_from("=HH", data, at)
        if length < 4:
            break
        found[kind & 0x3FFF] = data[at + 4 : at + length]
        at += (length + 3) & ~3
    return found


def route_of(kind, data):
    """The route of a message."""
    _, length, _, _, table, protocol, *_ = OF_ROUTE.unpack_from(data)
    told = attributes(data[OF_ROUTE.size :])
    number = lambda key, value: struct.unpack("=I", told[key])[0] if key in told else value  # noqa: E731
    return Route(
        is_gone=kind == DEL_ROUTE,
        prefix=f"{IPv6Address(told.get(TO, bytes(16)))}/{length}",
        gateway=str(IPv6Address(told[GATEWAY])) if len(told.get(GATEWAY, b"")) == 16 else None,
        table=number(TABLE, table),
        protocol=protocol,
        priority=number(PRIORITY, 0),
    )


def take(news, data, own):
    """Adds what messages say. A new route of the own protocol number is none."""
    at = 0
    while at + HEADER.size <= len(data):
        length, kind, *_ = HEADER.unpack_from(data, at)
        body = data[at + HEADER.size : at + length]
        if kind in (NEW_ROUTE, DEL_ROUTE):
            if kind == DEL_ROUTE or body[5] != own:
                news.routes.append(route_of(kind, body))
        else:
            news.is_moved = True
            if kind == NEW_LINK and not OF_LINK.unpack_from(body)[3] & LOWER_UP:
                news.were_down.add(attributes(body[OF_LINK.size :]).get(NAME, b"").rstrip(b"\0").decode(errors="replace"))
        at += max(length + 3 & ~3, HEADER.size)


class Watch:
    """The socket. Routes of the own protocol number are known to come."""

    def __init__(self, own):
        self.own, self.sock = own, socket.socket(socket.AF_NETLINK, socket.SOCK_RAW | socket.SOCK_NONBLOCK, socket.NETLINK_ROUTE)
        self.sock.setsockopt(socket.SOL_SOCKET, socket.SO_RCVBUF, ROOM)
        self.sock.bind((0, GROUPS))

    def read(self):
        """All that waits."""
        news = News()
        while True:
            try:
                take(news, self.sock.recv(AT_ONCE), self.own)
            except BlockingIOError:
                return news
            except OSError as fault:
                if fault.errno != errno.ENOBUFS:
                    raise
                news.is_moved = news.is_lost = True
