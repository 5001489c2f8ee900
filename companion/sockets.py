"""Sockets of RIPng on a device, three for each link, which the router inherits. What each of them gives is the kernel's word: what came
to an address of this router, or to the group with hop limit 255, or to the group with any other. A fourth keeps Requests, to be given to
the router once more."""

import contextlib
import ctypes
import socket
import struct
import time
from ipaddress import IPv6Address

from table import Fault

# Bytes that a socket holds. Those that are sent outlast the three seconds in which the kernel looks for a neighbor that is not there.
PORT, HOPS, ROOM = 521, 255, 4 << 20
# Tenths of a second in which a router that lost its companion has ended.
LINGERS = 10
# What routers write into the traffic class: network control, CS6 (RFC 4594, section 3.2).
NETWORK_CONTROL = 0xC0
GROUP, LOOPBACK = IPv6Address("ff02::9"), b"lo"
# Of the kernel's headers.
MULTICAST_ALL, SEND_FORCE, RECEIVE_FORCE, ATTACH_FILTER, TIMES, LOCK_FILTER = 29, 32, 33, 26, 35, 44
OPTIONS = {socket.IPV6_V6ONLY: 1, MULTICAST_ALL: 0, socket.IPV6_MULTICAST_LOOP: 0, socket.IPV6_TCLASS: NETWORK_CONTROL}
OPTIONS |= {socket.IPV6_MULTICAST_HOPS: HOPS, socket.IPV6_UNICAST_HOPS: HOPS}
# Socket filters (bpf(4)): instructions, bytes of the header of IPv6 (RFC 8200, section 3), values there, and answers.
LOAD_BYTE, LOAD_TWO, AND, IS_EQUAL, ANSWER, HEADER = 0x30, 0x28, 0x54, 0x15, 0x06, 0xFFF00000
HOP_LIMIT, SOURCE, DESTINATION, MULTICAST, NEAR, NEAR_BITS, ALL, NOTHING = 7, 8, 24, 0xFF, 0xFE80, 0xFFC0, 0xFFFFFFFF, 0
# Which key of the router's configuration has which socket; and the socket that the router does not have.
ALONE, OF_GROUP, FAR, EARLY = "descriptor", "group_descriptor", "far_descriptor", "early"
# Where the command of RIPng stands behind the header of UDP, and that of a Request; how many Requests are kept, and for how many seconds.
COMMAND, REQUEST, MOST, FRESH = 8, 1, 64, 10


def judging(byte, value, then, otherwise):
    """Takes `then` of a datagram with that byte of its header, and else `otherwise`: all bytes, or none."""
    return [(LOAD_BYTE, 0, 0, HEADER + byte), (IS_EQUAL, 0, 1, value), (ANSWER, 0, 0, then), (ANSWER, 0, 0, otherwise)]


# Takes nothing that comes from beyond the link; of all else what follows decides.
OF_THE_LINK = [(LOAD_TWO, 0, 0, HEADER + SOURCE), (AND, 0, 0, NEAR_BITS), (IS_EQUAL, 1, 0, NEAR), (ANSWER, 0, 0, NOTHING)]
# Takes nothing but Requests; of these what follows decides.
REQUESTS = [(LOAD_BYTE, 0, 0, COMMAND), (IS_EQUAL, 1, 0, REQUEST), (ANSWER, 0, 0, NOTHING)]


def filters(queries):
    """The filter of each socket. One alone depends on who may ask: all, or hosts of the link."""
    return {
        ALONE: (OF_THE_LINK if queries == "link" else []) + judging(DESTINATION, MULTICAST, NOTHING, ALL),
        OF_GROUP: judging(HOP_LIMIT, HOPS, ALL, NOTHING),
        FAR: judging(HOP_LIMIT, HOPS, NOTHING, ALL),
        EARLY: REQUESTS + judging(HOP_LIMIT, HOPS, ALL, NOTHING),
    }


def attach(sock, steps):
    """The socket has that filter, and nobody takes it away again."""
    program = ctypes.create_string_buffer(b"".join(struct.pack("HBBI", *step) for step in steps), 8 * len(steps))
    sock.setsockopt(socket.SOL_SOCKET, ATTACH_FILTER, struct.pack("HL", len(steps), ctypes.addressof(program)))
    sock.setsockopt(socket.SOL_SOCKET, LOCK_FILTER, 1)


def make_room(sock, beyond_limits, within_limits):
    """Lets a whole table wait in a socket: beyond the system's limit where that is allowed."""
    try:
        sock.setsockopt(socket.SOL_SOCKET, beyond_limits, ROOM)
    except PermissionError:
        sock.setsockopt(socket.SOL_SOCKET, within_limits, ROOM)


def opened(key, steps):
    """A socket of that key. Until its device is there it is of the device of loopback, so that the privilege to bind its port is needed
    here alone."""
    sock = socket.socket(socket.AF_INET6, socket.SOCK_DGRAM)
    sock.setsockopt(socket.SOL_SOCKET, socket.SO_REUSEADDR, 1)
    for option, value in OPTIONS.items():
        sock.setsockopt(socket.IPPROTO_IPV6, option, value)
    attach(sock, steps)
    if key == ALONE:
        make_room(sock, SEND_FORCE, socket.SO_SNDBUF)
    if key in (ALONE, OF_GROUP):
        make_room(sock, RECEIVE_FORCE, socket.SO_RCVBUF)
    sock.setsockopt(socket.SOL_SOCKET, socket.SO_BINDTODEVICE, LOOPBACK)
    sock.bind(("::" if key == ALONE else str(GROUP), PORT, 0, socket.if_nametoindex(LOOPBACK.decode())))
    sock.setblocking(False)
    return sock


def waiting(sock):
    """What waits in a socket, with what the kernel says of it."""
    try:
        while True:
            yield sock.recvmsg(65535, 128)
    except BlockingIOError:
        return


def claim():
    """Refuses a port that another program has: sockets of many devices share it, so that each of them would not notice."""
    for left in reversed(range(LINGERS)):
        with socket.socket(socket.AF_INET6, socket.SOCK_DGRAM) as sock:
            try:
                sock.setsockopt(socket.IPPROTO_IPV6, socket.IPV6_V6ONLY, 1)
                return sock.bind(("::", PORT))
            except OSError as fault:
                if not left or isinstance(fault, PermissionError):
                    raise Fault(f"cannot bind port {PORT}: {fault.strerror}", 3) from None
        time.sleep(0.1)


def checksum(data):
    """The checksum of the Internet (RFC 1071), of an even number of bytes."""
    return 0xFFFF - sum(struct.unpack(f"!{len(data) // 2}H", data)) % 0xFFFF


def packet(data, source, port, to):
    """A datagram to the port of RIPng, with its headers (RFC 768, RFC 8200)."""
    ends, head = source.packed + to.packed, struct.pack("!HHH", port, PORT, 8 + len(data))
    whole = ends + struct.pack("!IxxxB", 8 + len(data), socket.IPPROTO_UDP) + head + b"\0\0" + data + b"\0" * (len(data) % 2)
    header = struct.pack("!IHBB", 6 << 28, 8 + len(data), socket.IPPROTO_UDP, HOPS)
    return header + ends + head + struct.pack("!H", checksum(whole) or 0xFFFF) + data


class Sockets:
    """The three sockets of a link, and one more that keeps Requests."""

    def __init__(self, device, queries):
        self.device, self.index = device, None
        self.sockets = {key: opened(key, steps) for key, steps in filters(queries).items()}
        self.early, self.kept = self.sockets.pop(EARLY), {}
        self.early.setsockopt(socket.SOL_SOCKET, TIMES, 1)

    def follow(self, index):
        """The device is there, or is there anew under another index: the sockets are its own, and hear the group."""
        request = GROUP.packed + struct.pack("@I", index)
        for key, sock in [*self.sockets.items(), (EARLY, self.early)]:
            if self.index != index:
                sock.setsockopt(socket.SOL_SOCKET, socket.SO_BINDTODEVICE, self.device.encode())
            if key != ALONE:
                try:
                    sock.setsockopt(socket.IPPROTO_IPV6, socket.IPV6_LEAVE_GROUP, request)
                except OSError:
                    pass
                sock.setsockopt(socket.IPPROTO_IPV6, socket.IPV6_JOIN_GROUP, request)
        self.index = index

    def drain(self):
        """Drops all that waits."""
        for sock in self.sockets.values():
            for _ in waiting(sock):
                pass

    def requests(self):
        """The last Request to the group of each port of each neighbor, of the last seconds."""
        for data, told, _, (source, port, *_) in waiting(self.early):
            self.kept.pop((source, port), None)
            self.kept[source, port] = struct.unpack("@qq", told[0][2])[0], data
        fresh = [(who, kept) for who, kept in self.kept.items() if time.time() - kept[0] < FRESH]
        self.kept = dict(fresh[-MOST:])
        return {who: data for who, (_, data) in self.kept.items()}

    def repeat(self, to):
        """Gives those Requests once more to an address of this router: the kernel takes them as of the same link and neighbor."""
        with socket.socket(socket.AF_INET6, socket.SOCK_RAW, socket.IPPROTO_RAW) as sock:
            for (source, port), data in self.requests().items():
                sock.sendto(packet(data, IPv6Address(source.split("%")[0]), port, to), (str(to), 0, 0, self.index))

    def close(self):
        """Nothing more is heard or sent here, also not by a router that has inherited them: its duplicates are on loopback, too."""
        for sock in [*self.sockets.values(), self.early]:
            with contextlib.suppress(OSError):  # a kernel without that right keeps them where they are
                sock.setsockopt(socket.SOL_SOCKET, socket.SO_BINDTODEVICE, LOOPBACK)
            sock.close()

    def keys(self):
        """What the router's configuration says of them."""
        return {key: sock.fileno() for key, sock in self.sockets.items()}
