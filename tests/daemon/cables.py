"""Links of virtual devices between name spaces: that of a router, with the sockets which it inherits, and that of its neighbors."""

import contextlib
import ctypes
import os
import pathlib
import socket
import struct
import subprocess
import sys

sys.path.insert(0, str(pathlib.Path(__file__).resolve().parents[2] / "companion"))
from daemons import table
from datagrams import REQUEST
from sockets import GROUP, PORT, Sockets
from suite import until

LIBC = ctypes.CDLL(None, use_errno=True)
NEW_NETWORK = 0x40000000
HOP_LIMITS = socket.IPV6_MULTICAST_HOPS, socket.IPV6_UNICAST_HOPS
FOREIGN = 78
"""The option IPV6_FREEBIND, which Python has no name for: a socket may have an address that its device has not."""
GATE, HOST = "2001:db8:5::1", "2001:db8:5::5"
"""The addresses, beside link-local ones, of a router and of its neighbors on a link."""


def ip(*words):
    subprocess.run(["ip", *map(str, words)], check=True)


class There:
    """The name space of the neighbors. What is done within it is done there."""

    def __init__(self):
        self.here = os.open("/proc/thread-self/ns/net", os.O_RDONLY)
        if LIBC.unshare(NEW_NETWORK):
            raise OSError(ctypes.get_errno(), "unshare")
        self.holder = subprocess.Popen(["sleep", "1000"])
        self.there = os.open("/proc/thread-self/ns/net", os.O_RDONLY)
        LIBC.setns(self.here, NEW_NETWORK)

    def __enter__(self):
        LIBC.setns(self.there, NEW_NETWORK)

    def __exit__(self, *_):
        LIBC.setns(self.here, NEW_NETWORK)

    def close(self):
        self.holder.kill()
        self.holder.wait()


class Cable:
    """A link: the router's device at fe80::1, with its sockets, and that of its neighbors, which have fe80::5 and more."""

    def __init__(self, there, number, more=()):
        self.there, self.device, self.other = there, f"here{number}", f"there{number}"
        ip("link", "add", self.device, "type", "veth", "peer", "name", self.other, "netns", there.holder.pid)
        self.bring_up(self.device, "fe80::1", GATE)
        with there:
            self.bring_up(self.other, "fe80::5", HOST, *more)
            self.index = socket.if_nametoindex(self.other)
        self.sockets = Sockets(self.device, "all")
        until("a carrier", lambda: self.is_up())
        self.sockets.follow(socket.if_nametoindex(self.device))

    def bring_up(self, device, *addresses):
        ip("link", "set", device, "addrgenmode", "none", "up")
        for address in addresses:
            ip("address", "add", f"{address}/64", "dev", device, "nodad")

    def is_up(self):
        words = ["ip", "-o", "link", "show", self.device]
        return "LOWER_UP" in subprocess.run(words, capture_output=True, text=True, check=True).stdout

    def table(self, **keys):
        """What configures it."""
        return table("interface", address="fe80::1", cost=1, **self.sockets.keys() | keys)

    def descriptors(self):
        return list(self.sockets.keys().values())

    def socket(self, source="fe80::5", port=PORT):
        """A socket of a neighbor, or of nobody: then no answer finds it."""
        with self.there:
            opened = socket.socket(socket.AF_INET6, socket.SOCK_DGRAM)
        opened.setsockopt(socket.SOL_SOCKET, socket.SO_REUSEADDR, 1)
        opened.setsockopt(socket.IPPROTO_IPV6, FOREIGN, 1)
        opened.setsockopt(socket.IPPROTO_IPV6, socket.IPV6_MULTICAST_LOOP, 0)
        opened.setsockopt(socket.IPPROTO_IPV6, socket.IPV6_MULTICAST_IF, self.index)
        opened.bind((source, port, 0, self.index if source.startswith("f") else 0))
        opened.settimeout(60)
        return opened

    def group(self):
        """A socket of a neighbor that hears the group."""
        opened = self.socket(str(GROUP))
        opened.setsockopt(socket.SOL_SOCKET, socket.SO_RCVBUF, 1 << 20)
        opened.setsockopt(socket.IPPROTO_IPV6, socket.IPV6_JOIN_GROUP, GROUP.packed + struct.pack("@I", self.index))
        return opened

    def send(self, bytes, source="fe80::5", port=PORT, hop_limit=255, to=str(GROUP)):
        """A datagram of a neighbor; the answer to it, if one is waited for."""
        with self.socket(source, port) as opened:
            for option in HOP_LIMITS:
                opened.setsockopt(socket.IPPROTO_IPV6, option, hop_limit)
            opened.sendto(bytes, (to, PORT, 0, self.index if to.startswith("f") else 0))
            if bytes == REQUEST:
                return opened.recvfrom(65_536)[1][:2]

    def ask(self, source):
        """A Request of an address that nobody need have."""
        with self.socket(source) as opened:
            opened.setsockopt(socket.IPPROTO_IPV6, socket.IPV6_MULTICAST_HOPS, 255)
            opened.sendto(REQUEST, (str(GROUP), PORT, 0, self.index))


@contextlib.contextmanager
def cables(case, count=1, more=()):
    """So many links, whose sockets the routers of the case inherit."""
    there = There()
    try:
        ip("link", "set", "lo", "up")
        found = [Cable(there, number, more) for number in range(count)]
        case.descriptors = [number for cable in found for number in cable.descriptors()]
        yield found
    finally:
        there.close()
