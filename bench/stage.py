"""A router between two links of the bench, for one rule: what the bench does there, and what it sees."""

import itertools
import os
import pathlib
import threading
import time
from ipaddress import IPv6Address

import frames
from frames import GROUP, HOPS, PORT, REQUEST, RESPONSE
from space import Broken, Space, cable, compute_checksums, run, within
from tap import Tap

LINKS = ("a", "b")
# The router on each link: its device, its link-local address, and a global one with its prefix.
DEVICE = {"a": "to-a", "b": "to-b"}
NEAR = {"a": IPv6Address("fe80::d1"), "b": IPv6Address("fe80::d2")}
FAR = {"a": IPv6Address("2001:db8:a::1"), "b": IPv6Address("2001:db8:b::1")}
ATTACHED = {"a": "2001:db8:a::/64", "b": "2001:db8:b::/64"}
# What it owns beside the prefixes of its links.
OWN = "2001:db8:d::/48"
# Who looks at its table on each link, and who sends packets to be forwarded.
LOOKER = {"a": IPv6Address("fe80::10:a"), "b": IPv6Address("fe80::10:b")}
HOST = {"a": IPv6Address("2001:db8:a::beef"), "b": IPv6Address("2001:db8:b::beef")}
ALL = frames.Entry(IPv6Address("::"), 0, frames.INFINITY)
"""The entry by which the whole table is asked for."""
# Seconds: until a router has to be there; from one look at its table to the next; that a look may take.
STARTS, AGAIN, LOOK = 60, 0.7, 2
DISCARD = 9
numbers = itertools.count()
naming = threading.Lock()
stopping = threading.Event()
"""Set once the bench is to end."""


def rest(seconds):
    """Lets time pass, unless all is to end."""
    if stopping.wait(seconds):
        raise Broken("the bench was ended")


def at(who):
    """Where somebody asks the router: a router at its link-local address, and a host at its global one, as it does from far away."""
    return (NEAR if who.address.is_link_local else FAR)[who.link]


class Stage:
    """Two links, a router between them, and all that was sent there."""

    def __init__(self, router, folder, mtu=1500):
        with naming:
            number = next(numbers)
        self.folder = pathlib.Path(folder) / str(number)
        self.folder.mkdir(mode=0o777)
        self.folder.chmod(0o777)
        self.spaces, self.tap = [], None
        try:
            self.build(f"rb{os.getpid()}-{number}", mtu)
            self.begun = self.moment = time.time()
            self.router = router(self.near, self.folder, dict.fromkeys(DEVICE.values(), 1), [OWN])
        except BaseException:
            self.close()
            raise

    def build(self, name, mtu):
        """Makes both links; they are up, and heard, before the router starts."""
        for end in ("n", "f"):
            self.spaces.append(Space(name + end))
        self.near, far = self.spaces
        self.macs = {}
        for link in LINKS:
            cable(self.near, DEVICE[link], far, link, mtu)
            far.do("sysctl", "-qw", f"net.ipv6.conf.{link}.disable_ipv6=1")
            far.ip("link", "set", "dev", link, "up")
            within(self.near.name, lambda device=DEVICE[link]: compute_checksums(device))
            self.near.do("sysctl", "-qw", f"net.ipv6.conf.{DEVICE[link]}.addr_gen_mode=1")
            self.near.ip("link", "set", "dev", DEVICE[link], "up")
            self.near.ip("address", "add", f"{NEAR[link]}/64", "dev", DEVICE[link], "nodad")
            self.near.ip("address", "add", f"{FAR[link]}/64", "dev", DEVICE[link], "nodad")
            told = within(self.near.name, lambda device=DEVICE[link]: run("ip", "-o", "link", "show", device))
            self.macs[link] = bytes.fromhex(told.split("link/ether ")[1].split()[0].replace(":", ""))
        self.tap = Tap(far.name, {link: link for link in LINKS}, {*NEAR.values(), *FAR.values()})

    def close(self):
        if self.tap:
            self.tap.close()
        for space in self.spaces:
            space.end()

    def mark(self):
        """From now on."""
        self.moment = time.time()
        return self.moment

    def to_mac(self, link, to):
        return frames.group_mac(to) if to.is_multicast else self.macs[link]

    def send(self, link, source, payload, port=PORT, to=GROUP, to_port=PORT, hops=HOPS):
        """A datagram to the router."""
        return self.tap.send(link, frames.udp(source, port, to, to_port, payload, hops, self.to_mac(link, to)))

    def tell(self, link, source, entries, **more):
        return self.send(link, source, frames.message(RESPONSE, entries), **more)

    def answers(self, link, to, port, moment):
        """The Responses to that address and port since then."""
        came = self.tap.since(moment)
        return [one for one in came if one.is_response and one.link == link and one.to == to and one.to_port == port]

    def look(self, link, seconds=LOOK):
        """The router's table as it answers on that link: a dictionary of entries by their prefixes, or None where it does not answer."""
        moment = time.time()
        self.send(link, LOOKER[link], frames.message(REQUEST, [ALL]), to=NEAR[link])
        if not self.tap.wait(seconds, lambda: self.answers(link, LOOKER[link], PORT, moment)):
            return None
        whole = 0
        while whole != (whole := len(self.answers(link, LOOKER[link], PORT, moment))):
            time.sleep(0.2)
        return {one.prefix: one for frame in self.answers(link, LOOKER[link], PORT, moment) for one in frame.entries}

    def updates(self, link, moment=None):
        """The Responses to the group on that link since then, or since the last mark."""
        came = self.tap.since(self.moment if moment is None else moment)
        return [frame for frame in came if frame.is_update and frame.link == link]

    def ready(self):
        """Waits until the router has its own prefix on both links."""
        ends = time.monotonic() + STARTS
        for link in LINKS:
            while OWN not in (self.look(link) or {}) and not self.has_told(link):
                rest(0)
                if time.monotonic() > ends:
                    raise Broken(f"the router neither answers nor advertises {OWN} on link {link}; {self.output()}")

    def has_told(self, link):
        return any(one.prefix == OWN for frame in self.updates(link, self.begun) for one in frame.entries)

    def output(self):
        """The last line that the router wrote."""
        texts = [path.read_text(errors="replace").strip() for path in sorted(self.folder.glob("*.out"))]
        lines = [text.splitlines()[-1] for text in texts if text]
        return "; ".join(lines) or "it wrote nothing"

    def forwarded(self, to, by, seconds=3):
        """Where the router hands on a packet to that address that comes on link `by`: the link and its frame, or None."""
        moment = time.time()
        head = frames.udp(HOST[by], DISCARD, to, DISCARD, b"bench", 64, self.macs[by])
        self.tap.send(by, head)

        def found():
            return [one for one in self.tap.since(moment) if one.to == to and one.protocol == frames.UDP]

        came = self.tap.wait(seconds, found)
        return (came[0].link, came[0]) if came else None
