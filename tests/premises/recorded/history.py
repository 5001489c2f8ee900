"""What a network of routers did, as `AreRunning` and `GoOn` speak of it: the runs of each router, all calls of their links in an order in
which they happened, and all deeds by the true clock, in milliseconds."""

import bisect
import dataclasses
import heapq

from recorded.calls import MS, Deed

PROMPT = 13_000
"""How old a copy is at most that is taken for that of a datagram, where several would do: so old may none be, to be on time."""


@dataclasses.dataclass(frozen=True)
class Program:
    """A run of the program (`Program`): the configuration that it began with and that in force at its end, the seed of its random words,
    what it did, and what it said."""
    router: int
    config: tuple
    in_force: tuple
    seed: int
    deeds: tuple
    said: str = ""

    @property
    def calls(self):
        return [call for deed in self.deeds for call in deed.calls]


@dataclasses.dataclass(frozen=True)
class Sent:
    """A datagram that was handed over (`Sent`), and by which deed."""
    router: int
    iface: int
    bytes: bytes
    deed: int


@dataclasses.dataclass(frozen=True)
class Dated:
    """A deed, when it happened, and the number of the datagram that a link gave by it, if it was handed over before (`Dated`)."""
    at: int
    deed: Deed
    number: int = None


def interface_at(net, router, iface):
    interfaces = net[router].interfaces if router < len(net) else ()
    return interfaces[iface] if iface < len(interfaces) else None


def are_linked(net, router, iface, other, there):
    """`AreLinked`: both are there, and on one link."""
    one, two = interface_at(net, router, iface), interface_at(net, other, there)
    return bool(one and two and one.link == two.link)


def neighbors(net, router, iface):
    """All interfaces of the link, this one too."""
    return [(other, there) for other, node in enumerate(net) for there in range(len(node.interfaces))
            if are_linked(net, router, iface, other, there)]


def broken_of_copy(net, sent, router, datagram):
    """The fields of `IsCopyOf` that do not hold of a datagram that a router got."""
    sender = interface_at(net, sent.router, sent.iface)
    fields = {"linked": are_linked(net, sent.router, sent.iface, router, datagram.iface), "source": datagram.source == sender.address,
              "port": datagram.source_port == 521, "hops": datagram.hop_limit == 255, "bytes": datagram.bytes == sent.bytes}
    return {f"IsCopyOf.{name}" for name, holds in fields.items() if not holds}


class History:
    """All that was done."""

    def __init__(self, net, runs, order=None):
        self.net, self.runs = net, runs
        programs = [program for own in runs for program in own]
        self.order = order or list(heapq.merge(*(program.calls for program in programs), key=lambda call: call.at))
        deeds = list(heapq.merge(*(program.deeds for program in programs), key=lambda deed: deed.at))
        self.handed = [Sent(deed.router, out.iface, out.bytes, place) for place, deed in enumerate(deeds) for out in deed.handed]
        self.places, self.newest, self.begun = {}, {}, {}
        for number, sent in enumerate(self.handed):
            self.places.setdefault((sent.router, sent.iface, sent.bytes), []).append(number)
        self.deeds = []
        for place, deed in enumerate(deeds):
            self.deeds.append(Dated(deed.at // MS, deed, self.number_of(place, deed)))

    def number_of(self, place, deed):
        """The number of a datagram of which a link may have given a copy by that deed. It was handed over since the router started, after
        all that came from there before, and lately: the first such; or else it is the last of all that it can be."""
        if deed.act == "Start":
            self.begun[deed.router] = place
        if not deed.datagram:
            return None
        numbers = self.copies(place, deed)
        way = deed.router, deed.datagram.iface, deed.datagram.source
        likely = [number for number in numbers if number > self.newest.get(way, -1) and self.handed[number].deed > self.begun[deed.router]
                  and self.deeds[self.handed[number].deed].at + PROMPT > deed.at // MS]
        chosen = min(likely, default=max(numbers, default=None))
        if chosen is not None:
            self.newest[way] = chosen
        return chosen

    def copies(self, place, deed):
        """The numbers of all datagrams handed over before of which it is a copy."""
        datagram = deed.datagram
        senders = [at for at in neighbors(self.net, deed.router, datagram.iface)
                   if not broken_of_copy(self.net, Sent(*at, datagram.bytes, 0), deed.router, datagram)]
        return [number for at in senders for number in self.places.get((*at, datagram.bytes), []) if self.handed[number].deed < place]

    def handed_before(self, place):
        """How many datagrams were handed over by the deeds before a place (`all_handed`)."""
        return bisect.bisect_left(self.handed, place, key=lambda sent: sent.deed)

    def changed(self, change):
        """The same, where each run is another one."""
        return History(self.net, [[change(program) for program in own] for own in self.runs])
