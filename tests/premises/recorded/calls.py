"""Records of what a router did in one run: the calls of its link, and its deeds, as crates/ripngd_engine/specs/Link.antt and
crates/ripngd_theorems/specs/Daemons.antt have them. They are read from the calls of the system that tests/premises/recorded/calls.c noted.

Moments of the true clock are in nanoseconds, a router's own in milliseconds since its clock was made."""

import dataclasses
from collections import deque

from datagrams import REQUEST

MS = 1_000_000


@dataclasses.dataclass(frozen=True)
class Datagram:
    """One that a link gave (`Datagram`)."""
    iface: int
    source: str
    source_port: int
    hop_limit: int
    to_group: bool
    bytes: bytes


@dataclasses.dataclass(frozen=True)
class Outgoing:
    """One that was handed to a link, and the ports that it was sent to."""
    iface: int
    ports: tuple
    bytes: bytes


@dataclasses.dataclass(frozen=True)
class Call:
    """A call of a link (`Call`): `Gave` a datagram, `Silent`, or `Handed` one, which went out or not."""
    router: int
    run: int
    at: int
    what: str
    datagram: Datagram = None
    outgoing: Outgoing = None
    went: bool = True


@dataclasses.dataclass(frozen=True)
class Deed:
    """An act, with the moments that the router's clock gave and the calls of its link (`Deed`, `Trace`). `change` is what a client said, `on`
    the interface on which it asks, and `sizes` those of its tables after it, if they are known (tests/premises/recorded/replayed.py)."""
    router: int
    run: int
    at: int
    act: str
    moments: tuple
    calls: tuple
    change: tuple = ()
    on: int = None
    sizes: tuple = None

    @property
    def datagram(self):
        """The one that a link gave by it, if it did."""
        return self.calls[0].datagram if self.act == "Listen" else None

    @property
    def handed(self):
        """The datagrams that it handed to its link (`handed_by`)."""
        return [call.outgoing for call in self.calls if call.what == "Handed"]


@dataclasses.dataclass(frozen=True)
class Event:
    """A call of the system, as tests/premises/recorded/calls.c notes it."""
    at: int
    name: str
    asked: tuple
    answer: int
    bytes: bytes

    @classmethod
    def of(cls, line):
        asked, _, answered = line.partition(" = ")
        at, name, *numbers = asked.split()
        answer, _, digits = answered.partition(" ")
        return cls(int(at), name, tuple(map(int, numbers)), int(answer), bytes.fromhex(digits))


def acts_for(words):
    """What a router does for the line of a client (`AreActsFor`), if it has the interface that is named."""
    match words:
        case ["cost" | "gain" | "drop", *_]:
            return ["Reconfigure"]
        case ["stop"]:
            return ["Shutdown", "Shutdown"]
        case ["link", "down" | "up" as way, _]:
            return ["LinkDown" if way == "down" else "LinkUp"]
    return []


class Over(Exception):
    """The run ends here: nothing else is noted."""


class Unread(Exception):
    """A call of the system that a router is not known to make there."""


class Reader:
    """Reads the calls of a link and the deeds of one run. `places` has the port of each interface, and its peers by port."""

    def __init__(self, router, run, lines, places):
        events = [Event.of(line) for line in lines]
        begun = next(at for at, event in enumerate(events) if event.name == "write" and event.bytes.startswith(b"ripngd: running"))
        self.link_made = next(event.at for event in events if event.name == "clock")
        self.events = deque(event for event in events[begun + 1:] if event.name != "write")
        self.router, self.run, self.places = router, run, places
        self.queues, self.next = [deque() for _ in places], 0
        self.since, self.was_silent, self.is_serving = None, False, False
        self.deeds, self.told = [], []

    def read(self):
        """All that it did, up to its end: a whole step at a time."""
        try:
            self.made = self.take("clock").at
            self.do("Start")
            while True:
                self.turn()
        except Over:
            return self

    # Calls of the system.

    def peek(self, ahead=0):
        return self.events[ahead].name if ahead < len(self.events) else ""

    def take(self, name):
        if not self.events:
            raise Over
        if self.peek() != name:
            raise Unread(f"{self.events[0]} where {name} is called")
        return self.events.popleft()

    # The calls of the link.

    def iface_at(self, port):
        return next(number for number, place in enumerate(self.places) if place.port == port)

    def keep(self, event):
        """Keeps a datagram that a socket gave, if a peer stands at the port that it is from."""
        iface = self.iface_at(event.asked[0])
        peer = self.places[iface].peers.get(event.asked[1])
        if event.answer >= 0 and peer:
            self.queues[iface].append(Datagram(iface, *peer, event.bytes))

    def given(self):
        """The datagram that is given next: interfaces are served in turn."""
        count = len(self.queues)
        for iface in ((self.next + step) % count for step in range(count)):
            if self.queues[iface]:
                self.next = iface + 1
                return self.queues[iface].popleft()
        return None

    def link_ms(self, at):
        return (at - self.link_made) // MS

    def recv(self):
        """A call of `recv`. In the millisecond in which the last one ended, only what waits is looked at."""
        at = self.take("clock").at
        if self.link_ms(at) == self.since and not self.was_silent and any(self.queues):
            return Call(self.router, self.run, at, "Gave", self.given())
        while True:
            while self.peek() in ("wait", "sleep", "recvfrom"):
                event = self.events.popleft()
                if event.name == "recvfrom":
                    self.keep(event)
            at = self.take("clock").at
            datagram = self.given()
            self.since, self.was_silent = self.link_ms(at), datagram is None
            if datagram or self.peek() not in ("wait", "sleep"):
                return Call(self.router, self.run, at, "Gave" if datagram else "Silent", datagram)

    def sends(self):
        """The calls of `send` that follow: before each the link's clock is read."""
        found = []
        while self.peek() == "clock" and self.peek(1) == "sendto":
            self.take("clock")
            events = []
            while self.peek() in ("sendto", "unsent"):
                events.append(self.events.popleft())
            sent = [event for event in events if event.name == "sendto"]
            outgoing = Outgoing(self.iface_at(sent[0].asked[0]), tuple(event.asked[1] for event in sent), sent[0].bytes)
            found.append(Call(self.router, self.run, sent[0].at, "Handed", outgoing=outgoing, went=len(sent) == len(events)))
        return found

    # Deeds.

    def do(self, act, before=(), **what):
        """A step of the router: it reads its clock once, and hands over what it sends."""
        at = self.take("clock").at
        moment = (at - self.made) // MS
        self.deeds.append(Deed(self.router, self.run, at, act, (moment,), (*before, *self.sends()), **what))

    def turn(self):
        call = self.recv()
        if call.what == "Gave":
            self.do("Listen", [call])
        else:
            self.deeds.append(Deed(self.router, self.run, call.at, "Listen", (), (call,)))
        self.do("Tick")
        self.serve()
        if self.asks():
            self.ask()

    def asks(self):
        """Whether a question comes next: two readings of a clock, the router's and the link's, and a Request. A `recv` reads one, and then
        waits, or it gives what waits: that step reads two more before it sends."""
        return [self.peek(ahead) for ahead in range(3)] == ["clock", "clock", "sendto"] and self.events[2].bytes == REQUEST

    def ask(self):
        """It asks on all its links, one after another: a step of each, by which a Request is handed over at once."""
        for iface in range(len(self.places)):
            if self.events and not self.asks():
                raise Unread(f"{self.events[0]} where it asks on interface {iface}")
            self.do("Ask", on=iface)

    def serve(self):
        """A client is let in, its line read and obeyed, and the answer sent."""
        if not self.is_serving:
            if self.peek() != "accept" or self.take("accept").answer < 0:
                return
            self.take("clock")
            self.is_serving = True
        line = self.take("recv").bytes if self.peek() == "recv" else b""
        if line.endswith(b"\n"):
            self.obey(line.decode().split())
        self.take("clock")
        while self.peek() == "send":
            self.take("send")
            self.is_serving = False
        if line.startswith(b"stop"):
            raise Over

    def answer(self):
        return next((event.bytes.decode() for event in self.events if event.name == "send"), "")

    def obey(self, words):
        """Does what a client says, which is read with the answer to it."""
        answer = self.answer()
        self.told.append((tuple(words), answer))
        if "NoSuchInterface" not in answer:
            for act in acts_for(words):
                self.do("Refuse" if answer.startswith("refused") else act, change=tuple(words))
