"""What `ripngd lab --trace` says of a script, as histories of crates/ripng_phases/specs: the steps of routers, each with its event, its time
and what was sent by it. The script tells by the line when that is by the true clock; else it is the time that the line names."""

import bisect
import dataclasses
import json

UNORDINARY = ("restart", "shutdown", "link_down", "cost", "gain", "drop")
"""The kinds of events that are not ordinary (`IsOrdinary`)."""


@dataclasses.dataclass(frozen=True)
class Step:
    """An event that happened (`Timed`, `Step`): `deliver` of a datagram to an interface, `tick`, `restart`, and so on. `now` is the router's
    time (`moment_of`), `first` how many datagrams had been sent before; the router's update was due at `due`, and it had moved at `last`."""
    at: int
    now: int
    router: int
    kind: str
    datagram: int = None
    iface: int = None
    sent: tuple = ()
    first: int = 0
    due: int = 0
    last: int = 0
    notes: tuple = ()
    line: int = 0

    @property
    def count(self):
        """How many datagrams had been sent after it."""
        return self.first + len(self.sent)

    @property
    def is_due_tick(self):
        """`IsDueTick`: the router's regular update was due."""
        return self.kind == "tick" and self.due <= max(self.last, self.now)


class Trace:
    """The network, the steps, and by which router on which interface each datagram was sent."""

    def __init__(self, records, ats):
        start = records[0]
        self.ports = {(router, iface): port["link"] for router, node in enumerate(start["routers"])
                      for iface, port in enumerate(node["interfaces"])}
        self.routers = len(start["routers"])
        self.quiet = [node["quiet"] for node in start["routers"]]
        self.prefixes = {own["prefix"] for node in start["routers"] for own in node["prefixes"]}
        self.now, self.ats = start["now"], ats
        self.sent = [(one["router"], one["iface"]) for one in start["sent"]]
        self.timers = {router: node["timers"] for router, node in enumerate(start["routers"])}
        self.steps = [self.step(record) for record in records if record["record"] == "event"]

    def step(self, record):
        router, event = record["router"], record["event"]
        timers, self.timers[router] = self.timers[router], record["timers"]
        first = len(self.sent)
        self.sent += [(one["router"], one["iface"]) for one in record["sent"]]
        return Step(at=self.ats.get(record["line"], record["now"]), now=record["now"], router=router, kind=event["kind"],
                    datagram=event.get("datagram"), iface=event.get("iface"), sent=tuple(range(first, len(self.sent))), first=first,
                    due=timers["regular"], last=timers["last"], notes=tuple(note["name"] for note in record["notes"]), line=record["line"])

    @classmethod
    def of(cls, lines, ats=None):
        return cls([json.loads(line) for line in lines], ats or {})

    def with_steps(self, steps, now=None):
        """The same network, in which these steps happened, from a moment on."""
        other = Trace.__new__(Trace)
        other.__dict__.update(self.__dict__, steps=list(steps), now=self.now if now is None else now)
        return other

    def of_line(self, line):
        """What a line of the script did, from the last time before it on."""
        before = [step.at for step in self.steps if step.line < line]
        return self.with_steps([step for step in self.steps if step.line == line], max(before, default=self.now))

    def others(self, number):
        """The other interfaces of the link that a datagram was sent on."""
        sender = self.sent[number]
        return [port for port, link in self.ports.items() if link == self.ports[sender] and port != sender]

    def linked(self, step):
        """Whether the datagram that it delivers was sent before, on the link of that interface."""
        return step.datagram < step.first and self.ports[self.sent[step.datagram]] == self.ports.get((step.router, step.iface))

    def sent_by(self, steps, moment):
        """How many datagrams had been sent when these steps up to a moment had happened."""
        place = bisect.bisect_right(steps, moment, key=lambda step: step.at)
        return steps[place - 1].count if place else steps[0].first if steps else len(self.sent)


def first_of(found):
    return next(iter(found), None)


def happen(trace):
    """Each step is one that may happen: a datagram that is delivered was sent before, on the link of that interface (`Lead`, `Delivers`)."""
    return first_of(f"{step} delivers what is not there" for step in trace.steps if step.kind == "deliver" and not trace.linked(step))


def is_overtaken(trace, counts, steps):
    """A datagram that is delivered to an interface after one that was sent from the same interface when one of these counts had been
    sent, and before that itself (`IsOvertaken`)."""
    newest = {}
    for step in steps:
        if step.kind != "deliver":
            continue
        way = trace.sent[step.datagram], step.router, step.iface
        new = newest.get(way, step.datagram)
        if step.datagram < new and bisect.bisect_right(counts, new) > bisect.bisect_right(counts, step.datagram):
            return f"{step} comes after datagram {new}"
        newest[way] = max(new, step.datagram)
    return None


def counts_in(steps):
    """How many datagrams had been sent at the moments of these steps, in order (`IsCount`)."""
    return [steps[0].first, *(step.count for step in steps)] if steps else []


def moments_of(steps):
    """The times of each router in these steps."""
    found = {}
    for step in steps:
        found.setdefault(step.router, []).append(step.now)
    return found
