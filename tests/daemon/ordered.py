"""Routers to whom the system answers as is ordered (system.c): a clock of the test's own, and calls that fail; each call is noted."""

import pathlib

from daemons import Router
from preloaded import compiled
from suite import same

SOURCE = pathlib.Path(__file__).with_name("system.c")


def environment(folder, name, **orders):
    """What orders the system's answers to a program, as system.c has them; its calls stand in NAME.calls."""
    return dict({f"SYSTEM_{order.upper()}": str(value) for order, value in orders.items()},
                LD_PRELOAD=compiled(SOURCE), SYSTEM_LOG=f"{folder}/{name}.calls")


def calls(case, name, called):
    """The calls of a name that a program has made: when, the name, what was asked, and what was answered."""
    found = []
    for line in case.read(f"{name}.calls").splitlines():
        asked, _, answer = line.partition(" = ")
        moment, call, *words = asked.split()
        if call == called:
            found.append((int(moment), call, *map(int, words), int(answer)))
    return found


class Ordered(Router):
    """A router whose first wait for datagrams lasts until it may go."""

    def __init__(self, case, name, text, *words, **orders):
        case.file(f"{name}.toml", text)
        super().__init__(case, name, *words, **environment(case.folder, name, gate=f"{case.folder}/{name}.gate", **orders))
        case.started.append(self)
        self.begun()

    def go(self):
        self.case.file(f"{self.name}.gate", "")
        return self

    def done(self):
        """Lets it go, and waits for its end, which is as it should be."""
        same("status", self.go().finish(), 0)
        return self

    def calls(self, called):
        return calls(self.case, self.name, called)

    def waits(self):
        """How long each wait for datagrams could last, in milliseconds."""
        return [limit for _, _, limit, _ in self.calls("wait")]

    def ticks(self):
        """When it ticked before it waited again, in milliseconds, where its readings of the clock are watched. The link reads it once
        behind each wait and once before the next, if nothing waits to be sent; each step of the router reads it once more, and the last
        step of a turn is a tick."""
        found, readings = [], []
        for line in self.case.read(f"{self.name}.calls").splitlines():
            moment, call = line.split()[:2]
            if call == "clock":
                readings.append(int(moment))
            elif call == "wait":
                found += readings[-2:-1] if len(readings) > 2 else []
                readings = []
        return found

    def sends(self, port):
        """When it sent from a port, in milliseconds, how often."""
        found = {}
        for moment, _, at, _, _, _ in self.calls("sendto"):
            if at == port:
                found[moment] = found.get(moment, 0) + 1
        return found

    def reads(self, port):
        """How often it read at a port."""
        return sum(at == port for _, _, at, _, _ in self.calls("recvfrom"))
