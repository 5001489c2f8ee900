#!/usr/bin/env python3
"""A router that has lost a route asks its neighbors for their tables: when, where, how often, and when not.

    tests/daemon/asking.py PROGRAM [NAME..]

A line for each case that fails, and last how many passed. What is expected is the rule of docs/PROTOCOL.md."""

import pathlib
import sys
import time

sys.dont_write_bytecode = True
sys.path.append(str(pathlib.Path(__file__).resolve().parents[1] / "support"))
from daemons import interface, listed, main, peer, prefix
from datagrams import REQUEST, entry, response
from ordered import Ordered, environment
from suite import same, until

LOST = "2001:db8:1::/48"
"""What the first neighbor tells, and then tells no more."""
UNREACHABLE = 16
OTHERS, MANY, FEW = 5, 1_000, 20
"""Of a LAN: how many routers are left when one is stopped, how many routes that one has, and each of the others."""
SOON, SLACK = 1.0, 0.6
"""How many seconds a question may take, and how many more a busy machine."""


def asked(router):
    """How many questions a router counts."""
    word, count = router.ctl("counts").out.splitlines()[-1].split()
    same("how the last line of counts begins", word, "asked")
    return int(count)


class Site:
    """A router with two links, and a neighbor on each."""

    def __init__(self, case, *words, **environment):
        self.near, self.far, self.ports = case.neighbor(), case.neighbor(), (case.port(), case.port())
        text = interface(1, self.ports[0], peer(2, self.near.port)) + interface(3, self.ports[1], peer(4, self.far.port))
        self.router = case.listening("asks", text + prefix("2001:db8:f::/48"), "-R", "asks.log", *words, **environment)
        self.hear(0.3)

    def tell(self, metric, what=LOST):
        self.near.send(self.ports[0], response(entry(what, metric)))

    def learn(self, what=LOST):
        self.tell(1, what)
        self.router.logs(f"add {what} metric 2 via fe80::2 iface 0")

    def hear(self, seconds):
        """For so many seconds, the moments of Requests at each neighbor."""
        end, heard = time.monotonic() + seconds, ([], [])
        while time.monotonic() < end:
            for number, neighbor in enumerate((self.near, self.far)):
                heard[number].extend(time.monotonic() for datagram in neighbor.rest() if datagram == REQUEST)
            time.sleep(0.01)
        return heard

    def count(self):
        """What the router says of its questions, and again."""
        count = asked(self.router)
        same("the last line of status", self.router.ctl("status").out.splitlines()[-1], f"asked {count}")
        return count


def asked_once(heard, begun):
    """That each neighbor was asked once, within a second."""
    same("how many were asked at each link", [len(moments) for moments in heard], [1, 1])
    for moments in heard:
        same(f"whether {moments[0] - begun:.2f} s is within a second", 0.2 < moments[0] - begun < SOON + SLACK, True)


@listed
def a_route_that_is_told_unreachable_is_asked_for(case):
    """On each link, once, within a second; not before, and not without end."""
    site = Site(case)
    site.learn()
    same("who is asked before", site.hear(1.5), ([], []))
    begun = time.monotonic()
    site.tell(UNREACHABLE)
    asked_once(site.hear(5), begun)
    same("the count", site.count(), 2)


@listed
def a_link_that_is_cut_is_asked_for(case):
    site = Site(case)
    site.learn()
    begun = time.monotonic()
    same("what link down answers", site.router.ctl("link", "down", "0"), (0, "", ""))
    asked_once(site.hear(3), begun)
    same("the count", site.count(), 2)


@listed
def a_prefix_that_is_given_up_is_not_asked_for(case):
    site = Site(case)
    same("what drop answers", site.router.ctl("drop", "2001:db8:f::/48"), (0, "", ""))
    same("what link down answers", site.router.ctl("link", "down", "0"), (0, "", ""))
    same("who is asked", site.hear(2.5), ([], []))
    same("the count", site.count(), 0)


@listed
def a_quiet_router_does_not_ask(case):
    site = Site(case, "-q")
    site.learn()
    site.tell(UNREACHABLE)
    same("who is asked", site.hear(3), ([], []))
    same("the count", site.count(), 0)


@listed
def pauses_double_while_losses_go_on(case):
    """The first pause is a second, the next two, and four: with a loss every tenth of a second, at most 4 questions in 9 seconds."""
    site = Site(case)
    end, moments = time.monotonic() + 9, []
    while time.monotonic() < end:
        site.tell(1)
        moments += site.hear(0.05)[1]
        site.tell(UNREACHABLE)
        moments += site.hear(0.05)[1]
    pauses = [later - earlier for earlier, later in zip(moments, moments[1:])]
    same(f"how many questions there are, {pauses}", len(moments), 4)
    for pause, least in zip(pauses, (1, 2, 4)):
        same(f"whether a pause of {pause:.2f} s is about {least} s or more", pause > least - 0.1, True)


@listed
def a_seed_decides_how_long_after_a_loss_a_router_asks(case):
    """500 ms and a random share of 400 ms, so that not all of a LAN ask at once: by a clock that stands still but for what is waited."""
    neighbor = case.neighbor()

    def moment(seed):
        port = case.port()
        router = Ordered(case, f"seed{seed}", f"seed = {seed}\n" + interface(1, port, peer(2, neighbor.port)), "--seconds", "3", clock=0)
        for metric in (1, UNREACHABLE):
            neighbor.send(port, response(entry(LOST, metric)))
        sent = zip(router.done().calls("sendto"), neighbor.rest(), strict=True)
        return [call[0] for call, datagram in sent if datagram == REQUEST][1]

    moments = [moment(seed) for seed in range(1, 5)]
    same(f"whether {moments} are half a second or more", min(moments) >= 500, True)
    same(f"whether {moments} are 0.9 seconds and what two turns wait, at most", max(moments) <= 1_000, True)
    same(f"whether {moments} are different", len(set(moments)) > 2, True)


@listed
def a_lan_that_loses_many_routes_makes_no_storm(case):
    """Most routes of a LAN are those of a router that is stopped. It tells that twice, in many datagrams, and so do the others. Each of these
    asks, and no more than twice."""
    ports = [case.port() for _ in range(OTHERS + 1)]
    lan = []
    for number, port in enumerate(ports):
        peers = [peer(1 + other, there) for other, there in enumerate(ports) if other != number]
        own = "".join(prefix(f"2001:db8:{number:x}{place:03x}::/48") for place in range(FEW if number else MANY))
        lan.append(case.listening(f"lan{number}", f"seed = {number}\n" + interface(1 + number, port, *peers) + own))

    def held(router):
        return int(router.ctl("status").out.split("routes ")[1].split()[0])

    until("all routes everywhere", lambda: all(held(router) == MANY + OTHERS * FEW for router in lan))
    same("who has asked before", [asked(router) for router in lan], [0] * (OTHERS + 1))
    same("what stop answers", lan[0].ctl("stop"), (0, "", ""))
    until("the others' alone", lambda: all(held(router) == OTHERS * FEW for router in lan[1:]))
    time.sleep(8)
    counts = [asked(router) for router in lan[1:]]
    same(f"whether {counts} are one or two each", set(counts) <= {1, 2}, True)


@listed
def a_route_that_times_out_is_asked_for(case):
    """By a clock of the test's own, which does not wait, and lets no client speak."""
    site, heard = Site(case, **environment(case.folder, "asks", clock=1)), [0, 0]
    site.learn()
    site.router.logs(f"del {LOST}")

    def is_asked():
        for number, moments in enumerate(site.hear(0.05)):
            heard[number] += len(moments)
        return heard == [1, 1]

    until("asked once on each link", is_asked)


if __name__ == "__main__":
    main()
