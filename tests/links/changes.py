"""Cases of what changes while others go on: a link, the router, the companion. What need not leave the kernel stays."""

import signal
import subprocess
import time

from edges import is_router
from least import QUICK, REGULAR, TRIGGERED, least, settle
from spaces import Bird, Ours, until
from suite import same

STAYS, GOES = "2001:db8:1::/48", "2001:db8:3::/48"
# Seconds that the kernel keeps what no router tells any longer.
STAY = 10
# Seconds within which what is told at once is known, on a machine that does much else; and from one regular update of a neighbor to the
# next, so that only a question brings its table.
AT_ONCE, SELDOM = 3, 150


def two_links(net, program):
    """BIRD, ours, BIRD; a process writes what happens to routes of ours."""
    b, o, c = (net.space(name) for name in "boc")
    net.cable(b, o)
    net.cable(o, c)
    owned = {"b": [STAYS], "o": ["2001:db8:2::/48"], "c": [GOES]}
    routers = {
        "b": Bird(b, {"to-o": 1}, owned["b"]),
        "o": Ours(o, program, {"to-b": {}, "to-c": {}}, owned["o"]),
        "c": Bird(c, {"to-o": 1}, owned["c"]),
    }
    settle(routers, least([("b", 1, "o", 1), ("o", 1, "c", 1)], owned))
    o.start("monitor", "ip", "-6", "monitor", "route")
    return routers


def is_deleted(ours, prefix):
    return any(line.startswith(f"Deleted {prefix} ") for line in ours.space.text("monitor").splitlines())


def routers_of(ours):
    return [pid for pid in ours.children() if is_router(pid)]


def kill_router(ours):
    [router] = routers_of(ours)
    subprocess.run(["kill", "-KILL", str(router)], check=True)


def routes_stay(net, program):
    """A link changes, the router dies, the companion dies: routes never leave the kernel."""
    ours = two_links(net, program)["o"]
    config = ours.run / "router.toml"

    def another_after(what, do):
        """There is another router, which learns all."""
        before = config.read_text()
        do()
        until(REGULAR, f"another router has learned after {what}", lambda: config.read_text() != before and len(ours.table()) == 3)
        time.sleep(STAY + 2)
        for prefix in (STAYS, GOES):
            same(f"whether {prefix} has left after {what}", is_deleted(ours, prefix), False)
        same(f"the kernel's routes after {what}", set(ours.kernel()), {STAYS, GOES})

    def companion_dies():
        ours.end(signal.SIGKILL)
        ours.start()

    another_after("a smaller MTU", lambda: ours.space.ip("link", "set", "to-c", "mtu", "1400"))
    before = routers_of(ours)
    ours.space.ip("link", "set", "to-c", "mtu", "1500")
    time.sleep(2)
    same("the router after a larger MTU", routers_of(ours), before)
    another_after("the end of the router", lambda: kill_router(ours))
    another_after("the end of the companion", companion_dies)


def what_is_not_told_goes(net, program):
    """The next router does not tell a route whose neighbor is gone: it leaves the kernel ten seconds later."""
    routers = two_links(net, program)
    ours = routers["o"]
    routers["c"].ask("down")
    time.sleep(1)
    kill_router(ours)
    time.sleep(STAY / 2)
    same("the kernel's routes at first", set(ours.kernel()), {STAYS, GOES})
    until(2 * STAY, "it goes", lambda: set(ours.kernel()) == {STAYS})
    same("whether another has left", is_deleted(ours, STAYS), False)


def a_cut_meanwhile(net, program):
    """A link loses its carrier while no companion is there: the next one takes away its routes at once, and no others."""
    routers = two_links(net, program)
    ours = routers["o"]
    ours.end(signal.SIGKILL)
    routers["c"].space.ip("link", "set", "to-o", "down")
    same("what a killed one leaves", set(ours.kernel()), {STAYS, GOES})
    ours.start()
    until(REGULAR, "the next one looks", lambda: ours.said("running, ") == 2)
    until(AT_ONCE, "its route has gone", lambda: set(ours.kernel()) == {STAYS})
    same("whether another has left", is_deleted(ours, STAYS), False)
    routers["c"].space.ip("link", "set", "to-o", "up")
    until(REGULAR, "its route is back", lambda: set(ours.kernel()) == {STAYS, GOES})


def a_link_goes_and_comes(net, program):
    """A link without a carrier is no outage of another: the router goes on, and withdraws at once what it has learned there."""
    routers = two_links(net, program)
    ours, far = routers["o"], routers["c"]
    before = routers_of(ours)
    far.space.ip("link", "set", "to-o", "down")
    until(AT_ONCE, "its route is withdrawn", lambda: GOES not in ours.table())
    same("whether the other one stays", STAYS in ours.table(), True)
    until(TRIGGERED, "the other neighbor knows", lambda: GOES not in routers["b"].table())
    far.space.ip("link", "set", "to-o", "up")
    until(REGULAR, "its route is back", lambda: GOES in ours.table() and GOES in routers["b"].table())
    same("the router", routers_of(ours), before)
    same("whether the other one has left", is_deleted(ours, STAYS), False)


def a_cut_is_gone_around(net, program):
    """A triangle of which one side loses its carrier: who is at its ends goes by the third router at once, which tells by itself nothing
    that they lack, so they have asked it."""
    spaces = {name: net.space(name) for name in "bop"}
    order = list(spaces.values())
    for one, other in zip(order, order[1:] + order[:1]):
        net.cable(one, other)
    owned = {"b": [STAYS], "o": ["2001:db8:2::/48"], "p": [GOES]}
    cables = [("o", 1, "p", 1), ("p", 1, "b", 1), ("b", 1, "o", 1)]
    routers = {
        "b": Bird(spaces["b"], {"to-o": 1, "to-p": 1}, owned["b"], update=SELDOM),
        "o": Ours(spaces["o"], program, {"to-b": {}, "to-p": {}}, owned["o"]),
        "p": Ours(spaces["p"], program, {"to-o": {}, "to-b": {}}, owned["p"]),
    }
    settle(routers, least(cables, owned))
    time.sleep(6)  # until nobody is asked any longer because a link has come up
    before = routers["o"].status()["router"]["asked"]
    spaces["p"].ip("link", "set", "to-o", "down")
    ends = {name: routers[name] for name in "op"}
    wanted = least(cables[1:], owned)
    settle(ends, {name: wanted[name] for name in ends}, QUICK)
    same("whether it has asked", routers["o"].status()["router"]["asked"] > before, True)


def a_last_update(net, program):
    """A companion ends in a ring: at once its neighbors do not go through it, and then the other way round."""
    spaces = {name: net.space(name) for name in "bop"}
    order = list(spaces.values())
    for one, other in zip(order, order[1:] + order[:1]):
        net.cable(one, other)
    owned = {"b": [STAYS], "o": ["2001:db8:2::/48"], "p": [GOES]}
    cables = [("b", 1, "o", 1), ("o", 1, "p", 1), ("p", 4, "b", 4)]
    routers = {
        "b": Bird(spaces["b"], {"to-o": 1, "to-p": 4}, owned["b"]),
        "o": Ours(spaces["o"], program, {"to-b": {}, "to-p": {}}, owned["o"]),
        "p": Ours(spaces["p"], program, {"to-o": {}, "to-b": {"cost": 4}}, owned["p"]),
    }
    settle(routers, least(cables, owned))
    same("its status", routers.pop("o").end(signal.SIGTERM), 0)

    def through_it():
        """Metrics of what the others reach through it alone, or at that cost."""
        found = [("b", GOES, 3), ("b", owned["o"][0], 2), ("p", STAYS, 3), ("p", owned["o"][0], 2)]
        return [(name, prefix) for name, prefix, metric in found if routers[name].table().get(prefix) == metric]

    until(AT_ONCE, lambda: f"nobody goes through it, but {through_it()}", lambda: not through_it())
    settle(routers, least(cables[2:], {"b": owned["b"], "p": owned["p"]}))


def routes_come_back(net, program):
    """A route that the kernel refused is added once it can be, and one that somebody took away is added again."""
    b, o = net.space("b"), net.space("o")
    net.cable(b, o)
    other = ["2001:db8:10::/48", "dev", "to-b", "proto", "static", "metric", "2048"]
    o.ip("-6", "route", "add", *other)
    Bird(b, {"to-o": 1}, [STAYS, "2001:db8:10::/48"])
    ours = Ours(o, program, {"to-b": {}})
    until(REGULAR, "it has learned", lambda: set(ours.kernel()) == {STAYS})
    same("what is refused", ours.status()["kernel"]["refused"], ["2001:db8:10::/48"])
    same("whether that is said", "refuses 1 routes, that to 2001:db8:10::/48" in o.text("companion"), True)
    o.ip("-6", "route", "del", *other)
    o.ip("-6", "route", "del", STAYS, "proto", "152")
    until(75, "both are there", lambda: set(ours.kernel()) == {STAYS, "2001:db8:10::/48"})
    same("what is refused then", ours.status()["kernel"]["refused"], [])
