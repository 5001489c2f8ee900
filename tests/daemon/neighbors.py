#!/usr/bin/env python3
"""Routers as processes of 127.0.0.1 that are neighbors: what they learn from each other, and what disturbs them.

    tests/daemon/neighbors.py PROGRAM [NAME..]

A line for each case that fails, and last how many passed. ROUTES=N tells how many routes large tables have, 20,000 where it does not."""

import os
import pathlib
import select
import signal
import subprocess
import sys
import threading
import time

sys.dont_write_bytecode = True
sys.path.append(str(pathlib.Path(__file__).resolve().parents[1] / "support"))
from daemons import interface, listed, main, peer, prefix
from datagrams import feed, table, waiting_at
from suite import Failed, same, until

ROUTES = int(os.environ.get("ROUTES", 20_000))
SOON = 12
"""How many seconds what is told at once may take: fewer than pass until a router tells it again, which are 15 to 45."""
LATE = 100
"""How many seconds two more updates take."""
EAST, WEST = "2001:db8:e::/48", "2001:db8:f::/48"
AT_EAST = f"{EAST} metric 1 direct\n{WEST} metric 2 via fe80::f iface 0\n"
AT_WEST = f"{EAST} metric 2 via fe80::e iface 0\n{WEST} metric 1 direct\n"


def pair(case):
    """The configurations of two neighbors, each with a prefix."""
    east, west = case.port(), case.port()
    return (interface("e", east, peer("f", west)) + prefix(EAST, tag=9), interface("f", west, peer("e", east)) + prefix(WEST, tag=9))


def learned(router, metric):
    """How many routes it has learned with a metric, as its log says."""
    return sum(line.startswith("add ") and f" metric {metric} via " in line for line in router.log().splitlines())


def learns(router, count, metric):
    """Waits until a router has learned so many routes with that metric: at once, or where the system has lost datagrams on the way, as it
    does where programs wait long for a processor, with the updates that follow."""
    def has():
        return learned(router, metric) == count
    what = f"{count} routes of metric {metric} at {router.name}"
    try:
        until(what, has, SOON)
    except Failed:
        if not any(waiting_at(port)[1] for port in router.case.ports.numbers):
            raise
        until(f"{what}, though some datagrams were lost", has, LATE)


def shows(case, router, lines):
    """Waits until `table` makes these lines of a router's log."""
    until(f"this table of {router.name}:\n{lines}", lambda: case.run("table", f"{router.name}.log") == (0, lines, ""))


@listed
def two_routers_learn_from_each_other(case):
    east, west = pair(case)
    east = case.start("east", east, "--seconds", "8", "-R", "east.log")
    west = case.start("west", west, "--seconds", "4", "-R", "west.log")
    same("west's status", west.finish(), 0)
    same("east's status", east.finish(), 0)
    same("east's table", east.out(), AT_EAST)
    same("west's table", west.out(), AT_WEST)
    same("east's log", east.log(), f"add {EAST} metric 1 direct\nadd {WEST} metric 2 via fe80::f iface 0\n")
    same("standard error", east.said() + west.said(), "")


@listed
def the_table_of_a_router_that_runs_is_made_of_its_log(case):
    east, west = pair(case)
    east, west = case.start("east", east, "-R", "east.log"), case.start("west", west, "-R", "west.log")
    shows(case, east, AT_EAST)
    shows(case, west, AT_WEST)
    same("whether both run", (east.is_there(), west.is_there()), (True, True))
    east.end()
    with open(f"{case.folder}/east.log", "a") as log:
        log.write("del 2001:db8:e")
    shows(case, east, AT_EAST)


@listed
def a_router_goes_on_after_it_was_stopped(case):
    east, west = pair(case)
    east = case.start("east", east, "-R", "east.log", "--control", "east.sock")
    east.logs(f"add {EAST} metric 1 direct")
    for _ in range(3):
        east.signal(signal.SIGSTOP)
        time.sleep(0.2)
        east.signal(signal.SIGCONT)
        time.sleep(0.2)
    case.start("west", west)
    east.logs(f"add {WEST} metric 2 via fe80::f iface 0")
    same("what stop answers", east.ctl("stop"), (0, "", ""))
    same("status and standard error", (east.finish(), east.said()), (0, ""))


class Cable(threading.Thread):
    """Carries datagrams between the ports of two routers, whose peers have the ports of its two ends. So many of those to the second
    are lost as it is told to lose."""

    def __init__(self, case, first, second):
        super().__init__(daemon=True)
        self.ends, self.ports, self.loses = (case.neighbor(), case.neighbor()), (second, first), 0
        self.start()

    def run(self):
        sockets = [end.socket for end in self.ends]
        try:
            while True:
                for came in select.select(sockets, [], [])[0]:
                    at = sockets.index(came)
                    bytes = came.recv(65_536)
                    if at == 0 and self.loses:
                        self.loses -= 1
                    else:
                        self.ends[1 - at].send(self.ports[at], bytes)
        except (OSError, ValueError):  # the case is over
            pass


def ring(case):
    """Four routers in a ring, each with a prefix: router 3 is four hops from router 2, and one from each other neighbor. From 0 to 1
    there is a cable that loses."""
    ports = [(case.port(), case.port()) for _ in range(4)]
    cable = Cable(case, ports[0][0], ports[1][1])
    routers = []
    for number, (after, before) in enumerate(ports):
        next_port = cable.ends[0].port if number == 0 else ports[(number + 1) % 4][1]
        last_port = cable.ends[1].port if number == 1 else ports[(number - 1) % 4][0]
        text = interface(f"{number}:a", after, peer(f"{(number + 1) % 4}:b", next_port), cost=4 if number == 2 else 1)
        text += interface(f"{number}:b", before, peer(f"{(number - 1) % 4}:a", last_port), cost=4 if number == 3 else 1)
        name = f"r{number}"
        routers.append(case.listening(name, text + prefix(f"2001:db8:{number}::/48"), "-R", f"{name}.log"))
    return routers, cable


def loses(router, lost):
    """That a router has no route to that prefix a second later."""
    until(f"the end of {lost} at {router.name}", lambda: f"del {lost}" in router.log().splitlines(), 1)


@listed
def a_stop_is_seen_at_the_neighbors_within_a_second(case):
    """Also where the next datagram to one of them is lost. What they reached that way is then reached by the other one."""
    routers, cable = ring(case)
    routers[1].logs("add 2001:db8:3::/48 metric 3 via fe80::a iface 1")
    routers[3].logs("add 2001:db8::/48 metric 2 via fe80::b iface 0")
    cable.loses = 1
    same("what stop answers", routers[0].ctl("stop"), (0, "", ""))
    for router, lost in ((routers[1], "2001:db8:3::/48"), (routers[1], "2001:db8::/48"), (routers[3], "2001:db8::/48")):
        loses(router, lost)
    same("status and whether one was lost", (routers[0].finish(), cable.loses), (0, 0))
    routers[1].logs("add 2001:db8:3::/48 metric 6 via fe80::2:b iface 0")


@listed
def a_stop_now_tells_nobody(case):
    routers, _ = ring(case)
    routers[3].logs("add 2001:db8::/48 metric 2 via fe80::b iface 0")
    same("what it answers", routers[0].ctl("stop", "now"), (0, "", ""))
    same("its status", routers[0].finish(), 0)
    time.sleep(2)
    same("whether a neighbor has lost its prefix", "del 2001:db8::/48" in routers[3].log(), False)


@listed
def a_link_that_is_said_to_be_down_ends_its_routes_alone(case):
    """What is learned there is gone at once, here and at the neighbors; what is learned elsewhere stays, and so does what is owned."""
    routers, _ = ring(case)
    routers[3].logs("add 2001:db8:1::/48 metric 3 via fe80::b iface 0")
    routers[0].logs("add 2001:db8:2::/48 metric 3 via fe80::1:b iface 0")
    routers[1].signal(signal.SIGSTOP)
    same("what it answers", routers[0].ctl("link", "down", "0"), (0, "", ""))
    deleted = [line for line in routers[0].log().splitlines() if line.startswith("del ")]
    same("what has gone", set(deleted), {"del 2001:db8:1::/48", "del 2001:db8:2::/48"})
    until("the end of the route at a neighbor", lambda: "del 2001:db8:1::/48" in routers[3].log().splitlines(), SOON)
    same("what it answers", routers[0].ctl("link", "down", "2"), (1, "refused 51 NoSuchInterface\n", ""))


@listed
def a_log_that_is_emptied_goes_on_at_its_end(case):
    """As `copytruncate` of logrotate(8) does it."""
    east, west = pair(case)
    east = case.start("east", east, "-R", "east.log")
    east.logs(f"add {EAST} metric 1 direct")
    os.truncate(f"{case.folder}/east.log", 0)
    case.start("west", west)
    east.logs(f"add {WEST} metric 2 via fe80::f iface 0")
    same("the log", east.log(), f"add {WEST} metric 2 via fe80::f iface 0\n")


@listed
def a_quiet_router_learns_and_tells_nothing(case):
    east, west = pair(case)
    east = case.start("east", east, "-q", "--control", "east.sock")
    west = case.start("west", west, "--seconds", "4")
    same("west's status", west.finish(), 0)
    same("the quiet one's table", east.ctl("table").out, AT_EAST)
    same("its neighbor's table", west.out(), f"{WEST} metric 1 direct\n")


@listed
def one_of_sixteen_interfaces_is_busy(case):
    """Only the last has a neighbor, which owns 200 prefixes: four datagrams tell them."""
    ports = [(case.port(), case.port()) for _ in range(16)]
    hub = case.start("hub", "".join(interface(f"a:{number}", here, peer(f"b:{number}", there))
                                    for number, (here, there) in enumerate(ports, 1)), "-R", "hub.log")
    here, there = ports[-1]
    owned = "".join(prefix(f"2001:db8:{number}::/48") for number in range(1, 201))
    leaf = case.start("leaf", interface("b:16", there, peer("a:16", here)) + owned)
    learns(hub, 200, 2)
    same("whether both run", (hub.is_there(), leaf.is_there()), (True, True))


@listed
def what_the_last_turn_tells_is_sent(case):
    """1,024 prefixes take more datagrams than go at once, and are told in the last turn."""
    here, there = case.port(), case.port()
    hub = case.start("hub", interface(1, here, peer(2, there)), "-R", "hub.log")
    owned = "".join(prefix(f"2001:db8:{number}::/48") for number in range(1, 1_025))
    leaf = case.start("leaf", interface(2, there, peer(1, here)) + owned, "--turns", "1")
    same("status and standard error", (leaf.finish(), leaf.said()), (0, ""))
    learns(hub, 1_024, 2)


def fire(neighbor, port, rounds):
    """So many times ten datagrams of random bytes, and the longest that UDP has."""
    for _ in range(rounds):
        neighbor.send(port, os.urandom(1_400), 10)
        neighbor.send(port, bytes(65_507))


def memory_of(router):
    """How many kilobytes of it are in memory."""
    with open(f"/proc/{router.process.pid}/status") as status:
        return next(int(line.split()[1]) for line in status if line.startswith("VmRSS:"))


@listed
def a_router_under_fire_keeps_its_routes(case):
    """Strangers send nonsense to the ports of one of two neighbors, and so does another neighbor of it; the routes stay, and what that
    neighbor tells in the end is learned."""
    here, there, at = case.port(), case.port(), case.port()
    noise, strangers = case.neighbor(), [case.neighbor(), case.neighbor()]
    east = case.start("east", interface("e", here, peer("f", there)) + interface("a", at, peer("c", noise.port)) + prefix(EAST),
                      "-R", "east.log")
    west = case.start("west", interface("f", there, peer("e", here)) + prefix(WEST), "-R", "west.log")
    learns(east, 1, 2)
    learns(west, 1, 2)
    for neighbor, port in ((strangers[0], here), (strangers[1], at), (noise, at)):
        fire(neighbor, port, 100)
    feed(noise, at, table("d", 100))
    learns(east, 101, 2)
    same("whether it holds less than 64 MB", memory_of(east) < 65_536, True)
    same("routes that were lost", [line for line in east.log() + west.log() if line.startswith("del")], [])


@listed
def one_neighbor_that_sends_without_end_takes_no_room_of_another(case):
    """One sends the longest datagrams that there are, while the other tells a large table at once. All of it is learned."""
    loud, quiet, first, second = case.neighbor(), case.neighbor(), case.port(), case.port()
    between = case.start("between", interface("a", first, peer("b", loud.port)) + interface("c", second, peer("d", quiet.port)),
                         "-R", "between.log")
    flood = subprocess.Popen([sys.executable, "-c", FLOOD, str(first)], stdin=loud.socket)
    try:
        feed(quiet, second, table("e", ROUTES))
        learns(between, ROUTES, 2)
        same("whether it holds less than 100 MB", memory_of(between) < 102_400, True)
    finally:
        flood.kill()
        flood.wait()


FLOOD = """
import socket, sys
loud = socket.socket(fileno=0)
while True:
    try:
        loud.sendto(bytes(65_507), ("127.0.0.1", int(sys.argv[1])))
    except OSError:
        pass
"""


def half_and_half(case):
    """Two neighbors, each with a feed of its own."""
    here, there, ports, feeds = case.port(), case.port(), (case.port(), case.port()), (case.neighbor(), case.neighbor())
    east = interface("e", here, peer("f", there)) + interface("a", ports[0], peer("c", feeds[0].port))
    west = interface("f", there, peer("e", here)) + interface("b", ports[1], peer("d", feeds[1].port))
    return (east, west), ports, feeds


@listed
def two_routers_learn_a_large_table_from_each_other(case):
    """East has its half before west comes up, and tells it in answer to a Request; west gets its own later, and tells it by a triggered
    update."""
    half = ROUTES // 2
    (east, west), ports, feeds = half_and_half(case)
    east = case.start("east", east, "-R", "east.log")
    feed(feeds[0], ports[0], table("e", half))
    learns(east, half, 2)
    west = case.start("west", west, "-R", "west.log")
    learns(west, half, 3)
    feed(feeds[1], ports[1], table("f", half))
    learns(west, half, 2)
    learns(east, half, 3)


@listed
def three_neighbors_learn_a_large_table_at_once(case):
    """Two on one interface of a hub, one on another, which come up at once."""
    at, one, two, *three = [case.port() for _ in range(6)]
    first, second, third = three
    source = case.neighbor()
    hub = case.start("hub", interface(1, at, peer("a", source.port)) + interface(2, one, peer("b", first), peer("c", second))
                     + interface(3, two, peer("d", third)), "-R", "hub.log")
    feed(source, at, table("e", ROUTES))
    learns(hub, ROUTES, 2)
    neighbors = [case.start(name, interface(name, port, peer(hub_number, hub_port)), "-R", f"{name}.log")
                 for name, port, hub_number, hub_port in (("b", first, 2, one), ("c", second, 2, one), ("d", third, 3, two))]
    for neighbor in neighbors:
        learns(neighbor, ROUTES, 3)


if __name__ == "__main__":
    main()
