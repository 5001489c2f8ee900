"""Cases of what comes before the router is ready, and of who is asked for a table."""

import sys
import time

from edges import stranger
from least import QUICK, REGULAR, least, settle
from spaces import HERE, Bird, Frr, Ours, until
from suite import same

# Seconds from one regular update of a neighbor to the next, so that only a question brings its table.
SELDOM = 150
# A router that starts, and says a second later that it does.
SLOW = """#!/bin/bash
exec {program} "$@" 2> >(while read -r line; do sleep 1; echo "$line" >&2; done)
"""


def a_slow_router(net, program):
    """What neighbors answer before the router is ready waits: their tables are there at the first start."""
    b, o, c = (net.space(name) for name in "boc")
    net.cable(b, o)
    net.cable(o, c)
    owned = {"b": ["2001:db8:1::/48"], "o": ["2001:db8:2::/48"], "c": ["2001:db8:3::/48"]}
    routers = {
        "b": Bird(b, {"to-o": 1}, owned["b"], update=SELDOM),
        "c": Bird(c, {"to-o": 1}, owned["c"], update=SELDOM),
    }
    time.sleep(4)  # until they have said all that they say by themselves
    slow = net.folder / "slow"
    slow.write_text(SLOW.format(program=program))
    slow.chmod(0o755)
    ours = routers["o"] = Ours(o, slow, {"to-b": {}, "to-c": {}}, owned["o"])
    ours.program = program
    settle(routers, least([("b", 1, "o", 1), ("o", 1, "c", 1)], owned), REGULAR)
    same("what is lost", ours.lost(), 0)


def a_silent_neighbor(net, program):
    """The far end of a link goes down and up, and hears a moment later: it is asked, though it says nothing itself."""
    o, s = net.space("o"), net.space("s")
    net.cable(o, s)
    ours = Ours(o, program, {"to-s": {}}, ["2001:db8:2::/48"])
    until(REGULAR, "the router is up", ours.table)
    time.sleep(6)  # until nobody is asked any longer
    s.do("sysctl", "-qw", "net.ipv6.conf.to-o.addr_gen_mode=1")
    s.ip("link", "set", "to-o", "down")
    until(REGULAR, "the link is down", lambda: ours.link("to-s")["state"] == "has no carrier")
    s.start("late", sys.executable, HERE / "stranger.py", "to-o", "late", "fe80::5")
    until(REGULAR, "it waits", lambda: s.text("late"))
    s.ip("link", "set", "to-o", "up")
    s.ip("address", "replace", "fe80::5/64", "dev", "to-o", "nodad")
    until(REGULAR, "it is asked", lambda: s.text("late").endswith("True\n"))


def a_late_address(net, program):
    """A device is set down and up, and its address is tried for five seconds: a neighbor asks meanwhile, once, and is answered as soon as
    there is an address from which to answer."""
    o, s = net.space("o"), net.space("s")
    net.cable(o, s)
    s.link_local("to-o", "fe80::5")
    ours = Ours(o, program, {"to-s": {}}, ["2001:db8:2::/48"])
    until(REGULAR, "the router is up", ours.table)
    o.do("sysctl", "-qw", "net.ipv6.conf.to-s.dad_transmits=5")
    for _ in range(2):
        o.ip("link", "set", "to-s", "down")
        until(QUICK, "it is down", lambda: ours.link("to-s")["state"] == "has no carrier")
        o.ip("link", "set", "to-s", "up")
        same("whether it has an address", "tentative" in o.ip("address", "show", "dev", "to-s"), True)
        same("the answer", stranger(s, "request", "fe80::5"), "255 2001:db8:2::/48")


def a_late_neighbor(net, program):
    """The far end of a link goes down and up: its neighbor, which does not hear at once, is asked for its table."""
    o, f = net.space("o"), net.space("f")
    net.cable(o, f)
    owned = {"o": ["2001:db8:2::/48"], "f": ["2001:db8:3::/48"]}
    frr = Frr(f, ["to-o"], owned["f"])
    until(REGULAR, "FRR is up", lambda: "RIPng" in frr.ask("show ipv6 ripng status"))
    until(REGULAR, "FRR takes its timers", lambda: "timers" not in frr.tell("router ripng", f"timers basic {SELDOM} 360 240"))
    routers, wanted = {"f": frr, "o": Ours(o, program, {"to-f": {}}, owned["o"])}, least([("f", 1, "o", 1)], owned)
    settle(routers, wanted, REGULAR)
    f.ip("link", "set", "to-o", "down")
    until(QUICK, "its route is gone", lambda: not routers["o"].kernel())
    f.ip("link", "set", "to-o", "up")
    until(REGULAR, "its route is back", lambda: routers["o"].kernel())
