"""Cases of the router at its own links. What it judges of a datagram is the kernel's word: from whom and from which port it came,
whether to the group, and with which hop limit."""

import os
import signal
import sys
import time

from changes import kill_router, routers_of
from edges import stranger
from least import REGULAR, TRIGGERED, settle
from spaces import HERE, Bird, Frr, Ours, until
from suite import same

SELDOM = 150
OWNED = {"b": "2001:db8:1::/48", "o": "2001:db8:2::/48", "f": "2001:db8:3::/48"}
BAD = "2001:db8:bad::/48"
# What strangers send, from which address, and the rule by which that is refused.
REFUSED = {
    "hop-limit": ("fe80::5", "10 HopLimit"),
    "other-port": ("fe80::5", "7 NotRipngPort"),
    "global-source": ("2001:db8:5::5", "8 NotLinkLocal"),
    "in-the-name": ("fe80::1", "9 OwnAddress"),
}


def with_one_address(net, program, queries):
    """BIRD, FRR and strangers around a router that has one address on each of its links; beyond the strangers is a host."""
    b, o, f, s, h = (net.space(name) for name in "bofsh")
    for space in (b, f, s):
        net.cable(space, o)
        o.link_local(f"to-{space.name}", "fe80::1")
    net.cable(s, h)
    s.link_local("to-o", "fe80::5")
    for space, device, address in ((s, "to-o", "5::5"), (o, "to-s", "5::1"), (s, "to-h", "6::1"), (h, "to-s", "6::2")):
        space.ip("address", "add", f"2001:db8:{address}/64", "dev", device, "nodad")
    h.ip("-6", "route", "add", "default", "via", "2001:db8:6::1")
    o.ip("-6", "route", "add", "2001:db8:6::/64", "via", "2001:db8:5::5")
    routers = {"b": Bird(b, {"to-o": 1}, [OWNED["b"]], update=SELDOM), "f": Frr(f, ["to-o"], [OWNED["f"]])}
    links = {"to-b": {}, "to-f": {}, "to-s": {"own": False} | queries}
    routers["o"] = Ours(o, program, links, [OWNED["o"]], words=["-d"])
    wanted = {here: {prefix: 1 + distance(here, there) for there, prefix in OWNED.items()} for here in OWNED}
    settle(routers, wanted)
    return routers, wanted, s, h


def distance(here, there):
    """Hops between two of three routers in a line."""
    return 0 if here == there else 1 if "o" in (here, there) else 2


def one_address_everywhere(net, program):
    """fe80::1 is on three links: BIRD and FRR have routes both ways, and each datagram that RFC 2080 section 2.4.2 refuses is
    refused by the router's rule, and counted with who sent it."""
    routers, wanted, s, h = with_one_address(net, program, {})
    ours = routers["o"]
    for kind, (source, rule) in REFUSED.items():
        stranger(s, kind, source, 1)
        line = f" from {source} port {522 if kind == 'other-port' else 521} refused {rule}\n"
        until(5, f"the router says `{line.strip()}`", lambda: ours.said(line))
        same(f"what is counted of {source}", ours.neighbor("to-s", source)["refused"][rule.split()[1]] > 0, True)
        settle(routers, wanted, 5)
    same("the answer to a neighbor", stranger(s, "query=fe80::1", "fe80::5").split(": ")[0], "from fe80::1 port 521")
    same("the answer beyond the link", query_from(h), "nothing")


def query_from(host):
    words = (sys.executable, HERE / "stranger.py", "to-s", "query=2001:db8:5::1", "2001:db8:6::2")
    return host.do(*words).strip()


def a_query_from_afar(net, program):
    """Where `queries` says so, a host behind another router is answered, from the address that it asked. A Response from
    afar is refused as it was."""
    routers, wanted, s, h = with_one_address(net, program, {"queries": "all"})
    told = " ".join(sorted(OWNED.values()))
    same("the answer beyond the link", query_from(h), f"from 2001:db8:5::1 port 521: {told}")
    stranger(s, "global-source", "2001:db8:5::5", 1)
    settle(routers, wanted, 5)


def a_device_made_anew(net, program):
    """A link loses its carrier, blinks, and its device is made anew under another index: the same router goes on, with the
    sockets that it has."""
    routers, wanted, *_ = with_one_address(net, program, {})
    ours, bird = routers["o"], routers["b"]
    before, space = routers_of(ours), ours.space
    space.do("sysctl", "-qw", "net.ipv6.conf.to-b.accept_dad=0")
    bird.space.ip("link", "set", "to-o", "down")
    until(TRIGGERED, "its route is withdrawn", lambda: OWNED["b"] not in ours.table())
    bird.space.ip("link", "set", "to-o", "up")
    settle(routers, wanted, REGULAR)
    for _ in range(3):
        space.do("ip", "-batch", "-", input="link set to-b down\nlink set to-b up\naddress replace fe80::1/64 dev to-b nodad\n")
    settle(routers, wanted, REGULAR)
    index = space.do("cat", "/sys/class/net/to-b/ifindex")
    space.ip("link", "del", "to-b")
    until(TRIGGERED, "its route is withdrawn", lambda: OWNED["b"] not in ours.table())
    net.cable(bird.space, space)
    space.link_local("to-b", "fe80::1")
    same("whether the index is another", space.do("cat", "/sys/class/net/to-b/ifindex") != index, True)
    settle(routers, wanted, REGULAR)
    same("the router", routers_of(ours), before)


def old_datagrams(net, program):
    """What comes while no router lives is old when the next one starts, and is dropped."""
    o, s = net.space("o"), net.space("s")
    net.cable(o, s)
    ours = Ours(o, program, {"to-s": {}}, [OWNED["o"]])
    until(REGULAR, "the router is up", ours.table)
    os.kill(ours.process.pid, signal.SIGSTOP)
    kill_router(ours)
    stranger(s, "neighbor", "::", 1)
    os.kill(ours.process.pid, signal.SIGCONT)
    until(REGULAR, "another is there", lambda: ours.said("running, ") == 2)
    time.sleep(2)
    same("its table", ours.table(), {OWNED["o"]: 1})
    stranger(s, "neighbor", "::", 1)
    until(5, "what comes then is learned", lambda: BAD in ours.table())


# A router whose configuration names other sockets than the companion has opened for them.
EXCHANGED = """#!/bin/bash
case $1 in run) sed -i -E '{how}' "${{@: -1}}" ;; esac
exec {program} "$@"
"""


def exchanged(net, program, name, how):
    path = net.folder / name
    path.write_text(EXCHANGED.format(program=program, how=how))
    path.chmod(0o755)
    return path


def wrong_sockets(net, program):
    """Sockets that are exchanged make no router believe what it should not: it does not start, or believes nobody. Without
    the one for other hop limits nothing is believed that came from beyond the link."""
    s, *spaces = (net.space(name) for name in "sopq")
    kinds = {
        "alone and group": "s/^descriptor/X/; s/^group_descriptor/descriptor/; s/^X/group_descriptor/",
        "group and far": "s/^group_descriptor/X/; s/^far_descriptor/group_descriptor/; s/^X/far_descriptor/",
        "without far": "/^far_descriptor/d",
    }
    ours = {}
    for space, (kind, how) in zip(spaces, kinds.items()):
        net.cable(space, s)
        ours[kind] = Ours(space, exchanged(net, program, f"router-{space.name}", how), {"to-s": {}}, [OWNED["o"]], words=["-d"])
        ours[kind].program = program
    until(REGULAR, "one is refused", lambda: ours["alone and group"].said("has ended with status 3"))
    for kind in ("group and far", "without far"):
        until(REGULAR, f"the router of {kind} is up", ours[kind].table)
        device = f"to-{ours[kind].space.name}"
        s.do(sys.executable, HERE / "stranger.py", device, "hop-limit" if kind == "without far" else "neighbor")
    until(5, "its neighbors are refused", lambda: ours["group and far"].said("refused 10 HopLimit"))
    same("its table", ours["group and far"].table(), {OWNED["o"]: 1})
    same("the table of one without", ours["without far"].table(), {OWNED["o"]: 1})
    s.do(sys.executable, HERE / "stranger.py", f"to-{ours['without far'].space.name}", "neighbor")
    until(5, "its neighbor is believed", lambda: BAD in ours["without far"].table())


def two_devices_on_one_link(net, program):
    """A router that hears itself says which devices are on one link; as one zone they refuse each other, and all else goes on."""
    b, o, w = (net.space(name) for name in "bow")
    w.ip("link", "add", "br0", "type", "bridge", "mcast_snooping", "0")
    w.ip("link", "set", "br0", "up")
    for end, name in ((b, "to-o"), (o, "nic1"), (o, "nic2")):
        net.cable(end, w)
        for space, old, new in ((end, "to-w", name), (w, f"to-{end.name}", f"port-{end.name}-{name}")):
            space.ip("link", "set", old, "down")
            space.ip("link", "set", old, "name", new)
            space.ip("link", "set", new, "up")
        w.ip("link", "set", f"port-{end.name}-{name}", "master", "br0")
    bird = Bird(b, {"to-o": 1}, [OWNED["b"]])
    ours = Ours(o, program, {"nic1": {}, "nic2": {}}, [OWNED["o"]])
    until(REGULAR, "both are named", lambda: ours.said("nic1 and nic2 are on one link: write one `zone` for both, as zone = 1\n"))
    same("its status", ours.end(15), 0)
    ours = Ours(o, program, {"nic1": {"zone": 1}, "nic2": {"zone": 1}}, [OWNED["o"]])
    until(REGULAR, "each refuses the other", lambda: ours.refused().get("OwnAddress", 0) > 1)
    until(REGULAR, "BIRD's is learned", lambda: ours.table() == {OWNED["o"]: 1, OWNED["b"]: 2})
    until(REGULAR, "BIRD has learned", lambda: bird.table() == {OWNED["o"]: 2, OWNED["b"]: 1})
    for device in ("nic1", "nic2"):
        o.link_local(device, "fe80::1")
    until(REGULAR, "the second is not used", lambda: ours.link("nic2")["state"] == "has the address of another link in its zone")
    until(REGULAR, "BIRD's is learned", lambda: ours.link("nic1")["interface"] == 0 and ours.table() == {OWNED["o"]: 1, OWNED["b"]: 2})
