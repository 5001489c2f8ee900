"""Cases of what a link takes: its lists, the greatest number, and what a learned route stands behind in the kernel."""

from addresses import BAD, BAE, hops
from edges import stranger
from least import GARBAGE, REGULAR, TRIGGERED
from reloads import reload
from spaces import Bird, Ours, until
from suite import same


def half_of_a_datagram(net, program):
    """Of two routes, one by way of a next hop entry, either is refused: the other one stands as it would by itself."""
    o, s = net.space("o"), net.space("s")
    net.cable(o, s)
    s.link_local("to-o", "fe80::5")
    for number, (refused, wanted) in enumerate(((BAE, {BAD: ("fe80::99", "to-s")}), (BAD, {BAE: ("fe80::5", "to-s")}))):
        ours = Ours(o, program, {"to-s": {"accept": ["2001:db8::/32+"], "reject": [refused]}}, ["2001:db8:2::/48"])
        until(REGULAR, "the router is up", ours.table)
        stranger(s, "next-hop=fe80::99", "fe80::5", 2)
        until(REGULAR, "the route is there", ours.kernel)
        same("the kernel's routes", hops(ours), wanted)
        same("what the router has of the other", ours.routes().get(refused), None)
        same("what is counted", ours.neighbor("to-s", "fe80::5")["refused"]["NotAccepted"], 2)
        same("the status", ours.end(15), 0)


def what_is_told(net, program):
    """A passive link learns, and its neighbor hears nothing; a list leaves out what is not to be told on its link alone."""
    spaces = {name: net.space(name) for name in "bocd"}
    for name in "bcd":
        net.cable(spaces[name], spaces["o"])
    prefixes = {name: f"2001:db8:{number}::/48" for number, name in enumerate("bcd", 1)}
    birds = {name: Bird(spaces[name], {"to-o": 1}, [prefixes[name]]) for name in "bcd"}
    links = {"to-b": {"passive": True}, "to-c": {"announce_not": [BAD]}, "to-d": {"announce": ["2001:db8:1::/48", BAE]}}
    ours = Ours(spaces["o"], program, links, [BAD, BAE])
    until(REGULAR, "it has learned of all", lambda: set(ours.kernel()) == set(prefixes.values()))
    wanted = {"b": {prefixes["b"]: 1}, "c": {prefixes["b"]: 3, prefixes["c"]: 1, prefixes["d"]: 3, BAE: 2}}
    wanted["d"] = {prefixes["b"]: 3, prefixes["d"]: 1, BAE: 2}
    for name in "cdb":
        until(REGULAR, f"{name} has just what it is told", lambda: birds[name].table() == wanted[name])


def a_default_route(net, program):
    """It is told on the link that is to be told it, and on no other; packets of the router itself go where its system has said, also
    once the table no longer has it told."""
    b, o, c = (net.space(name) for name in "boc")
    net.cable(b, o)
    net.cable(o, c)
    birds = {name: Bird(space, {"to-o": 1}, [prefix]) for name, space, prefix in (("b", b, BAD), ("c", c, BAE))}
    o.ip("-6", "route", "add", "default", "via", "fe80::9", "dev", "to-b")
    ours = Ours(o, program, {"to-b": {}, "to-c": {"default_originate": True}})
    until(REGULAR, "one has it", lambda: birds["c"].table() == {"::/0": 2, BAD: 3, BAE: 1})
    until(REGULAR, "the other has all else", lambda: birds["b"].table() == {BAD: 1, BAE: 3})
    same("what leads nowhere", ours.nowhere(), set())
    same("the way to all else", " dev to-b " in o.ip("-6", "route", "get", "2600::1"), True)
    text = ours.config.read_text().replace("default_originate = true\n", "")
    same("the status of a reload", reload(ours, text)[0], 0)
    until(TRIGGERED, "it is withdrawn", lambda: birds["c"].table() == {BAD: 3, BAE: 1})


def the_greatest_number(net, program):
    """Three of five prefixes have room; what is withdrawn, and deleted two minutes later, makes room for another, at its next update."""
    b, o = net.space("b"), net.space("o")
    net.cable(b, o)
    prefixes = [f"2001:db8:{number}::/48" for number in range(1, 6)]
    bird = Bird(b, {"to-o": 1}, prefixes[:3], update=10)
    ours = Ours(o, program, {"to-b": {"limit": 3}})
    until(REGULAR, "it has learned", lambda: set(ours.kernel()) == set(prefixes[:3]))
    bird.own(prefixes)
    until(REGULAR, "the others are refused", lambda: ours.refused().get("LimitReached", 0) >= 2)
    same("the kernel's routes", set(ours.kernel()), set(prefixes[:3]))
    bird.own(prefixes[1:4])
    until(GARBAGE, "another has room", lambda: set(ours.kernel()) == set(prefixes[1:4]))


def static_routes_win(net, program):
    """A neighbor tells a default route and a prefix that are static here: packets go where the operator has said."""
    b, o, c = (net.space(name) for name in "boc")
    net.cable(b, o)
    net.cable(o, c)
    o.ip("address", "add", "2001:db8:77::2/64", "dev", "to-c", "nodad")
    for prefix in ("default", "2001:db8:99::/48"):
        o.ip("-6", "route", "add", prefix, "via", "2001:db8:77::3")
    bird = Bird(b, {"to-o": 1}, ["::/0", "2001:db8:99::/48", "2001:db8:1::/48"])
    ours = Ours(o, program, {"to-b": {}, "to-c": {}})
    until(REGULAR, "it has learned", lambda: len(ours.kernel()) == 3)
    for address, device in (("2600::1", "to-c"), ("2001:db8:99::1", "to-c"), ("2001:db8:1::1", "to-b")):
        same(f"the way to {address}", f" dev {device} " in o.ip("-6", "route", "get", address), True)
    same("whether BIRD is there", bool(bird.table()), True)
