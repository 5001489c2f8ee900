"""Cases of link-local addresses: each means something on its link alone, so two links may have one."""

from edges import stranger
from least import REGULAR, least, settle
from spaces import Bird, Ours, until
from suite import same

# No update of BIRD's comes by itself in the time that is waited for.
SELDOM = 150
CABLES = [("b", 1, "o", 1), ("o", 1, "c", 1)]
OWNED = {"b": ["2001:db8:1::/48"], "o": ["2001:db8:2::/48"], "c": ["2001:db8:3::/48"]}
BAD, BAE = "2001:db8:bad::/48", "2001:db8:bae::/48"


def a_line_of(net, program, addresses):
    """BIRD, ours, BIRD on one line, with these link-local addresses from one end to the other."""
    spaces = {name: net.space(name) for name in "boc"}
    net.cable(spaces["b"], spaces["o"])
    net.cable(spaces["o"], spaces["c"])
    ends = [("b", "to-o"), ("o", "to-b"), ("o", "to-c"), ("c", "to-o")]
    for (name, device), address in zip(ends, addresses):
        spaces[name].link_local(device, address)
    return {
        "b": Bird(spaces["b"], {"to-o": 1}, OWNED["b"], update=SELDOM),
        "o": Ours(spaces["o"], program, {"to-b": {}, "to-c": {}}, OWNED["o"]),
        "c": Bird(spaces["c"], {"to-o": 1}, OWNED["c"], update=SELDOM),
    }


def hops(ours):
    return {prefix: (route["gateway"], route["dev"]) for prefix, route in ours.kernel().items()}


def one_address_on_two_links(net, program):
    """A link gets the address of another, as two VLANs of one card have it: no route is lost, and `status` names it."""
    routers = a_line_of(net, program, ["fe80::b", "fe80::2", "fe80::3", "fe80::c"])
    ours, wanted = routers["o"], {OWNED["b"][0]: ("fe80::b", "to-b"), OWNED["c"][0]: ("fe80::c", "to-c")}
    settle(routers, least(CABLES, OWNED))
    ours.space.link_local("to-c", "fe80::2")
    until(REGULAR, "both have it", lambda: [link["address"] for link in ours.status()["links"]] == ["fe80::2"] * 2)
    settle(routers, least(CABLES, OWNED), REGULAR)
    same("the kernel's routes", hops(ours), wanted)
    same("whether the companion runs", ours.process.poll(), None)
    ours.space.link_local("to-c", "fe80::3")
    until(REGULAR, "it is itself again", lambda: ours.link("to-c")["address"] == "fe80::3")
    settle(routers, least(CABLES, OWNED), REGULAR)


def a_neighbor_with_our_address(net, program):
    """A neighbor has the address that this router has on another link. A next hop that is this router means its sender."""
    routers = a_line_of(net, program, ["fe80::1", "fe80::2", "fe80::1", "fe80::c"])
    ours = routers["o"]
    settle(routers, least(CABLES, OWNED), REGULAR)
    same("the kernel's routes", hops(ours), {OWNED["b"][0]: ("fe80::1", "to-b"), OWNED["c"][0]: ("fe80::c", "to-c")})
    routers["c"].ask("down")
    for hop, wanted in (("fe80::1", "fe80::c"), ("fe80::99", "fe80::99")):
        stranger(routers["c"].space, f"next-hop={hop}", "fe80::c")
        until(REGULAR, f"{hop} is taken", lambda: hops(ours).get(BAD) == (wanted, "to-c"))
        same("the next entry's", hops(ours).get(BAE), ("fe80::c", "to-c"))
