"""What becomes of a route: metrics and adoption (section 2.4.2), next hops (2.1.1), tags (2.1)."""

from ipaddress import IPv6Address

from frames import entry, next_hop
from rules import A1, A2, B1, P1, P2, P3, P4, rule
from stage import NEAR
from steps import Who, goes, mark, table, tell, update
from verdicts import Open, Tagged

# A router that neighbors name as next hop, and addresses that are none.
NEXT = Who("a", IPv6Address("fe80::a9"))
GLOBAL = "2001:db8:a::a9"


def metric(given, stored, is_quick=False):
    return rule(f"metric-{given}", "2.4.2", f"The cost 1 of the link is added: {given} becomes {stored}.",
                tell(A1, entry(P1, given)), table("b", {P1: stored}), is_quick=is_quick)


def through(name, says, entries, wanted, otherwise=None, **more):
    """Entries of a Response, and to whom packets into prefixes go then."""
    table_of = table("b", {prefix: 4 for prefix in wanted})
    steps = [goes(prefix, who, otherwise=otherwise if who is NEXT else None) for prefix, who in wanted.items()]
    return rule(name, "2.1.1", says, tell(A1, *entries), table_of, *steps, **more)


RULES = [
    metric(1, 2, is_quick=True),
    metric(14, 15),
    rule(
        "metric-15", "2.4.2", "15 and the cost of the link are 16, so no route is added.",
        tell(A1, entry(P1, 15), entry(P2, 3)), table("b", {P2: 4, P1: None}), is_quick=True,
    ),
    rule(
        "metric-16-unknown", "2.4.2", "No route is added for a metric of 16.",
        tell(A1, entry(P1, 16), entry(P2, 3)), table("b", {P2: 4, P1: None}), is_quick=True,
    ),
    rule(
        "metric-capped", "2.4.2", "The metric is MIN(metric + cost, 16): of a route whose neighbor says 16 it is 16.",
        tell(A1, entry(P1, 3)), table("b", {P1: 4}), mark(), tell(A1, entry(P1, 16)), update("b", {P1: 16}), table("b", {P1: 16}), is_quick=True,
    ),
    rule(
        "metric-15-of-a-route", "2.4.2", "A route whose neighbor says 15 is at 16.",
        tell(A1, entry(P1, 3)), table("b", {P1: 4}), tell(A1, entry(P1, 15)), table("b", {P1: 16}),
    ),
    rule(
        "cheaper-neighbor", "2.4.2", "A lower metric of another neighbor is adopted.",
        tell(A1, entry(P1, 5)), table("b", {P1: 6}), goes(P1, A1), tell(A2, entry(P1, 3)), table("b", {P1: 4}), goes(P1, A2), is_quick=True,
    ),
    rule(
        "cheaper-link", "2.4.2", "A lower metric on another link is adopted.",
        tell(A1, entry(P1, 5)), table("b", {P1: 6}), tell(B1, entry(P1, 3)), table("a", {P1: 4}), goes(P1, B1, by="a"),
    ),
    rule(
        "dearer-neighbor", "2.4.2", "A higher metric of another neighbor is ignored.",
        tell(A1, entry(P1, 3)), table("b", {P1: 4}), tell(A2, entry(P1, 5)), tell(A2, entry(P2, 3)), table("b", {P1: 4, P2: 4}), goes(P1, A1),
        is_quick=True,
    ),
    rule(
        "equal-neighbor", "2.4.2", "For an equal metric of another neighbor it is senseless to replace a fresh route.",
        tell(A1, entry(P1, 3)), table("b", {P1: 4}), tell(A2, entry(P1, 3)), tell(A2, entry(P2, 3)), table("b", {P1: 4, P2: 4}),
        goes(P1, A1, otherwise=A2),
    ),
    rule(
        "same-neighbor-dearer", "2.4.2", "A higher metric of the route's own neighbor is adopted.",
        tell(A1, entry(P1, 3)), table("b", {P1: 4}), tell(A1, entry(P1, 7)), table("b", {P1: 8}), is_quick=True,
    ),
    rule(
        "same-neighbor-cheaper", "2.4.2", "A lower metric of the route's own neighbor is adopted.",
        tell(A1, entry(P1, 7)), table("b", {P1: 8}), tell(A1, entry(P1, 3)), table("b", {P1: 4}),
    ),
    rule(
        "lost", "2.3", "A metric of 16 of the route's own neighbor takes it out of service at once.",
        tell(A1, entry(P1, 3)), table("b", {P1: 4}), goes(P1, A1), tell(A1, entry(P1, 16)), table("b", {P1: 16}), goes(P1), is_quick=True,
    ),
    rule(
        "lost-elsewhere", "2.4.2", "A metric of 16 of another neighbor changes nothing.",
        tell(A1, entry(P1, 3)), table("b", {P1: 4}), tell(A2, entry(P1, 16), entry(P2, 3)), table("b", {P1: 4, P2: 4}), goes(P1, A1), is_quick=True,
    ),
    rule(
        "left-neighbor", "2.4.2", "A neighbor that the route has left for a cheaper one takes nothing away.",
        tell(A1, entry(P1, 5)), table("b", {P1: 6}), tell(A2, entry(P1, 3)), table("b", {P1: 4}),
        tell(A1, entry(P1, 16), entry(P2, 3)), table("b", {P1: 4, P2: 4}), goes(P1, A2),
    ),
    rule(
        "revived", "2.3", "A new route replaces one that is to be deleted.",
        tell(A1, entry(P1, 3)), table("b", {P1: 4}), tell(A1, entry(P1, 16)), table("b", {P1: 16}),
        tell(A2, entry(P1, 9)), table("b", {P1: 10}), goes(P1, A2), is_quick=True,
    ),
    rule(
        "revived-by-itself", "2.3", "The neighbor that lost a route may have it again.",
        tell(A1, entry(P1, 3)), table("b", {P1: 4}), tell(A1, entry(P1, 16)), table("b", {P1: 16}), tell(A1, entry(P1, 5)), table("b", {P1: 6}),
    ),
    rule(
        "longest-match", "2.2", "Prefixes of other lengths are other routes.",
        tell(A1, entry("2001:db8:1::/48", 3)), tell(A2, entry("2001:db8:1:1::/64", 3)),
        table("b", {"2001:db8:1::/48": 4, "2001:db8:1:1::/64": 4}), goes("2001:db8:1::/48", A1), goes("2001:db8:1:1::/64", A2),
    ),
    rule("default-forwarded", "2.2", "Packets go by the default route.", tell(A1, entry("::/0", 3)), table("b", {"::/0": 4}), goes(P4, A1)),
    through("next-hop-sender", "Without a next hop entry packets go to the sender.", [entry(P1, 3)], {P1: A1}, is_quick=True),
    through(
        "next-hop", "After a next hop entry packets go there; to ignore it is allowed, as it is advisory.",
        [next_hop("fe80::a9"), entry(P1, 3)], {P1: NEXT}, otherwise=A1, is_quick=True,
    ),
    through(
        "next-hop-before", "Entries before a next hop entry go to the sender.",
        [entry(P1, 3), next_hop("fe80::a9"), entry(P2, 3)], {P1: A1, P2: NEXT}, otherwise=A1,
    ),
    through(
        "next-hop-until-next", "A next hop entry counts up to the next one.",
        [next_hop("fe80::a9"), entry(P1, 3), entry(P2, 3), next_hop("::"), entry(P3, 3)], {P1: NEXT, P2: NEXT, P3: A1}, otherwise=A1,
    ),
    through("next-hop-unspecified", "A next hop of :: is the sender.", [next_hop("::"), entry(P1, 3)], {P1: A1}, is_quick=True),
    through("next-hop-global", "A next hop that is not link-local is the sender.", [next_hop(GLOBAL), entry(P1, 3)], {P1: A1}, is_quick=True),
    through(
        "next-hop-tag-length", "Tag and length of a next hop entry are ignored.",
        [next_hop("fe80::a9", tag=7, length=64), entry(P1, 3)], {P1: NEXT}, otherwise=A1,
    ),
    rule(
        "next-hop-datagram", "2.1.1", "A next hop entry counts up to the end of its datagram.",
        tell(A1, next_hop("fe80::a9"), entry(P1, 3)), tell(A1, entry(P2, 3)), table("b", {P1: 4, P2: 4}), goes(P2, A1),
    ),
    rule(
        "next-hop-no-route", "2.1.1", "A next hop entry is no route itself.",
        tell(A1, next_hop("fe80::a9"), next_hop("2001:db8:a::a9"), entry(P2, 3)),
        table("b", {P2: 4, "fe80::a9/128": None, "2001:db8:a::a9/128": None, "::/0": None}),
    ),
    rule(
        "next-hop-own", "2.1.1", "RFC 2080 does not speak of a next hop that is the router itself; packets must not be lost there.",
        tell(A1, next_hop(str(NEAR["a"])), entry(P1, 3)), table("b", {P1: (4, Open(None))}),
    ),
    rule(
        "tag", "2.1", "The route tag is preserved and readvertised.", tell(A1, entry(P1, 3, 0xBEEF), entry(P2, 3, 65535), entry(P3, 3)),
        table("b", {P1: Tagged(4, 0xBEEF), P2: Tagged(4, 65535), P3: Tagged(4, 0)}), is_quick=True,
    ),
    rule(
        "tag-update", "2.5.2", "The route tag stands in updates.", mark(), tell(A1, entry(P1, 3, 0xBEEF)), update("b", {P1: Tagged(4, 0xBEEF)}),
        is_quick=True,
    ),
    rule(
        "tag-of-the-route", "2.4.2", "With a route its tag is adopted.",
        tell(A1, entry(P1, 5, 7)), table("b", {P1: Tagged(6, 7)}), tell(A2, entry(P1, 3, 9)), table("b", {P1: Tagged(4, 9)}),
    ),
    rule(
        "tag-alone", "2.4.2", "RFC 2080 does not say whether a new tag at an equal metric is taken.",
        tell(A1, entry(P1, 3, 7)), table("b", {P1: Tagged(4, 7)}), tell(A1, entry(P1, 3, 9), entry(P2, 3)),
        table("b", {P2: 4, P1: (Open(Tagged(4, 7)), Open(Tagged(4, 9)))}),
    ),
]
