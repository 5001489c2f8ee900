"""What a Request is answered: section 2.4.1, and of split horizon 2.6."""

import time
from ipaddress import IPv6Address

import judges
from frames import GROUP, INFINITY, REQUEST, Entry, entry, message
from rules import A1, A2, B1, P1, P2, P3, P4, rule
from stage import ALL, ATTACHED, FAR, NEAR, OWN, at
from steps import REST, SOON, Who, ask, does, table, tell
from verdicts import POISONED, Differs, Open, Seen, judged, last_of, wished

# A host of a link by its global address, one of a network behind a neighbor, and one that has only a link-local address.
HOST = Who("b", IPv6Address("2001:db8:b::c1"))
DISTANT = Who("a", IPv6Address("2001:db8:1::c1"))
NEARBY = Who("b", IPv6Address("fe80::c1"))
QUERY = 5000
TAUGHT = [tell(A1, entry(P1, 3, 7), entry(P2, 9)), table("b", {P1: 4, P2: 10})]


def globally_valid(came):
    """The answer's source is a global address of the router."""
    return judges.faults(came, lambda one: one.source in FAR.values(), lambda one: f"from {one.source}")


def to_the_query(came):
    return judges.faults(came, lambda one: one.port == 521, lambda one: f"from port {one.port}")


def near(came):
    return judges.near_source(NEAR)(came)


def asks(name, says, *steps, is_quick=False, section="2.4.1"):
    return rule(name, section, says, *TAUGHT, *steps, is_quick=is_quick)


def whole_table(who, wanted, port=521, **more):
    """A Request for the whole table, and the table that its answers have together."""

    def run(stage):
        moment, to = stage.mark(), more.get("to", at(who))
        stage.send(who.link, who.address, message(REQUEST, [ALL]), port=port, to=to, hops=more.get("hops", 255))
        verdict, text = "", ""

        def seen():
            nonlocal verdict, text
            verdict, text = judged(last_of(stage.answers(who.link, who.address, port, moment)), wanted)
            return verdict != "differs"

        if not stage.tap.wait(SOON, seen):
            came = stage.answers(who.link, who.address, port, moment)
            raise Differs(text if came else "no answer")
        return Seen(text, verdict == "RFC leaves it open")

    shown = (f", hop limit {more['hops']}" if "hops" in more else "") + (f", to {more['to']}" if "to" in more else "")
    return does(f"{who} asks for all from port {port}{shown}; it gets {wished(wanted)}", run)


def stays(stage):
    """A Request with entries changes nothing in the table."""
    stage.send("b", B1.address, message(REQUEST, [entry(P3, 1), entry(P1, 1)]), to=NEAR["b"])
    time.sleep(REST)
    return Seen("asked")


def answered_alone(stage):
    """An answer goes to who has asked, and not to the group."""
    found = [one for one in stage.tap.frames if one.is_response and not one.is_sent and one.to == B1.address]
    if not found:
        raise Differs("no answer")
    return Seen(f"{len(found)} datagrams to {B1.address}")


RULES = [
    asks("all-by-neighbor", "A Request for the whole table is answered with it.", whole_table(B1, {P1: 4, P2: 10, OWN: 1}), is_quick=True),
    asks("all-by-group", "It is answered as well where it came by multicast.", whole_table(B1, {P1: 4, P2: 10, OWN: 1}, to=GROUP), is_quick=True),
    asks(
        "all-alone", "The answer goes to the one that asked.", whole_table(B1, {P1: 4}, to=GROUP), does("the answer is its alone", answered_alone),
    ),
    asks("all-answer-source", "The source of the answer to a router is link-local.", ask(B1, ALL, answered=..., judge=near), section="2.5.2"),
    asks("all-answer-port", "The answer comes from port 521.", ask(B1, ALL, answered=..., judge=to_the_query), section="2.1"),
    asks(
        "all-of-host", "A host of the link that asks from another port gets the table at that port.",
        whole_table(HOST, {P1: 4, P2: 10, OWN: 1}, port=QUERY), is_quick=True,
    ),
    asks("all-of-near-host", "A link-local address may ask so, too.", whole_table(NEARBY, {P1: 4, OWN: 1}, port=QUERY)),
    asks(
        "all-of-host-source", "The source of the answer to a host that asks from another port is a global address.",
        ask(HOST, ALL, port=QUERY, answered=..., judge=globally_valid),
    ),
    asks(
        "all-of-distant-host", "A host behind another router is answered at its address and port.",
        ask(DISTANT, ALL, port=QUERY, hops=60, answered=..., via=A1, judge=globally_valid),
    ),
    asks("all-to-near", "A host may ask it at its link-local address, too.", whole_table(HOST, {P1: 4, OWN: 1}, port=QUERY, to=NEAR["b"])),
    asks("query-hop-limit", "No hop limit is required of a query.", whole_table(HOST, {P1: 4, OWN: 1}, port=QUERY, hops=7)),
    asks(
        "all-split-horizon", "The whole table is told with split horizon: on the link of a route at 16, or not.",
        whole_table(A2, {P1: POISONED, P2: POISONED, OWN: 1}), is_quick=True,
    ),
    asks(
        "all-split-horizon-query", "So it is to another port.", whole_table(Who("a", IPv6Address("2001:db8:a::c1")), {P1: POISONED, OWN: 1}, port=QUERY),
    ),
    asks("no-entries", "A Request without entries is not answered.", ask(B1, answered=None), ask(B1, ALL, answered=...), is_quick=True),
    asks(
        "one-known", "A known prefix is answered with its metric.",
        ask(HOST, entry(P2, 0), port=QUERY, answered=[entry(P2, 10)]), is_quick=True,
    ),
    asks("one-unknown", "An unknown prefix is answered with 16.", ask(HOST, entry(P4, 0), port=QUERY, answered=[entry(P4, 16)]), is_quick=True),
    asks(
        "several", "Entries are answered one by one, in their order.",
        ask(HOST, entry(P4, 1), entry(P2, 1), entry(OWN, 1), port=QUERY, answered=[entry(P4, 16), entry(P2, 10), entry(OWN, 1)]), is_quick=True,
    ),
    asks("one-by-neighbor", "Port 521 may ask for single prefixes, too.", ask(B1, entry(P2, 0), answered=[entry(P2, 10)])),
    asks(
        "one-no-split-horizon", "Single prefixes are answered without split horizon.",
        ask(Who("a", IPv6Address("2001:db8:a::c1")), entry(P2, 0), port=QUERY, answered=[entry(P2, 10)]), is_quick=True,
    ),
    asks("one-no-split-horizon-neighbor", "So they are to port 521.", ask(A2, entry(P2, 0), answered=[entry(P2, 10)])),
    asks(
        "one-explicit", "A shorter prefix that has it inside is no explicit route to it.",
        ask(HOST, entry("2001:db8:2:1::/64", 0), port=QUERY, answered=[entry("2001:db8:2:1::/64", 16)]),
    ),
    asks(
        "one-lost", "A lost route is answered with 16.", tell(A1, entry(P2, 16)), table("b", {P2: 16}),
        ask(HOST, entry(P2, 0), port=QUERY, answered=[entry(P2, 16)]),
    ),
    asks(
        "default-of-two", "::/0 with metric 16 asks for all only where it stands alone.",
        ask(HOST, ALL, entry(P2, 0), port=QUERY, answered=[Entry(ALL.address, 0, INFINITY), entry(P2, 10)]), is_quick=True,
    ),
    asks("default-of-metric-5", "::/0 with another metric than 16 asks for the default route.",
         ask(HOST, Entry(ALL.address, 0, 5), port=QUERY, answered=[ALL])),
    asks("default-known", "The default route is answered with its metric.", tell(A1, entry("::/0", 3)), table("b", {"::/0": 4}),
         ask(HOST, Entry(ALL.address, 0, 1), port=QUERY, answered=[Entry(ALL.address, 0, 4)])),
    asks("no-learning", "A Request changes no route.", does(f"{B1} asks for {P3} and {P1} with metric 1", stays), tell(B1, entry(P4, 3)),
         table("a", {P4: 4, P3: None}), table("b", {P1: 4})),
    asks("answer-version", "The answer is a Response of version 1, zero where it must be.",
         ask(B1, ALL, answered=..., judge=lambda came: judges.version_1(came) + judges.zero_bytes(came) + judges.whole_entries(came))),
    asks(
        "request-version-2", "RFC 2080 does not say what becomes of a Request of version 2.",
        does("version 2 asks for all", lambda stage: versioned(stage, 2)), section="2.1",
    ),
    asks(
        "request-group-hops", "RFC 2080 asks for a hop limit of 255 of updates to the group, and does not speak of Requests there.",
        ask(B1, ALL, to=GROUP, hops=64, answered=None, is_open=True),
    ),
    asks("request-from-itself", "RFC 2080 does not say that a Request from the router's own address is ignored.",
         ask(Who("b", NEAR["a"]), ALL, answered=None, is_open=True)),
    asks("all-has-attached", "The whole table has the prefixes of its links.", whole_table(B1, {ATTACHED["a"]: 1, ATTACHED["b"]: (1, Open(None))})),
    asks("answer-tag", "The whole table has the tags of routes.", ask(B1, ALL, answered=..., judge=lambda came: tagged(came)), section="2.5.2"),
]


def versioned(stage, version):
    moment = stage.mark()
    stage.send("b", B1.address, message(REQUEST, [ALL], version=version), to=NEAR["b"])
    came = stage.tap.wait(3, lambda: stage.answers("b", B1.address, 521, moment))
    return Seen("an answer" if came else "no answer", is_open=True)


def tagged(came):
    found = [one for frame in came for one in frame.entries if one.prefix == P1]
    return [] if [one.tag for one in found] == [7] else [f"{P1} has tags {[one.tag for one in found]}"]


