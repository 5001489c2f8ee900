"""What a router sends, whatever it says: sections 2.1, 2.1.1, 2.4.2, 2.5 and 2.5.2; and how it starts, section 2.4.1."""

import judges
from frames import GROUP, entry
from rules import A1, A2, B1, P1, P2, P3, rule
from stage import ALL, ATTACHED, LINKS, NEAR, OWN
from steps import answer_to_the_start, ask, does, mark, sent, table, tell, update
from verdicts import Differs, Open, Seen

MANY = [f"2001:db8:{number:x}::/48" for number in range(0x100, 0x100 + 150)]
# What makes a router send: two routes, one of them lost, updates on both links, and an answer.
BUSY = [
    tell(A1, entry(P1, 3, 7), entry(P2, 14)),
    update("b", {P1: 4, P2: 15}),
    tell(B1, entry(P3, 2)),
    tell(A1, entry(P2, 16)),
    update("a", {P3: 3}),
    ask(A2, ALL, answered=...),
]
# Where the prefix of a link is left out on that link, nobody misses it.
ITS_LINKS = (1, Open(None))
# Many routes, so that an update takes several datagrams.
FULL = [tell(A1, *(entry(prefix, 2) for prefix in MANY[first : first + 50])) for first in range(0, 150, 50)]


def seen_at_the_start(link):
    """A Request to the group came on the link before the bench had sent anything of RIPng but Requests."""

    def run(stage):
        found = stage.tap.wait(9, lambda: [one for one in stage.tap.since(stage.begun) if one.is_request and one.link == link and one.to == GROUP])
        if not found:
            raise Differs("no Request to the group came")
        return Seen(f"{len(found)} Requests to the group")

    return does(f"on {link} it asks the group", run)


def busy(name, section, says, kind, judge, expected, **more):
    return rule(name, section, says, *BUSY, sent(kind, judge, expected, **more))


def at_its_end(stage):
    """The router is ended by TERM; what it tells then is left open."""
    stage.mark()
    for process in stage.near.processes:
        process.terminate()
    stage.tap.wait(6, lambda: any(one.prefix == OWN and one.metric == 16 for frame in stage.updates("b") for one in frame.entries))
    found = [one for frame in stage.updates("b") for one in frame.entries if one.prefix == OWN]
    return Seen(f"at its end it tells {OWN} at {found[-1].metric}" if found else "at its end it tells nothing", is_open=True)


RULES = [
    busy("update-ports", "2.1", "Updates are sent from port 521 to port 521.", "update", judges.from_the_port, "from port 521 to it"),
    busy("update-group", "2.5", "Updates are sent to FF02::9.", "update", judges.to_the_group, "to FF02::9"),
    busy("update-hop-limit", "2.4.2", "Updates have a hop limit of 255.", "update", judges.full_hops, "of hop limit 255"),
    busy("update-source", "2.5.2", "Updates come from one link-local address of the interface.", "update", judges.near_source(NEAR), "from it"),
    busy("sent-version", "2.5.2", "The version is 1.", "ripng", judges.version_1, "of version 1"),
    busy("sent-command", "2.1", "The command is 1 or 2.", "ripng", judges.known_command, "of a known command"),
    busy("sent-zero", "2.5.2", "The bytes of the header that must be zero are.", "ripng", judges.zero_bytes, "zero there"),
    busy("sent-whole", "2.1", "After the header come whole entries of 20 bytes.", "ripng", judges.whole_entries, "of whole entries"),
    busy("sent-metrics", "2.1", "Metrics are from 1 to 16, or 255 of a next hop.", "ripng", judges.metrics, "right in its metrics"),
    busy("sent-lengths", "2.1", "Prefix lengths are from 0 to 128.", "ripng", judges.lengths, "right in its lengths"),
    busy("sent-prefixes", "2.4.2", "No prefix is multicast or link-local.", "ripng", judges.routable, "without such a prefix"),
    busy("sent-next-hops", "2.1.1", "A next hop entry has tag and length 0, and a link-local address or ::.", "ripng", judges.next_hops, "right there"),
    busy("sent-checksum", "2.1", "The checksum of UDP, which IPv6 requires, is right.", "ripng", judges.right_checksum, "of a right checksum"),
    rule(
        "own-prefixes", "2.4.2", "The prefixes of its links and its own are advertised with metric 1, the cost of a link.",
        table("a", {OWN: 1, ATTACHED["a"]: ITS_LINKS, ATTACHED["b"]: 1}), table("b", {OWN: 1, ATTACHED["a"]: 1, ATTACHED["b"]: ITS_LINKS}),
        is_quick=True,
    ),
    rule(
        "mtu-1280", "2.1", "Where 1,280 bytes fit, a datagram has at most 61 entries.",
        *FULL, table("b", {MANY[-1]: 3}), ask(B1, ALL, answered=..., judge=judges.fits(1280)), sent("any", judges.fits(1280), "short enough"), mtu=1280,
    ),
    rule(
        "mtu-1500", "2.1", "Where 1,500 bytes fit, a datagram has at most 72 entries.",
        *FULL, table("b", {MANY[-1]: 3}), ask(B1, ALL, answered=..., judge=judges.fits(1500)), sent("any", judges.fits(1500), "short enough"), is_quick=True,
    ),
    rule(
        "mtu-filled", "2.5.2", "A datagram is sent where there is no more space in it; how much may be used section 2.1 says, not how much must.",
        *FULL, table("b", {MANY[-1]: 3}), ask(B1, ALL, answered=..., prefers=judges.filled(1500)),
    ),
    rule(
        "listed-once", "2.5.2", "Each route of the table is examined, so it stands once in a list.",
        *FULL, table("b", {MANY[-1]: 3}), ask(B1, ALL, answered=..., judge=judges.once),
    ),
    rule(
        "listed-all", "2.5.2", "All routes of a table stand in its lists.",
        *FULL, table("b", dict.fromkeys(MANY, 3) | {OWN: 1}),
    ),
    rule("start-request-a", "2.4.1", "A router that comes up asks by multicast on each link.", seen_at_the_start("a"), is_quick=True),
    rule("start-request-b", "2.4.1", "A router that comes up asks by multicast on each link.", seen_at_the_start("b")),
    rule(
        "start-request-form", "2.4.1", "It asks for the whole table: one entry of ::/0 with metric 16.",
        *map(seen_at_the_start, LINKS), sent("request", judges.asks_for_all, "for the whole table"), is_quick=True,
    ),
    rule(
        "start-request-port", "2.4.1", "It asks from port 521.",
        *map(seen_at_the_start, LINKS), sent("request", judges.from_the_port, "from port 521 to it"),
    ),
    rule(
        "start-answer", "2.4.1", "The answer to that Request, to the router alone, fills its table.",
        *map(seen_at_the_start, LINKS), answer_to_the_start(A1, entry(P1, 3)), table("b", {P1: 4}), is_quick=True,
    ),
    rule(
        "start-update", "2.3", "It advertises its own prefixes within 45 s of its start.",
        *(update(link, {OWN: 1}, within=60) for link in LINKS),
    ),
    rule("at-its-end", "2", "RFC 2080 does not speak of a router that ends.", mark(), does("it is ended by TERM", at_its_end)),
]
