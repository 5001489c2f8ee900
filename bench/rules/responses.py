"""Which Responses and which of their entries are taken: sections 2.1, 2.2 and 2.4.2. Behind each that is doubtful comes a good one."""

from ipaddress import IPv6Address

from frames import entry
from rules import A1, P1, P2, P3, rule
from stage import FAR, NEAR, OWN
from steps import table, tell
from verdicts import Open

EITHER = (Open(None), Open(4))
GLOBAL = IPv6Address("2001:db8:a::a1")
NOBODY = IPv6Address("::")
UNUSUAL = bytes(7)


def refused(name, says, section="2.4.2", is_quick=False, value=None, **more):
    """A Response that is not as usual is ignored, and one as usual is not. Where `value` says so, the RFC leaves it open."""
    doubtful = tell(A1, entry(P1, 3), **more)
    return rule(name, section, says, doubtful, tell(A1, entry(P2, 3)), table("b", {P2: 4, P1: value}), is_quick=is_quick)


def skipped(name, says, *doubtful, is_quick=False, section="2.4.2", **wanted):
    """Entries that are ignored stand between good ones of one datagram, and those are taken."""
    absent = {one.prefix: None for one in doubtful}
    steps = tell(A1, entry(P1, 3), *doubtful, entry(P2, 3)), table("b", {P1: 4, P2: 4} | absent | wanted)
    return rule(name, section, says, *steps, is_quick=is_quick)


RULES = [
    rule("response", "2.4.2", "A good Response is taken.", tell(A1, entry(P1, 3)), table("b", {P1: 4}), is_quick=True),
    refused("response-from-port-520", "A Response from another port than 521 is ignored.", port=520, is_quick=True),
    refused("response-from-port-5000", "A Response from another port than 521 is ignored.", port=5000),
    refused("response-from-global", "The source of a Response must be link-local.", source=GLOBAL, is_quick=True),
    refused("response-from-nobody", "The source of a Response must be link-local: it is not ::.", source=NOBODY),
    refused("response-from-itself", "A Response from an address of the router is ignored.", source=NEAR["a"], is_quick=True),
    refused("response-from-its-other-link", "A link-local address of the router's on another link may be a neighbor's on this one (RFC 4007).",
            source=NEAR["b"], value=EITHER),
    refused("hop-limit-254", "A Response to the group with another hop limit than 255 is ignored.", hops=254, is_quick=True),
    refused("hop-limit-64", "A Response to the group with another hop limit than 255 is ignored.", hops=64),
    refused("hop-limit-1", "A Response to the group with another hop limit than 255 is ignored.", hops=1),
    refused("hop-limit-alone", "Of a Response to the router alone no hop limit is required.", hops=64, to=NEAR["a"], value=EITHER),
    refused("response-alone", "A Response to the router alone is processed like any other.", to=NEAR["a"], value=4, is_quick=True),
    refused("response-alone-global", "RFC 2080 does not say to which address of its a Response must come.", to=FAR["a"], value=EITHER),
    refused("command-3", "There are two commands; 3 is none of them.", section="2.4", command=3, is_quick=True),
    refused("command-0", "There are two commands; 0 is none of them.", section="2.4", command=0),
    refused("version-0", "RFC 2080 does not say what becomes of another version than 1.", section="2.1", version=0, value=EITHER),
    refused("version-2", "RFC 2080 does not say what becomes of another version than 1.", section="2.1", version=2, value=EITHER),
    refused("not-zero", "RFC 2080 does not say what becomes of a header that is not zero where it must be.", section="2.1", zero=1, value=EITHER),
    refused("ragged", "RFC 2080 does not say what becomes of bytes that are no whole entry.", section="2.1", tail=UNUSUAL, value=EITHER),
    refused("too-short", "A datagram without a whole header does no harm.", section="2.1", raw=b"\x02\x01\0", is_quick=True),
    refused("header-alone", "A Response without entries does no harm.", section="2.1", raw=b"\x02\x01\0\0"),
    refused("no-bytes", "A datagram without bytes does no harm.", section="2.1", raw=b""),
    skipped("metric-0", "An entry of metric 0 is ignored, and the next one is not.", entry(P3, 0), is_quick=True),
    skipped("metric-17", "An entry of a metric above 16 is ignored.", entry(P3, 17), is_quick=True),
    skipped("metric-254", "An entry of a metric above 16 is ignored.", entry(P3, 254)),
    skipped("length-129", "An entry with a prefix length above 128 is ignored.", entry("2001:db8:3::/48", 3, length=129), is_quick=True),
    skipped("length-255", "An entry with a prefix length above 128 is ignored.", entry("2001:db8:3::/48", 3, length=255)),
    skipped("multicast-ff02", "An entry with a multicast prefix is ignored.", entry("ff02::/16", 3), is_quick=True),
    skipped("multicast-ff0e", "An entry with a multicast prefix is ignored.", entry("ff0e:1::/32", 3)),
    skipped("multicast-all", "An entry with a multicast prefix is ignored: ff00::/8.", entry("ff00::/8", 3)),
    skipped("link-local-64", "An entry with a link-local prefix is ignored.", entry("fe80::/64", 3), is_quick=True),
    skipped("link-local-10", "An entry with a link-local prefix is ignored: fe80::/10.", entry("fe80::/10", 3), is_quick=True),
    skipped("link-local-febf", "An entry with a link-local prefix is ignored: febf::/16 is in fe80::/10.", entry("febf::/16", 3)),
    skipped("link-local-host", "An entry with a link-local prefix is ignored, an address too.", entry("fe80::99/128", 3)),
    rule(
        "all-ignored", "2.4.2", "A datagram whose entries are all ignored does no harm to the next one.",
        tell(A1, entry(P1, 17), entry(P2, 3, length=200), entry("ff02::/16", 1)), tell(A1, entry(P3, 3)), table("b", {P3: 4, P1: None}),
    ),
    rule("length-128", "2.1", "A prefix length of 128 is valid.", tell(A1, entry("2001:db8:1::7/128", 3)), table("b", {"2001:db8:1::7/128": 4})),
    rule("length-1", "2.1", "Each length from 0 to 128 is valid.", tell(A1, entry("8000::/1", 3)), table("b", {"8000::/1": 4})),
    rule("default-route", "2.2", "A prefix of length 0 is the default route, as any other.", tell(A1, entry("::/0", 3)), table("b", {"::/0": 4}),
         is_quick=True),
    rule(
        "default-route-bits", "2.2", "Of a prefix of length 0 the address is ignored.",
        tell(A1, entry("2001:db8:1::/48", 3, length=0)), table("b", {"::/0": 4, P1: None}),
    ),
    rule(
        "bits-past-length", "2.1", "RFC 2080 does not say what becomes of bits past the length.",
        tell(A1, entry("2001:db8:1:2::3/48", 3)), tell(A1, entry(P2, 3)), table("b", {P2: 4, P1: (Open(4), Open(None))}),
    ),
    rule(
        "loopback-prefix", "2.4.2", "RFC 2080 does not speak of ::1/128.",
        tell(A1, entry("::1/128", 3)), tell(A1, entry(P2, 3)), table("b", {P2: 4, "::1/128": (Open(4), Open(None))}),
    ),
    rule(
        "entries-in-order", "2.4.2", "Entries are processed one by one: the last one for a prefix counts.",
        tell(A1, entry(P1, 5), entry(P1, 3)), table("b", {P1: 4}), tell(A1, entry(P2, 3), entry(P2, 5)), table("b", {P2: 6}),
    ),
    rule(
        "seventy-two-entries", "2.1", "A datagram of 72 entries, which a link of 1,500 bytes takes, is processed to its end.",
        tell(A1, *(entry(f"2001:db8:{number:x}::/48", 3) for number in range(0x100, 0x148))),
        table("b", {f"2001:db8:{number:x}::/48": 4 for number in range(0x100, 0x148)}),
    ),
    rule(
        "own-prefix-told", "2.4.2", "A neighbor's offer for a prefix of the router itself is dearer, and changes nothing.",
        tell(A1, entry(OWN, 1)), tell(A1, entry(P2, 3)), table("b", {OWN: 1, P2: 4}),
    ),
    rule(
        "own-prefix-withdrawn", "2.4.2", "A neighbor's metric 16 for a prefix of the router itself changes nothing.",
        tell(A1, entry(OWN, 16)), tell(A1, entry(P2, 3)), table("b", {OWN: 1, P2: 4}), is_quick=True,
    ),
]
