"""The shape of what a companion says of itself: one table, from which `status --json`, the status file and `metrics` are made. A name with
`[]` is an array, and one with `*` has the names of rules (docs/PROTOCOL.md). All that is listed is there from the start, as 0 where
nothing was counted."""

import functools

# Reasons for which the router refuses a datagram, and an entry of one.
PACKETS = ["Short", "TooLong", "Ragged", "BadCommand", "BadVersion", "NotZero", "NotRipngPort", "NotLinkLocal", "OwnAddress", "HopLimit"]
PACKETS += ["EmptyRequest", "BadSource"]
ENTRIES = ["BadLength", "BadPrefix", "BadMetric", "TableFull", "NoMemory", "NotAccepted", "LimitReached"]

COUNTER, GAUGE, FLAG, TEXT, LIST = "counter", "gauge", "flag", "text", "list"

# Of each value its kind and its meaning. Counters of the router and of its links fall to 0 when it starts anew, which `starts` counts.
SHAPE = {
    "written_timestamp_seconds": (GAUGE, "when this was so, in seconds since 1970"),
    "config": (TEXT, "the configuration"),
    "uptime_seconds": (GAUGE, "since the companion started"),
    "reloads": (COUNTER, "configurations that were read anew and obeyed"),
    "reloads_refused": (COUNTER, "configurations that were read anew and refused"),
    "log_lines_lost": (COUNTER, "lines that standard error did not take"),
    "router.ready": (FLAG, "the router runs"),
    "router.answers": (FLAG, "it answers when it is asked"),
    "router.control": (TEXT, "its control socket"),
    "router.starts": (COUNTER, "starts of a router since the companion started"),
    "router.uptime_seconds": (GAUGE, "since the router started"),
    "router.routes": (GAUGE, "entries of its forwarding table"),
    "router.route_changes": (COUNTER, "changes of its forwarding table since the companion started (rip2GlobalRouteChanges)"),
    "router.arrivals": (COUNTER, "datagrams that it took in"),
    "router.sends": (COUNTER, "datagrams that it sent"),
    "router.failed": (COUNTER, "datagrams that could not be sent"),
    "router.lost_sends": (COUNTER, "datagrams that were to be sent, and are lost"),
    "router.lost_steps": (COUNTER, "arrivals and ticks that are lost"),
    "router.lost_arrivals": (COUNTER, "arrivals among them, for which there was no room"),
    "router.strangers": (COUNTER, "datagrams from ports of no peer"),
    "router.log_failed": (FLAG, "its log has failed"),
    "router.asked": (COUNTER, "Requests for whole tables that it sent since routes were lost"),
    "router.refused.*": (COUNTER, "datagrams and entries that it refused, by rule"),
    "kernel.used": (FLAG, "the kernel's routes are kept as the router's"),
    "kernel.forwarding": (FLAG, "the system forwards packets"),
    "kernel.routes": (GAUGE, "routes that the kernel has of the router"),
    "kernel.refused_routes": (GAUGE, "routes that the kernel refuses"),
    "kernel.refused": (LIST, "their prefixes"),
    "kernel.mended_routes": (COUNTER, "routes that somebody took away or replaced"),
    "links[].device": (TEXT, "the device of a link"),
    "links[].state": (TEXT, "whether it is up, or why not"),
    "links[].up": (FLAG, "it is up"),
    "links[].changes": (COUNTER, "changes of its state"),
    "links[].changed_seconds_ago": (GAUGE, "since the last change of its state"),
    "links[].stub": (FLAG, "no RIPng is spoken there"),
    "links[].interface": (GAUGE, "the router's number of it"),
    "links[].address": (TEXT, "the router's address there"),
    "links[].cost": (GAUGE, "hops that it costs"),
    "links[].mtu": (GAUGE, "bytes that the router sends there at once"),
    "links[].limit": (GAUGE, "the most routes by way of it, or 0"),
    "links[].routes": (GAUGE, "entries of the forwarding table by way of it"),
    "links[].triggered_updates": (COUNTER, "triggered updates that were sent there (rip2IfStatSentUpdates)"),
    "links[].queued": (GAUGE, "datagrams that wait to be sent there"),
    "links[].queued_answers": (GAUGE, "answers to Requests among them"),
    "links[].arrivals": (COUNTER, "datagrams that came there"),
    "links[].responses": (COUNTER, "tables and updates among them that were taken"),
    "links[].entries": (COUNTER, "entries of those"),
    "links[].response_seconds_ago": (GAUGE, "since the last one of those"),
    "links[].bad_packets": (COUNTER, "datagrams among them that were refused (rip2IfStatRcvBadPackets)"),
    "links[].bad_routes": (COUNTER, "entries of them that were refused, but for filters and the limit (rip2IfStatRcvBadRoutes)"),
    "links[].not_accepted": (COUNTER, "entries of them that its filters refused"),
    "links[].limit_reached": (COUNTER, "entries of them that its limit refused"),
    "links[].refused.*": (COUNTER, "datagrams and entries that were refused there, by rule"),
    "links[].neighbors[].address": (TEXT, "the address of a neighbor"),
    "links[].neighbors[].routes": (GAUGE, "entries of the forwarding table by way of it"),
    "links[].neighbors[].arrivals": (COUNTER, "its datagrams"),
    "links[].neighbors[].responses": (COUNTER, "tables and updates of it that were taken"),
    "links[].neighbors[].entries": (COUNTER, "entries of those"),
    "links[].neighbors[].response_seconds_ago": (GAUGE, "since its last one (rip2PeerLastUpdate)"),
    "links[].neighbors[].bad_packets": (COUNTER, "its datagrams that were refused (rip2PeerRcvBadPackets)"),
    "links[].neighbors[].bad_routes": (COUNTER, "its entries that were refused, but for filters and the limit (rip2PeerRcvBadRoutes)"),
    "links[].neighbors[].refused.*": (COUNTER, "its datagrams and entries that were refused, by rule"),
}

# What there is before anything is known.
EMPTY = {COUNTER: 0, GAUGE: None, FLAG: False, TEXT: None}


@functools.cache
def parts(start):
    """Names that begin so and are no part of something else: what follows, whether that is by rule, and the kind."""
    rests = ((name.removeprefix(start), kind) for name, (kind, _) in SHAPE.items() if name.startswith(start))
    found = ((rest.removesuffix(".*"), rest.endswith(".*"), kind) for rest, kind in rests if "[]" not in rest)
    return [(key, by_rule, kind) for key, by_rule, kind in found if "." not in key]


def empty(start):
    """Values as at the start, for all such names."""
    rules = PACKETS + ENTRIES
    return {key: dict.fromkeys(rules, 0) if by_rule else [] if kind == LIST else EMPTY[kind] for key, by_rule, kind in parts(start)}


def values(told):
    """Each value of a report, with its name in the table, and the labels that tell it from others of that name."""
    for name in SHAPE:
        yield from ((name, labels, value) for labels, value in reach(told, name.split("."), {}))


def reach(told, steps, labels):
    """The values behind these steps of a name."""
    step, *rest = steps
    if step == "*":
        yield from ((labels | {"rule": rule}, value) for rule, value in told.items())
    elif step.endswith("[]"):
        for one in told.get(step[:-2], ()):
            label = {"device": one["device"]} if "device" in one else {"neighbor": one["address"]}
            yield from reach(one, rest, labels | label)
    elif rest:
        yield from reach(told[step], rest, labels)
    else:
        yield labels, told[step]
