"""The premises of convergence and healing in rounds, field by field: `AreMade` of crates/ripng_world/specs/AskedRounds.antt,
`IsSynchronousRound` and `AreWithinTimeout` of specs/Rounds.antt, `AreWithinGarbageTime` of specs/Healing.antt. A trace is that of a line
`rounds`."""

from recorded.traces import first_of, moments_of


def rounds_of(trace):
    """The rounds of the line `rounds`: ticks and then deliveries, and again. Each is what was sent before it, its ticks and its deliveries."""
    rounds = []
    for step in trace.steps:
        if step.kind == "tick" and (not rounds or rounds[-1][2]):
            rounds.append((step.first, [], []))
        rounds[-1][1 if step.kind == "tick" else 2].append(step)
    return rounds


def of_rounds(wrong):
    """The first round of which a function says what is wrong."""
    def holds(trace):
        reasons = enumerate(wrong(trace, *one) for one in rounds_of(trace))
        return first_of(f"round {place}: {why}" for place, why in reasons if why)
    return holds


def pairs(trace, first, ticks):
    """Each datagram of the ticks with each other interface of its link, in order (`pairs_since`)."""
    return [(number, *port) for number in range(first, ticks[-1].count) for port in sorted(trace.others(number))]


def delivered(deliveries):
    return [(step.datagram, step.router, step.iface) for step in deliveries]


def is_made(trace, first, ticks, deliveries):
    """The round is exactly that which is asked for: each router ticks in order, then all deliveries happen in order (`round_of`)."""
    if [step.router for step in ticks] != list(range(trace.routers)):
        return "its ticks are others"
    return "its deliveries are others" if delivered(deliveries) != pairs(trace, first, ticks) else None


def each_ticks(trace, first, ticks, deliveries):
    """Each router ticks."""
    return first_of(f"router {router} does not tick" for router in range(trace.routers) if router not in {step.router for step in ticks})


def ticks_once(trace, first, ticks, deliveries):
    """None ticks twice."""
    return "a router ticks twice" if len({step.router for step in ticks}) < len(ticks) else None


def all_tick(trace, first, ticks, deliveries):
    """Its regular update is due (`IsDueTick`)."""
    return first_of(f"{step} is not due" for step in ticks if not step.is_due_tick)


def only_these(trace, first, ticks, deliveries):
    """Only datagrams of these ticks are delivered."""
    return first_of(f"{step} is of no tick of it" for step in deliveries if not first <= step.datagram < ticks[-1].count)


def each_delivered(trace, first, ticks, deliveries):
    """Each comes at least once to each other interface of its link."""
    return first_of(f"{pair} is not delivered" for pair in pairs(trace, first, ticks) if pair not in set(delivered(deliveries)))


def elsewhere(trace, first, ticks, deliveries):
    """None comes to the interface that sent it."""
    return first_of(f"{step} comes back" for step in deliveries if trace.sent[step.datagram] == (step.router, step.iface))


def all_heard(trace, first, ticks, deliveries):
    """Memory suffices for every new route."""
    return first_of(f"{step} skips an entry" for step in deliveries if "NoMemory" in step.notes)


def within(limit):
    """Two times of a router in a round, or in it and the round before, are less than this apart."""
    def holds(trace):
        before = {}
        for _, ticks, deliveries in rounds_of(trace):
            here = moments_of(ticks + deliveries)
            for router, moments in here.items():
                every = moments + before.get(router, [])
                if max(every) >= min(every) + limit:
                    return f"router {router} moves at {min(every)} and at {max(every)}"
            before = here
        return None
    return holds


def within_garbage_time(trace):
    """A router ticks less than 120 seconds after its tick of the round before, and moves less than that after its tick of this round."""
    before = {}
    for _, ticks, deliveries in rounds_of(trace):
        ticked, moved = moments_of(ticks), moments_of(ticks + deliveries)
        for router, moments in moved.items():
            here = ticked.get(router, [])
            if here and max(moments) >= min(here) + 120_000 or max(here, default=0) >= min(before.get(router, here), default=0) + 120_000:
                return f"router {router} moves at {max(moments)}"
        before = ticked
    return None


def is_never_quiet(trace):
    """No router of the network is quiet."""
    return first_of(f"router {router} is quiet" for router, quiet in enumerate(trace.quiet) if quiet)


def fits_tables(trace):
    """No more prefixes than a table holds are owned."""
    return f"{len(trace.prefixes)} prefixes are owned" if len(trace.prefixes) > 65_536 else None


ROUNDS = {
    "AreMade": of_rounds(is_made),
    "IsSynchronousRound.each_ticks": of_rounds(each_ticks),
    "IsSynchronousRound.once": of_rounds(ticks_once),
    "IsSynchronousRound.all_tick": of_rounds(all_tick),
    "IsSynchronousRound.only_these": of_rounds(only_these),
    "IsSynchronousRound.each_delivered": of_rounds(each_delivered),
    "IsSynchronousRound.elsewhere": of_rounds(elsewhere),
    "IsSynchronousRound.all_heard": of_rounds(all_heard),
    "AreWithinTimeout": within(180_000),
    "AreWithinGarbageTime": within_garbage_time,
    "IsNeverQuiet": is_never_quiet,
    "FitsTables": fits_tables,
}
