"""The premises of healing in phases, field by field: `IsPhase` and `IsHeardUpdate` of crates/ripng_phases/specs/Phases.antt. A trace is that of
a line `phases`; its phases are a minute each, from the last time of all routers before it."""

from recorded.traces import UNORDINARY, counts_in, first_of, happen, is_overtaken, moments_of


def phases_of(trace):
    """The steps of each minute."""
    minutes = {}
    for step in trace.steps:
        minutes.setdefault((step.at - trace.now) // 60_000, []).append(step)
    return [minutes[number] for number in sorted(minutes)]


def of_phases(wrong):
    """The first phase of which a function says what is wrong, given the phase before it."""
    def holds(trace):
        before = []
        for place, steps in enumerate(phases_of(trace)):
            why = wrong(trace, before, steps)
            if why:
                return f"phase {place}: {why}"
            before = steps
        return None
    return holds


def takes(trace, before, steps):
    """The steps are ordinary events that may happen, and memory suffices for every new route (`Takes`)."""
    return happen(trace.with_steps(steps)) or first_of(f"{step} is not ordinary" for step in steps
                                                       if step.kind in UNORDINARY or "NoMemory" in step.notes)


def regular(steps, router):
    return [(place, step) for place, step in enumerate(steps) if step.router == router and step.is_due_tick]


def due(trace, before, steps):
    """Each router makes a regular update, which is due."""
    return first_of(f"router {router} makes none" for router in range(trace.routers) if not regular(steps, router))


def heard(trace, before, steps):
    """Of one of them each datagram comes afterwards to every other interface of its link."""
    came = {(step.datagram, step.router, step.iface): place for place, step in enumerate(steps) if step.kind == "deliver"}
    return first_of(f"no update of router {router} comes whole" for router in range(trace.routers)
                    if not any(all(came.get((number, *other), -1) > place for number in step.sent for other in trace.others(number))
                               for place, step in regular(steps, router)))


def recent(trace, before, steps):
    """What is delivered was not sent before the phase before; in the first it may be anything."""
    first = before[0].first if before else 0
    return first_of(f"{step} was sent before {first}" for step in steps if step.kind == "deliver" and step.datagram < first)


def in_order(trace, before, steps):
    """Nothing is delivered after what was sent later from there."""
    return is_overtaken(trace, sorted(counts_in(before) + counts_in(steps)), steps)


def close(trace, before, steps):
    """Two times of a router in a phase, or in it and the one before, are less than 120 seconds apart."""
    earlier, here = moments_of(before), moments_of(steps)
    return first_of(f"router {router} moves at {min(every)} and {max(every)}" for router, every in
                    ((router, moments + earlier.get(router, [])) for router, moments in here.items()) if max(every) >= min(every) + 120_000)


PHASES = {"IsPhase.takes": of_phases(takes), "IsHeardUpdate.due": of_phases(due), "IsHeardUpdate.heard": of_phases(heard),
          "IsPhase.recent": of_phases(recent), "IsPhase.in_order": of_phases(in_order), "IsPhase.close": of_phases(close)}
