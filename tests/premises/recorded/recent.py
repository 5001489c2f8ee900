"""The premises of the laws of time, field by field: `IsRecent` of crates/ripng_phases/specs/Ages.antt and `IsTimely` of specs/Minutes.antt.
They speak of a history from one moment on. Each function returns why a field does not hold of a trace, or nothing."""

from recorded.traces import UNORDINARY, counts_in, first_of, happen, is_overtaken

LOOKING = ("tick", "restart")


def takes(trace):
    """And each is ordinary: no start, no shutdown, no link that goes down, no change; and memory suffices (`Takes`)."""
    return happen(trace) or first_of(f"{step} is not ordinary" for step in trace.steps if step.kind in UNORDINARY or "NoMemory" in step.notes)


def in_time(trace):
    """They happen from a moment on, one after another (`AreFrom`)."""
    return first_of(f"{later} follows one at {step.at}" for step, later in zip(trace.steps, trace.steps[1:]) if later.at < step.at)


def recent(trace):
    """What is delivered was sent less than 15 seconds before; in the first of them it may be anything that was ever sent."""
    return first_of(f"{step} was sent earlier" for step in trace.steps if step.kind == "deliver" and trace.now + 15_000 <= step.at
                    and trace.sent_by(trace.steps, step.at - 15_000) > step.datagram)


def awake(trace):
    """A router that does anything has ticked, or started anew, at most a second before."""
    looked = {}
    for step in trace.steps:
        if step.kind in LOOKING:
            looked[step.router] = step.at
        if trace.now + 1_000 <= step.at and looked.get(step.router, -1_001) + 1_000 < step.at:
            return f"{step}, and the router looked last at {looked.get(step.router)}"
    return None


def clocks(trace):
    """Until a router starts anew, its own clock loses at most a second against the true one."""
    least = {}
    for step in trace.steps:
        lag = step.at - step.now
        before = least.get(step.router, lag)
        least[step.router] = lag if step.kind == "restart" else min(lag, before)
        if lag > least[step.router] + 1_000:
            return f"{step}, when its clock has lost {lag - before}"
    return None


def since(trace):
    """And it loses at most a second since the last moment that it had seen before, which is that of the start here."""
    anew = set()
    for step in trace.steps:
        anew |= {step.router} if step.kind == "restart" else set()
        if step.router not in anew and step.at - step.now > 1_000:
            return f"{step}, when its clock has lost {step.at - step.now}"
    return None


def is_steady(trace):
    """A router's own clock goes no faster than the true one, and by no more back."""
    for router in range(trace.routers):
        own = [step for step in trace.steps if step.router == router]
        for step, later in zip(own, own[1:]):
            if abs(later.now - step.now) > later.at - step.at:
                return f"{later} follows {step}"
    return None


def end_of(trace):
    """The end: a moment behind the last step."""
    return trace.steps[-1].at + 1


def ended(trace):
    """All of it happens before the end."""
    return first_of(f"{step}" for step in trace.steps if step.at >= end_of(trace))


def prompt_updates(trace, router):
    """When a router made regular updates of which each datagram comes to every other interface of its link in less than 15 seconds."""
    came = {}
    for place, step in reversed(list(enumerate(trace.steps))):
        if step.kind == "deliver":
            came[step.datagram, step.router, step.iface] = place, step.at
    return [step.at for place, step in enumerate(trace.steps) if step.router == router and step.is_due_tick
            and all(came.get((number, *other), (-1, 0))[0] > place and came[number, *other][1] < step.at + 15_000
                    for number in step.sent for other in trace.others(number))]


def updates(trace):
    """Such updates of a router are at most 45 seconds apart."""
    end = end_of(trace)
    for router in range(trace.routers):
        moments = [trace.now - 1, *prompt_updates(trace, router), None]
        for moment, later in zip(moments, moments[1:]):
            if moment + 1 + 60_000 <= end and (later is None or later > moment + 45_000):
                return f"router {router} makes no update that comes in time from {moment} to {later}"
    return None


def in_order(trace):
    """Nothing is delivered after what was sent later from there."""
    return is_overtaken(trace, counts_in(trace.steps), trace.steps)


RECENT = {
    "IsRecent.steps": happen,
    "IsRecent.in_time": in_time,
    "IsRecent.recent": recent,
    "IsRecent.awake": awake,
    "IsRecent.clocks": clocks,
    "IsRecent.since": since,
}
TIMELY = {
    "IsTimely.takes": takes,
    "IsTimely.in_time": in_time,
    "IsTimely.ended": ended,
    "IsTimely.updates": updates,
    "IsTimely.recent": recent,
    "IsTimely.in_order": in_order,
    "IsTimely.clocks": is_steady,
}
