"""Faults that are planted in traces of the laboratory, each with the fields that it breaks. A fault takes a trace and returns one in which one
thing is otherwise."""

import dataclasses

from recorded.phased import PHASES, phases_of
from recorded.recent import RECENT, TIMELY
from recorded.rounds import ROUNDS, rounds_of

FAULTS = {"timely": {}, "rounds": {}, "phases": {}}
FIELDS = {"timely": {**RECENT, **TIMELY}, "rounds": ROUNDS, "phases": PHASES}
LATE = 40_000


def breaks(kind, *fields):
    """Puts a fault among those of a kind of trace, with the fields that it breaks."""
    def listed(function):
        FAULTS[kind][function.__name__] = function, set(fields)
        return function
    return listed


def edited(trace, changes):
    """The trace, where the steps of these places are others, or none."""
    return trace.with_steps(step for place, old in enumerate(trace.steps) for step in changes.get(place, [old]))


def found(trace, wanted):
    """The place of the first step of that kind past the middle, and the step."""
    return next((place, step) for place, step in enumerate(trace.steps) if step.at >= trace.now + LATE and wanted(step))


def is_update(trace):
    """Whether a delivery is of a regular update."""
    regular = {number for step in trace.steps if step.is_due_tick for number in step.sent}
    return lambda step: step.kind == "deliver" and step.datagram in regular


def is_delivery(step):
    return step.kind == "deliver"


# Of timely histories.

@breaks("timely", "IsRecent.recent", "IsTimely.recent", "IsTimely.in_order")
def a_datagram_of_20_seconds_ago(trace):
    place, step = found(trace, is_delivery)
    senders = [sender for sender in trace.sent if trace.ports[sender] == trace.ports[step.router, step.iface] and sender[0] != step.router]
    way = senders[0]
    old = max(number for number, sender in enumerate(trace.sent) if sender == way and number < trace.sent_by(trace.steps, step.at - 20_000))
    return edited(trace, {place: [step, dataclasses.replace(step, datagram=old)]})


@breaks("timely", "IsTimely.updates")
def a_datagram_of_an_update_that_is_lost(trace):
    """So are all on one way."""
    _, first = found(trace, is_update(trace))
    way = trace.sent[first.datagram], first.router, first.iface
    lost = (place for place, step in enumerate(trace.steps)
            if is_delivery(step) and (trace.sent[step.datagram], step.router, step.iface) == way)
    return edited(trace, dict.fromkeys(lost, ()))


@breaks("timely", "IsRecent.steps", "IsTimely.takes")
def a_datagram_of_another_link(trace):
    place, step = found(trace, is_delivery)
    number = next(number for number, sender in enumerate(trace.sent) if trace.ports[sender] != trace.ports[step.router, step.iface]
                  and number >= trace.sent_by(trace.steps, step.at - 14_000))
    return edited(trace, {place: [step, dataclasses.replace(step, datagram=number)]})


@breaks("timely", "IsTimely.takes")
def a_router_that_starts_anew(trace):
    place, step = found(trace, lambda step: step.kind == "tick" and not step.sent)
    return edited(trace, {place: [step, dataclasses.replace(step, kind="restart")]})


@breaks("timely", "IsRecent.awake")
def a_router_that_hears_and_has_not_looked(trace):
    """Its ticks of three seconds before a delivery are left out, but those of updates."""
    ticks = [(place, step) for place, step in enumerate(trace.steps) if step.kind == "tick"]

    def before(step):
        return [(place, tick) for place, tick in ticks if tick.router == step.router and step.at - 3_000 < tick.at <= step.at]

    _, heard = found(trace, lambda step: is_delivery(step) and not any(tick.sent for _, tick in before(step)))
    return edited(trace, dict.fromkeys((place for place, _ in before(heard)), ()))


def clocked(trace, reading):
    """Router 0 reads another time from the middle on."""
    return edited(trace, {place: [dataclasses.replace(step, now=reading(step))] for place, step in enumerate(trace.steps)
                          if step.router == 0 and step.at >= trace.now + LATE})


@breaks("timely", "IsRecent.clocks", "IsRecent.since", "IsTimely.updates")
def a_clock_that_stands(trace):
    return clocked(trace, lambda step: trace.now + LATE)


@breaks("timely", "IsTimely.clocks")
def a_clock_that_is_fast(trace):
    """By a second in each hundred."""
    return clocked(trace, lambda step: step.now + (step.at - trace.now - LATE) // 100)


@breaks("timely", "IsRecent.in_time", "IsTimely.in_time")
def steps_that_go_back_in_time(trace):
    place, step = found(trace, lambda step: step.kind == "tick" and not step.sent)
    back = trace.steps[place - 1].at - 1
    return edited(trace, {place: [dataclasses.replace(step, at=back, now=back)]})


# Of rounds.

def in_round(trace, number, ticks=lambda steps: steps, deliveries=lambda steps: steps):
    """The ticks or deliveries of a round are others."""
    steps = []
    for place, (_, ticked, delivered) in enumerate(rounds_of(trace)):
        steps += [*ticks(ticked), *deliveries(delivered)] if place == number else [*ticked, *delivered]
    return trace.with_steps(steps)


@breaks("rounds", "AreMade", "IsSynchronousRound.each_delivered")
def a_delivery_that_is_left_out(trace):
    return in_round(trace, 3, deliveries=lambda steps: steps[:-1])


@breaks("rounds", "AreMade")
def deliveries_in_another_order(trace):
    return in_round(trace, 3, deliveries=lambda steps: steps[::-1])


@breaks("rounds", "AreMade", "IsSynchronousRound.only_these")
def a_delivery_of_the_round_before(trace):
    return in_round(trace, 3, deliveries=lambda steps: [*steps, dataclasses.replace(steps[0], datagram=rounds_of(trace)[2][0])])


@breaks("rounds", "AreMade", "IsSynchronousRound.elsewhere")
def a_delivery_to_its_sender(trace):
    def back(step):
        router, iface = trace.sent[step.datagram]
        return dataclasses.replace(step, router=router, iface=iface)
    return in_round(trace, 3, deliveries=lambda steps: [*steps, back(steps[0])])


@breaks("rounds", "AreMade", "IsSynchronousRound.each_ticks", "IsSynchronousRound.only_these")
def a_router_that_does_not_tick(trace):
    return in_round(trace, 3, ticks=lambda steps: steps[1:])


@breaks("rounds", "AreMade", "IsSynchronousRound.once")
def a_router_that_ticks_twice(trace):
    return in_round(trace, 3, ticks=lambda steps: [*steps, dataclasses.replace(steps[-1], sent=(), first=steps[-1].count)])


@breaks("rounds", "IsSynchronousRound.all_tick")
def an_update_that_is_not_due(trace):
    return in_round(trace, 3, ticks=lambda steps: [dataclasses.replace(steps[0], due=steps[0].now + 1), *steps[1:]])


@breaks("rounds", "IsSynchronousRound.all_heard")
def an_entry_that_is_skipped(trace):
    return in_round(trace, 3, deliveries=lambda steps: [dataclasses.replace(steps[0], notes=("NoMemory",)), *steps[1:]])


def later(trace, ms):
    """The rounds from the fifth on are later."""
    line = rounds_of(trace)[4][1][0]
    return trace.with_steps(step if step.first < line.first else dataclasses.replace(step, now=step.now + ms) for step in trace.steps)


@breaks("rounds", "AreWithinGarbageTime")
def a_round_120_seconds_later(trace):
    gap = rounds_of(trace)[4][1][0].now - rounds_of(trace)[3][1][0].now
    return later(trace, 120_000 - gap)


@breaks("rounds", "AreWithinGarbageTime", "AreWithinTimeout")
def a_round_180_seconds_later(trace):
    return later(trace, 180_000)


@breaks("rounds", "IsNeverQuiet")
def a_quiet_router(trace):
    other = trace.with_steps(trace.steps)
    other.quiet = [True, *trace.quiet[1:]]
    return other


# Of phases.

@breaks("phases", "IsPhase.takes")
def a_router_that_shuts_down(trace):
    place, step = found(trace, lambda step: step.kind == "tick" and not step.sent)
    return edited(trace, {place: [step, dataclasses.replace(step, kind="shutdown")]})


def third(trace, change):
    """The steps of the third phase are others."""
    return trace.with_steps(step for number, steps in enumerate(phases_of(trace)) for step in (change(steps) if number == 2 else steps))


@breaks("phases", "IsHeardUpdate.heard")
def updates_of_a_phase_that_do_not_come(trace):
    """Those of router 0."""
    return third(trace, lambda steps: [step for step in steps if not is_delivery(step) or trace.sent[step.datagram][0] != 0])


@breaks("phases", "IsHeardUpdate.due", "IsHeardUpdate.heard")
def a_router_without_an_update(trace):
    return third(trace, lambda steps: [dataclasses.replace(step, due=step.now + 1) if step.router == 0 else step for step in steps])


@breaks("phases", "IsPhase.recent", "IsPhase.in_order")
def a_datagram_of_two_phases_ago(trace):
    """It comes once more, at the end of a phase."""
    steps = phases_of(trace)
    last = next(step for step in reversed(steps[2]) if is_delivery(step))
    old = next(step for step in steps[0] if is_delivery(step) and trace.sent[step.datagram] == trace.sent[last.datagram])
    return third(trace, lambda steps: [*steps, dataclasses.replace(last, datagram=min(old.datagram, phases_of(trace)[1][0].first - 1))])


@breaks("phases", "IsPhase.close")
def a_time_120_seconds_later(trace):
    def change(steps):
        router = steps[-1].router
        first = next(step for step in steps if step.router == router)
        return [*steps[:-1], dataclasses.replace(steps[-1], now=first.now + 120_000)]
    return third(trace, change)
