"""Updates: split horizon (section 2.6), triggered ones and their hold (2.5.1), regular ones and the timers of routes (2.3)."""

import time

from frames import entry
from rules import A1, A2, B1, P1, P2, P3, rule
from stage import ATTACHED, OWN
from steps import does, goes, mark, table, tell, update, wait
from verdicts import GONE, POISONED, Differs, Seen

# Seconds: least and greatest hold (section 2.5.1), what a busy machine may add; least and greatest time between regular updates (2.3).
HOLD, SLACK, REGULAR = (1, 5), 1, (15, 45)
FRESH = [f"2001:db8:{number:x}::/48" for number in range(0x200, 0x20C)]


def told(stage, link, prefix, moment, seconds):
    """The first update on a link since then that has a prefix."""

    def found():
        return [one for one in stage.updates(link, moment) if any(given.prefix == prefix for given in one.entries)]

    came = stage.tap.wait(seconds, found)
    return came[0] if came else None


def is_whole(frame):
    """Whether an update has what did not change: it is a regular one, or the whole table."""
    return any(one.prefix == OWN for one in frame.entries)


def say(stage, prefix, metric=3):
    stage.tell(A1.link, A1.address, [entry(prefix, metric)])


def triggered(stage):
    """Three changes, one after another: each is told within 8 s. Of regular updates no more than two fall into that time."""
    took = []
    for prefix in FRESH[:3]:
        begun = time.time()
        say(stage, prefix)
        frame = told(stage, "b", prefix, begun, HOLD[1] + 3)
        if not frame:
            raise Differs(f"nothing told it within {HOLD[1] + 3} s")
        took.append(frame.time - begun)
    return Seen("after " + ", ".join(f"{one:.1f}" for one in took) + " s")


def partial(stage):
    """Of three triggered updates one at least leaves out what did not change; the RFC discourages the other, and allows it."""
    for prefix in FRESH[:3]:
        begun = time.time()
        say(stage, prefix)
        frame = told(stage, "b", prefix, begun, HOLD[1] + 3)
        if frame and not is_whole(frame):
            return Seen(f"an update of {len(frame.entries)} entries")
        time.sleep(2)
    if not frame:
        raise Differs("no update came")
    return Seen("each update after a change has the whole table", is_open=True)


def holds(stage):
    """Pairs of changes, the second when the first was told: the seconds between both triggered updates."""
    gaps, fresh = [], iter(FRESH)
    for _ in range(5):
        time.sleep(HOLD[1] + SLACK)
        begun = time.time()
        say(stage, first := next(fresh))
        one = told(stage, "b", first, begun, 8)
        moment = time.time()
        say(stage, second := next(fresh))
        other = told(stage, "b", second, moment, 8)
        if one and other and not is_whole(one) and not is_whole(other):
            gaps.append(other.time - one.time)
        if len(gaps) == 2:
            break
    text = ", ".join(f"{gap:.1f}" for gap in gaps) + " s between two"
    if not gaps:
        raise Differs("no two triggered updates came one after another")
    if min(gaps) < HOLD[0] - 0.1 or min(gaps) > HOLD[1] + SLACK:
        raise Differs(text)
    return Seen(text)


def gathered(stage):
    """After a triggered update two changes come in its hold; a single one tells both."""
    fresh = iter(FRESH)
    for _ in range(4):
        time.sleep(HOLD[1] + SLACK)
        begun = time.time()
        say(stage, first := next(fresh))
        told(stage, "b", first, begun, 8)
        moment = time.time()
        say(stage, second := next(fresh))
        time.sleep(0.1)
        say(stage, third := next(fresh))
        frame = told(stage, "b", second, moment, 8)
        if frame and any(one.prefix == third for one in frame.entries):
            return Seen("one update tells both")
    raise Differs("each change has its own update")


def nothing_new(stage):
    """The same again, three times: not after each of them comes an update of the route within 6 s, which no three regular ones can be."""
    seen = []
    for _ in range(3):
        begun = time.time()
        say(stage, P1)
        frame = told(stage, "b", P1, begun, 6)
        if frame and not is_whole(frame):
            raise Differs(f"an update of {len(frame.entries)} entries after {frame.time - begun:.1f} s")
        seen.append(frame is not None)
    if all(seen):
        raise Differs("an update after each of three Responses that changed nothing")
    return Seen("no triggered update")


def regular_times(stage, number):
    """The times of so many regular updates on link b: those that have the router's own prefix."""
    ends, times = time.time() + number * (REGULAR[1] + 5), []
    while time.time() < ends and len(times) < number:
        whole = [one.time for one in stage.updates("b", stage.begun) if is_whole(one)]
        times = [one for at, one in enumerate(whole) if at == 0 or one - whole[at - 1] > 0.5]
        time.sleep(0.5)
    return times


def gaps_of(stage, number):
    """The seconds from each of so many regular updates to the next, without the first, which may be of the start; and they in words."""
    times = regular_times(stage, number)
    if len(times) < number:
        raise Differs(f"{len(times)} regular updates in {number * (REGULAR[1] + 5)} s")
    gaps = [late - early for early, late in zip(times[1:], times[2:])]
    return gaps, "after " + ", ".join(f"{gap:.1f}" for gap in gaps) + " s"


def in_time(stage):
    gaps, text = gaps_of(stage, 4)
    if any(not REGULAR[0] - SLACK <= gap <= REGULAR[1] + SLACK for gap in gaps):
        raise Differs(text)
    return Seen(text)


def not_in_step(stage):
    """One of the two precautions: a random time is added each time, or a clock of 30 s that nothing slows."""
    gaps, text = gaps_of(stage, 7)
    if max(gaps) - min(gaps) > 1:
        return Seen(f"{text}: at random")
    if all(abs(gap - 30) < 0.5 for gap in gaps):
        return Seen(f"{text}: by a steady clock")
    raise Differs(f"{text}: neither at random nor by a clock of 30 s")


def again(seconds, each=25, *entries):
    """The neighbor tells the same each so many seconds."""
    steps = []
    for _ in range(seconds // each):
        steps += [wait(each), tell(A1, *entries)]
    return steps


# A regular update, on both links, of what was learned on link a.
LEARNED = [mark(), tell(A1, entry(P1, 3), entry(P2, 9)), tell(A2, entry(P3, 5)), table("b", {P1: 4, P2: 10, P3: 6}), mark()]

RULES = [
    rule(
        "regular-whole", "2.3", "A regular update has the whole table, on each link.",
        *LEARNED, update("b", {OWN: 1, ATTACHED["a"]: 1, P1: 4, P2: 10, P3: 6}, within=50), update("a", {OWN: 1, ATTACHED["b"]: 1}, within=50),
    ),
    rule(
        "split-horizon", "2.6", "On the link on which a route was learned an update has it at 16, or not at all.",
        *LEARNED, update("a", {OWN: 1}, within=50), wait(1), update("a", {P1: POISONED, P2: POISONED}),
    ),
    rule(
        "split-horizon-lan", "2.6", "So it is of each neighbor on that link.",
        *LEARNED, update("a", {OWN: 1}, within=50), wait(1), update("a", {P1: POISONED, P3: POISONED}),
    ),
    rule(
        "split-horizon-moved", "2.6", "Where a route goes over to another link, it is told on the one that it has left.",
        tell(A1, entry(P1, 5)), table("b", {P1: 6}), tell(B1, entry(P1, 3)), table("a", {P1: 4}), table("b", {P1: POISONED}), is_quick=True,
    ),
    rule(
        "split-horizon-triggered", "2.6", "Triggered updates have split horizon, too.",
        mark(), tell(A1, entry(P1, 3)), update("b", {P1: 4}), wait(1), update("a", {P1: (16, None)}), is_quick=True,
    ),
    rule(
        "lost-told", "2.5.2", "A route at 16 stands in regular updates until it is deleted.",
        tell(A1, entry(P1, 3)), table("b", {P1: 4}), tell(A1, entry(P1, 16)), table("b", {P1: 16}), wait(7), mark(),
        update("b", {OWN: 1, P1: 16}, within=50),
    ),
    rule("triggered", "2.5.1", "A new route is told at once, or after a hold of at most 5 s.", does("three new routes, each told soon", triggered),
         is_quick=True),
    rule(
        "triggered-change", "2.5.1", "A changed metric is told so, too.",
        tell(A1, entry(P1, 3)), table("b", {P1: 4}), mark(), tell(A1, entry(P1, 7)), update("b", {P1: 8}),
        mark(), tell(A1, entry(P1, 5)), update("b", {P1: 6}), mark(), tell(A1, entry(P1, 4)), update("b", {P1: 5}),
    ),
    rule(
        "triggered-loss", "2.5.1", "A lost route is told so, at 16.",
        tell(A1, entry(P1, 3), entry(P2, 3), entry(P3, 3)), table("b", {P1: 4, P2: 4, P3: 4}), mark(), tell(A1, entry(P1, 16)), update("b", {P1: 16}),
        mark(), tell(A1, entry(P2, 16)), update("b", {P2: 16}), mark(), tell(A1, entry(P3, 16)), update("b", {P3: 16}), is_quick=True,
    ),
    rule(
        "triggered-both-links", "2.5.1", "A triggered update goes to every link on which it says something new.",
        mark(), tell(A1, entry(P1, 3)), tell(B1, entry(P2, 3)), update("b", {P1: 4}), update("a", {P2: 4}),
    ),
    rule("triggered-partial", "2.5.1", "Whole tables in triggered updates are strongly discouraged.",
         does("of three triggered updates one is not whole", partial)),
    rule("triggered-hold", "2.5.1", "From a triggered update to the next are 1 to 5 s.", does("pairs of changes, and the time between", holds)),
    rule("triggered-gathered", "2.5.1", "Changes during the hold are told by one update.", does("two changes during a hold", gathered)),
    rule(
        "not-triggered", "2.4.2", "What changes nothing triggers nothing.",
        tell(A1, entry(P1, 3)), table("b", {P1: 4}), wait(6), does("the same three times", nothing_new),
    ),
    rule("regular-times", "2.3", "Regular updates are 15 to 45 s apart.", does("four regular updates, and the time between", in_time)),
    rule("regular-not-in-step", "2.3", "So that routers do not fall into step, the time to the next varies at random, or a steady clock has 30 s.",
         does("seven regular updates, and the time between", not_in_step), is_slow=True),
    rule(
        "timeout", "2.3", "A route of which nothing was heard for 180 s is at 16, and not before.",
        tell(A1, entry(P1, 3)), table("b", {P1: 4}), wait(165), table("b", {P1: 4}), table("b", {P1: GONE}, within=45), is_slow=True,
    ),
    rule(
        "timeout-told", "2.3", "A route that has expired is told at 16.",
        tell(A1, entry(P1, 3)), table("b", {P1: 4}), wait(170), mark(), update("b", {P1: 16}, within=45), is_slow=True,
    ),
    rule(
        "refreshed", "2.3", "A route of which is heard again stays.",
        tell(A1, entry(P1, 3)), table("b", {P1: 4}), *again(200, 25, entry(P1, 3)), table("b", {P1: 4}), is_slow=True,
    ),
    rule(
        "garbage-before", "2.3", "A lost route is told at 16 for 120 s.",
        tell(A1, entry(P1, 3)), table("b", {P1: 4}), tell(A1, entry(P1, 16)), table("b", {P1: 16}), wait(100), table("b", {P1: 16}, within=3),
        is_slow=True,
    ),
    rule(
        "garbage-after", "2.3", "After 120 s a lost route is deleted.",
        tell(A1, entry(P1, 3)), table("b", {P1: 4}), tell(A1, entry(P1, 16)), table("b", {P1: 16}), wait(115), table("b", {P1: None}, within=40),
        is_slow=True,
    ),
    rule(
        "garbage-once", "2.4.2", "A second 16 does not start the deletion again.",
        tell(A1, entry(P1, 3)), table("b", {P1: 4}), tell(A1, entry(P1, 16)), table("b", {P1: 16}), wait(60), tell(A1, entry(P1, 16)),
        wait(55), table("b", {P1: None}, within=40), is_slow=True,
    ),
    rule(
        "garbage-stopped", "2.3", "A route that comes back is not deleted.",
        tell(A1, entry(P1, 3)), table("b", {P1: 4}), tell(A1, entry(P1, 16)), table("b", {P1: 16}), wait(60), tell(A1, entry(P1, 3)),
        wait(80), table("b", {P1: 4}), is_slow=True,
    ),
    rule(
        "half-of-timeout", "2.4.2", "Past half of the timeout an equal metric of another neighbor may be adopted; that is recommended.",
        tell(A1, entry(P1, 3)), table("b", {P1: 4}), goes(P1, A1), wait(100), tell(A2, entry(P1, 3)), wait(2), goes(P1, A2, otherwise=A1),
        is_slow=True,
    ),
]
