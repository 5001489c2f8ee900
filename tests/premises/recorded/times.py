"""The premises of healing and of forgetting, field by field: `GoOn`, `KeepsTime` and `AreOnTime` of crates/ripngd_theorems/specs/OnTime.antt,
and `GoOnAnyhow` of specs/Ages.antt. They speak of a stretch of a history, by the true clock, in milliseconds. Each function returns why a
field does not hold of a stretch, or nothing."""

import bisect
import functools
import re

from recorded.history import neighbors
from recorded.links import not_a_strangers
from recorded.words import words

PLAIN = ("Listen", "Tick", "LinkUp", "Ask", "Refuse")
LOOKS = ("Tick", "Start")
LOST = re.compile(r"\blost .*\bsteps (\d+)")


class Stretch:
    """What was done from one moment until another, or until the end. Places are those of deeds in the history."""

    def __init__(self, history, start, end=None):
        self.history, self.net, self.start, self.end = history, history.net, start, end
        ats = [dated.at for dated in history.deeds]
        self.first = bisect.bisect_left(ats, start)
        past = len(ats) if end is None else bisect.bisect_left(ats, end)
        self.all = list(enumerate(history.deeds))[self.first:past]

    def own(self, router):
        return [(place, dated) for place, dated in self.all if dated.deed.router == router]

    def last(self, router):
        """The last moment that a router had seen before (`router.last`), if it is up."""
        seen = None
        for dated in self.history.deeds[:self.first]:
            if dated.deed.router == router:
                seen = dated.deed.moments[0] if dated.deed.act == "Start" else max([seen, *dated.deed.moments])
        return seen

    def sent_at(self, number):
        """When a datagram was handed over."""
        return self.history.deeds[self.history.handed[number].deed].at


def first_of(found):
    return next(iter(found), None)


# What GoOn and GoOnAnyhow both ask.

def known(stretch):
    """Each deed is of a router of the network."""
    return first_of(f"a deed of router {dated.deed.router}" for _, dated in stretch.all if dated.deed.router >= len(stretch.net))


def given(stretch):
    """Each datagram that a link gave is a copy of that of its number, which was handed over before; with no number it is an outside
    host's (`AreNumbered`)."""
    for place, dated in stretch.all:
        datagram, number = dated.deed.datagram, dated.number
        if datagram and number is None and not_a_strangers(stretch.net[dated.deed.router], datagram):
            return f"router {dated.deed.router} was given at {dated.at} what nobody had handed over: {datagram}"
        if number is not None and stretch.history.handed[number].deed >= place:
            return f"datagram {number} was given at {dated.at}, before it was handed over"
    return None


def in_time(stretch):
    """They happen from that moment on, one after another (`HappenFrom`)."""
    ats = [stretch.start, *(dated.at for _, dated in stretch.all)]
    return first_of(f"{later} follows {at}" for at, later in zip(ats, ats[1:]) if later < at)


def recent_within(delay):
    """Nothing is given so long after it was handed over; in the first of this time anything may be that ever was."""
    def holds(stretch):
        return first_of(f"datagram {dated.number} was handed over at {stretch.sent_at(dated.number)} and given at {dated.at}"
                        for _, dated in stretch.all if dated.number is not None and stretch.start + delay <= dated.at
                        and stretch.sent_at(dated.number) + delay <= dated.at)
    return holds


def is_lossless(stretch):
    """No daemon loses a step for memory: what it says at its end, or was asked, counts none."""
    return first_of(f"router {run.router} says `{line}`" for runs in stretch.history.runs for run in runs for line in run.said.splitlines()
                    if int(next(iter(LOST.findall(line)), 0)) > 0)


# GoOn: from one moment until another the daemons go on.

def ended(stretch):
    """All of it happens before the end."""
    return first_of(f"a deed at {dated.at}" for _, dated in stretch.all if dated.at >= stretch.end)


def plain(stretch):
    """None is started anew or shut down, no link goes down, and no configuration is changed (`IsPlain`)."""
    return first_of(f"router {dated.deed.router} does {dated.deed.act} at {dated.at}" for _, dated in stretch.all if dated.deed.act not in PLAIN)


def ticks(stretch):
    """Each daemon ticks in every half second: between two of its ticks, and between these and the ends, less than that passes."""
    for router in range(len(stretch.net)):
        own = [dated.at for _, dated in stretch.own(router) if dated.deed.act == "Tick"]
        ends = [stretch.start - 1, *own, stretch.end]
        gap = first_of((at, later) for at, later in zip(ends, ends[1:]) if later - at > 500)
        if gap:
            return f"router {router} does not tick from {gap[0]} to {gap[1]}"
    return None


def lags(stretch, router):
    """By how much a daemon's clock is behind the true one, at each of its moments, with the deed's."""
    return [(dated.at - now, dated.at) for _, dated in stretch.own(router) for now in dated.deed.moments]


def behind(found):
    """The least constant by which it may be behind at all of them, or else the least that it is (`KeepsTime.behind`)."""
    every = [lag for lag, _ in found]
    return min(max(0, max(every, default=0) - 499), min(every, default=0))


def keeps_moments(stretch):
    """A daemon's own clock is a constant behind the true one, within less than half a second."""
    for router in range(len(stretch.net)):
        found = lags(stretch, router)
        least = behind(found)
        wrong = first_of((lag, at) for lag, at in found if not 0 <= least <= lag < least + 500)
        if wrong:
            return f"the clock of router {router} is {wrong[0]} behind at {wrong[1]}, and was {found[0][0]} behind"
    return None


def keeps_before(stretch):
    """And it has not gone back: its last moment before was not past the beginning."""
    for router in range(len(stretch.net)):
        last, least = stretch.last(router), behind(lags(stretch, router))
        if last is not None and least + last > stretch.start:
            return f"router {router} had seen {last} before {stretch.start}, and is {least} behind"
    return None


def roomy(stretch):
    """Memory suffices for every new route: no entry is noted as skipped for it."""
    return first_of(f"router {run.router} says {line}" for runs in stretch.history.runs for run in runs for line in run.said.splitlines()
                    if line.endswith("noted 24 NoMemory"))


# AreOnTime: the links are on time.

@functools.lru_cache(maxsize=4)
def regular_ticks(history):
    """The places of all ticks at which a regular update is due (`IsRegular`): at a start, and 15 to 45 seconds after each, by the word that
    the tick draws (`next_regular`)."""
    due, last, source, found = {}, {}, {}, set()
    for place, dated in enumerate(history.deeds):
        deed = dated.deed
        router = deed.router
        for now in deed.moments:
            last[router] = now if deed.act == "Start" else max(last[router], now)
        if deed.act == "Start":
            due[router], source[router] = last[router], words(history.runs[router][deed.run].seed)
        elif deed.act == "Tick":
            word = next(source[router])
            if due[router] <= last[router]:
                found.add(place)
                due[router] = last[router] + 15_000 + word % 30_001
    return found


def updates(stretch):
    """No regular update is lost: each datagram of it comes to every other interface of its link, in less than 13 seconds."""
    came = {(dated.number, dated.deed.router, dated.deed.datagram.iface): (place, dated.at) for place, dated in reversed(stretch.all)
            if dated.number is not None}
    for place, dated in stretch.all:
        if place not in regular_ticks(stretch.history) or dated.at + 13_000 > stretch.end:
            continue
        first = stretch.history.handed_before(place)
        for number in range(first, first + len(dated.deed.handed)):
            sent = stretch.history.handed[number]
            for other in neighbors(stretch.net, sent.router, sent.iface):
                at, moment = came.get((number, *other), (0, 0))
                if other != (sent.router, sent.iface) and not (at > place and moment < dated.at + 13_000):
                    return f"datagram {number} of the regular update of router {sent.router} at {dated.at} does not come to {other} in time"
    return None


def in_order(stretch):
    """Nothing is given after what was handed over by a later deed from there."""
    newest = {}
    for _, dated in stretch.all:
        if dated.number is None:
            continue
        datagram = dated.deed.datagram
        way = dated.deed.router, datagram.iface, datagram.source
        deed = stretch.history.handed[dated.number].deed
        if deed < newest.get(way, 0):
            return f"datagram {dated.number} is given at {dated.at} after one that was handed over later"
        newest[way] = deed
    return None


# GoOnAnyhow: anything may happen.

def awake(stretch):
    """A daemon that does anything has ticked or started within the last second, or does so."""
    looked = {}
    for _, dated in stretch.all:
        router = dated.deed.router
        if dated.deed.act in LOOKS:
            looked[router] = dated.at
        if stretch.start + 1_000 <= dated.at and dated.at > looked.get(router, -1_001) + 1_000:
            return f"router {router} does {dated.deed.act} at {dated.at}, and last looked at {looked.get(router)}"
    return None


def clocks(stretch):
    """Until a daemon starts anew, its own clock goes on with the true one: it loses at most a second. It does so exactly if it never lags by
    more than that behind the least lag so far."""
    least = {}
    for _, dated in stretch.all:
        router = dated.deed.router
        if dated.deed.act == "Start":
            least.pop(router, None)
        for now in dated.deed.moments:
            lag = dated.at - now
            if lag > least.get(router, lag) + 1_000:
                return f"router {router} reads {now} at {dated.at}, and has lost {lag - least[router]}"
        for now in dated.deed.moments:
            least[router] = min(dated.at - now, least.get(router, dated.at - now))
    return None


def since(stretch):
    """And it loses at most a second since the last moment that it had seen before."""
    for router in range(len(stretch.net)):
        last = stretch.last(router)
        for _, dated in stretch.own(router) if last is not None else ():
            if dated.deed.act == "Start":
                break
            if any(last + dated.at - stretch.start > now + 1_000 for now in dated.deed.moments):
                return f"router {router} reads {dated.deed.moments} at {dated.at}, and had seen {last} before {stretch.start}"
    return None


GOES_ON = {
    "GoOn.known": known, "GoOn.given": given, "GoOn.in_time": in_time, "GoOn.ended": ended, "GoOn.plain": plain, "GoOn.ticks": ticks,
    "KeepsTime.moments": keeps_moments, "KeepsTime.before": keeps_before, "GoOn.lossless": is_lossless, "GoOn.roomy": roomy,
    "AreOnTime.updates": updates, "AreOnTime.recent": recent_within(13_000), "AreOnTime.in_order": in_order,
}
ANYHOW = {
    "GoOnAnyhow.known": known, "GoOnAnyhow.given": given, "GoOnAnyhow.in_time": in_time, "GoOnAnyhow.recent": recent_within(15_000),
    "GoOnAnyhow.awake": awake, "GoOnAnyhow.clocks": clocks, "GoOnAnyhow.since": since,
}
