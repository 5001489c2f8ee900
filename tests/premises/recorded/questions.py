"""What is proved of the questions that a router asks its neighbors by itself, field by field: `IsLife.asks` of
crates/ripngd_runs/specs/Lives.antt, `HasDone.asks` of crates/ripngd_daemon/specs/Run.antt, and `AsksAll` of specs/Questions.antt there.
Each function returns why a field does not hold of a history whose deeds know their sizes, or nothing."""

import dataclasses
from itertools import groupby

PAUSE = 1_000
"""So long a router does not ask again, in milliseconds."""


@dataclasses.dataclass
class Waiting:
    """Whether a route was lost since a router asked last, and from when on it may ask again (`Waiting`)."""
    lost: bool = False
    free_at: int = 0


def has_lost(before, after):
    """It forwards to fewer prefixes, or more of its routes are unreachable (`HasLost`)."""
    return after[0] < before[0] or before[1] < after[1]


def moments_of(run):
    """Each deed behind the start, with the last moment that the router had seen before it, and after it."""
    last = run.deeds[0].moments[0]
    for deed in run.deeds[1:]:
        before, last = last, max([last, *deed.moments])
        yield deed, before, last


def wrong_question(run, deed, before, waiting):
    """Why a router may not ask by this deed, if it may not."""
    if waiting.lost and waiting.free_at <= before:
        return None
    why = f"may ask again at {waiting.free_at}" if waiting.lost else "has lost nothing since it asked last"
    return f"router {run.router} asks on interface {deed.on} at {before} by its clock, and {why}"


def asks_in_life(run, iface):
    """On one link, only after a deed by which a route was lost, and once in a second (`AsksRightly` of `ripngd_runs`)."""
    waiting, sizes = Waiting(), run.deeds[0].sizes
    for deed, before, last in moments_of(run):
        if deed.act == "Ask" and deed.on == iface:
            wrong = wrong_question(run, deed, before, waiting)
            if wrong:
                return wrong
            waiting = Waiting(False, last + PAUSE)
        waiting.lost |= has_lost(sizes, deed.sizes)
        sizes = deed.sizes
    return None


def asks_when_done(run):
    """After a turn by which a route was lost, or a client's `link down`, and once in a second (`AsksRightly` of `ripngd_daemon`)."""
    waiting, sizes, is_asking = Waiting(), run.deeds[0].sizes, False
    for deed, before, last in moments_of(run):
        if deed.act == "Ask":
            wrong = None if is_asking else wrong_question(run, deed, before, waiting)
            if wrong:
                return wrong
            waiting = Waiting(False, last + PAUSE)
        is_asking = deed.act == "Ask" and deed.on + 1 < len(run.config.interfaces)
        waiting.lost |= deed.act in ("Tick", "LinkDown") and has_lost(sizes, deed.sizes)
        # What comes with a turn is judged at its end.
        sizes = sizes if deed.act == "Listen" else deed.sizes
    return None


def of_runs(field):
    """Of each run, so far as this field goes."""
    def holds(history):
        return next((why for runs in history.runs for why in map(field, runs) if why), None)
    return holds


def life(run):
    return next((why for why in (asks_in_life(run, iface) for iface in range(len(run.config.interfaces))) if why), None)


def told(run):
    """A quiet router asks nobody."""
    asks = next((deed for deed in run.deeds if deed.act == "Ask"), None)
    return f"router {run.router} asks, and is quiet" if run.config.quiet and asks else None


def asks_on_all(run):
    """It asks on its first links, one after another (`AsksOnFirst`), and on all, unless it ends meanwhile."""
    groups = [(act, list(deeds)) for act, deeds in groupby(run.deeds, lambda deed: deed.act)]
    for place, (act, deeds) in enumerate(groups):
        count = len(deeds) if place + 1 == len(groups) else len(run.config.interfaces)
        if act == "Ask" and [deed.on for deed in deeds] != list(range(count)):
            return f"router {run.router} asks at {deeds[0].moments} on interfaces {[deed.on for deed in deeds]} alone"
    return None


FIELDS = {
    "IsLife.asks": of_runs(life),
    "HasDone.asks": of_runs(asks_when_done),
    "AsksAll.told": of_runs(told),
    "AsksAll.asks": of_runs(asks_on_all),
}
