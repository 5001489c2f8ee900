#!/usr/bin/env python3
"""Premises of the theorems, field by field, of what really happened: to three routers in a ring over loopback, and to networks of the
laboratory.

    tests/premises/premises.py PROGRAM [NAME..]      all checks, or those that have NAME in theirs

A check is one field of one definition of crates/*/specs, by its name there. A line for each that fails, and last how many passed. Where a
field fails of an honest run, no theorem speaks of that run. When a router asks its neighbors by itself is no premise, but proved of it; it
is checked, too.

The routers are the program, each a process of its own. Its calls of the system are noted by a library (tests/premises/recorded/calls.c). The ring
runs by the clock of the system, and by a clock of the test's own (tests/premises/recorded/conductor.py), on which half an hour takes seconds. Then
faults are planted in what was done, and each breaks just the fields that it should."""

import functools
import pathlib
import sys
import threading

sys.dont_write_bytecode = True
sys.path.append(str(pathlib.Path(__file__).resolve().parents[1] / "support"))
from networks import lab
from recorded import faults, links, questions, scenes, scripted, times, trace_faults
from recorded.recent import RECENT
from recorded.replayed import replayed, sized
from recorded.times import Stretch
from recorded.traces import Trace
from suite import Failed, named, play

PLANTED = 400_000
"""Faults are planted in what was done before this moment."""


def once(function):
    """A function that is called once, whoever calls it first; a failure is all callers'."""
    lock, found = threading.Lock(), []

    @functools.wraps(function)
    def called():
        with lock:
            if not found:
                try:
                    found.append((function(), None))
                except Exception as failure:
                    found.append((None, failure))
        if found[0][1]:
            raise found[0][1]
        return found[0][0]
    return called


# Checks, each a name and a function that returns why it fails, or nothing.

def of(fields, subject):
    """The checks of these fields, of what a function gives."""
    return [(name, lambda field=field: field(subject())) for name, field in fields.items()]


def of_stretch(fields, history, begin=lambda history: 0, end=lambda history: None):
    """The same of a stretch of a history."""
    return of(fields, once(lambda: Stretch(history(), begin(history()), end(history()))))


def from_to(begin, end=None):
    return lambda history: begin, lambda history: end


def lives(program, history):
    """Each deed is what a router does, by the laboratory's: so they are lives (`LiveOn`), and no tick is lost (`LivesTicking`)."""
    why = once(lambda: replayed(program, history()))
    return [("GoOn.lives", why), ("GoOnAnyhow.lives", lambda: why() or times.is_lossless(Stretch(history(), 0)))]


def safety_of(program, history):
    """What is asked of any history."""
    return [*of(links.FIELDS, history), *of(questions.FIELDS, history), *lives(program, history)]


def checks_of_half_an_hour(program, history):
    return [*safety_of(program, history), *of_stretch(times.GOES_ON, history, *from_to(*scenes.CALM)),
            *of_stretch(times.GOES_ON, history, *from_to(scenes.QUIET, scenes.END)), *of_stretch(times.ANYHOW, history),
            *of_stretch(times.ANYHOW, history, *from_to(scenes.QUIET))]


def last_start(history):
    """The moment behind it: from then on nothing but ticks and updates happens."""
    return 1 + max(dated.at for dated in history.deeds if dated.deed.act == "Start")


def checks_of_some_seconds(program, history):
    """All but how often a router ticks, which is the machine's."""
    calm = {name: field for name, field in times.GOES_ON.items() if name != "GoOn.ticks"}
    return [*safety_of(program, history), *of_stretch(times.ANYHOW, history, lambda history: history.deeds[0].at),
            *of_stretch(calm, history, last_start, lambda history: history.deeds[-1].at)]


def is_cut_off(program, history):
    """As it was noted, no router does what the killed one did last: it handed over less."""
    _, place = scenes.last_deed(history)
    return None if replayed(program, history, place + 1) else "the router was killed between two steps"


def checks_of_killed(program, history):
    completed = once(lambda: sized(program, scenes.whole(program, history())))
    return [("as it was noted", lambda: is_cut_off(program, history())), *safety_of(program, completed), *of_stretch(times.ANYHOW, completed)]


# Planted faults.

def broken(checks):
    """The fields that do not hold, each with the reason."""
    return {name: why for name, why in ((name, check()) for name, check in checks) if why}


def is_named(found, fields):
    """Just these fields are broken."""
    if set(found) != fields:
        return f"{sorted(found)} and not {sorted(fields)} are broken: {found}"
    return None


def with_fault(history):
    return [*of(links.FIELDS, history), *of(questions.FIELDS, history), *of_stretch(times.GOES_ON, history, *from_to(*scenes.CALM)),
            *of_stretch(times.GOES_ON, history, *from_to(scenes.QUIET, PLANTED - 5_000)), *of_stretch(times.ANYHOW, history),
            *of_stretch(times.ANYHOW, history, *from_to(scenes.QUIET))]


def planted_in_histories(history):
    beginning = once(lambda: faults.cut(history(), PLANTED))
    return [(name.replace("_", " "), lambda fault=fault, fields=fields: is_named(broken(with_fault(once(lambda: fault(beginning())))), fields))
            for name, (fault, fields) in faults.FAULTS.items()]


def planted_in_traces(program):
    for kind, planted in trace_faults.FAULTS.items():
        trace = once(lambda kind=kind: SCRIPTS[kind][1](program, 1))
        for name, (fault, fields) in planted.items():
            yield name.replace("_", " "), lambda kind=kind, trace=trace, fault=fault, fields=fields: is_named(
                broken(of(trace_faults.FIELDS[kind], once(lambda: fault(trace())))), fields)


# Networks of the laboratory.

def trace_of(program, text, ats=None):
    return Trace.of(lab(program, text, "--trace"), ats)


def whole(make):
    """The trace of a script."""
    def made(program, seed):
        script = make(program, seed)
        return trace_of(program, script.text(), script.ats)
    return made


def last_line(make):
    """What the last line of a script does."""
    def made(program, seed):
        text = make(seed)
        return trace_of(program, text).of_line(text.count("\n"))
    return made


SCRIPTS = {
    "timely": (40, whole(lambda program, seed: scripted.timely(seed)), trace_faults.FIELDS["timely"]),
    "troubled": (30, whole(scripted.troubled), RECENT),
    "rounds": (15, last_line(scripted.in_rounds), trace_faults.FIELDS["rounds"]),
    "phases": (15, last_line(scripted.in_phases), trace_faults.FIELDS["phases"]),
}
"""Of each kind, how many random networks there are, how one is made, and what is checked of it."""


def in_all(field):
    """Whether a field holds of all traces, which have seeds from 1 on."""
    def holds(traces):
        return next((f"of seed {seed}, {why}" for seed, why in enumerate(map(field, traces), 1) if why), None)
    return holds


def checks_of_scripts(program):
    """Of each field, in all networks of a kind."""
    for kind, (count, make, fields) in SCRIPTS.items():
        traces = once(lambda count=count, make=make: [make(program, seed) for seed in range(1, count + 1)])
        yield from ((f"{kind}: {name}", check) for name, check in of({name: in_all(field) for name, field in fields.items()}, traces))


# All of them.

def case_of(title, name, check):
    def play_in(folder):
        why = check()
        if why:
            raise Failed(why)
    return f"{title}: {name}", play_in


def main(program, *names):
    program = str(pathlib.Path(program).resolve(strict=True))
    half, some = (once(lambda scene=scene: sized(program, scenes.played(program, scene))) for scene in (scenes.half_an_hour, scenes.some_seconds))
    killed = once(functools.partial(scenes.played, program, scenes.killed))
    suites = [
        ("half an hour", checks_of_half_an_hour(program, half)),
        ("killed within a step", checks_of_killed(program, killed)),
        ("planted", planted_in_histories(half)),
        ("100 networks", checks_of_scripts(program)),
        ("planted in a trace", planted_in_traces(program)),
        ("some seconds", checks_of_some_seconds(program, some)),
    ]
    cases = named([case_of(title, name, check) for title, checks in suites for name, check in checks], names)
    # It mostly waits, and so begins at once.
    if any(name.startswith("some seconds") for name, _ in cases):
        threading.Thread(target=some).start()
    return play(cases, 2)


if __name__ == "__main__":
    sys.exit(main(*sys.argv[1:]))
