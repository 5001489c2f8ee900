#!/usr/bin/env python3
"""Rows of crates/test_rows that are too long to be written down: they are made here, with what must come of them, and played over both
stores of routes. A store is asked random commands, and has to answer as a model does: a dictionary of routes.

    tests/command/rows.py ROWS_PROGRAM [NAME..]        all cases, or those that have NAME in theirs
"""

import bisect
import ipaddress
import pathlib
import random
import subprocess
import sys

sys.dont_write_bytecode = True
sys.path.append(str(pathlib.Path(__file__).resolve().parents[1] / "support"))
from suite import Failed, named, play

ASKED = [f"send {iface} group 01010000{' 00000000' * 4} 00000010" for iface in range(2)]
ROOM = [61, 72]
"""How many entries a datagram has room for on each interface, by its MTU of 1,280 and of 1,500 bytes: (MTU - 40 - 8 - 4) / 20."""


def text(number, length):
    return f"{ipaddress.IPv6Address(number)}/{length}"


def site(number):
    return text((0x2001_0db8 << 96) + (number << 80), 48)


def entry(number, metric):
    """The entry of a site."""
    return f"20010db8 {number:04x}0000 00000000 00000000 000030{metric:02x}"


def response(entries):
    return " ".join(["02010000", *entries])


def told(entries, iface, to="group"):
    """The datagrams in which an interface sends entries."""
    room = ROOM[iface]
    return [f"send {iface} {to} {response(entries[place:place + room])}" for place in range(0, len(entries), room)]


def hear(datagram, now=0, source="fe80::2"):
    return f"> hear 0 {now} {source} 521 255 group {datagram}"


def learn(numbers):
    """A neighbor tells sites with metric 3, which are all new, in the longest datagrams."""
    lines = []
    for first in range(0, len(numbers), 3276):
        some = numbers[first:first + 3276]
        lines += [hear(response(entry(number, 3) for number in some))]
        lines += [f"add {site(number)} metric 4 via fe80::2 iface 0" for number in some]
    return lines


def owner(count, verb="router"):
    """A router owns so many sites."""
    return f"> {verb} " + " ".join(f"own {site(number)} 0" for number in range(count))


def owned_are_told(verb, count, metric):
    """All that a router owns is told on both interfaces, since there is no gateway to poison."""
    entries = [entry(number, metric) for number in range(count)]
    return [owner(count), f"> {verb}", *told(entries, 0), *told(entries, 1)]


def bad_entries():
    """The longest datagrams, of entries that teach nothing."""
    lines = ["> router"]
    for bad, note in (("20010db800000000000000000000000000008101", "BadLength"), ("ff02000000000000000000000000000000001001", "BadPrefix"),
                      ("20010db800000000000000000000000000002000", "BadMetric"), ("fe800000000000000000000000000009000000ff", None)):
        lines.append(hear(f"02010000 3276*{bad}"))
        lines += [f"note {number} {note}" for number in range(3276) if note]
    return lines + ["> size", "0"]


def full_table():
    """A full table learns of what it holds, and tells all of it in order, with poison to the neighbors of whom it was learned."""
    route = "2001:db8:5::/48 metric 2 tag 0 via fe80::3 iface 0 from fe80::3 live until 180001 changed"
    metrics = [2 if number == 5 else 4 for number in range(65_536)]
    return ["> router", *learn(range(65_536)), "> size", "65536",
            hear(f"02010000 20010db9 00000000 00000000 00000000 00003001 {entry(5, 1)}", now=1, source="fe80::3"),
            "add 2001:db8:5::/48 metric 2 via fe80::3 iface 0", "note 0 TableFull",
            "> route 2001:db8:5::/48", route,
            "> route 2001:db8:ffff::/48", "2001:db8:ffff::/48 metric 4 tag 0 via fe80::2 iface 0 from fe80::2 live until 180000 changed",
            "> tick 2 0", *told([entry(number, 16) for number in range(65_536)], 0),
            *told([entry(number, metric) for number, metric in enumerate(metrics)], 1)]


def full_store():
    other, length = "2001:db8::/32", ["> length", "65536, empty false"]
    none = [f"> get {other}", "no route"]
    return [*(f"> add {site(number)} own {number}" for number in range(65_536)), *length, *none,
            f"> add {other} own 1", "refused 1 Full: the table of routes is full", *length, *none,
            f"> get {site(5)}", f"{site(5)} metric 1 tag 5 own", f"> remove {site(5)}", *none,
            f"> add {other} own 1", *length, f"> get {other}", f"{other} metric 1 tag 1 own"]


def each_length():
    """Each holds all those after it. They are added from the longest on."""
    prefixes = [text((0x2001_0db8_abcd_ef01_2345_6789_abcd_ef01 >> 128 - length) << 128 - length, length) for length in range(129)]
    lines = []
    for length in reversed(range(129)):
        lines += [f"> get {prefixes[length]}", "no route", f"> add {prefixes[length]} own {length}"]
    return [*lines, "> length", "129, empty false", "> list", *(f"{prefix} metric 1 tag {tag} own" for tag, prefix in enumerate(prefixes))]


CASES = {
    "a table of 4096 routes has room": lambda: [
        "> router", *learn(range(4096)), "> size", "4096",
        hear(response([entry(4096, 1), entry(5, 1)]), now=1, source="fe80::3"),
        "add 2001:db8:1000::/48 metric 2 via fe80::3 iface 0", "add 2001:db8:5::/48 metric 2 via fe80::3 iface 0", "> size", "4097"],
    "a full table keeps learning of what it holds": full_table,
    "the longest datagrams of bad entries teach nothing": bad_entries,
    "one entry more than the longest datagram is a fault": lambda: [
        "> router", hear("02010000 3276*20010db800000000000000000000000000002001"), "add 2001:db8::/32 metric 2 via fe80::2 iface 0",
        hear("02010000 3277*20010db800000000000000000000000000002001", source="fe80::3"), "fault Wire(TooLong)", "> size", "1"],
    "a long answer is cut by the mtu": lambda: [
        "> router", hear("01010000 62*20010db900000000000000000000000000002000"),
        *told(["20010db9 00000000 00000000 00000000 00002010"] * 62, 0, "peer fe80::2 521")],
    "no more prefixes are owned than the limit": lambda: [
        owner(1024), "> gain 1 2001:db8:ffff::/48 0", "refused ReconfigureRefused(OwnedFull)",
        "> drop 1 2001:db8:5::/48", "del 2001:db8:5::/48",
        "> gain 2 2001:db8:ffff::/48 3", "add 2001:db8:ffff::/48 metric 1 direct"],
    "a full table has no room for a new prefix": lambda: [
        "> router", *learn(range(65_536)), "> gain 1 2001:db8::/32 5", "refused ReconfigureRefused(TableFull)",
        "> gain 1 2001:db8:5::/48 5", "add 2001:db8:5::/48 metric 1 direct",
        "> route 2001:db8:5::/48", "2001:db8:5::/48 metric 1 tag 5 own changed", "> size", "65536"],
    "more prefixes are refused than a router may own": lambda: [owner(1025), "refused TooManyPrefixes"],
    "as many prefixes are accepted as a router may own": lambda: [
        owner(1024, "start"), *ASKED, *(f"add {site(number)} metric 1 direct" for number in range(1024)), "> size", "1024"],
    "an update is cut by the mtu": lambda: owned_are_told("tick 0 0", 62, 1),
    "a full datagram has no empty one behind it": lambda: owned_are_told("tick 0 0", 61, 1),
    "what a shutdown tells is cut by the mtu": lambda: owned_are_told("shutdown 0", 62, 16),
    "a full table refuses until a route is removed": full_store,
    "a prefix of each length has its route": each_length,
    "a store answers random commands as a model does": lambda: RandomCommands(20_000).lines,
}


class RandomCommands:
    """Commands about prefixes of at most 16 bits, so that they often meet and lie in one another, and what a store answers."""

    def __init__(self, count):
        self.chance = random.Random(1)
        self.lines, self.done, self.updated = [], {"add": 0, "replace": 0, "remove": 0}, 0
        # The routes by the number and length of their prefixes, these in order, those of marked routes, and those of each deadline.
        self.routes, self.order, self.marked, self.due = {}, [], [], {}
        for turn in range(count):
            length = self.chance.randrange(17)
            self.turn(turn, (self.chance.getrandbits(length) << 128 - length if length else 0, length))
            if turn % 200 == 199:
                self.list()
        # At last all routes are removed, so that what is left of blocks is joined again and again.
        while self.routes:
            self.turn(count, self.chance.choice(self.order), leaves=True)
            if len(self.routes) % 400 == 0:
                self.list()
        if min(self.done["add"] - 4096, self.done["replace"] - 1000, self.done["remove"] - 1000, self.updated - 1000) <= 0:
            raise Failed(f"too few of a kind: {self.done}, {self.updated} updated")

    def route(self, tag):
        """The words of a route, its metric, its deadline, and whether it is marked."""
        kind, until, marked = self.chance.randrange(3), self.chance.randint(1, 100), self.chance.random() < 0.5
        return (("own", tag, None), ("live", until, until), ("lost", until, until))[kind] + (marked,)

    def lists(self, route):
        """The lists of prefixes in which that of a route stands."""
        _, _, until, marked = route
        return [self.order] + [self.marked] * marked + ([] if until is None else [self.due.setdefault(until, [])])

    def put(self, key, route):
        """Puts a route, or none."""
        old = self.routes.pop(key, None)
        for keys in self.lists(old) if old else []:
            del keys[bisect.bisect_left(keys, key)]
        if route:
            self.routes[key] = route
            for keys in self.lists(route):
                bisect.insort(keys, key)

    def written(self, key):
        if key not in self.routes:
            return "no route"
        kind, word, _, marked = self.routes[key]
        learned = "tag 7 via fe80::9 iface 0 from fe80::2"
        said = {"own": f"metric 1 tag {word} own", "live": f"metric 2 {learned} live until {word}",
                "lost": f"metric 16 {learned} dying until {word}"}[kind]
        return f"{text(*key)} {said}{' changed' if marked else ''}"

    def walked(self, keys, after, holds):
        """The first route of these prefixes, or the first past one, of which it holds."""
        place = bisect.bisect_right(keys, after) if after else 0
        return self.written(next((keys[at] for at in range(place, len(keys)) if holds(keys[at])), None))

    def is_due(self, key, now):
        until = self.routes[key][2]
        return until is not None and until <= now

    def turn(self, turn, key, leaves=False):
        prefix, now = text(*key), self.chance.randrange(100)
        say = lambda command, *answers: self.lines.extend([f"> {command}", *answers])
        words = lambda route: f"{route[0]} {route[1]}{' changed' if route[3] else ''}"
        say(f"get {prefix}", self.written(key))
        if self.chance.random() < 0.5:
            route = self.route(turn)
            say(f"update {prefix} {words(route)}", self.written(key))
            if key in self.routes:
                self.updated += 1
                self.put(key, route)
        verb = "remove" if leaves else self.chance.choice(("replace", "remove")) if key in self.routes else "add"
        route = None if verb == "remove" else self.route(turn)
        say(f"{verb} {prefix}" if route is None else f"{verb} {prefix} {words(route)}")
        self.put(key, route)
        self.done[verb] += 1
        say("length", f"{len(self.routes)}, empty {'false' if self.routes else 'true'}")
        until = min((until for until, keys in self.due.items() if keys), default=None)
        say("next-due", f"{until} {text(*self.due[until][0])}" if until else "nothing is due")
        walks = (("walk", self.order, lambda key: True), (f"walk-due {now}", self.order, lambda key: self.is_due(key, now)),
                 ("walk-changed", self.marked, lambda key: True))
        for name, keys, holds in walks:
            say(name, self.walked(keys, None, holds))
            say(f"{name} {prefix}", self.walked(keys, key, holds))

    def list(self):
        """The marks go, and all routes are listed."""
        self.routes, self.marked = {key: route[:3] + (False,) for key, route in self.routes.items()}, []
        self.lines += ["> unmark", "> list", *map(self.written, self.order)]


def played(program, folder, name, lines):
    file = pathlib.Path(folder, "rows")
    file.write_text("\n".join([f"\n# {name}", *lines, ""]))
    run = subprocess.run([program, file], stdin=subprocess.DEVNULL, capture_output=True, text=True)
    if (run.returncode, run.stdout, run.stderr) != (0, f"ok {name}\n1 passed, 0 failed\n", ""):
        raise Failed(f"it ended with {run.returncode}: {run.stdout[:1000]} {run.stderr[:1000]}")


def main(program, *names):
    program = str(pathlib.Path(program).resolve(strict=True))
    cases = [(f"rows: {name}", lambda folder, name=name: played(program, folder, name, CASES[name]())) for name in CASES]
    return play(named(cases, names))


if __name__ == "__main__":
    sys.exit(main(*sys.argv[1:]))
