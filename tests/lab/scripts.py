#!/usr/bin/env python3
"""What `lab` prints of networks, compared with a plain search of the walks in them: each metric below 16 is the cost of a walk, and rounds
and phases leave the least costs.

    tests/lab/scripts.py PROGRAM [NAME..]      all cases, or those that have NAME in theirs
"""

import json
import pathlib
import random
import sys

sys.dont_write_bytecode = True
sys.path.append(str(pathlib.Path(__file__).resolve().parents[1] / "support"))
from networks import TROUBLE, Network, Owner, lab, metrics_of, random_network, routes_of
from suite import Failed, named, play, same

EXAMPLES = pathlib.Path(__file__).resolve().parents[2] / "examples"

# Two links between the first two routers, and two interfaces of the second on the link to the third.
TWINS = """router
iface fe80::a0 1 1280 0
iface fe80::a1 2 1280 1
own 2001:db8:a::/48 1
router
iface fe80::b0 3 1280 0
iface fe80::b1 1 1280 1
iface fe80::b2 2 1280 2
iface fe80::b3 5 1280 2
router
iface fe80::c0 4 1280 2
own 2001:db8:c::/48 7
cold 0
"""

# Two routers that own one prefix with different tags, at the ends of a line whose middle link is dear.
ENDS = """router
iface fe80::a0 2 1280 0
own 2001:db8::/32 1
router
iface fe80::b0 3 1280 0
iface fe80::b1 1 1280 1
router
iface fe80::c0 7 1280 1
iface fe80::c1 4 1280 2
router
iface fe80::d0 1 1280 2
own 2001:db8::/32 2
own 2001:db8:d::/48 3
cold 0
"""

# Two routers on one link, of which the first owns a prefix, started at the end of the first minute.
PAIR = """router
iface fe80::a0 1 1280 0
own 2001:db8::/32 9
router
iface fe80::b0 4 1500 0
cold 60000
"""

def square():
    """The square of the examples, whose link between the first and the last router is dear, up to its start."""
    text = (EXAMPLES / "square.lab").read_text()
    return text[:text.index("round")]


def all_walks(program, script, least):
    """Each route below 16 that a script prints is a walk, and at least so many are."""
    network = Network.of(script)
    routes = [line for line in routes_of(lab(program, script)) if " metric 16 " not in line]
    for line in routes:
        if not network.is_backed(line):
            raise Failed(f"no walk costs that: {line}")
    if len(routes) < least:
        raise Failed(f"{len(routes)} routes are printed, and not {least}")


def restarted_square():
    """The square, in which a router comes up again after each of twenty rounds."""
    turns = (f"round {15000 * turn}\nprint\nrestart {turn % 4} {15000 * turn}\nprint\n" for turn in range(20))
    return square() + "".join(turns)


def changing_square(seed):
    """Forty things that happen in the square: costs change, and the prefix is gained and given up with other tags, between rounds."""
    words, now, owning, tags = random.Random(seed), 0, {0}, iter(range(1, 41))
    lines = []
    for _ in range(40):
        router = words.randrange(4)
        match words.randrange(4):
            case 0:
                lines.append(f"cost {router} {words.randrange(2)} {now} {words.randint(1, 6)}")
            case 1 if router in owning:
                lines.append(f"drop {router} {now} 2001:db8::/32")
                owning.remove(router)
            case 1:
                lines.append(f"gain {router} {now} 2001:db8::/32 {next(tags)}")
                owning.add(router)
            case _:
                now += 7500
                lines += [f"round {now}", "print"]
    return square() + "\n".join(lines) + "\n"


def leaves_least(program, script, hops, network=None):
    """A script leaves exactly the least costs of walks with so many hops."""
    network = network or Network.of(script)
    same("what is left", metrics_of(lab(program, script + "\nprint\n")), network.least_costs(hops))


def heals_by_phases(program, seed):
    start = random_network(seed)
    # Whoever gave up a prefix owns it no more.
    owners = [Owner(0, "2001:db8::/32", "1"), Owner(2, "2001:db8::/32", "2"), Owner(1, "2001:db8:c::/48", "3")]
    leaves_least(program, f"{start}{TROUBLE}phases 28 {seed}", 14, Network(Network.of(start).ports, owners))


def heals_by_time(program, seed):
    """28 minutes and the time of a timeout after trouble, over links with delays below 13 seconds, each table has the least costs."""
    words, start = random.Random(seed), random_network(seed)
    owners = [Owner(0, "2001:db8::/32", "1"), Owner(2, "2001:db8::/32", "2"), Owner(1, "2001:db8:c::/48", "3")]
    network = Network(Network.of(start).ports, owners)
    links = sorted({port.link for port in network.ports})
    delays = "".join(f"link {link} {words.randrange(13000)}\n" for link in links)
    leaves_least(program, f"{start}{TROUBLE}{delays}run +1800000 {seed}\nexpect healed\n", 14, network)


def tables_after(program, start, phases):
    """The phase that is said to have changed a table last, if one is, and the tables. Fewer phases of a seed are the first of more."""
    lines = lab(program, f"{start}phases {phases} 7\nprint\n" if phases else f"{start}print\n")
    said = lines[0].partition(" last change ")[2]
    return (int(said) if said.isdigit() else None), routes_of(lines)


def tables_change_last_where_it_is_said(program):
    """What is printed after each phase differs last where that is said."""
    start = square() + "rounds 2 0 15000\ndrop 0 +1 2001:db8::/32\ngain 3 +0 2001:db8::/32 5\ncost 1 1 +0 6\n"
    runs = [tables_after(program, start, phases) for phases in range(13)]
    last = None
    for phase in range(12):
        if runs[phase + 1][1] != runs[phase][1]:
            last = phase
        same(f"the last change of {phase + 1} phases", runs[phase + 1][0], last)
    if last is None or last == 11:
        raise Failed(f"the last change is in phase {last}")


def events_of_a_phase_are_in_its_minute(program, seed):
    """One phase takes the minute from the start on. In it each router ticks, and the second hears of the prefix, at 1 + 4."""
    records = [json.loads(line) for line in lab(program, f"{PAIR}phases 1 {seed}\n", "--trace")]
    same("the records", [record["record"] for record in records], ["start", *["event"] * (len(records) - 2), "phases"])
    events = records[1:-1]
    if len(events) < 4 or not all(60_000 <= event["now"] < 120_000 for event in events):
        raise Failed(f"events at {[event['now'] for event in events]}")
    same("who ticks", {event["router"] for event in events if event["event"]["kind"] == "tick"}, {0, 1})
    same("who learns", {event["router"] for event in events for route in event["routes"] if route["metric"] == 5}, {1})


def walks():
    """Scripts whose routes are walks, with how many are printed below 16, at least."""
    examples = [(file.name, file.read_text() + "\nprint\n", 0) for file in sorted(EXAMPLES.glob("**/*.lab"))
                if "liar" not in file.name and file.parent.name != "exercises"]
    return [*examples,
            ("parallel links", TWINS + "".join(f"round {now}\nprint\n" for now in (0, 15000, 30000)), 16),
            ("a square whose routers come up again", restarted_square(), 40),
            *((f"a square that changes, {seed}", changing_square(seed), 20) for seed in range(1, 7))]


def rounds():
    """Networks up to their start, with how many rounds are made."""
    known = [(name, start, count) for name, start in (("square", square()), ("twins", TWINS), ("ends", ENDS)) for count in range(1, 6)]
    return known + [(f"random {seed}", random_network(seed), count) for seed in range(1, 13) for count in (1, 2, 4, 14)]


def main(program, *names):
    program = str(pathlib.Path(program).resolve(strict=True))
    cases = [
        *((f"routes of {name} are walks", all_walks, script, least) for name, script, least in walks()),
        *((f"{count} rounds find the least costs, {name}", leaves_least, f"{start}rounds {count} 0 15000", count) for name, start, count in rounds()),
        *((f"phases heal random networks, {seed}", heals_by_phases, seed) for seed in range(1, 9)),
        *((f"time heals random networks, {seed}", heals_by_time, seed) for seed in range(1, 7)),
        *((f"events of a phase are in its minute, {seed}", events_of_a_phase_are_in_its_minute, seed) for seed in range(4)),
        ("tables change last where it is said", tables_change_last_where_it_is_said),
    ]
    return play([(name, lambda folder, case=case, words=words: case(program, *words)) for name, case, *words in named(cases, names)])


if __name__ == "__main__":
    sys.exit(main(*sys.argv[1:]))
