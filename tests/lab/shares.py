#!/usr/bin/env python3
"""Prefixes are independent in rounds: with some prefixes a network has the tables that it has with all, restricted to these. Tried on random
networks, each in shares, with links that fail, costs that change and prefixes that come and go.

    tests/lab/shares.py PROGRAM [NUMBER]      so many networks, 1,000 if none is named
"""

import pathlib
import random
import sys

sys.dont_write_bytecode = True
sys.path.append(str(pathlib.Path(__file__).resolve().parents[1] / "support"))
from networks import Owner, Port, lab, lines_of, routes_of
from suite import Failed, play, same

NETWORKS, IN_A_CASE = 1000, 50
GAP = 30_000


def random_ports(words):
    """Interfaces of 3 to 12 routers: a tree of links, some links more, and one that several routers share. Each end has its own cost."""
    routers, ports, ends = words.randint(3, 12), [], []
    for router in range(1, routers):
        ends.append((words.randrange(router), router))
    ends += [tuple(words.sample(range(routers), 2)) for _ in range(words.randrange(routers))]
    ends.append(tuple(words.sample(range(routers), 3)))
    for link, ends_of_link in enumerate(ends):
        for router in ends_of_link:
            iface = sum(port.router == router for port in ports)
            ports.append(Port(router, iface, f"fe80::{router:x}:{iface:x}", words.randint(1, 4), link))
    # In the order of interfaces of each router.
    return sorted(ports, key=lambda port: (port.router, port.iface)), routers, len(ends)


def random_changes(words, routers, links, owners, prefixes):
    """What happens between rounds: a link that fails or comes up, costs, a restart, or a prefix that somebody gains or gives up. Each line
    names the prefix that it is of, or none."""
    lines, down, held = [], set(), [(owner.router, owner.prefix) for owner in owners]
    for _ in range(words.randint(2, 5)):
        lines.append((f"rounds {words.randint(1, 8)} {{now}} {GAP}", None))
        match words.randrange(6):
            case 0 if len(down) < links - 1:
                link = words.choice(sorted(set(range(links)) - down))
                down.add(link)
                lines.append((f"down {link} +0", None))
            case 1 if down:
                link = words.choice(sorted(down))
                down.discard(link)
                lines.append((f"up {link} +0", None))
            case 2:
                lines.append((f"costs {words.randrange(links)} +0 {words.randint(1, 15)}", None))
            case 3:
                lines.append((f"restart {words.randrange(routers)} +0", None))
            case 4:
                prefix = words.choice(prefixes)
                router = words.randrange(routers)
                if (router, prefix) not in held:
                    held.append((router, prefix))
                    lines.append((f"gain {router} +0 {prefix} {words.randrange(9)}", prefix))
            case 5 if held:
                router, prefix = held.pop(words.randrange(len(held)))
                lines.append((f"drop {router} +0 {prefix}", prefix))
            case _:
                lines.append(("hear", None))
        lines.append(("print", None))
    begun = False
    for line, prefix in lines:
        yield line.format(now=f"+{GAP}" if begun else "0"), prefix
        begun = True


def whole(seed):
    """A script: the lines that make a network, all its owners, and what happens."""
    words = random.Random(seed)
    ports, routers, links = random_ports(words)
    prefixes = [f"2001:db8:{number:x}::/48" for number in range(1, words.randint(3, 2 * routers))]
    owners = [Owner(words.randrange(routers), prefix, str(words.randrange(9))) for prefix in prefixes]
    return ports, owners, list(random_changes(words, routers, links, owners, prefixes)), prefixes


def script_of(ports, owners, changes, share):
    """The script with these prefixes alone."""
    lines = lines_of(ports, [owner for owner in owners if owner.prefix in share])
    return "\n".join([*lines, "cold 0", *(line for line, prefix in changes if prefix is None or prefix in share), ""])


def prefix_in(route):
    return route.split(" ")[1]


def is_independent(program, seed):
    """The tables of each share are those of the whole with its prefixes, wherever they are printed."""
    ports, owners, changes, prefixes = whole(seed)
    printed = routes_of(lab(program, script_of(ports, owners, changes, set(prefixes))))
    if not any(" via " in line for line in printed):
        raise Failed(f"network {seed} has no route over another router")
    parts = 2 + seed % 3
    for part in range(parts):
        share = set(prefixes[part::parts])
        found = routes_of(lab(program, script_of(ports, owners, changes, share)))
        wanted = [line for line in printed if prefix_in(line) in share]
        same(f"the number of routes of share {part} of network {seed}", len(found), len(wanted))
        for got, want in zip(found, wanted):
            same(f"a route of share {part} of network {seed}", got, want)


def are_independent(program, seeds):
    for seed in seeds:
        is_independent(program, seed)


def cases_of(program, number):
    for begin in range(0, number, IN_A_CASE):
        seeds = range(begin, min(begin + IN_A_CASE, number))
        yield f"networks {seeds[0]} to {seeds[-1]}", lambda folder, seeds=seeds: are_independent(program, seeds)


if __name__ == "__main__":
    sys.exit(play(list(cases_of(sys.argv[1], int(sys.argv[2]) if len(sys.argv) > 2 else NETWORKS))))
