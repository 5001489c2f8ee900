#!/usr/bin/env python3
"""What `path` prints of networks, compared with a plain computation over the tables that `print` shows: which routers hand a packet on, and
how it ends.

    tests/lab/paths.py PROGRAM [NAME..]      all cases, or those that have NAME in theirs
"""

import ipaddress
import pathlib
import random
import re
import sys

sys.dont_write_bytecode = True
sys.path.append(str(pathlib.Path(__file__).resolve().parents[1] / "support"))
from networks import ROUTE, Network, lab, random_network
from scripts import EXAMPLES, changing_square
from suite import Failed, named, play, same

# One address of each prefix of the random networks, and one of none.
ADDRESSES = ("2001:db8::1", "2001:db8:c::1", "2001:db9::1")

ENDS = re.compile(r"(delivered|no route|next hop is nobody's|loops)(?: from \d+)?$")


def tables_of(printed):
    """The usable routes of each router, as they are printed: prefix, next hop and interface, or None twice for a local one."""
    tables = {}
    for line in printed:
        if match := ROUTE.fullmatch(line):
            router, prefix, metric, _, via, iface, _ = match.groups()
            if metric != "16":
                tables.setdefault(int(router), []).append((ipaddress.ip_network(prefix), via, iface and int(iface)))
    return tables


def hop_of(network, routes, router, addr):
    """Where a router hands on a packet: the next router, or in words how the packet ends there."""
    matches = [route for route in routes if ipaddress.ip_address(addr) in route[0]]
    if not matches:
        return "no route"
    _, via, iface = max(matches, key=lambda route: route[0].prefixlen)
    if via is None:
        return "delivered"
    link = network.ports_at(router, iface)[0].link
    others = (port for port in network.ports if port.link == link and port.router != router)
    return next((port.router for port in others if ipaddress.ip_address(port.addr) == ipaddress.ip_address(via)), "next hop is nobody's")


def path_of(network, tables, router, addr):
    """The line of the way of a packet."""
    passed, end = [], router
    while isinstance(end, int):
        if end in passed:
            return f"{router} {addr} path {' '.join(map(str, [*passed, end]))} loops from {end}"
        passed.append(end)
        end = hop_of(network, tables.get(end, []), end, addr)
    return f"{router} {addr} path {' '.join(map(str, passed))} {end}"


def counting(turn):
    """The ring that counts to infinity, up to one of the moments at which the example prints its tables."""
    return "print\n".join((EXAMPLES / "counting.lab").read_text().split("print\n")[:turn]).replace("print\n", "")


def disturbed(seed):
    """A random network after rounds of which much is lost, a prefix that moves, and costs that change."""
    words, now = random.Random(seed), 0
    lines = [random_network(seed), "rounds 3 0 15000", "drop 2 +1 2001:db8:c::/48", "gain 1 +0 2001:db8:c::/48 4"]
    for _ in range(words.randrange(12)):
        now += 60_000
        lost = sorted(words.sample(range(2), words.randrange(3)))
        lines.append(f"tell {words.randrange(3)} {60_000 + now} 0" + (" but " + " ".join(map(str, lost)) if lost else ""))
    return "\n".join(lines) + "\n"


def agrees(program, scripts, ends):
    """Each way in a network is that of its tables, and the ways end in each of these manners somewhere."""
    found = set()
    for script in scripts:
        network = Network.of(script)
        asked = [(router, addr) for router in range(network.routers) for addr in ADDRESSES]
        printed = lab(program, script + "say now\nprint\n" + "".join(f"path {router} {addr}\n" for router, addr in asked))
        printed = printed[printed.index("now"):]
        paths = [line for line in printed if " path " in line]
        tables = tables_of(printed)
        same("the ways", paths, [path_of(network, tables, router, addr) for router, addr in asked])
        found.update(ENDS.search(line)[1] for line in paths)
    if not ends <= found:
        raise Failed(f"no way ends so: {ends - found}")


def main(program, *names):
    program = str(pathlib.Path(program).resolve(strict=True))
    healed = {"delivered", "no route"}
    cases = [
        ("ways in networks at the start", agrees, [random_network(seed) for seed in range(6)], healed),
        ("ways in networks that have healed", agrees, [f"{disturbed(seed)}phases 28 {seed}\n" for seed in range(12)], healed),
        *((f"ways in disturbed networks, {part}", agrees, [disturbed(seed) for seed in range(40 * part, 40 * part + 40)], healed) for part in range(6)),
        ("some packets circle", agrees, [counting(turn) for turn in range(1, 7)], {*healed, "loops"}),
        ("a square that changes", agrees, [changing_square(seed) for seed in range(1, 13)], {"delivered"}),
    ]
    return play([(name, lambda folder, case=case, words=words: case(program, *words)) for name, case, *words in named(cases, names)])


if __name__ == "__main__":
    sys.exit(main(*sys.argv[1:]))
