#!/usr/bin/env python3
"""Large networks: after rounds each metric is the distance that a breadth-first search finds, and so it is again after a link is down.

    tests/lab/large.py PROGRAM [NAME..]      networks of 1,000 routers, all or those that have NAME in theirs
    tests/lab/large.py PROGRAM 4096          the largest networks, with 256 prefixes; first what 20 rounds take of each, in processor seconds and MB
    tests/lab/large.py PROGRAM growth        what 20 rounds take of 100 to 1,000 routers with a prefix each, and how fast that grows, in Markdown
"""

import collections
import math
import os
import pathlib
import subprocess
import sys
import tempfile

sys.dont_write_bytecode = True
sys.path.append(str(pathlib.Path(__file__).resolve().parents[1] / "support"))
from networks import metrics_of
from suite import named, play, same

sys.path.append(str(pathlib.Path(__file__).resolve().parents[2] / "tools"))
import topology

# Shapes, each with how many of its routers own a prefix.
THOUSAND = {"ring 1000": 1000, "grid 25 40": 100, "ba 1000 2 --seed 3": 100}
LARGEST = {"ring 4096": 256, "grid 64 64": 256, "ba 4096 2 --seed 3": 256}
# Shapes of 100 to 1,000 routers, each of which owns a prefix.
GROWING = {
    "ring": {count: f"ring {count}" for count in (100, 200, 500, 1000)},
    "grid": {100: "grid 10 10", 200: "grid 10 20", 500: "grid 20 25", 1000: "grid 25 40"},
    "ba": {count: f"ba {count} 2 --seed 3" for count in (100, 200, 500, 1000)},
}
# How often each is run: the least time counts.
TIMES = 3
# How many rounds come before and after a link is down: the first spread the news as far as it goes, and 26 heal any network.
BEFORE, AFTER = 20, 26
# The link that is down.
LINK = 1


def graph_of(words):
    """The graph of a shape."""
    options = topology.said(words.split())
    return topology.made(options.what, options.numbers, options.seed)


def distances(neighbors, start):
    """How many hops it is to each router that can be reached."""
    hops, waiting = {start: 0}, collections.deque([start])
    while waiting:
        here = waiting.popleft()
        for there in neighbors[here]:
            if there not in hops:
                hops[there] = hops[here] + 1
                waiting.append(there)
    return hops


def right(routers, edges, owners):
    """The metric of each router for the prefix of each owner, where it is below 16: an owner has metric 1, and each hop costs 1."""
    neighbors = [[] for _ in range(routers)]
    for edge in edges:
        one, other = edge.ends
        neighbors[one].append(other)
        neighbors[other].append(one)
    return {(router, topology.owned(owner)): hops + 1 for owner in owners for router, hops in distances(neighbors, owner).items() if hops < 15}


def reachable(lines):
    """The metrics of a printed table that are below 16."""
    return {route: metric for route, metric in metrics_of(lines).items() if metric < 16}


def differences(found, wanted):
    """How many metrics differ."""
    return len(found.items() ^ wanted.items())


def ran(program, script):
    """The lines that a script prints, all of whose lines are done, and what the program took: processor seconds, and MB."""
    with tempfile.TemporaryFile("w+") as out:
        process = subprocess.Popen([program, "lab", "/dev/stdin"], stdin=subprocess.PIPE, stdout=out, text=True)
        with process.stdin as written:
            written.write(script)
        _, status, usage = os.wait4(process.pid, 0)
        same("the status", os.waitstatus_to_exitcode(status), 0)
        out.seek(0)
        return out.read().splitlines(), usage.ru_utime + usage.ru_stime, usage.ru_maxrss / 1024


class Large:
    """A network of a shape, and the script that makes it."""

    def __init__(self, words, owners):
        self.words, self.graph = words, graph_of(words)
        self.owners = topology.owners_of(len(self.graph.nodes), owners)
        script, _ = topology.script_of(self.graph, words, owners=owners)
        self.start = script.replace("\nrouter ", "\nrouter #") + f"rounds {BEFORE} 0 {topology.GAP}\n"

    def right(self, without=None):
        """The metrics as they should be, without the link of that number, if one is named."""
        edges = [edge for number, edge in enumerate(self.graph.edges) if number != without]
        return right(len(self.graph.nodes), edges, self.owners)

    def down(self, rounds):
        """The link is down, and so many rounds follow."""
        return f"down {LINK} +0\nrounds {rounds} +{topology.GAP} {topology.GAP}\n"


def has_metrics(program, words, owners):
    network = Large(words, owners)
    lines, *_ = ran(program, f"{network.start}print\nsay down\n{network.down(AFTER)}print\n")
    place = lines.index("down")
    same("how many metrics differ", differences(reachable(lines[:place]), network.right()), 0)
    same("how many metrics differ after a link is down", differences(reachable(lines[place:]), network.right(LINK)), 0)


def is_measured(program, words, owners):
    """Says what rounds took, after which a link is down and one more round follows."""
    network = Large(words, owners)
    _, seconds, size = ran(program, network.start + network.down(1))
    print(f"{words}: {seconds:.1f} s, {size:.0f} MB", flush=True)


def slope(sizes):
    """How fast numbers grow with sizes, pairs of both: the exponent of the power that fits them best, by least squares of logarithms."""
    logs = [(math.log(size), math.log(number)) for size, number in sizes]
    across, up = (sum(column) / len(logs) for column in zip(*logs))
    return sum((x - across) * (y - up) for x, y in logs) / sum((x - across) ** 2 for x, _ in logs)


def taken(program, words, owners):
    """The least processor seconds of rounds before and after a link is down, with their peak in MB, and the entries that are sent."""
    network = Large(words, owners)
    runs = [ran(program, f"{network.start}{network.down(1)}counts\n") for _ in range(TIMES)]
    seconds, size = min(run[1:] for run in runs)
    return seconds, size, int(runs[0][0][-1].split(" ")[3])


def grows(program):
    """Says what rounds take of growing networks, and how time and entries grow."""
    print("| 21 rounds | routers | s | MB | entries | microseconds an entry |\n|---|---|---|---|---|---|", flush=True)
    for shape, sizes in GROWING.items():
        found = {count: taken(program, words, count) for count, words in sizes.items()}
        for count, (seconds, size, entries) in found.items():
            print(f"| {shape} | {count:,} | {seconds:.3f} | {size:.0f} | {entries:,} | {1e6 * seconds / entries:.3f} |")
        powers = [slope((count, done[column]) for count, done in found.items()) for column in (0, 2)]
        print("| {} | grows with the power | {:.2f} | | {:.2f} | |".format(shape, *powers), flush=True)
    return 0


def main(program, *names):
    program = str(pathlib.Path(program).resolve(strict=True))
    if names == ("growth",):
        return grows(program)
    if names == ("4096",):
        calls = [(judge, words) for judge in (is_measured, has_metrics) for words in LARGEST]
        return play([(words, lambda folder, judge=judge, words=words: judge(program, words, LARGEST[words])) for judge, words in calls], 1)
    cases = [(words, lambda folder, words=words: has_metrics(program, words, THOUSAND[words])) for words in THOUSAND]
    return play(named(cases, names), 2)


if __name__ == "__main__":
    sys.exit(main(*sys.argv[1:]))
