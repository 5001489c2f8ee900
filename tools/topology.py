#!/usr/bin/env python3
"""A network from a file of another program, or of a usual shape, as a script of `ripngd lab`.

    tools/topology.py FILE [--cost NAME] [--owners N] [--rounds N]
    tools/topology.py ring N | line N | star N | grid WIDTH HEIGHT | tree N [CHILDREN] [--owners N] [--rounds N]
    tools/topology.py ba N LINKS | waxman N [BETA ALPHA] [--seed SEED] [--owners N] [--rounds N]

FILE is GraphML (.graphml, .xml), node-link JSON of NetworkX (.json), a topology of containerlab (.yml, .yaml), or else a list of edges, a
line A B or A B COST for each. A file has the cost of an edge in its attribute `cost`, or in NAME; an edge without it costs 1. Each node is
a router that owns a prefix, each edge a link. With --owners so many routers own one, spread over the numbers of all. With --rounds the
script goes on: so many rounds, and all tables are printed.

The script goes to standard output, with status 0. Otherwise the status is 1, and standard error has one line that says what is wrong and
where. A file that is named as a shape is written ./NAME.
"""

import argparse
import math
import re
import sys
import unicodedata

sys.dont_write_bytecode = True
import graph_files
import graphs
from graphs import Fault

# Limits of a script (docs/SCRIPTS.md) and of a router (docs/PROTOCOL.md).
ROUTERS, INTERFACES, COSTS, ROUNDS = 4096, 256, range(1, 16), range(1, 1001)
# How many milliseconds are from one round to the next: the period of regular updates with the random word 0.
GAP = 15_000
# Each shape: what makes it, the least of each of its numbers (0 for a share of one), and how many of them have to be there.
SHAPES = {
    "ring": (graphs.ring, [3], 1),
    "line": (graphs.line, [1], 1),
    "star": (graphs.star, [1], 1),
    "grid": (graphs.grid, [1, 1], 2),
    "tree": (graphs.tree, [1, 1], 1),
    "ba": (graphs.barabasi_albert, [2, 1], 2),
    "waxman": (graphs.waxman, [1, 0, 0], 1),
}
RANDOM = ("ba", "waxman")


class Words(argparse.ArgumentParser):
    def error(self, message):
        raise Fault(message)


def number(word, least):
    """A number of a shape, which is at least so great; or a share of one, if the least is 0."""
    if least and re.fullmatch(r"\d{1,5}", word) and int(word) >= least:
        return int(word)
    if not least and re.fullmatch(r"\d(\.\d+)?", word) and 0 < float(word) <= 1:
        return float(word)
    raise Fault(f"{word} is no number from {least} to 99999" if least else f"{word} is no number above 0 and at most 1")


def too_many(name, line=None):
    return Fault(f"router {name} is the {ROUTERS + 1}th, and a network has at most {ROUTERS}", line)


def made(shape, words, seed):
    """The graph of a shape."""
    make, least, needed = SHAPES[shape]
    if not needed <= len(words) <= len(least):
        raise Fault(f"a {shape} has {' to '.join(map(str, sorted({needed, len(least)})))} numbers, and here are {len(words)}")
    numbers = list(map(number, words, least))
    if math.prod(numbers[:2] if shape == "grid" else numbers[:1]) > ROUTERS:
        raise too_many(f"R{ROUTERS}")
    return make(*numbers, seed=seed) if shape in RANDOM else make(*numbers)


def script_name(label):
    """The nearest to a label that can be a name in a script: a letter, and then letters, digits, - and _."""
    ascii_alone = unicodedata.normalize("NFKD", label).encode("ascii", "ignore").decode()
    name = re.sub(r"[^A-Za-z0-9_-]+", "-", ascii_alone).strip("-")
    return name if re.match("[A-Za-z]", name) and name != "quiet" else f"R{name}"


def names_of(labels):
    """A name of its own for each label; a label that is a name keeps it."""
    kept, taken, names = set(labels), set(), []
    for label in labels:
        name = base = script_name(label)
        count = 1
        while name in taken or (name != label and name in kept):
            count += 1
            name = f"{base}-{count}"
        taken.add(name)
        names.append(name)
    return names


def check(graph, names):
    """A graph that no network can have is refused."""
    if not graph.nodes:
        raise Fault("there is no router")
    if len(graph.nodes) > ROUTERS:
        raise too_many(names[ROUTERS], graph.nodes[ROUTERS].line)
    ifaces = [0] * len(names)
    for edge in graph.edges:
        one, other = (names[end] for end in edge.ends)
        if one == other:
            raise Fault(f"an edge joins router {one} with itself", edge.line)
        if edge.cost not in COSTS:
            raise Fault(f"the edge of {one} and {other} costs {edge.cost}, and a cost is {COSTS[0]} to {COSTS[-1]}", edge.line)
        for end in edge.ends:
            ifaces[end] += 1
            if ifaces[end] > INTERFACES:
                raise Fault(f"router {names[end]} needs a {INTERFACES + 1}th interface, and a router has at most {INTERFACES}", edge.line)


def remark(text):
    """A remark of one line that shows a text, whatever it is."""
    return "".join(letter if letter.isprintable() else "?" for letter in " ".join(text.split()))


def owned(router):
    """The prefix that a router owns."""
    return f"2001:db8:{router + 1:x}::/48"


def owners_of(routers, count):
    """The numbers of so many routers, spread over those of all."""
    if not 1 <= count <= routers:
        raise Fault(f"owners are 1 to {routers}, one for each router, and not {count}")
    return {number * routers // count for number in range(count)}


def routers_of(graph, names, owners):
    """The lines of all routers. A router without edges gets an interface on a link of its own, since each has to have one."""
    ifaces = [[] for _ in names]
    for link, edge in enumerate(graph.edges):
        for end in edge.ends:
            ifaces[end].append(f"{edge.cost} {link}")
    spare, lines = len(graph.edges), []
    for router, (name, node) in enumerate(zip(names, graph.nodes)):
        lines.append(f"router {name}" + ("" if name == node.label else f" # {remark(node.label)}"))
        if not ifaces[router]:
            ifaces[router].append(f"1 {spare} # it has no edge")
            spare += 1
        lines += [f"iface fe80::{router + 1:x}:{number:x} {rest}" for number, rest in enumerate(ifaces[router])]
        if router in owners:
            lines.append(f"own {owned(router)} 0")
    return lines


def script_of(graph, title, rounds=None, owners=None):
    """The script of a graph, and the names of its routers, all of which own a prefix if no number of owners is given."""
    names = names_of([node.label for node in graph.nodes])
    check(graph, names)
    owning = owners_of(len(names), len(names) if owners is None else owners)
    parts = graph.parts()
    lines = [f"# {remark(title)}: {len(names)} routers, {len(graph.edges)} links" + (f", in {parts} parts that no link joins" if parts > 1 else "")]
    lines += [*routers_of(graph, names, owning), "cold 0"]
    if rounds:
        lines += [f"rounds {rounds} 0 {GAP}", "print"]
    return "\n".join(lines) + "\n", names


def said(words):
    """What the words of the command say."""
    parser = Words(prog="topology.py", description=__doc__, formatter_class=argparse.RawDescriptionHelpFormatter)
    parser.add_argument("what", metavar="FILE|SHAPE")
    parser.add_argument("numbers", nargs="*", metavar="N")
    parser.add_argument("--cost", default="cost", metavar="NAME", help="the attribute of an edge that is its cost")
    parser.add_argument("--seed", type=int, default=0, metavar="SEED", help="of ba and waxman, 0 if none is given")
    parser.add_argument("--owners", type=int, metavar="N", help="how many routers own a prefix, all if none is given")
    parser.add_argument("--rounds", type=int, metavar="N", help="rounds that follow the start, 1 to 1,000")
    return parser.parse_intermixed_args(words)


def written(options):
    """The script that a command asks for."""
    if options.rounds is not None and options.rounds not in ROUNDS:
        raise Fault(f"rounds are {ROUNDS[0]} to {ROUNDS[-1]}, and not {options.rounds}")
    if options.what in SHAPES:
        seed = f", seed {options.seed}" if options.what in RANDOM else ""
        title = " ".join([options.what, *options.numbers]) + seed
        return script_of(made(options.what, options.numbers, options.seed), title, options.rounds, options.owners)[0]
    if options.numbers:
        raise Fault(f"this is no shape, and nothing may follow the file: {options.numbers[0]}")
    return script_of(graph_files.read(options.what, options.cost), options.what.rpartition("/")[2], options.rounds, options.owners)[0]


def main(words, out, err):
    """Carries a command out, and gives its exit status."""
    where = []
    try:
        options = said(words)
        where.append(options.what)
        out.write(written(options))
        return 0
    except Fault as fault:
        if fault.line is not None:
            where.append(f"line {fault.line}")
        print(": ".join(["topology.py", *[", ".join(where)] * bool(where), remark(str(fault))]), file=err)
        return 1


if __name__ == "__main__":
    # Scripts are UTF-8, whatever the locale.
    sys.stdout.reconfigure(encoding="utf-8")
    sys.exit(main(sys.argv[1:], sys.stdout, sys.stderr))
