#!/usr/bin/env python3
"""Networks out of files of other programs and of usual shapes (tools/topology.py, tools/ripnglab.py): the links that they have, what is
refused and where, and the metrics that come of them, beside a plain search for the least costs.

    tests/lab/topologies.py PROGRAM [NAME..]      all cases, or those that have NAME in theirs
"""

import collections
import heapq
import io
import pathlib
import re
import subprocess
import sys
import textwrap

sys.dont_write_bytecode = True
sys.path.append(str(pathlib.Path(__file__).resolve().parents[1] / "support"))
from networks import Network, lab, metrics_of
from suite import Failed, named, play, same

ROOT = pathlib.Path(__file__).resolve().parents[2]
FILES = ROOT / "tests/topologies"
sys.path.append(str(ROOT / "tools"))
import ripnglab
import topology

# Names and links of each file, by hand: two routers and a cost.
ABILENE = ["New-York", "Chicago", "Washington-DC", "Seattle", "Sunnyvale", "Los-Angeles", "Denver", "Kansas-City", "Houston", "Atlanta", "Indianapolis"]
ABILENE_LINKS = [(0, 1, 1), (0, 2, 1), (1, 10, 1), (2, 9, 1), (3, 4, 3), (3, 6, 1), (4, 5, 1), (4, 6, 1), (5, 8, 4), (6, 7, 1), (7, 8, 1), (7, 10, 1),
                 (8, 9, 1), (9, 10, 1)]
READ = {
    "zoo.graphml": (["Zurich", "St-Polten-Krems", "None", "None-2", "Rquiet", "R5"],
                    [("Zurich", "St-Polten-Krems", 3), ("Zurich", "St-Polten-Krems", 2), ("St-Polten-Krems", "None", 2),
                     ("None", "None-2", 2), ("None-2", "Rquiet", 15)]),
    "links.json": (["core", "R1", "R2-0", "R1-2"], [("core", "R1", 4), ("core", "R1", 1), ("core", "R2-0", 1)]),
    "links.json --cost weight": (["core", "R1", "R2-0", "R1-2"], [("core", "R1", 2), ("core", "R1", 1), ("core", "R2-0", 5)]),
    "edges.json": (["a", "b", "c"], [("a", "b", 1), ("b", "c", 9)]),
    "block.clab.yml": (["a", "b", "c"], [("a", "b", 1), ("b", "c", 3), ("a", "c", 1)]),
    "flow.clab.yml": (["r1", "r2", "r3"], [("r1", "r2", 1), ("r2", "r3", 2)]),
    "triangle.clab.yml": (["a", "b", "c"], [("a", "b", 1), ("b", "c", 1), ("a", "c", 1)]),
    "abilene.graphml": (ABILENE, [(ABILENE[one], ABILENE[other], 1) for one, other, _ in ABILENE_LINKS]),
    "abilene.graphml --cost hops": (ABILENE, [(ABILENE[one], ABILENE[other], cost) for one, other, cost in ABILENE_LINKS]),
    "list.edges": (["north", "east", "south", "west"],
                   [("north", "east", 1), ("east", "south", 2), ("south", "west", 1), ("north", "west", 1), ("east", "west", 15)]),
}
# At how many places each of them is cut short.
CUTS = 100
# A file that is refused: its name, what it has, and what is said of it.
MANY = "".join(f"r{number} r{number + 1}\n" for number in range(4096))
HUB = "".join(f"hub leaf{number % 60}\n" for number in range(257))
XML = "<graphml>\n<graph>\n<node id='a'/>\n<node id='b'/>\n{}\n</graph>\n</graphml>\n"
YAML = "topology:\n  nodes:\n    a:\n    b:\n  links:\n    {}\n"
NODES = '{"nodes": [{"id": 1},\n {"id": 2}],\n "links": ['
BAD = [
    ("many.txt", MANY, "line 4096: router r4096 is the 4097th, and a network has at most 4096"),
    ("hub.txt", HUB, "line 257: router hub needs a 257th interface, and a router has at most 256"),
    ("dear.txt", "a b 15\nb c 16\n", "line 2: the edge of b and c costs 16, and a cost is 1 to 15"),
    ("free.txt", "a b 0\n", "line 1: the edge of a and b costs 0, and a cost is 1 to 15"),
    ("half.txt", "a b\na b 1.5\n", "line 2: the cost 1.5 is no whole number"),
    ("loop.txt", "# a loop\na b\nb b\n", "line 3: an edge joins router b with itself"),
    ("alone.txt", "a b\n\nc\n", "line 3: a line is A B or A B COST"),
    ("latin.txt", b"a b\nb \xfc\n", "line 2: this is no UTF-8"),
    ("empty.txt", "", "there is no router"),
    ("open.graphml", "<graphml>\n<graph>\n</graphml>\n", "line 3: this is no XML: mismatched tag"),
    ("coded.graphml", "<?xml version='1.0' encoding='f-8'?>\n<graphml/>\n", "line 1: this is no XML: unknown encoding: f-8"),
    ("other.graphml", "<svg>\n</svg>\n", "line 1: the file has <svg> and not <graphml>"),
    ("ends.graphml", XML.format("<edge source='a'/>"), "line 5: <edge> has no target"),
    ("nobody.graphml", XML.format("<edge source='a'\n target='c'/>"), "line 5: an edge of c, and no node c"),
    ("twice.graphml", XML.format("<node id='a'/>"), "line 5: a second node a"),
    ("hyper.graphml", XML.format("<hyperedge/>"), "line 5: a hyperedge, which is more than an edge"),
    ("price.graphml", XML.format("<edge source='a' target='b'><data key='cost'>low</data></edge>"), "line 5: the cost low is no whole number"),
    ("cut.json", NODES, "line 3: this is no JSON: Expecting value"),
    ("list.json", "[]", "line 1: this is no map with nodes and links"),
    ("none.json", '{"nodes": [],\n"links": 3}', "line 1: links is no list of maps"),
    ("nobody.json", NODES + '{"source": 1,\n"target": 3}]}', "line 3: an edge of 3, and no node 3"),
    ("ends.json", NODES + '\n{"source": 1}]}', "line 4: there is no target here"),
    ("price.json", NODES + '{"source": 1, "target": 2, "cost": "x"}]}', "line 3: the cost x is no whole number"),
    ("deep.json", "[" * 100_000, "its maps and lists are nested too deep"),
    ("bare.yml", "name: x\n", "line 1: there is no map topology here"),
    ("no.yml", "name: x\ntopology:\n  links: []\n", "line 3: there is no map nodes here"),
    ("tab.yml", "topology:\n\tnodes:\n", "line 2: a tab in the indentation"),
    ("twice.yml", YAML.replace("b:", "a:"), "line 4: a stands twice in one map"),
    ("anchor.yml", "topology:\n  nodes:\n    a: &x\n", "line 3: `&x` is more of YAML than is read here"),
    ("quote.yml", 'topology:\n  nodes:\n    a: "x\n', 'line 3: `"x` is more of YAML than is read here'),
    ("alias.yml", YAML.format('- endpoints: ["a:x", *b]'), "line 6: `*b]` is more of YAML than is read here"),
    ("escape.yml", YAML.format(r'- endpoints: ["a:x", "\x62:x"]'), r'line 6: "\x62:x" is more of YAML than is read here'),
    ("deep.yml", "topology:\n  nodes:\n    a:\n      kind: x\n     b:\n", "line 5: `b:` does not go on with what is before it"),
    ("over.yml", "topology:\n  nodes:\n    a: one\n      two\n", "line 4: `two` does not go on with what is before it"),
    ("second.yml", "topology:\n  nodes:\n    a:\n---\n", "line 4: `---` does not go on with what is before it"),
    ("open.yml", YAML.format('- endpoints: ["a:x", "b:x"'), "line 6: the end stands where the value in brackets does not go on so"),
    ("comma.yml", YAML.format('- endpoints: ["a:x" "b:x"]'), "line 6: `\"b:x\"` stands where the value in brackets does not go on so"),
    ("nobody.yml", YAML.format('- endpoints: ["a:x", "host:x"]'), "line 6: an edge of host, and no node host"),
    ("three.yml", YAML.format('- endpoints: ["a:x", "b:x", "b:y"]'), 'line 6: a link is not endpoints: ["NODE:INTERFACE", "NODE:INTERFACE"]'),
    ("labels.yml", YAML.format('- {endpoints: ["a:x", "b:x"], labels: 3}'), "line 6: labels is no map"),
    ("brief.yml", YAML.format("- type: veth"), 'line 6: a link is not endpoints: ["NODE:INTERFACE", "NODE:INTERFACE"]'),
]
# Shapes that are refused, and what is said.
NO_SHAPES = {
    "ring 2": "ring: 2 is no number from 3 to 99999",
    "ring 4097": "ring: router R4096 is the 4097th, and a network has at most 4096",
    "grid 241 17": "grid: router R4096 is the 4097th, and a network has at most 4096",
    "grid 5": "grid: a grid has 2 numbers, and here are 1",
    "ba 10000 2": "ba: router R4096 is the 4097th, and a network has at most 4096",
    "ba 3 3": "ba: 3 routers are too few for 3 links of each new one",
    "waxman 9 1.1": "waxman: 1.1 is no number above 0 and at most 1",
    "ring 8 --owners 9": "ring: owners are 1 to 8, one for each router, and not 9",
    "ring 8 --rounds 1001": "ring: rounds are 1 to 1000, and not 1001",
    "nothing.graphml": "nothing.graphml: it cannot be read: No such file or directory",
    "--seed x ba 9 1": "argument --seed: invalid int value: 'x'",
}
# How many routers and links shapes have, by hand.
SHAPES = {"ring 8": (8, 8), "line 14": (14, 13), "star 17": (17, 16), "grid 4 5": (20, 31), "grid 8 8": (64, 112), "tree 15": (15, 14),
          "tree 40 3": (40, 39), "line 1": (1, 0), "ba 30 1 --seed 4": (30, 29), "ba 50 2 --seed 7": (50, 96)}


def ran(words, folder):
    """The status of a command of topology.py whose files are in a folder, and what it writes to both outputs."""
    out, err = io.StringIO(), io.StringIO()
    given = [str(folder / word) if re.search(r"\.[a-z]+$", word) else word for word in words.split()]
    status = topology.main(given, out, err)
    return status, out.getvalue(), err.getvalue().replace(f"{folder}/", "")


def script_of(words):
    """The script that a command writes."""
    status, script, err = ran(words, FILES)
    same(f"what {words} comes to", (status, err), (0, ""))
    return script


def links_of(script):
    """The names of a script's routers, and its links between two of them: pairs of numbers, with the cost that both interfaces have."""
    network, ends = Network.of(script), collections.defaultdict(list)
    for port in network.ports:
        ends[port.link].append(port)
    same("whether addresses differ", len({port.addr for port in network.ports}), len(network.ports))
    same("who owns a prefix", [owner.router for owner in network.owners], list(range(network.routers)))
    pairs = [pair for _, pair in sorted(ends.items()) if len(pair) > 1]
    same("whether links have two ends of one cost", all(len(pair) == 2 and pair[0].cost == pair[1].cost for pair in pairs), True)
    return [name for name in network.numbers if not name.isdigit()], [(one.router, other.router, one.cost) for one, other in pairs]


def distances(count, links, start):
    """The least cost to each node, by Dijkstra's search."""
    least, waiting = {}, [(0, start)]
    while waiting:
        cost, node = heapq.heappop(waiting)
        if node in least:
            continue
        least[node] = cost
        for one, other, price in links:
            for here, there in ((one, other), (other, one)):
                if here == node and there not in least:
                    heapq.heappush(waiting, (cost + price, there))
    return least


def reads(words, names, links):
    """The names and the links of a file are those that it has."""
    found, pairs = links_of(script_of(words))
    same("the names", found, names)
    same("the links", [(found[one], found[other], cost) for one, other, cost in pairs], links)


def refuses(words, said, folder):
    """The command has status 1, says one line on standard error, and writes nothing."""
    same("the end", ran(words, pathlib.Path(folder)), (1, "", f"topology.py: {said}\n"))


def refuses_file(name, content, said, folder):
    path = pathlib.Path(folder) / name
    path.write_bytes(content if isinstance(content, bytes) else content.encode())
    refuses(name, f"{name}, {said}" if said.startswith("line ") else f"{name}: {said}", folder)


def is_refused_where_it_ends(path, folder):
    """A file that is cut short is read, or refused with one line that names the file, and the line where its text is wrong."""
    content, cut = path.read_bytes(), pathlib.Path(folder) / path.name
    for end in range(0, len(content), 1 + len(content) // CUTS):
        cut.write_bytes(content[:end])
        status, script, said = ran(path.name, cut.parent)
        if status:
            same(f"what is written where {end} bytes are left", script, "")
            if not re.fullmatch(rf"topology\.py: {re.escape(path.name)}(, line \d+|: there is no router).*\n", said):
                raise Failed(f"where {end} bytes are left it is said {said!r}")


def is_a_program():
    """The program does as its `main`."""
    for words in ("ring 4", "ring 2"):
        run = subprocess.run([ROOT / "tools/topology.py", *words.split()], capture_output=True, text=True)
        same(words, (run.returncode, run.stdout, run.stderr), ran(words, FILES))


def has_metrics(program, words):
    """After rounds each metric is the distance and 1, where that is below 16, and there is no other route."""
    script = script_of(f"{words} --rounds 20")
    names, links = links_of(script)
    owners = {owner.prefix: owner.router for owner in Network.of(script).owners}
    printed = lab(program, script.replace("\nrouter ", "\nrouter #"))
    found = {(router, owners[prefix]): metric for (router, prefix), metric in metrics_of(printed).items()}
    right = {(router, owner): cost + 1 for owner in range(len(names)) for router, cost in distances(len(names), links, owner).items()}
    same("the metrics", found, {pair: metric for pair, metric in right.items() if metric < 16})


def has_shape(words, routers, links):
    """A shape has so many routers and links, no two of the same routers, and is in one part."""
    names, pairs = links_of(script_of(words))
    same("routers and links", (len(names), len(pairs)), (routers, links))
    same("links of other routers", len({frozenset(pair[:2]) for pair in pairs}), links)
    same("routers that are reached", len(distances(routers, pairs, 0)), routers)


def has_limits(program):
    """The program takes a network of the greatest size, and none with a router or an interface more."""
    for words, place, more, why in (("grid 64 64", "cold 0", "router\niface fe80::ffff 1 9999", "1 TooManyRouters"),
                                    ("star 17", "own ", "iface fe80::ffff 1 999\n" * 241, "3 BadRouter 0 2 TooManyInterfaces")):
        script = script_of(words)
        lab(program, script)
        run = subprocess.run([program, "lab", "/dev/stdin"], input=script.replace(place, f"{more}\n{place}", 1), capture_output=True, text=True)
        same(f"how a longer {words} ends", run.stdout.partition(" refused ")[2], f"{why}\n")


def grows():
    """Each router of a Barabasi-Albert graph but the first has its links to routers before it."""
    _, pairs = links_of(script_of("ba 50 2 --seed 7"))
    before = collections.Counter(max(pair[:2]) for pair in pairs)
    same("links of new routers", [before[number] for number in range(3, 50)], [2] * 47)


def is_near():
    """A Waxman graph has most of its links where they are all certain, few where they are rare."""
    counts = [len(links_of(script_of(f"waxman 16 {words} --seed 5"))[1]) for words in ("1 1", "1 0.1", "0.1 0.1")]
    same(f"whether {counts} become fewer", 120 >= counts[0] > counts[1] > counts[2], True)


def is_by_seed():
    """The same seed gives the same script, another one another."""
    for shape in ("ba 20 2", "waxman 20"):
        one, again, other = (script_of(f"{shape} --seed {seed}").split("\n", 1)[1] for seed in (1, 1, 2))
        same(f"whether {shape} is the same", (one == again, one == other), (True, False))


class Nodes:
    """What graphs of networkx have: nodes, and edges that give a map of attributes each."""
    nodes = ["x", "y", "z", "w"]
    edges = {("x", "y"): {"weight": 2}, ("y", "z"): {}, ("x", "z"): {"weight": 9}}


def notebook(program):
    """The tables of a network are those of its distances, before and after a link is cut and a router fails."""
    ring = [(number, (number + 1) % 5) for number in range(5)]
    network = ripnglab.Network.from_graph(ring, program=program).rounds(10)
    same("a ring", network.tables(), {router: {owner: 1 + min((owner - router) % 5, (router - owner) % 5) for owner in range(5)} for router in range(5)})
    network.cut((4, 0)).rounds(40)
    same("a line", network.tables(), {router: {owner: 1 + abs(owner - router) for owner in range(5)} for router in range(5)})
    network.mend(4).down(2).rounds(40)
    same("without router 2", network.tables()[1], {1: 1, 0: 2, 4: 3, 3: 4})
    network.up(2).rounds(20)
    same("with router 2", network.tables()[1], {1: 1, 0: 2, 2: 2, 3: 3, 4: 3})


def notebook_costs(program):
    """Costs come from an attribute, a map or a number."""
    tables = ripnglab.Network.from_graph(Nodes, "weight", program).rounds(10).tables()
    same("by an attribute", tables, {"x": {"x": 1, "y": 3, "z": 4}, "y": {"x": 3, "y": 1, "z": 2}, "z": {"x": 4, "y": 2, "z": 1}, "w": {"w": 1}})
    same("by a map", ripnglab.Network.from_graph([("a", "b")], {("b", "a"): 7}, program).rounds(2).tables()["a"]["b"], 8)
    same("by a number", ripnglab.Network.from_graph([("a", "b")], 3, program).rounds(2).tables()["a"]["b"], 4)


def notebook_counts(program):
    """Two routers send a Request each, then their own prefix, then both prefixes."""
    network = ripnglab.Network.from_graph([("a", "b")], program=program)
    counts = [network.counts(), network.rounds(1).counts(), network.rounds(1).counts()]
    wanted = [(2, 2, 0, 0), (4, 2, 2, 2), (6, 2, 6, 2)]
    same("what is sent", [tuple(count[name] for name in ("datagrams", "requests", "entries", "changes")) for count in counts], wanted)


def notebook_time(program):
    """Time passes, with a delay and a cut: the way round is found, and the lines of numbers have what is counted."""
    network = ripnglab.Network.from_graph([("a", "b"), ("b", "c"), ("c", "a")], program=program).link(("a", "b"), 500).run(60_000, 1)
    same("a ring", network.tables()["a"], {"a": 1, "b": 2, "c": 2})
    network.cut(("a", "b")).run(400_000, 2)
    same("a line", network.tables()["a"], {"a": 1, "b": 3, "c": 2})
    counts, rows, by_router = network.counts(), network.numbers(10), network.numbers(10, by_router=True)
    for name in ("datagrams", "entries", "bytes", "regular", "triggered", "requests", "replies", "changes"):
        same(f"the sums of {name}", [sum(row[name] for row in of) for of in (rows, by_router)], [counts[name]] * 2)
    same("the routers", [row["router"] for row in by_router[:3]], ["a", "b", "c"])
    swept = network.sweep(3, 5)
    same("a sweep of lines that name their seeds", [(row["seed"], row["status"], row["entries"], row["last"]) for row in swept],
         [(seed, 0, counts["entries"], counts["last"]) for seed in (3, 4, 5)])


def notebook_refusals(program):
    """What the program refuses, and what no network has, is an error that says so."""
    network = ripnglab.Network.from_graph([("a", "b")], program=program)
    calls = {
        "`rounds 1001 0 15000` refused: BadLine": lambda: network.rounds(1001).play(),
        "no router c": lambda: network.down("c"),
        "no link joins a and c": lambda: network.cut(("a", "c")),
        "router hub needs a 257th interface": lambda: ripnglab.Network.from_graph([("hub", leaf % 60) for leaf in range(257)]),
    }
    for said, call in calls.items():
        try:
            call()
        except ripnglab.Fault as fault:
            same("how it begins", str(fault)[:len(said)], said)
            continue
        raise Failed(f"it is not said that {said}")


def shown(program):
    """The lines of Python that docs/SCRIPTS.md shows do as a triangle does that loses a side."""
    page = (ROOT / "docs/SCRIPTS.md").read_text()
    lines = re.search(r"(?:^    .*\n)*^    from ripnglab import.*\n(?:^    .*\n)*", page, re.MULTILINE)[0]
    run = subprocess.run([sys.executable, "-Bc", textwrap.dedent(lines)], capture_output=True, text=True, timeout=60,
                         env={"PYTHONPATH": str(ROOT / "tools"), "RIPNGD": program})
    same("what is printed", (run.stdout[:2], run.stderr), ("3 ", ""))


def main(program, *names):
    program = str(pathlib.Path(program).resolve(strict=True))
    played = [*READ, "ring 8", "line 20", "star 17", "grid 4 5", "tree 40 3", "line 1", "ba 30 2 --seed 7", "waxman 30 --seed 3", "waxman 12 1 0.3"]
    cases = [
        *((f"{words} is read", lambda folder, words=words: reads(words, *READ[words])) for words in READ),
        *((f"{name} is refused", lambda folder, bad=(name, *bad): refuses_file(*bad, folder)) for name, *bad in BAD),
        *((f"{words} is refused", lambda folder, words=words: refuses(words, NO_SHAPES[words], folder)) for words in NO_SHAPES),
        *((f"{words} has its shape", lambda folder, words=words: has_shape(words, 34, 78)) for words in ("karate.txt", "karate.json", "karate.json --cost weight")),
        *((f"{path.name} cut short says where", lambda folder, path=path: is_refused_where_it_ends(path, folder)) for path in sorted(FILES.iterdir())),
        *((f"{words} has its shape", lambda folder, words=words: has_shape(words, *SHAPES[words])) for words in SHAPES),
        *((f"{words} has its metrics", lambda folder, words=words: has_metrics(program, words)) for words in played),
        ("topology.py is a program", lambda folder: is_a_program()),
        ("limits are those of the program", lambda folder: has_limits(program)),
        ("ba adds routers", lambda folder: grows()),
        ("waxman joins near routers", lambda folder: is_near()),
        ("random shapes are by their seed", lambda folder: is_by_seed()),
        *((f"a notebook: {case.__name__}", lambda folder, case=case: case(program)) for case in (notebook, notebook_costs, notebook_counts, notebook_time, notebook_refusals, shown)),
    ]
    return play(named(cases, names))


if __name__ == "__main__":
    sys.exit(main(*sys.argv[1:]))
