"""Networks of RIPng routers for notebooks: a graph becomes a script of `ripngd lab`, and its trace becomes tables and counts.

    import sys; sys.path.append("tools")
    from ripnglab import Network

    network = Network.from_graph([("a", "b"), ("b", "c"), ("c", "a")])
    network.link(("a", "b"), 20).run(300_000).cut(("a", "b")).run(600_000)
    network.tables()["a"]["b"]          # 3: over c
    network.counts()                    # {"datagrams": .., "entries": .., "last": ..}
    network.numbers(10)                 # [{"time": 0, "datagrams": ..}, ..]: what was sent in each interval of 10 seconds
    network.sweep(1, 100)               # [{"seed": 1, "status": 0, "datagrams": ..}, ..]: a run for each seed

Each node of the graph is a router that owns one prefix, each edge a link. Nodes keep the names that they have in the graph. Times are in
milliseconds since the cold start. A line of the script is added by each call, and the program runs when something is asked, from the cold start on. What no network can be is a `Fault`
when it is made, and what the program refuses is `Refused`. The program is the one that a network is given, or that the variable RIPNGD
names, or the one that is built here, or else the installed one.
"""

import csv
import json
import os
import pathlib
import subprocess

import topology
from graphs import Fault, Graph

BUILT = pathlib.Path(__file__).resolve().parent.parent / "bin/ripngd"
# A metric of this much is no route (RFC 2080, 2.1).
INFINITY = 16


class Refused(Fault):
    """What the program refuses, in its words, and the hint that it gives."""


def cost_of(edges, edge, costs):
    """What an edge costs: `costs` is a number for all, the name of an attribute, or a map by pairs. It is 1 if none is given."""
    if isinstance(costs, int):
        return costs
    if isinstance(costs, str):
        return edges[edge].get(costs, 1)
    one, other = edge[:2]
    return costs.get((one, other), costs.get((other, one), 1))


def lab(program, script, *options):
    """What the program does with a script."""
    return subprocess.run([program, "lab", *options, "/dev/stdin"], input=script, capture_output=True, text=True)


def rows(run):
    """Lines of numbers as maps; a value that is missing is None. Where the program refuses something, there are none."""
    if run.returncode > 1 or not run.stdout or (run.returncode and not run.stdout.startswith("seed,")):
        raise Refused(f"the program ended with status {run.returncode}: {run.stdout.splitlines()[-1:]} {run.stderr.strip()}")
    return [{name: int(value) if value.isdigit() else value or None for name, value in row.items()} for row in csv.DictReader(run.stdout.splitlines())]


def result(program, script):
    """The records of a script's trace."""
    run = lab(program, script, "--trace")
    records = [json.loads(line) for line in run.stdout.splitlines()]
    if records and records[-1]["record"] == "refused":
        hint = (records[-1]["hint"] or {}).get("text")
        line = script.splitlines()[records[-1]["line"] - 1]
        raise Refused(f"`{line}` refused: {records[-1]['why']}" + (f"; {hint}" if hint else ""), records[-1]["line"])
    if run.returncode:
        raise Refused(f"the program ended with status {run.returncode}: {run.stderr.strip()}")
    return records


class Network:
    """A network, and what happens in it. `records` has all records of the trace (docs/TRACE.md) after a run."""

    def __init__(self, graph, program=None):
        self.program = str(program or os.environ.get("RIPNGD") or (BUILT if BUILT.exists() else "ripngd"))
        self.graph, self.routers, self.records = graph, list(graph.numbers), None
        self.script, self.names = topology.script_of(graph, "a graph")
        self.has_time = False

    @classmethod
    def from_graph(cls, graph, costs=1, program=None):
        """The network of a list of pairs, or of what has `nodes` and `edges`, as graphs of networkx do."""
        made, edges = Graph(), getattr(graph, "edges", graph)
        for node in getattr(graph, "nodes", ()):
            made.add_node(node)
        for edge in edges:
            for node in edge[:2]:
                if node not in made.numbers:
                    made.add_node(node)
            made.add_edge(*edge[:2], cost_of(edges, edge, costs))
        return cls(made, program)

    # ---- What happens ----
    def add(self, *lines):
        """Adds lines of a script, in which routers and links have the names and numbers of the script."""
        self.script += "".join(f"{line}\n" for line in lines)
        self.records = None
        return self

    def rounds(self, count):
        """All routers make so many rounds, 15 seconds apart."""
        begin, self.has_time = f"+{topology.GAP}" if self.has_time else "0", True
        return self.add(f"rounds {count} {begin} {topology.GAP}")

    def run(self, until, seed=None):
        """Time passes until that moment: all routers act when they have to, and datagrams take what their links take. What is random is
        by the seed, or by that of a sweep."""
        self.has_time = True
        return self.add(f"run {until}" if seed is None else f"run {until} {seed}")

    def link(self, link, delay, loss=0):
        """From now on a link, or the links of a pair of routers, takes so many milliseconds, and loses so many datagrams in a hundred."""
        return self.add(*(f"link {number} {delay} {loss}" for number in self.links(link)))

    def down(self, router):
        """A router fails: it neither sends nor receives, until it is up again."""
        return self.add(f"silent {self.name(router)}")

    def up(self, router):
        return self.add(f"speaks {self.name(router)}")

    def cut(self, link):
        """Nothing crosses a link, until it is mended. It is its number in the order of edges, or a pair of routers, with all their links."""
        return self.add(*(f"cut {number}" for number in self.links(link)))

    def mend(self, link):
        return self.add(*(f"mend {number}" for number in self.links(link)))

    # ---- What came of it ----
    def play(self):
        """Runs the program, if anything was added since it ran."""
        if self.records is None:
            self.records = result(self.program, f"{self.script}counts\n")
        return self

    def tables(self):
        """The metric by router and by owner of the prefix. Without a route there is none."""
        tables = [{} for _ in self.routers]
        for record in self.play().records:
            if record["record"] == "start":
                for router, table in zip(record["routers"], tables):
                    table.update({route["prefix"]: route["metric"] for route in router["routes"]})
            elif record["record"] == "event":
                table = tables[record["router"]]
                for prefix in record["gone"]:
                    del table[prefix]
                table.update({route["prefix"]: route["metric"] for route in record["routes"]})
        owners = {topology.owned(number): router for number, router in enumerate(self.routers)}
        return {router: {owners[prefix]: metric for prefix, metric in table.items() if metric < INFINITY and prefix in owners}
                for router, table in zip(self.routers, tables)}

    def counts(self):
        """The numbers of the line `counts` (docs/SCRIPTS.md) at the end: datagrams, entries of Responses, bytes, updates and more. `last` is
        when a forwarding table changed last, or None."""
        return {name: number for name, number in self.play().records[-1].items() if name not in ("line", "record")}

    def numbers(self, seconds, by_router=False):
        """The lines of `lab --csv` (docs/RESEARCH.md), as maps."""
        return rows(lab(self.program, self.script, "--csv", str(seconds), *(("--by", "router") if by_router else ())))

    def sweep(self, first, last):
        """The lines of `lab --seeds` (docs/RESEARCH.md), as maps. `status` is 1 for a seed with which a line is refused or not met."""
        return rows(lab(self.program, self.script, "--seeds", f"{first}..{last}"))

    # ---- Names ----
    def name(self, router):
        """The name of a router in the script."""
        if router not in self.graph.numbers:
            raise Fault(f"no router {router}")
        return self.names[self.graph.numbers[router]]

    def links(self, link):
        """The numbers of links."""
        if isinstance(link, int):
            return [link]
        ends = {self.graph.numbers.get(router) for router in link}
        found = [number for number, edge in enumerate(self.graph.edges) if set(edge.ends) == ends]
        if not found:
            raise Fault(f"no link joins {link[0]} and {link[1]}")
        return found
