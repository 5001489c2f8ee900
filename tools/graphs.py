"""Graphs of routers: nodes with labels, edges with costs, and the line of a file where each of them stands. Graphs of usual shapes are
made here, random ones by a seed, so that the same words give the same graph."""

import dataclasses
import itertools
import math
import random


class Fault(Exception):
    """Why a graph or a file is refused, and the line of the file, where there is one."""

    def __init__(self, text, line=None):
        super().__init__(text)
        self.line = line


@dataclasses.dataclass
class Node:
    label: str
    line: int | None = None


@dataclasses.dataclass
class Edge:
    """A link between two nodes, by their numbers from 0. Two nodes may have several."""
    ends: tuple[int, int]
    cost: int = 1
    line: int | None = None


class Graph:
    """Nodes, each known by a key, and the edges between them, in the order in which they were added."""

    def __init__(self):
        self.nodes, self.edges, self.numbers = [], [], {}

    def add_node(self, key, label=None, line=None):
        """Adds a node that no earlier one has the key of."""
        if key in self.numbers:
            raise Fault(f"a second node {key}", line)
        self.numbers[key] = len(self.nodes)
        self.nodes.append(Node(str(key if label is None else label), line))

    def add_edge(self, one, other, cost=1, line=None):
        """Adds an edge between two nodes, by their keys."""
        for key in (one, other):
            if key not in self.numbers:
                raise Fault(f"an edge of {key}, and no node {key}", line)
        self.edges.append(Edge((self.numbers[one], self.numbers[other]), cost, line))

    def parts(self):
        """How many parts the graph has that no edge joins."""
        roots = list(range(len(self.nodes)))

        def root(node):
            while roots[node] != node:
                roots[node] = node = roots[roots[node]]
            return node

        for edge in self.edges:
            roots[root(edge.ends[0])] = root(edge.ends[1])
        return len({root(node) for node in roots})


def graph_of(count, pairs):
    """The graph of so many nodes R0, R1 .. with these edges, each of cost 1."""
    graph = Graph()
    for number in range(count):
        graph.add_node(number, f"R{number}")
    for one, other in pairs:
        graph.add_edge(one, other)
    return graph


def ring(count):
    return graph_of(count, [(number, (number + 1) % count) for number in range(count)])


def line(count):
    return graph_of(count, itertools.pairwise(range(count)))


def star(count):
    """All others are neighbors of the first."""
    return graph_of(count, [(0, leaf) for leaf in range(1, count)])


def grid(width, height):
    """Rows of so many nodes, each a neighbor of those beside, above and below it."""
    rights = [(place, place + 1) for place in range(width * height) if (place + 1) % width]
    return graph_of(width * height, rights + [(place, place + width) for place in range(width * (height - 1))])


def tree(count, children=2):
    """Each node has so many children, while there are nodes."""
    return graph_of(count, [((child - 1) // children, child) for child in range(1, count)])


def barabasi_albert(count, links, *, seed):
    """A star of links + 1 nodes; then each new node gets that many edges, each to a node drawn in proportion to the edges that it has."""
    if count <= links:
        raise Fault(f"{count} routers are too few for {links} links of each new one")
    draws = random.Random(seed)
    pairs = [(0, leaf) for leaf in range(1, links + 1)]
    ends = list(itertools.chain(*pairs))
    for node in range(links + 1, count):
        chosen = {}
        while len(chosen) < links:
            chosen[draws.choice(ends)] = None
        pairs += [(old, node) for old in chosen]
        ends += [*chosen, *[node] * links]
    return graph_of(count, pairs)


def waxman(count, beta=0.4, alpha=0.2, *, seed):
    """Nodes at random places of a square. Two are neighbors with the probability beta * exp(-d / (alpha * D)): d is their distance, D the
    greatest of all."""
    draws = random.Random(seed)
    places = [(draws.random(), draws.random()) for _ in range(count)]

    def far():
        return (math.dist(one, other) for one, other in itertools.combinations(places, 2))

    greatest = max(far(), default=1)
    pairs = zip(itertools.combinations(range(count), 2), far())
    return graph_of(count, [pair for pair, distance in pairs if draws.random() < beta * math.exp(-distance / (alpha * greatest))])
