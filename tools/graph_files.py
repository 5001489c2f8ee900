"""Graphs out of files of other programs: GraphML, NetworkX's node-link JSON, topologies of containerlab, and lists of edges.

Each reader takes the bytes of a file and the name of the attribute of an edge that is its cost; an edge without it costs 1. Each edge is
one link: whether it has a direction is not looked at. What is wrong in a file is a `Fault` with its line."""

import bisect
import json
import json.scanner
import pathlib
import re
import xml.etree.ElementTree as ElementTree
from xml.parsers import expat

import yaml_part
from graphs import Fault, Graph

# What attribute of a node is its label, the first that it has.
LABELS = ("label", "name")


def text_of(data):
    """The text of a file in UTF-8."""
    try:
        return data.decode()
    except UnicodeDecodeError as error:
        raise Fault("this is no UTF-8", data.count(b"\n", 0, error.start) + 1) from None


def cost_of(value, line):
    """The cost that an attribute says; whether a network may have it is seen later."""
    if value is None:
        return 1
    if not re.fullmatch(r"-?\d{1,9}(\.0+)?", str(value).strip()):
        raise Fault(f"the cost {value} is no whole number", line)
    return int(float(value))


def label_of(attributes, key):
    return next((attributes[name] for name in LABELS if attributes.get(name) not in (None, "")), key)


# ---- GraphML ----
def xml_of(data):
    """The outermost element of an XML file, and the line of each element. Names lose their name space."""
    builder, lines, parser = ElementTree.TreeBuilder(), {}, expat.ParserCreate(namespace_separator="}")

    def start(tag, attributes):
        lines[builder.start(tag.rpartition("}")[2], attributes)] = parser.CurrentLineNumber

    parser.StartElementHandler = start
    parser.EndElementHandler = lambda tag: builder.end(tag.rpartition("}")[2])
    parser.CharacterDataHandler = builder.data
    try:
        parser.Parse(data, True)
    except expat.ExpatError as error:
        raise Fault(f"this is no XML: {expat.ErrorString(error.code)}", error.lineno) from None
    except (LookupError, ValueError) as error:
        raise Fault(f"this is no XML: {error}", 1) from None
    return builder.close(), lines


def graphml(data, cost):
    root, lines = xml_of(data)
    if root.tag != "graphml":
        raise Fault(f"the file has <{root.tag}> and not <graphml>", lines[root])
    for element in root.iter("hyperedge"):
        raise Fault("a hyperedge, which is more than an edge", lines[element])
    names = {key.get("id"): key.get("attr.name") for key in root.iter("key")}
    defaults = [(key.get("for"), key.get("attr.name"), key.findtext("default").strip()) for key in root.iter("key") if key.findtext("default")]

    def attributes(element):
        found = {name: value for kind, name, value in defaults if kind in (element.tag, "all", None)}
        found.update({names.get(item.get("key"), item.get("key")): (item.text or "").strip() for item in element.findall("data")})
        return found

    def needed(element, name):
        if element.get(name) is None:
            raise Fault(f"<{element.tag}> has no {name}", lines[element])
        return element.get(name)

    graph = Graph()
    for node in root.iter("node"):
        key = needed(node, "id")
        graph.add_node(key, label_of(attributes(node), key), lines[node])
    for edge in root.iter("edge"):
        price = cost_of(attributes(edge).get(cost), lines[edge])
        graph.add_edge(needed(edge, "source"), needed(edge, "target"), price, lines[edge])
    return graph


# ---- node-link JSON ----
class Places(json.JSONDecoder):
    """A decoder whose maps know the line in which they begin."""

    def __init__(self):
        super().__init__()
        self.parse_object, self.breaks = self.placed, []
        self.scan_once = json.scanner.py_make_scanner(self)

    def decode(self, text):
        self.breaks = [place.start() for place in re.finditer("\n", text)]
        return super().decode(text)

    def placed(self, text_and_place, *words):
        value, end = json.decoder.JSONObject(text_and_place, *words)
        found = yaml_part.Placed(bisect.bisect_left(self.breaks, text_and_place[1]) + 1)
        found.update(value)
        return found, end


def items_of(whole, name):
    """The maps of a list."""
    items = whole.get(name)
    if not isinstance(items, list) or not all(isinstance(item, dict) for item in items):
        raise Fault(f"{name} is no list of maps", whole.line)
    return items


def key_of(item, name):
    """The key of a node: a text, a number or a list of them, as JSON writes it, since 1 and "1" are two nodes."""
    if name not in item:
        raise Fault(f"there is no {name} here", item.line)
    return json.dumps(item[name], ensure_ascii=False)


def node_link(data, cost):
    try:
        whole = Places().decode(text_of(data))
    except json.JSONDecodeError as error:
        raise Fault(f"this is no JSON: {error.msg}", error.lineno) from None
    if not isinstance(whole, dict):
        raise Fault("this is no map with nodes and links", 1)
    graph = Graph()
    for node in items_of(whole, "nodes"):
        key = key_of(node, "id")
        graph.add_node(key, label_of(node, key.strip('"')), node.line)
    for edge in items_of(whole, "links" if "links" in whole else "edges"):
        graph.add_edge(key_of(edge, "source"), key_of(edge, "target"), cost_of(edge.get(cost), edge.line), edge.line)
    return graph


# ---- Topologies of containerlab ----
def map_of(whole, name, line):
    """A map that a map has under a name."""
    found = whole.get(name) if isinstance(whole, dict) else None
    if not isinstance(found, dict):
        raise Fault(f"there is no map {name} here", line)
    return found


def link_of(link, line):
    """The two routers of a link."""
    ends = link.get("endpoints") if isinstance(link, dict) else None
    if not isinstance(ends, list) or len(ends) != 2 or not all(isinstance(end, str) and re.fullmatch(r"[^:]+:.+", end) for end in ends):
        raise Fault('a link is not endpoints: ["NODE:INTERFACE", "NODE:INTERFACE"]', line)
    return [end.partition(":")[0] for end in ends]


def containerlab(data, cost):
    whole = yaml_part.read(text_of(data))
    topology = map_of(whole, "topology", 1)
    nodes = map_of(topology, "nodes", topology.line)
    graph = Graph()
    for name in nodes:
        graph.add_node(name, line=nodes.lines[name])
    links = topology.get("links") or []
    if not isinstance(links, list):
        raise Fault("links is no list", topology.lines["links"])
    for link in links:
        line = getattr(link, "line", topology.lines["links"])
        one, other = link_of(link, line)
        labels = link.get("labels") or {}
        if not isinstance(labels, dict):
            raise Fault("labels is no map", line)
        graph.add_edge(one, other, cost_of(labels.get(cost), line), line)
    return graph


# ---- Lists of edges ----
def edge_list(data, _):
    """Lines A B or A B COST. Each node is one when it is first named."""
    graph = Graph()
    for number, line in enumerate(text_of(data).splitlines(), 1):
        words = re.sub(r"(^|\s)#.*", "", line).split()
        if not words:
            continue
        if len(words) not in (2, 3):
            raise Fault("a line is A B or A B COST", number)
        for key in words[:2]:
            if key not in graph.numbers:
                graph.add_node(key, line=number)
        graph.add_edge(*words[:2], cost_of(words[2] if words[2:] else None, number), number)
    return graph


# How the name of a file of each form ends. All others are lists of edges.
READERS = {".graphml": graphml, ".xml": graphml, ".json": node_link, ".yml": containerlab, ".yaml": containerlab}


def read(path, cost):
    """The graph of a file."""
    try:
        data = pathlib.Path(path).read_bytes()
    except OSError as error:
        raise Fault(f"it cannot be read: {error.strerror}") from None
    try:
        return READERS.get(pathlib.Path(path).suffix.lower(), edge_list)(data, cost)
    except RecursionError:
        raise Fault("its maps and lists are nested too deep") from None
