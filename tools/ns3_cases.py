"""What the laboratory and ns-3's RIPng are run on (tools/beside_ns3.py): networks of usual shapes and at random, the same for both, the programs
that are measured, what they have sent, and which metrics are right."""

import csv
import pathlib
import random
import re
import subprocess

ROOT = pathlib.Path(__file__).resolve().parent.parent
CUT, STOP, GAP = 300, 600, 30
INFINITY = 16
PREFIX = re.compile(r"2001:db8:([0-9a-f]+)::/48")


# ---- Networks: lists of links, each of two routers and the cost of each end ----
def shape(name, routers, seed=1):
    import networkx
    if name == "ring":
        graph = networkx.cycle_graph(routers)
    elif name == "grid":
        height = max(number for number in range(1, int(routers ** 0.5) + 1) if routers % number == 0)
        graph = networkx.convert_node_labels_to_integers(networkx.grid_2d_graph(height, routers // height), ordering="sorted")
    elif name == "ba":
        graph = networkx.barabasi_albert_graph(routers, 2, seed=seed)
    else:
        graph = networkx.gnm_random_graph(routers, 3 * routers // 2, seed=seed)
    return graph


def links_of(graph, words=None):
    """The links of a graph, with the cost 1, or with costs from 1 to 4 at random."""
    return [(*sorted(edge), *(words.randint(1, 4) if words else 1 for _ in range(2))) for edge in sorted(map(sorted, graph.edges))]


def network_of(routers, links):
    """The lines of a script, up to its start."""
    ports = [[] for _ in range(routers)]
    for number, (one, other, cost, other_cost) in enumerate(links):
        ports[one].append((cost, number))
        ports[other].append((other_cost, number))
    for router, its in enumerate(ports):
        yield "router"
        yield from (f"iface fe80::{router:x}:{iface + 1:x} {cost} 1500 {link}" for iface, (cost, link) in enumerate(its))
        yield f"own 2001:db8:{router + 1:x}::/48 0"
    yield "cold 0"


def script_of(routers, links, way, cut=0, seed=1, stop=STOP):
    """A script of ten minutes, by one of the three ways; `print` stands where its tables are wanted."""
    lines = list(network_of(routers, links))
    if way == "run":
        lines += [f"link {number} 1" for number in range(len(links))]
        lines += [f"run {CUT * 1000 - 1} {seed}", "print", f"down {cut} {CUT * 1000}", f"run {stop * 1000} {seed + 1}"]
    elif way == "rounds":
        lines += [f"rounds {CUT // GAP} 0 {GAP * 1000}", "print", f"down {cut} {CUT * 1000}",
                  f"rounds {(stop - CUT) // GAP} {CUT * 1000} {GAP * 1000}"]
    else:
        lines += [f"phases {CUT // 60} {seed}", "print", f"costs {cut} +0 15", f"phases {(stop - CUT) // 60} {seed + 1}"]
    return [*lines, "print"]


# ---- Programs ----
# A small process of its own between this one and a command, so that the peak is that of the command.
BETWEEN = """
#include <csignal>
#include <cstdio>
#include <cstdlib>
#include <sys/resource.h>
#include <sys/wait.h>
#include <unistd.h>

int main(int, char** words)
{
    pid_t child = fork();
    if (child == 0) {
        rlim_t seconds = static_cast<rlim_t>(std::atol(words[1]));
        rlimit limit = {seconds, seconds + 1};
        setrlimit(RLIMIT_CPU, &limit);
        execvp(words[2], words + 2);
        _exit(127);
    }
    int status = 0;
    rusage used = {};
    wait4(child, &status, 0, &used);
    double seconds = used.ru_utime.tv_sec + used.ru_stime.tv_sec + (used.ru_utime.tv_usec + used.ru_stime.tv_usec) / 1e6;
    std::fprintf(stderr, "\\n%.3f %.1f\\n", seconds, used.ru_maxrss / 1024.0);
    return WIFEXITED(status) ? WEXITSTATUS(status) : WTERMSIG(status) == SIGXCPU ? 124 : 125;
}
"""


def built(folder, name, source, *words):
    """A program out of a text of C++."""
    path, program = folder / f"{name}.cc", folder / name
    path.write_text(source)
    subprocess.run(["g++", "-std=c++17", "-O2", "-o", program, path, *words], check=True)
    return program


def measured(options, command):
    """The processor seconds of a command, its peak in MB, and what it prints; None where it takes more than the limit."""
    run = subprocess.run([options.between, str(options.limit), *map(str, command)], capture_output=True, text=True)
    if run.returncode == 124:
        return None
    if run.returncode:
        raise SystemExit(f"{command[0]} ended with status {run.returncode}: {run.stdout[-300:]}{run.stderr[-300:]}")
    seconds, megabytes = map(float, run.stderr.splitlines()[-1].split())
    return seconds, megabytes, run.stdout


def between(folder):
    """The process between, as a program."""
    return built(folder, "between", BETWEEN)


def peer(folder):
    """The program of ns-3."""
    libraries = [f"-lns3-{module}" for module in ("point-to-point", "internet", "network", "core")]
    return built(folder, "ripng_peer", (ROOT / "tools/ripng_peer.cc").read_text(), *libraries)


# ---- What was sent ----
def sent_by_peer(printed):
    """The entries of all datagrams: a Request for a whole table has one, too."""
    return int(re.search(r" entries (\d+)", printed)[1])


def sent_by_lab(printed, links, failed=None):
    """The same of `lab --csv CUT --by router`, and how many of them go onto the failed link, behind its failure. Nothing carries these, and ns-3's
    routers send none. They are a share of what the routers at its ends send, since an update has the same entries on each interface."""
    ends, sent, lost = links[failed][:2] if failed is not None else (), 0, 0
    for row in csv.DictReader(printed.splitlines()):
        sent += int(row["entries"]) + int(row["requests"])
        if float(row["time"]) >= CUT and int(row["router"]) in ends:
            lost += int(row["entries"]) // sum(int(row["router"]) in link[:2] for link in links)
    return sent - lost, lost


# ---- What is right ----
def right_metrics(routers, links, failed=None):
    """The metric of each router's route to the prefix of each other one, by networkx: 1, and the costs of the interfaces that receive."""
    import networkx
    graph = networkx.MultiDiGraph()
    graph.add_nodes_from(range(routers))
    for number, (one, other, cost, other_cost) in enumerate(links):
        if number != failed:
            graph.add_edge(one, other, weight=other_cost)
            graph.add_edge(other, one, weight=cost)
    metrics = {}
    for owner in range(routers):
        for router, cost in networkx.single_source_bellman_ford_path_length(graph, owner).items():
            if cost + 1 < INFINITY:
                metrics[router, owner] = cost + 1
    return metrics


def metrics_of_peer(path):
    """The metrics in a file of tables of ns-3."""
    metrics, router = {}, None
    for line in path.read_text().splitlines():
        if line.startswith("ROUTER "):
            router = int(line.split()[1])
        elif found := re.match(r"2001:db8:([0-9a-f]+)::/48 +\S+ +\S+ +(\d+) ", line):
            metrics[router, int(found[1], 16) - 1] = int(found[2])
    return metrics


def metrics_of_lab(lines):
    """The metrics that a script prints."""
    metrics = {}
    for line in lines:
        words = line.split(" ")
        if len(words) > 3 and words[2] == "metric":
            metrics[int(words[0]), int(PREFIX.fullmatch(words[1])[1], 16) - 1] = int(words[3])
    return metrics


def wrong(found, wanted):
    """How many metrics differ; one of 16 counts as none."""
    found = {pair: metric for pair, metric in found.items() if metric < INFINITY}
    return sum(found.get(pair) != wanted.get(pair) for pair in found.keys() | wanted.keys())


def settled_at(moments):
    """The first moment from which on nothing is wrong, of pairs of a moment and a count."""
    since = None
    for moment, count in reversed(moments):
        if count:
            break
        since = moment
    return since


def random_case(seed):
    """A connected graph of 8 to 24 routers with costs at random, and the link that fails."""
    import networkx
    words = random.Random(seed)
    while True:
        routers = words.choice([8, 12, 16, 20, 24])
        graph = shape(words.choice(["ba", "random"]), routers, words.randrange(1 << 30))
        if networkx.is_connected(graph):
            links = links_of(graph, words)
            return routers, links, words.randrange(len(links))
