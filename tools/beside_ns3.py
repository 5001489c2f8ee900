#!/usr/bin/env python3
"""The laboratory beside ns-3's RIPng at the same work: networks of usual shapes, ten minutes from a cold start, a link that fails after five.

    tools/beside_ns3.py [--program PROGRAM] [--only work|entries|right] [--shapes ring,grid,ba] [--limit SECONDS]
                        [--routers 10,64,200] [--times N] [--sizes 10,16,32,64] [--seeds N] [--graphs N] [--peer PROGRAM]

It needs libns3-dev, g++ and python3-networkx, and takes minutes. The program of ns-3 is built of tools/ripng_peer.cc in a new folder first, if no
other is named. Printed are three tables in Markdown, below what they were measured on. The exit status is 1 if what one says is not as it has to be.

**Work**: for each network the seconds of processor time of ns-3 and of the laboratory by `run`, by `rounds` and by `phases`, the least of N times
each, one after another, with the peaks of memory, and the ratios to ns-3. `run` is the counterpart of ns-3: time passes, with triggered updates,
and each link takes 1 ms. Regular updates come each 30 seconds on average, 15 to 45 here, and 24 to 36 in ns-3, whose own 30 to 45 are 37.5.
`rounds` are 20, one each 30 seconds; of `phases`, 10 of a minute, the link gets cost 15 in place of its failure, which they refuse. `run` has to
take at most three times what `rounds` take.

**Entries**: how many entries each sends, the means over N seeds. What routers of the laboratory send onto the failed link is counted by itself.
The means have to differ by a twentieth at most.

**Right**: random graphs with costs from 1 to 4 at each end, the metrics of all tables before the failure and after it beside those of networkx,
and when after it the tables were right for good. A route of metric 16 counts as none. No metric of the laboratory may be wrong, and neither the
median nor the greatest of its times may be above ns-3's.
"""

import argparse
import datetime
import os
import pathlib
import subprocess
import sys
import tempfile

sys.dont_write_bytecode = True
import ns3_cases
from ns3_cases import CUT, ROOT

# The link that fails in the first two tables, and the seconds after the failure at which tables are looked at in the third.
FAILED, LOOKS = 0, range(1, 241)
# How much of ns-3's entries the laboratory's may be more or less, and of the seconds of `rounds` those of `run`.
APART, TIMES_ROUNDS = 0.05, 3
WAYS = ("run", "rounds", "phases")


# ---- Runs ----
def run_of_peer(options, case, seed, *words):
    """What a network takes in ns-3, and what it prints."""
    routers, links, failed = case
    file = options.folder / "links.txt"
    file.write_text("".join(" ".join(map(str, line)) + "\n" for line in [(routers, len(links)), *links]))
    return ns3_cases.measured(options, [options.peer, f"--links={file}", f"--failing={failed}", f"--seed={seed}", *words])


def run_of_lab(options, lines, *words):
    """The same of a script."""
    script = options.folder / "script.lab"
    script.write_text("\n".join([*lines, ""]))
    return ns3_cases.measured(options, [options.program, "lab", *words, script])


def ten_minutes(case, way, seed):
    """The script of a network that prints nothing but numbers."""
    routers, links, failed = case
    return [*(line for line in ns3_cases.script_of(routers, links, way, failed, 2 * seed) if line != "print"), "counts"]


def in_time(done, who):
    """What was measured, or the end where it took too long."""
    if done is None:
        raise SystemExit(f"{who} takes too long: name a greater --limit")
    return done


def case_of(name, routers):
    """A network of that shape, and the link that fails."""
    return routers, ns3_cases.links_of(ns3_cases.shape(name, routers)), FAILED


# ---- Work ----
def least(options, run):
    """The least seconds and their peak of so many times, or none if one takes too long."""
    runs = [run(seed) for seed in range(1, options.times + 1)]
    return None if None in runs else min((seconds, megabytes) for seconds, megabytes, _ in runs)


def work_of(options, case):
    """Of a network: who runs it, and what it takes."""
    found = {"ns-3": least(options, lambda seed: run_of_peer(options, case, seed))}
    for way in WAYS:
        found[way] = least(options, lambda seed, way=way: run_of_lab(options, ten_minutes(case, way, seed)))
    return found


def cells_of(options, found):
    """The cells of a row of the table of work."""
    base = found["ns-3"]
    for who, done in found.items():
        ratios = [] if who == "ns-3" else [f"{done[0] / base[0]:.2f}" if done and base else ""]
        yield from [f"{done[0]:.3f}", *ratios, f"{done[1]:.0f}"] if done else [f"> {options.limit}", *("" for _ in ratios), ""]


def print_work(options):
    """The table of work. Whether `run` takes few times what `rounds` take."""
    print("\n| Network | Links | ns-3, s | MB | " + " | ".join(f"`{way}`, s | of ns-3 | MB" for way in WAYS) + " |")
    print("|---|---|" + "---|" * (2 + 3 * len(WAYS)), flush=True)
    good = True
    for name, routers in ((name, routers) for routers in options.routers for name in options.shapes):
        case = case_of(name, routers)
        found = work_of(options, case)
        good &= bool(found["run"] and found["rounds"]) and found["run"][0] <= TIMES_ROUNDS * found["rounds"][0]
        print(f"| {name} {routers} | {len(case[1])} | " + " | ".join(cells_of(options, found)) + " |", flush=True)
    return good


# ---- Entries ----
def entries_of(options, case):
    """The entries that ns-3 sends, that `run` sends, and that it sends onto the failed link, means over seeds."""
    rows = []
    for seed in range(1, options.seeds + 1):
        peer = in_time(run_of_peer(options, case, seed), "ns-3")
        lab = in_time(run_of_lab(options, ten_minutes(case, "run", seed), "--csv", str(CUT), "--by", "router"), "the laboratory")
        rows.append((ns3_cases.sent_by_peer(peer[2]), *ns3_cases.sent_by_lab(lab[2], case[1], case[2])))
    return [sum(column) / len(rows) for column in zip(*rows)]


def print_entries(options):
    """The table of entries. Whether all ratios are near 1."""
    print(f"\n| Entries, the mean of {options.seeds} seeds | ns-3 | `run` | of ns-3 | onto the failed link |\n|---|---|---|---|---|", flush=True)
    good = True
    for name, routers in ((name, routers) for routers in options.sizes for name in options.shapes):
        peer, lab, lost = entries_of(options, case_of(name, routers))
        good &= abs(lab / peer - 1) <= APART
        print(f"| {name} {routers} | {peer:,.0f} | {lab:,.0f} | {lab / peer:.3f} | {lost:,.0f} |", flush=True)
    return good


# ---- What is right ----
def peer_tables(options, case, seed):
    """The metrics before the failure, and each second after it."""
    dump, seconds = options.folder / "tables", [CUT - 1, *(CUT + look for look in LOOKS)]
    words = [f"--stop={CUT + LOOKS[-1] + 1}", f"--dump={dump}", "--dumps=" + ",".join(map(str, seconds))]
    in_time(run_of_peer(options, case, seed, *words), "ns-3")
    return [ns3_cases.metrics_of_peer(pathlib.Path(f"{dump}.{second}")) for second in seconds]


def lab_tables(options, case, seed):
    """The same of the laboratory, by `run`."""
    routers, links, failed = case
    lines = [*ns3_cases.network_of(routers, links), *(f"link {number} 1" for number in range(len(links))), f"run {CUT * 1000 - 1} {seed}", "print",
             "say AT", f"down {failed} {CUT * 1000}"]
    for look in LOOKS:
        lines += [f"run {(CUT + look) * 1000} {seed * 1000 + look}", "print", "say AT"]
    printed = in_time(run_of_lab(options, lines), "the laboratory")[2]
    return [ns3_cases.metrics_of_lab(part.splitlines()) for part in printed.split("AT\n")[:-1]]


class Sums:
    """What was wrong in the tables of one of both, and when they were right for good."""

    def __init__(self, tables):
        self.tables, self.before, self.after, self.times = tables, 0, 0, []

    def add(self, options, case, seed):
        first, *later = self.tables(options, case, seed)
        routers, links, failed = case
        self.before += ns3_cases.wrong(first, ns3_cases.right_metrics(routers, links))
        right = ns3_cases.right_metrics(routers, links, failed)
        counts = [(look, ns3_cases.wrong(table, right)) for look, table in zip(LOOKS, later)]
        self.after += counts[-1][1]
        self.times.append(ns3_cases.settled_at(counts))

    def settled(self):
        """The median and the greatest of the times; later than all looks where there is none."""
        times = sorted(LOOKS[-1] + 1 if time is None else time for time in self.times)
        return times[len(times) // 2], times[-1]


def print_right(options):
    """The table of what is right. Whether the laboratory was, and no later than ns-3."""
    sums, metrics = {"ns-3": Sums(peer_tables), "`run`": Sums(lab_tables)}, 0
    for seed in range(1, options.graphs + 1):
        case = ns3_cases.random_case(seed)
        metrics += case[0] ** 2
        for of in sums.values():
            of.add(options, case, seed)
    print(f"\n| {options.graphs} random graphs, {metrics:,} pairs of a router and a prefix | wrong before | wrong {LOOKS[-1]} s after | right for good "
          "after: median, s | greatest, s | never |")
    print("|---|---|---|---|---|---|")
    for who, of in sums.items():
        median, greatest = of.settled()
        print(f"| {who} | {of.before} | {of.after} | {median} | {greatest} | {of.times.count(None)} |", flush=True)
    peer, lab = sums.values()
    return lab.before == lab.after == 0 and all(one <= other for one, other in zip(lab.settled(), peer.settled()))


TABLES = {"work": print_work, "entries": print_entries, "right": print_right}


def measured_on(options):
    """The day, the program, the peer and the machine, and how much else it does."""
    program = subprocess.run([options.program, "--version"], capture_output=True, text=True).stdout.strip()
    peer = subprocess.run(["dpkg-query", "-W", "-f", "${Version}", "libns3-dev"], capture_output=True, text=True).stdout
    return (f"{datetime.date.today()}, `{program}`, ns-3 {peer}, {os.cpu_count()} processors, "
            f"load {os.getloadavg()[0]:.0f}. Seconds are of processor time, MB the peak of memory.")


def said(words):
    parser = argparse.ArgumentParser(usage=__doc__)
    numbers = {"type": lambda text: [int(word) for word in text.split(",")]}
    parser.add_argument("--program", default=str(ROOT / "bin/ripngd"))
    parser.add_argument("--peer")
    parser.add_argument("--only", choices=TABLES)
    parser.add_argument("--shapes", default="ring,grid,ba", type=lambda text: text.split(","))
    parser.add_argument("--limit", default=240, type=int)
    parser.add_argument("--routers", default="10,64,200", **numbers)
    parser.add_argument("--times", default=3, type=int)
    parser.add_argument("--sizes", default="10,16,32,64", **numbers)
    parser.add_argument("--seeds", default=10, type=int)
    parser.add_argument("--graphs", default=20, type=int)
    return parser.parse_args(words)


def main(words):
    options = said(words)
    with tempfile.TemporaryDirectory() as name:
        options.folder = pathlib.Path(name)
        options.between, options.peer = ns3_cases.between(options.folder), options.peer or ns3_cases.peer(options.folder)
        print(measured_on(options), flush=True)
        good = [table(options) for name, table in TABLES.items() if options.only in (None, name)]
    return 0 if all(good) else 1


if __name__ == "__main__":
    sys.exit(main(sys.argv[1:]))
