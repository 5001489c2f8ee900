#!/usr/bin/env python3
"""What a router and its forwarding table cost, as tables grow, over both stores of routes: times as the least of five passes, in nanoseconds,
and memory of a run by itself.

    tools/bench.py ROWS_PROGRAM [ROUTES ..]         1024, 4096, 16384 and 65536 routes if none are named

ROWS_PROGRAM is crates/test_rows, which plays the calls that are measured and tells how long each took. Routes are to random prefixes of
48 bits; a neighbor tells 72 in a datagram. The router has two interfaces.
"""

import ipaddress
import os
import pathlib
import random
import re
import subprocess
import sys
import tempfile

PASSES, ROOM = 5, 72
ROWS = [
    "a route learned, in order",
    "a route learned, in random order",
    "a route refreshed",
    "an offer that is not preferred",
    "a tick with nothing due",
    "a route lost by a tick",
    "a route told on an interface, first regular update, all marked",
    "a route told on an interface, later regular update",
    f"a route told on an interface, triggered update of {ROOM}",
    "a change of the forwarding table",
    "an address looked up",
]


def addresses(routes):
    """Random addresses of prefixes in 2000::/3, each once."""
    chance, found = random.Random(1), set()
    while len(found) < routes:
        found.add((1 << 125) + (chance.randrange(0x2000) << 112) + (chance.getrandbits(32) << 80))
    return chance.sample(sorted(found), routes)


def chunks(sites):
    return [sites[place:place + ROOM] for place in range(0, len(sites), ROOM)]


def heard(sites, metric, now, source, form="time 1 "):
    """Responses by which a neighbor tells routes."""
    entries = lambda some: " ".join(f"{site:032x}000030{metric:02x}" for site in some)
    return [f"> {form}hear 0 {now} {source} 521 255 group 02010000 {entries(some)}" for some in chunks(sites)]


class Bench:
    """The cases that are measured at a number of routes. Each command that is timed has the row that its time is a part of, or none."""

    def __init__(self, routes):
        self.lines, self.rows, self.routes = [], [], routes
        shuffled = addresses(routes)
        sites = sorted(shuffled)
        self.case("hears and tells", "router")
        self.timed(0, heard(sites, 1, 0, "fe80::2"))
        self.timed(6, ["> time 1 tick 0 0"])
        self.timed(2, heard(sites, 1, 1, "fe80::2"))
        self.timed(3, heard(sites, 9, 1, "fe80::3"))
        self.timed(4, ["> time 1000 tick 2 0"])
        self.lines += heard(sites[:ROOM], 3, 1, "fe80::2", form="") + [f"add {text(site)} metric 4 via fe80::2 iface 0" for site in sites[:ROOM]]
        self.timed(8, ["> time 1 tick 3 0"])
        self.timed(7, ["> time 1 tick 60000 0"])
        self.case("learns in a random order", "router")
        self.timed(1, heard(shuffled, 1, 0, "fe80::2"))
        self.case("loses routes", "router quiet")
        self.timed(None, heard(sites, 1, 0, "fe80::2"))
        self.timed(5, ["> time 1 tick 180000 0"])
        self.case("forwards")
        for some in chunks(sites):
            self.lines += [f"> install {text(site)} fe80::2 2" for site in some]
            self.timed(9, ["> time 1 apply"])
        self.timed(10, ["> time 1 lookups"])
        self.lines.append(str(routes))

    def case(self, name, begin=None):
        self.lines += [f"\n# {name}"] + ([f"> {begin}"] if begin else [])

    def timed(self, row, lines):
        self.lines += lines
        self.rows += [row] * len(lines)

    def measure(self, program):
        """The nanoseconds of each row in one pass, over the sorted store and over the trie."""
        times = [int(line.split()[0]) for line in played(program, self.lines).splitlines()]
        if len(times) != 2 * len(self.rows):
            sys.exit("FAILED: not as many times as commands")
        # Each case is played over the one store and then over the other.
        stores, place = [[0] * len(ROWS) for _ in range(2)], 0
        for rows in self.cases():
            for store in stores:
                for row in rows:
                    if row is not None:
                        store[row] += times[place]
                    place += 1
        counts = [self.routes] * 4 + [1000, self.routes] + [2 * self.routes] * 2 + [2 * min(self.routes, ROOM)] + [self.routes] * 2
        return [[spent // count for spent, count in zip(store, counts)] for store in stores]

    def cases(self):
        """The rows of each case."""
        ends = [place for place, row in enumerate(self.rows) if row in (7, 1, 5, 10) and self.rows[place + 1:place + 2] != [row]]
        return [self.rows[begin:end + 1] for begin, end in zip([0] + [end + 1 for end in ends], ends)]


def text(site):
    """A prefix of 48 bits as text."""
    return f"{ipaddress.IPv6Address(site)}/48"


def played(program, lines):
    """What the program tells on standard error where it plays these lines; all has to turn out as it must."""
    with tempfile.NamedTemporaryFile("w", suffix=".txt") as file:
        file.write("\n".join(lines) + "\n")
        file.flush()
        run = subprocess.run([program, file.name], capture_output=True, text=True)
    if run.returncode:
        sys.exit(f"FAILED: {run.stdout[-500:]}")
    return run.stderr


def peak(program, lines):
    """The most memory that a run had in use, in bytes: it is asked while the run waits for a second file."""
    with tempfile.TemporaryDirectory() as folder:
        file, second = pathlib.Path(folder, "rows"), pathlib.Path(folder, "second")
        file.write_text("\n".join(lines) + "\n")
        os.mkfifo(second)
        with subprocess.Popen([program, file, second], stdout=subprocess.PIPE, stderr=subprocess.DEVNULL) as run:
            if not run.stdout.readline().startswith(b"ok "):
                sys.exit("FAILED: what is measured did not turn out as it must")
            status = pathlib.Path(f"/proc/{run.pid}/status").read_text()
            second.write_text("")
        return 1024 * int(re.search(r"VmHWM:\s+(\d+) kB", status)[1])


def memory(program, routes):
    """The bytes of a route of the store that takes more, and of an entry of a forwarding table: what a run has in use above one that
    learns nothing, or forwards to one prefix alone."""
    sites = sorted(addresses(routes))

    def learns(source):
        return ["\n# learns", "> router quiet"] + heard(sites, 1, 0, source)

    def forwards(some):
        lines = [[f"> install {text(site)} fe80::2 2" for site in few] + ["> time 1 apply"] for few in chunks(some)]
        return ["\n# forwards"] + [line for few in lines for line in few]

    runs = (learns("fe80::2"), learns("2001::2")), (forwards(sites), forwards(sites[:1] * routes))
    return [(peak(program, more) - peak(program, less)) // routes for more, less in runs]


def main(program, *routes):
    program = str(pathlib.Path(program).resolve(strict=True))
    sizes = [int(word) for word in routes] or [1024, 4096, 16384, 65536]
    columns = []
    for size in sizes:
        bench = Bench(size)
        passes = [bench.measure(program) for _ in range(PASSES)]
        columns.append([[min(one[store][row] for one in passes) for row in range(len(ROWS))] for store in range(2)])
    for store, name in (1, "trie"), (0, "sorted store"):
        print(f"| over the {name} (ns) |", *(f"{size} |" for size in sizes))
        print("|---" * (len(sizes) + 1) + "|")
        for row, what in enumerate(ROWS):
            print(f"| {what} |", *(f"{column[store][row]} |" for column in columns))
        print()
    for size in sizes:
        route, entry = memory(program, size)
        print(f"{size} routes: {route} bytes a route of the store that takes more, {entry} a forwarding entry")


if __name__ == "__main__":
    main(*sys.argv[1:])
