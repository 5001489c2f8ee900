#!/usr/bin/env python3
"""How many rounds random networks need until each table has the least costs of now, and nothing else below 16:

    tests/lab/rounds_needed.py PROGRAM [NETWORKS]

PROGRAM is ripngd. Much happens in each of so many networks (100 if none is named) of 3 to 12 routers: datagrams are lost, come
late, twice and in any order, routers restart, costs change and prefixes move. Then rounds are made, 15 seconds apart. Prints a
line for each number of rounds that was needed: the number, and how many networks needed it. The exit status is 0 exactly where no
network needed more than 26.
"""
import collections
import os
import pathlib
import random
import sys

sys.dont_write_bytecode = True
sys.path.append(str(pathlib.Path(__file__).resolve().parents[1] / "support"))
from networks import Network, Owner, Port, lab, lines_of

PREFIXES = ["2001:db8::/48", "2001:db8:1::/48", "2001:db8:2::/48"]
ROUNDS = 30


class Troubled:
    """A script of a network in which much happens, with the costs and owners that it leaves."""

    def __init__(self, program, seed):
        self.program, self.random = program, random.Random(seed)
        self.routers = self.random.randint(3, 12)
        self.ports, self.owners, self.now, self.sent = [], set(), 0, []
        for router in range(self.routers):
            links = [router, (router + 1) % self.routers] + self.random.choices(range(self.routers), k=self.random.randint(0, 1))
            self.ports += [Port(router, i, f"fe80::{router + 1:x}:{i}", self.random.choice([1, 1, 1, 1, 2, 4, 7]), link)
                           for i, link in enumerate(links)]
        # A router that stands alone: its one line is the last of each table that is printed.
        self.lines = [*lines_of(self.ports, []), "router", "iface fe80::ffff 1 1280 9999", "own 2002::/16 0", "cold 0"]

    def run(self, more):
        return lab(self.program, "\n".join(self.lines + more) + "\n")

    def deliver(self):
        """One of the newest datagrams comes to one of the interfaces of its link."""
        if not self.sent:
            return
        number = max(0, len(self.sent) - 1 - self.random.randrange(60))
        router, iface = self.sent[number]
        links = [port.link for port in self.ports if port[:2] == (router, iface)]
        heard = [port[:2] for port in self.ports if port.link in links and port[:2] != (router, iface)]
        if heard:
            r, i = self.random.choice(heard)
            self.lines.append(f"deliver {number} {r} {i} {self.now}")

    def change(self):
        """A cost changes, or a prefix is gained or given up."""
        if self.random.random() < 0.4:
            place = self.random.randrange(len(self.ports))
            port = self.ports[place] = self.ports[place]._replace(cost=self.random.choice([1, 1, 2, 4, 9]))
            self.lines.append(f"cost {port.router} {port.iface} {self.now} {port.cost}")
            return
        owner = self.random.randrange(self.routers), self.random.randrange(len(PREFIXES))
        if owner in self.owners:
            self.owners.remove(owner)
            self.lines.append(f"drop {owner[0]} {self.now} {PREFIXES[owner[1]]}")
        else:
            self.owners.add(owner)
            self.lines.append(f"gain {owner[0]} {self.now} {PREFIXES[owner[1]]} {owner[0]}")

    def go_on(self):
        """So much happens; which datagrams it sent is known behind it."""
        for _ in range(25):
            kind = self.random.random()
            if kind < 0.30:
                self.now += self.random.randrange(3000)
                self.lines.append(f"tick {self.random.randrange(self.routers)} {self.now} {self.random.randrange(2**32)}")
            elif kind < 0.32:
                self.lines.append(f"restart {self.random.randrange(self.routers)} {self.now}")
            elif kind < 0.40:
                self.change()
            else:
                self.deliver()
        rows = [line.split() for line in self.run(["sent"])]
        self.sent = [(int(r[2]), int(r[4])) for r in rows if r[1] == "router"]

    def needed(self):
        """After how many rounds, behind all that happened, the tables are right for good."""
        begin, rounds = self.now + 45000, []
        for number in range(ROUNDS):
            rounds += ["print", f"rounds 1 {begin + 15000 * number} 0"]
        right = Network(self.ports, [Owner(router, PREFIXES[number], router) for router, number in self.owners]).least_costs()
        tables, table = [], {}
        for line in self.run(rounds + ["print"]):
            words = line.split()
            if int(words[0]) == self.routers:
                tables.append(table)
                table = {}
            elif int(words[3]) < 16:
                table[(int(words[0]), words[1])] = int(words[3])
        assert len(tables) == ROUNDS + 1
        return max([number + 1 for number, table in enumerate(tables) if table != right], default=0)


def main():
    program, networks = os.path.realpath(sys.argv[1]), int(sys.argv[2]) if len(sys.argv) > 2 else 100
    counts = collections.Counter()
    for seed in range(networks):
        network = Troubled(program, seed)
        for _ in range(20):
            network.go_on()
        counts[network.needed()] += 1
    for number in sorted(counts):
        print(number, counts[number])
    sys.exit(max(counts) > 26)


main()
