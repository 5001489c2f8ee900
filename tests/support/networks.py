"""Networks of a laboratory: scripts read for their routers, links and owners, random networks, and a plain search of the walks in them."""

import collections
import ipaddress
import itertools
import random
import re
import subprocess

Port = collections.namedtuple("Port", "router iface addr cost link")
Owner = collections.namedtuple("Owner", "router prefix tag")

# No walk that costs at most 15 has more hops.
MOST_HOPS = 14

ROUTE = re.compile(r"(\S+) (\S+) metric (\d+) tag (\d+) (?:own|via (\S+) iface (\d+) from (\S+))")

# What is lost and changed in a random network: the second router owns a prefix of the third from now on, and only the first and the third
# tell what they have, of which much is lost.
TROUBLE = """rounds 3 0 15000
drop 2 +1 2001:db8:c::/48
gain 1 +0 2001:db8:c::/48 3
tell 0 +60000 0 but 0
tell 2 +0 0 but 0 1
"""


def row(prefix, times):
    """So many prefixes of one length, one after another."""
    first = ipaddress.ip_network(prefix, strict=False)
    step = 1 << (128 - first.prefixlen)
    begin = int(first.network_address)
    return [str(ipaddress.ip_network((begin + number * step, first.prefixlen))) for number in range(times)]


class Network:
    """A network: its interfaces, at each cost that they had, and who has owned which prefix."""

    def __init__(self, ports=(), owners=()):
        self.ports, self.owners = list(ports), list(owners)
        self.routers, self.numbers = 0, {}

    @classmethod
    def of(cls, script):
        """The network that a script makes and changes."""
        network = cls()
        for line in script.splitlines():
            network.read(line.partition("#")[0].split())
        return network

    def read(self, words):
        match words:
            case ["router", *more]:
                self.numbers.update({str(self.routers): self.routers, **{name: self.routers for name in more if name != "quiet"}})
                self.routers += 1
            case ["iface", addr, cost, link] | ["iface", addr, cost, _, link]:
                router = self.routers - 1
                iface = sum(port.router == router for port in self.ports)
                self.ports.append(Port(router, iface, addr, int(cost), int(link)))
            case ["own", prefix, tag]:
                self.owners.append(Owner(self.routers - 1, *row(prefix, 1), tag))
            case ["own", prefix, tag, "times", times]:
                self.owners += [Owner(self.routers - 1, each, tag) for each in row(prefix, int(times))]
            case ["cost", router, iface, _, cost]:
                self.ports += {port._replace(cost=int(cost)) for port in self.ports_at(self.numbers[router], int(iface))}
            case ["costs", link, _, cost]:
                self.ports += {port._replace(cost=int(cost)) for port in self.ports if port.link == int(link)}
            case ["gain", router, _, prefix, tag]:
                self.owners.append(Owner(self.numbers[router], *row(prefix, 1), tag))

    def ports_at(self, router, iface):
        """An interface, at each of its costs."""
        return [port for port in self.ports if (port.router, port.iface) == (router, iface)]

    def is_backed(self, line):
        """Whether the route of a printed line is a walk that begins over its interface at its gateway, to a router that owns or owned its
        prefix with its tag."""
        name, prefix, metric, tag, via, iface, source = ROUTE.fullmatch(line).groups()
        router = self.numbers[name]
        owners = {owner.router for owner in self.owners if (owner.prefix, owner.tag) == (prefix, tag)}
        if via is None:
            return metric == "1" and router in owners
        begins = {(sender.router, int(metric) - port.cost) for port in self.ports_at(router, int(iface)) for sender in self.ports
                  if sender.addr == source and sender.link == port.link and sender.router != port.router}
        return via == source and any(begins & walks_to(self.ports, owner) for owner in owners)

    def least_costs(self, hops=MOST_HOPS):
        """The least cost of a walk with at most so many hops, from each router to an owner of each prefix, where there is one that
        costs at most 15."""
        least = {}
        for owner in self.owners:
            for router, cost in walks_to(self.ports, owner.router, hops):
                least[router, owner.prefix] = min(cost, least.get((router, owner.prefix), cost))
        return least


def walks_to(ports, owner, hops=MOST_HOPS):
    """Where each walk to a router begins that costs at most 15 and has at most so many hops, with what it costs: 1, and for each hop what
    the interface costs that hears the next router."""
    heard = {(port.router, port.cost, told.router) for port, told in itertools.product(ports, ports)
             if port.link == told.link and port.router != told.router}
    walks = {(owner, 1)}
    for _ in range(hops):
        longer = {(router, cost + price) for at, cost in walks for router, price, told in heard if told == at}
        walks |= {(router, cost) for router, cost in longer if cost < 16}
    return walks


def lines_of(ports, owners):
    """The lines of a script that make a network."""
    lines = []
    for router in range(1 + max(port.router for port in ports)):
        lines.append("router")
        lines += [f"iface {port.addr} {port.cost} 1280 {port.link}" for port in ports if port.router == router]
        lines += [f"own {owner.prefix} {owner.tag}" for owner in owners if owner.router == router]
    return lines


def random_network(seed):
    """A network of three to five routers, with two interfaces each, on one of four links. The first and the third router own a prefix
    each, and both own one of them."""
    words = random.Random(seed)
    ports = [Port(router, iface, f"fe80::{router}:{iface}", words.randint(1, 6), words.randrange(4))
             for router in range(3 + seed % 3) for iface in range(2)]
    owners = [Owner(0, "2001:db8::/32", "1"), Owner(2, "2001:db8::/32", "2"), Owner(2, "2001:db8:c::/48", "3")]
    return "\n".join([*lines_of(ports, owners), "cold 0", ""])


def routes_of(printed):
    """The lines of routes among those that are printed."""
    return [line for line in printed if ROUTE.fullmatch(line)]


def metrics_of(printed):
    """The metric of each route that is printed, by router and prefix."""
    routes = (ROUTE.fullmatch(line).groups() for line in routes_of(printed))
    return {(int(router), prefix): int(metric) for router, prefix, metric, *_ in routes}


def lab(program, script, *options):
    """The lines that a script prints, all of whose lines are done."""
    command = [program, "lab", *options, "/dev/stdin"]
    run = subprocess.run(command, input=script, capture_output=True, text=True, timeout=60)
    if run.returncode != 0 or run.stderr:
        raise AssertionError(f"status {run.returncode}: {run.stdout.splitlines()[-1:]} {run.stderr}")
    return run.stdout.splitlines()
