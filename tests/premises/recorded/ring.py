"""Three routers in a ring over loopback, with a dear link that all of them are on: how they are configured, started, told and ended."""

import dataclasses
import pathlib

from daemons import Router, interface, peer, prefix
from preloaded import compiled
from recorded.calls import Reader
from recorded.configured import Config, Interface, changed, config_of_file, places_of_file
from recorded.history import History, Program
from suite import same

SOURCE = pathlib.Path(__file__).with_name("calls.c")
ROUTERS = 3
LINKS = tuple((router, (router + 2) % ROUTERS, ROUTERS) for router in range(ROUTERS))
"""The links of the interfaces of each router: to the next router, to that before it, and one to both."""
OWN = "2001:db8:{}::/48"


def configured(router):
    """How a router is configured at first."""
    interfaces = tuple(Interface(f"fe80::{router + 1}:{iface + 1}", 1 + 2 * iface, 1280, link) for iface, link in enumerate(LINKS[router]))
    return Config(interfaces, ((OWN.format(router), 7 + router),))


def others(router, link):
    """The interfaces of other routers on a link."""
    return [(other, iface) for other in range(ROUTERS) for iface, its in enumerate(LINKS[other]) if its == link and other != router]


@dataclasses.dataclass
class Run:
    """A run of the program, as it was ordered, and as it was noted."""
    router: int
    number: int
    config: Config
    text: str
    lines: list = ()
    read: Reader = None

    def in_force(self):
        """The configuration at its end, as clients left it."""
        config = self.config
        for words, answer in self.read.told:
            if answer.endswith("ok\n"):
                config = changed(config, words)
        return config


class Ring:
    """The routers, on the clock of a conductor, or of the system where there is none. An outside host stands on the first link."""

    def __init__(self, case, conductor=None):
        self.case, self.conductor = case, conductor
        self.ports = [[case.port() for _ in links] for links in LINKS]
        self.host = case.neighbor()
        self.runs = [[] for _ in range(ROUTERS)]
        self.running = [None] * ROUTERS
        self.net = tuple(configured(router) for router in range(ROUTERS))

    def text(self, router, config):
        """The file of a configuration. The seed is that of no other router."""
        lines = [f"seed = {router + 1}\n"]
        for iface, one in enumerate(config.interfaces):
            peers = [peer(configured(other).interfaces[there].address, self.ports[other][there]) for other, there in others(router, one.link)]
            peers += [peer("fe80::66", self.host.port, port=2_000)] if (router, iface) == (0, 0) else []
            lines.append(interface(one.address, self.ports[router][iface], *peers, cost=one.cost))
        return "".join(lines + [prefix(text, tag=tag) for text, tag in config.prefixes])

    def start(self, router, **orders):
        """Starts it with the configuration in force, and these orders to tests/premises/recorded/calls.c."""
        number = len(self.runs[router])
        config = self.in_force(router) if number else configured(router)
        text, name = self.text(router, config), f"router{router}-{number}"
        self.case.file(f"{name}.toml", text)
        if self.conductor:
            orders["CONDUCTOR"] = self.conductor.path
        process = Router(self.case, name, "-d", "--control", f"{name}.sock", LD_PRELOAD=compiled(SOURCE), RECORD=f"{self.case.folder}/{name}.calls",
                         **orders)
        self.case.started.append(process)
        self.running[router] = process
        self.runs[router].append(Run(router, number, config_of_file(text, LINKS[router]), text))
        if self.conductor:
            self.conductor.seat(router)
        process.begun()

    def read(self, router, number=-1):
        """Reads what a run has done so far."""
        run = self.runs[router][number]
        name = f"router{router}-{run.number}"
        run.lines = self.case.read(f"{name}.calls").splitlines()
        run.read = Reader(router, run.number, run.lines, places_of_file(run.text)).read()
        return run

    def in_force(self, router):
        return self.read(router).in_force()

    def told(self, router, line):
        """A client tells it something, which it does."""
        path = self.running[router].path()
        answer = self.conductor.ask(path, line) if self.conductor else self.running[router].client().say(f"{line}\n".encode()).all()
        same(f"the answer of router {router} to `{line}`", answer[-3:], "ok\n")
        return answer

    def kill(self, router):
        self.running[router].end()
        if self.conductor:
            self.conductor.unseat(router)

    def stop(self, router, how="stop"):
        """A client stops it, and it ends."""
        self.told(router, how)
        if self.conductor:
            self.conductor.settle()
            self.conductor.unseat(router)
        same(f"the status of router {router}", self.running[router].finish(), 0)

    def said(self, run):
        """What a run wrote to standard error, and answered its clients."""
        return "".join([self.case.read(f"router{run.router}-{run.number}.err"), *(answer for _, answer in run.read.told)])

    def history(self):
        """All that they did so far."""
        programs = []
        for router in range(ROUTERS):
            runs = [self.read(router, number) for number in range(len(self.runs[router]))]
            programs.append([Program(router, run.config, run.in_force(), router + 1, tuple(run.read.deeds), self.said(run)) for run in runs])
        return History(self.net, programs)
