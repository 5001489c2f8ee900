#!/usr/bin/env python3
"""What this router costs beside BIRD, on one machine and in one run.

    tools/beside.py [PROGRAM [ROUTES [TIMES]]]        bin/ripngd, 65536 routes and 3 times if they are not named

One neighbor, which is this script, talks to each daemon by itself, one daemon after the other, TIMES over: to PROGRAM over UDP on
127.0.0.1, to BIRD over a pair of virtual interfaces between two name spaces. It advertises ROUTES routes of metric 1, 72 in a datagram, and
advertises them again, at 1 and at 0.5 ms between datagrams, in order and in an order of its own that is the same for both. Of each daemon
it prints what a route cost in microseconds of processor time (as the scheduler counts it) and in bytes of memory, in the middle of all
runs, and the ratio of the two daemons in each run. The peak is the most that was resident until the end of a regular update on two
interfaces, on one of which nobody listens; it is a run of its own. What is told is in the middle of at least three updates of each run.
Idle is a daemon that nobody talks to, at one interface and at sixteen, the most that PROGRAM may have; the last line is what a program
takes that only waits as often as PROGRAM does. Meanwhile each processor is kept awake by work that gives way to all other: else much of
a row is what it takes to wake one, which is the machine's. Needs root, `ip`, `cc` and BIRD 2 (Debian's packages iproute2, gcc and
bird2); where one is wanting it says `skipped: ..`. A round takes some ten minutes: regular updates are up to 45 seconds apart."""

import contextlib
import os
import pathlib
import random
import shutil
import socket
import statistics
import struct
import subprocess
import sys
import tempfile
import time

ROOT = pathlib.Path(__file__).resolve().parent.parent
IN_DATAGRAM = 72
# So long after each datagram, in seconds, so that neither daemon falls behind. On a machine with other work some may be lost all the
# same: so many of a hundred routes have to be there.
PAUSE = 0.001
SHORT_PAUSE = 0.0005
HELD = 98
# Triggered updates of a router are up to five seconds apart (RFC 2080 section 2.5.1): after so many in which none comes, it has told all.
QUIET = 6.0
# Datagrams of one update, and what a router does with those that came, are never so many seconds apart.
PAST = 0.5
COSTS = (
    ("learned", "learned, and told for the first time, us"),
    ("refreshed", "refreshed, us"),
    ("refreshed_soon", "refreshed, 0.5 ms between datagrams, us"),
    ("told", "told in a regular update, us"),
    ("at_rest", "memory once they are learned, bytes"),
    ("after", "memory after regular updates, bytes"),
)
ROWS = (
    *COSTS,
    *((f"random_{name}", f"at random: {title}") for name, title in COSTS),
    ("soon", "learned, 0.5 ms between datagrams, us"),
    ("random_soon", "at random: learned, 0.5 ms, us"),
    ("peak", "peak of an update on two interfaces, bytes"),
    ("idle_1", "idle with one interface, ms a second"),
    ("idle_16", "idle with sixteen interfaces, ms a second"),
)
# The most interfaces that a daemon is measured with, and for how many seconds nobody talks to it.
MOST = 16
IDLE_FOR = 20
# A program that keeps a processor awake and leaves its core to the other thread, and one that only waits, as often as PROGRAM at rest.
SPINS = "int main() { for (;;) __builtin_ia32_pause(); }"
WAITS = """#include <sys/epoll.h>
int main() { struct epoll_event event; int waiting = epoll_create1(0); for (;;) epoll_wait(waiting, &event, 1, 400); }"""
# The name spaces of neighbor and BIRD, and the ends of each link between them.
SPACES = ("ripngd-beside-a", "ripngd-beside-b")
PAIRS = [(f"a{number}", f"b{number}") for number in range(MOST)]


def responses(routes, is_random=False):
    """Responses (RFC 2080 section 2.1) that tell so many prefixes of 48 bits at metric 1, in order, or in a random order, always the same."""
    numbers = random.Random(1).sample(range(routes), routes) if is_random else range(routes)
    entries = [struct.pack("!HI10xHBB", 0x2001, 0x0DB80000 + number, 0, 48, 1) for number in numbers]
    chunks = [entries[at : at + IN_DATAGRAM] for at in range(0, routes, IN_DATAGRAM)]
    return [bytes((2, 1, 0, 0)) + b"".join(chunk) for chunk in chunks]


class Neighbor:
    """The neighbor of a daemon: a socket, where it sends to, and the process whose cost is asked for."""

    def __init__(self, sock, to, pid):
        self.sock, self.to, self.pid, self.told, self.heard_at, self.updates = sock, to, pid, 0, 0.0, []
        sock.setsockopt(socket.SOL_SOCKET, 33, 1 << 25)  # SO_RCVBUFFORCE
        sock.setblocking(False)

    def cost(self):
        """Nanoseconds of processor time since the daemon's start."""
        return int(pathlib.Path(f"/proc/{self.pid}/schedstat").read_text().split()[0])

    def memory(self):
        """Bytes that are resident."""
        return int(pathlib.Path(f"/proc/{self.pid}/statm").read_text().split()[1]) * os.sysconf("SC_PAGE_SIZE")

    def peak(self):
        """The most bytes that were resident since the daemon's start."""
        lines = pathlib.Path(f"/proc/{self.pid}/status").read_text().splitlines()
        return 1024 * int(next(line for line in lines if line.startswith("VmHWM:")).split()[1])

    def listen(self):
        """Counts the entries of all Responses that have come."""
        try:
            while True:
                data = self.sock.recv(65536)
                self.heard_at = time.monotonic()
                self.told += (len(data) - 4) // 20 if data[0] == 2 else 0
        except BlockingIOError:
            pass

    def send(self, datagrams, pause=PAUSE):
        for datagram in datagrams:
            self.sock.sendto(datagram, self.to)
            time.sleep(pause)
            self.listen()
        self.heard_at = time.monotonic()

    def takes(self, datagrams, pause=PAUSE, quiet=QUIET):
        """What the daemon takes for datagrams, and for what it tells until it has been quiet for so many seconds."""
        before, self.told = self.cost(), 0
        self.send(datagrams, pause)
        self.until_quiet(quiet)
        return self.cost() - before

    def refreshes(self, datagrams, pause=PAUSE):
        """What the daemon takes for datagrams that tell nothing new, just after one of its updates, so that no other falls into it."""
        self.update(IN_DATAGRAM * len(datagrams))
        took = self.takes(datagrams, pause, PAST)
        return took if self.told == 0 else self.refreshes(datagrams, pause)

    def until_quiet(self, quiet):
        """Waits until nothing has come for so many seconds."""
        while time.monotonic() < self.heard_at + quiet:
            time.sleep(0.01)
            self.listen()

    def update(self, routes):
        """Waits for an update of all routes, and notes what it cost."""
        before, ends = self.cost(), time.monotonic() + 120
        while time.monotonic() < ends:
            self.told = 0
            while self.told == 0 and time.monotonic() < ends:
                before = self.cost()
                time.sleep(0.02)
                self.listen()
            self.until_quiet(PAST)
            if self.told * 100 >= routes * HELD:
                self.updates.append(self.cost() - before)
                return
        raise RuntimeError(f"it tells {self.told} routes of {routes}")


def costs(neighbor, routes, is_random=False):
    """What routes cost the daemon of this neighbor: the rows of one interface."""
    datagrams, found, each = responses(routes, is_random), {}, routes * 1e3
    time.sleep(2)
    empty = neighbor.memory()
    found["learned"] = neighbor.takes(datagrams) / each
    found["at_rest"] = (neighbor.memory() - empty) / routes
    found["refreshed"] = neighbor.refreshes(datagrams) / each
    found["refreshed_soon"] = neighbor.refreshes(datagrams, SHORT_PAUSE) / each
    neighbor.update(routes)
    found["told"] = statistics.median(neighbor.updates) / each
    found["after"] = (neighbor.memory() - empty) / routes
    return found


def random_costs(neighbor, routes):
    """The same in a random order."""
    return {f"random_{name}": value for name, value in costs(neighbor, routes, True).items()}


def soon(neighbor, routes):
    """What routes cost that come sooner one after another."""
    time.sleep(2)
    return {"soon": neighbor.takes(responses(routes), SHORT_PAUSE) / routes / 1e3}


def random_soon(neighbor, routes):
    """The same in a random order."""
    time.sleep(2)
    return {"random_soon": neighbor.takes(responses(routes, True), SHORT_PAUSE) / routes / 1e3}


def peak(neighbor, routes):
    """The row of two interfaces: the most memory that routes took until they were all told."""
    time.sleep(2)
    empty = neighbor.memory()
    neighbor.send(responses(routes))
    neighbor.until_quiet(QUIET)
    neighbor.update(routes)
    return {"peak": (neighbor.peak() - empty) / routes}


# What is measured by talking to a daemon: the function, and with how many interfaces.
TALKS = {"costs": (costs, 1), "random_costs": (random_costs, 1), "soon": (soon, 1), "random_soon": (random_soon, 1), "peak": (peak, 2)}


def idle(daemon):
    """Milliseconds of processor time that a daemon takes a second where nobody talks to it."""
    # The first Requests are sent meanwhile, and nobody answers.
    time.sleep(2)
    schedstat = pathlib.Path(f"/proc/{daemon.pid}/schedstat")
    before = int(schedstat.read_text().split()[0])
    time.sleep(IDLE_FOR)
    if daemon.poll() is not None:
        raise RuntimeError("the daemon has ended")
    return (int(schedstat.read_text().split()[0]) - before) / IDLE_FOR / 1e6


def free_ports(count):
    """Ports of 127.0.0.1 at which nobody stands."""
    sockets = [socket.socket(socket.AF_INET, socket.SOCK_DGRAM) for _ in range(count)]
    for free in sockets:
        free.bind(("127.0.0.1", 0))
    ports = [free.getsockname()[1] for free in sockets]
    for free in sockets:
        free.close()
    return ports


def interface(number, ports):
    """The tables of an interface with one peer, at these two ports."""
    return (
        f'[[interface]]\naddress = "fe80::b:{number}"\ncost = 1\nmtu = 1500\nlocal_port = {ports[0]}\n'
        f'[[interface.peer]]\naddress = "fe80::a:{number}"\nlocal_port = {ports[1]}\n'
    )


@contextlib.contextmanager
def running(command):
    """A daemon that runs, and nobody hears what it says."""
    with subprocess.Popen(command, stdout=subprocess.DEVNULL, stderr=subprocess.DEVNULL) as daemon:
        try:
            yield daemon
        finally:
            daemon.kill()


def compiled(source, program):
    """A program in C."""
    subprocess.run(["cc", "-x", "c", "-o", program, "-"], input=source, text=True, check=True)
    return program


@contextlib.contextmanager
def awake(folder):
    """No processor sleeps: on each a small process spins that runs only where nothing else does."""
    spins = compiled(SPINS, folder / "spins")
    spinners = [subprocess.Popen(["chrt", "--idle", "0", spins]) for _ in range(os.cpu_count() or 1)]
    try:
        yield
    finally:
        for spinner in spinners:
            spinner.kill()
            spinner.wait()


class Ours:
    """The program, over UDP on 127.0.0.1."""

    def __init__(self, program, folder):
        self.program, self.config, self.ports = program, folder / "ripngd.toml", []

    def start(self, interfaces):
        self.ports = free_ports(2 * interfaces)
        tables = (interface(number, self.ports[2 * number :]) for number in range(interfaces))
        self.config.write_text("seed = 1\n" + "".join(tables))
        return running([self.program, "run", self.config])

    def talk(self, measure, daemon, routes):
        with socket.socket(socket.AF_INET, socket.SOCK_DGRAM) as sock:
            sock.bind(("127.0.0.1", self.ports[1]))
            return TALKS[measure][0](Neighbor(sock, ("127.0.0.1", self.ports[0]), daemon.pid), routes)


class Bird:
    """BIRD in one of the name spaces; this script is run once more, in the other."""

    def __init__(self, folder):
        self.config = folder / "bird.conf"

    def start(self, interfaces):
        names = ", ".join(f'"{name}"' for _, name in PAIRS[:interfaces])
        self.config.write_text(
            "router id 192.0.2.1;\nprotocol device { }\n"
            f"protocol rip ng {{ ipv6 {{ import all; export all; }}; interface {names} {{ update time 30; }}; }}\n"
        )
        files = ["-c", self.config, "-s", self.config.with_suffix(".ctl"), "-P", self.config.with_suffix(".pid")]
        return running(["ip", "netns", "exec", SPACES[1], "bird", "-f", *files])

    def talk(self, measure, daemon, routes):
        asked = ["ip", "netns", "exec", SPACES[0], sys.executable, __file__, "--neighbor", measure, str(daemon.pid), str(routes)]
        words = subprocess.run(asked, check=True, stdout=subprocess.PIPE, text=True).stdout.split()
        return dict(zip(words[::2], map(float, words[1::2])))


def rows_of(router, routes):
    """What each row of the table is for a router."""
    found = {}
    for name, (_, interfaces) in TALKS.items():
        with router.start(interfaces) as daemon:
            found.update(router.talk(name, daemon, routes))
    for interfaces in (1, MOST):
        with router.start(interfaces) as daemon:
            found[f"idle_{interfaces}"] = idle(daemon)
    return found


def waited(program):
    """What is idle for the program that only waits."""
    with running([program]) as process:
        return idle(process)


def round_of(ours, bird, waits, routes):
    """One round: the rows of this router and of BIRD, and what is idle for the program that only waits."""
    mine, least = rows_of(ours, routes), waited(waits)
    return mine, rows_of(bird, routes), least


def neighbor_of_bird(measure, pid, routes):
    """What the script does in its own name space: the rows, as words."""
    iface = socket.if_nametoindex(PAIRS[0][0])
    with socket.socket(socket.AF_INET6, socket.SOCK_DGRAM) as sock:
        sock.setsockopt(socket.IPPROTO_IPV6, socket.IPV6_MULTICAST_HOPS, 255)
        sock.setsockopt(socket.IPPROTO_IPV6, socket.IPV6_MULTICAST_IF, iface)
        sock.setsockopt(socket.IPPROTO_IPV6, socket.IPV6_MULTICAST_LOOP, 0)
        sock.bind(("::", 521))
        sock.setsockopt(socket.IPPROTO_IPV6, socket.IPV6_JOIN_GROUP, socket.inet_pton(socket.AF_INET6, "ff02::9") + struct.pack("@I", iface))
        for name, value in TALKS[measure][0](Neighbor(sock, ("ff02::9", 521, 0, iface), pid), routes).items():
            print(name, value)


def ip(*words):
    subprocess.run(["ip", *words], check=True)


def make_spaces():
    for space in SPACES:
        ip("netns", "add", space)
    for ends in PAIRS:
        ip("link", "add", ends[0], "netns", SPACES[0], "type", "veth", "peer", "name", ends[1], "netns", SPACES[1])
        for space, link in zip(SPACES, ends):
            ip("-n", space, "link", "set", link, "up")
    # Until then the kernel asks whether somebody else has the link's addresses.
    time.sleep(3)


def remove_spaces():
    for space in SPACES:
        subprocess.run(["ip", "netns", "del", space], stderr=subprocess.DEVNULL, check=False)


def show(runs, routes):
    """The table: each daemon's value in the middle of its runs, and the least, middle and greatest ratio."""
    print(f"{routes} routes, {len(runs)} runs of each, one after another")
    print(f"{'':44}{'ripngd':>10}{'BIRD':>10}   ratio (least to most)")
    for row, title in ROWS:
        mine, theirs = [run[0][row] for run in runs], [run[1][row] for run in runs]
        ratios = sorted(one / other for one, other in zip(mine, theirs) if other > 0)
        said = f"{statistics.median(ratios):.2f} ({ratios[0]:.2f} to {ratios[-1]:.2f})" if ratios else "BIRD takes nothing"
        print(f"{title:44}{statistics.median(mine):10.3f}{statistics.median(theirs):10.3f}   {said}")
    print(f"{'a program that only waits, ms a second':44}{statistics.median(run[2] for run in runs):10.3f}")


def main():
    if sys.argv[1:2] == ["--neighbor"]:
        return neighbor_of_bird(sys.argv[2], int(sys.argv[3]), int(sys.argv[4]))
    lacks = [name for name in ("ip", "cc", "bird") if not shutil.which(name)] + (["root"] if os.geteuid() else [])
    if lacks:
        return print(f"skipped: there is no {lacks[0]}")
    program, routes, times = [*sys.argv[1:], *[ROOT / "bin/ripngd", 65536, 3][len(sys.argv) - 1 :]]
    remove_spaces()
    try:
        make_spaces()
        with tempfile.TemporaryDirectory() as folder:
            here = pathlib.Path(folder)
            ours, bird, waits = Ours(program, here), Bird(here), compiled(WAITS, here / "waits")
            with awake(here):
                runs = [round_of(ours, bird, waits, int(routes)) for _ in range(int(times))]
    finally:
        remove_spaces()
    show(runs, int(routes))


if __name__ == "__main__":
    main()
