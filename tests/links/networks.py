"""Cases of networks: this router between BIRD and FRR, whose tables are compared with a plain computation."""

import pathlib
import sys
import time

from changes import routers_of
from least import GARBAGE, REGULAR, TRIGGERED, differing, least, settle
from spaces import INFINITY, Bird, Frr, Ours, until
from suite import Failed, same

# Of a router on many links: how many, what it may take of a processor until all neighbors are met, in seconds, in how many seconds it is
# watched then, and which share of a processor it may take.
LINKS, BEGINNING, WATCHED, IDLE = 200, 1.5, 20, 0.02
# Sends to an address, if it is given one, and prints what comes back; else sends all back.
ECHO = """import socket, sys
here, *there = sys.argv[1:]
sock = socket.socket(socket.AF_INET6, socket.SOCK_DGRAM)
sock.bind((here, 7007))
if there:
    sock.settimeout(2)
    sock.sendto(b"echo", (there[0], 7007))
    print(sock.recv(99).decode())
while not there:
    sock.sendto(*sock.recvfrom(99))
"""


def carry(one, here, other, there):
    """Waits until a datagram goes from an address of one space to an address of another, and back."""
    for space, address in ((one, here), (other, there)):
        space.ip("address", "add", f"{address}/128", "dev", "lo")
    other.start("echo", sys.executable, "-c", ECHO, there)
    words = (sys.executable, "-c", ECHO, here, there)
    until(TRIGGERED, "packets go", lambda: one.do(*words, check=False).strip() == "echo")


def a_line(net, program):
    """BIRD, ours, FRR, ours, BIRD: tables are right, packets go, and a prefix that is given up is gone everywhere."""
    spaces = {name: net.space(name) for name in "bofpc"}
    order = list(spaces.values())
    for one, other in zip(order, order[1:]):
        net.cable(one, other)
    owned = {name: [f"2001:db8:{number}::/48"] for number, name in enumerate(spaces, 1)}
    cables = [("b", 1, "o", 3), ("o", 1, "f", 1), ("f", 1, "p", 2), ("p", 1, "c", 2)]
    routers = {
        "b": Bird(spaces["b"], {"to-o": 1}, owned["b"]),
        "o": Ours(spaces["o"], program, {"to-b": {"cost": 3}, "to-f": {}}, owned["o"]),
        "f": Frr(spaces["f"], ["to-o", "to-p"], owned["f"]),
        "p": Ours(spaces["p"], program, {"to-f": {"cost": 2}, "to-c": {}}, owned["p"]),
        "c": Bird(spaces["c"], {"to-p": 2}, owned["c"]),
    }
    settle(routers, least(cables, owned))
    carry(spaces["b"], "2001:db8:1::1", spaces["c"], "2001:db8:5::1")
    lost, owned["b"] = owned["b"][0], []
    routers["b"].own([])
    settle(routers, least(cables, owned), TRIGGERED)
    for name in "ofp":
        same(f"the poisoned metric at {name}", routers[name].routes().get(lost), INFINITY)
    until(GARBAGE, "it is deleted everywhere", lambda: all(lost not in routers[name].routes() for name in "ofp"))


def a_ring(net, program):
    """A ring of BIRD, ours, FRR, ours: a cable cut at either end is gone around at once, and used again when mended."""
    spaces = {name: net.space(name) for name in "bofp"}
    order = list(spaces.values())
    for one, other in zip(order, order[1:] + order[:1]):
        net.cable(one, other)
    owned = {name: [f"2001:db8:{number}::/48"] for number, name in enumerate(spaces, 1)}
    cables = [("b", 1, "o", 1), ("o", 1, "f", 1), ("f", 1, "p", 1), ("p", 3, "b", 4)]
    routers = {
        "b": Bird(spaces["b"], {"to-o": 1, "to-p": 4}, owned["b"]),
        "o": Ours(spaces["o"], program, {"to-b": {}, "to-f": {}}, owned["o"]),
        "f": Frr(spaces["f"], ["to-o", "to-p"], owned["f"]),
        "p": Ours(spaces["p"], program, {"to-f": {}, "to-b": {"cost": 3}}, owned["p"]),
    }
    settle(routers, least(cables, owned))
    for space, device, cut in ((spaces["f"], "to-o", cables[1]), (spaces["o"], "to-b", cables[0])):
        space.ip("link", "set", device, "down")
        settle(routers, least([cable for cable in cables if cable is not cut], owned), 2 * TRIGGERED)
        space.ip("link", "set", device, "up")
        settle(routers, least(cables, owned))


def a_lossy_cable(net, program):
    """A cable loses a third: tables come right, no metric is below the least, a prefix that moves is followed."""
    spaces = {name: net.space(name) for name in "bof"}
    thirds = net.folder / "thirds"
    thirds.write_text("1")
    net.lossy_cable(spaces["b"], spaces["o"], thirds)
    net.cable(spaces["o"], spaces["f"])
    moving = "2001:db8:10::/48"
    owned = {"b": ["2001:db8:1::/48", moving], "o": ["2001:db8:2::/48"], "f": ["2001:db8:3::/48"]}
    cables = [("b", 1, "o", 2), ("o", 1, "f", 1)]
    routers = {
        "b": Bird(spaces["b"], {"to-o": 1}, owned["b"], update=10),
        "o": Ours(spaces["o"], program, {"to-b": {"cost": 2}, "to-f": {}}, owned["o"]),
        "f": Frr(spaces["f"], ["to-o"], owned["f"]),
    }
    settle(routers, least(cables, owned), 2 * REGULAR)
    floor = least(cables, owned | {"f": [*owned["f"], moving]})["o"]
    owned |= {"b": owned["b"][:1], "f": [*owned["f"], moving]}
    routers["b"].own(owned["b"])
    routers["f"].tell("router ripng", f"route {moving}")

    def is_right():
        found = routers["o"].table()
        if low := {prefix: metric for prefix, metric in found.items() if metric < floor[prefix]}:
            raise Failed(f"metrics below the least: {low}")
        return not differing(routers, least(cables, owned))

    until(2 * REGULAR, lambda: f"right are not {differing(routers, least(cables, owned))}", is_right)
    thirds.write_text("0")
    for _ in range(20):
        time.sleep(2)
        same("what differs when the cable is good", differing(routers, least(cables, owned)), {})


def many_routes(net, program):
    """4,096 routes of BIRD's stand in the kernel, and come to FRR; half are given up, and just they are gone."""
    b, o, f = (net.space(name) for name in "bof")
    net.cable(b, o)
    net.cable(o, f)
    owned = {"b": [f"2001:db8:{number:x}::/48" for number in range(0x1000, 0x2000)], "o": [], "f": []}
    cables = [("b", 1, "o", 1), ("o", 1, "f", 1)]
    routers = {
        "b": Bird(b, {"to-o": 1}, owned["b"]),
        "o": Ours(o, program, {"to-b": {}, "to-f": {}}),
        "f": Frr(f, ["to-o"]),
    }
    # The socket of FRR holds seven datagrams: where it gets little of the processor it loses some, until a later update has them.
    for kept, seconds in ((owned["b"], 2 * REGULAR), (owned["b"][::2], REGULAR)):
        if kept is not owned["b"]:
            routers["b"].own(kept)
        wanted = least(cables, owned | {"b": kept})

        def what():
            found = {name: len(router.table()) for name, router in routers.items()}
            return f"{len(kept)} routes are everywhere, but {found}"

        until(seconds, what, lambda: not differing(routers, wanted))
        settle(routers, wanted, 10)
        # A neighbor that starts asks more than once, and is not answered again while the first answer waits.
        same("whether more is lost than some Requests", routers["o"].lost() > 4, False)


def spent(ours):
    """Seconds of processor time of a companion and its router, as the scheduler counts them."""
    pids = [ours.process.pid, *routers_of(ours)]
    return sum(int(pathlib.Path(f"/proc/{pid}/schedstat").read_text().split()[0]) for pid in pids) / 1e9


def two_hundred_links(net, program):
    """On each of them a neighbor tells another prefix. All are met, and neither that nor what follows takes much of a processor."""
    o, n = net.space("o"), net.space("n")
    prefixes = [f"2001:db8:{number:x}::/48" for number in range(LINKS)]
    cables = "".join(f"link add o{number} type veth peer name n{number} netns {n.full}\n" for number in range(LINKS))
    o.do("ip", "-batch", "-", input=cables)
    for space in (o, n):
        space.do("ip", "-batch", "-", input="".join(f"link set {space.name}{number} up\n" for number in range(LINKS)))
    told = {f"n{number}": {"own": False, "announce": [prefix]} for number, prefix in enumerate(prefixes)}
    neighbor = Ours(n, program, told, prefixes)
    until(REGULAR, "the neighbor is up", lambda: len(neighbor.table()) == LINKS)
    time.sleep(10)  # until it has told and asked all that it does at first
    ours = Ours(o, program, {f"o{number}": {} for number in range(LINKS)})
    until(REGULAR, "all are met", lambda: len(ours.table()) == LINKS)
    begun = spent(ours)
    same(f"whether {begun:.2f} s of a processor are less than {BEGINNING}", begun < BEGINNING, True)
    time.sleep(10)
    before = spent(ours)
    time.sleep(WATCHED)
    share = (spent(ours) - before) / WATCHED
    same(f"whether {share:.3f} of a processor is less than {IDLE}", share < IDLE, True)
