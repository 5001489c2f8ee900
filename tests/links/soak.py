"""A case of ten minutes: loss and restarts all along. It is played only where it is named."""

import itertools
import signal
import subprocess
import time

from edges import is_router
from least import REGULAR, least, settle
from spaces import Bird, Frr, Ours
from suite import Failed, same

# Seconds that it lasts, from one disturbance to the next, that a cable or a companion is away, and between two looks.
LASTS, APART, AWAY, LOOK = 600, 30, 5, 1


def kill_router(ours):
    """The router dies, and its companion starts another."""
    for pid in filter(is_router, ours.children()):
        subprocess.run(["kill", "-KILL", str(pid)], check=True)


def kill_companion(ours):
    """The companion dies without a last word, and with it its router."""
    ours.end(signal.SIGKILL)
    time.sleep(AWAY)
    ours.start()


def end_companion(ours):
    """The companion is ended and started again."""
    same("the status of an ended companion", ours.end(signal.SIGTERM), 0)
    ours.start()


def cut(ours):
    """A cable is cut for a while."""
    ours.space.ip("link", "set", "to-f", "down")
    time.sleep(AWAY)
    ours.space.ip("link", "set", "to-f", "up")


def hops(ours):
    """Gateway and device of each route, as the router says."""
    devices = ours.devices
    found = (line.split() for line in ours.ctl("table"))
    return {words[0]: (words[4], devices[int(words[6])]) for words in found if "via" in words}


def look(ours, floors):
    """No metric is below the least cost of the ring when it is whole: what is cut makes none less."""
    for router, floor in zip(ours, floors):
        if low := {prefix: metric for prefix, metric in router.table().items() if metric < floor[prefix]}:
            raise Failed(f"metrics below the least: {low}")


def ten_minutes(net, program):
    """A ring of BIRD, ours, FRR, ours whose cables lose a third: ours die, end and start again, cables are cut; no metric
    is ever below the least cost, and at the end each kernel's table is its router's, and right."""
    spaces = {name: net.space(name) for name in "bofp"}
    thirds = net.folder / "thirds"
    thirds.write_text("1")
    order = list(spaces.values())
    for one, other in zip(order, order[1:] + order[:1]):
        net.lossy_cable(one, other, thirds)
    owned = {name: [f"2001:db8:{number}::/48"] for number, name in enumerate(spaces, 1)}
    cables = [("b", 1, "o", 1), ("o", 1, "f", 1), ("f", 1, "p", 1), ("p", 3, "b", 4)]
    ours = [
        Ours(spaces["o"], program, {"to-b": {}, "to-f": {}}, owned["o"]),
        Ours(spaces["p"], program, {"to-f": {}, "to-b": {"cost": 3}}, owned["p"]),
    ]
    bird = Bird(spaces["b"], {"to-o": 1, "to-p": 4}, owned["b"])
    routers = {"b": bird, "o": ours[0], "f": Frr(spaces["f"], ["to-o", "to-p"], owned["f"]), "p": ours[1]}
    wanted = least(cables, owned)
    disturbances = itertools.cycle(itertools.product((kill_router, end_companion, cut, kill_companion), ours))
    ends = time.monotonic() + LASTS
    while time.monotonic() < ends:
        disturb, router = next(disturbances)
        disturb(router)
        calm = time.monotonic() + APART
        while time.monotonic() < min(calm, ends):
            look(ours, [wanted["o"], wanted["p"]])
            time.sleep(LOOK)
    thirds.write_text("0")
    settle(routers, wanted, 2 * REGULAR)
    for router in ours:
        kernel = {prefix: (route["gateway"], route["dev"]) for prefix, route in router.kernel().items()}
        same("the kernel's table", kernel, hops(router))
