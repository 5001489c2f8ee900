"""What happens to the ring: in half an hour by a conductor's clock, in seconds by the system's, and where a router is killed within a step."""

import shutil
import tempfile
import time

from daemons import Case
from datagrams import REQUEST, entry, response
from recorded.conductor import Conductor
from recorded.replayed import completed
from recorded.ring import ROUTERS, Ring

CALM = (10, 45_000)
"""A stretch of the half hour with the first Requests and answers, in which nothing is changed, started or stopped."""
QUIET, END = 250_100, 1_950_000
"""From when until when nothing is either: its last 28 minutes and some seconds."""


def conducted(case):
    """A conductor, who is there as long as the case."""
    conductor = Conductor(case.folder)
    case.sockets.append(conductor)
    return conductor


def begun(case, conductor=None, **orders):
    """The ring, whose routers have started, router 1 with these orders."""
    ring = Ring(case, conductor)
    for router in range(ROUTERS):
        ring.start(router, **(orders if router == 1 else {}))
    return ring


def intrude(ring):
    """An outside host asks, and sends what is refused, and what is no datagram."""
    for datagram in (REQUEST, response(entry("2001:db8:f::/48", 1)), b"\2\1"):
        ring.host.send(ring.ports[0][0], datagram)


def counted(ring):
    """What was done, with what each router counts at its end."""
    for router in range(ROUTERS):
        ring.told(router, "counts")
    return ring.history()


def half_an_hour(case):
    """An outside host asks, a cost changes, datagrams are lost, a prefix is gained and dropped, a router is killed and started again, one is
    stopped and started again; and then nothing happens for 28 minutes."""
    conductor = conducted(case)
    ring = begun(case, conductor)
    conductor.run(50_000)
    intrude(ring)
    conductor.settle()
    conductor.run(60_000)
    ring.told(0, "cost 0 3")
    conductor.lose(1, 3)
    conductor.run(80_000)
    ring.told(2, "gain 2001:db8:f::/48 9")
    conductor.run(110_000)
    ring.told(2, "drop 2001:db8:f::/48")
    conductor.run(120_000)
    ring.kill(1)
    conductor.run(160_000)
    ring.start(1)
    conductor.run(200_000)
    ring.stop(0)
    conductor.run(230_000)
    ring.start(0)
    conductor.run(END + 1_000)
    return counted(ring)


def some_seconds(case):
    """The same, as the system lets it happen. What is sent to a router that is down is lost."""
    ring = begun(case)
    time.sleep(2)
    intrude(ring)
    ring.told(0, "cost 0 3")
    ring.kill(1)
    time.sleep(2)
    ring.start(1)
    ring.stop(0)
    time.sleep(2)
    ring.start(0)
    time.sleep(18)
    return whole(case.program, counted(ring))


def killed(case):
    """A router is killed between the two datagrams of an update, and started again."""
    conductor = conducted(case)
    ring = begun(case, conductor, RECORD_CUT="10")
    conductor.run(40_000)
    ring.kill(1)
    ring.start(1)
    conductor.run(60_000)
    return ring.history()


def last_deed(history):
    """That of the first run of router 1, which was killed, and its place."""
    last = history.runs[1][0].deeds[-1]
    return last, next(place for place, dated in enumerate(history.deeds) if dated.deed is last)


def whole(program, history):
    """The history, where the step within which router 1 was killed is whole: what it had still to hand over, the links lost."""
    return completed(program, history, *last_deed(history))


def played(program, scene):
    """What a scene makes of a case with a folder of its own."""
    folder = tempfile.mkdtemp(prefix="ripngd-ring-")
    case = Case(program, folder)
    try:
        return scene(case)
    finally:
        case.close()
        shutil.rmtree(folder, ignore_errors=True)
