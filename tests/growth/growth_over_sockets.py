"""Each growth refused in turn of a router that has a neighbor."""

import collections
import contextlib
import itertools
import pathlib
import socket
import subprocess
import time

from refusing import MESSAGE, SECONDS, shown
from suite import Failed, Ports, same

CONFIGURATION = """[[interface]]
address = 'fe80::1'
cost = 1
local_port = {here}
[[interface.peer]]
address = 'fe80::2'
local_port = {there}
[[prefix]]
prefix = '2001:db8:1::/48'
"""

# 2001:db8::/32 at metric 1.
RESPONSE = bytes.fromhex("0201000020010db800000000000000000000000000002001")
TABLE = b"2001:db8::/32 metric 2 via fe80::2 iface 0\n2001:db8:1::/48 metric 1 direct\n"


def sweep(first, step, run, needed):
    """Refuses every so manieth allocation in turn, until none is refused. `run` answers what a run was, its kind, or nothing where it may
    not be that, and how many allocations it asked for. Each needed kind has to come."""
    kinds = collections.Counter()
    for nth in itertools.count(first, step):
        ended, kind, calls = run(nth)
        if kind is None:
            raise Failed(shown(nth, ended))
        kinds[kind] += 1
        if ended.returncode == 0 and calls < nth:
            same("the run in which none is refused", kind, "undisturbed")
            break
    missing = [kind for kind in needed if not kinds[kind]]
    if missing:
        raise Failed(f"no run was {missing}: {dict(kinds)}")


class Router:
    """A router whose neighbor sends it the same Response over and over, until it has made its forty turns."""

    def __init__(self, refuser, folder, ports):
        self.refuser, self.folder = refuser, pathlib.Path(folder)
        self.here, there = ports.next(), ports.next()
        (self.folder / "router.toml").write_text(CONFIGURATION.format(here=self.here, there=there))
        self.neighbor = socket.socket(socket.AF_INET, socket.SOCK_DGRAM)
        self.neighbor.bind(("127.0.0.1", there))

    def run(self, nth):
        count = self.folder / "count"
        words = [self.refuser.program, "run", "--turns", "40", "-d", "-R", "log", "router.toml"]
        process = subprocess.Popen(words, cwd=self.folder, stdin=subprocess.DEVNULL, stdout=subprocess.PIPE, stderr=subprocess.PIPE,
                                   env=self.refuser.environment(nth, count))
        end = time.monotonic() + SECONDS
        while process.poll() is None and time.monotonic() < end:
            self.neighbor.sendto(RESPONSE, ("127.0.0.1", self.here))
            time.sleep(0.002)
        process.kill()
        out, err = process.communicate()
        ended = subprocess.CompletedProcess(words, process.returncode, out, err)
        return ended, self.judge(ended), int(count.read_text().split()[0]) if count.exists() else 0

    def judge(self, ended):
        """It has ended for want of memory, or has the whole table in the end and says what was lost on the way. Its log is whole."""
        if ended.returncode == 3 and ended.stdout == b"" and ended.stderr.endswith(MESSAGE):
            return "out of memory"
        log = subprocess.run([self.refuser.program, "table", "log"], cwd=self.folder, capture_output=True, timeout=SECONDS)
        if (ended.returncode, ended.stdout, log.stdout) != (0, TABLE, TABLE):
            return None
        if ended.stderr.endswith(b"ripngd: lost sends 0, lost steps 1\n"):
            return "a step lost"
        return "an entry skipped" if b"noted 24 NoMemory 1\n" in ended.stderr else "undisturbed"


def sweep_router(refuser, folder, first, step):
    with contextlib.closing(Ports()) as ports:
        router = Router(refuser, folder, ports)
        with router.neighbor:
            sweep(first, step, router.run, ["out of memory", "a step lost"])
