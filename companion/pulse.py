"""What is looked at from time to time while all goes on: whether the router answers, whom it hears, and what nobody tells."""

import contextlib
import json
import os
import socket
import time
from collections import Counter

from events import Limits, Neighbors
from journal import log, say
from report import join, known, of_router, put
from router import spawn
from system import NO_FORWARDING, forwards

# Seconds from one look at the router to the next, and from one status file to the next; after which a router that does not answer is
# named, and is killed; and from one look at what nobody tells to the next.
BEAT, FILE, SLOW, HUNG, LOOK = 2, 10, 5, 30, 60
STATUS = "status.json"


def notify(text):
    """Tells systemd, where that has started this process and hears it (sd_notify(3))."""
    if path := os.environ.get("NOTIFY_SOCKET"):
        with socket.socket(socket.AF_UNIX, socket.SOCK_DGRAM) as sock, contextlib.suppress(OSError):
            sock.sendto(text.encode(), path.replace("@", "\0", 1) if path.startswith("@") else path)


class Pulse:
    """Looks at a companion until that ends."""

    def __init__(self, companion):
        self.companion, self.router = companion, companion.router
        self.neighbors, self.limits = Neighbors(), Limits()
        # Since when the router was asked in vain, and whether that is said; when the status file was written; whether the system
        # forwards; and pairs of devices on one link.
        self.in_vain, self.is_named, self.written = None, False, float("-inf")
        self.forwards, self.pairs = None, set()

    async def run(self):
        """Beats, and looks once a minute at what nobody tells."""
        looked = float("-inf")
        while not self.companion.stopping.is_set():
            if time.monotonic() - looked > LOOK:
                self.look(is_first=looked < 0)
                looked = time.monotonic()
            await self.beat()
            await self.companion.wait(BEAT)

    async def beat(self):
        """Asks the router, and says what is news."""
        for kind in list(log.kinds):
            log.end_second(kind)
        asked = time.monotonic()
        lines, now = await self.router.status(SLOW), time.monotonic()
        is_silent = self.router.is_there() and self.router.answered < asked
        self.in_vain = max(self.in_vain or asked, self.router.began) if is_silent else None
        self.judge(now - self.in_vain if is_silent else 0)
        if lines:
            self.say_news(lines, now)
        if now - self.written > FILE:
            self.written = now
            self.write(join(known(self.companion), lines, self.companion.forwarding))

    def judge(self, silent):
        """Names a router that does not answer for so many seconds, and kills one that is hung: another takes its place. systemd hears
        that all is well as long as it is. Time in which the companion itself stood still, and asked nobody, does not count."""
        if silent < SLOW:
            self.is_named = False
            notify("WATCHDOG=1")
        elif not self.is_named:
            self.is_named = True
            say(f"the router has not answered for {SLOW} s; it is killed and started anew after {HUNG}")
        if silent > HUNG:
            say("the router is killed, since it does not answer")
            self.router.process.kill()

    def say_news(self, lines, now):
        """Says who is met, who is silent, and which limits are reached. Of all that the router says only that is read so often."""
        whole, _, neighbors = of_router(lines)
        links = {link.number: link.link for link in self.companion.plan.links.values() if link.number is not None}
        ages, refused = {}, Counter()
        for (number, address), counted in neighbors.items():
            if number in links:
                device = links[number].device
                refused[device] += counted["refused"].get("LimitReached", 0)
                if counted.get("responses"):
                    ages[device, address] = (whole.get("now", 0) - counted["last"]) / 1000
        limits = {link.device: link.limit for link in links.values()}
        for line in self.neighbors.take(ages, now) + self.limits.take(refused, limits, now):
            say(line)

    def write(self, told):
        """Everybody may read how all is, in a file of the folder."""
        try:
            put(f"{self.companion.folder}/{STATUS}", json.dumps(told) + "\n")
        except OSError as fault:
            say(f"cannot write {self.companion.folder}/{STATUS}, which is tried again: {fault.strerror}")

    def look(self, is_first=False):
        """Looks at what nobody tells: a lost event, routes that the kernel lacks, and what is set up wrong."""
        was, self.forwards = self.forwards, forwards()
        if self.forwards is False and was is not False:
            say(NO_FORWARDING)
        if not is_first:
            self.companion.look()
            self.companion.kernel.mend()
            spawn(self.look_at_zones())
            for link in self.companion.plan.links.values():
                link.sockets.requests()  # old ones go

    async def look_at_zones(self):
        """Says which devices are on one link: each hears the other, so that the router hears itself."""
        told = await self.router.neighbors()
        heard = {link: told.get(link.number, {}) for link in self.companion.plan.heard()}
        addresses = {str(link.address): link for link in heard}
        for one in heard:
            for other in filter(None, map(addresses.get, heard[one])):
                pair = frozenset((one.link.device, other.link.device))
                both = str(one.address) in heard[other]
                if both and one.zone != other.zone and pair not in self.pairs:
                    self.pairs.add(pair)
                    say(f"{' and '.join(sorted(pair))} are on one link: write one `zone` for both, as zone = 1")
