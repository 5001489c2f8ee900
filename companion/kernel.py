"""The kernel's routes of the router, asked for and changed by ip(8)."""

import asyncio
import os
import subprocess

from journal import say
from privilege import hand_on
from router import read_all, spawn
from system import told

# Seconds until what somebody has changed is looked at, for all that is changed meanwhile, and from one such look to the next at least.
SOON, SELDOM = 0.2, 2
# What a prefix has in place of a gateway where packets to it go nowhere, and the priority of that: any other route goes before it.
NOWHERE, LAST = "unreachable", 2**32 - 1


# Why the kernel refuses a route, mostly, and where one sees it.
WHY = "others have their prefix and priority (`ip -6 route show PREFIX`), or their device is going; tried again when that changes"


class Kernel:
    """The routes of one table that have one protocol number. No other is touched: none is replaced, and each that is
    taken away is named by table, protocol number, priority, gateway and device.

    What is to change waits while `ip` works; of a prefix that changes meanwhile only the last word counts."""

    def __init__(self, table, protocol, priority, is_used):
        self.common, self.priority, self.is_used = f"table {table} proto {protocol}", priority, is_used
        self.table, self.protocol = table, protocol
        # Gateways and devices of prefixes: what the kernel has, what it refused, and what it is to have next.
        self.held, self.refused, self.waiting = {}, {}, {}
        # Prefixes that an earlier router has left, and this one has not told; and those whose route the kernel may have forgotten.
        self.stale, self.doubted = set(), set()
        # Prefixes to which packets go nowhere, if there is no other route.
        self.owned = []
        self.mends, self.working = False, asyncio.Lock()
        # When what is there is looked at next, and how many routes somebody has taken away or replaced so far.
        self.mending, self.mended = 0.0, 0

    async def end(self, leaves):
        """Leaves what there is, or takes away all that has the protocol number in the table, whoever left it."""
        self.is_used, was_used = False, self.is_used
        async with self.working:
            self.is_used = was_used
            if not leaves:
                self.held, self.refused, self.stale = {}, {}, set()
                await self.batch([f"route flush {self.common}"])

    async def adopt(self, owned):
        """Keeps what an earlier companion left until the router has told its own; what has another shape goes. Packets to
        what is always owned go nowhere where they have no other way: they would go to a neighbor and come back."""
        self.owned = owned
        strange, kept = [], set()
        for prefix, route in self.there() or ():
            gateway, priority = route.get("gateway"), route.get("metric", 0)
            hop = f"via {gateway} dev {route.get('dev')}"
            if gateway and priority == self.priority:
                self.held[prefix] = hop
            elif prefix in owned and route.get("type") == NOWHERE and priority == LAST:
                kept.add(prefix)
            else:
                place = hop if gateway else f"dev {route['dev']}" if "dev" in route else ""
                strange.append(f"route del {prefix} {place} metric {priority} {self.common}")
        await self.batch(strange + [self.to_nowhere(prefix) for prefix in owned if prefix not in kept])
        self.expire()

    def to_nowhere(self, prefix, verb="add"):
        return f"route {verb} {NOWHERE} {prefix} metric {LAST} {self.common}"

    def own(self, owned):
        """What is always owned is this from now on."""
        gone = [self.to_nowhere(prefix, "del") for prefix in self.owned if prefix not in owned]
        come = [self.to_nowhere(prefix) for prefix in owned if prefix not in self.owned]
        self.owned = owned
        spawn(self.batch(gone + come))

    def there(self):
        """Each prefix with its route, as `ip` says it; or None, where that is not known."""
        routes = told("the kernel's routes", "-6", "route", "show", *self.common.split()) if self.is_used else None
        if routes is None:
            return None
        prefixes = [route["dst"].replace("default", "::/0") for route in routes]
        return [(prefix if "/" in prefix else f"{prefix}/128", route) for prefix, route in zip(prefixes, routes)]

    def change(self, changes, doubted=()):
        """Each prefix is to get the gateway and device that it is given, or no route. Of those in doubt it may have none by now."""
        self.stale -= changes.keys()
        self.doubted.update(doubted)
        self.waiting |= changes
        self.start()

    def expire(self):
        """The router has ended: its routes stay until the next one tells them, or until they are swept."""
        self.stale = {prefix for prefix, hop in (self.held | self.waiting).items() if hop}

    def sweep(self, device=None):
        """Takes away what no router has told since, all of it or what goes through a device."""
        known = self.held | self.waiting
        self.change({one: None for one in self.stale if not device or known[one].endswith(f" dev {device}")})

    def mend(self):
        """Tries again what the kernel refused, and mends what somebody took away or replaced."""
        self.mends = True
        self.start()

    def heed(self, news):
        """Somebody may have changed routes: what is not as it is to be is mended soon."""
        loop = asyncio.get_running_loop()
        if (news.is_lost or any(map(self.is_amiss, news.routes))) and self.mending < loop.time():
            self.mending = max(loop.time() + SOON, self.mending + SELDOM)
            loop.call_at(self.mending, self.mend)

    def is_amiss(self, route):
        """Whether a route that came or went may leave the kernel without what it is to have, or lets it have what it refused."""
        if route.table != self.table or route.prefix in self.waiting:
            return False
        if not route.is_gone:
            return route.priority == self.priority and route.prefix in self.held
        is_own = route.protocol == self.protocol
        is_held = is_own and self.held.get(route.prefix, "").startswith(f"via {route.gateway} ")
        return is_held or route.prefix in self.refused or is_own and not route.gateway and route.prefix in self.owned

    def start(self):
        if self.is_used and (self.waiting or self.mends) and not self.working.locked():
            spawn(self.work())

    async def work(self):
        """Does what waits, and what comes meanwhile."""
        async with self.working:
            while self.is_used and (self.waiting or self.mends):
                changes, self.waiting = self.waiting, {}
                doubted, self.doubted = self.doubted, set()
                await self.put(changes, doubted)
                if self.mends and not self.waiting:
                    self.mends = False
                    await self.compare()

    async def compare(self):
        """Makes what is there what is to be there."""
        routes = self.there()
        if routes is None:
            return
        there = {
            prefix: f"via {route['gateway']} dev {route.get('dev')}"
            for prefix, route in routes
            if "gateway" in route and route.get("metric") == self.priority
        }
        wanted = {one: hop for one, hop in (self.held | self.refused).items() if one not in self.stale or there.get(one) == hop}
        self.held, self.stale = there, self.stale & there.keys()
        differing = [one for one in {**there, **wanted} if there.get(one) != wanted.get(one)]
        if taken := [one for one in differing if one in wanted and one not in self.refused]:
            self.mended += len(taken)
            say(f"somebody has taken away or replaced {len(taken)} kernel routes, that to {min(taken)} among them, which are put back")
        await self.put({one: wanted.get(one) for one in differing})
        nowhere = {prefix for prefix, route in routes if "gateway" not in route}
        await self.batch([self.to_nowhere(prefix) for prefix in self.owned if prefix not in nowhere])

    async def put(self, changes, doubted=()):
        """Gives each prefix what it is to have; an old route goes just before. Of what is refused it says how much is not
        known."""
        lines, known = [], {*self.refused}
        for prefix, hop in changes.items():
            old = self.held.pop(prefix, None)
            self.refused.pop(prefix, None)
            is_new = old != hop or prefix in doubted
            if old and is_new:
                lines.append(f"route del {prefix} {old} metric {self.priority} {self.common}")
            if hop:
                self.held[prefix] = hop
            if hop and is_new:
                lines.append(f"route add {prefix} {hop} metric {self.priority} {self.common}")
        for number in await self.batch(lines):
            verb, prefix = lines[number - 1].split()[1:3]
            if verb == "add":
                self.refused[prefix] = self.held.pop(prefix)
        if new := self.refused.keys() - known:
            say(f"the kernel refuses {len(new)} routes, that to {min(new)} among them: {WHY}")

    async def batch(self, lines):
        """Has `ip` do the lines, with the one capability; answers the numbers of those that the kernel refused: all, where `ip`
        fails itself."""
        if not lines or not self.is_used:
            return []
        try:
            with open(os.memfd_create("batch"), "w+") as file:
                file.write("\n".join(lines) + "\n")
                file.seek(0)
                words = ["ip", "-6", "-force", "-batch", "-"]
                process = subprocess.Popen(words, stdin=file, stdout=subprocess.DEVNULL, stderr=subprocess.PIPE, preexec_fn=hand_on)
        except OSError as fault:
            say(f"routes are not changed, which is tried again: `ip -batch` cannot be started: {fault.strerror}")
            return range(1, len(lines) + 1)
        said = (await read_all(process.stderr)).decode(errors="replace").splitlines()
        failed = [int(line.rsplit(":", 1)[1]) for line in said if line.startswith("Command failed -:")]
        if process.wait() and not failed:
            say(f"routes are not changed, which is tried again: `ip -batch` ends with status {process.returncode}; see `ip -6 route`")
            return range(1, len(lines) + 1)
        return failed
