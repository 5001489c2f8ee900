"""All of the companion, in one loop: the sockets of the links, the router and the kernel's routes."""

import asyncio
import fcntl
import os
import signal
import time
from collections import Counter

import asking
import lines
import privilege
import sockets
import status
from check import taken
from events import States
from journal import log, say, why
from kernel import Kernel
from plan import Plan
from pulse import Pulse, notify
from reload import changes, refuse_fixed
from router import Router, configuration, spawn
from system import devices
from table import Fault
from watch import Watch

# Seconds that links are waited for at the start that try an address, and others; until what has failed is tried again; that an earlier
# router's routes stay without being told again; in which changes of links are gathered, so that the router starts anew once for all of
# them; and in which a router has told what it withdraws (RFC 2080, 2.5.1).
PATIENCE, SHORT, PAUSE, STAY, GATHERS, TELLS = 10, 3, 1, 10, 0.3, 6
# How many links are named at the start of a router.
NAMED = 8


def folder_of(table):
    """Where configuration and sockets lie, of the user alone, and what everybody may read who knows its name. It is locked as long as
    this process lives."""
    folder = os.environ.get("RUNTIME_DIRECTORY") or table.folder
    try:
        if not os.path.isdir(folder):
            os.makedirs(folder)
            os.chmod(folder, 0o711)
        fcntl.flock(os.open(folder, os.O_RDONLY), fcntl.LOCK_EX | fcntl.LOCK_NB)
        if os.geteuid() == 0:
            privilege.give(folder, table.user)
    except BlockingIOError:
        raise Fault(f"cannot use {folder}: another ripngd-links is there; name another `folder`", 3) from None
    except OSError as fault:
        raise Fault(f"cannot use {folder}: {fault.strerror}", 3) from None
    return folder


class Companion:
    """All of it; when it is made it drops its privileges."""

    def __init__(self, table, given):
        self.table, self.debug, self.is_unproved, self.path = table, given.d, given.unproved, os.path.abspath(given.config)
        os.umask(0o077)
        self.folder = folder_of(table)
        self.kernel = Kernel(table.table, table.protocol, table.priority, not given.no_kernel)
        self.router = Router(table.program, self.folder)
        sockets.claim()
        self.plan = Plan(table, self.router)
        self.plan.follow(devices() or {})
        privilege.drop(table.user, privilege.NET_RAW, *[privilege.NET_ADMIN] * self.kernel.is_used)
        # The router's forwarding table, what it owns, its links with their keys, and which of them the table has no longer.
        self.forwarding, self.owned, self.attached, self.left = {}, {}, {}, set()
        self.stopping, self.hands_over, self.fault = asyncio.Event(), False, None
        # Why no router starts, where that was tried in vain.
        self.trouble = None
        # What is to be done later, and in how many seconds the router starts anew.
        self.sweeping, self.gathering, self.gathers = None, None, 0
        # The states of links, and whether all of them are to be said; what is counted, since when; and what is looked at.
        self.states, self.says_all, self.counts, self.began = States(), False, Counter(), time.monotonic()
        self.watch, self.pulse = Watch(table.protocol), Pulse(self)

    async def run(self):
        """Everything until a signal ends it, or a fault does, which it answers."""
        loop = asyncio.get_running_loop()
        loop.set_exception_handler(lambda _, told: self.stop(told.get("exception") or Fault(told["message"], 3)))
        handlers = {"TERM": self.stop, "INT": self.stop, "HUP": self.reload, "USR1": self.count, "USR2": self.hand_over}
        for name, handler in handlers.items():
            loop.add_signal_handler(signal.Signals[f"SIG{name}"], handler)
        log.start()
        self.ending = asyncio.create_task(self.stopping.wait())
        await self.kernel.adopt(self.nowhere())
        self.sweep_after(PATIENCE + STAY)
        loop.add_reader(self.watch.sock, self.heed)
        self.look()
        self.sweep_links()
        await asking.listen(self.folder, {"status": self.tell_status, "reload": self.tell_reload})
        notify("READY=1")
        pulse, keeper = asyncio.create_task(self.pulse.run()), asyncio.create_task(self.keep_router())
        await asyncio.wait([keeper, pulse, self.ending], return_when=asyncio.FIRST_COMPLETED)
        self.stopping.set()
        await self.router.stop(*["stop"] * (not self.hands_over))
        await asyncio.wait([keeper, pulse])
        await self.kernel.end(leaves=self.hands_over)
        self.count()
        return self.fault or keeper.exception() or pulse.exception()

    def stop(self, fault=None):
        """Ends all, for that fault if there is one. What goes wrong while all ends is no fault."""
        if not self.stopping.is_set():
            self.fault = fault
            self.stopping.set()

    def hand_over(self):
        """Ends all but the kernel's routes, and tells no neighbor: another companion takes over."""
        self.hands_over = True
        self.stop()

    def reload(self):
        """Takes the table as it is in its file by now, or says why not, and leaves all as it was. Answers the fault and what changes."""
        try:
            table = taken(self.path, self.is_unproved)
            refuse_fixed(self.table, table)
        except Fault as fault:
            self.counts["reloads_refused"] += 1
            say(f"not reloaded, all goes on as it was: {fault}")
            return fault, []
        self.counts["reloads"] += 1
        changed = list(changes(self.table, table))
        say(f"reloaded: {', '.join(changed) or 'nothing has changed'}")
        self.table = self.plan.table = table
        self.kernel.own(self.nowhere())
        self.look()
        return None, changed

    async def tell_reload(self):
        """The same for a client."""
        fault, changed = self.reload()
        return {"fault": fault and str(fault), "changes": changed}

    async def tell_status(self):
        return await status.report(self)

    def nowhere(self):
        """What is always owned, so that packets to it go nowhere where they have no other way. ::/0 is no such thing."""
        return [owned.prefix for owned in self.table.prefix if owned.prefix != "::/0"]

    def count(self):
        """Says what was counted."""
        say(f"kernel has {len(self.kernel.held)}, refused {len(self.kernel.refused)}")

    def heed(self):
        """Something happened to devices, addresses or routes."""
        news = self.watch.read()
        if news.is_moved:
            self.look(news.were_down)
        self.kernel.heed(news)

    def look(self, were_down=()):
        """Looks at devices and addresses anew; some had no carrier meanwhile, so the kernel forgot their routes."""
        found = devices()
        if found is None:
            asyncio.get_running_loop().call_later(PAUSE, self.look)
            return
        if self.plan.is_renamed(found):
            self.kernel.mend()  # its routes have the other name, too
        before = {link: link.device for link in self.plan.links.values()}
        self.plan.follow(found, kept=self.attached)
        for link in self.plan.links.values():
            self.look_at(link, before.get(link), link.link.device in were_down)
        self.say_states()
        self.compare(TELLS if self.own() else GATHERS)

    def look_at(self, link, old, was_down):
        """A link may have come up, or gone down."""
        name, was_up, link.was_up = link.link.device, link.was_up, link.up
        here = {prefix: via for prefix, via in self.forwarding.items() if via and via[1] == link.number}
        if link.up and not (was_up and old.index == link.device.index and not was_down):
            self.forward(here, doubted=here)
            if was_up:
                self.kernel.sweep(name)
            link.follow()
            spawn(link.inquire())
        elif was_up and not link.up:
            self.forward(here)
            self.kernel.sweep(name)
            spawn(link.withdraw())

    def say_states(self):
        """Says which devices are not there, and once the router is to start, which links are up or not, where that is news."""
        self.states.take(self.plan.states(), time.monotonic())
        for line in self.states.news(lambda device: self.says_all or device not in self.plan.devices):
            say(line)

    def compare(self, seconds):
        """Where the links are not as the router has them, it is to start anew soon, once for all that changes meanwhile."""
        changed = self.plan.differing(self.attached) or self.router.program != self.table.program
        if self.attached and changed and seconds > self.gathers:
            if self.gathering:
                self.gathering.cancel()
            self.gathering, self.gathers = asyncio.get_running_loop().call_later(seconds, self.start_anew), seconds

    def start_anew(self):
        """Ends the router, if its links are still not as it has them. It tells nobody, and the kernel keeps its routes."""
        self.gathering, self.gathers = None, 0
        changed = self.plan.differing(self.attached) or ["the program"] * (self.router.program != self.table.program)
        if self.attached and changed and not self.stopping.is_set():
            say(f"{', '.join(changed)} changed, so the router starts anew; packets are forwarded on")
            self.attached = {}
            spawn(self.router.stop())

    def own(self):
        """Tells a router that runs what it owns from now on, what no longer, what its links cost, and which are gone. Answers whether it
        has to tell its neighbors that it has withdrawn something."""
        if not self.router.ready:
            return False
        wanted = self.plan.owned()
        lost = [f"drop {prefix}" for prefix, tag in self.owned.items() if wanted.get(prefix) != tag]
        told = [f"gain {prefix} {tag}" for prefix, tag in wanted.items() if self.owned.get(prefix) != tag]
        self.owned = wanted
        for number, (link, keys) in enumerate(self.attached.items()):
            if link.link.device not in self.plan.links and link not in self.left:
                self.left.add(link)
                lost.append(f"link down {number}")
            elif keys["cost"] != link.link.cost:
                keys["cost"] = link.link.cost
                told.append(f"cost {number} {link.link.cost}")
        for command in lost + told:
            spawn(self.router.tell(command))
        return bool(lost)

    async def wait(self, seconds):
        """Pauses, but no longer than it is to run."""
        await asyncio.wait([self.ending], timeout=seconds)

    def is_awaited(self, link, tenths):
        """Whether a link may come up soon: one that is off, or whose device is not there, does not."""
        patience = PATIENCE if link.device and link.device.is_trying else SHORT
        return not link.up and link.device and link.device.is_on and tenths < patience * 10

    async def wait_for_links(self):
        """Waits a while for the links that may come up soon, and says which are not up then."""
        for tenths in range(PATIENCE * 10):
            if self.stopping.is_set() or not any(self.is_awaited(link, tenths) for link in self.plan.links.values()):
                break
            await self.wait(0.1)
        self.says_all = True
        self.say_states()

    async def keep_router(self):
        """Lets routers live, one after another, on the links that are there."""
        await self.wait_for_links()
        while not self.stopping.is_set():
            if not self.plan.present():
                await self.wait(0.1)
                continue
            self.plan.follow(self.plan.devices)  # what a pattern had, and is not there any longer, goes
            self.attached = self.plan.present()
            try:
                await self.live()
            except OSError as fault:
                self.say_trouble(why(fault))
            if self.attached:  # nobody has asked it to end
                await self.wait(PAUSE)

    async def live(self):
        """A router's whole life, on the links that are attached. What came while no router was there is old, and dropped: the
        router asks anew."""
        self.owned, self.router.program, self.left, given = self.plan.owned(), self.table.program, set(), []
        for link in self.attached:
            link.sockets.drain()
            given += link.sockets.keys().values()
        self.router.start(configuration(self.attached.values(), self.owned), given, self.debug)
        self.begin()
        try:
            code = await self.router.live(self.change, self.hear)
        finally:
            self.lose()
        if code in (1, 2):
            raise Fault(f"the router refuses {self.router.config}")
        if code and self.attached and not self.stopping.is_set():
            say(f"the router has ended with status {code}")

    def begin(self):
        """A router has started: its interfaces have their numbers, it is counted, and said on which links it is."""
        for number, link in enumerate(self.attached):
            link.number = number
        names = list(self.names().values())
        self.counts["starts"] += 1
        self.trouble = None
        say(f"the router starts on {', '.join(names[:NAMED])}{f' and {len(names) - NAMED} more' * (len(names) > NAMED)}")

    def say_trouble(self, trouble):
        """Says why no router starts, once as long as that is the same."""
        if trouble != self.trouble:
            say(f"the router is not started, which is tried again: {trouble}")
        self.trouble = trouble

    def lose(self):
        """The router has ended. The kernel keeps its routes until the next one has had time to tell its own."""
        self.forwarding = {}
        self.kernel.expire()
        self.sweep_after(STAY)
        for link in self.plan.links.values():
            link.number = None

    def sweep_links(self):
        """Takes away what an earlier companion has left on links that have no carrier by now."""
        for link in self.plan.links.values():
            if link.device and not link.device.carrier:
                self.kernel.sweep(link.link.device)

    def sweep_after(self, seconds):
        """What is not told within that time is no route any longer."""
        if self.sweeping:
            self.sweeping.cancel()
        self.sweeping = asyncio.get_running_loop().call_later(seconds, self.kernel.sweep)

    def names(self):
        """The devices of the router's interfaces, by number."""
        return {number: link.link.device for number, link in enumerate(self.attached)}

    def hear(self, heard):
        """Lines of the router's standard error."""
        for line in heard:
            lines.say_line(line, self.names())
            if line.startswith("ripngd: running, "):
                self.router.ready = bool(self.attached)
                self.sweep_after(STAY)
                self.own()
                for link in self.plan.links.values():
                    spawn(link.inquire(is_first=True))

    def change(self, logged):
        """Lines of the router's log: changes of its forwarding table, in order."""
        changed, others = lines.changes(logged)
        for line in others:
            if line.startswith("refused "):
                say(f"{self.router.config}: {line}")
        self.counts["route_changes"] += len(logged) - len(others)
        for prefix, change in changed.items():
            if self.table.log_routes:
                lines.say_change(prefix, change, self.names())
            self.forwarding.pop(prefix, None)
            if change and change[1]:
                self.forwarding[prefix] = change[1:]
        self.forward({prefix: change and change[1] and change[1:] for prefix, change in changed.items()})

    def forward(self, changed, doubted=()):
        """The kernel gets these entries, where there is a carrier; some it may have forgotten."""
        devices = {link.number: link.link.device for link in self.plan.links.values() if link.up}
        hops = {prefix: f"via {via[0]} dev {devices[via[1]]}" if via and via[1] in devices else None for prefix, via in changed.items()}
        self.kernel.change(hops, doubted)
