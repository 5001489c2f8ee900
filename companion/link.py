"""A link of the router: its device, its sockets, and whether the router is told that it is up."""

import asyncio

from journal import say
from sockets import Sockets

# Seconds from one question to the next on a link that has come up, whose neighbors may be slower; how many of them are asked whatever
# was heard, since an update is no answer; and seconds from one time to the next that the router is told that a link is down: what came
# before may still wait in its sockets.
PATIENCE, ALWAYS, DOWN = (0, 2, 3), 2, (0, 1)
# Zones that a table may name (RFC 4007, section 6); a link that names none is a zone of its own, behind these.
NAMED = 255


class Link:
    """A device, and the router's interface of that number on it."""

    def __init__(self, words, own_zone, router):
        self.link, self.own_zone, self.router = words, own_zone, router
        self.sockets = Sockets(words.device, words.queries)
        # Its device, whether it was up when it was looked at, and the router's interface of it.
        self.device, self.was_up, self.number = None, False, None

    @property
    def zone(self):
        return self.link.zone or self.own_zone

    @property
    def up(self):
        return bool(self.device and self.device.carrier and self.device.link_local and not self.device.bridge)

    @property
    def address(self):
        """The router's address on the link: the one from which the kernel sends."""
        return self.device.link_local

    def keys(self):
        """What a router's configuration would say of it."""
        keys = {"address": str(self.address), "cost": self.link.cost, "mtu": min(self.device.mtu, 65535), "zone": self.zone}
        return keys | self.link.lists() | self.sockets.keys()

    def close(self):
        """It is no link any longer. A router that runs has its sockets until it ends."""
        self.number = None
        self.sockets.close()

    def follow(self):
        """The link has a carrier: its sockets are those of the device, and hear the group."""
        try:
            self.sockets.follow(self.device.index)
        except OSError as fault:
            say(f"{self.link.device} is not heard: {fault.strerror}")

    def repeat(self):
        """Gives the router once more what neighbors asked in the last seconds: they ask once, as they come up, and an answer is lost
        while either end has no address yet."""
        if self.is_there(True):
            try:
                self.sockets.repeat(self.address)
            except OSError as fault:
                say(f"{self.link.device}: Requests are not answered: {fault.strerror}")

    def is_there(self, is_up):
        """Whether the router that runs has this link, and that is up or not."""
        return self.up == is_up and self.number is not None and self.router.ready

    async def neighbors(self):
        """How many Responses the router has taken of each neighbor, by address."""
        return (await self.router.neighbors()).get(self.number, {})

    async def inquire(self, is_first=False):
        """Has the router answer and ask a link that has come up, and once more when both ends have an address, and again if nobody says
        anything then. A router that has just started has asked once by itself, and asks only if nobody does."""
        asked, before = ALWAYS if is_first else 0, 0
        for pause in PATIENCE[is_first:]:
            await asyncio.sleep(pause)
            self.repeat()
            heard = sum((await self.neighbors()).values())
            if self.is_there(True) and (asked < ALWAYS or heard <= before):
                await self.router.tell(f"link up {self.number}")
                asked, before = asked + 1, heard

    async def withdraw(self):
        """The link has no carrier: the router withdraws what it learned there."""
        for pause in DOWN:
            await asyncio.sleep(pause)
            if self.is_there(False):
                await self.router.tell(f"link down {self.number}")
