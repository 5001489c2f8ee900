"""Which links there are: those that the table names, and devices that match its patterns; which of them a router would have, and what it
would own."""

from dataclasses import replace

from link import NAMED, Link
from system import state_of
from table import LINKS


def places(links, names, kept=()):
    """What the table says of each device: of those that it names, whether they are there or not, and of those names, or names kept from
    before, that match a pattern. Of patterns the first that fits decides."""
    found = {link.device: link for link in links if not link.is_pattern}
    for link in links:
        for name in [*kept, *names] if link.is_pattern else ():
            if name not in found and link.matches(name):
                found[name] = replace(link, device=name)
    return found


def is_unlike(has, wants):
    """Whether a router that has a link with these keys cannot get others without a new start. It is told the cost; and it sends nothing
    that is too long where the MTU is as large as it was."""
    told = {"cost", "mtu"}
    return wants["mtu"] < has["mtu"] or any(has.get(key) != wants.get(key) for key in (has.keys() | wants.keys()) - told)


class Plan:
    """The links of the table and of the system's devices."""

    def __init__(self, table, router):
        self.table, self.router = table, router
        # By device: what the table says, the links on which RIPng is spoken, and why one cannot be heard.
        self.places, self.links, self.faults = {}, {}, {}
        self.devices = {}

    def follow(self, devices, kept=()):
        """The devices are these. A link of a pattern is kept while a router has it; links that are gone are closed."""
        self.devices = devices
        names = [name for name, device in devices.items() if not device.is_loopback]
        self.places = places(self.table.link, names, [link.link.device for link in kept])
        spoken = [name for name, words in self.places.items() if not words.stub]
        for name in self.links.keys() - set(spoken[:LINKS]):
            self.links.pop(name).close()
        self.faults = dict.fromkeys(spoken[LINKS:], f"is one too many: {LINKS} at most have room")
        for name in spoken[:LINKS]:
            self.place(name, self.places[name])
        for link in self.links.values():
            link.device = devices.get(link.link.device)

    def is_renamed(self, devices):
        """Whether a device that was there is there under another name."""
        names = {device.index: name for name, device in devices.items()}
        return any(names.get(device.index, name) != name for name, device in self.devices.items())

    def place(self, name, words):
        """There is a link of that device. Its sockets are made anew where others may ask."""
        link = self.links.get(name)
        if link and link.link.queries != words.queries:
            self.links.pop(name).close()
        elif link:
            link.link = words
            return
        taken = {link.own_zone for link in self.links.values()}
        zone = next(zone for zone in range(NAMED + 1, NAMED + 2 + LINKS) if zone not in taken)
        try:
            self.links[name] = Link(words, zone, self.router)
        except OSError as fault:
            self.faults[name] = f"has no sockets: {fault.strerror}"

    def state(self, words, heard):
        """Whether a link is up, or why it is not, where the router would have these."""
        link = self.links.get(words.device)
        if words.device in self.faults:
            return self.faults[words.device]
        if link and link.up and link not in heard:
            return "has the address of another link in its zone"
        return state_of(self.devices.get(words.device), words.stub)

    def states(self):
        """All of them, by device."""
        heard = set(self.heard())
        return {name: self.state(words, heard) for name, words in self.places.items()}

    def heard(self):
        """The links that a router would have: of two with one address in one zone, the first."""
        first = {}
        for link in self.links.values():
            if link.up:
                first.setdefault((link.zone, link.address), link)
        return list(first.values())

    def present(self):
        """The same, each with its keys."""
        return {link: link.keys() for link in self.heard()}

    def differing(self, attached):
        """The devices for which a router that has those links, with those keys, has to start anew."""
        present, known = self.present(), set(self.links.values())
        changed = [link for link, keys in present.items() if link not in attached or is_unlike(attached[link], keys)]
        gone = [link for link in attached if link not in known]
        return sorted({link.link.device for link in changed + gone})

    def owned(self):
        """What the router is to own, with tags."""
        found = {owned.prefix: owned.tag for owned in self.table.prefix}
        for name, words in self.places.items():
            device = self.devices.get(name)
            if words.own and device and device.carrier:
                found |= {str(prefix): words.tag for prefix in device.prefixes if str(prefix) not in found}
        return found
