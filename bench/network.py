"""A script's network of name spaces: a router in each, and one more with a bridge for each link."""

import os
import pathlib

from space import Space, cable

NAME = f"rp{os.getpid()}"


class Network:
    """The routers of a script by their names, on links that can be cut."""

    def __init__(self, script, kind, folder):
        self.script, self.spaces, self.routers = script, [], {}
        try:
            self.wires = self.space("w")
            self.wires.do("sysctl", "-qw", "net.ipv6.conf.all.disable_ipv6=1", "net.ipv6.conf.default.disable_ipv6=1")
            for link in script.links():
                self.wires.ip("link", "add", f"br{link}", "type", "bridge", "mcast_snooping", "0")
                self.wires.ip("link", "set", "dev", f"br{link}", "up")
            for number, player in enumerate(script.players):
                self.place(number, player)
            for number, player in enumerate(script.players):
                self.routers[player.name] = self.started(number, player, kind, folder)
        except BaseException:
            self.close()
            raise

    def space(self, name):
        self.spaces.append(Space(f"{NAME}{name}"))
        return self.spaces[-1]

    def close(self):
        for space in self.spaces:
            space.end()

    def place(self, number, player):
        """Makes a router's name space, with its interfaces on their links."""
        here = self.space(str(number))
        for at, interface in enumerate(player.interfaces):
            port, device = f"p{number}-{at}", f"eth{at}"
            cable(here, device, self.wires, port, interface.mtu)
            self.wires.ip("link", "set", "dev", port, "master", f"br{interface.link}", "up")
            here.do("sysctl", "-qw", f"net.ipv6.conf.{device}.addr_gen_mode=1")
            here.ip("link", "set", "dev", device, "up")
            here.ip("address", "add", f"{interface.address}/64", "dev", device, "nodad")

    def started(self, number, player, kind, folder):
        own = pathlib.Path(folder) / player.name
        own.mkdir(mode=0o777)
        own.chmod(0o777)
        costs = {f"eth{at}": interface.cost for at, interface in enumerate(player.interfaces)}
        return kind(self.spaces[1 + number], own, costs, list(player.own))

    def tables(self):
        return {name: router.table() for name, router in self.routers.items()}

    def ports(self, link):
        """The ends of a link in the name space of bridges."""
        told = ((number, at, one.link) for number, player in enumerate(self.script.players) for at, one in enumerate(player.interfaces))
        return [f"p{number}-{at}" for number, at, other in told if other == int(link)]

    def change(self, words):
        """Does what a line of the script says."""
        name, *rest = words
        if name in ("down", "up", "cut", "mend"):
            self.set_link(name, rest[0])
        elif name in ("gain", "drop"):
            getattr(self.routers[self.script.player(rest[0]).name], name)(rest[2])
        else:
            self.set_costs(name, rest)

    def set_link(self, name, link):
        """Takes the carrier of a link, or gives it; or has frames vanish there, of which nobody is told, or pass."""
        how = {"down": ["down"], "up": ["up", "master", f"br{link}"], "cut": ["nomaster"], "mend": ["master", f"br{link}"]}[name]
        for port in self.ports(link):
            self.wires.ip("link", "set", "dev", port, *how)

    def set_costs(self, name, rest):
        """`cost R I NOW COST`, or `costs LINK NOW COST`."""
        for number, player in enumerate(self.script.players):
            for at, interface in enumerate(player.interfaces):
                is_meant = interface.link == int(rest[0]) if name == "costs" else player is self.script.player(rest[0]) and at == int(rest[1])
                if is_meant:
                    self.routers[player.name].cost(f"eth{at}", int(rest[-1]))
