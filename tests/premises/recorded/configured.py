"""Networks and configurations as data: what a network is made of, and what the file of a router says, which is read from the file."""

import dataclasses
import ipaddress
import tomllib


@dataclasses.dataclass(frozen=True)
class Interface:
    """`NetInterface`: an interface, and the link that it is on."""
    address: str
    cost: int
    mtu: int
    link: int


@dataclasses.dataclass(frozen=True)
class Config:
    """`Config`, of a router: what its interfaces are and cost, and the prefixes that it owns, with their tags."""
    interfaces: tuple
    prefixes: tuple
    quiet: bool = False


@dataclasses.dataclass(frozen=True)
class Place:
    """The port of an interface, and what is said of each peer, by its port: address, source port, hop limit, whether to the group."""
    port: int
    peers: dict


def config_of_file(text, links):
    """What a file says, for a router whose interfaces are on these links."""
    read = tomllib.loads(text)
    interfaces = [Interface(one["address"], one["cost"], one.get("mtu", 1280), link) for one, link in zip(read["interface"], links, strict=True)]
    return Config(tuple(interfaces), tuple((one["prefix"], one.get("tag", 0)) for one in read.get("prefix", [])))


def places_of_file(text):
    """Where its interfaces are, and their peers."""
    return [Place(one["local_port"], {peer["local_port"]: (peer["address"], peer.get("port", 521), peer.get("hop_limit", 255),
                                                           peer.get("group", True)) for peer in one.get("peer", [])})
            for one in tomllib.loads(text)["interface"]]


def changed(config, words):
    """A configuration after a change that a client ordered (`reconfigured_config`)."""
    match words:
        case ("cost", iface, cost):
            interfaces = list(config.interfaces)
            interfaces[int(iface)] = dataclasses.replace(interfaces[int(iface)], cost=int(cost))
            return dataclasses.replace(config, interfaces=tuple(interfaces))
        case ("gain", prefix, tag):
            return dataclasses.replace(config, prefixes=(*config.prefixes, (prefix, int(tag))))
        case ("drop", prefix):
            return dataclasses.replace(config, prefixes=tuple(one for one in config.prefixes if one[0] != prefix))
    return config


def is_link_local(address):
    return ipaddress.IPv6Address(address) in ipaddress.ip_network("fe80::/10")
