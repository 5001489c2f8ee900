"""The companion's table: a TOML text that says which links of the system are the router's, and what it owns."""

import re
import tomllib
from dataclasses import dataclass, field, fields
from ipaddress import IPv6Network
from typing import get_origin


class Fault(Exception):
    """What ends the companion. Its status is 1 where a table is at fault, so that no new start mends it, and else 3."""

    def __init__(self, text, status=1):
        super().__init__(text)
        self.status = status


# What is nobody's to route: an address of IPv4 in the bits of IPv6, with ::1 and :: among them (RFC 4291, 2.5.2, 2.5.3 and 2.5.5).
MARTIANS = ["::/96+", "::ffff:0:0/96+"]
DEFAULT = "::/0"


@dataclass
class Link:
    """A link of the system, or all whose devices match a pattern."""

    device: str
    cost: int = 1
    own: bool = True
    tag: int = 0
    stub: bool = False
    zone: int = 0
    queries: str = "link"
    accept: list[str] = field(default_factory=list)
    reject: list[str] = field(default_factory=list)
    limit: int = 0
    martians: bool = False
    passive: bool = False
    announce: list[str] = field(default_factory=list)
    announce_not: list[str] = field(default_factory=list)
    default_originate: bool = False

    @property
    def is_pattern(self):
        return bool(set("*?") & set(self.device))

    def matches(self, name):
        """Whether a device of that name fits the pattern: `*` stands for any characters, `?` for one."""
        return re.fullmatch(re.escape(self.device).replace(r"\*", ".*").replace(r"\?", "."), name) is not None

    def lists(self):
        """What the router is to take of it and to tell there, in keys of its configuration; none of them says all."""
        refused = [one for one in MARTIANS if not self.martians and one not in self.reject]
        lists = {"accept": self.accept, "reject": self.reject + refused, "limit": self.limit}
        lists |= {"passive": self.passive, "announce": self.announce, "announce_not": self.announce_not}
        return {key: value for key, value in lists.items() if value}


@dataclass
class Owned:
    """A prefix that the router always owns."""

    prefix: str
    tag: int = 0


@dataclass
class Table:
    """All of it."""

    user: str = ""
    program: str = "ripngd"
    folder: str = "/run/ripngd-links"
    table: int = 254
    protocol: int = 152
    priority: int = 2048
    log_routes: bool = False
    link: list[dict] = field(default_factory=list)
    prefix: list[dict] = field(default_factory=list)


NUMBERS = {"cost": 15, "limit": 65536, "tag": 65535, "zone": 255, "table": 2**32 - 1, "protocol": 255, "priority": 2**32 - 1}
LEAST = {"tag": 0, "protocol": 5}
WORDS = {"queries": ("link", "all")}
KINDS = {str: "a text", int: "a number", bool: "true or false", list: "an array"}
LINKS = 256


def made(kind, words, place=""):
    """A table of TOML as a record of that kind."""
    if not isinstance(words, dict):
        raise Fault(f"{place[:-1]} must be a table")
    keys = {one.name: get_origin(one.type) or one.type for one in fields(kind)}
    for key, value in words.items():
        if key not in keys:
            raise Fault(f"unknown key {place}{key}")
        if type(value) is not keys[key]:
            hint = f"; write [[{key}]]" if isinstance(value, dict) else ""
            raise Fault(f"{place}{key} must be {KINDS[keys[key]]}{hint}")
        if key in NUMBERS and not LEAST.get(key, 1) <= value <= NUMBERS[key]:
            raise Fault(f"{place}{key} must be from {LEAST.get(key, 1)} to {NUMBERS[key]}")
        if value not in WORDS.get(key, (value,)):
            raise Fault(f"{place}{key} must be {' or '.join(WORDS[key])}")
    try:
        return kind(**words)
    except TypeError:
        missing = next(one.name for one in fields(kind) if one.name not in words)
        raise Fault(f"{place}{missing} is missing") from None


def prefix_of(text, place):
    """A prefix, which is never without its length."""
    try:
        if "/" not in text:
            raise ValueError
        return IPv6Network(text, strict=False)
    except ValueError:
        raise Fault(f"{place}: `{text}` is not an IPv6 prefix with its length") from None


def pattern_of(text, place):
    """A prefix, or with a `+` behind it that and all longer ones in it."""
    if not isinstance(text, str):
        raise Fault(f"{place} must be a text")
    return str(prefix_of(text.removesuffix("+"), place)) + "+" * text.endswith("+")


def refuse_twice(names, place):
    """Each name stands once."""
    seen = set()
    for number, name in enumerate(names):
        if name in seen:
            raise Fault(f"{place.format(number)}: {name} stands twice")
        seen.add(name)


def tell_of_a_default(table):
    """Where a link is to be told a default route, the router owns ::/0, and no other link is told it."""
    if not any(link.default_originate for link in table.link):
        return
    if DEFAULT not in [owned.prefix for owned in table.prefix]:
        table.prefix.append(Owned(DEFAULT))
    for number, link in enumerate(table.link):
        hidden = {DEFAULT, DEFAULT + "+"} & set(link.announce_not)
        if not link.default_originate:
            link.announce_not += [] if hidden else [DEFAULT]
        elif hidden:
            raise Fault(f"link[{number}]: default_originate is true, and announce_not has {hidden.pop()}")
        elif link.announce and DEFAULT not in link.announce:
            link.announce += [DEFAULT]


def checked(table):
    """The table with its links and prefixes as records."""
    table.link = [made(Link, words, f"link[{number}].") for number, words in enumerate(table.link)]
    table.prefix = [made(Owned, words, f"prefix[{number}].") for number, words in enumerate(table.prefix)]
    for number, link in enumerate(table.link):
        for key in ("accept", "reject", "announce", "announce_not"):
            place, texts = f"link[{number}].{key}", getattr(link, key)
            setattr(link, key, [pattern_of(text, f"{place}[{at}]") for at, text in enumerate(texts)])
    for number, owned in enumerate(table.prefix):
        owned.prefix = str(prefix_of(owned.prefix, f"prefix[{number}].prefix"))
    refuse_twice([owned.prefix for owned in table.prefix], "prefix[{}].prefix")
    tell_of_a_default(table)
    refuse_twice([link.device for link in table.link], "link[{}].device")
    spoken = sum(not link.stub for link in table.link)
    if spoken == 0:
        raise Fault("every link is a stub" if table.link else "there is no [[link]]")
    if spoken > LINKS:
        raise Fault(f"there are {spoken} links without the stubs, and {LINKS} at most have room")
    return table


def read(path):
    """The table of a file, or a fault."""
    try:
        with open(path, "rb") as file:
            return checked(made(Table, tomllib.load(file)))
    except OSError as fault:
        raise Fault(f"cannot read {path}: {fault.strerror}") from None
    except (Fault, ValueError) as fault:
        raise Fault(f"{path}: {fault}") from None
