"""Scripts of the laboratory as real routers can play them: a network, and its changes. Pure; docs/SCRIPTS.md has the lines."""

import collections
import ipaddress
from dataclasses import dataclass, field

# Changes that real routers can play, with the place of the time in their words; what only the laboratory's time needs; what only looks.
CHANGES = {"down": 2, "up": 2, "cost": 3, "costs": 2, "gain": 2, "drop": 2, "cut": None, "mend": None}
LOOKS = ("print", "sent", "say", "path", "expect")
# How the laboratory settles: more rounds than any network needs (28), garbage collection and timeouts included.
SETTLE = "rounds 60 +15000 15000"


class Refused(Exception):
    """A script that cannot be played."""


@dataclass
class Interface:
    """An interface of a router, on a link."""

    address: str
    cost: int
    mtu: int
    link: int


@dataclass
class Player:
    """A router of a script."""

    name: str
    interfaces: list = field(default_factory=list)
    own: dict = field(default_factory=dict)
    """Its prefixes, with their tags."""


@dataclass
class Script:
    """A network, and its changes: those that come at once are one turn. `left_out` counts lines by their first word."""

    players: list = field(default_factory=list)
    turns: list = field(default_factory=list)
    left_out: collections.Counter = field(default_factory=collections.Counter)
    head: list = field(default_factory=list)
    """The lines of the network."""

    def player(self, name):
        for number, one in enumerate(self.players):
            if name in (one.name, str(number)):
                return one
        raise Refused(f"there is no router {name}")

    def links(self):
        return sorted({one.link for player in self.players for one in player.interfaces})


def words_of(text):
    """The lines of a script as words, without remarks."""
    for number, line in enumerate(text.splitlines(), 1):
        bare = line.strip(" \t\r")
        if not bare or bare.startswith("#"):
            continue
        yield number, (bare if bare.startswith("say") else bare.split(" #")[0].rstrip()).split(" ")


def owned(prefix, tag, number):
    """A prefix, and as many of its length as follow it."""
    first = ipaddress.IPv6Network(prefix, strict=False)
    step = 1 << (128 - first.prefixlen)
    return {str(ipaddress.IPv6Network((int(first.network_address) + at * step, first.prefixlen))): tag for at in range(number)}


def describe(script, words):
    """A line of the network."""
    script.head.append(" ".join(words))
    if words[0] == "router":
        if "quiet" in words[1:2]:
            raise Refused("a quiet router cannot be played")
        script.players.append(Player(words[1] if len(words) > 1 else str(len(script.players))))
    elif words[0] == "iface":
        mtu = int(words[3]) if len(words) == 5 else 1500
        script.players[-1].interfaces.append(Interface(words[1], int(words[2]), mtu, int(words[-1])))
    elif words[0] == "own":
        script.players[-1].own |= owned(words[1], int(words[2]), int(words[4]) if len(words) == 5 else 1)
    else:
        raise Refused(f"`{words[0]}` does not stand before `cold`")


def read(text):
    """A script from its text."""
    script, is_cold, is_new, skip = Script(), False, True, False
    for number, words in words_of(text):
        try:
            if not is_cold and words[0] == "cold":
                is_cold = True
            elif not is_cold:
                describe(script, words)
            elif skip or words[0] == "refused":
                script.left_out["refused"] += words[0] == "refused"
                skip = words[0] == "refused"
            elif words[0] in CHANGES:
                if is_new:
                    script.turns.append([])
                script.turns[-1].append(words)
                is_new = False
            elif words[0] not in LOOKS:
                script.left_out[words[0]] += 1
                is_new = True
        except (Refused, ValueError, IndexError) as fault:
            raise Refused(f"line {number}: {fault}") from None
    if not is_cold:
        raise Refused("there is no `cold`")
    return script


def timed(words):
    """A change of the laboratory, a millisecond after what was before."""
    at = CHANGES[words[0]]
    return " ".join([*words[:at], "+1", *words[at + 1 :]] if at else words)


def settled(script):
    """The script that has the laboratory settle after the start and after each turn, and print its tables."""
    lines = [*script.head, "cold 0", "rounds 60 0 15000", "print"]
    for number, turn in enumerate(script.turns):
        lines += [*map(timed, turn), SETTLE, f"say turn {number}", "print"]
    return "\n".join(lines) + "\n"


def tables_of(script, printed):
    """What the laboratory has printed: for the start and each turn a dictionary of routers, of metrics below 16 by prefixes."""
    blocks = [[]]
    for line in printed.splitlines():
        if line.startswith("turn "):
            blocks.append([])
        else:
            blocks[-1].append(line)
    return [table_of(script, lines) for lines in blocks]


def table_of(script, lines):
    found = {one.name: {} for one in script.players}
    for words in map(str.split, lines):
        if len(words) > 3 and words[2] == "metric" and int(words[3]) < 16:
            found[script.player(words[0]).name][words[1]] = int(words[3])
    return found


def differences(wanted, found):
    """Where tables differ, a line for each route."""
    lines = []
    for router, table in wanted.items():
        other = found.get(router, {})
        for prefix in sorted(table.keys() | other.keys()):
            if table.get(prefix) != other.get(prefix):
                lines.append(f"{router} {prefix}: {table.get(prefix, 'none')} in the laboratory, {other.get(prefix, 'none')} here")
    return lines
