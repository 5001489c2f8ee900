"""The rules of RFC 2080, each once: its name, section, what is to be expected, and the steps that show it."""

from dataclasses import dataclass
from ipaddress import IPv6Address

from steps import Who


@dataclass(frozen=True)
class Rule:
    """A rule. A slow one takes more than two minutes; a quick one some seconds."""

    name: str
    section: str
    says: str
    steps: list
    is_slow: bool = False
    is_quick: bool = False
    mtu: int = 1500


def rule(name, section, says, *steps, **more):
    return Rule(name, section, says, list(steps), **more)


# Neighbors, two on each link, and prefixes that they tell.
A1, A2 = (Who("a", IPv6Address(f"fe80::a{number}")) for number in (1, 2))
B1, B2 = (Who("b", IPv6Address(f"fe80::b{number}")) for number in (1, 2))
P1, P2, P3, P4, P5, P6 = (f"2001:db8:{number}::/48" for number in range(1, 7))
