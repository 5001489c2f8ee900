"""What is expected of a router and what came, as values: pure definitions, without a link."""

from dataclasses import dataclass

from frames import INFINITY, entries_of

AS_RFC, OPEN, DIFFERS, BROKEN = "as the RFC", "RFC leaves it open", "differs", "not tried"


class Differs(Exception):
    """The router does otherwise than RFC 2080 says."""


@dataclass(frozen=True)
class Seen:
    """What came, and whether the RFC leaves it open."""

    text: str
    is_open: bool = False


@dataclass(frozen=True)
class Open:
    """Something else that the RFC allows, or does not speak of."""

    value: object


@dataclass(frozen=True)
class Tagged:
    """A metric with its route tag."""

    metric: int
    tag: int

    def __str__(self):
        return f"{self.metric} tag {self.tag}"


# Metrics of a route that nobody can use: split horizon poisons it, or it is left out, which the RFC prefers less (section 2.6).
POISONED = (INFINITY, Open(None))
GONE = (INFINITY, None)


def choices(wanted):
    return wanted if isinstance(wanted, tuple) else (wanted,)


def words(value):
    """A value, or several, in words."""
    if isinstance(value, tuple):
        return " or ".join(words(one) for one in value)
    if isinstance(value, Open):
        return words(value.value)
    return "not there" if value is None else str(value)


def is_value(entry, value):
    """Whether an entry, or None, is of that value."""
    if entry is None or value is None:
        return entry is value
    if isinstance(value, Tagged):
        return (entry.metric, entry.tag) == (value.metric, value.tag)
    return entry.metric == value


def matched(entry, wanted):
    """The verdict on an entry by what was wanted: as the RFC, open, or differs."""
    for one in choices(wanted):
        if is_value(entry, one.value if isinstance(one, Open) else one):
            return OPEN if isinstance(one, Open) else AS_RFC
    return DIFFERS


def judged(table, wanted):
    """The verdict on a table, prefixes with their entries, by what is wanted of some prefixes, and in words what came."""
    verdicts = {prefix: matched(table.get(prefix), value) for prefix, value in wanted.items()}
    worst = next((one for one in (DIFFERS, OPEN) if one in verdicts.values()), AS_RFC)
    values = [one.value if isinstance(one, Open) else one for value in wanted.values() for one in choices(value)]
    has_tags = any(isinstance(one, Tagged) for one in values)
    shown = [prefix for prefix in wanted if verdicts[prefix] == worst] if worst != AS_RFC else list(wanted)
    return worst, ", ".join(f"{prefix} {state(table.get(prefix), has_tags)}" for prefix in shown)


def state(entry, has_tag=False):
    if entry is None:
        return "not there"
    return f"at {entry.metric}" + (f" tag {entry.tag}" if has_tag else "")


def wished(wanted):
    """What is wanted, in words."""
    return ", ".join(f"{prefix} {'' if value is None else 'at '}{words(value)}" for prefix, value in wanted.items())


def last_of(frames):
    """The entries of Responses by their prefixes; a later one counts."""
    return {one.prefix: one for frame in frames for one in frame.entries if one.metric != 255}


def whole(payload):
    """Whether a datagram's bytes are a header and whole entries."""
    return len(payload) >= 4 and (len(payload) - 4) % 20 == 0 and len(entries_of(payload)) == (len(payload) - 4) // 20
