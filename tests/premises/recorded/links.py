"""The premises of safety, field by field: `AreRunning` of crates/ripngd_runs/specs/Networks.antt, and `IsGiven` with what it is made of, of
crates/ripngd_theorems/specs/Links.antt. Each function returns why a field does not hold of a history, or nothing."""

import dataclasses
import functools

from recorded.configured import is_link_local
from recorded.history import broken_of_copy


@dataclasses.dataclass(frozen=True)
class Handed:
    """A datagram that a call handed to a link, and the place of the call among all."""
    router: int
    iface: int
    bytes: bytes
    place: int


def handed_in(order):
    return [Handed(call.router, call.outgoing.iface, call.outgoing.bytes, place) for place, call in enumerate(order) if call.what == "Handed"]


def is_refused(config, datagram):
    """Whether a router with this configuration refuses the bytes as a datagram, or their sender as a router of its link (RFC 2080, 2.1 and
    2.4.2)."""
    bytes = datagram.bytes
    malformed = len(bytes) < 4 or (len(bytes) - 4) % 20 or bytes[0] not in (1, 2) or bytes[1] != 1 or bytes[2:4] != b"\0\0"
    own = {one.address for one in config.interfaces}
    return bool(malformed or datagram.source_port != 521 or not is_link_local(datagram.source) or datagram.source in own
                or datagram.to_group and datagram.hop_limit != 255)


def is_heard(config, datagram):
    """Whether it is a Response that the router takes to be of its link (`is_heard`)."""
    return datagram.bytes[:1] == b"\2" and not is_refused(config, datagram)


def not_a_strangers(config, datagram):
    """The fields of `IsOfAStranger` that do not hold of a datagram: it came to an interface that is there, and is no Response that the router
    takes to be of its link."""
    unknown = {"IsOfAStranger.known"} if datagram.iface >= len(config.interfaces) else set()
    return unknown | ({"IsOfAStranger.unheard"} if is_heard(config, datagram) else set())


def is_copy(net, handed, place, call):
    """Whether the datagram that a call gave is a copy of one of these that was handed over before (`IsOfTheLink`)."""
    return any(sent.place < place and not broken_of_copy(net, sent, call.router, call.datagram) for sent in handed)


def blame(net, handed, place, call):
    """The fields that keep a datagram from being given as `IsGiven` has it: `before`, if it is a copy of a later one; or of the copy that it
    nearly is, if one field alone does not hold; or else those of `IsOfAStranger`."""
    stranger = not_a_strangers(net[call.router], call.datagram)
    if not stranger:
        return set()
    broken = [broken_of_copy(net, sent, call.router, call.datagram) for sent in handed]
    if set() in broken:
        return {"IsOfTheLink.before"}
    return {field for fields in broken if len(fields) == 1 for field in fields} or stranger


@functools.lru_cache(maxsize=4)
def blamed(history):
    """The fields that some datagram breaks, each with the first."""
    handed, found, same_bytes = handed_in(history.order), {}, {}
    for sent in handed:
        same_bytes.setdefault(sent.bytes, []).append(sent)
    for place, call in enumerate(history.order):
        if call.what == "Gave" and not is_copy(history.net, same_bytes.get(call.datagram.bytes, []), place, call):
            for field in blame(history.net, handed, place, call):
                found.setdefault(field, f"router {call.router} was given {call.datagram} at {call.at} ns")
    return found


# AreRunning: each router of a network is the program, and these are all calls of their links, in an order in which they happened.

def known(history):
    """Each call is of the link of a router of the network."""
    return next((f"a call of router {call.router}" for call in history.order if call.router >= len(history.net)), None)


def in_turn(history):
    """The first run of a router starts with the configuration of the network, each other with that in force at the end of the run before."""
    for router, runs in enumerate(history.runs):
        before = history.net[router]
        for number, run in enumerate(runs):
            if run.config != before:
                return f"run {number} of router {router} starts with {run.config}, and in force is {before}"
            before = run.in_force
    return None


def calls(history):
    """Of all calls, those of a router are just the calls of its runs, in their order."""
    for router, runs in enumerate(history.runs):
        own = [call for call in history.order if call.router == router]
        theirs = [call for run in runs for call in run.calls]
        if own != theirs:
            place = next((place for place, (one, other) in enumerate(zip(own, theirs)) if one != other), min(len(own), len(theirs)))
            return f"call {place} of router {router} is another one"
    return None


def under_way(history):
    """A run starts once, and then makes turns, each a `recv`, what that gave taken in, and a tick, and obeys clients between them. The last
    turn of one that was killed may lack its tick."""
    for runs in history.runs:
        for run in runs:
            acts = [deed.act for deed in run.deeds]
            if acts[:1] != ["Start"] or "Start" in acts[1:]:
                return f"a run of router {run.router} does not start just once"
            turns = [act for act in acts if act in ("Listen", "Tick")]
            whole = turns[:len(turns) // 2 * 2]
            if whole != ["Listen", "Tick"] * (len(whole) // 2):
                return f"a turn of router {run.router} is no `recv` and a tick"
    return None


def of_datagrams(field):
    """Each datagram that a link gave is a copy of one that was handed to it before, or an outside host's: so far as this field goes."""
    def holds(history):
        return blamed(history).get(field)
    return holds


FIELDS = {
    "AreRunning.known": known,
    "AreRunning.in_turn": in_turn,
    "AreRunning.calls": calls,
    "Program.under_way": under_way,
    **{field: of_datagrams(field) for field in ("IsOfTheLink.before", "IsCopyOf.linked", "IsCopyOf.source", "IsCopyOf.port", "IsCopyOf.hops",
                                                "IsCopyOf.bytes", "IsOfAStranger.known", "IsOfAStranger.unheard")},
}
