"""Deeds as a script of the laboratory, and whether its routers answer them as the daemons did: the same datagrams, byte for byte. So it is
checked that the deeds of a daemon are its life (`Lives`): the laboratory's steps are those of a router, by proof.

No line of the laboratory has one router alone ask on one link. So a question is compared with the Request of RFC 2080, section 2.4.1, and
that comes to the neighbors as if an outside host had sent it with the router's address."""

import bisect
import dataclasses
import json

from datagrams import REQUEST
from networks import lab
from recorded.calls import Call, Outgoing
from recorded.words import words

UNREACHABLE = 16


def lines_of_network(net):
    for node in net:
        yield "router"
        yield from (f"iface {one.address} {one.cost} {one.mtu} {one.link}" for one in node.interfaces)
        yield from (f"own {prefix} {tag}" for prefix, tag in node.prefixes)
    yield "cold 0"


class Numbers:
    """Which number a datagram has in the laboratory: there each interface has sent a Request before, and routers do not ask by themselves."""

    def __init__(self, history):
        self.first = sum(len(node.interfaces) for node in history.net)
        self.asked = [number for number, sent in enumerate(history.handed) if history.deeds[sent.deed].deed.act == "Ask"]

    def of(self, number):
        """None, where no router sent it there."""
        place = bisect.bisect_left(self.asked, number)
        return None if self.asked[place:place + 1] == [number] else self.first + number - place


def line_of(dated, numbers, source):
    """A deed as a line, if it is one."""
    deed, datagram = dated.deed, dated.deed.datagram
    if deed.act in ("Listen", "Refuse", "Ask") and not datagram:
        return None
    who, now = deed.router, deed.moments[0]
    match deed.act:
        case "Start":
            return f"restart {who} {now}"
        case "Tick":
            return f"tick {who} {now} {next(source)}"
        case "Shutdown":
            return f"shutdown {who} {now}"
        case "Reconfigure":
            return reconfiguring(deed.change, who, now)
        case "Listen" if dated.number is not None and numbers.of(dated.number) is not None:
            return f"deliver {numbers.of(dated.number)} {who} {datagram.iface} {now}"
        case "Listen":
            group = "group" if datagram.to_group else "peer"
            return (f"stranger {who} {datagram.iface} {now} {datagram.source} {datagram.source_port} {datagram.hop_limit} {group} "
                    f"{datagram.bytes.hex() or '-'}")
    raise ValueError(f"no line does {deed.act}")


def reconfiguring(change, who, now):
    match change:
        case ("cost", iface, cost):
            return f"cost {who} {iface} {now} {cost}"
        case ("gain", prefix, tag):
            return f"gain {who} {now} {prefix} {tag}"
        case ("drop", prefix):
            return f"drop {who} {now} {prefix}"


def events(program, history, past=None):
    """Each deed that is a line of the laboratory, before a place, with that line and its event; and the record of the start before them."""
    numbers = Numbers(history)
    seeds = {(own.router, number): words(own.seed) for runs in history.runs for number, own in enumerate(runs)}
    done = [(dated.deed, line_of(dated, numbers, seeds[dated.deed.router, dated.deed.run])) for dated in history.deeds[:past]]
    done = [(deed, line) for deed, line in done if line]
    script = [*lines_of_network(history.net), *(line for _, line in done)]
    start, *told = [json.loads(record) for record in lab(program, "\n".join(script) + "\n", "--trace")]
    return start, [(deed, line, event) for (deed, line), event in zip(done, told, strict=True)]


def answers(program, history, past=None):
    """The same, each with what its router sent."""
    return [(deed, line, [(one["iface"], bytes.fromhex(one["bytes"])) for one in event["sent"]])
            for deed, line, event in events(program, history, past)[1]]


def questions(history, past=None):
    """Each question before a place, with what a router sends by it."""
    return [(dated.deed, f"a question on interface {dated.deed.on}", [(dated.deed.on, REQUEST)]) for dated in history.deeds[:past]
            if dated.deed.act == "Ask"]


def replayed(program, history, past=None):
    """Why the deeds before a place are no lives of routers, or nothing."""
    for deed, line, sent in [*answers(program, history, past), *questions(history, past)]:
        handed = [(out.iface, out.bytes) for out in deed.handed]
        if handed != sent:
            return f"at `{line}` router {deed.router} handed over {handed}, and a router does {sent}"
    return None


def sizes_of(table):
    """To how many prefixes a router with these metrics forwards, and how many of its routes are unreachable (`Sizes`)."""
    forwarded = sum(metric < UNREACHABLE for metric in table.values())
    return forwarded, len(table) - forwarded


def sized(program, history):
    """The history, where each deed knows the sizes of its router's tables after it. What is no line of the laboratory changes none."""
    start, told = events(program, history)
    tables = {router: {route["prefix"]: route["metric"] for route in node["routes"]} for router, node in enumerate(start["routers"])}
    after = {}
    for deed, _, event in told:
        table = tables[deed.router]
        table.update((route["prefix"], route["metric"]) for route in event["routes"])
        for prefix in event["gone"]:
            del table[prefix]
        after[id(deed)] = sizes_of(table)

    def change(run):
        deeds, sizes = [], None
        for deed in run.deeds:
            sizes = after.get(id(deed), sizes)
            deeds.append(dataclasses.replace(deed, sizes=sizes))
        return dataclasses.replace(run, deeds=tuple(deeds))
    return history.changed(change)


def completed(program, history, last, place):
    """The history, where what a router had still to hand over when it was killed, in its last deed, was handed over and lost."""
    *_, (deed, _, sent) = answers(program, history, place + 1)
    if deed is not last:
        return history
    calls = [Call(last.router, last.run, last.at, "Handed", outgoing=Outgoing(iface, (), bytes)) for iface, bytes in sent[len(last.handed):]]
    whole = dataclasses.replace(last, calls=(*last.calls, *calls))
    return history.changed(lambda run: dataclasses.replace(run, deeds=tuple(whole if deed is last else deed for deed in run.deeds)))
