"""Kinds of steps of rules: a function for each, which answers a step. A step does something, or sees that the router does."""

import time
from collections.abc import Callable
from dataclasses import dataclass
from ipaddress import IPv6Address, IPv6Network

import frames
import stage as place
from frames import GROUP, HOPS, PORT, REQUEST, RESPONSE
from verdicts import DIFFERS, OPEN, Differs, Seen, judged, last_of, words, wished

# Seconds until a router must have shown something that needs no timer: its hold of triggered updates is 5.
SOON = 9
# Seconds in which nothing has to come, and that a router has for what it takes in.
SILENCE, REST = 3, 0.4


@dataclass(frozen=True)
class Who:
    """A neighbor of the router, on a link."""

    link: str
    address: IPv6Address

    def __str__(self):
        return f"{self.address} on {self.link}"


@dataclass(frozen=True)
class Step:
    """What is done, in words and as a function of the stage."""

    text: str
    run: Callable

    def __str__(self):
        return self.text


def listed(entries):
    return ", ".join(map(str, entries)) or "no entry"


def deviating(more):
    """How a datagram is not as usual, in words."""
    said = {"port": "from port {}", "hops": "hop limit {}", "source": "from {}", "to": "to {}", "version": "version {}"}
    said |= {"zero": "bytes 3 and 4 are {}", "tail": "{} behind the last entry", "command": "command {}", "raw": "the bytes {}"}
    shown = {key: value.hex() if isinstance(value, bytes) else value for key, value in more.items()}
    return "".join(f", {said[key].format(value)}" for key, value in shown.items())


def tell(who, *entries, **more):
    """A neighbor sends a Response to the group; `more` is how it is not as usual."""

    def run(stage):
        given = dict(more)
        source, to = given.pop("source", who.address), given.pop("to", GROUP)
        port, hops = given.pop("port", PORT), given.pop("hops", HOPS)
        command = given.pop("command", RESPONSE)
        payload = given.pop("raw", None)
        payload = frames.message(command, entries, **given) if payload is None else payload
        stage.send(who.link, source, payload, port=port, to=to, hops=hops)
        time.sleep(REST)

    return Step(f"{who} tells {listed(entries)}{deviating(more)}", run)


def answer_to_the_start(who, *entries):
    """A neighbor answers the router's first Request on its link, by a Response to the router alone."""

    def run(stage):
        stage.send(who.link, who.address, frames.message(RESPONSE, entries), to=place.NEAR[who.link])
        time.sleep(REST)

    return Step(f"{who} answers the router alone: {listed(entries)}", run)


def wait(seconds):
    return Step(f"{seconds} s pass", lambda stage: place.rest(seconds))


def mark():
    return Step("from here on updates count", lambda stage: stage.mark() and None)


def table(link, wanted, within=SOON):
    """The router's table, as it answers a Request for all of it on a link, is as wanted, within that time and after a rest, too."""

    def looked(stage):
        found = stage.look(link)
        return (DIFFERS, "no answer") if found is None else judged(found, wanted)

    def run(stage):
        ends = time.monotonic() + within
        while (found := looked(stage))[0] == DIFFERS:
            if time.monotonic() > ends:
                raise Differs(found[1])
            time.sleep(place.AGAIN)
        time.sleep(REST)
        verdict, text = looked(stage)
        if verdict == DIFFERS:
            raise Differs(text)
        return Seen(text, verdict == OPEN)

    return Step(f"asked for all on {link} it has {wished(wanted)}", run)


def update(link, wanted, within=SOON):
    """Updates on a link, since the last mark, tell what is wanted within that time."""

    def run(stage):
        verdict, text = "", ""

        def seen():
            nonlocal verdict, text
            verdict, text = judged(last_of(stage.updates(link)), wanted)
            return verdict != DIFFERS

        if not stage.tap.wait(within, seen):
            raise Differs(f"within {within} s {text}")
        return Seen(text, verdict == OPEN)

    return Step(f"within {within} s an update on {link} tells {wished(wanted)}", run)


def goes(prefix, who=None, by="b", otherwise=None):
    """A packet into a prefix goes to a neighbor, or nowhere; `otherwise` is one to whom the RFC lets it go, too."""
    inside = IPv6Network(prefix).network_address + 1

    def is_at(found, other):
        return found is not None and found[0] == other.link and found[1].to_mac == frames.mac_of(other.address)

    def run(stage):
        for _ in range(4):
            found = stage.forwarded(inside, by)
            if who is None and found is None or who and is_at(found, who):
                return Seen(f"it goes to {who}" if who else "it goes nowhere")
            if otherwise and is_at(found, otherwise):
                return Seen(f"it goes to {otherwise}", is_open=True)
            time.sleep(1)
        raise Differs("it goes nowhere" if found is None else f"it goes to {found[1].to_mac[2:].hex(':')} on {found[0]}")

    return Step(f"a packet to {inside} goes {f'to {who}' if who else 'nowhere'}", run)


def ask(who, *entries, port=PORT, to=None, hops=HOPS, via=None, answered=None, is_open=False, judge=None, prefers=None):
    """A Request, and the answer that it gets: `answered` are its entries, None is silence, `...` any answer. `judge` is asked of the
    datagrams, as is `prefers`, whose faults are left open; `via` is the neighbor through which a host of another network asks. With
    `is_open` silence is left open, too."""

    def run(stage):
        moment = time.time()
        target = place.at(who) if to is None else to
        stage.send(who.link, who.address, frames.message(REQUEST, entries), port=port, to=target, hops=hops)
        stage.tap.wait(SILENCE if answered is None else SOON, lambda: stage.answers(who.link, who.address, port, moment))
        time.sleep(REST)
        came = stage.answers(who.link, who.address, port, moment)
        return judged_answer(came, answered, is_open, judge, via, prefers)

    shown = "no answer" if answered is None else "an answer" if answered is ... else listed(answered)
    words = f"from port {port}" + (f", hop limit {hops}" if hops != HOPS else "") + (f", to {to}" if to else "")
    return Step(f"{who} asks for {listed(entries)} {words}; it gets {shown}", run)


def judged_answer(came, answered, is_open, judge, via, prefers):
    """The verdict on the answers to a Request."""
    text = "; ".join(listed(one.entries) for one in came) if came else "no answer"
    text = text if len(text) < 160 else f"{len(came)} datagrams of {sum(len(one.entries) for one in came)} entries"
    if not came:
        if answered is None or is_open:
            return Seen(text, is_open)
        raise Differs(text)
    if answered is None and not is_open:
        raise Differs(f"an answer: {text}")
    if answered not in (None, ...) and [entry for one in came for entry in one.entries] != list(answered):
        raise Differs(text)
    if via and any(one.to_mac != frames.mac_of(via.address) for one in came):
        raise Differs("the answer does not go through the neighbor that leads there")
    if wrong := judge(came) if judge else []:
        raise Differs("; ".join(wrong))
    if unlike := prefers(came) if prefers else []:
        return Seen("; ".join(unlike), is_open=True)
    return Seen(text, is_open)


def sent(kind, judge, expected, least=1):
    """A judge has nothing to say against what the router has sent so far of a kind: update, request, response or ripng."""

    def run(stage):
        came = [frame for frame in stage.tap.since(stage.begun) if getattr(frame, f"is_{kind}")]
        if len(came) < least:
            raise Differs(f"{len(came)} of its datagrams were seen")
        if wrong := judge(came):
            raise Differs("; ".join(wrong[:4]))
        return Seen(f"{len(came)} datagrams, each {expected}")

    return Step(f"of all that it sent, each is {expected}", run)


def does(text, function):
    """A step of one rule's own."""
    return Step(text, function)


