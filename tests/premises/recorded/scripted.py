"""Random scripts of the laboratory, in which what the laws of time ask is so: routers tick all the time, and what they send comes within
seconds. With each goes when a line happens by the true clock, where its routers' own clocks differ from that."""

import dataclasses
import random

from networks import TROUBLE, lab, random_network
from recorded.traces import Trace

GAP = 480
"""A router ticks again within so many milliseconds."""
LONGEST = 29_400
"""The words of a timely network give at most this many milliseconds more than 15 seconds from one update to the next: with the time until
the next tick, these lie 45 seconds apart at most."""


@dataclasses.dataclass
class Script:
    """Lines so far, when they happened, and who is down."""
    words: random.Random
    lines: list
    routers: int
    behind: list
    now: int = 0
    ats: dict = dataclasses.field(default_factory=dict)

    def say(self, line):
        self.lines.append(line)
        self.ats[len(self.lines)] = self.now

    def tick(self, router, longest=30_000):
        self.say(f"tick {router} {max(0, self.now - self.behind[router])} {self.words.randrange(longest + 1)}")

    def text(self):
        return "\n".join(self.lines) + "\n"


def begun(seed, behind=None):
    lines = random_network(seed).splitlines()
    routers = lines.count("router")
    return Script(random.Random(seed), lines, routers, behind or [0] * routers)


def go_on(script, until, hear, trouble=None, longest=30_000):
    """Routers tick in turn, and now and then all that was sent is delivered."""
    next_tick = {router: script.now + script.words.randrange(GAP) for router in range(script.routers)}
    next_hear = script.words.randrange(*hear)
    while script.now < until:
        router = min(next_tick, key=next_tick.get)
        script.now = next_tick[router]
        next_tick[router] += script.words.randrange(GAP // 2, GAP)
        script.tick(router, longest)
        if script.now >= next_hear:
            script.say("hear")
            next_hear = script.now + script.words.randrange(*hear)
        if trouble:
            trouble(script, next_tick)
    return script


def timely(seed):
    """Eighty seconds in which all is well: what is sent comes in order, some seconds later."""
    return go_on(begun(seed), 80_000, (500, 12_000), longest=LONGEST)


class Trouble:
    """What else happens: datagrams are lost, routers start anew, are shut down or are down for seconds, costs and owners change."""

    def __init__(self, words):
        self.words, self.owning, self.tags = words, {0, 2}, 100
        self.down = {}

    def __call__(self, script, next_tick):
        for router in [router for router, moment in self.down.items() if moment <= script.now]:
            del self.down[router]
            script.say(f"speaks {router}")
            script.say(f"restart {router} {max(0, script.now - script.behind[router])}")
            next_tick[router] = script.now + 100
        router = self.words.randrange(script.routers)
        if router not in self.down and self.words.random() < 0.04:
            for line in self.lines(script, router, max(0, script.now - script.behind[router]), next_tick):
                script.say(line)

    def lines(self, script, router, now, next_tick):
        match self.words.randrange(6):
            case 0:
                link = self.words.choice([line.split()[-1] for line in script.lines if line.startswith("iface")])
                return [f"cut {link}", "hear", f"mend {link}"]
            case 1:
                return [f"restart {router} {now}"]
            case 2:
                return [f"cost {router} {self.words.randrange(2)} {now} {self.words.randint(1, 6)}"]
            case 3:
                return [f"shutdown {router} {now}"]
            case 4 if not self.down:
                self.down[router] = next_tick[router] = script.now + 8_000
                return [f"silent {router}"]
            case _ if router in self.owning:
                self.owning.remove(router)
                return [f"drop {router} {now} 2001:db8::/32"]
        self.owning.add(router)
        self.tags += 1
        return [f"gain {router} {now} 2001:db8::/32 {self.tags}"]


def troubled(program, seed):
    """Forty seconds of trouble; and then some of what was sent in the last seconds comes once more, in any order."""
    words = random.Random(seed)
    routers = begun(seed).routers
    script = go_on(begun(seed, [words.randrange(400) for _ in range(routers)]), 40_000, (500, 7_000), Trouble(words))
    trace = Trace.of(lab(program, script.text(), "--trace"), script.ats)
    sent = [(step.at, number) for step in trace.steps for number in step.sent if step.at > script.now - 12_000]
    for _, number in words.sample(sent, min(8, len(sent))):
        for router, iface in trace.others(number):
            script.now += 10
            script.tick(router)
            script.say(f"deliver {number} {router} {iface} {max(0, script.now - script.behind[router])}")
    return script


def in_rounds(seed):
    """Some trouble, and rounds."""
    words = random.Random(seed)
    return begun(seed).text() + f"{TROUBLE}rounds 8 +{words.randint(16_000, 60_000)} {words.randint(15_000, 59_000)}\n"


def in_phases(seed):
    """The same, and phases."""
    return begun(seed).text() + f"{TROUBLE}phases 8 {seed}\n"
