"""What is news of links and neighbors, in words: links that come up and go down, neighbors that are met and fall silent, limits that are
reached."""

from dataclasses import dataclass

from system import UP

# Seconds after which routes of a neighbor that says nothing time out (RFC 2080, 2.3), for which a neighbor is remembered that says
# nothing more, and in which a limit is said once. How many neighbors are remembered, and said at a time.
SILENT, FORGOTTEN, AGAIN = 180, 3600, 600
# How many seconds such a time may be off.
JITTER = 1
MOST, AT_ONCE = 1024, 20


@dataclass
class State:
    """The state of a link, how often it has changed, and when last."""

    text: str
    changes: int
    since: float


class States:
    """The states of links, by device."""

    def __init__(self):
        self.known, self.said = {}, {}

    def take(self, states, now):
        """These are the states by now."""
        self.known = {device: self.after(device, text, now) for device, text in states.items()}
        self.said = {device: text for device, text in self.said.items() if device in states}

    def after(self, device, text, now):
        old = self.known.get(device)
        return State(text, 0, now) if not old else old if old.text == text else State(text, old.changes + 1, now)

    def news(self, is_to_say):
        """What is to be said, and was not yet. That a link is up at first is no news."""
        for device, state in self.known.items():
            if state.text != self.said.get(device, UP) and is_to_say(device):
                self.said[device] = state.text
                yield f"{device} {state.text}"


class Neighbors:
    """Who was heard on the links, by device and address."""

    def __init__(self):
        self.heard, self.silent = {}, set()

    def take(self, ages, now):
        """How many seconds ago each neighbor told a table last; answers what is news."""
        told = []
        for who, age in ages.items():
            if who not in self.heard:
                told.append(f"neighbor {who[1]} on {who[0]} is met")
            elif who in self.silent and now - age > self.heard[who] + JITTER:
                told.append(f"neighbor {who[1]} on {who[0]} is heard again")
            if now - age > self.heard.get(who, float("-inf")) + JITTER:
                self.heard[who] = now - age
                self.silent.discard(who)
        for who, moment in self.heard.items():
            if now - moment > SILENT and who not in self.silent:
                self.silent.add(who)
                told.append(f"neighbor {who[1]} on {who[0]} is silent for {SILENT} s, so its routes have timed out")
        self.forget(now)
        return told[:AT_ONCE] + [f"{len(told) - AT_ONCE} more neighbors are met or fall silent"] * (len(told) > AT_ONCE)

    def forget(self, now):
        """Those that were not heard for long go, and of too many those that were not heard for longest."""
        last = sorted(self.heard, key=self.heard.get, reverse=True)[:MOST]
        self.heard = {who: self.heard[who] for who in last if now - self.heard[who] < FORGOTTEN}
        self.silent &= self.heard.keys()


class Limits:
    """Links whose limit keeps routes out."""

    def __init__(self):
        self.counts, self.said = {}, {}

    def take(self, counts, limits, now):
        """How many routes each link's limit has refused so far, and those limits; answers what is news."""
        told = []
        for device, count in counts.items():
            if count > self.counts.get(device, 0) and now - self.said.get(device, float("-inf")) > AGAIN:
                self.said[device] = now
                told.append(f"{device} has reached its limit of {limits[device]} routes, and takes no more: see who tells them")
        self.counts = dict(counts)
        return told
