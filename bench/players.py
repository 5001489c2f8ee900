"""Routers of a network that is played: each as on the bench, and it is asked for its table, and told what it owns and what links cost."""

import re
import subprocess

from routers import ANY, Bird, Frr, Ripngd
from space import run

INFINITY = 16


def usable(found):
    return {prefix: metric for prefix, metric in found.items() if metric < INFINITY}


class RipngdPlayer(Ripngd):
    def ctl(self, *words):
        words = [self.program, "ctl", self.folder / "run/control", *words]
        done = subprocess.run(list(map(str, words)), capture_output=True, text=True, check=False)
        return done.stdout.splitlines() if done.returncode == 0 else []

    def table(self):
        found = (line.split() for line in self.ctl("routes"))
        return usable({words[0]: int(words[2]) for words in found})

    def gain(self, prefix):
        self.ctl("gain", prefix, "0")

    def drop(self, prefix):
        self.ctl("drop", prefix)

    def cost(self, device, cost):
        self.ctl("cost", str(list(self.devices).index(device)), str(cost))


class BirdPlayer(Bird):
    def ask(self, *words):
        return run("birdc", "-s", self.folder / "bird.ctl", *words, check=False)

    def table(self):
        found, prefix = {}, None
        for line in self.ask("show", "route", "primary", "all").splitlines():
            if "/" in line.split(" ")[0]:
                prefix = line.split()[0]
                found.setdefault(prefix, 1)
            elif told := re.match(r"\s*(?:RIP\.metric|rip_metric): (\d+)", line):
                found[prefix] = int(told[1])
        return usable(found)

    def gain(self, prefix):
        self.prefixes = [*self.prefixes, prefix]
        self.again()

    def drop(self, prefix):
        self.prefixes = [one for one in self.prefixes if one != prefix]
        self.again()

    def cost(self, device, cost):
        self.devices[device] = cost
        self.again()

    def again(self):
        """Reads its configuration anew."""
        self.configure()
        self.ask("configure")


class FrrPlayer(Frr):
    def tell(self, *words):
        told = ["-c", "configure terminal"] + [part for word in words for part in ("-c", word)]
        run("vtysh", "--vty_socket", self.sockets, *told)

    def table(self):
        found, prefix = {}, None
        for words in map(str.split, run("vtysh", "--vty_socket", self.sockets, "-c", "show ipv6 ripng", check=False).splitlines()):
            if words and words[0].startswith(("R(", "C(", "S(")) and "/" in words[1]:
                prefix, words = words[1], words[2:]
            if prefix and len(words) >= 3 and words[2].isdigit():
                found[prefix], prefix = int(words[2]), None
        return usable(found)

    def gain(self, prefix):
        self.tell("router ripng", f"route {prefix}")

    def drop(self, prefix):
        self.tell("router ripng", f"no route {prefix}")

    def cost(self, device, cost):
        before, self.devices[device] = self.devices[device], cost
        words = [f"no offset-list {ANY} in {before} {device}"] * (before > 1) + [f"offset-list {ANY} in {cost} {device}"] * (cost > 1)
        self.tell("router ripng", *words)


PLAYERS = {"ripngd": RipngdPlayer, "bird": BirdPlayer, "frr": FrrPlayer}
