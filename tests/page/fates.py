#!/usr/bin/env python3
"""What becomes of packets after each thing that a script does, as the module of docs/lab.html says it, beside a plain computation over the
tables that the program's trace shows.

    tests/page/fates.py PROGRAM [MODULE] [NAME..]      all cases, or those that have NAME in theirs; MODULE is a FILE.wasm in place of the page

Without node a line `skipped: ..` says what was not tried.
"""

import collections
import ipaddress
import json
import pathlib
import random
import re
import shutil
import subprocess
import sys

sys.dont_write_bytecode = True
sys.path.append(str(pathlib.Path(__file__).resolve().parents[1] / "support"))
from suite import Failed, named, play, same

ROOT = pathlib.Path(__file__).resolve().parents[2]
SCRIPTS, CASES = 1_000, 10
PREFIXES = ("2001:db8::/32", "2001:db8:c::/48", "::/0", "2001:db8:c:1::/64")
ADDRESSES = ("2001:db8::1", "2001:db8:c::1", "2001:db8:c:1::7", "3fff::1")
OUTAGE = re.compile(r"(cut|mend|down|up|silent|speaks) (\S+)")
WORD = re.compile(r"([a-z])(\d+)(?::(\d+))?")

Port = collections.namedtuple("Port", "addr link")


# ---- random scripts

class Script:
    """A random network, and lines of what happens in it."""

    def __init__(self, seed):
        self.random, self.now = random.Random(seed), 0
        self.count, self.links = self.random.randint(2, 6), self.random.randint(2, 6)
        self.names = [self.random.choice(["", f"r{router}"]) for router in range(self.count)]
        self.owned = []
        self.lines = [line for router in range(self.count) for line in self.router(router)] + ["cold 0"]

    def router(self, router):
        name = f"router {self.names[router]}".strip()
        own = [prefix for prefix in PREFIXES if self.random.random() < 0.3]
        self.owned += [(router, prefix) for prefix in own]
        ports = [f"iface fe80::{router + 1}:{iface} {self.random.randint(1, 5)} 1280 {self.link()}" for iface in range(self.random.randint(1, 3))]
        return [name, *ports, *(f"own {prefix} 1" for prefix in own)]

    def link(self):
        return self.random.randrange(self.links)

    def at(self):
        self.now += self.random.choice([0, 1_000, 15_000, 40_000])
        return self.now

    def line(self):
        """One thing, or a few lines that belong together; the network may lack what they name."""
        pick, number, link = self.random.choice, self.random.randrange(self.count), self.link()
        router = pick([number, self.names[number] or number])
        prefix, address = pick(PREFIXES), pick(ADDRESSES)
        return pick([
            *[[f"round {self.at()}"] for _ in range(5)], [f"rounds 2 {self.at()} 15000"], [f"tell {router} {self.at()} 0"], [f"tell {router} {self.at()} 0 but 0"], [f"tick {router} {self.at()} 7"],
            [f"cut {link}"], [f"mend {link}  # again"], [f"silent {router}"], [f"speaks {router}"], [f"  down {link} {self.at()}"], [f"up {link} {self.at()}"],
            [f"restart {router} {self.at()}"], [f"shutdown {router} {self.at()}"], [f"cost {router} 0 {self.at()} {pick('1259')}"],
            [f"gain {router} {self.at()} {prefix} 3"], [f"drop {router} {self.at()} {prefix}"],
            [f"liar {router} 0 {self.at()} fe80::66 {prefix} {pick('137')}"], [f"path {router} {address}"], ["print"], ["say cut 1"], ["# cut 0"], ["hear"],
            ["asking"], ["asking off"], [f"horizon {router} {pick(['none', 'split', 'poison'])}"], ["refused NoSuchLink", "cut 99"], ["", "# A remark."],
            ["refused BadLine", "", f"cut {link} 0"], [f"run +{self.random.randrange(9_000)}"], ["counts"]])

    def counting(self):
        """Routers without poisoned reverse lose a prefix, and believe each other's older news of it."""
        owner, prefix = self.random.choice(self.owned)
        others = self.random.sample(range(self.count), self.count)
        return [*(f"horizon {router} none" for router in others), f"rounds 3 {self.at()} 15000", f"drop {owner} {self.at()} {prefix}",
                *(f"tell {router} {self.at()} 0" for router in others if router != owner)]

    def text(self):
        """The script with so many lines that one of them may well be refused."""
        if self.owned and self.random.random() < 0.3:
            self.lines += self.counting()
        for _ in range(self.random.randint(1, 24)):
            self.lines += self.line()
        return "\n".join(self.lines) + "\n"


# ---- a plain computation

def outages_of(script):
    """What each line of a script says to be out, or out no longer: by its number, the thing and whether it is out."""
    names, found, refused = {}, {}, False
    for number, text in enumerate(script.split("\n"), 1):
        words = text.partition(" #")[0].strip()
        if not words or words.startswith("#"):
            continue
        if words.split()[0] == "router":
            names.update({str(len(names) // 2): len(names) // 2, f"r{len(names) // 2}": len(names) // 2})
        if (match := OUTAGE.match(words)) and not refused:
            verb, thing = match.groups()
            kind = "router" if verb in ("silent", "speaks") else "link"
            found[number] = (kind, names[thing] if kind == "router" else int(thing)), verb in ("cut", "down", "silent")
        refused = words.startswith("refused ")
    return found


class Tables:
    """The tables of a network's routers, by the records of its trace."""

    def __init__(self, start):
        self.ports = [[Port(each["addr"], each["link"]) for each in router["interfaces"]] for router in start["routers"]]
        self.routes = [{route["prefix"]: route for route in router["routes"]} for router in start["routers"]]

    def apply(self, record):
        routes = self.routes[record["router"]]
        for prefix in record["gone"]:
            del routes[prefix]
        routes.update({route["prefix"]: route for route in record["routes"]})

    def hop(self, router, address):
        """The link and the next router, or the letter of how the way ends."""
        usable = [route for route in self.routes[router].values() if route["metric"] < 16 and address in ipaddress.ip_network(route["prefix"])]
        if not usable:
            return "d"
        gateway = max(usable, key=lambda route: ipaddress.ip_network(route["prefix"]).prefixlen)["gateway"]
        if gateway is None:
            return "a"
        link = self.ports[router][gateway["iface"]].link
        others = (other for other, ports in enumerate(self.ports) if other != router and Port(gateway["next_hop"], link) in ports)
        return next(((link, other) for other in others), "n")

    def word(self, router, hops, out):
        """What becomes of packets from a router."""
        passed, at = [], router
        while True:
            if at in passed:
                letter = "l"
            elif ("router", at) in out:
                letter = "s"
            elif isinstance(hops[at], str):
                letter = hops[at]
            elif ("link", hops[at][0]) in out:
                letter = "c"
            else:
                passed.append(at)
                at = hops[at][1]
                continue
            own = "" if isinstance(hops[router], str) else f":{hops[router][1]}"
            return f"{letter}{at}{own}"

    def words(self, address, out):
        hops = [self.hop(router, address) for router in range(len(self.routes))]
        return "".join(f" {self.word(router, hops, out)}" for router in range(len(self.routes)))


def expected(script, records, address):
    """The lines of a script: of each record, and of each line that begins or ends an outage."""
    waiting, out, tables, lines = sorted(outages_of(script).items()), set(), None, []
    last = records[-1]["line"] if records and records[-1]["record"] == "refused" else script.count("\n") + 1
    words = lambda: tables.words(address, out) if tables else ""

    def outages_until(line):
        while waiting and waiting[0][0] <= line:
            number, (thing, is_out) = waiting.pop(0)
            out.discard(thing)
            out.update({thing} if is_out else set())
            lines.append(f"@{number}{words()}")

    for record in records:
        outages_until(record["line"])
        if record["record"] == "start":
            tables = Tables(record)
        if record["record"] == "event":
            tables.apply(record)
        lines.append(words())
    outages_until(last)
    return lines


def read(text):
    """The lines of the module, each empty one as the words before it."""
    lines, words = [], ""
    for line in text.split("\n")[:-1]:
        at, space, rest = line.partition(" ")
        words = space + rest if space or at else words
        lines.append(line if at else words)
    return lines


# ---- cases

def trace_of(program, script):
    run = subprocess.run([program, "lab", "--trace", "/dev/stdin"], input=script, capture_output=True, text=True, timeout=60)
    return run.returncode, [json.loads(line) for line in run.stdout.splitlines()]


def fates_of(module, folder, asked):
    file = pathlib.Path(folder, "asked.json")
    file.write_text(json.dumps(asked))
    command = ["node", ROOT / "tests/page/fates.mjs", module, file]
    return json.loads(subprocess.run(command, capture_output=True, text=True, check=True, timeout=300).stdout)


def agrees(folder, program, module, scripts, letters):
    """Each line is that of the tables, and each of these letters comes somewhere."""
    asked = [(script, ADDRESSES[index % len(ADDRESSES)]) for index, script in enumerate(scripts)]
    found = collections.Counter()
    for (script, address), (status, text) in zip(asked, fates_of(module, folder, asked)):
        wanted_status, records = trace_of(program, script)
        lines, wanted = read(text), expected(script, records, ipaddress.ip_address(address))
        if (status, lines) != (wanted_status, wanted):
            place = next((at for at, (line, other) in enumerate(zip(lines, wanted)) if line != other), min(len(lines), len(wanted)))
            raise Failed(f"line {place} is {lines[place:place + 1]} and not {wanted[place:place + 1]}, status {status} and {wanted_status}, for {address} in\n{script}")
        found.update(word[0] for line in lines for word in WORD.findall(line.removeprefix("@")))
    if not letters <= set(found):
        raise Failed(f"no way ends so: {letters - set(found)}")


def refuses(folder, module):
    """What is no address, and scripts that do nothing."""
    asked = [("", "2001:db8::1"), ("cold 0\n", "::"), ("router\n", "2001:db8::/32"), ("cut 1\n", "::1")]
    answers = fates_of(module, folder, asked)
    same("the answers", answers[0] + answers[2], [0, "", 4, ""])
    same("a script that is refused before it starts", answers[3][0], 1)


def main(program, *words):
    program = str(pathlib.Path(program).resolve(strict=True))
    modules = [word for word in words if word.endswith(".wasm")]
    module, names = [*modules, str(ROOT / "docs/lab.html")][0], [word for word in words if word not in modules]
    if not shutil.which("node"):
        print("skipped: what becomes of packets, by the page's module (there is no node)")
        return 0
    each = SCRIPTS // CASES
    cases = [("no address", lambda folder: refuses(folder, module))]
    for part in range(CASES):
        scripts = [Script(seed).text() for seed in range(each * part, each * part + each)]
        cases.append((f"fates in random scripts, {part}", lambda folder, scripts=scripts: agrees(folder, program, module, scripts, set("adlcsn"))))
    return play(named(cases, names))


if __name__ == "__main__":
    sys.exit(main(*sys.argv[1:]))
