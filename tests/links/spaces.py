"""Name spaces and cables of a case, and the routers in them: this one with its companion, BIRD, FRR. Each is asked for
its table in the same words: a dict of prefixes and metrics, without those of metric 16."""

import json
import os
import pathlib
import re
import shutil
import subprocess
import sys

import suite

HERE = pathlib.Path(__file__).resolve().parent
ROOT = HERE.parent.parent
COMPANION = ROOT / "companion/ripngd-links"
FRR = pathlib.Path("/usr/lib/frr")
PROTOCOL = 152
INFINITY = 16


def until(seconds, what, ask):
    """Waits until `ask` answers something true, and answers that: so many seconds, which are of each case."""
    return suite.until(what, ask, seconds, 0.3)


class Net:
    """The name spaces of one case, with a folder for it; at its end nothing of it is left."""

    def __init__(self, name, folder):
        self.name, self.folder = f"rl{os.getpid()}-{name}", pathlib.Path(folder) / name
        self.folder.mkdir(mode=0o755)
        self.spaces, self.started, self.cables = [], [], 0

    def __enter__(self):
        return self

    def __exit__(self, *_):
        for process in reversed(self.started):
            if process.poll() is None:
                process.terminate()
        for process in self.started:
            try:
                process.wait(5)
            except subprocess.TimeoutExpired:
                process.kill()
                process.wait()
        for space in self.spaces:
            subprocess.run(["ip", "netns", "del", space], stderr=subprocess.DEVNULL, check=False)

    def space(self, name):
        full = f"{self.name}-{name}"
        subprocess.run(["ip", "netns", "add", full], check=True)
        self.spaces.append(full)
        space = Space(self, full, name)
        space.ip("link", "set", "lo", "up")
        space.do("sysctl", "-qw", "net.ipv6.conf.all.forwarding=1", "net.ipv6.conf.default.forwarding=1")
        return space

    def cable(self, one, other):
        """A pair of virtual interfaces, each named for the space at its other end."""
        ends = (f"to-{other.name}", f"to-{one.name}")
        other_end = ["peer", "name", ends[1], "netns", other.full]
        subprocess.run(["ip", "link", "add", ends[0], "netns", one.full, "type", "veth", *other_end], check=True)
        one.ip("link", "set", ends[0], "up")
        other.ip("link", "set", ends[1], "up")
        return ends

    def lossy_cable(self, one, other, thirds):
        """The same by way of a name space in which as many thirds of all frames are lost as the file says."""
        middle = self.space(f"w{len(self.spaces)}")
        for end in (one, other):
            self.cable(end, middle)
            end.ip("link", "set", f"to-{middle.name}", "name", f"to-{(other if end is one else one).name}", "down")
            end.ip("link", "set", f"to-{(other if end is one else one).name}", "up")
        for device in (f"to-{one.name}", f"to-{other.name}"):
            middle.do("sysctl", "-qw", f"net.ipv6.conf.{device}.disable_ipv6=1")
        middle.start("wire", sys.executable, HERE / "wire.py", f"to-{one.name}", f"to-{other.name}", thirds)


class Space:
    """A name space of a case."""

    def __init__(self, net, full, name):
        self.net, self.full, self.name = net, full, name
        self.folder = net.folder / name
        self.folder.mkdir()
        self.folder.chmod(0o777)

    def do(self, *words, check=True, **more):
        words = ["ip", "netns", "exec", self.full, *map(str, words)]
        done = subprocess.run(words, capture_output=True, text=True, check=False, **more)
        if check and done.returncode:
            raise suite.Failed(f"{' '.join(words)}: {done.stderr.strip() or done.stdout.strip()}")
        return done.stdout

    def ip(self, *words):
        return self.do("ip", *words)

    def link_local(self, device, address):
        """The device has just this link-local address."""
        self.do("sysctl", "-qw", f"net.ipv6.conf.{device}.addr_gen_mode=1")
        self.ip("-6", "address", "flush", "dev", device, "scope", "link")
        self.ip("address", "add", f"{address}/64", "dev", device, "nodad")

    def start(self, name, *words):
        """A process in the name space, whose output goes to a file of that name."""
        out = open(self.folder / f"{name}.out", "ab")
        words = ["ip", "netns", "exec", self.full, *map(str, words)]
        process = subprocess.Popen(words, stdin=subprocess.DEVNULL, stdout=out, stderr=out)
        self.net.started.append(process)
        return process

    def text(self, name):
        path = self.folder / f"{name}.out"
        return path.read_text(errors="replace") if path.exists() else ""

    def routes(self, *words):
        """Lines of the kernel's table, by prefix."""
        told = json.loads(self.ip("-j", "-6", "route", "show", *words) or "[]")
        return {one["dst"] if "/" in one["dst"] else one["dst"] + "/128": one for one in told}


class Ours:
    """This router with its companion."""

    def __init__(self, space, program, links, prefixes=(), words=(), by=(), more=(), user="nobody"):
        self.space, self.program, self.by, self.devices = space, program, by, list(links)
        self.config, self.run, self.words = space.folder / "links.toml", space.folder / "run", words
        lines = [f'user = "{user}"', f'program = "{program}"', f'folder = "{self.run}"', *more]
        for device, keys in links.items():
            lines += ["[[link]]", f'device = "{device}"']
            lines += [f"{key} = {json.dumps(value)}" for key, value in keys.items()]
        lines += [f'[[prefix]]\nprefix = "{prefix}"\ntag = 9' for prefix in prefixes]
        self.config.write_text("\n".join(lines) + "\n")
        self.start()

    def start(self):
        self.process = self.space.start("companion", *self.by, sys.executable, COMPANION, "--unproved", *self.words, self.config)

    def end(self, signal):
        self.process.send_signal(signal)
        self.process.wait(20)
        return self.process.returncode

    def ctl(self, *words):
        """The lines that `ctl` prints; none while the router is not there."""
        words = [self.program, "ctl", self.run / "control", *words]
        done = subprocess.run(words, capture_output=True, text=True, check=False)
        return done.stdout.splitlines() if done.returncode == 0 else []

    def routes(self):
        found = (line.split() for line in self.ctl("routes"))
        return {words[0]: int(words[2]) for words in found}

    def table(self):
        return {prefix: metric for prefix, metric in self.routes().items() if metric < INFINITY}

    def kernel(self):
        """Its learned routes there."""
        found = self.space.routes("proto", str(PROTOCOL))
        return {prefix: route for prefix, route in found.items() if "gateway" in route}

    def nowhere(self):
        """Prefixes to which packets go nowhere there."""
        found = self.space.routes("proto", str(PROTOCOL))
        return {prefix for prefix, route in found.items() if route.get("type") == "unreachable"}

    def said(self, text):
        """How often the companion has said that."""
        return self.space.text("companion").count(text)

    def neighbor(self, device, address):
        """What the router counts of a neighbor, by `status`, or nothing."""
        return next((one for one in self.link(device).get("neighbors", ()) if one["address"] == address), {})

    def status(self):
        """What `ripngd-links status --json` says."""
        words = [sys.executable, COMPANION, "status", "--json", self.run]
        return json.loads(subprocess.run(words, capture_output=True, text=True, check=True).stdout)

    def link(self, device):
        """What it says of that link."""
        return next(link for link in self.status()["links"] if link["device"] == device)

    def refused(self):
        """What the router has refused, by name."""
        found = (line.split() for line in self.ctl("counts"))
        return {words[2]: int(words[3]) for words in found if words[0] in ("refused", "noted")}

    def lost(self):
        """How much the router has lost: datagrams that it was to send, and steps, arrivals for which there was no room among them."""
        found = next(line.split() for line in self.ctl("counts") if line.startswith("lost "))
        return int(found[2]) + int(found[4])

    def children(self):
        told = subprocess.run(["pgrep", "-P", str(self.process.pid)], capture_output=True, text=True, check=False)
        return [int(pid) for pid in told.stdout.split()]


class Bird:
    """BIRD 2, as RIPng and with its routes in the kernel."""

    def __init__(self, space, links, prefixes=(), update=30):
        self.space, self.links, self.update = space, links, update
        self.config, self.control = space.folder / "bird.conf", space.folder / "bird.ctl"
        self.write(prefixes)
        space.start("bird", "bird", "-f", "-c", self.config, "-s", self.control, "-P", space.folder / "bird.pid")

    def write(self, prefixes):
        static = "".join(f"  route {prefix} unreachable;\n" for prefix in prefixes)
        keys = {device: f"metric {cost}; update time {self.update};" for device, cost in self.links.items()}
        ports = "".join(f'  interface "{device}" {{ {words} }};\n' for device, words in keys.items())
        self.config.write_text(
            "router id 192.0.2.1;\nprotocol device { scan time 1; }\n"
            f"protocol static own {{ ipv6;\n{static}}}\n"
            "protocol kernel { ipv6 { export where source = RTS_RIP; import none; }; }\n"
            f"protocol rip ng rip1 {{ ipv6 {{ import all; export all; }};\n{ports}}}\n"
        )

    def own(self, prefixes):
        """Owns just these from now on."""
        self.write(prefixes)
        self.ask("configure")

    def ask(self, *words):
        return self.space.do("birdc", "-s", self.control, *words, check=False)

    def table(self):
        found, prefix = {}, None
        for line in self.ask("show", "route", "primary", "all").splitlines():
            if "/" in line.split(" ")[0]:
                prefix = line.split()[0]
                found.setdefault(prefix, 1)
            elif told := re.match(r"\s*(?:RIP\.metric|rip_metric): (\d+)", line):
                found[prefix] = int(told[1])
        return {prefix: metric for prefix, metric in found.items() if metric < INFINITY}

    def kernel(self):
        return self.space.routes("proto", "bird")


class Frr:
    """FRR's zebra and ripngd. It counts 1 for each link, whatever it is."""

    def __init__(self, space, links, prefixes=()):
        self.space = space
        self.sockets = space.folder / "vty"
        self.sockets.mkdir()
        shutil.chown(self.sockets, "frr", "frr")
        ripng = "".join([f" network {device}\n" for device in links] + [f" route {prefix}\n" for prefix in prefixes])
        self.daemon("zebra", "hostname frr\n")
        until(20, "zebra is up", lambda: (self.sockets / "zserv").exists())
        self.daemon("ripngd", f"hostname frr\nrouter ripng\n{ripng}")

    def daemon(self, name, config):
        path = self.sockets / f"{name}.conf"
        path.write_text(config)
        shutil.chown(path, "frr", "frr")
        words = ["-f", path, "-i", self.sockets / f"{name}.pid", "-z", self.sockets / "zserv"]
        self.space.start(name, FRR / name, *words, "--vty_socket", self.sockets, "-P", "0")

    def ask(self, words):
        return self.space.do("vtysh", "--vty_socket", self.sockets, "-c", words, check=False)

    def tell(self, *words):
        told = ["-c", "configure terminal"] + [part for word in words for part in ("-c", word)]
        return self.space.do("vtysh", "--vty_socket", self.sockets, *told)

    def routes(self):
        found, prefix = {}, None
        for words in map(str.split, self.ask("show ipv6 ripng").splitlines()):
            if words and words[0].startswith(("R(", "C(", "S(")) and "/" in words[1]:
                prefix, words = words[1], words[2:]
            if prefix and len(words) >= 3 and words[2].isdigit():
                found[prefix], prefix = int(words[2]), None
        return found

    def table(self):
        return {prefix: metric for prefix, metric in self.routes().items() if metric < INFINITY}

    def kernel(self):
        return self.space.routes("proto", "ripng")
