"""How each router is started on the bench's links. This is all that the bench knows of a router; the rest it sees on the links."""

import json
import os
import pathlib
import re
import shutil
import subprocess
import sys
import time

from space import Broken

ROOT = pathlib.Path(__file__).resolve().parent.parent
FRR = pathlib.Path("/usr/lib/frr")
# A list of FRR that has every prefix: what comes and is in such a list costs as much as that says, and all else 1.
ANY = "any"


class Router:
    """A router in the name space of a stage: it speaks RIPng on the devices and owns the prefixes of their addresses and some more."""

    def __init__(self, space, folder, devices, prefixes):
        self.space, self.folder, self.devices, self.prefixes = space, pathlib.Path(folder), devices, prefixes
        self.start()

    def spawn(self, name, *words, env=None):
        return self.space.start(self.folder / f"{name}.out", *words, env=env)

    def write(self, name, text):
        path = self.folder / name
        path.write_text(text)
        return path


class Ripngd(Router):
    """This repository's, by its companion."""

    program, companion = ROOT / "bin/ripngd", ROOT / "companion/ripngd-links"

    def start(self):
        lines = ['user = "nobody"', f'program = "{self.program}"', f'folder = "{self.folder / "run"}"']
        for device, cost in self.devices.items():
            lines += ["[[link]]", f'device = "{device}"', f"cost = {cost}"]
            lines += ['queries = "all"'] * self.answers_all()
        lines += [f"[[prefix]]\nprefix = {json.dumps(prefix)}" for prefix in self.prefixes]
        config = self.write("links.toml", "\n".join(lines) + "\n")
        self.spawn("companion", sys.executable, self.companion, "--unproved", config)

    def answers_all(self):
        """Whether a link has the key that lets hosts of other links ask."""
        return "queries" in (self.companion.parent / "table.py").read_text()

    @classmethod
    def version(cls):
        return subprocess.run([cls.program, "--version"], capture_output=True, text=True, check=False).stdout.strip()


class Bird(Router):
    """BIRD 2, as it is where nothing is said, but without its equal ways, which are its own."""

    def start(self):
        self.configure()
        words = ["-c", self.folder / "bird.conf", "-s", self.folder / "bird.ctl", "-P", self.folder / "bird.pid"]
        self.spawn("bird", "bird", "-f", *words)

    def configure(self):
        static = "".join(f"  route {prefix} unreachable;\n" for prefix in self.prefixes)
        ports = "".join(f'  interface "{device}" {{ metric {cost}; }};\n' for device, cost in self.devices.items())
        self.write(
            "bird.conf",
            "router id 192.0.2.1;\nprotocol device { scan time 1; }\nprotocol direct { ipv6; }\n"
            f"protocol static {{ ipv6;\n{static}}}\n"
            "protocol kernel { ipv6 { export where source = RTS_RIP; import none; }; }\n"
            f"protocol rip ng {{ ipv6 {{ import all; export all; }};\n  ecmp off;\n{ports}}}\n",
        )

    @classmethod
    def version(cls):
        told = subprocess.run(["bird", "--version"], capture_output=True, text=True, check=False)
        return (told.stdout + told.stderr).strip()


class Frr(Router):
    """FRR's zebra and ripngd, with poisoned reverse, which is not what it does where nothing is said."""

    def start(self):
        self.sockets = self.folder / "vty"
        self.sockets.mkdir()
        shutil.chown(self.sockets, "frr", "frr")
        horizon = "".join(f"interface {device}\n ipv6 ripng split-horizon poisoned-reverse\n!\n" for device in self.devices)
        ripng = [f" network {device}\n" for device in self.devices] + [f" route {prefix}\n" for prefix in self.prefixes]
        ripng += [f" offset-list {ANY} in {cost} {device}\n" for device, cost in self.devices.items() if cost > 1]
        self.daemon("zebra", "hostname frr\nipv6 forwarding\n")
        ends = time.monotonic() + 30
        while not (self.sockets / "zserv").exists():
            if time.monotonic() > ends:
                raise Broken("zebra does not start")
            time.sleep(0.1)
        self.daemon("ripngd", f"hostname frr\nipv6 access-list {ANY} permit any\n{horizon}router ripng\n{''.join(ripng)}")

    def daemon(self, name, config):
        path = self.sockets / f"{name}.conf"
        path.write_text(config)
        shutil.chown(path, "frr", "frr")
        words = ["-f", path, "-i", self.sockets / f"{name}.pid", "-z", self.sockets / "zserv"]
        self.spawn(name, FRR / name, *words, "--vty_socket", self.sockets, "-P", "0")

    @classmethod
    def version(cls):
        told = subprocess.run([FRR / "ripngd", "--version"], capture_output=True, text=True, check=False).stdout
        found = re.search(r"version (\S+)", told)
        return f"FRR {found[1]}" if found else "FRR"


class Command(Router):
    """Any other, by a command. It finds in its environment what it has to do."""

    words = ""

    def start(self):
        env = {
            "BENCH_LINKS": " ".join(self.devices),
            "BENCH_PREFIXES": " ".join(self.prefixes),
            "BENCH_FOLDER": str(self.folder),
        }
        self.spawn("router", "sh", "-c", f"exec {self.words}", env=env)

    @classmethod
    def version(cls):
        return cls.words


ROUTERS = {"ripngd": Ripngd, "bird": Bird, "frr": Frr}


def missing(name):
    """The programs that a router needs and that are not here."""
    needed = {"ripngd": [str(Ripngd.program)], "bird": ["bird"], "frr": [str(FRR / "zebra"), str(FRR / "ripngd")]}
    return [path for path in needed.get(name, []) if not (shutil.which(path) or os.path.exists(path))]
