"""Cases of the companion: who is heard, whose routes the kernel has, which links there are, and what it may do."""

import os
import pathlib
import signal
import sys
import time

from least import QUICK, REGULAR, TRIGGERED, least, settle
from spaces import COMPANION, HERE, ROOT, Bird, Ours, until
from suite import same

# What the router refuses of each kind of stranger.
RUBBISH = ("Short", "Ragged", "BadCommand", "BadVersion", "NotZero")
STRANGE = {
    "rubbish": dict.fromkeys(RUBBISH, 5),
    "hop-limit": {"HopLimit": 10},
    "global-source": {"NotLinkLocal": 10},
    # Half of these are Requests, which are answered (RFC 2080, section 2.4.1).
    "other-port": {"NotRipngPort": 5},
}
ALL = {name: 0 for kind in STRANGE.values() for name in kind}
# As a unit of systemd starts it: no root, and three capabilities.
AS_BY_A_UNIT = ["setpriv", "--reuid=65534", "--regid=65534", "--clear-groups"]
AS_BY_A_UNIT += [f"--{kind}-caps=+net_admin,+net_bind_service,+net_raw" for kind in ("inh", "ambient")]


def stranger(space, *words):
    return space.do(sys.executable, HERE / "stranger.py", "to-o", *words).strip()


def grown(before, after, names, start=""):
    return {name: after.get(start + name, 0) - before.get(start + name, 0) for name in names}


def a_stranger(net, program):
    """Rubbish, a hop limit of 254, a global source, another port: no table changes, and each is counted."""
    b, o, s = (net.space(name) for name in "bos")
    net.cable(b, o)
    net.cable(o, s)
    s.ip("address", "add", "2001:db8:5::2/64", "dev", "to-o", "nodad")
    routers = {
        "b": Bird(b, {"to-o": 1}, ["2001:db8:1::/48"]),
        "o": Ours(o, program, {"to-b": {}, "to-s": {}}, ["2001:db8:2::/48"], words=["-d"]),
    }
    ours = routers["o"]
    wanted = least([("b", 1, "o", 1)], {"b": ["2001:db8:1::/48"], "o": ["2001:db8:2::/48"]})
    settle(routers, wanted)
    for kind, refused in STRANGE.items():
        faults = ours.refused()
        stranger(s, kind)
        time.sleep(1)
        same(f"what the router counts of {kind}", grown(faults, ours.refused(), ALL), ALL | refused)
        settle(routers, wanted, 1)
    stranger(s, "neighbor")
    until(5, "a neighbor is believed", lambda: ours.table().get("2001:db8:bad::/48") == 2)
    same("the answer", stranger(s, "request"), "255 2001:db8:1::/48 2001:db8:2::/48 2001:db8:bad::/48")


def many_neighbors(net, program):
    """Five neighbors, one after another and again: each is answered."""
    o, s = net.space("o"), net.space("s")
    net.cable(o, s)
    ours = Ours(o, program, {"to-s": {}}, ["2001:db8:2::/48"])
    until(REGULAR, "the router is up", ours.table)
    for number in range(1, 6):
        s.ip("address", "add", f"fe80::{number}/64", "dev", "to-o", "nodad")
    for number in (1, 2, 3, 1, 4, 1, 4, 5):
        same("the answer", stranger(s, "request", f"fe80::{number}"), "255 2001:db8:2::/48")


def arrivals(line):
    return int(line.split("arrivals ")[1].split()[0])


def a_flood(net, program):
    """Three thousand made-up neighbors: other links and later neighbors are served."""
    b, o, s = (net.space(name) for name in "bos")
    net.cable(b, o)
    net.cable(o, s)
    ours = Ours(o, program, {"to-b": {}, "to-s": {}}, ["2001:db8:2::/48"])
    bird = Bird(b, {"to-o": 1}, ["2001:db8:1::/48"])
    until(REGULAR, "BIRD has learned", lambda: "2001:db8:2::/48" in bird.table())
    until(REGULAR, "BIRD's first prefix is learned", lambda: ours.table().get("2001:db8:1::/48") == 2)
    before = len(list(pathlib.Path(f"/proc/{ours.process.pid}/fd").iterdir()))
    stranger(s, "flood")
    bird.own(["2001:db8:1::/48", "2001:db8:10::/48"])
    until(TRIGGERED, "BIRD's new prefix is learned", lambda: ours.table().get("2001:db8:10::/48") == 2)
    until(TRIGGERED, "one of the flood is learned, and told", lambda: bird.table().get("2001:db8:bad::/48") == 3)

    until(REGULAR, "all of the flood is taken", lambda: sum(map(arrivals, ours.ctl("neighbors"))) >= 3000)
    link = ours.link("to-s")
    counted = link["arrivals"] >= 3000, sum(one["arrivals"] for one in link["neighbors"]) < 3000
    same("whether the link counts them, also those that have no line", counted, (True, True))
    until(5, "it has no more files", lambda: len(list(pathlib.Path(f"/proc/{ours.process.pid}/fd").iterdir())) <= before)
    answer = "255 " + " ".join(f"2001:db8:{name}::/48" for name in ("1", "2", "10", "bad"))
    same("the answer to a later neighbor", stranger(s, "request"), answer)
    s.ip("address", "add", "fe80::5/64", "dev", "to-o", "nodad")
    stranger(s, "neighbor", "fe80::5")
    until(5, "its tables are counted by its name", lambda: ours.neighbor("to-s", "fe80::5").get("responses", 0) > 0)


OTHERS = (
    "2001:db8:77::/48 dev to-b proto static",
    "2001:db8:1::/48 dev to-b proto static metric 100",
    "2001:db8:10::/48 dev to-b proto static metric 2048",
    "2001:db8:78::/48 dev to-b proto 152 table 100",
)


def others_routes(space):
    told = space.ip("-6", "route", "show", "table", "all").splitlines()
    return sorted(line for line in told if "proto static" in line or "table 100" in line)


def is_router(pid):
    try:
        return b"--control" in pathlib.Path(f"/proc/{pid}/cmdline").read_bytes()
    except FileNotFoundError:  # it has just ended
        return False


def a_killed_companion(net, program):
    """Killed and started again it leaves no route of its own, ended neither, and touches none of anybody else's."""
    b, o = net.space("b"), net.space("o")
    net.cable(b, o)
    for words in OTHERS:
        o.ip("-6", "route", "add", *words.split())
    before = others_routes(o)
    owned = {"b": ["2001:db8:1::/48", "2001:db8:10::/48"], "o": ["2001:db8:2::/48"]}
    Bird(b, {"to-o": 1}, owned["b"])
    ours = Ours(o, program, {"to-b": {}}, owned["o"])

    def has_learned():
        """All but the route that another stands in the place of."""
        until(REGULAR, "it has learned", lambda: ours.table() == least([("b", 1, "o", 1)], owned)["o"])
        until(5, "just its route is there", lambda: set(ours.kernel()) == {"2001:db8:1::/48"})
        same("routes of others", others_routes(o), before)

    has_learned()
    ours.process.send_signal(signal.SIGUSR1)
    until(5, "how many the kernel refused is said", lambda: ours.said("kernel has 1, refused 1\n"))
    children = ours.children()
    ours.end(signal.SIGKILL)
    until(5, "its children end with it", lambda: not any(pathlib.Path(f"/proc/{child}").exists() for child in children))
    same("routes of a killed one", set(ours.kernel()), {"2001:db8:1::/48"})
    o.ip("-6", "route", "add", "2001:db8:dead::/48", "dev", "to-b", "proto", "152", "metric", "9")
    ours.start()
    has_learned()
    same("its status", ours.end(signal.SIGTERM), 0)
    same("routes of an ended one", ours.kernel(), {})
    same("routes of others", others_routes(o), before)


def addresses_come_and_go(net, program):
    """A prefix is told while a stub has an address and a carrier."""
    b, o, h = (net.space(name) for name in "boh")
    net.cable(b, o)
    net.cable(o, h)
    bird = Bird(b, {"to-o": 1}, ["2001:db8:1::/48"])
    Ours(o, program, {"to-b": {}, "to-h": {"stub": True, "tag": 5}}, ["2001:db8:2::/48"])
    without = {"2001:db8:1::/48": 1, "2001:db8:2::/48": 2}
    until(REGULAR, "BIRD has learned", lambda: bird.table() == without)
    for what, space, words, wanted in (
        ("a new address", o, "address add 2001:db8:5::1/64 dev to-h", without | {"2001:db8:5::/64": 2}),
        ("a lost carrier", h, "link set to-o down", without),
        ("a carrier", h, "link set to-o up", without | {"2001:db8:5::/64": 2}),
        ("an address that is gone", o, "address del 2001:db8:5::1/64 dev to-h", without),
    ):
        space.ip(*words.split())
        until(TRIGGERED, f"{what} is told", lambda: bird.table() == wanted)


def links_come_and_go(net, program):
    """A link that blinks, is made anew with another address, or comes late, is used; one that is gone is not."""
    b, o, c = (net.space(name) for name in "boc")
    net.cable(b, o)
    owned, cables = {"b": ["2001:db8:1::/48"], "o": ["2001:db8:2::/48"]}, [("b", 1, "o", 1)]
    # Its updates are so far apart that a link which is there again has to be asked.
    bird = Bird(b, {"to-o": 1}, owned["b"], update=150)
    ours = Ours(o, program, {"to-b": {}, "to-c": {}}, owned["o"])
    routers = {"b": bird, "o": ours}
    settle(routers, least(cables, owned), REGULAR)
    o.do("sysctl", "-qw", "net.ipv6.conf.to-b.accept_dad=0")
    for _ in range(3):
        o.do("ip", "-batch", "-", input="link set to-b down\nlink set to-b up\n")
        time.sleep(1)
        settle(routers, least(cables, owned), QUICK)
    o.do("sysctl", "-qw", "net.ipv6.conf.to-b.disable_ipv6=1")
    until(TRIGGERED, "nothing is reached without an address", lambda: ours.table() == {"2001:db8:2::/48": 1})
    o.do("sysctl", "-qw", "net.ipv6.conf.to-b.disable_ipv6=0")
    settle(routers, least(cables, owned), QUICK)
    o.ip("link", "del", "to-b")
    until(TRIGGERED, "nothing is reached", lambda: ours.table() == {"2001:db8:2::/48": 1} and not ours.kernel())
    net.cable(b, o)
    settle(routers, least(cables, owned), REGULAR)
    address = o.ip("-6", "-o", "address", "show", "dev", "to-b", "scope", "link").split()[3].split("/")[0]
    same("whether the router has the new address", f'"{address}"' in (ours.run / "router.toml").read_text(), True)
    routers["c"] = Bird(c, {"to-o": 1}, ["2001:db8:3::/48"])
    net.cable(c, o)
    settle(routers, least([*cables, ("c", 1, "o", 1)], owned | {"c": ["2001:db8:3::/48"]}), 2 * REGULAR)


def the_page(net, program):
    """What README shows: BIRD by companion/bird.sh, and a route of its in the kernel."""
    here, folder = net.space("h"), net.folder / "run"
    folder.mkdir()
    (folder / "ripngd").symlink_to(program)
    words = ["env", f"SPACE={net.name}-bird", ROOT / "companion/bird.sh"]
    net.spaces.append(f"{net.name}-bird")
    here.do(*words)
    try:
        found = [f"RUNTIME_DIRECTORY={folder}", f"PATH={folder}:{os.environ['PATH']}"]
        here.start("companion", "env", *found, sys.executable, COMPANION, "--unproved", ROOT / "companion/bird.toml")
        until(REGULAR, "the route is there", lambda: "via" in here.ip("-6", "route", "show", "2001:db8:b::/48", "proto", "152"))
    finally:
        here.do(*words, "down", check=False)


def status(pid, key):
    lines = pathlib.Path(f"/proc/{pid}/status").read_text().splitlines()
    return next(line for line in lines if line.startswith(key + ":")).split()[1]


def no_privilege(net, program):
    """The companion keeps three capabilities, or two where it leaves the kernel alone; the router has none ever."""
    spaces = {name: net.space(name) for name in "bopq"}
    for name in "opq":
        net.cable(spaces["b"], spaces[name])
    Bird(spaces["b"], {"to-o": 1, "to-p": 1, "to-q": 1}, ["2001:db8:1::/48"])
    routers = {
        "started by root": Ours(spaces["o"], program, {"to-b": {}}, ["2001:db8:2::/48"]),
        "with --no-kernel": Ours(spaces["p"], program, {"to-b": {}}, ["2001:db8:3::/48"], words=["--no-kernel"]),
        "started as by a unit": Ours(spaces["q"], program, {"to-b": {}}, ["2001:db8:4::/48"], by=AS_BY_A_UNIT),
    }
    for name, router in routers.items():
        until(REGULAR, f"one {name} has learned", lambda: len(router.table()) == 4)
        wanted, kept = (0, 1 << 10 | 1 << 13) if name == "with --no-kernel" else (3, 1 << 10 | 1 << 12 | 1 << 13)
        until(5, f"the kernel of one {name} has {wanted}", lambda: len(router.kernel()) == wanted)
        for pid in [router.process.pid, *router.children()]:
            mine = kept if pid == router.process.pid else 0
            for key, most in (("CapEff", mine), ("CapPrm", mine), ("CapInh", mine), ("CapAmb", 0)):
                same(f"{key} of process {pid} {name}", int(status(pid, key), 16), most)
            same(f"whether root has process {pid} {name}", status(pid, "Uid") == "0", False)
            same(f"NoNewPrivs of process {pid} {name}", status(pid, "NoNewPrivs"), "1")
