"""Cases of an operator's day: what the log says, what monitoring has, kernel routes that somebody changes, a router that hangs, and what no
neighbor should tell."""

import json
import os
import re
import signal
import socket
import subprocess
import sys
import time
from collections import Counter

from changes import routers_of
from edges import stranger
from faults import LEARNED, OWNED, a_pair
from least import REGULAR
from reloads import reload
from spaces import COMPANION, ROOT, Bird, Ours, until
from suite import same

sys.path.insert(0, str(ROOT / "companion"))

from asking import ask  # noqa: E402

MOMENT = r"\d{4}-\d\d-\d\dT\d\d:\d\d:\d\d\.\d{3}[+-]\d\d:\d\d "
# Seconds within which what the kernel tells is mended, on a machine that does much else; and within which a router that hangs is named.
AT_ONCE, HANGS = 5, 1


def the_log(net, program):
    """Each line has the time; links come up and go down, neighbors are met, limits are reached, and routes change where that is asked
    for, all with the names of devices."""
    bird, ours = a_pair(net, program)
    address = bird.space.ip("-6", "-o", "address", "show", "dev", "to-o", "scope", "link").split()[3].split("/")[0]
    until(REGULAR, "a neighbor is met", lambda: ours.said(f"ripngd-links: neighbor {address} on to-b is met\n"))
    same("where the router starts", ours.said("ripngd-links: the router starts on to-b\n"), 1)
    text = ours.config.read_text()
    same("routes are asked for", reload(ours, "log_routes = true\n" + text), (0, ["ok", "log_routes True"]))
    bird.own([LEARNED, "2001:db8:5::/48"])
    until(REGULAR, "a route is said", lambda: ours.said(f"ripngd-links: 2001:db8:5::/48 metric 2 via {address} on to-b\n"))
    bird.space.ip("link", "set", "to-o", "down")
    for line in ("to-b has no carrier", f"{LEARNED} is gone"):
        until(AT_ONCE, f"`{line}` is said", lambda: ours.said(f"ripngd-links: {line}\n"))
    bird.space.ip("link", "set", "to-o", "up")
    until(REGULAR, "that it is up is said", lambda: ours.said("ripngd-links: to-b is up\n"))
    same("a limit", reload(ours, text.replace('"to-b"\n', '"to-b"\nlimit = 1\n'))[0], 0)
    until(REGULAR, "it is reached", lambda: ours.said("ripngd-links: to-b has reached its limit of 1 routes"))
    without = [line for line in ours.space.text("companion").splitlines() if not re.match(MOMENT, line)]
    same("lines without the time", without, [])


def a_flood_of_lines(net, program):
    """What is refused is said with its device, but not more than a hundred times a second."""
    o, s = net.space("o"), net.space("s")
    net.cable(o, s)
    ours = Ours(o, program, {"to-s": {}}, [OWNED], words=["-d"])
    until(REGULAR, "the router is up", ours.table)
    time.sleep(2)
    stranger(s, "rubbish", "::", 300)
    until(REGULAR, "all is counted", lambda: ours.refused().get("Short", 0) >= 300)
    lines = [line for line in ours.space.text("companion").splitlines() if " refused " in line]
    most = max(Counter(line[: len("2026-11-30T12:00:00")] for line in lines).values())
    same("whether there were at most so many in a second", most <= 2 * 100, True)
    same("one of them", re.fullmatch(MOMENT + r"ripngd: to-s from fe80::\S+ port 521 refused \d+ \w+", lines[0]) is not None, True)


AS_ANOTHER = ["setpriv", "--reuid=5", "--regid=60", "--clear-groups"]


def monitoring(net, program):
    """One who may not ask the companion reads its file, and makes metrics of it, as a whole file; counters are there from 0 on."""
    bird, ours = a_pair(net, program, {"to-x": {}})
    until(REGULAR, "it has learned", ours.kernel)
    told = ours.status()
    same("what was counted", {key: told["router"][key] for key in ("starts", "lost_sends")}, {"starts": 1, "lost_sends": 0})
    same("what no link has refused", {link["device"]: link["limit_reached"] for link in told["links"]}, {"to-b": 0, "to-x": 0})
    changes = told["links"][0]["changes"]
    for state in ("down", "up"):
        bird.space.ip("link", "set", "to-o", state)
        until(REGULAR, f"it is {state}", lambda: ours.link("to-b")["up"] == (state == "up"))
    link = ours.link("to-b")
    same("its last change", (link["changes"] >= changes + 2, link["changed_seconds_ago"] < REGULAR), (True, True))
    words = [*AS_ANOTHER, sys.executable, COMPANION]
    folder = net.folder / "collected"
    folder.mkdir()
    folder.chmod(0o777)

    def by_another(*more):
        return subprocess.run([*words, *more], capture_output=True, text=True, check=False)

    def has(line):
        done = by_another("metrics", "--output", folder / "ripngd.prom", ours.run)
        return (done.returncode, line in (folder / "ripngd.prom").read_text().splitlines()) == (0, True)

    until(30, "the file says that it is up", lambda: has('ripngd_link_up{device="to-b"} 1'))
    same("what else is there", [path.name for path in folder.iterdir()], ["ripngd.prom"])
    same("who may read it", (folder / "ripngd.prom").stat().st_mode & 0o777, 0o644)
    same("the state", f"\nto-b is up, address {link['address']}" in by_another("status", ours.run).stdout, True)
    same("who may have it reload", by_another("reload", ours.run).returncode, 3)
    ctl = subprocess.run([*AS_ANOTHER, program, "ctl", ours.run / "control", "stop"], capture_output=True, check=False)
    same("who may stop the router", ctl.returncode, 3)
    same("its shape", set(json.loads(by_another("status", "--json", ours.run).stdout)), set(ours.status()))
    same("where nobody may write", by_another("metrics", "--output", "/nowhere/ripngd.prom", ours.run).returncode, 3)


def routes_are_mended(net, program):
    """Routes that somebody takes away are back at once, with a word; one that is replaced comes back as soon as it can, and is named until
    then."""
    bird, ours = a_pair(net, program)
    o = ours.space
    bird.own([LEARNED, "2001:db8:5::/48"])
    both = {LEARNED, "2001:db8:5::/48"}
    until(REGULAR, "it has learned", lambda: set(ours.kernel()) == both and ours.nowhere() == {OWNED})
    o.ip("-6", "route", "flush", "proto", "152")
    until(AT_ONCE, "all are back", lambda: set(ours.kernel()) == both and ours.nowhere() == {OWNED})
    same("how often that is said", ours.said("somebody has taken away or replaced 2 kernel routes, that to 2001:db8:1::/48 among them"), 1)
    other = [LEARNED, "via", "fe80::9", "dev", "to-b", "metric", "2048"]
    o.ip("-6", "route", "replace", *other)
    until(AT_ONCE, "it is named", lambda: ours.status()["kernel"]["refused"] == [LEARNED])
    same("whether that is said", ours.said(f"the kernel refuses 1 routes, that to {LEARNED} among them: others have"), 1)
    o.ip("-6", "route", "del", *other)
    until(AT_ONCE, "it is back", lambda: set(ours.kernel()) == both)
    same("what is counted", ours.status()["kernel"]["mended_routes"], 3)


def a_hung_router_is_replaced(net, program):
    """A router that hangs is named within a second by `status`, and systemd hears no longer that all is well; after half a minute another
    takes its place, and packets are forwarded on."""
    run = net.folder / "run"
    run.mkdir()
    run.chmod(0o777)
    with socket.socket(socket.AF_UNIX, socket.SOCK_DGRAM) as manager:
        manager.bind(str(net.folder / "notify"))
        os.chmod(net.folder / "notify", 0o777)
        _, ours = a_pair(net, program, by=["env", f"NOTIFY_SOCKET={net.folder}/notify"])
        until(REGULAR, "it has learned", ours.kernel)

        def heard(seconds):
            """Whether systemd hears within that time that all is well."""
            manager.settimeout(seconds)
            try:
                return manager.recv(99) == b"WATCHDOG=1"
            except TimeoutError:
                return False

        until(REGULAR, "systemd hears that all is well", lambda: heard(9))
        [router] = routers_of(ours)
        os.kill(router, signal.SIGSTOP)
        began = time.monotonic()
        same("whether it is named", ask(ours.run, "status")["router"]["answers"], False)
        same("whether that took long", time.monotonic() - began > HANGS, False)
        until(15, "it is said", lambda: ours.said("the router has not answered for 5 s"))
        until(5, "systemd has heard what it was told before", lambda: not heard(0.1))
        same("whether systemd hears anything", heard(5), False)
        until(60, "another takes its place", lambda: routers_of(ours) not in ([], [router]) and ours.ctl("counts"))
        same("the kernel's routes", set(ours.kernel()), {LEARNED})
        until(REGULAR, "it has learned", lambda: LEARNED in ours.table())
        same("whether systemd hears that all is well", heard(9), True)
    same("its starts", ours.status()["router"]["starts"], 2)


MARTIANS = ["::1/128", "::ffff:102:304/128", "::ffff:0:0/96"]


def no_martians(net, program):
    """What nobody routes is not learned from a neighbor, unless the link says otherwise; a default route and all else are."""
    o, s = net.space("o"), net.space("s")
    net.cable(o, s)
    s.link_local("to-o", "fe80::5")
    ours = Ours(o, program, {"to-s": {}})
    until(REGULAR, "the router is up", lambda: ours.ctl("counts"))
    told = ",".join([LEARNED, "::/0", *MARTIANS])
    stranger(s, f"of={told}", "fe80::5", 1)
    until(AT_ONCE, "it has learned", lambda: set(ours.table()) == {LEARNED, "::/0"})
    same("how many are refused", ours.link("to-s")["not_accepted"], len(MARTIANS))
    text = ours.config.read_text().replace('"to-s"\n', '"to-s"\nmartians = true\n')
    same("the status", reload(ours, text)[0], 0)
    until(REGULAR, "another router is up", lambda: ours.status()["router"]["starts"] == 2 and ours.ctl("counts"))
    stranger(s, f"of={told}", "fe80::5", 1)
    until(AT_ONCE, "all are learned", lambda: len(ours.table()) == 2 + len(MARTIANS))


def a_bridge_port(net, program):
    """A device that becomes a port of a bridge is no link, and its routes go, though it has its address; the bridge is one."""
    _, ours = a_pair(net, program)
    o = ours.space
    until(REGULAR, "it has learned", ours.kernel)
    o.ip("link", "add", "name", "br0", "type", "bridge")
    o.ip("link", "set", "br0", "up")
    o.ip("link", "set", "to-b", "master", "br0")
    until(AT_ONCE, "it is said", lambda: ours.said("ripngd-links: to-b is a port of the bridge br0; name that as the link\n"))
    same("whether it has its address", "fe80::2" in o.ip("address", "show", "dev", "to-b"), True)
    until(AT_ONCE, "its routes go", lambda: not ours.kernel() and LEARNED not in ours.table())
    same("the status of a reload", reload(ours, ours.config.read_text() + '[[link]]\ndevice = "br0"\n')[0], 0)
    until(REGULAR, "they go by the bridge", lambda: any(route["dev"] == "br0" for route in ours.kernel().values()))


def a_renamed_device(net, program):
    """A device that gets another name while it is up leaves no route under that name, and its routes are back with its name."""
    _, ours = a_pair(net, program)
    until(REGULAR, "it has learned", ours.kernel)
    ours.space.ip("link", "set", "to-b", "name", "other")
    until(AT_ONCE, "its routes go", lambda: not ours.kernel())
    ours.space.ip("link", "set", "other", "name", "to-b")
    until(REGULAR, "they are back", lambda: set(ours.kernel()) == {LEARNED})
    same("what is refused", ours.status()["kernel"]["refused"], [])


# What root lacks that is to become another, and has these capabilities beside those two.
LACKING = {"": "cannot give {folder} to nobody: needs CAP_CHOWN", ",+chown": "cannot become nobody: needs CAP_SETGID and CAP_SETUID"}


def two_capabilities(net, program):
    """As in a container: root with CAP_NET_ADMIN and CAP_NET_RAW alone, where everybody may open port 521. What it lacks is named."""
    space = net.space("p")
    space.do("sysctl", "-qw", "net.ipv4.ip_unprivileged_port_start=0")
    b = net.space("b")
    net.cable(b, space)
    Bird(b, {"to-p": 1}, [LEARNED])
    by = ["setpriv", "--bounding-set=-all,+net_admin,+net_raw", "--inh-caps=-all"]
    ours = Ours(space, program, {"to-b": {}}, [OWNED], by=by, user="root")
    until(REGULAR, "it has learned", lambda: set(ours.kernel()) == {LEARNED})
    same("its status", ours.end(signal.SIGTERM), 0)
    same("what is left", ours.space.routes("proto", "152"), {})
    ours.by = ["setpriv", "--bounding-set=-all", "--inh-caps=-all"]
    ours.start()
    same("its status without any", ours.process.wait(REGULAR), 3)
    same("whether that is said", ours.said("ripngd-links: needs CAP_NET_RAW and CAP_NET_ADMIN\n"), 1)
    ours.config.write_text(ours.config.read_text().replace('user = "root"', 'user = "nobody"'))
    for more, wanted in LACKING.items():
        ours.by = ["setpriv", f"--bounding-set=-all,+net_admin,+net_raw{more}", "--inh-caps=-all"]
        ours.start()
        same(f"its status with{more}", ours.process.wait(REGULAR), 3)
        same(f"whether that is said: {wanted}", ours.said(f"ripngd-links: {wanted.format(folder=ours.run)}\n"), 1)
    far = net.folder / ("x" * 100)
    ours.by = ["env", f"RUNTIME_DIRECTORY={far}"]
    ours.start()
    same("its status in a folder of a long name", ours.process.wait(REGULAR), 3)
    same("whether that is said", ours.said(f"ripngd-links: cannot listen at {far}/companion: AF_UNIX path too long\n"), 1)
