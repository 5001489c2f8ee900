"""Cases of what is not as it should be around the companion: it says so, goes on, and tries again. Nothing but a refused table ends it
with status 1, after which a unit does not start it again."""

import contextlib
import os
import re
import signal
import subprocess
import sys
import time
from datetime import datetime

from changes import STAY, kill_router, routers_of
from edges import AS_BY_A_UNIT
from least import REGULAR, TRIGGERED
from spaces import COMPANION, Bird, Ours, until
from suite import same

LEARNED, OWNED = "2001:db8:1::/48", "2001:db8:a::/48"
# Seconds within which a router starts that waits for nothing, on a machine that does much else, which are fewer than any wait for a link;
# and from one look at what nobody tells to the next, with those.
SOON, LOOK = 2.5, 75
# What takes the place of ip(8): it fails while there is a file.
FAILING = """#!/bin/sh
if [ -e {file} ]; then echo "no room" >&2; exit 2; fi
exec {ip} "$@"
"""


def a_pair(net, program, links=(), **more):
    """BIRD, and this router on a link to it and on those links."""
    b, o = net.space("b"), net.space("o")
    net.cable(b, o)
    o.link_local("to-b", "fe80::2")
    bird = Bird(b, {"to-o": 1}, [LEARNED])
    return bird, Ours(o, program, {"to-b": {}} | dict(links), [OWNED], **more)


def moment(ours, line):
    """When the companion said that, by its log."""
    found = re.search(rf"^(\S+) ripngd-links: {re.escape(line)}$", ours.space.text("companion"), re.M)
    return datetime.fromisoformat(found[1])


def fill(path):
    """Takes all the room that there is for a file."""
    with open(path, "wb", buffering=0) as file, contextlib.suppress(OSError):
        while file.write(bytes(4096)):
            pass


def a_full_folder(net, program):
    """Where no router can start, that is said once, with the file and why; what an earlier one left goes, nothing is left half written,
    and a router starts once there is room."""
    b, o = net.space("b"), net.space("o")
    net.cable(b, o)
    Bird(b, {"to-o": 1}, [LEARNED])
    run = o.folder / "run"
    run.mkdir()
    subprocess.run(["mount", "-t", "tmpfs", "-o", "size=64k,mode=711", "none", run], check=True)
    try:
        ours = Ours(o, program, {"to-b": {}}, [OWNED])
        until(REGULAR, "it has learned", ours.kernel)
        until(REGULAR, "its file is there", (run / "status.json").exists)
        (run / "router.toml").unlink()
        fill(run / "fill")
        kill_router(ours)
        trouble = f"the router is not started, which is tried again: {run}/router.toml: No space left on device\n"
        until(REGULAR, "it is said", lambda: ours.said(trouble))
        until(2 * STAY, "its routes go", lambda: not ours.kernel())
        until(20, "its file is not written either", lambda: ours.said(f"cannot write {run}/status.json, which is tried again: No space left"))
        same("how often it is said", ours.said(trouble), 1)
        names = {"companion", "control", "fill", "router.toml", "status.json"}
        same("what is there", {path.name for path in run.iterdir()}, names)
        (run / "fill").unlink()
        until(REGULAR, "it has learned", ours.kernel)
        same("its starts", ours.status()["router"]["starts"], 2)
    finally:
        subprocess.run(["umount", "-l", run], check=True)


def an_absent_device(net, program):
    """A device that is not there is named at once, keeps no other link waiting, and is used as soon as it is there."""
    _, ours = a_pair(net, program, {"to-c": {}})
    until(REGULAR, "the router is up", lambda: ours.said("running, "))
    named, started = (moment(ours, line) for line in ("to-c is not there", "the router starts on to-b"))
    same("whether the other has waited", (started - named).total_seconds() > SOON, False)
    same("what is said", ours.said("ripngd-links: to-c is not there\n"), 1)
    c = net.space("c")
    net.cable(c, ours.space)
    Bird(c, {"to-o": 1}, ["2001:db8:3::/48"])
    until(REGULAR, "both are used", lambda: set(ours.kernel()) == {LEARNED, "2001:db8:3::/48"})
    same("whether it is said", ours.said("ripngd-links: to-c is up\n"), 1)


def an_address_of_another(net, program):
    """An address that another on the link has is no address, and the link says why it is not up."""
    o, s = net.space("o"), net.space("s")
    net.cable(o, s)
    s.link_local("to-o", "fe80::5")
    o.do("sysctl", "-qw", "net.ipv6.conf.to-s.addr_gen_mode=1")
    o.ip("-6", "address", "flush", "dev", "to-s", "scope", "link")
    o.ip("address", "add", "fe80::5/64", "dev", "to-s")
    until(REGULAR, "it is refused", lambda: "dadfailed" in o.ip("address", "show", "dev", "to-s"))
    ours = Ours(o, program, {"to-s": {}}, [OWNED])
    why = "to-s has no link-local address, since another has fe80::5 there"
    until(REGULAR, "it is said", lambda: ours.said(f"ripngd-links: {why}\n"))
    same("the status", ours.link("to-s")["state"], why.removeprefix("to-s "))


def no_forwarding(net, program):
    """A system that forwards nothing is named at the start and in `status`, and no longer once it does."""
    b, o = net.space("b"), net.space("o")
    net.cable(b, o)
    o.do("sysctl", "-qw", "net.ipv6.conf.all.forwarding=0")
    ours = Ours(o, program, {"to-b": {}}, [OWNED])
    until(REGULAR, "it is said", lambda: ours.said("ripngd-links: the system forwards no packets; write `sysctl net.ipv6.conf.all."))
    same("the status", ours.status()["kernel"]["forwarding"], False)
    o.do("sysctl", "-qw", "net.ipv6.conf.all.forwarding=1")
    until(LOOK, "it is not said any longer", lambda: ours.status()["kernel"]["forwarding"])


def a_table_without_routes(net, program):
    """A table of the kernel that has had no route yet is empty, and that is no fault of `ip`."""
    _, ours = a_pair(net, program, more=["table = 100"])
    until(REGULAR, "it has learned", lambda: ours.table() == {LEARNED: 2, OWNED: 1})
    until(5, "it is there", lambda: f"{LEARNED} via " in ours.space.ip("-6", "route", "show", "table", "100"))
    same("how often routes are not known", ours.said("are not known"), 0)
    same("its status", ours.end(signal.SIGTERM), 0)
    same("what is left", "via" in ours.space.ip("-6", "route", "show", "table", "all", "proto", "152"), False)


def an_ip_that_fails(net, program):
    """ip(8) fails for a while, at the start and later: what it was to do is done when it no longer does."""
    broken, folder = net.folder / "broken", net.folder / "bin"
    folder.mkdir()
    (folder / "ip").write_text(FAILING.format(file=broken, ip="/sbin/ip" if os.path.exists("/sbin/ip") else "/bin/ip"))
    (folder / "ip").chmod(0o755)
    broken.touch()
    bird, ours = a_pair(net, program, by=["env", f"PATH={folder}:{os.environ['PATH']}"])
    until(REGULAR, "it is said", lambda: ours.said("the devices are not known"))
    broken.unlink()
    until(TRIGGERED, "it has learned", lambda: set(ours.kernel()) == {LEARNED})
    until(LOOK, "what is owned leads nowhere", lambda: ours.nowhere() == {OWNED})
    broken.touch()
    bird.own(["2001:db8:5::/48"])
    until(REGULAR, "the router has learned", lambda: ours.table() == {"2001:db8:5::/48": 2, OWNED: 1})
    until(5, "it is known that the kernel lacks it", lambda: ours.status()["kernel"]["refused"] == ["2001:db8:5::/48"])
    broken.unlink()
    until(LOOK, "the kernel's routes are right", lambda: set(ours.kernel()) == {"2001:db8:5::/48"})
    same("whether it runs", ours.process.poll(), None)


def a_log_that_fails(net, program):
    """Standard error cannot be written, from the start or once its reader has gone: lines are lost, and counted."""
    _, ours = a_pair(net, program, by=["sh", "-c", 'exec "$0" "$@" 2> /dev/full'])
    until(REGULAR, "it has learned", lambda: set(ours.kernel()) == {LEARNED})
    same("whether losses are counted", ours.status()["log_lines_lost"] > 0, True)
    same("its status", ours.end(signal.SIGTERM), 0)
    same("its routes", ours.kernel(), {})
    ours.by = ["bash", "-c", 'exec "$0" "$@" 2> >(sleep 1)']
    ours.start()
    until(REGULAR, "it has learned", lambda: set(ours.kernel()) == {LEARNED})
    time.sleep(2)
    ours.space.ip("link", "set", "to-b", "down")
    until(REGULAR, "its route is gone", lambda: not ours.kernel())
    same("whether it runs", ours.process.poll(), None)
    until(5, "that line is counted", lambda: ours.status()["log_lines_lost"] > 0)
    same("its status", ours.end(signal.SIGTERM), 0)


def nothing_loops(net, program):
    """A packet to a part of what is owned that nobody has goes nowhere, and not to a neighbor with a default route; the way to what is
    there stays, and at the end nothing is left."""
    bird, ours = a_pair(net, program)
    bird.own(["::/0"])
    until(REGULAR, "it has learned", lambda: "default" in ours.space.ip("-6", "route", "show", "proto", "152"))
    until(5, "what is owned leads nowhere", lambda: ours.nowhere() == {OWNED})
    ours.space.ip("address", "add", "2001:db8:a:1::1/64", "dev", "to-b", "nodad")

    def way(address):
        found = subprocess.run(["ip", "-n", ours.space.full, "-6", "route", "get", address], capture_output=True, text=True, check=False)
        told = re.search(r"No route to host| dev (\S+)", found.stdout + found.stderr)
        return told and (told[1] or told[0])

    same("the way to what nobody has", way("2001:db8:a:dead::1"), "No route to host")
    same("the way to what is there", way("2001:db8:a:1::2"), "to-b")
    same("the way to all else", way("2600::1"), "to-b")
    ours.end(signal.SIGKILL)
    same("what a killed one leaves", ours.nowhere(), {OWNED})
    ours.space.start("monitor", "ip", "-6", "monitor", "route")
    ours.start()
    until(REGULAR, "it has learned", lambda: ours.said("running, ") == 2)
    same("what it owns then", ours.nowhere(), {OWNED})
    same("whether that has left meanwhile", f"Deleted unreachable {OWNED} " in ours.space.text("monitor"), False)
    same("its status", ours.end(signal.SIGTERM), 0)
    same("what is left", ours.space.routes("proto", "152"), {})


def a_hung_router(net, program):
    """`status` says of a router that does not answer that it does not."""
    _, ours = a_pair(net, program)
    until(REGULAR, "it has learned", ours.kernel)
    [router] = routers_of(ours)
    os.kill(router, signal.SIGSTOP)
    words = [sys.executable, COMPANION, "status", ours.run]
    told = subprocess.run(words, capture_output=True, text=True, check=True).stdout
    os.kill(router, signal.SIGCONT)
    same("the first line", told.splitlines()[0], f"router is up, and does not answer, control socket {ours.run}/control")


LINK = '[[link]]\ndevice = "eth7"\n'
# Tables, each with the status and the last line of `check`.
CHECKED = {
    LINK + '[[link]]\ndevice = "lo"\nstub = true\n[[prefix]]\nprefix = "2001:db8::/32"\n': (0, "ok links 1 stubs 1 prefixes 1"),
    LINK + 'queries = "all"\nzone = 3\n': (0, "ok links 1 stubs 0 prefixes 0"),
    LINK + 'queries = "none"\n': (1, "link[0].queries must be link or all"),
    LINK + "zone = 256\n": (1, "link[0].zone must be from 1 to 255"),
    LINK + "cots = 1\n": (1, "unknown key link[0].cots"),
    LINK + 'reject = ["::"]\n': (1, "link[0].reject[0]: `::` is not an IPv6 prefix with its length"),
}


def a_checked_table(net, program):
    """Who has no privilege may ask whether a table would be taken; what this system lacks is a warning."""
    space, table = net.space("o"), net.folder / "table.toml"
    space.do("sysctl", "-qw", "net.ipv6.conf.all.forwarding=0")
    for text, (status, line) in CHECKED.items():
        table.write_text(f'program = "{program}"\nuser = "nobody-there"\n{text}')
        words = ["ip", "netns", "exec", space.full, *AS_BY_A_UNIT[:4], "--bounding-set=-all", sys.executable, COMPANION]
        done = subprocess.run([*words, "check", "--unproved", table], capture_output=True, text=True, check=False)
        told = done.stdout.strip() if status == 0 else done.stderr.removeprefix(f"ripngd-links: {table}: ").strip()
        same(f"status and line of {text}", (done.returncode, told), (status, line))
        for warning in ("eth7 is not there", "the system forwards no packets", "there is no account `nobody-there`") * (status == 0):
            same(f"whether `{warning}` is said", f"ripngd-links: warning: {warning}" in done.stderr, True)
