#!/usr/bin/env python3
"""Cases of the companion's parts, which need neither root nor a router: `parts.py` makes a name space of its own, of a user and of the
network, and prints a line for each case as tests/links/links.sh does."""

import asyncio
import ctypes
import json
import os
import pathlib
import socket
import struct
import subprocess
import sys
import tempfile
import time

ROOT = pathlib.Path(__file__).resolve().parent.parent.parent
sys.path.insert(0, str(ROOT / "companion"))
sys.dont_write_bytecode = True
sys.path.append(str(pathlib.Path(__file__).resolve().parents[1] / "support"))

import kernel  # noqa: E402
import pure  # noqa: E402
import sockets  # noqa: E402
import system  # noqa: E402
import watch  # noqa: E402
from spaces import until  # noqa: E402
from suite import play, same  # noqa: E402
from stranger import REQUEST, RESPONSE, checksum  # noqa: E402

# Of the kernel's headers.
DETACH_FILTER, NEW_USER, NEW_NETWORK = 27, 0x10000000, 0x40000000
FAR_AWAY, NEAR, OURS = "2001:db8:5::5", "fe80::5", "fe80::1"
# Datagrams by source, destination and hop limit, and which sockets of a link have them: with `queries` of the link, and of all.
SORTED = {
    (NEAR, "ff02::9", 255): ("group_descriptor", "group_descriptor"),
    (NEAR, "ff02::9", 254): ("far_descriptor", "far_descriptor"),
    (FAR_AWAY, "ff02::9", 255): ("group_descriptor", "group_descriptor"),
    (NEAR, OURS, 255): ("descriptor", "descriptor"),
    (NEAR, OURS, 64): ("descriptor", "descriptor"),
    ("febf:ffff::5", OURS, 64): ("descriptor", "descriptor"),
    ("fec0::5", OURS, 64): (None, "descriptor"),
    (FAR_AWAY, OURS, 64): (None, "descriptor"),
    (NEAR, "ff02::1", 255): (None, None),
}


def frame(source, to, hops, hardware, data=RESPONSE):
    """A datagram as it goes over a cable to a device."""
    source, to = (socket.inet_pton(socket.AF_INET6, address) for address in (source, to))
    head = struct.pack("!HHH", sockets.PORT, sockets.PORT, 8 + len(data))
    whole = struct.pack("!IxxxB", 8 + len(data), socket.IPPROTO_UDP) + head + b"\0\0" + data
    udp = head + struct.pack("!H", checksum(source + to + whole)) + data
    target = hardware if to[0] == 0xFE else b"\x33\x33" + to[-4:]
    ethernet = target + b"\x02\0\0\0\0\1" + b"\x86\xdd"
    return ethernet + struct.pack("!IHBB", 6 << 28, len(udp), socket.IPPROTO_UDP, hops) + source + to + udp


def be_apart():
    """From here on this process is root of a name space of users, in a name space of the network, and of nothing else."""
    maps = {"setgroups": "deny", "uid_map": f"0 {os.geteuid()} 1", "gid_map": f"0 {os.getegid()} 1"}
    if ctypes.CDLL(None, use_errno=True).unshare(NEW_USER | NEW_NETWORK) != 0:
        raise OSError(ctypes.get_errno(), "there is no name space of users")
    for name, text in maps.items():
        pathlib.Path(f"/proc/self/{name}").write_text(text)


def ip(*words):
    subprocess.run(["ip", *words], check=True)


def told(*words):
    return subprocess.run(["ip", *words], check=True, capture_output=True, text=True).stdout


def a_cable():
    """Two ends of a cable, of which one has our address; answers its hardware address, and a socket that sends from the other."""
    ip("link", "add", "here", "type", "veth", "peer", "name", "there")
    for device in ("here", "there"):
        pathlib.Path(f"/proc/sys/net/ipv6/conf/{device}/addr_gen_mode").write_text("1")
        ip("link", "set", device, "up")
    ip("address", "add", f"{OURS}/64", "dev", "here", "nodad")
    until(10, "the address is the kernel's", lambda: f"{OURS} dev here" in told("-6", "route", "show", "table", "local"))
    far = socket.socket(socket.AF_PACKET, socket.SOCK_RAW)
    far.bind(("there", 0))
    return bytes.fromhex(json.loads(told("-j", "link", "show", "here"))[0]["address"].replace(":", "")), far


def heard(link, wanted):
    """Which sockets of a link have something, and how many, once as much is there as is wanted."""
    found, ends = {}, time.monotonic() + 5
    while True:
        is_last = sum(found.values()) >= wanted or time.monotonic() > ends
        time.sleep(0.05)
        for key, sock in link.sockets.items():
            try:
                while sock.recv(99):
                    found[key] = found.get(key, 0) + 1
            except BlockingIOError:
                pass
        if is_last:
            return found


def what_sockets_give():
    """Each datagram is in the socket that says what it is, and in no other."""
    hardware, far = a_cable()
    for number, queries in enumerate(("link", "all")):
        link = sockets.Sockets("here", queries)
        link.follow(socket.if_nametoindex("here"))
        for (source, to, hops), keys in SORTED.items():
            far.send(frame(source, to, hops, hardware))
            key = keys[number]
            found = heard(link, 1 if key else 0)
            same(f"who has {source} to {to} with {hops}, queries of {queries}", found, {key: 1} if key else {})
        for sock in [*link.sockets.values(), link.early]:
            sock.close()
    ip("link", "del", "here")


def a_filter_that_stays():
    """Nobody takes the filter of a socket away, or puts another in its place."""
    for key, sock in sockets.Sockets("here", "link").sockets.items():
        for what, change in (
            ("away", lambda: sock.setsockopt(socket.SOL_SOCKET, DETACH_FILTER, 0)),
            ("another", lambda: sockets.attach(sock, sockets.judging(0, 0, sockets.ALL, sockets.ALL))),
        ):
            try:
                change()
            except PermissionError:
                continue
            raise ValueError(f"the filter of {key}: {what}")


def a_device_made_anew():
    """Sockets are of a device that is made anew, hear the group there, and what was drained is gone."""
    link = sockets.Sockets("here", "link")
    for _ in range(2):
        hardware, far = a_cable()
        link.follow(socket.if_nametoindex("here"))
        for to in ("ff02::9", OURS):
            far.send(frame(NEAR, to, 255, hardware))
        same("who hears", heard(link, 2), {"descriptor": 1, "group_descriptor": 1})
        far.send(frame(NEAR, OURS, 255, hardware))
        time.sleep(0.05)
        link.drain()
        same("what is left", heard(link, 0), {})
        ip("link", "del", "here")


def a_port_that_is_taken():
    """The port of another program is not shared, though sockets of one companion share it."""
    first = sockets.Sockets("here", "link")
    try:
        sockets.claim()
    except sockets.Fault as fault:
        same("the fault", (str(fault), fault.status), ("cannot bind port 521: Address already in use", 3))
    else:
        raise ValueError("the port is shared")
    for sock in [*first.sockets.values(), first.early]:
        sock.close()
    sockets.claim()


def what_is_repeated():
    """A Request that came to the group is given once more, as of its neighbor on its link; a Response never, and no old Request."""
    hardware, far = a_cable()
    link = sockets.Sockets("here", "link")
    link.follow(socket.if_nametoindex("here"))
    for source, data in ((NEAR, REQUEST), ("fe80::6", RESPONSE)):
        far.send(frame(source, "ff02::9", 255, hardware, data))
    same("who hears", heard(link, 2), {"group_descriptor": 2})
    for fresh, wanted in ((sockets.FRESH, [(REQUEST, NEAR, sockets.PORT, link.index)]), (0, [])):
        sockets.FRESH = fresh
        link.repeat(sockets.IPv6Address(OURS))
        time.sleep(0.1)
        found = [(data, who[0].split("%")[0], who[1], who[3]) for data, _, _, who in sockets.waiting(link.sockets["descriptor"])]
        same("what is repeated", found, wanted)
    same("what else is", heard(link, 0), {})
    for sock in [*link.sockets.values(), link.early]:
        sock.close()
    ip("link", "del", "here")


def devices_as_ip_says():
    """An address that is tried, or that another has, does not count; the first that counts is the router's."""
    known = {"ifindex": 3, "mtu": 1500, "flags": ["UP", "LOWER_UP"]}
    near = {"family": "inet6", "scope": "link", "prefixlen": 64}
    wide = {"family": "inet6", "scope": "global", "local": "2001:db8::1", "prefixlen": 64}
    for listed, state in (
        ([near | {"local": "fe80::2"}, near | {"local": "fe80::1"}, wide], "is up"),
        ([near | {"local": "fe80::2", "tentative": True}], "has no link-local address"),
        ([near | {"local": "fe80::2", "tentative": True, "dadfailed": True}], "has no link-local address, since another has fe80::2 there"),
        ([wide], "has no link-local address"),
    ):
        found = system.device(known | {"addr_info": listed})
        same(f"the state with {listed}", system.state_of(found), state)
        same("the address", str(found.link_local), "fe80::2" if state == "is up" else "None")
        same("whether it is tried", found.is_trying, "tentative" in listed[0] and "dadfailed" not in listed[0])
        same("its prefixes", {str(one) for one in found.prefixes}, {"2001:db8::/64"} if wide in listed else set())
    port = system.device(known | {"addr_info": [near | {"local": "fe80::2"}], "master": "br0", "linkinfo": {"info_slave_kind": "bridge"}})
    same("the state of a port", system.state_of(port), "is a port of the bridge br0; name that as the link")


def what_the_kernel_did_not_tell():
    """More happens than there is room for: that is news, and all is to be looked at."""
    here = watch.Watch(152)
    here.sock.setsockopt(socket.SOL_SOCKET, socket.SO_RCVBUF, 4096)
    for verb in ("add", "del"):
        lines = "".join(f"address {verb} 192.0.2.{number}/32 dev lo\n" for number in range(1, 250))
        subprocess.run(["ip", "-batch", "-"], input=lines, text=True, check=True)
    ip("link", "add", "here", "type", "veth", "peer", "name", "there")
    ip("link", "del", "here")
    news = here.read()
    same("what is told", (news.is_moved, news.is_lost), (True, True))
    ip("address", "add", "192.0.2.1/32", "dev", "lo")
    news = here.read()
    same("of what has room", (news.is_lost, here.read().is_moved), (False, False))
    ip("address", "del", "192.0.2.1/32", "dev", "lo")


# What takes the place of ip(8): its first answers are of a table that changes while it is read.
CHANGING = """#!/bin/sh
echo >> {file}
[ $(wc -l < {file}) -gt {times} ] || echo "Dump was interrupted and may be inconsistent." >&2
echo '[{{"dst": "default"}}]'
"""


def a_table_that_changes():
    """What `ip` says of a table that changes while it is read is not taken; it is asked again, and not for ever, and its words are not
    said."""
    said, before, path = [], system.say, os.environ["PATH"]
    system.say = said.append
    with tempfile.TemporaryDirectory() as folder:
        os.environ["PATH"] = f"{folder}:{path}"
        for times, wanted, lines in ((2, [{"dst": "default"}], 0), (9, None, 1)):
            (pathlib.Path(folder) / "ip").write_text(CHANGING.format(file=f"{folder}/asked-{times}", times=times))
            (pathlib.Path(folder) / "ip").chmod(0o755)
            same(f"the answer after {times}", system.told("routes", "route"), wanted)
            same("how much is said", len(said), lines)
    os.environ["PATH"], system.say = path, before
    same("whose words are said", said, ["routes are not known, which is tried again: `ip -j route` is interrupted by changes"])
    system.unknown.clear()


def routes_that_are_mended():
    """What somebody replaced, took away or left is as the router has it; what an earlier router left is not added again."""
    asyncio.run(mended())


async def mended():
    table = kernel.Kernel(254, 152, 2048, True)
    done, hop = [], "via fe80::1 dev a"

    async def batch(lines):
        done.extend(lines)
        return []

    table.batch = batch
    table.there = lambda: [
        ("2001:db8:1::/48", {"gateway": "fe80::1", "dev": "a", "metric": 2048}),
        ("2001:db8:2::/48", {"gateway": "fe80::9", "dev": "a", "metric": 2048}),
        ("2001:db8:9::/48", {"gateway": "fe80::9", "dev": "a", "metric": 2048}),
        ("2001:db8:a::/48", {"type": "unreachable", "dev": "lo", "metric": kernel.LAST}),
    ]
    table.owned = ["2001:db8:a::/48", "2001:db8:b::/48"]
    table.held = dict.fromkeys([f"2001:db8:{number}::/48" for number in (1, 2, 3, 4)], hop)
    table.stale = {"2001:db8:4::/48"}
    table.mend()
    await asyncio.sleep(0.1)
    own = "metric 2048 table 254 proto 152"
    same("what is held", table.held, dict.fromkeys([f"2001:db8:{number}::/48" for number in (1, 2, 3)], hop))
    wanted = {f"route del 2001:db8:{number}::/48 via fe80::9 dev a {own}" for number in (2, 9)}
    wanted |= {f"route add 2001:db8:{number}::/48 {hop} {own}" for number in (2, 3)}
    same("what is done", set(done), wanted | {f"route add unreachable 2001:db8:b::/48 metric {kernel.LAST} table 254 proto 152"})
    of_one = [line.split()[1] for line in done if "2001:db8:2::" in line]
    same("in which order", of_one, ["del", "add"])


CASES = [what_sockets_give, a_device_made_anew, a_filter_that_stays, a_port_that_is_taken, what_is_repeated]
CASES += [devices_as_ip_says, what_the_kernel_did_not_tell, a_table_that_changes, routes_that_are_mended, *pure.CASES]


def main():
    be_apart()
    ip("link", "set", "lo", "up")
    sys.exit(play([(case.__name__, lambda folder, case=case: case()) for case in CASES], 1, names_passed=True))


if __name__ == "__main__":
    main()
