#!/usr/bin/env python3
"""A router with the sockets of real links, which it inherits: what each of them gives is judged by the rules of RFC 2080, which sockets
are refused, and how it sends there.

    tests/daemon/inherited.py PROGRAM [NAME..]

Each case has a name space of its own with the router, and another one with its neighbors, on links of virtual devices. No privilege is
needed where a user may have name spaces (`unshare -rn`). The sockets are those of the companion (companion/sockets.py). A line for each
case that fails, and last how many passed."""

import functools
import os
import pathlib
import re
import shutil
import socket
import subprocess
import sys
import time

sys.dont_write_bytecode = True
sys.path.append(str(pathlib.Path(__file__).resolve().parents[1] / "support"))
from cables import GATE, GROUP, HOST, PORT, cables
from daemons import CASES, listed, played, prefix, table
from datagrams import REQUEST, entry, response
from suite import Failed, named, play, same, until

LEARNED = "2001:db8:1::/48"
NEWS = response(entry(LEARNED, 1))


def begun(case, text, name="router"):
    return case.listening(name, text, "-d", "-R", f"{name}.log")


def said(router):
    """What was said of datagrams, without their moments."""
    return [line for line in re.sub(r"(?m)^\d+ ", "", router.said()).splitlines() if line.startswith("iface")]


def routes(router):
    return [line.split()[0] for line in router.ctl("routes").out.splitlines()]


# Of a Response: whose it is, by which rule it is refused, and whether it is sent to the group.
JUDGED = [
    (dict(port=4000), "refused 7 NotRipngPort"),
    (dict(source=HOST), "refused 8 NotLinkLocal"),
    (dict(source=HOST, to=GATE), "refused 8 NotLinkLocal"),
    (dict(source="fe80::1"), "refused 9 OwnAddress"),
    (dict(hop_limit=254), "refused 10 HopLimit"),
    (dict(hop_limit=1), "refused 10 HopLimit"),
]


@listed
def each_rule_judges_what_the_system_says_of_a_datagram(case):
    with cables(case, more=["fe80::1"]) as [cable]:
        router = begun(case, cable.table())
        wanted = []
        for how, why in JUDGED:
            cable.send(NEWS, **how)
            wanted.append(f"iface 0 from {how.get('source', 'fe80::5')} port {how.get('port', PORT)} {why}")
            until(wanted[-1], lambda: len(said(router)) == len(wanted))
        same("what was refused", said(router), wanted)
        same("the routes", routes(router), [])
        cable.send(NEWS)
        router.logs(f"add {LEARNED} metric 2 via fe80::5 iface 0")


@listed
def to_the_router_alone_any_hop_limit_will_do(case):
    with cables(case) as [cable]:
        router = begun(case, cable.table())
        cable.send(NEWS, hop_limit=64, to="fe80::1")
        router.logs(f"add {LEARNED} metric 2 via fe80::5 iface 0")
        same("what was refused", said(router), [])


@listed
def whoever_asks_is_answered_from_the_address_that_was_asked(case):
    with cables(case) as [cable]:
        begun(case, cable.table() + prefix("2001:db8::/32"))
        same("who answered a neighbor", cable.send(REQUEST, to="fe80::1"), ("fe80::1", PORT))
        same("who answered a host", cable.send(REQUEST, source=HOST, port=4000, hop_limit=64, to=GATE), (GATE, PORT))


@listed
def without_a_far_socket_what_has_another_hop_limit_is_not_seen(case):
    with cables(case) as [cable]:
        keys = cable.sockets.keys()
        del keys["far_descriptor"]
        router = begun(case, table("interface", address="fe80::1", cost=1, **keys))
        cable.send(NEWS, hop_limit=254)
        cable.send(NEWS, port=4000)
        until("one datagram", lambda: len(said(router)) == 1)
        same("what was refused", said(router), ["iface 0 from fe80::5 port 4000 refused 7 NotRipngPort"])


@listed
def a_neighbor_has_one_address_on_each_of_many_links(case):
    """Which is also the router's own on each of its links but one."""
    with cables(case, 2, more=["fe80::2"]) as [one, other]:
        text = one.table(zone=1) + table("interface", address="fe80::2", cost=1, zone=2, **other.sockets.keys())
        router = begun(case, text)
        one.send(NEWS, source="fe80::2")
        router.logs(f"add {LEARNED} metric 2 via fe80::2 iface 0")
        other.send(NEWS, source="fe80::2")
        until("one refused", lambda: said(router) == ["iface 1 from fe80::2 port 521 refused 9 OwnAddress"])


@listed
def a_neighbor_is_counted_under_its_own_address(case):
    with cables(case, more=["fe80::6"]) as [cable]:
        router = begun(case, cable.table())
        cable.send(NEWS)
        cable.send(NEWS, source="fe80::6", hop_limit=9)
        lines = lambda: re.sub(r" last \d+", "", router.ctl("neighbors").out)
        until("both", lambda: lines() == "iface 0 from fe80::5 arrivals 1 responses 1 entries 1\n"
                                         "iface 0 from fe80::6 arrivals 1 responses 0 entries 0\nrefused 10 HopLimit 1\n")


@listed
def exchanged_sockets_of_the_group_refuse_every_neighbor(case):
    with cables(case) as [cable]:
        keys = cable.sockets.keys()
        keys["group_descriptor"], keys["far_descriptor"] = keys["far_descriptor"], keys["group_descriptor"]
        router = begun(case, table("interface", address="fe80::1", cost=1, **keys))
        cable.send(NEWS)
        until("a refusal", lambda: said(router) == ["iface 0 from fe80::5 port 521 refused 10 HopLimit"])


def fails(case, text, *words):
    """A run that has no sockets, and says so."""
    case.file("failing.toml", text)
    done = case.run("run", "--turns", "1", *words, "failing.toml")
    number = re.search(r"(?m)^descriptor = (\d+)$", text)[1]
    same("how it ended", (done.status, done.out, done.err),
         (3, "", f"ripngd: no sockets of port {PORT} at descriptor {number} and those with it\n"))


@listed
def numbers_that_are_no_such_sockets_are_refused_by_name(case):
    with cables(case) as [cable], socket.socket(socket.AF_INET6, socket.SOCK_DGRAM) as unbound, socket.socket(socket.AF_UNIX) as local:
        alone, group, far = cable.descriptors()
        case.descriptors += [unbound.fileno(), local.fileno()]
        for wrong in (dict(descriptor=900), dict(group_descriptor=900), dict(far_descriptor=900), dict(far_descriptor=65_535),
                      dict(descriptor=group, group_descriptor=alone), dict(descriptor=unbound.fileno()),
                      dict(far_descriptor=unbound.fileno()), dict(group_descriptor=local.fileno())):
            fails(case, cable.table(**wrong))
        begun(case, cable.table())


@listed
def a_descriptor_that_is_the_log_is_refused_and_the_log_stays_open(case):
    """It is the first that the program opens. What it had is not lost."""
    with cables(case) as [cable]:
        case.file("log", "add ::/0 metric 1 direct\n")
        log = os.open(os.path.join(case.folder, "log"), os.O_RDWR)
        case.descriptors.append(log)
        for wrong in (dict(descriptor=log), dict(group_descriptor=log), dict(descriptor=3)):
            fails(case, cable.table(**wrong), "--append", "-R", "log")
        same("the log", case.read("log"), "add ::/0 metric 1 direct\n")


@listed
def sockets_outlive_a_router_that_has_them(case):
    """They are the helper's: the next router inherits the same."""
    with cables(case) as [cable]:
        for name in ("first", "second"):
            router = begun(case, cable.table(), name)
            cable.send(NEWS)
            router.logs(f"add {LEARNED} metric 2 via fe80::5 iface 0")
            router.ctl("stop")
            same("how it ended", router.finish(), 0)


def owned(count):
    return "".join(prefix(f"2001:db8:0:{number:x}::/64") for number in range(count))


@listed
def one_datagram_goes_in_3_ms(case):
    """An update of 1,000 routes takes 17 datagrams of a link whose MTU is 1,280, so 16 pauses of 2 to 3 ms. The first may be seen late."""
    with cables(case) as [cable]:
        with cable.group() as heard:
            begun(case, cable.table(mtu=1280) + owned(1000))
            moments, entries = [], 0
            while entries < 1000:
                bytes = heard.recv(65_536)
                moments.append(time.monotonic())
                entries += (len(bytes) - 4) // 20 if bytes[0] == 2 else 0
        lasted = 1000 * (moments[-1] - moments[-17])
        same(f"whether 17 datagrams took from 20 ms on, {lasted:.1f}", 20 <= lasted, True)


@listed
def a_link_that_is_flooded_takes_nothing_from_another(case):
    with cables(case, 2) as [one, other]:
        text = one.table(zone=1) + other.table(zone=2)
        router = begun(case, text)
        with one.socket(port=4001) as flood:
            for _ in range(20_000):
                flood.sendto(NEWS, (str(GROUP), PORT, 0, one.index))
        other.send(NEWS)
        router.logs(f"add {LEARNED} metric 2 via fe80::5 iface 1")


def hears(opened, route):
    """Waits until an update that a socket hears has that route: for five seconds at most."""
    end = time.monotonic() + 5
    opened.settimeout(5)
    while entry(route, 1) not in opened.recv(65_536):
        same("whether it is in time", time.monotonic() < end, True)


@listed
def answers_that_the_system_keeps_keep_no_update(case):
    """Who asked cannot be found for three seconds, and its answer fills the socket. What goes to the group goes by another one."""
    with cables(case) as [cable]:
        cable.sockets.sockets["descriptor"].setsockopt(socket.SOL_SOCKET, socket.SO_SNDBUF, 1)
        with cable.group() as heard:
            router = begun(case, cable.table() + owned(300))
            cable.ask("fe80::bad")
            until("an answer", lambda: "arrivals 1 " in router.ctl("counts").out)
            router.ctl("gain", LEARNED, "0")
            hears(heard, LEARNED)


@listed
def who_asks_without_end_keeps_no_update(case):
    """200 Requests a second come from addresses that nobody has, for more than the five seconds that an update may be put off (RFC 2080,
    section 2.5.1). The answer to each takes 17 datagrams, so 0.05 seconds."""
    with cables(case, 2) as [one, other]:
        with one.group() as near, other.group() as far:
            router = begun(case, one.table(zone=1) + other.table(zone=2) + owned(1000))
            for number in range(1_200):
                one.ask(f"fe80::bad:{number:x}")
                time.sleep(0.005)
            router.ctl("gain", LEARNED, "0")
            hears(near, LEARNED)
            hears(far, LEARNED)
            lost = int(re.search(r"arrivals (\d+)$", router.ctl("counts").out, re.M)[1])
            same(f"whether {lost} of 1,200 Requests were lost", 300 < lost < 1_200, True)


# Of the lines of neighbors.

@listed
def a_line_passes_from_a_sender_that_is_silent_to_a_neighbor(case):
    """Of 100 made-up senders and then a neighbor, each with a Response, the neighbor has a line. Hosts that only ask do not take it."""
    made_up, hosts = ([f"fe80::{kind}:{number:x}" for number in range(100)] for kind in (1, 2))
    with cables(case, 1, (*made_up, *hosts)) as (cable,):
        router = begun(case, cable.table())
        for source in made_up:
            cable.send(NEWS, source)
        cable.send(NEWS)
        until("heard", lambda: router.ctl("counts").out.startswith("arrivals 101 "))
        for source in hosts:
            cable.send(b"\1\1\0\0", source)
        until("asked", lambda: router.ctl("counts").out.startswith("arrivals 201 "))
        lines = [line.split() for line in router.ctl("neighbors").out.splitlines() if " arrivals " in line]
        same("the last line of a neighbor", lines[-2][:8], "iface 0 from fe80::5 arrivals 1 responses 1".split())
        same("the lines", [line[3] for line in lines[:-1]], [*made_up[-63:], "fe80::5"])
        same("all others", lines[-1][:5], "others arrivals 137 responses 37".split())


def play_within(name, program, folder):
    """A case in name spaces of its own."""
    words = ["unshare", "-rn", sys.executable, os.path.abspath(__file__), program, "--within", name, folder]
    done = subprocess.run(words, capture_output=True, text=True, check=False)
    if done.returncode:
        raise Failed(done.stdout + done.stderr)


def within(program, name, folder):
    """The case itself, there."""
    [case] = [case for case in CASES if case.__name__ == name]
    try:
        played(case, program)(folder)
    except Failed as failed:
        print(failed, end="")
        return 1
    return 0


def main():
    if len(sys.argv) < 2:
        sys.exit(f"usage: {sys.argv[0]} PROGRAM [NAME..]")
    program, names = os.path.realpath(sys.argv[1]), sys.argv[2:]
    if names[:1] == ["--within"]:
        return within(program, *names[1:])
    if not shutil.which("ip") or subprocess.run(["unshare", "-rn", "ip", "link", "add", "here", "type", "veth"], capture_output=True,
                                                check=False).returncode:
        print("skipped: inherited sockets, without name spaces of a user's own")
        print("1 passed, 0 failed")
        return 0
    cases = [(case.__name__, functools.partial(play_within, case.__name__, program)) for case in CASES]
    return play(named(cases, names))


if __name__ == "__main__":
    sys.exit(main())
