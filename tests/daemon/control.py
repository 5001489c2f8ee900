#!/usr/bin/env python3
"""A router that runs is asked and told at its control socket: what it answers, and what comes of it.

    tests/daemon/control.py PROGRAM [NAME..]

A line for each case that fails, and last how many passed."""

import os
import pathlib
import re
import sys

sys.dont_write_bytecode = True
sys.path.append(str(pathlib.Path(__file__).resolve().parents[1] / "support"))
from daemons import interface, listed, main, peer, prefix, Router
from datagrams import entry, feed, request, response, table
from ordered import environment
from suite import same, until
from talking import alone, answers, OWN, OWN_TABLE, plain, refuses

EAST, WEST = "2001:db8:e::/48", "2001:db8:f::/48"


def pair(case):
    """Two neighbors that listen, once each has learned the other's prefix."""
    here, there = case.port(), case.port()
    east = case.listening("east", interface("e", here, peer("f", there)) + prefix(EAST, tag=9), "-R", "east.log")
    west = case.listening("west", interface("f", there, peer("e", here)) + prefix(WEST, tag=9), "-R", "west.log")
    east.logs(f"add {WEST} metric 2 via fe80::f iface 0")
    west.logs(f"add {EAST} metric 2 via fe80::e iface 0")
    return east, west


@listed
def a_router_is_asked(case):
    east, west = pair(case)
    answers(east, "routes", f"{EAST} metric 1 tag 9 own fixed\n{WEST} metric 2 tag 9 via fe80::f iface 0 from fe80::f live T\n")
    answers(east, "table", f"{EAST} metric 1 direct\n{WEST} metric 2 via fe80::f iface 0\n")
    answers(west, "table", f"{EAST} metric 2 via fe80::e iface 0\n{WEST} metric 1 direct\n")
    answers(west, "counts", "arrivals A sends S failed 0\nlost sends 0 steps 0 arrivals 0\nstrangers 0\nasked 0\n")
    live = int(re.search(r" live (\d+)", east.ctl("routes").out)[1])
    same("whether a route lives up to 180 seconds", 100_000 < live <= 180_000, True)


@listed
def a_router_tells_of_its_neighbors(case):
    """One is heard only with a fault; the other tells a metric of 17 beside a good one."""
    far, near = case.neighbor(), case.neighbor()
    ports = case.port(), case.port()
    text = interface(1, ports[0], peer("a", far.port, hop_limit=64)) + interface(2, ports[1], peer("b", near.port))
    router = case.listening("heard", text)
    answers(router, "neighbors")
    first = "iface 0 from fe80::a arrivals 1 responses 0 entries 0\nrefused 10 HopLimit 1\n"
    far.send(ports[0], response(entry(OWN, 1)))
    until("heard", lambda: plain(router.ctl("neighbors").out) == first)
    near.send(ports[1], response(entry(OWN, 17), entry("2001:eb8::/32", 1)))
    second = "iface 1 from fe80::b arrivals 1 responses 1 entries 2 last T\nnoted 22 BadMetric 1\n"
    until("heard", lambda: plain(router.ctl("neighbors").out) == first + second)


@listed
def a_router_says_how_it_is(case):
    """In one answer: its interfaces, its clock, the size of its table, and all that `counts` and `neighbors` say."""
    east, _ = pair(case)
    told = east.ctl("status")
    same("status and standard error", (told.status, told.err), (0, ""))
    first, second, rest = told.out.split("\n", 2)
    counted = r"interface 0 address fe80::e cost 1 mtu 1280 triggered [1-9]\d* queued 0 answers 0 arrivals [1-9]\d* responses [1-9]\d* entries [1-9]\d* last \d+"
    same(f"whether `{first}` is the interface", re.fullmatch(counted, first) is not None, True)
    same("whether it has a clock and two routes", re.fullmatch(r"now [1-9]\d* routes 2", second) is not None, True)
    *counts, asked = east.ctl("counts").out.splitlines(True)
    said = "".join(counts) + east.ctl("neighbors").out + asked
    same("the rest, but for numbers", re.sub(r"\d+", "N", rest), re.sub(r"\d+", "N", said))


@listed
def a_router_counts_triggered_updates_by_link(case):
    """Updates, and not the datagrams of one; no regular one, and no answer. Routes that come while updates are held go out in the next."""
    first, second, ports = case.neighbor(), case.neighbor(), (case.port(), case.port())
    router = case.listening("triggered", interface(1, ports[0], peer(2, first.port)) + interface(3, ports[1], peer(4, second.port)) + prefix(OWN))
    until("its first update, a regular one", lambda: is_update(second.receive()[0]))
    same("triggered updates before a change", triggered(router), [0, 0])
    first.send(ports[0], response(*(entry(f"2001:db8:{number:x}::/48", 1) for number in range(60))))
    until("the first one", lambda: is_update(second.receive()[0]))
    for more in range(1, 4):
        first.send(ports[0], response(*(entry(f"2001:db8:{more:x}{number:02x}::/48", 1) for number in range(60))))
    until("three datagrams of one", lambda: is_update(second.receive()[0]) and is_update(second.receive()[0]) and is_update(second.receive()[0]))
    second.send(ports[1], request(entry("::/0", 16)))
    until("an answer", lambda: is_update(second.receive()[0]))
    same("triggered updates", triggered(router), [2, 2])


def triggered(router):
    """How many triggered updates a router has sent on each link."""
    return [int(found) for found in re.findall(r"^interface .* triggered (\d+) ", router.ctl("status").out, re.M)]


@listed
def what_waits_is_told_by_link(case):
    """At a clock that stands still a link takes 64 datagrams at once, and no more, and a triggered update waits for a second that never
    comes. Two neighbors ask for 10,000 routes: all datagrams of the second answer wait behind those of the first. Then a Request, which
    is no answer. Nothing waits on the other link."""
    first, second, ports = case.neighbor(), case.neighbor(), (case.port(), case.port())
    links = interface(1, ports[0], peer(2, first.port), peer(4, second.port)) + interface(3, ports[1])
    router = case.listening("waits", links, "-R", "waits.log", **environment(case.folder, "waits", clock="still"))
    feed(first, ports[0], table("e", 10_000))
    until("the whole table", lambda: router.log().count(" metric 2 ") == 10_000)
    whole = -(-10_000 // ((1280 - 40 - 8 - 4) // 20))

    def waits():
        return [(int(all_), int(answers_)) for all_, answers_ in re.findall(r"^interface .* queued (\d+) answers (\d+) ", router.ctl("status").out, re.M)]

    first.send(ports[0], request(entry("::/0", 16)))
    answer = until("an answer", lambda: waits()[0][1])
    same(f"whether {answer} of it wait", whole - 64 < answer < whole, True)
    same("on both links", waits(), [(answer, answer), (0, 0)])
    second.send(ports[0], request(entry("::/0", 16)))
    until("another one", lambda: waits() == [(answer + whole, answer + whole), (0, 0)])
    answers(router, "link up 0")
    until("a Request behind both", lambda: waits() == [(answer + whole + 1, answer + whole), (0, 0)])


@listed
def what_is_refused_is_counted_by_link(case):
    """Also of senders that have no line: the last six of 70 on one link. Another link has none of it."""
    ports, senders = (case.port(), case.port()), [case.neighbor() for _ in range(70)]
    peers = [peer(f"1:{number:x}", one.port) for number, one in enumerate(senders)]
    router = case.listening("refused", interface(1, ports[0], *peers) + interface(3, ports[1]))
    for one in senders:
        one.send(ports[0], b"\2\1")
    senders[69].send(ports[0], response(entry(OWN, 17)))
    told = lambda: re.search(r"^interface 0 .* (arrivals .*\n(?:refused|noted) (?:.*\n)*?)interface 1 .* (arrivals .*\n)now ", router.ctl("status").out, re.M)
    until("all of them", lambda: told() and told()[1].startswith("arrivals 71 "))
    same("of the link", plain(told()[1]), "arrivals 71 responses 1 entries 1 last T\nrefused 1 Short 70\nnoted 22 BadMetric 1\n")
    same("of the other", told()[2], "arrivals 0 responses 0 entries 0\n")


@listed
def a_router_is_told(case):
    """What east is told is seen in its log and at west; that its interface costs more, in what it learns of west then."""
    east, west = pair(case)
    answers(east, "gain 2001:DB8:1::/48 7")
    same("the log's last line", east.log().splitlines()[-1], "add 2001:db8:1::/48 metric 1 direct")
    west.logs("add 2001:db8:1::/48 metric 2 via fe80::e iface 0")
    refuses(east, "gain 2001:db8:1::/48 7", "33 AlreadyOwned")
    answers(east, "drop 2001:db8:1::/48")
    west.logs("del 2001:db8:1::/48")
    refuses(east, "drop 2001:db8:1::/48", "35 NotOwned")
    refuses(east, "cost 0 16", "31 BadCost")
    refuses(east, "cost 1 5", "51 NoSuchInterface")
    refuses(east, "cost 0", "52 NoSuchCommand: cost INTERFACE COST")
    refuses(east, "status text", "52 NoSuchCommand: status [json]")
    answers(east, "cost 0 5")
    answers(west, "gain 2001:db8:2::/48 7")
    east.logs("add 2001:db8:2::/48 metric 6 via fe80::f iface 0")


@listed
def a_link_goes_down_and_comes_up(case):
    """What was learned there goes at once; a neighbor that is asked answers at once, too."""
    east, _ = pair(case)
    answers(east, "link down 0")
    east.logs(f"del {WEST}")
    refuses(east, "link up 1", "51 NoSuchInterface")
    answers(east, "link up 0")
    until("west has answered", lambda: east.log().count(f"add {WEST} ") == 2)


@listed
def a_router_meets_and_leaves_a_neighbor(case):
    """East does not know west at first, whose datagrams are those of a stranger; then it does, and then no more."""
    here, there, nobody = case.port(), case.port(), case.port()
    east = case.listening("east", interface("e", here, peer(9, nobody)) + prefix(EAST), "-R", "east.log")
    west = case.listening("west", interface("f", there, peer("e", here)) + prefix(WEST), "-R", "west.log")
    until("strangers", lambda: re.search(r"^strangers [1-9]", east.ctl("counts").out, re.M))
    refuses(east, f"peer 1 fe80::f {there}", "51 NoSuchInterface")
    refuses(east, "peer 0 fe80::f 0", "61 BadPort")
    refuses(east, f"peer 0 fe80::e {there}", "63 OwnAddress")
    refuses(east, f"peer 0 fe80::9 {there}", "64 PeerTwice")
    refuses(east, f"peer 0 fe80::8 {nobody}", "64 PeerTwice")
    refuses(east, "unpeer 0 fe80::f", "66 NoSuchPeer")
    refuses(east, "unpeer 1 fe80::9", "51 NoSuchInterface")
    answers(east, f"peer 0 FE80:0::F {there}")
    refuses(east, f"peer 0 fe80::f {there}", "64 PeerTwice")
    answers(west, "gain 2001:db8:2::/48 7")
    answers(east, "gain 2001:db8:1::/48 7")
    east.logs("add 2001:db8:2::/48 metric 2 via fe80::f iface 0")
    west.logs("add 2001:db8:1::/48 metric 2 via fe80::e iface 0")
    answers(east, "unpeer 0 fe80::f")
    refuses(east, "unpeer 0 fe80::f", "66 NoSuchPeer")
    strangers = int(re.search(r"^strangers (\d+)", east.ctl("counts").out, re.M)[1])
    answers(west, "gain 2001:db8:3::/48 7")
    until("west a stranger again", lambda: int(re.search(r"^strangers (\d+)", east.ctl("counts").out, re.M)[1]) > strangers)
    same("whether east still hears west", "2001:db8:3:" in east.log(), False)


@listed
def an_interface_has_256_peers_at_most(case):
    """Its configuration may give it more; none more is added then."""
    peers = [peer(f"{number:x}", 1_000 + number) for number in range(2, 257)]
    router = case.listening("many", interface(1, case.port(), *peers))
    answers(router, "peer 0 fe80::1:1 1001")
    refuses(router, "peer 0 fe80::1:2 999", "65 PeersFull")
    answers(router, "unpeer 0 fe80::2")
    answers(router, "peer 0 fe80::1:2 999")


@listed
def a_log_beside_a_socket_has_each_change_as_it_is_told(case):
    """In a file, and on standard output."""
    for name, file, log in (("filed", "filed.log", Router.log), ("printed", "-", Router.out)):
        router = alone(case, name, "-R", file)
        for words in ("gain 2001:db8:a::/48 7", "drop 2001:db8:a::/48"):
            answers(router, words)
        same(f"the log in {file}", log(router), f"add {OWN_TABLE}add 2001:db8:a::/48 metric 1 direct\ndel 2001:db8:a::/48\n")


@listed
def a_log_that_has_failed_is_counted_and_the_router_goes_on(case):
    router = alone(case, "full", "-R", "/dev/full")
    answers(router, "gain ::/0 7")
    answers(router, "table", f"::/0 metric 1 direct\n{OWN_TABLE}")
    same("whether it is counted", router.ctl("counts").out.endswith("\nlog failed\nasked 0\n"), True)
    port = case.port()
    answers(router, f"peer 0 fe80::f {port}")
    refuses(router, f"peer 0 fe80::f {port}", "64 PeerTwice")
    answers(router, "unpeer 0 fe80::f")
    refuses(router, "unpeer 0 fe80::f", "66 NoSuchPeer")


@listed
def a_router_is_stopped(case):
    router = alone(case, "alone", "-d")
    answers(router, "stop")
    same("status", router.finish(), 0)
    same("the table", router.out(), OWN_TABLE)
    same("standard error", plain(router.said()), "arrivals A sends S failed 0\n")
    same("whether its socket is still there", os.path.exists(router.path()), False)
    same("an answer where nobody listens", router.ctl("routes"), (3, "", "ripngd: nobody listens at alone.sock\n"))


@listed
def a_router_is_stopped_now(case):
    """It sends nothing more, where a stop sends its last update twice."""
    for words, metrics in (("stop", [16, 16]), ("stop now", [])):
        name = words.replace(" ", "_")
        neighbor, port = case.neighbor(), case.port()
        router = case.listening(name, interface(1, port, peer(2, neighbor.port)) + prefix(OWN, tag=9))
        until("its first update", lambda: is_update(neighbor.receive()[0]))
        neighbor.rest()
        answers(router, words)
        same("status", router.finish(), 0)
        same("the table", router.out(), OWN_TABLE)
        same(f"the metrics that {words} tells", [told[-1] for told in neighbor.rest() if is_update(told)], metrics)


def is_update(told):
    return told[0] == 2


@listed
def a_router_looks_up_an_address(case):
    """The longest match, of a prefix in another one; or none."""
    neighbor, port = case.neighbor(), case.port()
    router = case.listening("looked", interface(1, port, peer(2, neighbor.port)) + prefix(OWN))
    neighbor.send(port, response(entry("2001:db8:1::/48", 3)))
    until("it learns", lambda: "2001:db8:1::/48" in router.ctl("table").out)
    answers(router, "lookup 2001:DB8::1", OWN_TABLE)
    answers(router, "lookup 2001:db8:1::1", "2001:db8:1::/48 metric 4 via fe80::2 iface 0\n")
    answers(router, "lookup 2001:db9::1", "no route\n")
    answers(router, "gain ::/0 7")
    answers(router, "lookup 2001:db9::1", "::/0 metric 1 direct\n")


if __name__ == "__main__":
    main()
