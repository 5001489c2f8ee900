#!/usr/bin/env python3
"""What a router says and counts of what it refuses, and what it writes to its log and when: also where a write fails.

    tests/daemon/watching.py PROGRAM [NAME..]

A line for each case that fails, and last how many passed. The system answers as is ordered (system.c): its clock stands still,
and writes fail in turn."""

import json
import os
import pathlib
import re
import subprocess
import sys
from errno import ENOSPC

sys.dont_write_bytecode = True
sys.path.append(str(pathlib.Path(__file__).resolve().parents[1] / "support"))
sys.path.insert(0, str(pathlib.Path(__file__).resolve().parents[2] / "companion"))
from daemons import interface, listed, main, peer, prefix
from datagrams import MOST, REQUEST, entry, feed, response, table
from ordered import Ordered
from shape import ENTRIES, PACKETS, SHAPE
from suite import SECONDS, Failed, same, until

OWN = "2001:db8::/32"
OWN_TABLE = f"{OWN} metric 1 direct\n"
LOST_LOG = "ripngd: the log has failed, and ends\nripngd: lost sends 0, lost steps 0, log failed\n"
FULL = 65_536
"""How many routes a router has at most."""


# What is said and counted.

@listed
def each_fault_has_its_line_and_its_count(case):
    """In the order of their numbers, but for the second: no datagram of this machine is too long by itself."""
    port, other, neighbors = case.port(), case.port(), [case.neighbor() for _ in range(6)]
    plain, odd, routed, own, far, multicast = neighbors
    peers = [peer(2, plain.port), peer(3, odd.port, port=522), peer("2001:db8::9", routed.port), peer(21, own.port),
             peer(5, far.port, hop_limit=64), peer("ff02::9", multicast.port, port=2_000)]
    router = Ordered(case, "faults", interface(1, port, *peers) + interface(21, other), "-q", "-d", "--turns", "11", clock=0)
    empty = response()
    for neighbor, datagram in ((plain, empty[:3]), (plain, empty + b"\0"), (plain, bytes([3, 1, 0, 0])), (plain, bytes([2, 2, 0, 0])),
                               (plain, bytes([2, 1, 0, 1])), (odd, empty), (routed, empty), (own, empty), (far, empty),
                               (plain, REQUEST[:4]), (multicast, REQUEST)):
        neighbor.send(port, datagram)
    router.done()
    said = [("fe80::2", 521, "1 Short"), ("fe80::2", 521, "3 Ragged"), ("fe80::2", 521, "4 BadCommand"), ("fe80::2", 521, "5 BadVersion"),
            ("fe80::2", 521, "6 NotZero"), ("fe80::3", 522, "7 NotRipngPort"), ("2001:db8::9", 521, "8 NotLinkLocal"),
            ("fe80::21", 521, "9 OwnAddress"), ("fe80::5", 521, "10 HopLimit"), ("fe80::2", 521, "11 EmptyRequest"),
            ("ff02::9", 2_000, "12 BadSource")]
    lines = "".join(f"0 iface 0 from {source} port {at} refused {why}\n" for source, at, why in said)
    counts = "".join(f"refused {why} 1\n" for _, _, why in said)
    same("what is said", router.said(), f"{lines}arrivals 11 sends 0 failed 0\n{counts}")


@listed
def the_longest_datagram_of_all_has_room_and_is_too_long(case):
    neighbor, port = case.neighbor(), case.port()
    router = Ordered(case, "long", interface(1, port, peer(2, neighbor.port)), "-q", "-d", "--turns", "1", clock=0, length=65_535)
    neighbor.send(port, response())
    router.done()
    same("what is said", router.said(),
         "0 iface 0 from fe80::2 port 521 refused 2 TooLong\narrivals 1 sends 0 failed 0\nrefused 2 TooLong 1\n")
    same("what was read, and into how many bytes", [call[3:] for call in router.calls("recvfrom")][0], (65_536, 65_535))


@listed
def each_of_many_notes_has_its_line_and_is_counted(case):
    """In one Response, fifteen times over: a length past 128, a prefix of many, and a metric of 17."""
    neighbor, port = case.neighbor(), case.port()
    router = Ordered(case, "notes", interface(1, port, peer(2, neighbor.port)), "-q", "-d", "--turns", "1", clock=0)
    kinds = ((f"{OWN[:-3]}/129", 1, "20 BadLength"), ("ff02::/16", 1, "21 BadPrefix"), (OWN, 17, "22 BadMetric"))
    neighbor.send(port, response(*[entry(text, metric) for text, metric, _ in kinds] * 15))
    router.done()
    lines = "".join(f"0 iface 0 from fe80::2 port 521 entry {number} noted {kinds[number % 3][2]}\n" for number in range(45))
    counts = "".join(f"noted {why} 15\n" for _, _, why in kinds)
    same("what is said", router.said(), f"{lines}arrivals 1 sends 0 failed 0\n{counts}")


@listed
def a_route_more_than_a_table_holds_is_noted(case):
    neighbor, port = case.neighbor(), case.port()
    router = case.listening("full", interface(1, port, peer(2, neighbor.port)), "-q", "-d")
    feed(neighbor, port, table("e", FULL) + [response(entry("2001:f::/48", 1), entry("2001:e::/48", 2))])
    until("noted", lambda: "noted" in router.said())
    same("what is said", re.sub(r"^\d+", "T", router.said()), "T iface 0 from fe80::2 port 521 entry 0 noted 23 TableFull\n")
    same("the last line of its counts", router.ctl("counts").out.splitlines()[1], "noted 23 TableFull 1")
    same("the answer to link down", router.ctl("link", "down", "0"), (0, "", ""))
    same("the table without what was learned there", router.ctl("table").out, "")


@listed
def sends_that_fail_are_counted(case):
    """Of five updates two."""
    neighbor, port = case.neighbor(), case.port()
    text = interface(1, port, peer(2, neighbor.port)) + prefix(OWN)
    router = Ordered(case, "sends", text, "-d", "--seconds", "150", clock=0, fail="sendto:3:2:1").done()
    sends = int(re.search(r"^arrivals 0 sends (\d+) failed 2\n", router.said())[1])
    same("the number of sends", sends, len(router.calls("sendto")) - 1)
    # One every 15 to 45 seconds.
    same(f"whether {sends} are those of 150 seconds", 4 <= sends <= 11, True)
    same("what was lost", router.said().splitlines()[-1], "ripngd: lost sends 2, lost steps 0")


def said_of(router):
    """What `ctl neighbors` answers, without its moments."""
    return re.sub(r" last \d+$", " last T", router.ctl("neighbors").out, flags=re.M)


@listed
def each_sender_has_a_row(case):
    """By interface and address: one address on two interfaces is two senders."""
    first, second, ports = case.neighbor(), case.neighbor(), (case.port(), case.port())
    router = case.listening("rows", interface(1, ports[0], peer(2, first.port)) + interface(3, ports[1], peer(2, second.port)))
    entries = [entry("2001:db8::/129", 1), *[entry(OWN, 1)] * 6, entry(OWN, 17)]
    for datagram in (b"\2\1", response(*entries), REQUEST[:4]):
        first.send(ports[0], datagram)
    until("heard", lambda: "arrivals 3 " in said_of(router))
    for datagram in (REQUEST, response()):
        second.send(ports[1], datagram)
    until("heard", lambda: "arrivals 2 " in said_of(router))
    same("the rows", said_of(router), "iface 0 from fe80::2 arrivals 3 responses 1 entries 8 last T\nrefused 1 Short 1\n"
         "refused 11 EmptyRequest 1\nnoted 20 BadLength 1\nnoted 22 BadMetric 1\n"
         "iface 1 from fe80::2 arrivals 2 responses 1 entries 0 last T\n")
    counts = re.sub(r"sends \d+ failed", "sends S failed", router.ctl("counts").out)
    same("the counts", counts, "arrivals 5 sends S failed 0\nrefused 1 Short 1\n"
         "refused 11 EmptyRequest 1\nnoted 20 BadLength 1\nnoted 22 BadMetric 1\nlost sends 0 steps 0 arrivals 0\nstrangers 0\nasked 0\n")


@listed
def senders_beyond_64_are_counted_together(case):
    neighbors, port = [case.neighbor() for _ in range(66)], case.port()
    peers = [peer(f"1:{number:x}", neighbor.port) for number, neighbor in enumerate(neighbors)]
    router = case.listening("many", interface(1, port, *peers))
    for neighbor in neighbors:
        neighbor.send(port, response(entry(OWN, 1)))
    neighbors[2].send(port, b"\2\1")
    until("heard", lambda: router.ctl("counts").out.startswith("arrivals 67 "))
    lines = said_of(router).splitlines()
    same("the first rows", lines[:4], ["iface 0 from fe80::1:0 arrivals 1 responses 1 entries 1 last T",
         "iface 0 from fe80::1:1 arrivals 1 responses 1 entries 1 last T", "iface 0 from fe80::1:2 arrivals 2 responses 1 entries 1 last T",
         "refused 1 Short 1"])
    same("the number of lines", len(lines), 64 + 1 + 1)
    same("the last line", lines[-1], "others arrivals 2 responses 2 entries 2 last T")


@listed
def a_router_says_how_it_is_in_json(case):
    """What `status` says in words, under the names of `ripngd-links status --json`; a rule that refused nothing has 0, and who never sent a
    Response null."""
    first, second, ports = case.neighbor(), case.neighbor(), (case.port(), case.port())
    text = interface(1, ports[0], peer(2, first.port), cost=3) + interface(3, ports[1], peer(4, second.port), mtu=1500) + prefix("2001:db8:e::/48")
    router = case.listening("json", text)
    until("its first update, a regular one", lambda: first.receive()[0][0] == 2)
    for _ in range(2):
        first.send(ports[0], response(entry(OWN, 1), entry(OWN, 17)))
    second.send(ports[1], b"\2\1")
    until("heard", lambda: router.ctl("counts").out.startswith("arrivals 3 "))

    def quiet():
        """The answer, between two in words that differ in nothing but the clock."""
        before, told, after = (router.ctl("status", *words) for words in ((), ("json",), ()))
        same("status and standard error", (told.status, told.err), (0, ""))
        clocks = [int(re.search(r"^now (\d+)", answer.out, re.M)[1]) for answer in (before, after)]
        return before.out.replace(str(clocks[0]), "") == after.out.replace(str(clocks[1]), "") and (clocks, before.out, told.out)

    clocks, words, text = until("no step between", quiet)
    told = json.loads(text)
    same("one line", (text.count("\n"), text.endswith("}\n")), (1, True))
    router, links, others = told["router"], told["links"], told["others"]
    since = links[0]["neighbors"][0].pop("response_seconds_ago")
    passed = [moment - int(re.search(r" last (\d+)", words)[1]) for moment in clocks]
    same(f"whether {since} s have passed since the Response", passed[0] // 1_000 <= since <= passed[1] // 1_000, True)
    up = router.pop("uptime_seconds")
    same(f"whether it is up for {up} s", clocks[0] // 1_000 <= up <= clocks[1] // 1_000, True)
    none = dict.fromkeys(PACKETS + ENTRIES, 0)
    zeros = dict.fromkeys(("failed", "lost_sends", "lost_steps", "lost_arrivals", "strangers", "asked"), 0)
    same("the router", router, zeros | {"routes": 2, "arrivals": 3, "sends": int(re.search(r"sends (\d+)", words)[1]), "log_failed": False,
                                        "refused": none | {"Short": 1, "BadMetric": 2}})
    heard = {"address": "fe80::2", "arrivals": 2, "responses": 2, "entries": 4, "refused": none | {"BadMetric": 2}}
    never = {"address": "fe80::4", "arrivals": 1, "responses": 0, "entries": 0, "response_seconds_ago": None, "refused": none | {"Short": 1}}
    same("the last Response on the first link", links[0].pop("response_seconds_ago"), since)
    sent = {"triggered_updates": 1, "queued": 0, "queued_answers": 0}
    same("the interfaces", links, [
        {"interface": 0, "cost": 3, "mtu": 1280, "neighbors": [heard]} | sent | heard | {"address": "fe80::1"},
        {"interface": 1, "cost": 1, "mtu": 1500, "neighbors": [never]} | sent | never | {"address": "fe80::3"}])
    same("all others", others, {"arrivals": 0, "responses": 0, "entries": 0, "response_seconds_ago": None, "refused": none})
    named = [f"router.{name}" for name in router] + [f"links[].{name}" for name in links[0]] + [f"links[].neighbors[].{name}" for name in never]
    same("names that the companion has not", [name for name in named if not any(known.startswith(name) for known in SHAPE)], [])


# Where a write fails.

@listed
def a_failed_write_of_standard_error_ends_its_lines_and_nothing_else(case):
    """Each write in turn, of the lines of an arrival that is refused and of one with three notes. What stands before it in these lines is
    there, and then the counts, whole."""
    far, near, port = case.neighbor(), case.neighbor(), case.port()
    text = interface(1, port, peer(2, far.port, hop_limit=64), peer(3, near.port)) + prefix(OWN)

    def run(number):
        router = Ordered(case, f"lines{number}", text, "-d", "--turns", "3", clock=0, fail=f"write2:{number}:1:{ENOSPC}")
        far.send(port, response())
        near.send(port, response(*[entry(OWN, 17)] * 3))
        same("the table", router.done().out(), OWN_TABLE)
        return router
    whole = run(9_999)
    said, lengths = whole.err(), [length for _, _, length, _ in whole.calls("write2")]
    begun = len("ripngd: running, 1 interface\n")
    counts = said[said.index("arrivals "):]
    same("the lines", [line.split(" port 521 ")[1] for line in said[begun:-len(counts)].splitlines()],
         ["refused 10 HopLimit"] + [f"entry {number} noted 22 BadMetric" for number in range(3)])
    for number in range(1, len(lengths) + 1):
        before = sum(lengths[:number - 1])
        if before >= begun:
            ends = len(said) - (len(counts) if before < len(said) - len(counts) else 0)
            same(f"what is said where write {number} fails", run(number).err(), said[:before] + said[ends:])


@listed
def a_failed_write_of_the_log_ends_it_alone(case):
    """Each write in turn, of the lines of three routes that are told at once and taken back. No later one is tried."""
    neighbor, port = case.neighbor(), case.port()
    text = interface(1, port, peer(2, neighbor.port))
    routes = [f"2001:db8:{number}::/48" for number in (1, 2, 3)]
    whole = "".join([f"add {route} metric 2 via fe80::2 iface 0\n" for route in routes] + [f"del {route}\n" for route in routes])
    for number in range(1, 99):
        router = Ordered(case, f"log{number}", text, "-R", f"log{number}.log", "--turns", "5", clock=0, fail=f"write3:{number}:1:{ENOSPC}")
        for metric in (1, 16):
            neighbor.send(port, response(*[entry(route, metric) for route in routes]))
        same("the table", router.done().out(), "")
        same("the sends", len(router.calls("sendto")), 3)
        writes = router.calls("write3")
        same("the log", router.log(), whole[:sum(length for _, _, length, answer in writes if answer >= 0)])
        if len(writes) < number:
            same("what is said, and the log", (router.said(), router.log()), ("", whole))
            return
        same("what is said, and the number of writes", (router.said(), len(writes)), (LOST_LOG, number))
    raise Failed("it is written without end")


@listed
def each_of_many_changes_has_its_line(case):
    neighbor, port = case.neighbor(), case.port()
    router = Ordered(case, "many", interface(1, port, peer(2, neighbor.port)), "-q", "-R", "many.log", "--turns", "1", clock=0)
    neighbor.send(port, response(*[entry(f"2001:db8:{number:x}::/48", 1) for number in range(70)]))
    lines = [f"2001:db8:{number:x}::/48".replace(":0::", "::") + " metric 2 via fe80::2 iface 0\n" for number in range(70)]
    same("the table", router.done().out(), "".join(lines))
    same("the log", router.log(), "".join(f"add {line}" for line in lines))


@listed
def thousands_of_routes_come_and_go_at_once(case):
    """A neighbor tells them in the two longest datagrams and nothing more, so each is lost behind 180 seconds."""
    neighbor, port = case.neighbor(), case.port()
    router = Ordered(case, "gone", interface(1, port, peer(2, neighbor.port)), "-q", "-R", "gone.log", "--seconds", "200", clock=0)
    routes = [f"2001:db8:{number:x}::/48" for number in range(1, 2 * MOST + 1)]
    for some in (routes[:MOST], routes[MOST:]):
        neighbor.send(port, response(*[entry(route, 1) for route in some]))
    same("the table", router.done().out(), "")
    wanted = [f"add {route} metric 2 via fe80::2 iface 0" for route in routes] + [f"del {route}" for route in routes]
    log = router.log().splitlines()
    same("how many changes there were", len(log), len(wanted))
    same("whether they are those of all routes", log == wanted, True)


@listed
def a_line_of_the_log_is_one_write(case):
    """To a file, and to standard output: a pipe of packets keeps the writes apart."""
    routes = [f"2001:db8:{number}::/48 metric 1 direct\n" for number in range(1, 10)]
    lines = [f"add {route}" for route in routes]
    text = interface(1, case.port()) + "".join(prefix(route.split()[0]) for route in routes)
    router = Ordered(case, "one", text, "-q", "-R", "one.log", "--turns", "1", clock=0).done()
    same("the lengths of the writes to a file", [length for _, _, length, _ in router.calls("write3")], [len(line) for line in lines])
    end, begin = os.pipe2(os.O_DIRECT | os.O_CLOEXEC)
    subprocess.run([case.program, "run", "-q", "-R", "-", "--turns", "1", "one.toml"], cwd=case.folder, stdin=subprocess.DEVNULL,
                   stdout=begin, stderr=subprocess.DEVNULL, timeout=SECONDS, check=True)
    os.close(begin)
    writes = [write.decode() for write in iter(lambda: os.read(end, 65_536), b"")]
    os.close(end)
    same("the writes to standard output", writes, [*lines, "".join(routes)])


@listed
def a_start_sends_before_it_logs(case):
    text = interface(1, case.port(), peer(2, case.port())) + prefix(OWN)
    Ordered(case, "start", text, "-R", "start.log", "--turns", "1", clock=0).done()
    names = dict.fromkeys(line.split()[1] for line in case.read("start.calls").splitlines())
    same("what it does first, one after the other", list(names)[:5], ["bind", "write2", "sendto", "write3", "wait"])


if __name__ == "__main__":
    main()
