#!/usr/bin/env python3
"""What a router's sockets on 127.0.0.1 give it: who is heard, when they are read, and what is lost; and how they are had.

    [WATCHED=SECONDS] tests/daemon/sockets.py PROGRAM [NAME..]

Ticks are watched for 4 seconds, or for those of WATCHED. A line for each case that fails, and last how many passed. Where moments
count, the clock is the test's own (system.c), so that they are exact: it stands still but for what is slept and waited."""

import math
import os
import pathlib
import re
import sys
import threading
import time
from errno import EACCES, EADDRINUSE, EINTR, EIO, EMFILE, ENOMEM

sys.dont_write_bytecode = True
sys.path.append(str(pathlib.Path(__file__).resolve().parents[1] / "support"))
from daemons import interface, listed, main, Neighbor, peer, prefix
from datagrams import MOST, REQUEST, entry, response, waiting_at
from ordered import Ordered, calls, environment
from suite import same, until

WATCHED = float(os.environ.get("WATCHED", 4))
OWN = "2001:db8::/32"
FAULTY = response(entry(OWN, 17))
"""A Response of which nothing is learned, and something is said."""
DAY_MS = 86_400_000


def refused(router):
    """Who sent what was refused: the interface, and the last digit of the address."""
    return [(int(iface), number) for iface, number in re.findall(r"iface (\d+) from fe80::(\w+) port \d+ ", router.err())]


def interfaces(case, *peers):
    """The ports of two interfaces, and what configures them; each has a neighbor for each of its numbers."""
    ports = case.port(), case.port()
    neighbors = {number: case.neighbor() for numbers in peers for number in numbers}
    text = "".join(interface(iface + 1, port, *(peer(number, neighbors[number].port, hop_limit=64) for number in numbers))
                   for iface, (port, numbers) in enumerate(zip(ports, peers)))
    return ports, neighbors, text


@listed
def an_idle_turn_waits_once_and_reads_no_socket(case):
    _, _, text = interfaces(case, (2, 3), (4, 5))
    router = Ordered(case, "idle", text, "-q", "--turns", "3", clock=0).done()
    same("how long it waited", router.waits(), [50, 50, 50])
    same("what it read", router.calls("recvfrom"), [])


@listed
def an_idle_turn_lasts_until_something_is_due(case):
    """But 400 ms at most. By the test's own clock: 100 seconds, with some regular updates."""
    neighbor, port = case.neighbor(), case.port()
    router = Ordered(case, "lasting", interface(1, port, peer(2, neighbor.port)) + prefix(OWN), "--seconds", "100", clock=0, readings=1).done()
    ticks, waits = router.ticks(), router.waits()
    same("how long the first turns waited", waits[:3], [50, 400, 400])
    lasted = [later - earlier for earlier, later in zip(ticks, ticks[1:])]
    same("the longest turn", max(lasted), 400)
    same("whether there were few turns", 250 <= len(waits) <= 270, True)
    updates = sorted(router.sends(port))[1:]
    same(f"whether {updates} are moments of ticks", len(updates) >= 2 and set(updates) <= set(ticks), True)
    same("how long it waited", sum(waits), 100_000)


def flood(stop, neighbor, port):
    while not stop.is_set():
        neighbor.send(port, FAULTY, 20)
        time.sleep(0.001)


def longest_turn(case, name):
    """The most milliseconds between two ticks, while nothing comes or in a flood; or without end, where there are too few."""
    source, port = case.neighbor(), case.port()
    heard = source.port if name == "neighbor" else case.port()
    router = Ordered(case, f"ticking{name}{port}", interface(1, port, peer(2, heard)) + prefix(OWN), readings=1).go()
    stop = threading.Event()
    flooding = threading.Thread(target=flood, args=(stop, source, port))
    if name != "idle":
        flooding.start()
    time.sleep(WATCHED)
    stop.set()
    router.end()
    ticks = router.ticks()
    return max(later - earlier for earlier, later in zip(ticks, ticks[1:])) if len(ticks) >= 2 * WATCHED else math.inf


@listed
def two_ticks_are_never_half_a_second_apart(case):
    """While nothing comes, and in floods: of a neighbor's datagrams, and of a stranger's, which end no turn. It is watched up to three
    times, since other processes may keep the router from the processor."""
    for name in ("idle", "neighbor", "stranger"):
        longest = [longest_turn(case, name)]
        while longest[-1] >= 500 and len(longest) < 3:
            longest.append(longest_turn(case, name))
        same(f"whether the longest time between two ticks, {longest} ms, is once less than half a second", longest[-1] < 500, True)


@listed
def what_comes_is_read_at_once_and_no_other_socket_is(case):
    ports, neighbors, text = interfaces(case, (2, 3), (4, 5))
    router = Ordered(case, "busy", text, "-q", "-d", "--turns", "3", clock=0)
    neighbors[5].send(ports[1], FAULTY)
    neighbors[4].send(ports[1], FAULTY)
    router.done()
    same("who was heard", refused(router), [(1, "5"), (1, "4")])
    # The second datagram was there in that millisecond, so the second turn did not look. Then more may come together for 12 milliseconds of
    # the third turn's 50. Behind a read that gives nothing the socket is left.
    same("how long it waited", router.waits(), [50, 0, 0, 38])
    same("how long it slept", [ms for _, _, ms, _ in router.calls("sleep")], [12])
    same("how often it read", (router.reads(ports[0]), router.reads(ports[1])), (0, 3))


@listed
def interfaces_are_served_in_turn(case):
    ports, neighbors, text = interfaces(case, (2, 3), (4, 5))
    router = Ordered(case, "turns", text, "-q", "-d", "--turns", "7", clock=0)
    for number in (2, 3, 2, 2):
        neighbors[number].send(ports[0], FAULTY)
    for number in (4, 5):
        neighbors[number].send(ports[1], FAULTY)
    router.done()
    same("who was heard", refused(router), [(0, "2"), (1, "4"), (0, "3"), (1, "5"), (0, "2"), (0, "2")])


@listed
def a_neighbor_without_end_takes_no_room_of_another_interface(case):
    """A turn that begins in another millisecond takes in 512 and gives one: after 32 turns 16,352 wait, so the next has room for 32, and
    each later one for one."""
    ports, neighbors, text = interfaces(case, (2, 3), (4, 5))
    router = Ordered(case, "loud", text, "-q", "-d", "--turns", "41", clock=1, again=20_500)
    neighbors[2].send(ports[0], FAULTY)
    neighbors[4].send(ports[1], FAULTY)
    router.done()
    same("who was heard", refused(router), [(0, "2"), (1, "4")] + 39 * [(0, "2")])
    # Of the 41 turns one served the other interface, and so took in 512 and gave none.
    same("what was lost", router.said().splitlines()[-1], "ripngd: lost sends 0, lost steps 9")


@listed
def datagrams_wait_up_to_32_mib_together(case):
    """1,024 of 32,768 bytes are just as many: 512 are taken in a turn of another millisecond, and one is given; so the third has room for
    two more."""
    for size, reads in ((32_768, 512 + 512 + 3 + 2), (32_769, 512 + 512 + 2 + 2)):
        ports, neighbors, text = interfaces(case, (2,))
        router = Ordered(case, f"large{size}", text, "-q", "--turns", "4", clock=1, again=20_000)
        neighbors[2].send(ports[0], bytes(size))
        router.done()
        same("how often it read", router.reads(ports[0]), reads)
        same("what was lost", router.said(), "ripngd: lost sends 0, lost steps 2\n")


@listed
def a_stranger_is_dropped_and_does_not_end_the_wait(case):
    """One at a peer's port of another address, one at another port, and a peer of the other interface."""
    ports, neighbors, text = interfaces(case, (2, 3), (4, 5))
    router = Ordered(case, "strange", text, "-q", "-d", "--turns", "1", clock=0)
    elsewhere, other = Neighbor(neighbors[2].port, "127.0.0.2"), case.neighbor()
    for stranger in (elsewhere, other, neighbors[4]):
        stranger.send(ports[0], FAULTY)
    elsewhere.close()
    router.done()
    same("who was heard", refused(router), [])
    same("how long it waited", router.waits(), [50, 50])
    same("what was lost", router.said(), "arrivals 0 sends 0 failed 0\n")


@listed
def nothing_is_heard_at_another_address_of_this_machine(case):
    ports, neighbors, text = interfaces(case, (2, 3), (4, 5))
    router = Ordered(case, "elsewhere", text, "-q", "-d", "--turns", "1", clock=0)
    neighbors[2].socket.sendto(FAULTY, ("127.0.0.2", ports[0]))
    router.done()
    same("who was heard", refused(router), [])


@listed
def all_that_is_ready_at_once_is_heard(case):
    """Each socket, and a client, which was there first."""
    ports, neighbors, text = interfaces(case, (2, 3), (4, 5))
    router = Ordered(case, "ready", text, "-q", "-d", "--control", "ready.sock", "--turns", "3", clock=0)
    client = router.client()
    neighbors[2].send(ports[0], FAULTY)
    neighbors[4].send(ports[1], FAULTY)
    router.done()
    same("who was heard", refused(router), [(0, "2"), (1, "4")])
    client.close()


@listed
def a_datagram_of_any_size_is_heard(case):
    """Responses without an entry, of fifty more in each than in the one before, and of as many as a datagram brings."""
    neighbor, port = case.neighbor(), case.port()
    router = case.listening("sizes", interface(1, port, peer(2, neighbor.port)), "-q")
    counts = [*range(0, MOST, 50), MOST]
    for count in counts:
        while waiting_at(port)[0] > 65_536:
            time.sleep(0.001)
        neighbor.send(port, response(*[entry(OWN, 1)] * count))
    heard = f"iface 0 from fe80::2 arrivals {len(counts)} responses {len(counts)} entries {sum(counts)} last "
    until("all heard", lambda: router.ctl("neighbors").out.startswith(heard), 10)


@listed
def a_read_that_is_interrupted_comes_again(case):
    ports, neighbors, text = interfaces(case, (2,))
    router = Ordered(case, "interrupted", text, "-q", "-d", "--turns", "1", clock=0, fail=f"recvfrom:1:1:{EINTR}")
    neighbors[2].send(ports[0], FAULTY)
    router.done()
    same("who was heard", refused(router), [(0, "2")])
    same("how long it waited", router.waits(), [50, 0])


@listed
def a_read_or_a_wait_that_fails_ends_the_router(case):
    for fail, turns in ((f"recvfrom:2:1:{EIO}", 0), (f"wait:2:1:{EIO}", 1)):
        ports, neighbors, text = interfaces(case, (2,))
        router = Ordered(case, f"failing{turns}", text, "-q", "--turns", "9", clock=0, fail=fail)
        neighbors[2].send(ports[0], FAULTY)
        same("status", router.go().finish(), 3)
        same("standard output", router.out(), "")
        same("standard error", router.said(), f"ripngd: link fault after {turns} turns\n")


@listed
def a_whole_table_on_one_of_many_interfaces_is_taken_in_at_once(case):
    source, ports = case.neighbor(), [case.port() for _ in range(16)]
    text = "".join(interface(f"a:{iface}", port, *([peer(2, source.port, hop_limit=64)] if iface == 15 else []))
                   for iface, port in enumerate(ports))
    router = Ordered(case, "many", text, "-q", "-d", "--turns", "68", clock=0)
    source.send(ports[-1], response(*[entry(OWN, 1)] * 61), 68)
    router.done()
    same("who was heard", refused(router), 68 * [(15, "2")])
    # Nothing was waited for in vain, and none was looked for again in that millisecond.
    same("how long it waited", router.waits(), [50])


@listed
def a_datagram_of_a_peer_arrives_as_configured(case):
    """Its port, its hop limit, and whether it was sent to the group: to a router alone any hop limit will do."""
    neighbors, ports = [case.neighbor() for _ in range(4)], (case.port(), case.port())
    odd = (dict(port=522), dict(hop_limit=254), dict(hop_limit=254, group=False), {})
    peers = [peer(f"1{number}", neighbor.port, **keys) for number, (neighbor, keys) in enumerate(zip(neighbors, odd))]
    router = case.listening("four", interface(1, ports[0], *peers[:2]) + interface(2, ports[1], *peers[2:], cost=4), "-d", "-R", "four.log")
    for number, neighbor in enumerate(neighbors):
        neighbor.send(ports[number // 2], response(entry(f"2001:db8:{number:x}::/48", number + 1)))
    router.logs("add 2001:db8:2::/48 metric 7 via fe80::12 iface 1")
    router.logs("add 2001:db8:3::/48 metric 8 via fe80::13 iface 1")
    until("all heard", lambda: router.ctl("counts").out.startswith("arrivals 4 "))
    said = sorted(re.sub(r"^\d+", "T", line) for line in router.said().splitlines())
    same("what is said", said, ["T iface 0 from fe80::10 port 522 refused 7 NotRipngPort",
                                "T iface 0 from fe80::11 port 521 refused 10 HopLimit"])
    same("the log", len(router.log().splitlines()), 2)


@listed
def two_interfaces_have_two_peers_each_and_mix_none_up(case):
    neighbors, ports = [case.neighbor() for _ in range(4)], (case.port(), case.port())
    peers = [peer(f"1{number}", neighbor.port, **keys)
             for number, (neighbor, keys) in enumerate(zip(neighbors, ({}, dict(port=522), dict(hop_limit=64), {})))]
    text = interface(1, ports[0], *peers[:2]) + interface(2, ports[1], *peers[2:], cost=4) + prefix(OWN)
    router = Ordered(case, "four", text, "-d", "--turns", "8")
    for number, neighbor in enumerate(neighbors):
        neighbor.send(ports[number // 2], response(entry(f"2001:db8:{number:x}::/48", 1)))
    router.done()
    same("the table", router.out(), f"{OWN} metric 1 direct\n2001:db8::/48 metric 2 via fe80::10 iface 0\n"
         "2001:db8:3::/48 metric 5 via fe80::13 iface 1\n")
    for text in (" iface 0 from fe80::11 port 522 refused 7 NotRipngPort\n", " iface 1 from fe80::12 port 521 refused 10 HopLimit\n",
                 "\narrivals 4 sends ", "\nrefused 7 NotRipngPort 1\nrefused 10 HopLimit 1\n"):
        same(f"whether standard error has {text!r}", text in router.err(), True)
    for number, neighbor in enumerate(neighbors):
        same("the first datagram, and where it came from", neighbor.receive(), (REQUEST, ports[number // 2]))


@listed
def a_peer_is_heard_from_when_it_is_added_until_it_is_removed(case):
    neighbor, port = case.neighbor(), case.port()
    router = case.listening("changing", interface(1, port))

    def counts(arrivals, strangers):
        until(f"{arrivals} arrivals and {strangers} strangers", lambda: (lambda said: said.startswith(f"arrivals {arrivals} ")
              and f"\nstrangers {strangers}\n" in said)(router.ctl("counts").out))
    neighbor.send(port, FAULTY, 3)
    counts(0, 3)
    same("the answer to peer", router.ctl("peer", "0", "fe80::2", str(neighbor.port)), (0, "", ""))
    neighbor.send(port, FAULTY)
    counts(1, 3)
    same("the answer to unpeer", router.ctl("unpeer", "0", "fe80::2"), (0, "", ""))
    neighbor.send(port, FAULTY)
    counts(1, 4)


# Which ports are asked for, and what the clock tells.

@listed
def sockets_are_asked_for_in_order_until_one_cannot_be_had(case):
    ports = case.port(), case.port()
    case.file("two.toml", interface(1, ports[0]) + interface(2, ports[1]))
    for number, (first, error, cause) in enumerate(((1, EACCES, ": not permitted"), (2, EADDRINUSE, ": in use"), (2, ENOMEM, ""))):
        orders = environment(case.folder, f"two{number}", fail=f"bind:{first}:1:{error}")
        done = case.run("run", "--turns", "1", "two.toml", **orders)
        same("how it ends", done, (3, "", f"ripngd: cannot bind {ports[first - 1]}{cause}\n"))
        same("what was asked for", [port for _, _, port, _ in calls(case, f"two{number}", "bind")], list(ports[:first]))


@listed
def sockets_that_cannot_be_waited_for_are_given_up(case):
    """Where the system has no list of them, at the first; where one is not taken into it, at that."""
    ports = case.port(), case.port(), case.port()
    case.file("three.toml", "".join(interface(number, port) for number, port in enumerate(ports)))
    for number, (fail, asked) in enumerate(((f"list:1:1:{EMFILE}", 0), (f"listed:2:1:{ENOMEM}", 2))):
        done = case.run("run", "--turns", "1", "three.toml", **environment(case.folder, f"three{number}", fail=fail))
        same("how it ends", done, (3, "", f"ripngd: cannot bind {ports[max(asked, 1) - 1]}\n"))
        same("what was asked for", [port for _, _, port, _ in calls(case, f"three{number}", "bind")], list(ports[:asked]))


@listed
def the_clock_of_a_router_begins_at_0(case):
    neighbor, port = case.neighbor(), case.port()
    router = case.start("clock", interface(1, port, peer(2, neighbor.port)), "-d")
    moments = []
    for number in (1, 2):
        neighbor.send(port, FAULTY)
        until("said", lambda: router.said().count("\n") == number)
        moments.append(int(router.said().splitlines()[-1].split()[0]))
        time.sleep(0.2)
    same(f"whether {moments} are moments since its start", 0 <= moments[0] < 20_000 and 200 <= moments[1] - moments[0] < 20_000, True)


@listed
def a_clock_that_cannot_be_read_tells_its_last_moment(case):
    """One that never can, the first; one that can be read some times, each seven seconds behind the one before, the last of these."""
    for last, told in ((0, 0), (5, 7_000)):
        neighbor, port = case.neighbor(), case.port()
        text = interface(1, port, peer(2, neighbor.port))
        router = Ordered(case, f"clock{last}", text, "-q", "-d", "--turns", "9", clock=7_000, fail=f"clock:{last + 1}:99999:22")
        neighbor.send(port, FAULTY, 3)
        router.done()
        same("the moments", {line.split()[0] for line in router.said().splitlines()[:3]}, {str(told)})


@listed
def a_clock_goes_on_for_days(case):
    """Each reading is ten seconds behind the one before, so a turn takes more than half a minute, and most have an update."""
    port = case.port()
    router = Ordered(case, "days", interface(1, port, peer(2, case.port())) + prefix(OWN), "--turns", "6000", clock=10_000).done()
    updates = sorted(router.sends(port))
    longest = max(later - earlier for earlier, later in zip(updates, updates[1:]))
    same(f"whether {updates[-1]} is past two days", updates[-1] > 2 * DAY_MS, True)
    same(f"whether the longest time between updates, {longest} ms, is at most two minutes", longest <= 120_000, True)


if __name__ == "__main__":
    main()
