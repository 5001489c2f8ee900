#!/usr/bin/env python3
"""What a router sends by its sockets on 127.0.0.1, to whom, and when.

    tests/daemon/sending.py PROGRAM [NAME..]

A line for each case that fails, and last how many passed. Where moments count, the clock is the test's own (system.c), so that they
are exact: it stands still but for what is slept and waited."""

import pathlib
import socket
import struct
import sys
from errno import EINTR, EPERM

sys.dont_write_bytecode = True
sys.path.append(str(pathlib.Path(__file__).resolve().parents[1] / "support"))
from daemons import interface, listed, main, peer, prefix
from datagrams import MOST, REQUEST, entry, request, response
from ordered import Ordered
from suite import same

OWN = "2001:db8::/32"
ROUTES = [f"2001:db8:{number:x}::/48" for number in range(1, MOST + 1)]
"""As many routes as a datagram brings."""
MANY = "".join(prefix(f"2001:db8:{number:x}::/48") for number in range(1_024))
"""More prefixes than go into 16 datagrams of 1,280 bytes, which have 61 entries each: 17 tell them."""
ASKED = 3
"""So many answers, the update and the Request of the start are 69 datagrams: a pause for one peer, which gets 64 at once. A fourth Request
would find an answer that waits."""
CROWD = 8
"""Peers that share those 64, so each datagram for all of them counts for one of 8."""
STAMPED = 35
"""The option SO_TIMESTAMPNS of sockets, which Python has no name for."""
FAULTY = response(entry(OWN, 17))
"""A Response of which nothing is learned."""


def responses(entries):
    """The Responses that tell entries, where an MTU of 1,280 bytes has room for 61."""
    return [response(*entries[first:first + 61]) for first in range(0, len(entries), 61)]


# What is sent, and to whom.

@listed
def a_router_asks_and_tells_its_neighbor(case):
    """An update has the own prefix with its tag, and a learned one poisoned."""
    neighbor, port = case.neighbor(), case.port()
    router = Ordered(case, "telling", interface(1, port, peer(2, neighbor.port)) + prefix(OWN, tag=9), "--turns", "1", clock=0)
    neighbor.send(port, response(entry("2001:db9::/32", 1)))
    router.done()
    same("what was sent", neighbor.rest(), [REQUEST, response(entry(OWN, 1, 9), entry("2001:db9::/32", 16))])


@listed
def prefixes_without_a_tag_have_the_one_that_is_ordered(case):
    neighbor, port = case.neighbor(), case.port()
    text = interface(1, port, peer(2, neighbor.port)) + prefix(OWN) + prefix("2001:db9::/32", tag=7)
    Ordered(case, "tagged", text, "-t", "4660", "--turns", "1", clock=0).done()
    same("what was sent", neighbor.rest(), [REQUEST, response(entry(OWN, 1, 4660), entry("2001:db9::/32", 1, 7))])
    Ordered(case, "untagged", text, "--turns", "1", clock=0).done()
    same("what was sent", neighbor.rest(), [REQUEST, response(entry(OWN, 1, 0), entry("2001:db9::/32", 1, 7))])


@listed
def a_quiet_router_sends_nothing_of_itself(case):
    """In an hour, but an answer to who asks from a port other than 521."""
    neighbor, asker, port = case.neighbor(), case.neighbor(), case.port()
    text = interface(1, port, peer(2, neighbor.port), peer(3, asker.port, port=2_000)) + prefix(OWN)
    router = Ordered(case, "quiet", text, "-q", "--seconds", "3600", clock=0)
    neighbor.send(port, REQUEST)
    asker.send(port, REQUEST)
    router.done()
    same("what was sent", (neighbor.rest(), asker.rest()), ([], [response(entry(OWN, 1))]))


@listed
def what_goes_to_the_group_goes_to_each_peer_and_an_answer_to_one(case):
    first, second, port = case.neighbor(), case.neighbor(), case.port()
    text = interface(1, port, peer(2, first.port), peer(3, second.port, port=2_000)) + prefix(OWN)
    router = Ordered(case, "group", text, "--turns", "1", clock=0)
    second.send(port, REQUEST)
    router.done()
    told = response(entry(OWN, 1))
    same("what each got", (first.rest(), second.rest()), ([REQUEST, told], [REQUEST, told, told]))


@listed
def each_of_many_peers_is_told_and_heard(case):
    """One more than the datagrams that may go at once. The last asks from a port other than 521."""
    crowd, port = [case.neighbor() for _ in range(65)], case.port()
    peers = [peer(f"1:{number:x}", one.port, port=2_000) for number, one in enumerate(crowd)]
    router = Ordered(case, "crowd", interface(1, port, *peers) + prefix(OWN), "--turns", "1", clock=0)
    crowd[-1].send(port, REQUEST)
    router.done()
    told = response(entry(OWN, 1))
    came = [one.rest() for one in crowd]
    same("what the last got", came[-1], [REQUEST, told, told])
    same("how many of the others got another thing", sum(got != [REQUEST, told] for got in came[:-1]), 0)


@listed
def a_large_table_is_told_on_each_of_sixteen_interfaces(case):
    """To the neighbor of which it was learned with poison."""
    neighbors, ports = [case.neighbor() for _ in range(16)], [case.port() for _ in range(16)]
    text = "".join(interface(f"a:{number:x}", port, peer(f"b:{number:x}", neighbor.port))
                   for number, (port, neighbor) in enumerate(zip(ports, neighbors)))
    router = Ordered(case, "wide", text, "--turns", "1", clock=0)
    neighbors[0].send(ports[0], response(*[entry(route, 1) for route in ROUTES]))
    router.done()
    for number, neighbor in enumerate(neighbors):
        whole = [REQUEST, *responses([entry(route, 2 if number else 16) for route in ROUTES])]
        same(f"whether interface {number} tells the whole table", neighbor.rest() == whole, True)


@listed
def a_request_is_answered_whatever_its_length(case):
    """Of as many entries as an answer has room for in one datagram, of one more, and so on to the longest that UDP carries. The router
    has a route to the first prefix alone."""
    asker, port = case.neighbor(), case.port()
    text = interface(1, port, peer(2, asker.port, port=2_000)) + prefix(ROUTES[0], tag=9)
    counts = (61, 62, 99, 100, 1_000, MOST)
    router = Ordered(case, "asked", text, "-q", "--turns", f"{len(counts)}", clock=0)
    for count in counts:
        asker.send(port, request(*[entry(route, 1) for route in ROUTES[:count]]))
    router.done()
    whole = [entry(ROUTES[0], 1, 9), *[entry(route, 16) for route in ROUTES[1:]]]
    answers = [datagram for count in counts for datagram in responses(whole[:count])]
    came = asker.rest()
    same("how many datagrams came", len(came), len(answers))
    same("whether they are the answers", came == answers, True)


@listed
def the_port_for_the_group_gets_what_goes_to_the_group_once(case):
    first, second, group, port = case.neighbor(), case.neighbor(), case.neighbor(), case.port()
    text = interface(1, port, peer(2, first.port), peer(3, second.port, port=2_000), group_port=group.port)
    router = case.listening("grouped", text + prefix(OWN))
    told = response(entry(OWN, 1))
    same("what the group's port gets", [group.receive()[0], group.receive()[0]], [REQUEST, told])
    second.send(port, REQUEST)
    same("the answer", second.receive()[0], told)
    same("what others got", (first.rest(), second.rest(), group.rest()), ([], [], []))
    same("a peer there", router.ctl("peer", "0", "fe80::4", str(group.port)), (1, "refused 62 PortTwice\n", ""))


@listed
def a_peer_that_cannot_be_sent_to_is_told_and_the_next_is_sent_to(case):
    first, second, port = case.neighbor(), case.neighbor(), case.port()
    text = interface(1, port, peer(2, first.port), peer(3, second.port)) + prefix(OWN)
    router = Ordered(case, "failing", text, "-d", "--turns", "1", clock=0, fail=f"sendto:1:1:{EPERM}").done()
    told = response(entry(OWN, 1))
    same("what each got", (first.rest(), second.rest()), ([told], [REQUEST, told]))
    same("what is said", router.said(), "arrivals 0 sends 1 failed 0\nripngd: lost sends 1, lost steps 0\n")


@listed
def a_send_that_is_interrupted_is_tried_16_times(case):
    neighbor, port = case.neighbor(), case.port()
    text = interface(1, port, peer(2, neighbor.port)) + prefix(OWN)
    told = [REQUEST, response(entry(OWN, 1))]
    for times, got, lost in ((15, told, ""), (16, told[1:], "ripngd: lost sends 1, lost steps 0\n")):
        router = Ordered(case, f"interrupted{times}", text, "--turns", "1", clock=0, fail=f"sendto:1:{times}:{EINTR}").done()
        same("what was sent", neighbor.rest(), got)
        same("how often it was tried", len(router.calls("sendto")), 17)
        same("what was lost", router.said(), lost)


# When it is sent.

@listed
def a_seed_decides_when_a_router_tells(case):
    """In three minutes two routers of one seed tell at the same moments, and one of another seed at others."""
    neighbor = case.neighbor()

    def moments(name, seed):
        port = case.port()
        text = f"seed = {seed}\n" + interface(1, port, peer(2, neighbor.port)) + prefix(OWN)
        return list(Ordered(case, name, text, "--seconds", "180", clock=0).done().sends(port))

    first = moments("first", 7)
    same("whether the second tells when the first does", moments("second", 7) == first, True)
    same("whether the third does", moments("third", 8) == first, False)


@listed
def sixty_four_datagrams_go_at_once_and_as_many_sixteen_milliseconds_later(case):
    """At 0 the Request of the start and 63 datagrams of the answers; the rest of them and of the update at their pace while a turn waits,
    which ends in time. On the other interface, with eight peers, of the Request and the update eight go at a time. Behind what came it
    sleeps for 12 milliseconds, in which more may come, and looks."""
    ports, neighbor, crowd = (case.port(), case.port()), case.neighbor(), [case.neighbor() for _ in range(CROWD)]
    text = interface(1, ports[0], peer(2, neighbor.port, port=2_000))
    text += interface(100, ports[1], *(peer(101 + number, one.port) for number, one in enumerate(crowd)))
    router = Ordered(case, "paced", text + MANY, "--turns", f"{ASKED + 1}", clock=0)
    neighbor.send(ports[0], REQUEST, ASKED)
    router.done()
    same("when it was sent", router.sends(ports[0]), {0: 64, 16: 5})
    same("when it was sent to eight peers", router.sends(ports[1]), {0: 64, 16: 64, 32: 16})
    same("how long it waited", router.waits(), [50, 0, 0, 4, 16, 18])
    same("how long it slept", [ms for _, _, ms, _ in router.calls("sleep")], [12])
    same("what was sent behind the Request", neighbor.rest()[1:], (ASKED + 1) * crowd[0].rest()[1:])


@listed
def what_waits_goes_out_at_the_end_at_its_pace_and_in_order(case):
    """And a clock that stands still holds nothing back for ever."""
    neighbor, port = case.neighbor(), case.port()
    text = interface(1, port, peer(2, neighbor.port, port=2_000)) + MANY
    whole = []
    for clock, moments in (("0", {0: 64, 16: 5}), ("still", {0: 69})):
        router = Ordered(case, f"ending{clock}", text, "--turns", f"{ASKED}", clock=clock)
        neighbor.send(port, REQUEST, ASKED)
        router.done()
        same("when it was sent", router.sends(port), moments)
        if clock == "0":
            same("how long it slept", [ms for _, _, ms, _ in router.calls("sleep")], [16])
        same("what was lost", router.said(), "")
        whole.append(neighbor.rest())
    same("how many came", [len(came) for came in whole], [69, 69])
    tables = [came[at:at + 17] for came in whole for at in range(1, 69, 17)]
    same("whether each whole table came in order", tables, len(tables) * tables[:1])
    numbers = [struct.unpack(">H", datagram[at + 4:at + 6])[0] for datagram in tables[0] for at in range(4, len(datagram), 20)]
    same("the order of what was told", numbers, list(range(1_024)))


@listed
def no_turn_waits_while_a_datagram_is_there(case):
    """Not for what is still to be sent, either; in a millisecond that stands still it does not even look for more."""
    crowd = [case.neighbor() for _ in range(CROWD)]
    for clock, later in ((0, []), (1, 39 * [0])):
        port = case.port()
        text = interface(1, port, *(peer(2 + number, one.port) for number, one in enumerate(crowd))) + MANY
        router = Ordered(case, f"eager{clock}", text, "-d", "--turns", "40", clock=clock)
        crowd[0].send(port, FAULTY, 40)
        router.done()
        same("how long it waited behind the first", router.waits()[1:], later)
        if clock == 0:
            same("when it was sent", router.sends(port), {0: 64, 16: 64, 32: 16})


@listed
def a_peer_has_one_answer_that_waits(case):
    """While the clock stands still, the Request of the start, the update and the answers to two Requests, of 17 datagrams each, go at once,
    and the third in part. While the rest of that waits, whatever else the neighbor asks is lost. What it tells is not."""
    neighbor, port = case.neighbor(), case.port()
    router = Ordered(case, "owing", interface(1, port, peer(2, neighbor.port)) + MANY, "-d", "--turns", "250", clock="still")
    neighbor.send(port, REQUEST, 200)
    neighbor.send(port, FAULTY, 2)
    router.done()
    sends = ASKED * 17 + 17
    same("what is said", [line for line in router.said().splitlines() if "iface" not in line and "noted" not in line],
         [f"arrivals {ASKED + 2} sends {sends} failed 0", f"ripngd: lost sends 0, lost steps {200 - ASKED}"])
    same("how many were sent", router.sends(port), {0: 1 + sends})


@listed
def few_answers_wait_and_fewest_to_those_that_only_ask(case):
    """While the clock stands still: of 100 peers 60 tell something, then the other 40 ask, and then those 60. Each answer takes 17
    datagrams. Of those that only ask the 36th finds 595 waiting, and no other is answered. Of the others the 35th finds 1,190, and of
    its answer ten datagrams may wait."""
    crowd, port = [case.neighbor() for _ in range(100)], case.port()
    text = interface(1, port, *(peer(2 + number, one.port, port=521 if number < 60 else 2_000) for number, one in enumerate(crowd)))
    router = Ordered(case, "asked", text + MANY, "-d", "--turns", "200", clock="still")
    for one in crowd[:60]:
        one.send(port, FAULTY)
    for one in crowd[60:] + crowd[:60]:
        one.send(port, REQUEST)
    router.done()
    answered, lost = 36 + 35, (40 - 36) + (60 - 35)
    same("what is said", [line for line in router.said().splitlines() if "iface" not in line and "noted" not in line],
         [f"arrivals {60 + answered} sends {answered * 17 + 17} failed 7", f"ripngd: lost sends 7, lost steps {lost}"])
    answers = [sum(len(datagram) > 24 for datagram in one.rest()) - 17 for one in crowd]
    same("how much each was answered", answers, 34 * [17] + [10] + 25 * [0] + 36 * [17] + 4 * [0])


@listed
def a_port_for_the_group_has_the_whole_pace(case):
    """Eight peers share it where each of them gets a copy, and not where one port does."""
    group, port = case.neighbor(), case.port()
    crowd = [case.neighbor() for _ in range(CROWD)]
    text = interface(1, port, *(peer(2 + number, one.port) for number, one in enumerate(crowd)), group_port=group.port) + MANY
    router = Ordered(case, "whole", text, "--turns", "1", clock=0).done()
    same("when it was sent", router.sends(port), {0: 1, 50: 17})


@listed
def what_waited_and_could_not_be_sent_is_counted(case):
    neighbor, port = case.neighbor(), case.port()
    text = interface(1, port, peer(2, neighbor.port, port=2_000)) + MANY
    router = Ordered(case, "failing", text, "-d", "--turns", f"{ASKED}", clock=0, fail=f"sendto:65:99:{EPERM}")
    neighbor.send(port, REQUEST, ASKED)
    router.done()
    same("how many came", len(neighbor.rest()), 64)
    same("what is said", router.said(), "arrivals 3 sends 68 failed 0\nripngd: lost sends 5, lost steps 0\n")


@listed
def what_is_for_a_peer_that_has_gone_is_lost(case):
    """While the clock stands still, eight datagrams go to one of eight peers, which goes behind the first turn. What came from it before is
    heard. Where it asked first, seven of the answer's 17 datagrams went out, behind the Request of the start, and the last ten are lost at
    the end. Where it asked second, all 17 are for nobody. The update is for those that are still there, and not lost."""
    crowd, port = [case.neighbor() for _ in range(CROWD)], case.port()
    text = interface(1, port, *(peer(2 + number, one.port) for number, one in enumerate(crowd))) + MANY
    for name, came, failed, lost in (("late", (REQUEST, FAULTY), 0, 10), ("later", (FAULTY, REQUEST), 17, 17)):
        router = Ordered(case, name, text, "--control", f"{name}.sock", "-d", "--turns", "2", clock="still")
        client = router.client().say(b"unpeer 0 fe80::2\n")
        for datagram in came:
            crowd[0].send(port, datagram)
        router.done()
        same("the answer to unpeer", client.all(), "ok\n")
        client.close()
        same("how many came", [len(one.rest()) for one in crowd[:2]], [8, 18])
        same("what is said", [line for line in router.said().splitlines() if "iface" not in line and "noted" not in line],
             [f"arrivals 2 sends 34 failed {failed}", f"ripngd: lost sends {lost}, lost steps 0"])


@listed
def the_pace_is_kept_by_the_clock_of_the_system(case):
    """By the stamps of the system at the receiver, one of eight. Of 17 datagrams in a row eight stand between two pauses, which lie sixteen
    of its whole milliseconds apart, and so fifteen at least."""
    crowd, port = [case.neighbor() for _ in range(CROWD)], case.port()
    crowd[0].socket.setsockopt(socket.SOL_SOCKET, STAMPED, 1)
    router = case.start("real", interface(1, port, *(peer(2 + number, one.port, port=2_000) for number, one in enumerate(crowd))) + MANY)
    moments = []
    crowd[0].send(port, REQUEST, 3)
    while len(moments) < 1 + 4 * 17:
        _, [(_, _, stamp)], _, _ = crowd[0].socket.recvmsg(2_048, 64)
        moments.append(struct.unpack("qq", stamp)[0] * 1_000 + struct.unpack("qq", stamp)[1] / 1e6)
    spans = [later - moment for moment, later in zip(moments, moments[16:])]
    same(f"whether the least of {spans} is fifteen milliseconds", min(spans) >= 15, True)
    same("whether it runs", router.is_there(), True)


if __name__ == "__main__":
    main()
