"""What has to be told of captured datagrams: of each the lines of `show --pcap`, by RFC 2080; and of a script the datagrams that its capture
has to have, by its trace."""

import ipaddress
import json
import struct

from pcaps import Datagram
from suite import same

GROUP = "ff02::9"
NAMES = {1: "Short", 2: "TooLong", 3: "Ragged", 4: "BadCommand", 5: "BadVersion", 6: "NotZero", 7: "NotRipngPort", 8: "NotLinkLocal",
         10: "HopLimit", 11: "EmptyRequest", 12: "BadSource"}


def wire_fault(data):
    """The number of the first reason for which bytes are no datagram of RIPng (RFC 2080, 2.1), or None."""
    reasons = [len(data) < 4, len(data) > 65_524, len(data) % 20 != 4, data[:1] not in (b"\1", b"\2"), data[1:2] != b"\1", data[2:4] != b"\0\0"]
    return next((number for number, applies in enumerate(reasons, 1) if applies), None)


def fault(datagram):
    """The number of the first test of a router that a datagram fails (RFC 2080, 2.4.1 and 2.4.2), or None."""
    number, source = wire_fault(datagram.payload), ipaddress.IPv6Address(datagram.source)
    if number or datagram.destination_port != 521:
        return number
    neighbor = [(not source.is_link_local, 8), (datagram.destination == GROUP and datagram.hops != 255, 10)]
    asker = [(source.is_multicast or int(source) == 0 or datagram.source_port == 0, 12)]
    if datagram.payload[0] == 2:
        reasons = [(datagram.source_port != 521, 7), *neighbor]
    else:
        reasons = [(len(datagram.payload) == 4, 11), *(neighbor if datagram.source_port == 521 else asker)]
    return next((number for applies, number in reasons if applies), None)


def listing(data):
    """The lines of `show` for a datagram (RFC 2080, 2.1 and 2.1.1)."""
    lines = [f"{'response' if data[0] == 2 else 'request'} entries {len(data) // 20}"]
    for number in range(len(data) // 20):
        address, tag, length, metric = struct.unpack_from(">16sHBB", data, 4 + 20 * number)
        address = ipaddress.IPv6Address(address)
        lines.append(f"{number} nexthop {address}" if metric == 255 else f"{number} {address}/{length} tag {tag} metric {metric}")
    return lines


def datagram_of(lines):
    """The bytes of a datagram by its lines; a next hop has no tag and no length."""
    command = 2 if lines[0].startswith("response ") else 1
    data = bytes([command, 1, 0, 0])
    for line in lines[1:]:
        words = line.split()
        if words[1] == "nexthop":
            data += ipaddress.IPv6Address(words[2]).packed + b"\0\0\0\xff"
        else:
            address, _, length = words[1].partition("/")
            data += ipaddress.IPv6Address(address).packed + struct.pack(">HBB", int(words[3]), int(length), int(words[5]))
    return data


def said(number, time, iface, datagram):
    """The lines of `show --pcap` for a datagram, whose time is in nanoseconds."""
    seconds, rest = divmod(time, 1_000_000_000)
    head = f"frame {number} time {seconds}.{rest:09} iface {iface} from {datagram.source} {datagram.source_port} " \
           f"to {datagram.destination} {datagram.destination_port} hops {datagram.hops}"
    refused = fault(datagram)
    return [head, *([f"refused {refused} {NAMES[refused]}"] if refused else listing(datagram.payload))]


class Seen:
    """A datagram that was on a link of a script: the link's number, the time in milliseconds, what is said of it, and whether it is among
    those of `sent`."""

    def __init__(self, link, now, datagram, comment, is_sent):
        self.link, self.now, self.datagram, self.comment, self.is_sent = link, now, datagram, comment, is_sent

    def fields(self):
        return self.link, self.now, self.datagram, self.comment


class Traced:
    """All datagrams that were on the links of a script, by its text and its trace."""

    def __init__(self, script, trace):
        lines = [line.partition("#")[0].split() for line in script.splitlines()]
        listed = [line for line in lines if line[:1] == ["router"]]
        self.names = [line[-1] if line[1:] and line[-1] != "quiet" else str(number) for number, line in enumerate(listed)]
        self.seen, self.of_number, self.interfaces = [], [], []
        for text in trace.splitlines():
            record = json.loads(text)
            if record["record"] == "start":
                self.interfaces = [router["interfaces"] for router in record["routers"]]
            if record["record"] == "event":
                self.take_event(record)
            for sent in record.get("sent", []) if record["record"] in ("start", "event") else []:
                self.take_sent(record["now"], sent)

    def take_event(self, record):
        event, fault = record["event"], record["fault"]
        refused = f"refused by {self.names[record['router']]}: {fault['number']} {fault['name']}" if fault else ""
        if event["kind"] in ("stranger", "liar"):
            at = self.interfaces[record["router"]][event["iface"]]
            destination = GROUP if event.get("group", True) else at["addr"]
            datagram = Datagram(bytes.fromhex(event["bytes"]), event["source"], destination, event.get("port", 521), 521, event.get("hop_limit", 255))
            origin = "forged" if event["kind"] == "liar" else ""
            self.seen.append(Seen(at["link"], record["now"], datagram, refused or origin, False))
        elif event["kind"] == "deliver" and refused:
            seen = self.of_number[event["datagram"]]
            seen.comment = ", ".join(filter(None, [seen.comment, refused]))

    def take_sent(self, now, sent):
        at = self.interfaces[sent["router"]][sent["iface"]]
        peer = sent["peer"] or {"addr": GROUP, "port": 521}
        same("the number of a datagram", sent["datagram"], len(self.of_number))
        datagram = Datagram(bytes.fromhex(sent["bytes"]), at["addr"], peer["addr"], 521, peer["port"])
        self.of_number.append(Seen(at["link"], now, datagram, "", True))
        self.seen.append(self.of_number[-1])

    def links(self):
        return sorted({interface["link"] for router in self.interfaces for interface in router})
