#!/usr/bin/env python3
"""What somebody sends on a link: `stranger.py DEVICE KIND [SOURCE [TIMES]]`, five times; of `request` it prints the answer, of
`query=ADDRESS`, which comes from beyond the link, too, and of `late` whether a second after it has an address it is asked. `flood` sends
3,000 Responses, each from another link-local address, and `in-the-name` one from an address that it need not have. `next-hop=ADDRESS` is a
Response of 2001:db8:bad::/48 by way of that address, and of 2001:db8:bae::/48 by way of the sender. `of=PREFIX,..` is one of these
prefixes."""

import ipaddress
import os
import socket
import struct
import sys
import time

GROUP, PORT, TIMES, FLOOD = "ff02::9", 521, 5, 3000
# The traffic class that an answer has, CS6; the port and hop limit of a host that asks from afar.
NETWORK_CONTROL, ANY_PORT, FAR = 0xC0, 4000, 64
ENTRY = ipaddress.IPv6Address("2001:db8:bad::").packed + struct.pack("!HBB", 0, 48, 1)
RESPONSE = b"\2\1\0\0" + ENTRY
REQUEST = b"\1\1\0\0" + bytes(19) + b"\x10"
RUBBISH = (b"\2", b"\2\1\0\0" + bytes(19), b"\3\1\0\0" + ENTRY, b"\2\2\0\0" + ENTRY, b"\2\1\0\1" + ENTRY)


def through(address):
    """A Response whose first prefix goes by way of that address, and whose second one by way of who sends it."""
    hops = [ipaddress.IPv6Address(hop).packed + b"\0\0\0\xff" for hop in (address, "::")]
    other = ENTRY.replace(b"\x0b\xad", b"\x0b\xae")
    return b"\2\1\0\0" + hops[0] + ENTRY + hops[1] + other


def of(prefixes):
    """A Response of these prefixes."""
    networks = map(ipaddress.IPv6Network, prefixes.split(","))
    return b"\2\1\0\0" + b"".join(one.network_address.packed + struct.pack("!HBB", 0, one.prefixlen, 1) for one in networks)


def opened(index, source, port=PORT, hops=255):
    sock = socket.socket(socket.AF_INET6, socket.SOCK_DGRAM)
    sock.setsockopt(socket.IPPROTO_IPV6, socket.IPV6_MULTICAST_HOPS, hops)
    sock.setsockopt(socket.IPPROTO_IPV6, socket.IPV6_MULTICAST_IF, index)
    sock.setsockopt(socket.IPPROTO_IPV6, socket.IPV6_MULTICAST_LOOP, 0)
    sock.setsockopt(socket.IPPROTO_IPV6, socket.IPV6_UNICAST_HOPS, hops)
    sock.setsockopt(socket.IPPROTO_IPV6, socket.IPV6_RECVHOPLIMIT, 1)
    sock.setsockopt(socket.IPPROTO_IPV6, socket.IPV6_RECVTCLASS, 1)
    sock.bind((source, port, 0, index if source.startswith("fe80") else 0))
    return sock


def prefixes(data):
    return [f"{ipaddress.IPv6Address(data[at : at + 16])}/{data[at + 18]}" for at in range(4, len(data), 20)]


def answer(sock):
    """Hop limit and prefixes of the first answer, or what is wrong with it."""
    sock.settimeout(15)
    data = REQUEST
    while data[0] == REQUEST[0]:  # the router asks, too
        data, told, _, (_, port, *_) = sock.recvmsg(65535, 128)
    told = {kind: struct.unpack("@i", value)[0] for _, kind, value in told}
    if told[socket.IPV6_TCLASS] != NETWORK_CONTROL:
        return f"of traffic class {told[socket.IPV6_TCLASS]}"
    return " ".join([str(told[socket.IPV6_HOPLIMIT]), *prefixes(data)]) if port == PORT else f"from port {port}"


def query(index, source, to):
    """What a host is answered that asks an address of the router, or nothing."""
    sock = opened(index, source, ANY_PORT, FAR)
    sock.settimeout(3)
    sock.sendto(REQUEST, (to, PORT, 0, index if to.startswith("fe80") else 0))
    try:
        data, (host, port, *_) = sock.recvfrom(65535)
    except TimeoutError:
        return "nothing"
    return " ".join([f"from {host} port {port}:", *prefixes(data)])


def late(index, source):
    """Waits for its address, hears nothing for a second, and then says whether a whole table is asked for."""
    print("waits", flush=True)
    while True:
        try:
            opened(index, source).close()
            break
        except OSError:
            time.sleep(0.05)
    time.sleep(1)
    sock = opened(index, "::")
    request = ipaddress.IPv6Address(GROUP).packed + struct.pack("@I", index)
    sock.setsockopt(socket.IPPROTO_IPV6, socket.IPV6_JOIN_GROUP, request)
    sock.settimeout(20)
    return sock.recv(65535) == REQUEST


def checksum(data):
    """The checksum of the Internet, of an even number of bytes."""
    total = sum(struct.unpack(f"!{len(data) // 2}H", data))
    return 0xFFFF - total % 0xFFFF


def frame(source):
    """A Response to the group from that address, as it goes over a cable."""
    group = ipaddress.IPv6Address(GROUP).packed
    head = struct.pack("!HHH", PORT, PORT, 8 + len(RESPONSE))
    whole = struct.pack("!IxxxB", 8 + len(RESPONSE), socket.IPPROTO_UDP) + head + b"\0\0" + RESPONSE
    udp = head + struct.pack("!H", checksum(source + group + whole)) + RESPONSE
    ethernet = bytes.fromhex("333300000009 020000000001 86dd")
    return ethernet + struct.pack("!IHBB", 6 << 28, len(udp), socket.IPPROTO_UDP, 255) + source + group + udp


def flood(device, sources):
    """A Response from each source, whoever has it."""
    sock = socket.socket(socket.AF_PACKET, socket.SOCK_RAW)
    sock.bind((device, 0))
    for source in sources:
        sock.send(frame(source))


def main():
    device, kind, source, times = sys.argv[1:] + ["::", TIMES][len(sys.argv) - 3 :]
    if kind == "flood":
        return flood(device, (b"\xfe\x80" + bytes(6) + os.urandom(8) for _ in range(FLOOD)))
    if kind == "in-the-name":
        return flood(device, [ipaddress.IPv6Address(source).packed])
    index = socket.if_nametoindex(device)
    if kind == "late":
        return print(late(index, source), flush=True)
    kind, _, other = kind.partition("=")
    if kind == "query":
        return print(query(index, source, other))
    group = (GROUP, PORT, 0, index)
    sock = {
        "hop-limit": lambda: opened(index, source, hops=254),
        "global-source": lambda: opened(index, "2001:db8:5::2" if source == "::" else source),
        "other-port": lambda: opened(index, source, port=522),
    }.get(kind, lambda: opened(index, source))()
    if kind == "request":
        sock.sendto(REQUEST, group)
        return print(answer(sock))
    sent = {"rubbish": RUBBISH, "neighbor": (RESPONSE,), "responses": (RESPONSE,), "requests": (REQUEST,)}
    if kind in ("next-hop", "of"):
        sent[kind] = (through(other) if kind == "next-hop" else of(other),)
    for _ in range(int(times)):
        for data in sent.get(kind, (RESPONSE, REQUEST)):
            sock.sendto(data, group)
            time.sleep(0.0005)


if __name__ == "__main__":
    main()
