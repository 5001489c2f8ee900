#!/usr/bin/env python3
"""A cable that loses: `wire.py DEVICE DEVICE FILE` carries frames between two devices, but as many thirds as FILE says.

The kernel's netem does the same where it was built with it. A frame goes out as it came in, with what the kernel says
of its checksum (PACKET_VNET_HDR)."""

import pathlib
import random
import select
import socket
import sys

SOL_PACKET, VNET_HEADER, IGNORE_OUTGOING, ALL = 263, 15, 23, 3


def opened(device):
    sock = socket.socket(socket.AF_PACKET, socket.SOCK_RAW, 0)
    sock.setsockopt(SOL_PACKET, VNET_HEADER, 1)
    sock.setsockopt(SOL_PACKET, IGNORE_OUTGOING, 1)
    sock.bind((device, ALL))
    return sock


def main():
    ends, chance = [opened(device) for device in sys.argv[1:3]], random.Random(1)
    thirds = pathlib.Path(sys.argv[3])
    while True:
        for sock in select.select(ends, [], [])[0]:
            frame = sock.recv(1 << 17)
            if chance.randrange(3) >= int(thirds.read_text()):
                try:
                    ends[sock is ends[0]].send(frame)
                except OSError:  # the other end is down
                    pass


if __name__ == "__main__":
    main()
