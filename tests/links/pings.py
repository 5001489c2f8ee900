#!/usr/bin/env python3
"""A datagram each 50 milliseconds: `pings.py echo ADDRESS` says when it is ready, and sends each one back; `pings.py send ADDRESS THERE
SECONDS` prints how many it has sent, and how many did not come back."""

import socket
import sys
import time

# Seconds from one to the next, and for which what has not come back is waited for at the end: what is late on a machine that does much
# else is not lost.
PORT, EACH, LINGERS = 7008, 0.05, 15


def opened(address):
    sock = socket.socket(socket.AF_INET6, socket.SOCK_DGRAM)
    sock.bind((address, PORT))
    return sock


def echo(here):
    sock = opened(here)
    print("ready", flush=True)
    while True:
        sock.sendto(*sock.recvfrom(99))


def send(here, there, seconds):
    """Sends for so long, and listens a while longer for what has not come back."""
    sock, sent, back, began = opened(here), 0, set(), time.monotonic()
    sock.settimeout(EACH / 5)
    while (now := time.monotonic() - began) < seconds or len(back) < sent and now < seconds + LINGERS:
        if sent * EACH <= now < seconds:
            try:
                sock.sendto(str(sent).encode(), (there, PORT))
            except OSError:  # there is no way
                pass
            sent += 1
        try:
            back.add(sock.recv(99))
        except TimeoutError:
            pass
    print(f"sent {sent} lost {sent - len(back)}")


if __name__ == "__main__":
    if sys.argv[1] == "echo":
        echo(sys.argv[2])
    else:
        send(sys.argv[2], sys.argv[3], int(sys.argv[4]))
