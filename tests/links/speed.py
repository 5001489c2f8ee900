#!/usr/bin/env python3
"""How soon a large table stands in the kernel: `speed.py PROGRAM [ROUTES [RUNS]]` prints the seconds from BIRD's first
datagram to the last route, and what was lost on the way, of each run. Needs a machine with nothing else to do."""

import pathlib
import sys
import tempfile
import time

sys.dont_write_bytecode = True
sys.path.append(str(pathlib.Path(__file__).resolve().parents[1] / "support"))
from spaces import Bird, Net, Ours, until

# Waits for the first datagram to port 521 that comes to a device, and prints when it came.
FIRST = """import socket, sys, time
sock = socket.socket(socket.AF_PACKET, socket.SOCK_DGRAM, socket.htons(0x86DD))
sock.bind((sys.argv[1], 0x86DD))
while True:
    data, (_, _, kind, *_) = sock.recvfrom(2048)
    if kind != 4 and data[6] == 17 and data[42:44] == b"\\x02\\x09":
        print(time.monotonic(), flush=True)
        break
"""


def count(space):
    """Routes of ours in the kernel."""
    return space.do("sh", "-c", "ip -6 route show proto 152 | wc -l").strip()


def once(net, program, routes):
    """Seconds, and how much was lost."""
    b, o = net.space("b"), net.space("o")
    net.cable(b, o)
    ours = Ours(o, program, {"to-b": {}})
    until(20, "the router is up", lambda: "running, " in o.text("companion"))
    time.sleep(6)
    o.start("first", sys.executable, "-c", FIRST, "to-b")
    time.sleep(0.5)
    Bird(b, {"to-o": 1}, [f"2001:db8:{number:x}::/48" for number in range(0x1000, 0x1000 + routes)])
    while count(o) != str(routes):
        time.sleep(0.01)
    seconds = time.monotonic() - float(o.text("first"))
    return seconds, ours.lost()


def main():
    program, routes, runs = sys.argv[1], *map(int, (*sys.argv[2:], 10000, 5)[:2])
    for run in range(runs):
        with tempfile.TemporaryDirectory() as folder, Net(f"speed{run}", folder) as net:
            pathlib.Path(folder).chmod(0o755)
            seconds, lost = once(net, program, routes)
            print(f"{seconds:.2f} s, {lost} lost", flush=True)


if __name__ == "__main__":
    main()
