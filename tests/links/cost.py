#!/usr/bin/env python3
"""What a datagram costs: `cost.py PROGRAM [DATAGRAMS]` prints the processor time of router and companion for a Response from a link, and
for a Request with its answer. Needs a machine with nothing else to do."""

import pathlib
import sys
import tempfile
import time

sys.dont_write_bytecode = True
sys.path.append(str(pathlib.Path(__file__).resolve().parents[1] / "support"))
from changes import routers_of
from edges import stranger
from spaces import Net, Ours, until


def spent(pid):
    """Nanoseconds of processor time, as the scheduler counts them."""
    return int(pathlib.Path(f"/proc/{pid}/schedstat").read_text().split()[0])


def main():
    program, many = sys.argv[1], int((*sys.argv[2:], 5000)[0])
    with tempfile.TemporaryDirectory() as folder, Net("cost", folder) as net:
        pathlib.Path(folder).chmod(0o755)
        o, s = net.space("o"), net.space("s")
        net.cable(o, s)
        ours = Ours(o, program, {"to-s": {}}, ["2001:db8:2::/48"])
        until(20, "the router is up", ours.table)
        time.sleep(7)
        stranger(s, "request")
        both = {"router": routers_of(ours)[0], "companion": ours.process.pid}
        for kind in ("responses", "requests"):
            time.sleep(1)
            before = {name: spent(pid) for name, pid in both.items()}
            stranger(s, kind, "::", str(many))
            until(60, "all is done", lambda: spent(both["router"]) - (time.sleep(1), spent(both["router"]))[1] > -1_000_000)
            each = {name: (spent(pid) - before[name]) / many / 1000 for name, pid in both.items()}
            print(f"{kind}: " + ", ".join(f"{name} {time:.1f} us" for name, time in each.items()))
        print(f"lost {ours.lost()}")


if __name__ == "__main__":
    main()
