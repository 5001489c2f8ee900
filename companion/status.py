"""How a companion that runs is: `ripngd-links status`."""

import argparse
import json
import os
import time

from asking import FOLDER, SOCKET, ask
from pulse import STATUS
from report import join, known
from system import NO_FORWARDING
from table import Fault

# Seconds that the router's part of an answer may take, and after which a status file is old.
SOON, OLD = 0.5, 60


async def report(companion):
    """All that is known, by the router, too, if it answers soon."""
    return join(known(companion), await companion.router.status(SOON), companion.forwarding)


def current(folder):
    """What the companion of that folder answers; who may not ask it reads the file that it writes for everybody."""
    if not os.path.exists(f"{folder}/{SOCKET}") or os.access(f"{folder}/{SOCKET}", os.W_OK):
        return ask(folder, "status")
    try:
        with open(f"{folder}/{STATUS}", "rb") as file:
            told = json.load(file)
        age = time.time() - told["written_timestamp_seconds"]
    except (OSError, ValueError) as fault:
        raise Fault(f"cannot read {folder}/{STATUS}: {fault.strerror if isinstance(fault, OSError) else fault}", 3) from None
    if age > OLD:
        raise Fault(f"{folder}/{STATUS} is {age:.0f} s old, so the companion has ended", 3)
    return told


def lines(told):
    """A report as text, line by line."""
    yield from of_router(told["router"])
    yield from of_kernel(told["kernel"])
    yield from [f"lines of the log that were lost {told['log_lines_lost']}"] * (told["log_lines_lost"] > 0)
    for link in told["links"]:
        yield from of_link(link)


def counted(refused, indent):
    return [f"{indent}refused {what} {number}" for what, number in refused.items() if number]


def of_router(router):
    state = "not up" if not router["ready"] else "up" if router["answers"] else "up, and does not answer"
    yield f"router is {state}, control socket {router['control']}"
    yield f"  started {router['starts']} times, last {router['uptime_seconds']:.0f} s ago"
    others = ("starts", "uptime_seconds")
    numbers = {what: number for what, number in router.items() if type(number) is int and what not in others}
    yield from (f"  {what.replace('_', ' ')} {number}" for what, number in numbers.items())
    yield from counted(router["refused"], "  ")


def of_kernel(kernel):
    yield f"kernel has {kernel['routes']} routes, refused {kernel['refused_routes']}" if kernel["used"] else "kernel is left alone"
    yield from (f"  refused {prefix}" for prefix in kernel["refused"])
    yield from [f"  {NO_FORWARDING}"] * (not kernel["forwarding"])


def of_link(link):
    words = [f"{link['device']} {link['state']}"]
    if link["stub"]:
        words.append("stub")
    elif link["address"]:
        words.append(f"address {link['address']}")
        words += [f"interface {link['interface']}"] if link["interface"] is not None else []
        words.append(f"cost {link['cost']}")
        words += [f"mtu {link['mtu']}"] if link["mtu"] else []
    yield ", ".join(words)
    if link["queued"] is not None:
        names = ("triggered_updates", "queued", "queued_answers", "bad_packets", "bad_routes")
        yield "  " + ", ".join(f"{name.replace('_', ' ')} {link[name]}" for name in names)
    for one in link["neighbors"]:
        ago = f"last Response {one['response_seconds_ago']:.0f} s ago, " if one["response_seconds_ago"] is not None else ""
        yield f"  neighbor {one['address']}, {ago}{one['routes']} routes"
        yield from counted(one["refused"], "    ")


def main(words):
    parser = argparse.ArgumentParser(prog="ripngd-links status", description="Says how a companion that runs is.")
    parser.add_argument("--json", action="store_true", help="as JSON")
    parser.add_argument("folder", nargs="?", default=FOLDER, help="its folder (default: %(default)s)")
    given = parser.parse_args(words)
    told = current(given.folder)
    print(json.dumps(told, indent=2) if given.json else "\n".join(lines(told)))
