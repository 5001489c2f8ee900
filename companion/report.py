"""What a companion says of itself, in the shape of shape.py: of what it knows, and of the lines of `ctl status`."""

import functools
import os
import re
import tempfile
import time
from collections import Counter

from journal import log
from shape import ENTRIES, PACKETS, empty
from system import UP

# Lines of `ctl status`: of an interface, of what was refused there or of a neighbor, and of a neighbor. The words of others are in pairs.
INTERFACE = re.compile(r"interface (\d+) address \S+ (.*)")
REFUSED = re.compile(r"(?:refused|noted) \d+ (\w+) (\d+)")
NEIGHBOR = re.compile(r"(?:iface (\d+) from (\S+)|others) (arrivals .*)")
# Words of an interface that have another name in the shape.
NAMES = {"triggered": "triggered_updates", "answers": "queued_answers"}
# Reasons that are the operator's, and the sums of counts by rule: of datagrams, of entries, and of what is the operator's will.
FILTERED = {"NotAccepted": "not_accepted", "LimitReached": "limit_reached"}
SUMS = {"bad_packets": PACKETS, "bad_routes": [name for name in ENTRIES if name not in FILTERED]}
SUMS |= {key: [name] for name, key in FILTERED.items()}


@functools.lru_cache(maxsize=1024)  # most links and neighbors have said nothing from one look to the next
def numbers(words):
    """Pairs of a word and its number; none of a line that has others."""
    words = words.removeprefix("lost ").split()
    pairs = list(zip(words[::2], words[1::2]))
    return {word: int(number) for word, number in pairs} if all(number.isdigit() for _, number in pairs) else {}


def of_router(lines):
    """What the router says in these lines: in all, by interfaces, and by the interfaces and addresses of neighbors."""
    whole, interfaces, neighbors = {"refused": {}}, {}, {}
    now = whole
    for line in lines:
        if found := INTERFACE.match(line):
            now = interfaces[int(found[1])] = numbers(found[2]) | {"refused": {}}
        elif found := REFUSED.fullmatch(line):
            now["refused"][found[1]] = int(found[2])
        elif found := NEIGHBOR.fullmatch(line):
            now = neighbors[found[1] and int(found[1]), found[2]] = numbers(found[3]) | {"refused": {}}
        elif line == "log failed":
            whole["log_failed"] = True
        else:
            now, words = whole, numbers(line)
            whole |= {f"lost_{word}": number for word, number in words.items()} if line.startswith("lost ") else words
    return whole, interfaces, neighbors


def filled(start, known):
    """All that the shape has below that name, with what is known of it."""
    found = empty(start)
    refused = {"refused": found["refused"] | known.get("refused", {})} if "refused" in found and start != "kernel." else {}
    return found | {key: value for key, value in known.items() if key in found} | refused


def sums(refused):
    """Counts by rule in sums."""
    return {key: sum(refused.get(name, 0) for name in names) if refused else 0 for key, names in SUMS.items()}


def of_counts(counted, now):
    """What is counted of a neighbor, or at an interface."""
    known = {NAMES.get(word, word): number for word, number in counted.items()} | sums(counted["refused"])
    if "last" in counted and counted.get("responses"):
        known["response_seconds_ago"] = round((now - counted["last"]) / 1000, 1)
    return known


def of_neighbor(counted, address, routes, now):
    """One neighbor."""
    return filled("links[].neighbors[].", of_counts(counted, now) | {"address": address, "routes": routes})


def put_counts(link, counted, now):
    """Puts what the router counts at an interface, also of senders that have no line any more, into what is known of its link."""
    known = {key: value for key, value in of_counts(counted, now).items() if key in link}
    link |= known | {"refused": link["refused"] | known["refused"]}


def of_link(words, state, link, now):
    """What the companion knows of a link. The number of an interface is the router's, or none."""
    known = {"device": words.device, "state": state.text, "up": state.text == UP, "changes": state.changes, "stub": words.stub}
    known |= {"changed_seconds_ago": round(now - state.since, 1), "cost": words.cost, "limit": words.limit}
    if link:
        known |= {"interface": link.number, "address": str(link.address) if link.up else None}
    return filled("links[].", known) | {"neighbors": []}


def by_interface(neighbors):
    """The neighbors of each interface, by address."""
    found = {}
    for (number, address), counted in neighbors.items():
        found.setdefault(number, {})[address] = counted
    return found


def join(told, lines, forwarding):
    """Puts what the router says into a report, with how many routes go by each neighbor."""
    hops = Counter((number, via) for via, number in forwarding.values())
    by_link = Counter(number for _, number in forwarding.values())
    whole, interfaces, neighbors = of_router(lines)
    at = by_interface(neighbors)
    told["router"] = filled("router.", told["router"] | whole | {"answers": bool(lines)})
    for link in told["links"]:
        number = link["interface"]
        if number is None:
            continue
        if number in interfaces:
            put_counts(link, interfaces[number], whole.get("now", 0))
        link["routes"] = by_link[number]
        for address, counted in at.get(number, {}).items():
            link["neighbors"].append(of_neighbor(counted, address, hops[number, address], whole.get("now", 0)))
    return told


def known(companion):
    """All that the companion knows."""
    now, router, kernel, counts = time.monotonic(), companion.router, companion.kernel, companion.counts
    told = {"written_timestamp_seconds": round(time.time(), 3), "config": companion.path, "uptime_seconds": round(now - companion.began, 1)}
    told |= {"reloads": counts["reloads"], "reloads_refused": counts["reloads_refused"], "log_lines_lost": log.lost}
    told["router"] = {"ready": router.ready, "control": router.control, "starts": counts["starts"]}
    told["router"] |= {"route_changes": counts["route_changes"], "uptime_seconds": router.age(now)}
    known = {"used": kernel.is_used, "forwarding": companion.pulse.forwards is not False, "routes": len(kernel.held)}
    known |= {"refused": sorted(kernel.refused), "refused_routes": len(kernel.refused), "mended_routes": kernel.mended}
    told["kernel"] = filled("kernel.", known)
    plan, states = companion.plan, companion.states.known
    told["links"] = [of_link(words, states[name], plan.links.get(name), now) for name, words in plan.places.items() if name in states]
    return filled("", told) | {key: told[key] for key in ("router", "kernel", "links")}


def put(path, text):
    """The file has that text, at once and as a whole, and everybody may read it."""
    file = tempfile.NamedTemporaryFile("w", dir=os.path.dirname(path) or ".", prefix=".ripngd-links-", delete=False)
    try:
        with file:
            file.write(text)
        os.chmod(file.name, 0o644)
        os.replace(file.name, path)
    except OSError:
        os.unlink(file.name)
        raise
