"""Lines that a router writes while it runs: changes of its forwarding table, what it refuses, and what else it says."""

import re

from journal import log

CHANGE = re.compile(r"(?:add|del) ([0-9a-f:]+/\d+)(?: metric (\d+) (?:direct|via ([0-9a-f:]+) iface (\d+)))?")
REFUSAL = re.compile(r"\d+ iface (\d+) (from \S+ port .*)")


def changes(lines):
    """What these lines of the log say of each prefix last: its metric, gateway and interface, of which the last two are None of an own
    one, or None; and all other lines."""
    changed, others = {}, []
    for line in lines:
        if found := CHANGE.fullmatch(line):
            prefix, metric, via, number = found.groups()
            changed.pop(prefix, None)
            changed[prefix] = metric and (int(metric), via, via and int(number))
        else:
            others.append(line)
    return changed, others


def say_change(prefix, change, devices):
    """Writes a change for somebody who reads it."""
    metric, via, number = change or (None, None, None)
    way = f"via {via} on {devices.get(number, 'a link that is gone')}" if via else "own"
    log.one_of_many("routes", f"ripngd-links: {prefix} {f'metric {metric} {way}' if change else 'is gone'}")


def say_line(line, devices):
    """Writes a line of standard error, with the device in place of the number of an interface."""
    if found := REFUSAL.fullmatch(line):
        log.one_of_many("-d", f"ripngd: {devices.get(int(found[1]), f'interface {found[1]}')} {found[2]}")
    else:
        log.line(line)
