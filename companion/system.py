"""The system's devices and addresses, and whether it forwards packets, as ip(8) says."""

import json
import subprocess
from dataclasses import dataclass
from ipaddress import IPv6Address, IPv6Network

from journal import say

UP, NO_FORWARDING = "is up", "the system forwards no packets; write `sysctl net.ipv6.conf.all.forwarding=1`"
UNSURE = {"tentative", "dadfailed"}
# How often `ip` is asked before it has failed: a table may change while it is read. What it says then, and of a table without a route.
TIMES, CHANGED, NO_TABLE = 3, "Dump was interrupted", "FIB table does not exist"


# What `ip` was asked, and did not say.
unknown = set()


def told(what, *words):
    """What `ip` says, or None where it fails, which is then said, once until it no longer does."""
    for _ in range(TIMES):
        try:
            done = subprocess.run(["ip", "-j", *words], capture_output=True, text=True, check=False)
            why = f"ends with status {done.returncode}; run it to see why" if done.returncode else "is interrupted by changes"
            if NO_TABLE in done.stderr:
                return []
            if done.returncode == 0 and CHANGED not in done.stderr:
                unknown.discard(words)
                return json.loads(done.stdout or "[]")
        except OSError as fault:
            why = f"cannot be started: {fault.strerror}"
        except ValueError:
            why = "gives no JSON; ripngd-links needs the ip(8) of iproute2"
    if words not in unknown:
        unknown.add(words)
        say(f"{what} are not known, which is tried again: `ip -j {' '.join(words)}` {why}")
    return None


@dataclass
class Device:
    """A device: its link-local address, or the one that another on the link has, or whether one is still tried; the prefixes of its
    global ones; the bridge of which it is a port; and more."""

    index: int
    is_on: bool
    carrier: bool
    mtu: int
    link_local: IPv6Address | None
    refused: IPv6Address | None
    is_trying: bool
    is_loopback: bool
    bridge: str | None
    prefixes: set[IPv6Network]


def devices():
    """All devices, by name, or None where that is not known. An address that is not yet known to be of this device alone does not count."""
    found = told("the devices", "-d", "address")
    return found and {entry["ifname"]: device(entry) for entry in found if "ifname" in entry}


def device(entry):
    """A device as `ip` says it."""
    listed = [one for one in entry["addr_info"] if one["family"] == "inet6"]
    sure = [one for one in listed if not UNSURE & one.keys()]
    near = [IPv6Address(one["local"]) for one in sure if one["scope"] == "link"]
    far = [(one.get("address", one["local"]), one["prefixlen"]) for one in sure if one["scope"] == "global"]
    refused = [IPv6Address(one["local"]) for one in listed if one["scope"] == "link" and "dadfailed" in one]
    is_trying = any(one["scope"] == "link" and "tentative" in one for one in listed)
    return Device(
        index=entry["ifindex"],
        is_on="UP" in entry["flags"],
        carrier={"UP", "LOWER_UP"} <= set(entry["flags"]),
        mtu=entry["mtu"],
        link_local=near[0] if near else None,
        refused=refused[0] if refused and not near else None,
        is_trying=is_trying and not refused,
        is_loopback="LOOPBACK" in entry["flags"],
        bridge=entry.get("master") if entry.get("linkinfo", {}).get("info_slave_kind") == "bridge" else None,
        prefixes={IPv6Network(prefix, strict=False) for prefix in far},
    )


def forwards():
    """Whether the system forwards packets, or None where that is not known."""
    found = told("settings of the system", "-6", "netconf")
    return None if found is None else any(one["forwarding"] for one in found if one["interface"] == "all")


def state_of(device, stub=False):
    """Whether a link is up on a device, or why it is not; a stub needs no link-local address."""
    if not device:
        return "is not there"
    if not device.carrier:
        return "has no carrier"
    if device.bridge:
        return f"is a port of the bridge {device.bridge}; name that as the link"
    if device.refused and not stub:
        return f"has no link-local address, since another has {device.refused} there"
    return UP if device.link_local or stub else "has no link-local address"
