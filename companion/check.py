"""Says whether a table would be taken: `ripngd-links check CONFIG`. Needs no privilege, and changes nothing."""

import argparse
import pwd

from journal import say
from link import NAMED
from router import configuration, fault_of, refuse_unproved
from sockets import ALONE, FAR, OF_GROUP
from system import NO_FORWARDING, devices, forwards, state_of
from table import Fault, read


def interfaces(table):
    """Those of a router on all links of the table, with addresses and descriptors that are made up."""
    spoken = [link for link in table.link if not link.stub]
    for number, link in enumerate(spoken):
        keys = {"address": f"fe80::{number + 1:x}", "cost": link.cost, "zone": link.zone or NAMED + 1 + number}
        yield keys | link.lists() | dict(zip((ALONE, OF_GROUP, FAR), range(3 + 3 * number, 6 + 3 * number)))


def taken(path, is_unproved):
    """The table of a file that would be taken, by the router, too, or a fault."""
    table = read(path)
    if not is_unproved:
        refuse_unproved(table.program)
    text = configuration(interfaces(table), {owned.prefix: owned.tag for owned in table.prefix})
    if fault := fault_of(table.program, text):
        raise Fault(f"{path}: the router says `{fault}`")
    return table


def warnings(table):
    """What is not as it needs to be on this system, which may not be the one that the table is for."""
    there = devices()
    for link in table.link if there is not None else ():
        if link.is_pattern and not any(map(link.matches, there)):
            yield f"no device matches {link.device}"
        elif not link.is_pattern and link.device not in there:
            yield f"{link.device} {state_of(None)}"
    if forwards() is False:
        yield NO_FORWARDING
    if table.user and table.user not in (account.pw_name for account in pwd.getpwall()):
        yield f"there is no account `{table.user}`"


def main(words):
    parser = argparse.ArgumentParser(prog="ripngd-links check", description="Says whether a configuration would be taken.")
    parser.add_argument("--unproved", action="store_true", help="take a router that is not proved, too")
    parser.add_argument("config", metavar="CONFIG")
    given = parser.parse_args(words)
    table = taken(given.config, given.unproved)
    for warning in warnings(table):
        say(f"warning: {warning}")
    stubs = sum(link.stub for link in table.link)
    print(f"ok links {len(table.link) - stubs} stubs {stubs} prefixes {len(table.prefix)}")
