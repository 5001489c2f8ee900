"""A table is read anew by a companion that runs: `ripngd-links reload`."""

import argparse
from dataclasses import fields

from asking import FOLDER, ask
from table import Fault, Table

# What stays as it was at the start: the account and its folder, and what the kernel's routes have in common.
FIXED = ("user", "folder", "table", "protocol", "priority")


def refuse_fixed(old, new):
    """Refuses a table that changes what only a restart changes."""
    for key in FIXED:
        if getattr(old, key) != getattr(new, key):
            raise Fault(f"{key} is changed by a restart alone")


def of_records(old, new, key):
    """What comes, goes or changes of records that have that key."""
    was, now = ({getattr(one, key): one for one in records} for records in (old, new))
    yield from (f"{name} goes" for name in was if name not in now)
    yield from (f"{name} comes" for name in now if name not in was)
    for name in was.keys() & now.keys():
        for one in fields(now[name]):
            before, after = getattr(was[name], one.name), getattr(now[name], one.name)
            if before != after:
                yield f"{name}: {one.name} {after}"


def changes(old, new):
    """What another table changes, in words."""
    yield from of_records(old.link, new.link, "device")
    yield from of_records(old.prefix, new.prefix, "prefix")
    for one in fields(Table):
        if one.name not in ("link", "prefix") and getattr(old, one.name) != getattr(new, one.name):
            yield f"{one.name} {getattr(new, one.name)}"


def main(words):
    parser = argparse.ArgumentParser(prog="ripngd-links reload", description="Has a companion that runs read its configuration anew.")
    parser.add_argument("folder", nargs="?", default=FOLDER, help="its folder (default: %(default)s)")
    told = ask(parser.parse_args(words).folder, "reload")
    if told["fault"]:
        raise Fault(f"not reloaded, all goes on as it was: {told['fault']}")
    print("\n".join(["ok", *told["changes"]]))
