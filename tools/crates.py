#!/usr/bin/env python3
"""Which crates stand on which, as crates.txt says.

    tools/crates.py below CRATE        the crate, and all that it stands on
    tools/crates.py above CRATE        the crate, and all that stand on it
    tools/crates.py around CRATE       these, and all that they stand on
"""
import pathlib
import sys

LINES = (pathlib.Path(__file__).parent.parent / "crates.txt").read_text().splitlines()
# A line has a name, for a static library that word, and behind a colon what it uses.
USES = {head.split()[0]: used.split() for head, colon, used in (line.partition(":") for line in LINES if line[:1] != "#") if colon}


def below(crate):
    """The crate, and all that it stands on in this repository."""
    return {crate}.union(*(below(one) for one in USES[crate] if one in USES))


def main():
    way, crate = sys.argv[1:]
    if crate not in USES:
        sys.exit(f"crates.txt has no crate {crate}")
    above = {one for one in USES if crate in below(one)}
    found = {"below": below(crate), "above": above, "around": set().union(*map(below, above))}[way]
    print(*(one for one in USES if one in found))


if __name__ == "__main__":
    main()
