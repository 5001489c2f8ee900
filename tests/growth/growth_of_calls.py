#!/usr/bin/env python3
"""Each growth of calls refused in turn: crates/test_rows plays cases of its data with the first allocation refused, then with the second,
and so on until none is; and with all refused from the first on, from the second on, and so on.

    tests/growth/growth_of_calls.py ROWS_PROGRAM [NAME..]        all cases, or those that have NAME in theirs

A call that is refused has to leave all readers as they were, and made again it has to do what it does undisturbed: then the case
turns out as without the refusal. What takes no memory succeeds whatever is refused. Only where the program itself cannot go on it
ends with status 3. And removed routes give their memory back.
"""

import os
import pathlib
import subprocess
import sys

sys.dont_write_bytecode = True
sys.path.append(str(pathlib.Path(__file__).resolve().parents[1] / "support"))
from refusing import Refuser, is_same
from suite import Failed, named, play

DATA = pathlib.Path(__file__).resolve().parents[2] / "crates/test_rows/data"

# The cases, and what has to be refused at least once in each: the program tells on standard error which call it was.
REFUSED = {
    "the longest prefix wins": "apply",
    "a default route holds all": "apply",
    "changes in order are merged": "apply",
    "changes are appended at the end": "apply",
    "a start owns its prefixes": "start",
    "a route is learned": "router, hear, a new route",
    "bad entries are noted and the rest is learned": "router, hear, a new route",
    "a silent neighbor is given up": "router, hear, a new route, tick",
    "the whole table is told with poison to whoever may ask": "router, hear",
    "other requests are answered entry by entry": "router, hear",
    "a restart owns what was gained last": "gain, drop, restart",
    "a router shuts down, and its link goes down": "shutdown, link-down",
    "what changes nothing takes no memory": "router, tick",
}


# How often routes come and go, and how many bytes one that is left may take in either store. A block of 128 routes takes 11,000.
CYCLES, LEFT_BYTES = 200, 1000


def texts():
    """The text of each case, by its name."""
    cases = (case for file in DATA.glob("*.txt") for case in file.read_text().split("\n# ")[1:])
    return {case.partition("\n")[0]: f"\n# {case}" for case in cases}


def judged(run, want):
    """Which calls were refused in a run that does what the undisturbed one does, or ends since the program wants memory itself."""
    if run.returncode == 3 and want.stdout.startswith(run.stdout):
        return set()
    if (run.returncode, run.stdout) != (0, want.stdout):
        return None
    told = run.stderr.decode().splitlines()
    return {line.removeprefix("refused: ") for line in told} if all(line.startswith("refused: ") for line in told) else None


def run_without(refuser, file, first):
    """A run in which the first allocation that is named is refused, and all behind it."""
    environment = dict(os.environ, LD_PRELOAD=refuser.library, REFUSE_FROM=str(first))
    return subprocess.run([refuser.program, file], stdin=subprocess.DEVNULL, capture_output=True, timeout=60, env=environment)


def sweep(refuser, folder, name, text):
    """Refuses each allocation of a case in turn, and then all from each on."""
    file = pathlib.Path(folder, "rows")
    file.write_text(text)
    want, total = refuser.run([str(file)], 0)
    if want.returncode or want.stderr or b"1 passed, 0 failed" not in want.stdout:
        raise Failed(f"undisturbed it ends with {want.returncode}: {want.stdout.decode()}")
    refused = set()
    for nth in range(1, total + 2):
        alone, _ = refuser.run([str(file)], nth)
        for run in alone, run_without(refuser, file, nth):
            calls = judged(run, want)
            if calls is None:
                raise Failed(f"without allocation {nth} it ends with {run.returncode}: {run.stdout.decode()} {run.stderr.decode()}")
            refused |= calls
    if not is_same(run, want):
        raise Failed("a run in which none is refused is another")
    missing = set(REFUSED[name].split(", ")) - refused
    if missing:
        raise Failed(f"never refused: {', '.join(sorted(missing))}")


def cases_of_calls(refuser):
    """What is played for each of the cases."""
    text = texts()
    return [(f"calls: {name}", lambda folder, name=name: sweep(refuser, folder, name, text[name])) for name in REFUSED]


def most_bytes(refuser, folder, left):
    """The most memory of a run in which 128 routes are added in order, CYCLES times, and each time all but the last so many are removed."""
    lines = ["", "# routes come and go"]
    for first in range(0, CYCLES * 128, 128):
        prefixes = [f"2001:db8:{number:x}::/48" for number in range(first, first + 128)]
        lines += [f"> add {prefix} live 1000" for prefix in prefixes] + [f"> remove {prefix}" for prefix in prefixes[: 128 - left]]
    file = pathlib.Path(folder, "rows")
    file.write_text("\n".join(lines) + "\n")
    run, _, most = refuser.counted([str(file)])
    if b"1 passed, 0 failed" not in run.stdout:
        raise Failed(f"it ends with {run.returncode}: {run.stdout.decode()}")
    return most


def leaves_few_bytes(refuser, folder):
    """A route that is left takes its own memory, and not that of all that came with it: small blocks of a store are joined."""
    more = most_bytes(refuser, folder, 1) - most_bytes(refuser, folder, 0)
    if more > CYCLES * LEFT_BYTES:
        raise Failed(f"{CYCLES} routes that are left take {more} bytes more than none")


def main(program, *names):
    with Refuser(program) as refuser:
        memory = ("memory: a route that is left takes that of one", lambda folder: leaves_few_bytes(refuser, folder))
        return play(named([*cases_of_calls(refuser), memory], names))


if __name__ == "__main__":
    sys.exit(main(*sys.argv[1:]))
