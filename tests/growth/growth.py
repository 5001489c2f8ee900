#!/usr/bin/env python3
"""Each growth refused in turn, of the commands of the program: the first allocation of a run, the second, and so on until none is refused.
A run has to end with status 3 and `out of memory`, and nothing that looks like more than it is; or do what the undisturbed run does; or
say what it has left out for want of memory, as a router may do. No run hangs, ends by a signal, or gives another answer.

    tests/growth/growth.py PROGRAM [ROWS_PROGRAM] [NAME..]        all cases, or those that have NAME in theirs

ROWS_PROGRAM is a file, crates/test_rows as it was built: calls that no command reaches, which tests/growth/growth_of_calls.py has it make.
"""

import contextlib
import json
import pathlib
import re
import sys

sys.dont_write_bytecode = True
sys.path.append(str(pathlib.Path(__file__).resolve().parents[1] / "support"))
from growth_over_sockets import sweep_router
from refusing import MESSAGE, Refuser, is_told, sweep
from suite import Failed, named, play

EXAMPLES = pathlib.Path(__file__).resolve().parents[2] / "examples"

NO_MEMORY = '"number":24,"name":"NoMemory"'
SKIPPED = "is skipped, 24 NoMemory"

# A Response with 2001:db8::/32 at metric 1, and one of six entries.
ONE_ROUTE = "0201000020010db800000000000000000000000000002001"
SIX_ROUTES = "02010000" + "".join(f"20010db8000{net}000{number}00000000000000000000400{number}" for net in "bf" for number in (1, 2, 3))

# Who is no router of the network asks, tells and sends what nobody takes; then costs and prefixes change.
STRANGERS = """router
iface fe80::a0 1 1280 0
own 2001:db8::/32 9
router
iface fe80::b0 4 1280 0
cold 0
stranger 1 0 0 fe80::99 522 255 group 0201000020010db800000000000000000000000000002001
stranger 0 0 0 fe80::99 520 255 peer 010100000000000000000000000000000000000000000010
ask 0 0 0 fe80::99 521 2001:db8:1::/48
liar 1 0 10 fe80::66 0201000020010db900000000000000000000000000012001
gain 1 20 2001:db8:2::/48 7
cost 0 0 20 3
restart 0 30
drop 1 40 2001:db8:2::/48
sent
print
"""

# In two minutes, or rounds, the second router learns of the prefix.
PAIR = "router\niface fe80::a0 1 1280 0\nown 2001:db8::/32 9\nrouter\niface fe80::b0 4 1280 0\ncold 0\n"
PHASES, ROUNDS = PAIR + "phases 2 7\nprint\n", PAIR + "rounds 2 0 15000\nprint\n"


def is_told_behind_lines(run, want, noted=None):
    """A run that says so behind whole lines of the undisturbed one, and perhaps one that notes a skipped entry: rounds and phases end with
    it."""
    lines, wanted = run.stdout.decode().splitlines(True), want.stdout.decode().splitlines(True)
    if noted and lines and noted in lines[-1]:
        lines.pop()
    told = (run.returncode, run.stderr) == (3, MESSAGE) and lines == wanted[:len(lines)]
    return "out of memory" if told and all(line.endswith("\n") for line in lines) else None


def is_told_or_has_no_hint(run, want):
    """What to write in place of a refused line may be left out."""
    hintless = (run.returncode, run.stdout, run.stderr) == (want.returncode, want.stdout, b"")
    return "no hint" if hintless else is_told_behind_lines(run, want)


class Laboratory:
    """A script, whose routers may skip an entry for want of memory, as the trace says. What it prints then, the script prints without
    the trace, too. Rounds and phases do not go on behind that."""

    def __init__(self, refuser, script, skips=True):
        self.refuser, self.script, self.skips, self.answers = refuser, script, skips, set()

    def sweep(self):
        sweep(self.refuser, ["lab", "--trace", self.script], self.is_traced)
        sweep(self.refuser, ["lab", "--explain", self.script], self.is_explained)
        sweep(self.refuser, ["lab", self.script], self.is_printed)
        if self.skips != bool(self.answers):
            raise Failed(f"answers where an entry was skipped: {self.answers}")

    def is_traced(self, run, want):
        """A trace that is the undisturbed one up to the event that notes the skipped entry."""
        records, wanted = run.stdout.splitlines(), want.stdout.splitlines()
        noted = [place for place, record in enumerate(records) if NO_MEMORY.encode() in record]
        if run.returncode not in (0, 1) or run.stderr or len(noted) != 1 or records[:noted[0]] != wanted[:noted[0]]:
            return is_told_behind_lines(run, want, NO_MEMORY)
        self.answers.add((run.returncode, printed_of(records)))
        return "an entry skipped"

    def is_explained(self, run, want):
        lines = run.stdout.decode().splitlines()
        said = [line for line in lines if re.match(r"line \d+: (\d+\.\d{3} s |datagram \d+ is lost$|\d+ rounds are made; )", line)]
        noted = sum(SKIPPED in line for line in said) == 1
        answer = (run.returncode, tuple(line for line in lines if line not in said))
        return "an entry skipped" if noted and answer in self.answers else is_told_behind_lines(run, want, SKIPPED)

    def is_printed(self, run, want):
        answer = (run.returncode, tuple(run.stdout.decode().splitlines()))
        return "an entry skipped" if answer in self.answers else is_told_behind_lines(run, want)


def printed_of(records):
    """The lines that a script prints, by its trace."""
    lines = []
    for record in map(json.loads, records):
        match record:
            case {"prints": prints}:
                lines += prints
            case {"record": "refused", "line": line, "why": why}:
                lines.append(f"line {line} {why if why.startswith('expected ') else 'refused ' + why}")
            case {"record": "phases", "phases": phases, "last": last}:
                lines.append(f"phases {phases} last change {'none' if last is None else last}")
    return tuple(lines)


# A log that adds and deletes, with a line `start` between; a configuration and a script that are refused.
LOG = "\n".join(["add ::/0 metric 1 direct", "start", *(f"add 2001:db8:{net}::/48 metric 2 via fe80::2 iface 0" for net in range(20)),
                 "del 2001:db8:7::/48", ""])
BAD_CONFIGURATION = "[[interface]]\naddress = 5\n"
BAD_SCRIPT = "router\niface fe80::1 1 1280 0\ncold 0\ntik 0 0 0\n"


def cases_of(refuser):
    """Each command with what its runs may do."""
    east, line, moving = (str(EXAMPLES / name) for name in ("east.toml", "line.lab", "moving.lab"))

    def case(name, judge, *words, text=None):
        """A command whose last word names a file that holds the text, where there is one."""
        return name, lambda folder: sweep(refuser, [*words, *written(folder, text)], judge)

    def laboratory(name, *file, text=None, skips=True):
        return name, lambda folder: Laboratory(refuser, *file, *written(folder, text), skips).sweep()

    return [
        case("show of one route", is_told, "show", ONE_ROUTE),
        case("show of six routes", is_told, "show", SIX_ROUTES),
        case("show of what is no datagram", is_told, "show", "0x"),
        case("check", is_told, "check", east),
        case("check of a configuration that is refused", is_told, "check", text=BAD_CONFIGURATION),
        case("table", is_told, "table", text=LOG),
        case("help", is_told, "help", "lab"),
        laboratory("lab of the line, and its trace", line),
        laboratory("lab of a prefix that moves, and its trace", moving),
        laboratory("lab of strangers, and its trace", text=STRANGERS),
        laboratory("lab of phases, and its trace", text=PHASES, skips=False),
        laboratory("lab of rounds, and its trace", text=ROUNDS, skips=False),
        case("lab of a line that is refused", is_told_or_has_no_hint, "lab", text=BAD_SCRIPT),
        # The steps that may be lost ask for at least eight allocations in a row: every fourth has two of them.
        *((f"run, {first}", lambda folder, first=first: sweep_router(refuser, folder, first, 4)) for first in range(1, 5)),
    ]


def written(folder, text):
    """The file that holds a text, if there is one."""
    if text is None:
        return []
    file = pathlib.Path(folder, "text")
    file.write_text(text)
    return [str(file)]


def main(program, *words):
    rows = [word for word in words if pathlib.Path(word).is_file()]
    names = [word for word in words if word not in rows]
    with contextlib.ExitStack() as stack:
        cases = cases_of(stack.enter_context(Refuser(program)))
        for each in rows:
            # What it plays, with each growth of each call refused in turn.
            from growth_of_calls import cases_of_calls
            cases += cases_of_calls(stack.enter_context(Refuser(each)))
        return play(named(cases, names), 8)


if __name__ == "__main__":
    sys.exit(main(*sys.argv[1:]))
