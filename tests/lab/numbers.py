#!/usr/bin/env python3
"""Lines of numbers of a laboratory, by intervals and by seeds, beside a plain count of its trace and what `counts` prints.

    tests/lab/numbers.py PROGRAM [NAME..]      all cases, or those that have NAME in theirs
"""

import collections
import csv
import pathlib
import subprocess
import sys

sys.dont_write_bytecode = True
sys.path.append(str(pathlib.Path(__file__).resolve().parents[1] / "support"))
from networks import Owner, Port, lab, lines_of
from suite import Failed, named, play, same
from recounted import events_of

ROOT = pathlib.Path(__file__).resolve().parents[2]
NUMBERS = ("datagrams", "entries", "bytes", "regular", "triggered", "requests", "replies", "changes")
SEEDS = ROOT / "tools/seeds.sh"


def ring(routers, loss):
    """A ring of routers, each with a prefix, whose links lose so many datagrams in a hundred and take 30 ms and more."""
    ports = []
    for link in range(routers):
        ports += [Port(router, len([port for port in ports if port.router == router]), f"fe80::{router}:{link}", 1, link)
                  for router in (link, (link + 1) % routers)]
    owners = [Owner(router, f"2001:db8:{router:x}::/48", "0") for router in range(routers)]
    links = [f"link {link} {30 + 7 * link} {loss}" for link in range(routers)]
    return "\n".join([*lines_of(ports, owners), "cold 4000", *links, ""])


# Scripts whose numbers are counted: runs, cuts, waves, questions of outside hosts, forged Responses and changes.
SCRIPTS = {
    "a run with a cut": ring(6, 0) + "run 200000\ndown 2 200500\nrun 400000\n",
    "a run with losses": ring(5, 30) + "run 150000 9\nsilent 3\nrun 300000 11\n",
    "waves": ring(4, 0) + "hear\nrounds 4 5000 30000\ntell 0 125500 7 but 0\ncosts 1 126000 9\nround 200000\n",
    "phases": ring(5, 0) + "phases 6 3\n",
    "a liar and a stranger": ring(3, 0) + ("run 60000\nliar 0 0 60500 fe80::77 2001:db8:77::/48 2\nask 1 0 61000 fe80::99 9000 all\n"
                                           "stranger 2 0 61500 fe80::99 521 1 group 02010000\nrun 120000\n"),
    "changes": ring(4, 0) + "run 40000\ngain 1 40500 2001:db8:99::/48 5\nrestart 2 41000\nshutdown 3 42000\ndrop 1 43000 2001:db8:99::/48\nrun 90000\n",
}


def rows_of(program, script, *options):
    """The lines of numbers of a script, as maps."""
    rows = list(csv.DictReader(lab(program, script, *options)))
    return [{name: int(value) if value.isdigit() else value for name, value in row.items()} for row in rows]


def counted(rows):
    """The sum of rows."""
    return {name: sum(row[name] for row in rows) for name in NUMBERS}


def counts_of(program, script):
    """What `counts` prints at the end of a script."""
    words = lab(program, script + "counts\n")[-1].split()
    return dict(zip(words[::2], words[1::2]))


def is_recounted(program, script, seconds):
    """Each line has what the trace has of its interval and router, and there is one for each from the start on."""
    wanted, begun, last = collections.Counter(), None, 0
    for moment, router, numbers in events_of(lab(program, script, "--trace")):
        begun = moment if begun is None else begun
        last = max(last, moment)
        for name, number in numbers.items():
            wanted[moment // 1000 // seconds * seconds, router, name] += number
    routers = script.count("router")
    found = rows_of(program, script, "--csv", str(seconds), "--by", "router")
    times = range(begun // 1000 // seconds * seconds, last // 1000 + 1, seconds)
    same("the lines", [(row["time"], row["router"]) for row in found], [(time, router) for time in times for router in range(routers)])
    for row in found:
        same(f"the line of {row['time']} and {row['router']}", {name: row[name] for name in NUMBERS},
             {name: wanted[row["time"], row["router"], name] for name in NUMBERS})
    for row in rows_of(program, script, "--csv", str(seconds)):
        same(f"the line of {row['time']}", {name: row[name] for name in NUMBERS}, counted([other for other in found if other["time"] == row["time"]]))


def is_as_counted(program, script):
    """The lines of intervals of any length have what `counts` has, and so has the line of a seed."""
    counts = counts_of(program, script)
    wanted = {name: int(counts[name]) for name in NUMBERS}
    for seconds in (1, 7, 1000, 4_000_000):
        same(f"the sum by {seconds} s", counted(rows_of(program, script, "--csv", str(seconds))), wanted)
    row, = rows_of(program, script, "--seeds", "0..0")
    same("the line of a seed", {name: row[name] for name in NUMBERS} | {"last": str(row["last"])}, wanted | {"last": counts["last"]})


def swept(program, script, seeds):
    """The status of a sweep, its lines, and what standard error has."""
    run = subprocess.run([program, "lab", "--seeds", seeds, "/dev/stdin"], input=script, capture_output=True, text=True, timeout=60)
    return run.returncode, run.stdout.splitlines(), run.stderr.splitlines()


LOSSY = ring(5, 30)


def seeds_are_those_of_lines(program):
    """A seed is that of the lines that name none."""
    for body in ("run 100000{}\n", "phases 3{}\n"):
        rows = rows_of(program, LOSSY + body.format(""), "--seeds", "1..12")
        for row in rows:
            counts = counts_of(program, LOSSY + body.format(f" {row['seed']}"))
            same(f"seed {row['seed']} of {body}", {name: str(row[name]) for name in (*NUMBERS, "last")}, {name: counts[name] for name in (*NUMBERS, "last")})
        if len({tuple(row[name] for name in NUMBERS) for row in rows}) < 4:
            raise Failed(f"the seeds of {body} hardly differ")
        again, other = LOSSY + body.format(" 3"), rows_of(program, LOSSY + body.format(" 3"), "--seeds", "1..2")
        same("a line that names a seed", [counted([row]) for row in other], 2 * [{name: int(counts_of(program, again)[name]) for name in NUMBERS}])


def fails_by_seed(program):
    """Each seed whose run does not end well is named, and they alone have status 1."""
    script = LOSSY + "run 4200\nexpect 1 2001:db8::/48 2\n"
    status, lines, said = swept(program, script, "1..24")
    ends = dict(line.split(",")[:2] for line in lines[1:])
    same("the seeds", list(ends), [str(seed) for seed in range(1, 25)])
    for seed, end in ends.items():
        run = subprocess.run([program, "lab", "/dev/stdin"], input=script.replace("run 4200", f"run 4200 {seed}"), capture_output=True, text=True)
        same(f"the end of seed {seed}", (str(run.returncode), [f"ripngd: seed {seed}: {line}" for line in run.stdout.splitlines()]),
             (end, [line for line in said if line.startswith(f"ripngd: seed {seed}: ")]))
    same("whether some end well, and some not", set(ends.values()), {"0", "1"})
    same("the status", status, 1)


def in_shares(program, folder):
    """A sweep in shares, side by side, writes what one sweep writes, with its status."""
    for script, seeds in ((LOSSY + "run 100000\n", "3..21"), (LOSSY + "run 4200\nexpect 1 2001:db8::/48 2\n", "1..5"), (LOSSY, "7..7")):
        path = pathlib.Path(folder) / "sweep.lab"
        path.write_text(script)
        wanted = swept(program, script, seeds)
        for jobs in ("1", "2", "7"):
            run = subprocess.run([SEEDS, "--jobs", jobs, "--program", program, seeds, path], capture_output=True, text=True)
            same(f"{seeds} by {jobs}", (run.returncode, run.stdout.splitlines(), run.stderr.splitlines()), wanted)


def refuses(program, folder):
    """What the script of a sweep in shares refuses, and what the program does."""
    path = pathlib.Path(folder) / "sweep.lab"
    path.write_text(LOSSY)
    for words, status, said in (("--jobs 2 9..3", 2, "9..3 is no range"), ("--jobs 0 1..3", 2, "0 is no number of jobs"), ("--jobs 2 1..3 none", 3, "cannot read")):
        given = words.split() + ([str(path)] if "none" not in words else [])
        run = subprocess.run([SEEDS, "--program", program, *given], capture_output=True, text=True)
        same(f"the end of {words}", (run.returncode, run.stdout, said in run.stderr), (status, "", True))


def cases_of(program):
    yield from ((f"recounted from its trace: {name}, by {seconds} s", lambda folder, script=script, seconds=seconds: is_recounted(program, script, seconds))
                for name, script in SCRIPTS.items() for seconds in (1, 30, 1000))
    yield from ((f"as counts has it: {name}", lambda folder, script=script: is_as_counted(program, script)) for name, script in SCRIPTS.items())
    yield "a seed is that of the lines that name none", lambda folder: seeds_are_those_of_lines(program)
    yield "which seeds fail is said", lambda folder: fails_by_seed(program)
    yield "a sweep in shares is the whole sweep", lambda folder: in_shares(program, folder)
    yield "a sweep in shares is refused", lambda folder: refuses(program, folder)


if __name__ == "__main__":
    sys.exit(play(named(list(cases_of(str(pathlib.Path(sys.argv[1]).resolve()))), sys.argv[2:])))
