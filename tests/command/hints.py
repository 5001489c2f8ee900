#!/usr/bin/env python3
"""Hints. A line of each form is obeyed, and with a word more it is refused, with the form as its hint. The record of a refused line in a
trace has the same hint as `lab` has on standard error, or none: in each case of hints, and in examples that were spoiled at random.

    tests/command/hints.py PROGRAM [NAME..]      all cases, or those that have NAME in theirs
"""

import json
import pathlib
import random
import re
import subprocess
import sys

sys.dont_write_bytecode = True
sys.path.append(str(pathlib.Path(__file__).resolve().parents[1] / "support"))
from cases import Case, blocks_of
from suite import Failed, named, play, same

TESTS = pathlib.Path(__file__).resolve().parents[1]
EXAMPLES = TESTS.parent / "examples"
SCRIPTS = TESTS.parent / "docs/SCRIPTS.md"
SECONDS = 60
HINT = re.compile(r"ripngd: line (\d+): (.*)")

# A word for each part of the forms, and two routers that each form can be about. `NotOwned` is how the next line is refused.
PARTS = {"NAME": "east", "ADDR": "fe80::c0", "COST": "2", "MTU": "1280", "LINK": "0", "PREFIX": "2001:db8::/32", "TAG": "7", "TIMES": "3",
         "NOW": "+0", "N": "last", "K": "0", "R": "west", "I": "0", "PORT": "521", "HOP": "255", "TO": "peer", "SOURCE": "fe80::9",
         "ASKED": "all", "WORD": "0", "ROUNDS": "2", "GAP": "30000", "PHASES": "2", "SEED": "1", "METRIC": "1", "REFUSAL": "NotOwned",
         "TEXT": "so be it", "HEX": "0101", "HOPS": "1", "FATE": "arrives", "HORIZON": "split",
         "UNTIL": "+1", "DELAY": "20", "LOSS": "10", "BY": "+0"}
ROUTERS = """router west
iface fe80::a0 1 1280 0
own 2001:db8::/32 9
router
iface fe80::b0 1 1280 0
"""
LISTED = ("router NAME", "router quiet NAME", "router quiet", "router", "iface ADDR COST MTU LINK", "iface ADDR COST LINK",
          "own PREFIX TAG times TIMES", "own PREFIX TAG", "cold NOW")
OBEYED = ("deliver N R I NOW", "stranger R I NOW SOURCE PORT HOP TO HEX", "ask R I NOW SOURCE PORT ASKED", "liar R I NOW SOURCE HEX",
          "liar R I NOW SOURCE PREFIX HOPS", "tick R NOW WORD", "tick R NOW", "tell R NOW WORD but K ..", "tell R NOW WORD", "tell R NOW but K ..",
          "tell R NOW", "hear but K ..", "hear", "restart R NOW", "shutdown R NOW", "cost R I NOW COST",
          "gain R NOW PREFIX TAG", "drop R NOW PREFIX", "round NOW", "rounds ROUNDS NOW GAP", "phases PHASES SEED", "phases PHASES", "run UNTIL SEED", "run UNTIL",
          "link LINK DELAY LOSS", "link LINK DELAY", "counts", "horizon R HORIZON", "asking off",
          "asking", "silent R", "speaks R",
          "cut LINK", "mend LINK", "down LINK NOW", "up LINK NOW", "costs LINK NOW COST", "lose N", "print R PREFIX", "print R", "print",
          "sent N", "sent", "say TEXT", "expect R PREFIX METRIC", "expect settled BY", "expect path R ADDR FATE", "path R ADDR", "refused REFUSAL")


def line_of(form):
    """A line of a form. A forged Response tells a route, a gained prefix is another one, and before a time none can be counted from."""
    words = {"gain": {"PREFIX": "2001:db8:1::/48"}, "expect": {"ADDR": "2001:db8::1"}, "liar": {"HEX": "0201000020010db8" + 24 * "0" + "00003001"}, "cold": {"NOW": "0"}}
    own = {**PARTS, **words.get(form.split(" ")[0], {})}
    return " ".join(own.get(word, word) for word in form.split(" ") if word != "..")


def played_with(program, form, more=""):
    """The form in a script: before the start, or after it."""
    line = line_of(form) + more
    if form in LISTED:
        script = f"{ROUTERS}{line}\n"
    else:
        script = f"{ROUTERS}cold 0\n{line}\n" + ("drop 1 +0 2001:db8::/32\n" if form.startswith("refused") and not more else "")
    return script, subprocess.run([program, "lab", "/dev/stdin"], input=script.encode(), capture_output=True, timeout=SECONDS)


def form_is_obeyed(program, form):
    script, run = played_with(program, form)
    same(f"the end of {script!r}: {run.stdout}", run.returncode, 0)


def form_is_hinted_at(program, form):
    """Where K is repeated, the next word is no K."""
    script, run = played_with(program, form, " x")
    line = script.count("\n")
    hint = f"ripngd: line {line}: a word is too many: the form is {form}\n"
    if form.endswith(".."):
        place = len(line_of(form).split(" "))
        hint = f"ripngd: line {line}: word {place} of {form.split(' ')[0]}: K is the number of a datagram that is lost, from 0 for the first\n"
    same(f"what is printed of {script!r}", run.stdout.decode(), f"line {line} refused BadLine\n")
    same(f"the hint of {script!r}", run.stderr.decode(), hint)


def goes_on(form):
    """Whether another form has a word more, as that of an interface with its MTU."""
    return form == "iface ADDR COST LINK" or any(other.startswith(form + " ") for other in LISTED + OBEYED)


def forms_are_those_of_the_manual():
    rows = re.findall(r"^\| `(\w+)", SCRIPTS.read_text().partition("## Lines")[2].partition("**Delivery")[0], re.M)
    same("the lines of the manual", sorted({*rows, "speaks", "mend", "shutdown", "up"}), sorted({form.split(" ")[0] for form in LISTED + OBEYED}))


def told(run):
    """The hint on standard error, as a record has it."""
    lines = run.stderr.decode().splitlines()
    if len(lines) > 1:
        raise Failed(f"standard error has {lines!r}")
    return [{"line": int(of), "text": text} for of, text in (HINT.fullmatch(line).groups() for line in lines)]


def traced(run):
    """The hint of the record of a refused line, which is the last one."""
    same("standard error of a trace", run.stderr, b"")
    records = [json.loads(line) for line in run.stdout.splitlines()[-1:]]
    return [record["hint"] for record in records if record["record"] == "refused" and record["hint"] is not None]


def has_the_same_hint(what, run):
    """`run` plays a script, with the options that it is given."""
    plain, trace = run(), run("--trace")
    same(f"the status of a trace of {what}", trace.returncode, plain.returncode)
    same(f"the hint in a trace of {what}", traced(trace), told(plain))


def cases_have_the_same_hint(program, folder, blocks):
    """Each command of a case of hints that runs a script."""
    case = Case(program, folder)

    def run(block, *options):
        command = block.text.replace("ripngd lab ", " ".join(["ripngd lab", *options, ""]))
        return subprocess.run(["bash", "-c", command], cwd=case.work, env=case.environment, capture_output=True, timeout=SECONDS)

    for block in blocks:
        if block.kind == "$":
            has_the_same_hint(block.text, lambda *options, block=block: run(block, *options))
        else:
            case.write(block)


def spoiled(seed):
    """An example in which some line has a word more, less or otherwise, or is gone, or stands twice."""
    words = random.Random(seed)
    example = words.choice(sorted(EXAMPLES.glob("**/*.lab")))
    lines = example.read_text().split("\n")
    at = words.choice([place for place, line in enumerate(lines) if line and not line.startswith("#")])
    line = lines[at].split(" ")
    place = words.randrange(len(line))
    other = words.choice(["0", "99", "last", "nobody", "fe80::1", "2001:db8::/32", "tik", "", "\t", '"\\'])
    lines[at:at + 1] = words.choice([
        [],
        [lines[at], lines[at]],
        [" ".join([*line[:place], *line[place + 1:]])],
        [" ".join([*line[:place], other, *line[place:]])],
        [" ".join([*line[:place], other, *line[place + 1:]])],
    ])
    return "\n".join(lines)


def spoiled_has_the_same_hint(program, seed):
    script = spoiled(seed)

    def run(*options):
        return subprocess.run([program, "lab", *options, "/dev/stdin"], input=script.encode(), capture_output=True, timeout=SECONDS)

    has_the_same_hint(repr(script), run)


def main(program, *names):
    program = pathlib.Path(program).resolve(strict=True)
    cases = [(f"{file.stem}: {sentence}", lambda folder, blocks=blocks: cases_have_the_same_hint(program, folder, blocks))
             for file in sorted((TESTS / "cases").glob("lab_hints*.case")) for sentence, blocks in blocks_of(file.read_text())]
    cases += [(f"a line of the form is obeyed: {form}", lambda folder, form=form: form_is_obeyed(program, form)) for form in LISTED + OBEYED]
    cases += [(f"a line of the form is hinted at: {form}", lambda folder, form=form: form_is_hinted_at(program, form))
              for form in LISTED + OBEYED if "TEXT" not in form and not goes_on(form)]
    cases += [("forms are those of the manual", lambda folder: forms_are_those_of_the_manual())]
    cases += [(f"an example that is spoiled, {seed}", lambda folder, seed=seed: spoiled_has_the_same_hint(program, seed)) for seed in range(100)]
    return play(named(cases, names))


if __name__ == "__main__":
    sys.exit(main(*sys.argv[1:]))
