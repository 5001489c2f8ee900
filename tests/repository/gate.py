#!/usr/bin/env python3
"""The merge gate fails where it has to: .ci/run is played in a copy of the repository, over a judge and tests that say what a case wants.

    tests/repository/gate.py PROGRAM [NAME..]

Nothing is proved, and no test of PROGRAM is run: it stands in for the program that the judge would leave. In the copy `rt`, `apt-get`,
page/build.sh, tests/all.sh and tools/mutants are stubs. NAME.. are words of the names of cases that are played, all where there are none.
Prints a line for each case that fails, and last `N passed, M failed`."""

import os
import pathlib
import subprocess
import sys

sys.dont_write_bytecode = True
sys.path.append(str(pathlib.Path(__file__).resolve().parents[1] / "support"))
from judged import CRATES, EDIT, OK, PASSED, REFUSED, copied, judge, stub
from suite import Failed, named, play, same

TESTED = "== command/cases.py, 3 s\nskipped: nothing\n800 passed, 0 failed\n"
# What each stub says where a case does not say otherwise, and its exit status. The last lines are as those of the real ones.
GOOD = {"rt": (PASSED, 0), "page/build.sh": ("", 0), "tests/all.sh": (TESTED, 0), "tools/mutants": ("2 passed, 0 failed\n", 0)}
# What is planted, by case: a stub, what it says and its exit status; and words of a line that the gate says then. In each the gate fails.
PLANTED = {
    "a judge with status 1 and a good last line": ("rt", PASSED, 1, "rt_ci: its last line counts no failure, and its exit status is 1"),
    "a last line with other words": ("rt", PASSED[:-1] + " (fib and the crates below alone: not the gate)\n", 0, "rt_ci: it did not come to its end"),
    "a judge without a last line": ("rt", PASSED.replace("30 passed, 0 failed\n", ""), 0, "rt_ci: it did not come to its end"),
    "a judge that counts a failure": ("rt", PASSED.replace(" 0 failed", " 1 failed"), 1, "832 passed, 2 failed"),
    "a bad edit": ("rt", PASSED.replace(REFUSED, f"{EDIT}: BAD EDIT: an 'old:' text is in src/fib.rt 0 times\n"), 0, "FAILED rt: must-fail fib/"),
    "an edit refused for a name": ("rt", PASSED.replace("be:", "be (only because a proof file names what it took):"), 0, "FAILED rt: must-fail fib/"),
    "an edit refused by a limit": ("rt", PASSED.replace("be:", "be (only by a limit of the prover):"), 0, "FAILED rt: must-fail fib/"),
    "a crate of which nothing is said": ("rt", PASSED.replace("rt: fib proved\n", ""), 0, "did not say that these are proved: fib"),
    "a page of other sources": ("page/build.sh", "docs/lab.html is not that of the sources\n", 1, "FAILED docs/lab.html"),
    "a test that fails": ("tests/all.sh", TESTED.replace("800 passed, 0", "799 passed, 1"), 1, "831 passed, 1 failed"),
    "tests that end too soon": ("tests/all.sh", "== command/cases.py, 3 s\n", 0, "tests: it did not come to its end"),
    "tests with status 1 and a good last line": ("tests/all.sh", TESTED, 1, "tests: its last line counts no failure, and its exit status is 1"),
    "a mutant that no test catches": ("tools/mutants", "another_seed: MISSED by run.case: seed\n1 passed, 1 failed\n", 1, "831 passed, 1 failed"),
}
# What the judge does beside what it says, by case, and words of a line that the gate says then.
DONE = {
    "sources that change meanwhile": ("echo >> crates/fib/src/lib.rt", "the sources changed while they were proved"),
    "a wrong body without its edit": ("rm crates/fib/must-fail/takes_the_shortest_match.edit", "is not there: a forwarding table"),
    "a judge that leaves no program": ("rm crates/ripngd_program/out/ripngd_program", "the program has no mark"),
}


class Gate:
    """A copy of the repository in which .ci/run can be played."""

    def __init__(self, folder, program):
        self.root, self.bin, self.program = copied(folder), pathlib.Path(folder) / "bin", program

    def played(self, planted, leaves=":", **environment):
        """What the gate says over the stubs that a case plants, and over good ones else: its exit status and its lines."""
        said, out = GOOD | planted, "crates/ripngd_program/out"
        judge(self.bin, *said["rt"], f"mkdir -p {out}; cp '{self.program}' {out}/ripngd_program; {leaves}")
        stub(self.bin / "apt-get", "")
        for name in said.keys() - {"rt"}:
            stub(self.root / name, *said[name])
        environment |= {"PATH": f"{self.bin}:{os.environ['PATH']}"}
        done = subprocess.run([self.root / ".ci/run"], stdin=subprocess.DEVNULL, stdout=subprocess.PIPE, stderr=subprocess.STDOUT, text=True,
                              check=False, env=os.environ | environment)
        return done.returncode, done.stdout.splitlines()


def fails(program, planted, leaves, words):
    """A case: over what is planted the gate fails, says those words, and leaves no program."""
    def case(folder):
        gate = Gate(folder, program)
        status, said = gate.played(planted, leaves)
        same("the status", status, 1)
        if said[-1].endswith(" 0 failed") or not any(words in line for line in said):
            raise Failed(f"no line has `{words}`, or the last counts no failure:\n" + "\n".join(said))
        same("whether a program is left", (gate.root / "bin/ripngd").exists(), False)
    return case


def passes(program):
    """Where nothing fails, it passes, and leaves the program with its mark."""
    def case(folder):
        gate = Gate(folder, program)
        status, said = gate.played({})
        same("the status and the last two lines", (status, said[-2:]), (0, ["skipped: nothing", "832 passed, 0 failed"]))
        checked = subprocess.run([gate.root / "tools/proved.py", "check", gate.root / "bin/ripngd"], check=False, capture_output=True, text=True)
        same("what the check of its mark says", (checked.returncode, checked.stderr), (0, ""))
        mark = (gate.root / "bin/ripngd.proved").read_text().splitlines()
        for line in ("kit a kit", "edits fib 1 refused", f"said {OK}", "said 30 passed, 0 failed", "tests 832 passed, 0 failed; skipped: nothing"):
            same(f"how often the mark has `{line}`", mark.count(line), 1)
        same("its crates", [line.split()[1] for line in mark if line.startswith("crate ") and "functions=7" in line], CRATES)
    return case


def names_skips(program):
    """What page and tests skip is named, and is a failure where it is asked for."""
    planted = {"page/build.sh": ("skipped: the page's module\n", 0), "tests/all.sh": (TESTED.replace("nothing", "a browser"), 0)}

    def case(folder):
        gate = Gate(folder, program)
        status, said = gate.played(planted)
        same("the status and the last two lines", (status, said[-2:]), (0, ["skipped: the page's module;a browser", "832 passed, 0 failed"]))
        status, said = gate.played(planted, NO_SKIPS="1")
        same("with NO_SKIPS", (status, said[-1]), (1, "832 passed, 1 failed"))
        status, said = gate.played({}, NO_SKIPS="1")
        same("with NO_SKIPS, where nothing is skipped", (status, said[-1]), (0, "832 passed, 0 failed"))
    return case


def main():
    program, names = pathlib.Path(sys.argv[1]).resolve(), sys.argv[2:]
    cases = [("all is well", passes(program)), ("skips", names_skips(program))]
    cases += [(name, fails(program, {stub: (text, status)}, ":", words)) for name, (stub, text, status, words) in PLANTED.items()]
    cases += [(name, fails(program, {}, leaves, words)) for name, (leaves, words) in DONE.items()]
    sys.exit(play(named(cases, names)))


main()
