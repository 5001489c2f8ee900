#!/usr/bin/env python3
"""A program that is not proved says so, and only one with the mark of a proved program of these sources is installed, packed and started.

    tests/repository/marked.py PROGRAM [NAME..]

PROGRAM is looked at as it is: it says `unproved`, or it has the mark that the gate or `make prove` wrote. Where it is proved, one that is
not is made from a copy of the sources, which takes some two minutes. In the other cases PROGRAM stands in for a proved one, with a mark
that is written from what a judge that proves nothing says. NAME.. are words of the names of cases that are played, all where there are
none. Prints a line for each case that fails, and last `N passed, M failed`."""

import os
import pathlib
import re
import shutil
import subprocess
import sys

sys.dont_write_bytecode = True
sys.path.append(str(pathlib.Path(__file__).resolve().parents[1] / "support"))
from judged import PASSED, ROOT, copied, judge, stub
from suite import Failed, named, play, same

HELP = "crates/ripngd_command_line/src/help.rt"
CHANGED = "crates/fib/specs/Lib.antt"
# Forms of the version's line that tools/unproved.sh does not know.
FORMS = {
    "another type": lambda line: line.replace("&str", "&'static str"),
    "more on its line": lambda line: line + " // the version",
    "another name": lambda line: line.replace("VERSION", "NUMBER"),
    "no such line": lambda line: "",
}


def said_by(*words, folder=None, **environment):
    """The exit status of a command, and all that it says."""
    done = subprocess.run(words, cwd=folder, stdin=subprocess.DEVNULL, stdout=subprocess.PIPE, stderr=subprocess.STDOUT, text=True, check=False,
                          env=os.environ | environment)
    return done.returncode, done.stdout


def refused(what, done, words):
    """Fails the case where a command was not refused, or not in those words."""
    if done[0] == 0 or words not in done[1]:
        raise Failed(f"{what} is {done!r}, and not refused with `{words}`")


def is_unproved(program):
    return " unproved" in said_by(program, "--version")[1]


class Marked:
    """A copy of the repository, with a program whose mark says that it was proved of these sources."""

    def __init__(self, folder, program):
        self.root, self.to, tools = copied(folder), pathlib.Path(folder) / "installed", pathlib.Path(folder) / "bin"
        self.program, self.mark = self.root / "bin/ripngd", self.root / "bin/ripngd.proved"
        judge(tools, PASSED)
        (tools / "log").write_text(PASSED)
        self.program.parent.mkdir()
        shutil.copy(program, self.program)
        words = [self.root / "tools/proved.py", "write", "ripngd_program", self.program, self.root, tools / "log"]
        same("what writing the mark says", said_by(*words, PATH=f"{tools}:{os.environ['PATH']}"), (0, ""))

    def make(self, *words):
        return said_by("make", "-s", "-C", self.root, f"prefix={self.to}", "PROGRAM=bin/ripngd", *words)

    def condition(self):
        """The exit status of what the router's unit asks before it starts the program, or none where it asks nothing."""
        text = (self.to / "lib/systemd/system/ripngd@.service").read_text()
        found = re.search(r"^ExecCondition=/bin/sh -c '(.*)'$", text, re.M)
        return said_by("sh", "-c", found[1].replace("$$", "$"))[0] if found else None

    def companion(self, *words):
        """What the companion says of the program, in whose table no folder can be made."""
        table = self.to / "table.toml"
        table.write_text(f'program = "{self.to}/bin/ripngd"\nfolder = "/dev/null/run"\n[[link]]\ndevice = "lo"\n')
        return said_by(self.to / "bin/ripngd-links", *words, table)[1]


def says_what_it_is(program):
    """A program says that it is unproved exactly where it has no mark of these sources; `make` leaves one that says so, by no proof."""
    def case(folder):
        check = [ROOT / "tools/proved.py", "check", program]
        if not is_unproved(program):
            same("what the check of its mark says", said_by(*check), (0, ""))
            root = copied(folder)
            made = root / "bin/ripngd"
            stub(root / "tools/prove.sh", "", 1)
            status, said = said_by("make", "bin/ripngd", folder=root)
            if status and "this kit compiles nothing without its proof" in said:
                print("skipped: this kit compiles nothing without its proof, so there is no unproved program to look at", flush=True)
                return
            same("the status of make", status, 0)
            same("whether it says that it is unproved", is_unproved(made), True)
            check = [root / "tools/proved.py", "check", made]
        refused("the check of an unproved one", said_by(*check), "ripngd.proved is not there")
    return case


def proved_by_a_judge(folder, program, text, status):
    """`make prove` in a copy of the repository over a judge that says a text and leaves a program: its exit status, and where that goes."""
    root, tools = copied(folder), pathlib.Path(folder) / "bin"
    judge(tools, text, status, f"mkdir -p crates/ripngd_program/out; cp '{program}' crates/ripngd_program/out/ripngd_program")
    return said_by("make", "prove", folder=root, PATH=f"{tools}:{os.environ['PATH']}")[0], root / "bin/ripngd"


def is_proved(program):
    """`make prove` leaves the program with its mark where the judge passes it, and nothing where the judge does not say so whole."""
    def case(folder):
        status, made = proved_by_a_judge(f"{folder}/passes", program, PASSED, 0)
        same("the status", status, 0)
        same("what is said of its mark", said_by(made.parent.parent / "tools/proved.py", "check", made), (0, ""))
        same("whether it is the judge's program", made.read_bytes() == program.read_bytes(), True)
        for what, text, status in (("status", PASSED, 1), ("words", PASSED[:-1] + " (not the gate)\n", 0), ("crates", PASSED.replace("rt: fib ", "rt: "), 0)):
            status, made = proved_by_a_judge(f"{folder}/{what}", program, text, status)
            same(f"{what}: whether it fails, and leaves a program", (status != 0, made.exists()), (True, False))
    return case


def cannot_lose_the_word(_):
    """Where the version has another form, no program is made."""
    def case(folder):
        root = copied(folder)
        text = (root / HELP).read_text()
        [line] = [line for line in text.splitlines() if "const VERSION" in line]
        for name, change in FORMS.items():
            (root / HELP).write_text(text.replace(line, change(line)))
            done = said_by("tools/unproved.sh", "crates/ripngd_program", "bin/ripngd", folder=root)
            same(f"{name}: the status", done[0], 2)
            refused(name, done, f"{HELP} has no constant VERSION")
            same(f"{name}: whether there is a program", (root / "bin/ripngd").exists(), False)
    return case


def is_installed(program):
    """With its mark, which companion and unit ask for."""
    def case(folder):
        it = Marked(folder, program)
        same("what is said", it.make("install"), (0, ""))
        for place in ("lib/ripngd-links", "share/doc/ripngd"):
            same(f"the mark in {place}", (it.to / place / "ripngd.proved").read_text(), it.mark.read_text())
        same("the unit's condition", it.condition(), 0)
        same("whether the companion takes it", "/dev/null/run" in it.companion(), True)
        add_a_byte(it.to / "bin/ripngd")
        same("the unit's condition, of another program", it.condition(), 1)
        refused("another program", (1, it.companion()), "bin/ripngd is not the proved program of this ripngd-links")
        same("whether the companion is told to take it", "/dev/null/run" in it.companion("--unproved"), True)
    return case


def is_packed(program):
    """`make dist` has the mark of the program, and the sums of what it packs."""
    def case(folder):
        it = Marked(folder, program)
        same("what is said", said_by("make", "-s", "dist", "PROGRAM=bin/ripngd", folder=it.root), (0, ""))
        [packed] = (it.root / "dist").glob("*.tar.gz")
        said_by("tar", "-xzf", packed, folder=folder)
        unpacked = pathlib.Path(folder) / packed.name.removesuffix(".tar.gz")
        same("the mark", (unpacked / "usr/local/share/doc/ripngd/ripngd.proved").read_text(), it.mark.read_text())
        same("what its sums say", said_by("sha256sum", "--check", "--quiet", "SHA256SUMS", folder=unpacked), (0, ""))
    return case


def is_installed_as_unproved(program):
    """With UNPROVED=1 there is no mark, and the units start any program."""
    def case(folder):
        it = Marked(folder, program)
        same("what is said", (it.make("install"), it.make("install", "UNPROVED=1")), ((0, ""), (0, "")))
        same("whether there is a mark", sorted(it.to.glob("**/ripngd.proved")), [])
        same("the unit's condition", it.condition(), None)
        same("the companion's", " --unproved " in (it.to / "lib/systemd/system/ripngd-links@.service").read_text(), True)
        refused("the companion", (1, it.companion()), "is not the proved program")
    return case


def is_refused(spoil, words):
    """A case: once a program with its mark was spoilt, neither `make install` nor `dist` nor `deb` takes it."""
    def case_of(program):
        def case(folder):
            it = Marked(folder, program)
            spoil(it)
            for goal in ("install", "dist", "deb"):
                refused(goal, it.make(goal), words)
            same("what is installed", list(it.to.glob("**/ripngd")), [])
        return case
    return case_of


def add_a_line(path):
    path.write_text(path.read_text() + "\n")


def add_a_byte(path):
    path.write_bytes(path.read_bytes() + b"\0")


def is_made_again(program):
    """`make` makes a program again where a definition has changed, and then it has no mark."""
    def case(folder):
        it = Marked(folder, program)
        same("whether it is made", said_by("make", "-q", "bin/ripngd", folder=it.root)[0], 0)
        add_a_line(it.root / CHANGED)
        same("whether it is made after a change", said_by("make", "-q", "bin/ripngd", folder=it.root)[0], 1)
    return case


CASES = {
    "says what it is": says_what_it_is,
    "proved by make": is_proved,
    "the version in another form": cannot_lose_the_word,
    "installed with its mark": is_installed,
    "packed with its mark": is_packed,
    "installed as unproved": is_installed_as_unproved,
    "without its mark": is_refused(lambda it: it.mark.unlink(), "ripngd.proved is not there"),
    "another program than the mark's": is_refused(lambda it: add_a_byte(it.program), "is not the program whose mark"),
    "of other sources": is_refused(lambda it: add_a_line(it.root / CHANGED), "since then fib changed"),
    "with other handles": is_refused(lambda it: add_a_line(it.root / "HANDLES"), "since then HANDLES changed"),
    "made again": is_made_again,
}


def main():
    program, names = pathlib.Path(sys.argv[1]).resolve(), sys.argv[2:]
    sys.exit(play(named([(name, case(program)) for name, case in CASES.items()], names)))


main()
