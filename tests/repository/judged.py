"""A judge that proves nothing: an `rt` for a copy of the repository, which says what a case wants."""

import pathlib
import shutil
import subprocess

ROOT = pathlib.Path(__file__).resolve().parents[2]
CRATES = subprocess.run([ROOT / "tools/crates.py", "below", "ripngd_program"], capture_output=True, text=True, check=True).stdout.split()
EDIT = "rt: must-fail fib/takes_the_shortest_match.edit"
REFUSED = f"{EDIT}: refused, as it must be: src/fib.rt:1:1: error: this goal is not proved\n"
OK = "rt: ok; handles allowed: Net; must-fail edits: 1 refused; every proof and must-fail edit was done in this run"
# What `rt ci` of the kit prints where all is proved, without what stands between, and how it ends then.
PASSED = "".join(f"== {name}\nlogic=proved functions=7 sum=0123456789abcdef\nrt: {name} proved\n" for name in CRATES)
PASSED += f"{REFUSED}{OK}\n30 passed, 0 failed\n"


def copied(folder):
    """A copy of the repository, without its history, what was built, and the large files that only a reader needs."""
    root = pathlib.Path(folder) / "repository"
    shutil.copytree(ROOT, root, ignore=shutil.ignore_patterns("out", "bin", "dist", ".git", "__pycache__", "lab.html"))
    return root


def stub(path, text, status=0):
    """A program that prints a text and ends with that status."""
    path.parent.mkdir(parents=True, exist_ok=True)
    said = path.with_name(f"{path.name}.said")
    said.write_text(text)
    path.write_text(f'#!/bin/sh\ncat "{said}"\nexit {status}\n')
    path.chmod(0o755)


def judge(folder, text, status=0, leaves=":"):
    """An `rt` in that folder which knows the words that the repository's tools give it. `rt ci` does what `leaves` says, too."""
    kit = folder / "kit"
    kit.mkdir(parents=True, exist_ok=True)
    (kit / "KIT-ID").write_text("a kit\n")
    stub(folder / "said_by_ci", text, status)
    (folder / "rt").write_text(f"#!/bin/sh\ncase $1 in\nversion) echo 'a kit' ;;\ndoc) echo {kit}/START-HERE.md ;;\nci) {leaves}; exec {folder}/said_by_ci ;;\nesac\n")
    (folder / "rt").chmod(0o755)
