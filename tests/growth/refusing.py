"""Runs of a program to which memory is refused, by refuse.c."""

import collections
import os
import pathlib
import subprocess
import tempfile

from preloaded import compiled
from suite import Failed, same

SOURCE = pathlib.Path(__file__).with_name("refuse.c")
SECONDS = 60
MESSAGE = b"ripngd: out of memory\n"


class Refuser:
    """A program, and the library that refuses it memory; and a folder for the time of a `with`."""

    def __init__(self, program):
        self.program = str(pathlib.Path(program).resolve(strict=True))

    def __enter__(self):
        self.library = compiled(SOURCE)
        self.folder = tempfile.TemporaryDirectory(prefix="ripngd-refuse-")
        return self

    def __exit__(self, *_):
        self.folder.cleanup()

    def environment(self, nth, count):
        """Where the nth allocation is refused, or none where that is 0. At its end the program writes to `count` how many it has asked
        for, and the most bytes that it had at once."""
        return dict(os.environ, LD_PRELOAD=self.library, REFUSE=str(nth), REFUSE_COUNT=str(count))

    def run(self, words, nth):
        """A run of the program with these words whose nth allocation is refused, and how many it has asked for."""
        run, calls, _ = self.counted(words, nth)
        return run, calls

    def counted(self, words, nth=0):
        """The same, with the most bytes that it had at once."""
        with tempfile.NamedTemporaryFile("r", dir=self.folder.name) as count:
            run = subprocess.run([self.program, *words], stdin=subprocess.DEVNULL, capture_output=True, timeout=SECONDS,
                                 env=self.environment(nth, count.name))
            return run, *map(int, (count.read() or "0 0").split())


def shown(nth, run):
    """What a run did that it may not do."""
    return f"without allocation {nth} it ended with {run.returncode}: {run.stdout[-200:]} {run.stderr[-200:]}"


def is_same(run, want):
    return (run.returncode, run.stdout, run.stderr) == (want.returncode, want.stdout, want.stderr)


def is_told(run, want):
    """A run that says that there was no memory, and has printed nothing."""
    return "out of memory" if (run.returncode, run.stdout, run.stderr) == (3, b"", MESSAGE) else None


def sweep(refuser, words, judge):
    """Refuses each allocation of the run with these words in turn, and one past the last. `judge` says what a run is that is not the
    undisturbed one, or nothing where it may not be that. Answers how many runs there were of each kind."""
    want, total = refuser.run(words, 0)
    kinds = collections.Counter()
    for nth in range(1, total + 2):
        run, _ = refuser.run(words, nth)
        kind = "undisturbed" if is_same(run, want) else judge(run, want)
        if kind is None:
            raise Failed(shown(nth, run))
        kinds[kind] += 1
    same("the run in which none is refused", kind, "undisturbed")
    if not kinds["out of memory"]:
        raise Failed("no refusal was told")
    return kinds
