"""What suites have in common: free ports, cases that run side by side, and a line for each that fails."""

import concurrent.futures
import contextlib
import os
import random
import shutil
import signal
import socket
import tempfile
import time
import traceback


SECONDS = 60
"""What is waited for has so long to come."""


class Failed(Exception):
    """Why a case fails."""


def same(what, got, wanted):
    """Fails the case where what it got is not what is wanted."""
    if got != wanted:
        raise Failed(f"{what} is {got!r} and not {wanted!r}")


def until(what, holds, seconds=SECONDS, pause=0.02):
    """Waits until something holds, and answers it; fails the case where it does not. What that is may be known only then: a function says
    it."""
    end = time.monotonic() + seconds
    while not (found := holds()):
        if time.monotonic() > end:
            raise Failed(f"not within {seconds} seconds: {what() if callable(what) else what}")
        time.sleep(pause)
    return found


def taken():
    """The ports of this machine at which something stands. They are read and not tried, since a socket that tries one lives on in a
    program that is started at that moment."""
    found = set()
    for name in ("udp", "udp6", "tcp", "tcp6"):
        with contextlib.suppress(FileNotFoundError), open(f"/proc/net/{name}") as file:
            found.update(int(line.split()[1].rpartition(":")[2], 16) for line in file.readlines()[1:])
    return found


class Ports:
    """Free ports of 127.0.0.1, which no other case gets until they are given back, nor one of another suite of this machine: a socket
    without a file, named for the port, tells that it is taken. The system gives ports of this range to nobody by itself."""

    def __init__(self):
        self.held, self.numbers = [], []

    def next(self):
        while True:
            port = random.randrange(10_000, 32_768)
            held = socket.socket(socket.AF_UNIX, socket.SOCK_DGRAM)
            with contextlib.suppress(OSError):
                held.bind(f"\0ripngd.tests.{port}")
                if port not in taken():
                    self.held.append(held)
                    self.numbers.append(port)
                    return port
            held.close()

    def close(self):
        for held in self.held:
            held.close()


def end_group(process):
    """Ends a process that leads a group, and all that it has started."""
    with contextlib.suppress(ProcessLookupError):
        os.killpg(process.pid, signal.SIGKILL)
    process.wait()


def outcome(name, case):
    """Why a case fails, or nothing where it passes. `case` is called with a new folder."""
    folder = tempfile.mkdtemp(prefix="ripngd-case-")
    try:
        case(folder)
        return None
    except Failed as failed:
        return f"FAILED {name}: {failed}"
    except Exception:
        return f"FAILED {name}: {traceback.format_exc()}"
    finally:
        shutil.rmtree(folder, ignore_errors=True)


def play(cases, workers=None, names_passed=False):
    """Runs cases, pairs of a name and a function of a folder, side by side. Prints those that fail, those that pass where that is asked,
    and how many there are."""
    failed = 0
    with concurrent.futures.ThreadPoolExecutor(workers or os.cpu_count()) as pool:
        for (name, _), said in zip(cases, pool.map(lambda case: outcome(*case), cases)):
            failed += said is not None
            if said or names_passed:
                print(said or f"ok {name}", flush=True)
    print(f"{len(cases) - failed} passed, {failed} failed", flush=True)
    return 1 if failed or not cases else 0


def named(cases, names):
    """The cases whose name has one of these words in it, all where there are none."""
    return [case for case in cases if not names or any(name in case[0] for name in names)]
