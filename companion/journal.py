"""Standard error, where all is said: with the time, unless that is the journal of systemd, which has its own."""

import os
import time
from datetime import datetime

# The most lines of one kind, as of what the router refuses, in a second.
MOST = 100


class Log:
    """Standard error. Where it cannot be written, lines are lost, and counted: that is no reason to end."""

    def __init__(self):
        self.lost, self.said, self.has_times = 0, 0, False
        # Of each kind of which there may be many: the second, how many lines were said in it, and how many were not.
        self.kinds = {}

    def start(self):
        """From now on lines have the time."""
        here = os.fstat(2)
        self.has_times = os.environ.get("JOURNAL_STREAM") != f"{here.st_dev}:{here.st_ino}"

    def line(self, text):
        """Writes a line, and how many were lost just before it."""
        if self.lost > self.said and self.write(f"ripngd-links: lost {self.lost - self.said} lines of this log"):
            self.said = self.lost
        self.lost += not self.write(text)

    def write(self, text):
        """Whether it was written. No buffer keeps it, so that nothing of it fails at the end."""
        moment = f"{datetime.now().astimezone().isoformat(timespec='milliseconds')} " if self.has_times else ""
        try:
            os.write(2, f"{moment}{text}\n".encode())
        except OSError:
            return False
        return True

    def one_of_many(self, kind, text):
        """A line of a kind of which only so many are written in a second; how many more there were is said after it."""
        now = int(time.monotonic())
        second, many, more = self.kinds.get(kind, (now, 0, 0))
        if second != now:
            self.end_second(kind)
            many, more = 0, 0
        if many < MOST:
            self.line(text)
        self.kinds[kind] = (now, many + 1, more + (many >= MOST))

    def end_second(self, kind):
        """Says how many lines of a kind are left out, once its second is over."""
        second, _, more = self.kinds[kind]
        if second != int(time.monotonic()):
            del self.kinds[kind]
            if more:
                self.line(f"ripngd-links: {more} more lines of {kind} are left out, of {MOST} at most in a second")


log = Log()


def say(text):
    log.line(f"ripngd-links: {text}")


def why(fault):
    """What a fault is, in words. One of the system has the file, if there is one, and what is wrong with it."""
    if not isinstance(fault, OSError) or not fault.strerror:
        return str(fault)
    return f"{fault.filename}: {fault.strerror}" if fault.filename else fault.strerror
