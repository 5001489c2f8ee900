"""Routers that run side by side on a clock of the test's own: each is a process of its own with its own sockets, and the clock goes on
when all of them wait. So an hour takes seconds, and nothing depends on how fast the machine is.

tests/premises/recorded/calls.c stands in each process before the C library. It tells the conductor until when the program would wait, and the
conductor lets one of them go on at a time."""

import socket
import struct

SECONDS = 60
"""How long a program may work, by the clock of the machine."""


class Seat:
    """A program that the conductor lets go on, and then waits for."""

    def __init__(self, connection, now):
        self.socket = connection
        self.socket.settimeout(SECONDS)
        self.deadline, self.is_there = now, True

    def go(self, now, losses):
        """Lets it go on at a moment, and returns how many datagrams it sent and whether it did anything, before it waits again."""
        try:
            self.socket.send(struct.pack("qq", now, losses))
            heard = self.socket.recv(64)
        except (BrokenPipeError, ConnectionResetError):
            heard = b""
        if not heard:
            self.is_there = False
            return 0, False
        self.deadline, sent, did = struct.unpack("qqq", heard)
        return sent, bool(did)


def is_whole(answer):
    """Whether an answer of a control socket has its last line."""
    return answer.endswith(b"ok\n") or answer.startswith(b"refused") and answer.endswith(b"\n")


class Conductor:
    """The clock, in milliseconds, and all who run by it."""

    def __init__(self, folder, now=0):
        self.path, self.now = f"{folder}/conductor", now
        self.seats, self.losses = {}, {}
        self.listener = socket.socket(socket.AF_UNIX, socket.SOCK_SEQPACKET)
        self.listener.bind(self.path)
        self.listener.listen()
        self.listener.settimeout(SECONDS)

    def seat(self, name):
        """Lets a program that was just started in, until it first waits."""
        self.seats[name] = Seat(self.listener.accept()[0], self.now)
        self.go(name)

    def unseat(self, name):
        """It was ended."""
        self.seats.pop(name).socket.close()

    def lose(self, name, count):
        """So many datagrams that it sends next are lost."""
        self.losses[name] = count

    def go(self, name):
        """Lets one go on. Work takes a millisecond. Returns whether it sent anything."""
        seat = self.seats[name]
        sent, did = seat.go(self.now, self.losses.get(name, 0))
        self.losses[name] = max(0, self.losses.get(name, 0) - sent)
        self.now += did
        return sent > 0

    def present(self):
        return [name for name, seat in self.seats.items() if seat.is_there]

    def settle(self):
        """Lets all go on until none has sent anything since."""
        while any([self.go(name) for name in self.present()]):
            pass

    def step(self, until):
        """Lets those go on who wait no longer than anybody else, or lets time pass until that moment."""
        due = min([self.seats[name].deadline for name in self.present()], default=until)
        self.now = max(self.now, min(due, until))
        late = [name for name in self.present() if self.seats[name].deadline <= self.now]
        if any([self.go(name) for name in late]):
            self.settle()

    def run(self, until):
        """Lets time pass until a moment."""
        while self.now < until:
            self.step(until)

    def ask(self, path, line):
        """Says a line to the router at a control socket, and returns the answer once the router has given it."""
        with socket.socket(socket.AF_UNIX) as client:
            client.connect(path)
            client.sendall(line.encode() + b"\n")
            client.setblocking(False)
            text, end = b"", self.now + 10_000
            while not is_whole(text) and self.now < end:
                self.settle()
                self.step(self.now + 50)
                try:
                    text += client.recv(65_536)
                except BlockingIOError:
                    pass
        return text.decode()

    def close(self):
        for seat in self.seats.values():
            seat.socket.close()
        self.listener.close()
