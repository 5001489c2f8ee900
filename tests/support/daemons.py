"""Routers that run as processes of their own, and what is beside them: neighbors' sockets, and clients of their control sockets."""

import collections
import contextlib
import os
import pathlib
import signal
import socket
import subprocess
import sys

from suite import SECONDS, Failed, Ports, play, until

RUNNING = "ripngd: running, "
Outcome = collections.namedtuple("Outcome", "status out err")


def toml(value):
    return str(value).lower() if isinstance(value, (bool, int)) else f'"{value}"'


def table(name, **keys):
    """A table of an array of tables of a configuration."""
    return "".join([f"[[{name}]]\n", *(f"{key} = {toml(value)}\n" for key, value in keys.items())])


def address(number):
    """fe80::NUMBER, or another address as it is."""
    return number if "::" in str(number) else f"fe80::{number}"


def interface(number, local_port, *peers, cost=1, **keys):
    """An interface of an address at a port, with its peers."""
    return table("interface", address=address(number), cost=cost, local_port=local_port, **keys) + "".join(peers)


def peer(number, local_port, **keys):
    """A peer of an address at a port, of the interface before it."""
    return table("interface.peer", address=address(number), local_port=local_port, **keys)


def prefix(text, **keys):
    return table("prefix", prefix=text, **keys)


class Process:
    """A program that was started: what it has written, and how it ends."""

    def __init__(self, words, folder, name, environment, descriptors=()):
        self.files = [pathlib.Path(folder, f"{name}.{stream}") for stream in ("out", "err")]
        with open(self.files[0], "wb") as out, open(self.files[1], "wb") as err:
            self.process = subprocess.Popen(words, cwd=folder, stdin=subprocess.DEVNULL, stdout=out, stderr=err,
                                            env=dict(os.environ, **environment), pass_fds=descriptors)

    def out(self):
        return self.files[0].read_text()

    def err(self):
        return self.files[1].read_text()

    def said(self):
        """What it wrote to standard error, but for the line that it runs."""
        return "".join(line for line in self.err().splitlines(True) if not line.startswith(RUNNING))

    def begun(self):
        """Waits until it says that it runs."""
        until("running", lambda: RUNNING in self.err() or self.process.poll() is not None)
        if RUNNING not in self.err():
            raise Failed(f"it ended with {self.process.returncode}: {self.err()}")
        return self

    def is_there(self):
        return self.process.poll() is None

    def signal(self, number):
        self.process.send_signal(number)

    def finish(self):
        """Waits for its end, and answers its status."""
        try:
            return self.process.wait(SECONDS)
        except subprocess.TimeoutExpired:
            raise Failed("it does not end")

    def end(self):
        """Ends it if it runs."""
        if self.is_there():
            self.process.send_signal(signal.SIGCONT)
            self.process.kill()
        self.process.wait()


class Router(Process):
    """A router with a configuration, NAME.toml, and its log, NAME.log, if it has one."""

    def __init__(self, case, name, *words, **environment):
        self.case, self.name = case, name
        super().__init__([case.program, "run", *words, f"{name}.toml"], case.folder, name, environment, case.descriptors)

    def log(self):
        file = pathlib.Path(self.case.folder, f"{self.name}.log")
        return file.read_text() if file.exists() else ""

    def logs(self, line):
        """Waits until its log has a line."""
        until(f"`{line}` in the log of {self.name}", lambda: line in self.log().splitlines())

    def path(self):
        return f"{self.case.folder}/{self.name}.sock"

    def ctl(self, *words):
        """Asks it, or tells it something."""
        return self.case.run("ctl", f"{self.name}.sock", *words)

    def client(self):
        return Client(self.path())


class Client:
    """A client of a control socket that says what it likes."""

    def __init__(self, path):
        self.socket = socket.socket(socket.AF_UNIX)
        self.socket.settimeout(SECONDS)
        self.socket.connect(path)
        self.text = b""

    def say(self, text):
        """Says it; nobody hears it where the other side is gone."""
        with contextlib.suppress(BrokenPipeError):
            self.socket.sendall(text)
        return self

    def more(self):
        """Reads once; nothing comes where the other side is gone."""
        try:
            part = self.socket.recv(65_536)
        except ConnectionResetError:
            part = b""
        self.text += part
        return part

    def upto(self, *ends):
        """All that came, up to one of these ends."""
        while not self.text.endswith(ends) and self.more():
            pass
        return self.text.decode()

    def all(self):
        """All that comes until the other side is gone."""
        while self.more():
            pass
        return self.text.decode()

    def close(self):
        self.socket.close()


class Case:
    """What a case has: a folder, free ports, the numbers of sockets that its routers inherit, and all that it starts, which ends with
    it."""

    def __init__(self, program, folder):
        self.program, self.folder = program, folder
        self.ports, self.descriptors, self.started, self.sockets = Ports(), [], [], []

    def close(self):
        for process in self.started:
            process.end()
        for opened in self.sockets:
            opened.close()
        self.ports.close()

    def port(self):
        return self.ports.next()

    def file(self, name, text):
        pathlib.Path(self.folder, name).write_text(text)

    def read(self, name):
        return pathlib.Path(self.folder, name).read_text()

    def run(self, *words, **environment):
        """Runs the program to its end."""
        try:
            done = subprocess.run([self.program, *words], cwd=self.folder, stdin=subprocess.DEVNULL, capture_output=True, text=True,
                                  timeout=SECONDS, env=dict(os.environ, **environment), pass_fds=self.descriptors)
        except subprocess.TimeoutExpired:
            raise Failed(f"{words} does not end")
        return Outcome(done.returncode, done.stdout, done.stderr)

    def start(self, name, text, *words, **environment):
        """Starts a router on a configuration, and waits until it runs."""
        self.file(f"{name}.toml", text)
        router = Router(self, name, *words, **environment)
        self.started.append(router)
        return router.begun()

    def listening(self, name, text, *words, **environment):
        """The same at a control socket."""
        return self.start(name, text, "--control", f"{name}.sock", *words, **environment)

    def neighbor(self):
        """A socket of a neighbor, at a free port."""
        self.sockets.append(Neighbor(self.port()))
        return self.sockets[-1]


class Neighbor:
    """A socket of 127.0.0.1 at which a neighbor stands."""

    def __init__(self, port, host="127.0.0.1"):
        self.port = port
        self.socket = socket.socket(socket.AF_INET, socket.SOCK_DGRAM)
        self.socket.bind((host, port))
        self.socket.settimeout(SECONDS)

    def send(self, port, bytes, times=1):
        for _ in range(times):
            self.socket.sendto(bytes, ("127.0.0.1", port))

    def receive(self):
        """The next datagram, and the port that it came from."""
        try:
            bytes, (_, port) = self.socket.recvfrom(65_536)
        except TimeoutError:
            raise Failed(f"nothing came to {self.port}")
        return bytes, port

    def rest(self):
        """All datagrams that have come."""
        self.socket.setblocking(False)
        found = []
        try:
            while True:
                found.append(self.socket.recv(65_536))
        except BlockingIOError:
            self.socket.settimeout(SECONDS)
            return found

    def close(self):
        self.socket.close()


CASES = []


def listed(function):
    """Puts a function of a `Case` among the cases of a suite."""
    CASES.append(function)
    return function


def played(function, program):
    def play_in(folder):
        case = Case(program, folder)
        try:
            function(case)
        finally:
            case.close()
    return play_in


def main(workers=8):
    """Plays the cases on the program that is named first, or those of them that are named behind it."""
    if len(sys.argv) < 2:
        sys.exit(f"usage: {sys.argv[0]} PROGRAM [NAME..]")
    program = os.path.realpath(sys.argv[1])
    chosen = [case for case in CASES if not sys.argv[2:] or case.__name__ in sys.argv[2:]]
    sys.exit(play([(case.__name__, played(case, program)) for case in chosen], workers))
