"""The router: its configuration, its process, and what it is asked and told at its control socket."""

import asyncio
import hashlib
import json
import os
import pathlib
import shutil
import subprocess
import time

from journal import say
from privilege import leave
from table import Fault

# Seconds that an answer may take, and the end of the process: it says of each route twice that it is gone, at its pace.
PATIENCE, ENDS = 10, 12
# The mark of the proved program that was installed with this companion: `make install` puts it here.
MARK = pathlib.Path(__file__).resolve().parent / "ripngd.proved"


def configuration(interfaces, owned):
    """A configuration of interfaces, as their keys and values, and of owned prefixes with their tags."""
    lines = [f"seed = {int.from_bytes(os.urandom(8), 'big') >> 1}"]
    for interface in interfaces:
        lines += ["", "[[interface]]", *(f"{key} = {json.dumps(value)}" for key, value in interface.items())]
    for prefix, tag in owned.items():
        lines += ["", "[[prefix]]", f'prefix = "{prefix}"', f"tag = {tag}"]
    return "\n".join(lines) + "\n"


def fault_of(program, text):
    """What the router says of a configuration that it refuses, or None."""
    words = [program, "check", "/dev/stdin"]
    try:
        done = subprocess.run(words, input=text, capture_output=True, text=True, check=False, timeout=PATIENCE)
    except OSError as fault:
        raise Fault(f"cannot start {program}: {fault.strerror}") from None
    except subprocess.TimeoutExpired:
        return f"nothing for {PATIENCE} seconds"
    return None if done.returncode == 0 else done.stdout.strip() or done.stderr.strip()


def refuse_unproved(program):
    """Refuses a router that is not the proved one that was installed with this companion."""
    try:
        with open(shutil.which(program) or program, "rb") as file:
            found = hashlib.file_digest(file, "sha256").hexdigest()
        mark = MARK.read_text() if MARK.exists() else ""
    except OSError as fault:
        raise Fault(f"cannot read {fault.filename}: {fault.strerror}") from None
    if f"program {found}" not in mark.splitlines():
        raise Fault(f"{program} is not the proved program of this ripngd-links, and is taken only with --unproved")


def spawn(coroutine, running=set()):
    """Lets a coroutine run beside all others; it is kept until it has ended."""
    running.add(task := asyncio.ensure_future(coroutine))
    task.add_done_callback(running.discard)


async def opened(pipe):
    """A reader of that pipe, in this loop."""
    reader = asyncio.StreamReader()
    protocol = asyncio.StreamReaderProtocol(reader)
    await asyncio.get_running_loop().connect_read_pipe(lambda: protocol, pipe)
    return reader


async def read_all(pipe):
    return await (await opened(pipe)).read()


class Router:
    """A process `ripngd run`, and one command at a time to it."""

    def __init__(self, program, folder):
        self.program, self.config, self.control = program, f"{folder}/router.toml", f"{folder}/control"
        self.process, self.ready, self.turn, self.asked = None, False, asyncio.Lock(), None
        # When the process began, and when it answered last.
        self.began, self.answered = float("-inf"), float("-inf")

    def start(self, text, sockets, debug):
        """Starts the process with that configuration and those sockets."""
        try:
            with open(os.open(self.config, os.O_WRONLY | os.O_CREAT | os.O_TRUNC, 0o600), "w") as file:
                file.write(text)
        except OSError as fault:
            raise OSError(fault.errno, fault.strerror, self.config) from None
        words = [self.program, "run", *["-d"] * debug, "-R", "-", "--control", self.control, self.config]
        pipes = {"stdin": subprocess.DEVNULL, "stdout": subprocess.PIPE, "stderr": subprocess.PIPE}
        own = {"umask": 0o077, "start_new_session": True, "preexec_fn": leave}
        try:
            self.process, self.began = subprocess.Popen(words, **pipes, **own, pass_fds=sockets), time.monotonic()
        except (FileNotFoundError, PermissionError) as fault:
            raise Fault(f"cannot start {self.program}: {fault.strerror}") from None

    async def live(self, changed, said):
        """The status of the process, once it has ended. `changed` is given the lines of its log, `said` all others."""
        await asyncio.gather(self.listen(self.process.stdout, changed), self.listen(self.process.stderr, said))
        self.ready = False
        return self.process.wait()

    async def listen(self, pipe, heard):
        """Hands on whole lines, many at a time."""
        reader, rest = await opened(pipe), b""
        while data := await reader.read(1 << 16):
            *lines, rest = (rest + data).split(b"\n")
            heard([line.decode(errors="replace") for line in lines])

    def is_there(self):
        """Whether its process is."""
        return self.process is not None and self.process.poll() is None

    def age(self, now):
        """For how many seconds the process is there; 0 where there is none."""
        return round(now - self.began, 1) if self.is_there() else 0

    async def ask(self, command, seconds=PATIENCE):
        """The lines of the answer to a command of `ctl`, of which the last one is `ok` or says what was refused; none of a router that does
        not answer within that time."""
        try:
            async with self.turn, asyncio.timeout(seconds):
                reader, writer = await asyncio.open_unix_connection(self.control)
                try:
                    writer.write(command.encode() + b"\n")
                    lines = (await reader.read()).decode().splitlines()
                finally:
                    writer.close()
        except (OSError, ValueError):
            return []
        self.answered = time.monotonic()
        return lines

    async def status(self, seconds):
        """The lines of `ctl status`; none of a router that does not come to answer within that time."""
        try:
            async with asyncio.timeout(seconds):
                return await self.ask("status") if self.ready else []
        except TimeoutError:
            return []

    async def tell(self, command):
        """Has the router do that, and says so where it does not."""
        lines = await self.ask(command)
        if lines[-1:] != ["ok"]:
            say(f"the router does not take `ctl {command}`: {lines[-1] if lines else f'no answer for {PATIENCE} s'}")
        return lines[:-1]

    async def neighbors(self):
        """Of each interface, how many Responses the router has taken of each neighbor, by address; links that ask at one time share an
        answer."""
        if not self.ready:
            return {}
        if not self.asked or self.asked.done():
            self.asked = asyncio.ensure_future(self.ask_neighbors())
        return await asyncio.shield(self.asked)

    async def ask_neighbors(self):
        found = {}
        for words in map(str.split, await self.ask("neighbors")):
            if words[:1] == ["iface"]:
                found.setdefault(int(words[1]), {})[words[3]] = int(words[7])
        return found

    def stop(self, command="stop now"):
        """Ends the process by that command, where it listens. From now on it is not ready."""
        was_ready, self.ready = self.ready, False
        return self.end(self.process, command if was_ready else None)

    async def end(self, process, command):
        if command:
            await self.tell(command)
        elif process and process.poll() is None:
            process.terminate()
        for _ in range(ENDS * 10):
            if not process or process.poll() is not None:
                return
            await asyncio.sleep(0.1)
        process.kill()
