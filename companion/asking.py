"""What a companion that runs is asked, at a Unix socket in its folder: a word for each connection, and an answer in JSON."""

import asyncio
import json
import socket

from journal import why
from table import Fault

SOCKET, FOLDER = "companion", "/run/ripngd-links"
# Seconds that a whole answer may take.
PATIENCE = 10


async def answer(commands, reader, writer):
    """A client is told what it asks, and let go."""
    try:
        async with asyncio.timeout(PATIENCE):
            word = (await reader.readline()).decode(errors="replace").strip()
            told = await commands[word]() if word in commands else {"fault": f"{word} is no command"}
            writer.write(json.dumps(told).encode() + b"\n")
            await writer.drain()
    except (OSError, ValueError):  # it has gone, or it says nothing
        pass
    finally:
        writer.close()


async def listen(folder, commands):
    """Serves clients by these commands from now on."""
    try:
        await asyncio.start_unix_server(lambda reader, writer: answer(commands, reader, writer), f"{folder}/{SOCKET}")
    except OSError as fault:
        raise Fault(f"cannot listen at {folder}/{SOCKET}: {why(fault)}", 3) from None


def ask(folder, word):
    """What the companion of that folder answers."""
    with socket.socket(socket.AF_UNIX) as sock:
        sock.settimeout(PATIENCE)
        try:
            sock.connect(f"{folder}/{SOCKET}")
            sock.sendall(word.encode() + b"\n")
            with sock.makefile() as answered:
                return json.load(answered)
        except (OSError, ValueError) as fault:
            why = fault.strerror if isinstance(fault, OSError) and fault.strerror else "it does not answer"
            raise Fault(f"cannot ask the ripngd-links of {folder}: {why}", 3) from None
