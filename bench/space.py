"""Name spaces of the network, and cables between them. Needs root and iproute2."""

import ctypes
import fcntl
import os
import signal
import socket
import struct
import subprocess
import threading

CLONE_NEWNET = 0x40000000
# Of the kernel's headers: the call of ethtool, and its command that sets whether checksums of what is sent are left to a card.
SIOCETHTOOL, SET_CHECKSUMS = 0x8946, 0x17
SETTINGS = ("all.forwarding=1", "default.forwarding=1", "all.accept_dad=0", "default.accept_dad=0", "default.accept_ra=0")


class Broken(Exception):
    """What keeps the bench from a verdict: a router that does not start, a command that fails."""


def run(*words, check=True):
    """What a command prints."""
    done = subprocess.run([str(word) for word in words], capture_output=True, text=True, check=False, stdin=subprocess.DEVNULL)
    if check and done.returncode:
        raise Broken(f"{' '.join(map(str, words))}: {done.stderr.strip() or done.stdout.strip()}")
    return done.stdout


def within(space, work):
    """Does something in a name space, and answers what came of it. A thread of its own enters, since a socket stays where it was made."""
    done = {}

    def enter():
        try:
            with open(f"/run/netns/{space}") as file:
                if ctypes.CDLL(None, use_errno=True).setns(file.fileno(), CLONE_NEWNET):
                    raise OSError(ctypes.get_errno(), f"cannot enter {space}")
            done["answer"] = work()
        except Exception as fault:  # it is the caller's
            done["fault"] = fault

    thread = threading.Thread(target=enter)
    thread.start()
    thread.join()
    if "fault" in done:
        raise done["fault"]
    return done["answer"]


def compute_checksums(device):
    """Lets the kernel compute the checksums of what a device sends, so that a capture has them."""
    with socket.socket(socket.AF_INET6, socket.SOCK_DGRAM) as sock:
        value = bytearray(struct.pack("II", SET_CHECKSUMS, 0))
        place = ctypes.addressof(ctypes.c_char.from_buffer(value))
        fcntl.ioctl(sock, SIOCETHTOOL, struct.pack("16sP", device.encode(), place))


class Space:
    """A name space that ends with what was started in it."""

    def __init__(self, name):
        self.name, self.processes = name, []
        run("ip", "netns", "add", name)
        run("ip", "-n", name, "link", "set", "lo", "up")
        self.do("sysctl", "-qw", *(f"net.ipv6.conf.{setting}" for setting in SETTINGS))

    def do(self, *words, check=True):
        return run("ip", "netns", "exec", self.name, *words, check=check)

    def ip(self, *words):
        return run("ip", "-n", self.name, *words)

    def start(self, out, *words, env=None):
        """A process in it, whose output goes to that file. It leads a group, which ends with the name space."""
        with open(out, "ab") as file:
            words = ["ip", "netns", "exec", self.name, *map(str, words)]
            more = {"stdin": subprocess.DEVNULL, "stdout": file, "stderr": file, "start_new_session": True}
            process = subprocess.Popen(words, env={**os.environ, **(env or {})}, **more)
        self.processes.append(process)
        return process

    def end(self):
        """Kills all, and takes the name space away."""
        for process in reversed(self.processes):
            end_group(process)
        run("ip", "netns", "del", self.name, check=False)


def end_group(process):
    """Kills a process and all of its group."""
    try:
        os.killpg(process.pid, signal.SIGKILL)
    except ProcessLookupError:
        pass
    process.wait()


def cable(one, device, other, other_device, mtu):
    """A pair of virtual interfaces between two name spaces."""
    ends = ["peer", "name", other_device, "mtu", str(mtu), "netns", other.name]
    run("ip", "link", "add", device, "mtu", str(mtu), "netns", one.name, "type", "veth", *ends)
