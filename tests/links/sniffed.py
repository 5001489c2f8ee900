"""What tcpdump captures of BIRD and FRR, read by `show --pcap`, beside what tcpdump or tshark say of the same file."""

import re
import shutil
import signal
import subprocess

from spaces import Bird, Frr, until
from suite import same

# Of each file: what tcpdump captures at, in which space, and with which words.
FILES = {"ethernet": ("a", ["-i", "to-b"]), "cooked": ("a", ["-i", "any", "-y", "LINUX_SLL"]), "cooked_2": ("b", ["-i", "any", "-y", "LINUX_SLL2"]),
         "nanoseconds": ("b", ["-i", "to-a", "--time-stamp-precision=nano"])}
# What is in each of them.
WANTED = ["2001:db8:b::/64 tag 0 metric 1", "2001:db8:b:1::/64 tag 0 metric 1", "2001:db8:f::/64 tag 0 metric 1", "request entries 1\n0 ::/0"]
FIELDS = ["frame.number", "frame.time_epoch", "ipv6.src", "udp.srcport", "ipv6.dst", "udp.dstport", "ipv6.hlim", "udp.payload"]


def head(row):
    """The first line of a datagram, by what tshark read of it."""
    number, time, source, port, destination, to, hops, _ = row
    return f"{number} time {time} iface 0 from {source} {port} to {destination} {to} hops {hops}"


def entries(program, digits):
    return subprocess.run([program, "show", digits], capture_output=True, text=True, check=True).stdout


def read_by_tshark(path):
    words = ["tshark", "-n", "-r", path, "-Y", "udp.port == 521", "-T", "fields", "-E", "separator=|"]
    words += [word for field in FIELDS for word in ("-e", field)]
    return [line.split("|") for line in subprocess.run(words, capture_output=True, text=True, check=True).stdout.splitlines()]


def captured_routers(net, program):
    """Updates and Requests of BIRD and FRR, captured at both ends of their cable in four forms."""
    if not shutil.which("tcpdump"):
        print("skipped: there is no tcpdump, so no capture of a real link is read")
        return
    spaces = {name: net.space(name) for name in "ab"}
    net.cable(spaces["a"], spaces["b"])
    paths = {name: net.folder / f"{name}.pcap" for name in FILES}
    sniffers = []

    def read(path):
        """What is shown of a file that may not have come to its end."""
        return subprocess.run([program, "show", "--pcap", path], capture_output=True, text=True, check=False).stdout

    for name, (space, words) in FILES.items():
        sniffers.append(spaces[space].start(name, "tcpdump", "-U", "-Z", "root", *words, "-w", paths[name]))
        until(20, f"tcpdump listens: {name}", lambda: "listening on" in spaces[space].text(name))
    Bird(spaces["a"], {"to-b": 1}, ["2001:db8:b::/64", "2001:db8:b:1::/64"], update=5)
    Frr(spaces["b"], ["to-a"], ["2001:db8:f::/64"])
    until(90, lambda: f"all is captured: {list(map(read, paths.values()))}", lambda: all(wanted in read(path) for path in paths.values() for wanted in WANTED))
    for sniffer in sniffers:
        sniffer.send_signal(signal.SIGINT)
        sniffer.wait(20)
    for name, path in paths.items():
        done = subprocess.run([program, "show", "--pcap", path], capture_output=True, text=True, check=False)
        same(f"the status of show --pcap of {name}", done.returncode, 0)
        if shutil.which("tshark"):
            rows = read_by_tshark(path)
            same(f"what is shown of {name}", re.sub("^frames .*\n", "", done.stdout, flags=re.M), "".join(f"frame {head(row)}\n{entries(program, row[-1])}" for row in rows))
