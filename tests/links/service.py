"""Cases of the companion as a service: how it ends, what it refuses, what it names, and what the units of systemd run."""

import os
import re
import shutil
import signal
import socket
import subprocess
import sys
import time

from edges import is_router, stranger
from least import REGULAR, TRIGGERED
from spaces import COMPANION, ROOT, Bird, Ours, until
from suite import same

LINK = '[[link]]\ndevice = "to-b"\n'
# Tables that are refused, each with what is said of it.
REFUSED = {
    LINK.replace("[[link]]", "[link]"): "link must be an array; write [[link]]",
    LINK + 'cost = "1"\n': "link[0].cost must be a number",
    LINK + "cost = 16\n": "link[0].cost must be from 1 to 15",
    LINK + 'user = "nobody"\n': "unknown key link[0].user",
    LINK + LINK: "link[1].device: to-b stands twice",
    LINK + "stub = true\n": "every link is a stub",
    "".join(f'[[link]]\ndevice = "v{one}"\n' for one in range(257)): "there are 257 links without the stubs, and 256 at most have room",
    "[[link]]\ncost = 1\n": "link[0].device is missing",
    'user = "nobody"\n': "there is no [[link]]",
    LINK + '[[prefix]]\nprefix = "2001:db8::"\n': "prefix[0].prefix: `2001:db8::` is not an IPv6 prefix with its length",
    LINK + '[[prefix]]\nprefix = "2001:db8::/32"\n' * 2: "prefix[1].prefix: 2001:db8::/32 stands twice",
    "[[link]\n": "Expected ']]' at the end of an array declaration (at line 1, column 7)",
}


def a_refused_table(net, program):
    """Status 1, with which a unit does not start it again, and a line that names the fault."""
    table = net.folder / "table.toml"
    for text, why in REFUSED.items():
        table.write_text(text)
        done = subprocess.run([sys.executable, COMPANION, table], capture_output=True, text=True, timeout=30, check=False)
        same("status and line", (done.returncode, done.stderr), (1, f"ripngd-links: {table}: {why}\n"))
    table.write_text(f'program = "{program}"\nfolder = "{net.folder}/run"\n' + LINK)
    words = [sys.executable, COMPANION, "--unproved", table]
    done = subprocess.run(words, capture_output=True, text=True, timeout=30, check=False)
    same("without an account", (done.returncode, "user is missing" in done.stderr), (1, True))


def ends_by_signals(net, program):
    """Status 0 and no route left, also where the signal comes to its children, as by Ctrl-C or a control group."""
    b, o = net.space("b"), net.space("o")
    net.cable(b, o)
    Bird(b, {"to-o": 1}, ["2001:db8:1::/48"])
    ours = Ours(o, program, {"to-b": {}}, by=["setsid"])
    for turn, number in enumerate((signal.SIGINT, signal.SIGTERM) * 3):
        until(REGULAR, "it has learned", ours.kernel)
        if number == signal.SIGINT:
            os.killpg(ours.process.pid, number)
        else:
            processes = [ours.process.pid, *ours.children()]
            for pid in processes if turn % 4 == 1 else processes[::-1]:
                subprocess.run(["kill", f"-{number.name[3:]}", str(pid)], stderr=subprocess.DEVNULL, check=False)
                time.sleep(0.2)
        same(f"the status by {number.name}", ours.process.wait(20), 0)
        same(f"what is said by {number.name}", "`ip monitor` has ended" in ours.space.text("companion"), False)
        same("routes of an ended one", ours.kernel(), {})
        ours.start()


def links_that_are_not_there(net, program):
    """A misspelt device and one without an address are named, and the others are used. A folder is of one companion."""
    b, o = net.space("b"), net.space("o")
    net.cable(b, o)
    Bird(b, {"to-o": 1}, ["2001:db8:1::/48"])
    ours = Ours(o, program, {"to-b": {}, "eth9": {}, "lan7": {"stub": True}, "lo": {}})
    until(REGULAR, "an absent device is named", lambda: ours.said("eth9 is not there"))
    same("the router before that", ours.said("running, "), 0)
    until(REGULAR, "it has learned", ours.kernel)
    for line in ("eth9 is not there", "lo has no link-local address", "lan7 is not there"):
        same(f"how often `{line}` is said", ours.said(f"ripngd-links: {line}\n"), 1)
    words = [sys.executable, COMPANION, "--unproved", ours.config]
    done = subprocess.run(words, capture_output=True, text=True, timeout=30, check=False)
    why = f"ripngd-links: cannot use {ours.run}: another ripngd-links is there; name another `folder`\n"
    same("a second one", (done.returncode, done.stderr), (3, why))
    text = subprocess.run([sys.executable, COMPANION, "status", ours.run], capture_output=True, text=True, check=True).stdout
    neighbor = f"  neighbor {next(iter(ours.kernel().values()))['gateway']}, last Response \\d+ s ago, 1 routes"
    counts = "  triggered updates \\d+, queued 0, queued answers 0, bad packets 0, bad routes 0"
    links = ("to-b is up, address .*, interface 0, cost 1, mtu \\d+", counts, "eth9 is not there", "lan7 is not there, stub")
    for line in ("router is up, .*", "kernel has 1 routes, refused 0", *links, neighbor):
        same(f"whether status says `{line}`", re.search(f"^{line}$", text, re.M) is not None, True)


def losses_are_counted(net, program):
    """A router that does not take what is there for a while misses nothing of its links."""
    o, s = net.space("o"), net.space("s")
    net.cable(o, s)
    s.link_local("to-o", "fe80::5")
    ours = Ours(o, program, {"to-s": {}}, ["2001:db8:2::/48"])
    until(REGULAR, "the router is up", ours.table)
    stranger(s, "request")
    [router] = filter(is_router, ours.children())
    os.kill(router, signal.SIGSTOP)
    stranger(s, "responses", "::", 1000)
    os.kill(router, signal.SIGCONT)
    until(REGULAR, "all of it comes to the router", lambda: sum(map(arrivals, ours.ctl("neighbors"))) >= 1000)
    same("what is lost", ours.lost(), 0)


def arrivals(line):
    """The arrivals in a line of `ctl neighbors`, if it has some."""
    found = re.search(r" arrivals (\d+) ", line)
    return int(found[1]) if found else 0


def unit(name):
    """The keys of a unit's file, with all values of each."""
    keys = {}
    for line in (ROOT / f"docs/{name}@.service").read_text().splitlines():
        if "=" in line and not line.startswith("#"):
            key, value = line.split("=", 1)
            keys.setdefault(key, []).append(value)
    return keys


def of_unit(name, key, **places):
    """The words of a command of a unit, as systemd would give them to it."""
    text = unit(name)[key][0]
    for place, value in places.items():
        text = text.replace({"bindir": "@bindir@", "runtime": "${RUNTIME_DIRECTORY}", "unproved": "@unproved@"}[place], str(value))
    found = re.findall(r"'([^']*)'|(\S+)", text.replace("$$", "$").replace("%i", "name"))
    return [quoted or word for quoted, word in found]


def the_units(net, program):
    """What they ask of systemd, and that what they run does it."""
    for name, wanted in {
        "ripngd-links": {
            "KillMode": "mixed",
            "Type": "notify",
            "Restart": "on-failure",
            "RestartPreventExitStatus": "1 2",
            "RestartKillSignal": "SIGUSR2",
            "WatchdogSec": "60",
            "RuntimeDirectoryMode": "0711",
            "AmbientCapabilities": "CAP_NET_ADMIN CAP_NET_RAW CAP_NET_BIND_SERVICE",
        },
        "ripngd": {"Type": "exec", "Restart": "on-failure", "RestartPreventExitStatus": "1 2"},
    }.items():
        keys = unit(name)
        same(f"keys of {name}@", {key: keys.get(key) for key in wanted}, {key: [value] for key, value in wanted.items()})
    folder = net.folder / "run"
    folder.mkdir(mode=0o755)
    (folder / "ripngd").symlink_to(program)
    if shutil.which("systemd-analyze"):
        verify(folder)
    b, o = net.space("b"), net.space("o")
    net.cable(b, o)
    the_router_of_a_unit(net, folder, ["ip", "netns", "exec", o.full])
    the_companion_of_a_unit(net, folder, o)


def verify(folder):
    """Says nothing of the units, as they are installed."""
    (folder / "ripngd-links").symlink_to(COMPANION)
    for name in ("ripngd", "ripngd-links"):
        text = (ROOT / f"docs/{name}@.service").read_text()
        text = text.replace("@bindir@", str(folder)).replace("@linksdir@", str(folder)).replace("@unproved@", "")
        (folder / f"{name}@.service").write_text(text)
        words = ["systemd-analyze", "verify", "--man=no", folder / f"{name}@.service"]
        same(f"faults of {name}@", subprocess.run(words, capture_output=True, text=True, check=False).stderr, "")


def the_router_of_a_unit(net, folder, within):
    """Its log and its table are in the journal; its stop waits for its end; a refused configuration ends it with 1."""
    config = net.folder / "name.toml"
    words = of_unit("ripngd", "ExecStart", bindir=folder, runtime=folder)
    words = within + [word.replace("/etc/ripngd", str(net.folder)) for word in words]
    shutil.copy(ROOT / "examples/east.toml", config)
    quiet = {"stderr": subprocess.DEVNULL, "text": True, "umask": 0o077}
    router = subprocess.Popen(words, stdout=subprocess.PIPE, **quiet)
    until(TRIGGERED, "it listens", (folder / "name.sock").exists)
    stop = of_unit("ripngd", "ExecStop", bindir=folder, runtime=folder)
    stop = subprocess.Popen(stop, env=os.environ | {"MAINPID": str(router.pid)}, stdout=subprocess.DEVNULL)
    same("its status", (router.wait(TRIGGERED), stop.wait(TRIGGERED)), (0, 0))
    route = "2001:db8:e::/48 metric 1 direct"
    same("what the journal gets", router.stdout.read().splitlines(), [f"add {route}", route])
    config.write_text("[[interface]]")
    same("the status of a refused one", subprocess.run(words, stdout=subprocess.DEVNULL, check=False).returncode, 1)


def the_companion_of_a_unit(net, folder, space):
    """It says when it is ready, and when TERM comes to it alone its status is 0."""
    table = f'program = "{folder}/ripngd"\nuser = "nobody"\n{LINK}'
    (net.folder / "name.toml").write_text(table)
    words = of_unit("ripngd-links", "ExecStart", bindir=COMPANION.parent, unproved=" --unproved")
    words = [word.replace("/etc/ripngd-links", str(net.folder)) for word in words]
    with socket.socket(socket.AF_UNIX, socket.SOCK_DGRAM) as manager:
        manager.settimeout(TRIGGERED)
        manager.bind(str(folder / "notify"))
        os.chmod(folder / "notify", 0o777)
        run = folder / "links"
        run.mkdir(mode=0o700)
        process = space.start("unit", "env", f"NOTIFY_SOCKET={folder}/notify", f"RUNTIME_DIRECTORY={run}", *words)
        same("what systemd gets", manager.recv(99), b"READY=1")
    reload = of_unit("ripngd-links", "ExecReload", bindir=COMPANION.parent, runtime=run)
    for more, status in (("", 0), ("cots = 1", 1)):
        (net.folder / "name.toml").write_text(table + more)
        same("the status of a reload", subprocess.run(reload, capture_output=True, check=False).returncode, status)
    process.send_signal(signal.SIGTERM)
    same("the status of the companion", process.wait(TRIGGERED), 0)
