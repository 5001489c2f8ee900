"""Cases of a table that changes while the router runs: it is read anew, or refused with everything left as it was; and of links by
pattern. Whatever starts anew, packets are forwarded on."""

import re
import signal
import subprocess
import sys
import time

from changes import STAY, is_deleted, routers_of
from least import REGULAR, TRIGGERED, least, settle
from spaces import COMPANION, HERE, Bird, Ours, until
from suite import same

OWNED = {"b": ["2001:db8:1::/48"], "o": ["2001:db8:2::/48"], "c": ["2001:db8:3::/48"], "d": ["2001:db8:4::/48"]}
HERE_B, THERE_C = "2001:db8:1::1", "2001:db8:3::1"
CABLES = [("b", 1, "o", 1), ("o", 1, "c", 1)]


def a_line(net, program, links=None, cost=1):
    """BIRD, ours, BIRD, whose ends each have an address; and BIRD on a third link that is not the router's yet."""
    spaces = {name: net.space(name) for name in "bocd"}
    for name in "bcd":
        net.cable(spaces[name], spaces["o"])
    for name, address in (("b", HERE_B), ("c", THERE_C)):
        spaces[name].ip("address", "add", f"{address}/128", "dev", "lo")
    routers = {name: Bird(spaces[name], {"to-o": 1}, OWNED[name]) for name in "bcd"}
    third = {"d": routers.pop("d")}
    routers["o"] = Ours(spaces["o"], program, links or {"to-b": {}, "to-c": {}}, OWNED["o"])
    settle(routers, least([CABLES[0], ("o", cost, "c", 1)], {name: OWNED[name] for name in "boc"}))
    spaces["o"].start("monitor", "ip", "-6", "monitor", "route")
    spaces["c"].start("echo", sys.executable, HERE / "pings.py", "echo", THERE_C)
    until(TRIGGERED, "what is sent there comes back", lambda: spaces["c"].text("echo"))
    return routers, third


def lost_during(routers, what, do, seconds=15):
    """Nothing is lost on the way from one end of the line to the other while that is done."""
    pings = routers["b"].space.start("pings", sys.executable, HERE / "pings.py", "send", HERE_B, THERE_C, seconds)
    time.sleep(2)
    do()
    pings.wait(2 * REGULAR)
    told = routers["b"].space.text("pings").splitlines()[-1]
    sent, lost = map(int, re.fullmatch(r"sent (\d+) lost (\d+)", told).groups())
    same(f"whether something is sent during {what}", sent >= seconds * 18, True)
    same(f"what is lost during {what}", lost, 0)


def reload(ours, text=None):
    """Status and lines of `ripngd-links reload`, with another table or the same."""
    if text is not None:
        ours.config.write_text(text)
    words = [sys.executable, COMPANION, "reload", ours.run]
    done = subprocess.run(words, capture_output=True, text=True, check=False)
    return done.returncode, (done.stdout + done.stderr).splitlines()


def a_reload(net, program):
    """A cost is changed in the router that runs; a link comes and another goes, for which it starts anew: no packet is lost, and no route
    leaves the kernel."""
    routers, third = a_line(net, program)
    ours = routers["o"]
    before, text = routers_of(ours), ours.config.read_text()
    of_c = text.replace('device = "to-c"\n', 'device = "to-c"\ncost = 3\n')
    same("a cost", reload(ours, of_c), (0, ["ok", "to-c: cost 3"]))
    settle(routers, least([CABLES[0], ("o", 3, "c", 1)], {name: OWNED[name] for name in "boc"}), TRIGGERED)
    same("the router", routers_of(ours), before)
    cheap, owned = of_c.replace("cost = 3", "cost = 2"), '[[prefix]]\nprefix = "2001:db8:5::/48"\n'

    def cost_and_link():
        answer = reload(ours, cheap + '[[link]]\ndevice = "to-d"\n' + owned)
        same("a cost, a link and a prefix", answer, (0, ["ok", "to-d comes", "to-c: cost 2", "2001:db8:5::/48 comes"]))

    lost_during(routers, "a reload that changes a cost and adds a link", cost_and_link)
    here = {name: OWNED[name] for name in "bocd"} | {"o": [*OWNED["o"], "2001:db8:5::/48"]}
    settle(routers | third, least([CABLES[0], ("o", 2, "c", 1), ("o", 1, "d", 1)], here))
    same("the router", routers_of(ours) == before, False)
    until(TRIGGERED, "what is owned leads nowhere", lambda: ours.nowhere() == {*OWNED["o"], "2001:db8:5::/48"})
    before = routers_of(ours)
    lost_during(routers, "a reload that takes a link away", lambda: same("its status", reload(ours, cheap)[0], 0))
    settle(routers, least([CABLES[0], ("o", 2, "c", 1)], {name: OWNED[name] for name in "boc"}), TRIGGERED)
    until(TRIGGERED, "the router starts anew", lambda: routers_of(ours) != before)
    same("what leads nowhere", ours.nowhere(), set(OWNED["o"]))
    for name in "bc":
        same(f"whether the route to {name} has left", is_deleted(ours, OWNED[name][0]), False)


# What is put at the end of a table that is refused then, and what is said of it.
REFUSED = {
    "cots = 1\n": "unknown key prefix[0].cots",
    '[[prefix]]\nprefix = "ff02::/16"\n': "the router says `refused 6 Router 9 PrefixNotAllowed`",
    "[[link]\n": "Expected ']]' at the end of an array declaration",
}


def a_refused_reload(net, program):
    """A table that is refused, or that changes what only a restart changes: it is said, and all goes on as it was."""
    b, o = net.space("b"), net.space("o")
    net.cable(b, o)
    Bird(b, {"to-o": 1}, OWNED["b"])
    ours = Ours(o, program, {"to-b": {}}, OWNED["o"])
    until(REGULAR, "it has learned", lambda: set(ours.kernel()) == set(OWNED["b"]))
    before, text = routers_of(ours), ours.config.read_text()
    cases = {text + more: why for more, why in REFUSED.items()}
    cases["priority = 7\n" + text] = "priority is changed by a restart alone"
    for number, (other, why) in enumerate(cases.items(), 1):
        status, [line] = reload(ours, other)
        start = "ripngd-links: not reloaded, all goes on as it was: "
        same(f"status and line of {why}", (status, line.startswith(start), why in line), (1, True, True))
        same("how often it is said", ours.said("not reloaded, all goes on as it was: "), number)
    ours.process.send_signal(signal.SIGHUP)
    until(5, "HUP is the same", lambda: ours.said("not reloaded, ") == len(cases) + 1)
    same("the same table", reload(ours, text), (0, ["ok"]))
    same("the router", routers_of(ours), before)
    same("the kernel's routes", set(ours.kernel()), set(OWNED["b"]))


def lists_are_reloaded(net, program):
    """Another list of a link, or who may ask there: the router starts anew with it, and forwards on."""
    routers, _ = a_line(net, program)
    ours = routers["o"]
    text = ours.config.read_text()
    for keys in ('queries = "all"\n', 'reject = ["2001:db8:3::/48"]\n'):
        before = routers_of(ours)
        device = "to-b" if "queries" in keys else "to-c"
        changed = text.replace(f'device = "{device}"\n', f'device = "{device}"\n{keys}')
        lost_during(routers, keys, lambda: same("its status", reload(ours, changed)[0], 0), 6)
        until(REGULAR, "another router runs", lambda: ours.ctl("counts") and routers_of(ours) != before)
    until(2 * STAY, "what is refused goes", lambda: set(ours.kernel()) == set(OWNED["b"]))


def a_hand_over(net, program):
    """What a unit sends for a restart: the companion ends, tells nobody and leaves its routes; the next one takes over."""
    routers, _ = a_line(net, program)
    ours = routers["o"]

    def restart():
        same("its status", ours.end(signal.SIGUSR2), 0)
        same("its routes", set(ours.kernel()), {*OWNED["b"], *OWNED["c"]})
        ours.start()

    lost_during(routers, "a restart", restart)
    settle(routers, least(CABLES, {name: OWNED[name] for name in "boc"}))
    time.sleep(STAY)
    for name in "bc":
        same(f"whether the route to {name} has left", is_deleted(ours, OWNED[name][0]), False)
        same(f"whether {name} has stayed", routers[name].table().get(OWNED["o"][0]), 2)


def links_by_pattern(net, program):
    """Each device that matches is a link, with what the pattern's table says, but where it is named itself: also one that is made later,
    for which the router starts anew and forwards on."""
    routers, third = a_line(net, program, {"to-*": {"cost": 2}, "to-b": {}, "to-d": {"stub": True}}, cost=2)
    ours = routers["o"]
    same("the cost of each", {link["device"]: link.get("cost") for link in ours.status()["links"]}, {"to-b": 1, "to-d": 1, "to-c": 2})
    e = net.space("e")
    third["e"] = Bird(e, {"to-o": 1}, ["2001:db8:e::/48"])
    lost_during(routers, "a device that matches", lambda: net.cable(e, ours.space))
    here = {name: OWNED[name] for name in "boc"} | {"e": ["2001:db8:e::/48"]}
    wanted = least([CABLES[0], ("o", 2, "c", 1), ("o", 2, "e", 1)], here)
    settle(routers | {"e": third["e"]}, wanted)
    before = routers_of(ours)
    ours.space.ip("link", "del", "to-e")
    until(TRIGGERED, "its routes are gone", lambda: "2001:db8:e::/48" not in ours.table())
    same("the router", routers_of(ours), before)
    net.cable(e, ours.space)
    settle(routers | {"e": third["e"]}, wanted)


def a_reloaded_pattern(net, program):
    """What a pattern says of its links is changed in the router that runs; another pattern adds links, and one that goes takes its own
    away. A device that is named has its own table throughout."""
    routers, third = a_line(net, program, {"to-b": {}, "to-c*": {}})
    ours = routers["o"]
    before, text = routers_of(ours), ours.config.read_text()
    of_c = text.replace('device = "to-c*"\n', 'device = "to-c*"\ncost = 3\n')
    same("a cost", reload(ours, of_c), (0, ["ok", "to-c*: cost 3"]))
    here = {name: OWNED[name] for name in "boc"}
    settle(routers, least([CABLES[0], ("o", 3, "c", 1)], here), TRIGGERED)
    same("the router", routers_of(ours), before)
    more = of_c + '[[link]]\ndevice = "to-*"\ncost = 2\n'
    lost_during(routers, "a pattern that comes", lambda: same("its answer", reload(ours, more), (0, ["ok", "to-* comes"])))
    settle(routers | third, least([CABLES[0], ("o", 3, "c", 1), ("o", 2, "d", 1)], OWNED))
    lost_during(routers, "a pattern that goes", lambda: same("its answer", reload(ours, of_c), (0, ["ok", "to-* goes"])))
    settle(routers, least([CABLES[0], ("o", 3, "c", 1)], here))
    same("which links are left", [link["device"] for link in ours.status()["links"]], ["to-b", "to-c"])
