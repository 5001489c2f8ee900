"""Cases of the companion's pure parts: what it makes of tables, of devices, of the router's words and of the kernel's."""

import asyncio
import json
import pathlib
import re
import struct
import sys
import time
from types import SimpleNamespace

ROOT = pathlib.Path(__file__).resolve().parent.parent.parent
sys.path.insert(0, str(ROOT / "companion"))

import events  # noqa: E402
import lines  # noqa: E402
import link  # noqa: E402
import metrics  # noqa: E402
import plan  # noqa: E402
import pulse  # noqa: E402
import reload  # noqa: E402
import report  # noqa: E402
import shape  # noqa: E402
import table  # noqa: E402
import watch  # noqa: E402
from journal import Log  # noqa: E402
from suite import Failed, same  # noqa: E402

KEYS = {"address": "fe80::1", "cost": 1, "mtu": 1500, "zone": 256, "reject": ["::/96+"], "descriptor": 5}


def links_of_a_table():
    """A device has its own table, or that of the first pattern that fits; what is named is there without a device."""
    links = [table.Link("vlan*", cost=2), table.Link("vlan7", cost=7), table.Link("*", cost=3), table.Link("ppp?", cost=4)]
    found = plan.places(links, ["vlan5", "vlan7", "ppp0", "ppp10"], kept=["vlan9"])
    wanted = {"vlan7": 7, "vlan9": 2, "vlan5": 2, "ppp0": 3, "ppp10": 3}
    same("the costs", {name: link.cost for name, link in found.items()}, wanted)
    same("without devices", list(plan.places(links, [])), ["vlan7"])
    dotted = table.Link("eth0.*")
    same("who matches eth0.*", [name for name in ("eth0.7", "eth0", "eth0x7") if dotted.matches(name)], ["eth0.7"])


def what_needs_a_new_router():
    """A cost is told to the one that runs, a larger MTU is no change, and all else needs another."""
    for change, wanted in (
        ({}, False),
        ({"cost": 5}, False),
        ({"mtu": 9000}, False),
        ({"mtu": 1499}, True),
        ({"zone": 1}, True),
        ({"reject": []}, True),
        ({"limit": 5}, True),
        ({"passive": True}, True),
        ({"announce_not": ["::/0"]}, True),
        ({"descriptor": 6}, True),
    ):
        same(f"whether {change} does", plan.is_unlike(KEYS, KEYS | change), wanted)


def what_a_reload_changes():
    """Each thing that differs is said, and what only a restart changes is refused."""
    old = table.Table(link=[table.Link("a"), table.Link("b", cost=2)], prefix=[table.Owned("2001:db8::/32")])
    new = table.Table(link=[table.Link("b", cost=3), table.Link("c")], prefix=[table.Owned("2001:db8::/32", tag=4)], log_routes=True)
    wanted = ["a goes", "c comes", "b: cost 3", "2001:db8::/32: tag 4", "log_routes True"]
    same("what is said", list(reload.changes(old, new)), wanted)
    same("of the same table", list(reload.changes(old, old)), [])
    for key in reload.FIXED:
        try:
            reload.refuse_fixed(old, table.Table(**{key: "x"}))
        except table.Fault as fault:
            same("what is refused", str(fault), f"{key} is changed by a restart alone")
            continue
        raise Failed(f"{key} is taken")


def martians_are_refused():
    """A link refuses what nobody routes, beside its own list, unless it says otherwise."""
    same("of a plain link", table.Link("a").lists(), {"reject": table.MARTIANS})
    lists = table.Link("a", reject=["::/0"], limit=3).lists()
    same("beside a list", lists, {"reject": ["::/0", *table.MARTIANS], "limit": 3})
    same("where they are wanted", table.Link("a", martians=True).lists(), {})
    outward = {"passive": True, "announce": ["::/0"], "announce_not": ["2001:db8::/32+"]}
    same("what is told there", table.Link("a", martians=True, **outward).lists(), outward)


def a_default_is_told():
    """A link that is to be told a default route gets it, no other link does, and the router owns it."""
    words = [{"device": "up"}, {"device": "down", "default_originate": True}, {"device": "lab", "default_originate": True, "announce": ["2001:db8::/32"]}]
    told = table.checked(table.Table(link=words, prefix=[{"prefix": "2001:db8::/32"}]))
    same("what is owned", [owned.prefix for owned in told.prefix], ["2001:db8::/32", "::/0"])
    same("what is told", [(link.announce, link.announce_not) for link in told.link], [([], ["::/0"]), ([], []), (["2001:db8::/32", "::/0"], [])])
    plain = table.checked(table.Table(link=[{"device": "up"}]))
    same("without it", (plain.prefix, plain.link[0].announce_not), ([], []))
    own = table.checked(table.Table(link=[{"device": "up", "default_originate": True}], prefix=[{"prefix": "::/0", "tag": 7}]))
    same("where it is owned already", [(owned.prefix, owned.tag) for owned in own.prefix], [("::/0", 7)])
    try:
        table.checked(table.Table(link=[{"device": "up", "default_originate": True, "announce_not": ["::/0+"]}]))
    except table.Fault as fault:
        same("what contradicts", str(fault), "link[0]: default_originate is true, and announce_not has ::/0+")
        return
    raise Failed("both are taken")


def message(kind, body):
    return watch.HEADER.pack(16 + len(body), kind, 0, 0, 0) + body + bytes(-len(body) % 4)


def attribute(kind, data):
    return struct.pack("=HH", 4 + len(data), kind) + data + bytes(-len(data) % 4)


def route(kind, protocol, gateway=b"\xfe\x80" + bytes(13) + b"\5"):
    told = attribute(watch.TO, b"\x20\1\x0d\xb8" + bytes(12)) + attribute(watch.PRIORITY, struct.pack("=I", 2048))
    told += attribute(watch.GATEWAY, gateway) if gateway else b""
    return message(kind, watch.OF_ROUTE.pack(10, 32, 0, 0, 254, protocol, 0, 1, 0) + told)


def what_the_kernel_tells():
    """Devices without a carrier, routes that go, and those of others that come; our own that come are no news."""
    news = watch.News()
    down = watch.OF_LINK.pack(0, 1, 3, 1, 0) + attribute(watch.NAME, b"eth0\0")
    up = watch.OF_LINK.pack(0, 1, 4, 1 | watch.LOWER_UP, 0) + attribute(watch.NAME, b"eth1\0")
    data = message(watch.NEW_LINK, down) + message(watch.NEW_LINK, up) + route(watch.NEW_ROUTE, 152) + route(watch.DEL_ROUTE, 152)
    watch.take(news, data + route(watch.NEW_ROUTE, 4, gateway=None), 152)
    same("who was down", (news.is_moved, news.were_down), (True, {"eth0"}))
    ours = watch.Route(True, "2001:db8::/32", "fe80::5", 254, 152, 2048)
    same("the routes", news.routes, [ours, watch.Route(False, "2001:db8::/32", None, 254, 4, 2048)])


def states_of_links():
    """That a link is up at first is no news; each change is, once, and is counted."""
    states = events.States()
    states.take({"a": "is up", "b": "is not there", "c": "has no carrier"}, 1)
    same("at first", list(states.news(lambda device: device != "c")), ["b is not there"])
    states.take({"a": "has no carrier", "b": "is not there", "c": "has no carrier"}, 5)
    same("then", list(states.news(lambda _: True)), ["a has no carrier", "c has no carrier"])
    states.take({"a": "is up", "b": "is not there", "c": "has no carrier"}, 7)
    same("at last", list(states.news(lambda _: True)), ["a is up"])
    same("what is counted", states.known["a"], events.State("is up", 2, 7))


def neighbors_come_and_go():
    """Who is met, who is silent for three minutes, and who is heard again; a new start of the router is no news."""
    known, who = events.Neighbors(), ("to-b", "fe80::5")
    same("at first", known.take({who: 1.0}, 100), ["neighbor fe80::5 on to-b is met"])
    same("later", known.take({who: 30.0}, 129), [])
    same("with a new router", known.take({}, 279), [])
    same("after three minutes", known.take({}, 280), ["neighbor fe80::5 on to-b is silent for 180 s, so its routes have timed out"])
    same("then", known.take({who: 200.4}, 300), [])
    same("again", known.take({who: 0.0}, 400), ["neighbor fe80::5 on to-b is heard again"])
    told = known.take({("to-b", f"fe80::{number:x}"): 0.0 for number in range(16, 3016)}, 401)
    same("of too many", (len(told), told[-1]), (events.AT_ONCE + 1, "2980 more neighbors are met or fall silent"))
    same("how many are remembered", len(known.heard), events.MOST)


def limits_are_said():
    """A limit that refuses is said, and while it does so once in ten minutes."""
    limits = events.Limits()
    told = [len(limits.take({"a": count}, {"a": 20}, now)) for count, now in ((0, 1), (3, 2), (5, 3), (5, 700), (9, 701), (9, 1400))]
    same("how often it is said", told, [0, 1, 0, 0, 1, 0])
    same("what is said", limits.take({"b": 1}, {"b": 20}, 1)[0].startswith("b has reached its limit of 20 routes"), True)


def changes_of_routes():
    """The last word on each prefix, and lines that are none."""
    logged = ["add 2001:db8::/32 metric 2 via fe80::5 iface 1", "del 2001:db8::/32", "add ::/0 metric 1 direct", "refused 6 Router"]
    same("what is read", lines.changes(logged), ({"2001:db8::/32": None, "::/0": (1, None, None)}, ["refused 6 Router"]))
    said = []
    lines.log.line, before = said.append, lines.log.line
    lines.say_change("2001:db8::/32", (2, "fe80::5", 1), {1: "to-b"})
    lines.say_change("2001:db8::/32", None, {})
    lines.say_line("77 iface 1 from fe80::5 port 521 refused 10 HopLimit", {1: "to-b"})
    lines.log.line = before
    wanted = ["ripngd-links: 2001:db8::/32 metric 2 via fe80::5 on to-b", "ripngd-links: 2001:db8::/32 is gone"]
    same("what is said", said, [*wanted, "ripngd: to-b from fe80::5 port 521 refused 10 HopLimit"])


def lines_of_a_flood():
    """So many lines of a kind are written in a second; the others are counted, and that is said."""
    log, said = Log(), []
    log.write = lambda text: said.append(text) or True
    monotonic, time.monotonic = time.monotonic, lambda: 7.5
    try:
        for number in range(5000):
            log.one_of_many("-d", str(number))
        time.monotonic = lambda: 8.5
        log.one_of_many("-d", "last")
    finally:
        time.monotonic = monotonic
    left = "ripngd-links: 4900 more lines of -d are left out, of 100 at most in a second"
    same("what is written", said, [*map(str, range(100)), left, "last"])


class Hanging:
    """A router that may hang, with a clock."""

    def __init__(self):
        self.now, self.began, self.answered, self.hangs, self.kills = 100.0, 90.0, float("-inf"), False, 0
        self.process = SimpleNamespace(kill=self.kill)

    def is_there(self):
        return True

    def kill(self):
        """Another router takes its place."""
        self.kills, self.began, self.hangs = self.kills + 1, self.now, False

    async def status(self, seconds):
        self.now += seconds if self.hangs else 0.01
        self.answered = self.answered if self.hangs else self.now
        return []


def a_router_that_hangs():
    """It is named, systemd hears of it no longer, and it is killed after half a minute in which it was asked; not because the companion
    itself has stood still."""
    router, said, notified = Hanging(), [], []
    here = pulse.Pulse(SimpleNamespace(router=router, forwarding={}))
    here.write = lambda told: None
    there = {"time": SimpleNamespace(monotonic=lambda: router.now), "say": said.append, "notify": notified.append}
    there |= {"known": lambda companion: {}, "join": lambda *words: {}}
    before = {name: getattr(pulse, name) for name in there}
    for name, value in there.items():
        setattr(pulse, name, value)

    def after(pause, beats):
        router.now += pause
        for _ in range(beats):
            asyncio.run(here.beat())
            router.now += pulse.BEAT
        return len(said), len(notified), router.kills

    try:
        same("while it answers", after(0, 3), (0, 3, 0))
        same("after the companion has stood still", after(300, 1), (0, 4, 0))
        router.hangs = True
        same("once it hangs, and the companion has stood still", after(300, 1), (1, 4, 0))
        same("a while later", after(0, 3), (1, 4, 0))
        same("after half a minute", after(0, 1), (2, 4, 1))
        same("with another router", after(0, 1), (2, 5, 1))
    finally:
        for name, value in before.items():
            setattr(pulse, name, value)


class Asked:
    """A router that has heard so many Responses of a neighbor, whenever it is looked at, and counts how often it asks."""

    ready = True

    def __init__(self, heard):
        self.heard, self.questions = iter(heard), 0

    async def neighbors(self):
        return {0: {"fe80::5": next(self.heard)}}

    async def tell(self, command):
        self.questions += command == "link up 0"


def a_link_is_asked():
    """Once it has come up twice, whatever was heard, since an update is no answer; then, as at a router's start, if nobody says anything."""
    before, link.PATIENCE = link.PATIENCE, (0, 0, 0)
    try:
        for is_first, heard, wanted in ((False, (3, 4, 5), 2), (False, (3, 4, 4), 3), (True, (0, 0), 2), (True, (0, 1), 1), (True, (1, 2), 0)):
            one = link.Link.__new__(link.Link)
            one.router, one.number, one.repeat = Asked(heard), 0, lambda: None
            one.device = SimpleNamespace(carrier=True, link_local="fe80::1", bridge=None)
            asyncio.run(one.inquire(is_first))
            same(f"how often it is asked, first {is_first}, where {heard} are heard", one.router.questions, wanted)
    finally:
        link.PATIENCE = before


COUNTED = """interface 0 address fe80::1 cost 1 mtu 1500 triggered 6 queued 9 answers 8 arrivals 7 responses 5 entries 2 last 4000
refused 1 Short 1
refused 10 HopLimit 3
noted 22 BadMetric 2
noted 25 NotAccepted 4
now 9000 routes 7
arrivals 12 sends 5 failed 0
refused 10 HopLimit 2
noted 25 NotAccepted 4
lost sends 0 steps 2 arrivals 1
strangers 0
iface 0 from fe80::5 arrivals 3 responses 1 entries 2 last 4000
refused 10 HopLimit 2
noted 25 NotAccepted 4
others arrivals 5 responses 0
a line of a later router""".splitlines()


def a_report():
    """A report of an interface with a neighbor, of a link without a router, and of a stub."""
    links = [report.filled("links[].", {"device": device, "interface": number}) for device, number in (("a", 0), ("b", None))]
    told = {"router": {}, "kernel": report.filled("kernel.", {}), "links": [link | {"neighbors": []} for link in links]}
    told = report.filled("", {}) | told
    forwarding = {"2001:db8::/32": ("fe80::5", 0), "2001:db9::/32": ("fe80::6", 0)}
    return report.join(told, COUNTED, forwarding)


def what_the_router_says():
    """Lines of `ctl status` are the counts of a link and its neighbors; what was not counted is 0."""
    told = a_report()
    same("the router's", {key: told["router"][key] for key in ("routes", "arrivals", "lost_steps", "answers", "log_failed")},
         {"routes": 7, "arrivals": 12, "lost_steps": 2, "answers": True, "log_failed": False})
    same("what it refused", (told["router"]["refused"]["HopLimit"], told["router"]["refused"]["Short"]), (2, 0))
    link, other = told["links"]
    counted = {"mtu": 1500, "routes": 2, "triggered_updates": 6, "queued": 9, "queued_answers": 8, "arrivals": 7, "responses": 5}
    counted |= {"bad_packets": 4, "bad_routes": 2, "not_accepted": 4, "limit_reached": 0}
    same("the link's, which are no sums of its neighbors", {key: link[key] for key in counted}, counted)
    [one] = link["neighbors"]
    same("the neighbor's", (one["address"], one["routes"], one["response_seconds_ago"], one["refused"]["HopLimit"]), ("fe80::5", 1, 5.0, 2))
    same("of a link without a router", (other["neighbors"], other["arrivals"], other["triggered_updates"], other["queued"]), ([], 0, 0, None))


def of_the_shape(told, start=""):
    """The names of all values of a report, as in the table of its shape."""
    for key, value in told.items():
        if isinstance(value, dict):
            yield from {f"{start}{key}.*"} if key == "refused" else of_the_shape(value, f"{start}{key}.")
        elif value and isinstance(value, list) and isinstance(value[0], dict):
            yield from (name for one in value for name in of_the_shape(one, f"{start}{key}[]."))
        elif value != [] or f"{start}{key}" in shape.SHAPE:
            yield f"{start}{key}"


def a_shape():
    """A report has just what the table says, also before anything is known; each name stands in the manual; metrics have all numbers."""
    told = a_report()
    same("what differs", set(of_the_shape(told)) ^ set(shape.SHAPE), set())
    json.dumps(told)
    page = (ROOT / "docs/OPERATING.md").read_text()
    names = {re.sub(r"\[\]|\.\*", "", name).rsplit(".", 1)[-1] for name in shape.SHAPE}
    same("what the page lacks", [name for name in sorted(names) if not re.search(rf"`[^`]*\b{name}\b", page)], [])
    text = list(metrics.lines(told))
    for line in text:
        wanted = r'# (HELP|TYPE) \w+ .+|ripngd_\w+(\{(\w+="[^"]*",?)+\})? -?\d+(\.\d+)?'
        same(f"whether `{line}` is a line of a metric", re.fullmatch(wanted, line) is not None, True)
    for line in ('ripngd_link_limit_reached_total{device="b"} 0', 'ripngd_router_refused_total{rule="Short"} 0', "ripngd_router_answers 1",
                 'ripngd_neighbor_routes{device="a",neighbor="fe80::5"} 1'):
        same(f"whether `{line}` is there", line in text, True)


def excerpt(part, whole, place=""):
    """What a part says that the whole does not: keys, values of another type, or keys in another order."""
    if isinstance(part, dict):
        order = [key for key in whole if key in part]
        yield from [f"{place}.{key}" for key in part if key not in whole] + [f"the order of {place}"] * (order != [key for key in part if key in whole])
        for key in order:
            yield from excerpt(part[key], whole[key], f"{place}.{key}")
    elif isinstance(part, list):
        for one in part:
            yield from excerpt(one, whole[0] if whole else one, f"{place}[]")
    elif whole is not None and not isinstance(part, type(whole)):
        yield f"{place} is {part!r}"


def a_sample():
    """The manual's sample of a report, but for what it leaves out, has keys of the shape, in its order."""
    page = (ROOT / "docs/OPERATING.md").read_text()
    sample = json.loads(re.sub(r",\.\.", "", page.rsplit("shortened:\n\n", 1)[1]))
    same("what no report has", list(excerpt(sample, a_report())), [])
    same("what it has", list(sample), ["written_timestamp_seconds", "config", "router", "kernel", "links"])


CASES = [links_of_a_table, what_needs_a_new_router, what_a_reload_changes, martians_are_refused, what_the_kernel_tells, states_of_links]
CASES += [neighbors_come_and_go, limits_are_said, changes_of_routes, lines_of_a_flood, what_the_router_says, a_shape, a_sample]
CASES += [a_router_that_hangs, a_link_is_asked, a_default_is_told]
