#!/usr/bin/env python3
"""The bench (bench/): its pure parts, and its quick rules at a program.

    tests/bench/bench.py PROGRAM [NAME..]      all cases, or those that have NAME in theirs; a rule that is named is played, also where it is not quick

Rules need root, and name spaces of the network: where these are missing, a line `skipped: ..` says so."""

import os
import pathlib
import re
import shutil
import struct
import subprocess
import sys
import tempfile
from ipaddress import IPv6Address

sys.dont_write_bytecode = True
sys.path.append(str(pathlib.Path(__file__).resolve().parents[1] / "support"))
BENCH = pathlib.Path(__file__).resolve().parents[2] / "bench"
sys.path.insert(1, str(BENCH))
import frames
import judges
import pcapng
import playable
import report
from frames import entry, message, next_hop
from suite import Failed, named, play, same
from trial import Result
from verdicts import AS_RFC, DIFFERS, OPEN, Open, Tagged, judged

NEAR, GROUP = IPv6Address("fe80::d1"), frames.GROUP
P1, P2 = "2001:db8:1::/48", "2001:db8:2::/48"
# An update of BIRD 2.0.12, as Wireshark read it: two routes, the second one lost.
CAPTURED = bytes.fromhex("0201000020010db8000f000100000000000000000000400220010db8000f0002000000000000000000004010")


def sent(*entries, command=2, source=NEAR, to=GROUP, hops=255, port=521, link="a", **more):
    """A datagram as the bench reads it."""
    payload = message(command, entries, **more)
    return frames.read(frames.udp(source, port, to, 521, payload, hops, frames.group_mac(to)), 1.5, link)


def layout_of_a_captured_update(_):
    found = frames.entries_of(CAPTURED)
    same("the entries", [str(one) for one in found], ["2001:db8:f:1::/64 at 2", "2001:db8:f:2::/64 at 16"])
    same("the bytes again", message(2, found), CAPTURED)


def a_frame_is_read_as_it_was_made(_):
    frame = sent(entry(P1, 3, 7), hops=254, port=520)
    read = (str(frame.source), str(frame.to), frame.hops, frame.port, frame.to_port, frame.checksum_is_right, frame.is_update)
    same("what was read", read, ("fe80::d1", "ff02::9", 254, 520, 521, True, True))
    same("its entries", [str(one) for one in frame.entries], [f"{P1} at 3 tag 7"])
    spoiled = frames.read(frame.raw[:-1] + b"\x04")
    same("the checksum of another byte", spoiled.checksum_is_right, False)


def a_checksum_is_that_of_rfc_1071(_):
    source, to = IPv6Address("::1"), IPv6Address("::2")
    words = [1, 2, 3, 17, 0x0209]
    same("the sum", frames.checksum(source, to, 17, b"\x02\x09\0") , ~(sum(words)) & 0xFFFF)


def a_neighbor_is_where_the_bench_says(_):
    raw = frames.advertisement(IPv6Address("fe80::a1"), NEAR, bytes(6))
    same("the kind of message, and its target", (raw[54], raw[62:78]), (136, IPv6Address("fe80::a1").packed))
    same("the address at Ethernet", raw[80:86], frames.mac_of(IPv6Address("fe80::a1")))


def judges_find_what_is_wrong(_):
    good = sent(entry(P1, 3))
    wrong = [
        (judges.from_the_port, sent(entry(P1, 3), port=520)),
        (judges.full_hops, sent(entry(P1, 3), hops=254)),
        (judges.to_the_group, sent(entry(P1, 3), to=IPv6Address("ff02::1"))),
        (judges.near_source({"a": NEAR}), sent(entry(P1, 3), source=IPv6Address("fe80::d2"))),
        (judges.version_1, sent(entry(P1, 3), version=2)),
        (judges.known_command, sent(entry(P1, 3), command=3)),
        (judges.zero_bytes, sent(entry(P1, 3), zero=1)),
        (judges.whole_entries, sent(entry(P1, 3), tail=b"\0")),
        (judges.metrics, sent(entry(P1, 17))),
        (judges.metrics, sent(entry(P1, 0))),
        (judges.lengths, sent(entry(P1, 3, length=129))),
        (judges.routable, sent(entry("fe80::/10", 3))),
        (judges.routable, sent(entry("ff02::/16", 3))),
        (judges.next_hops, sent(next_hop("fe80::1", tag=7))),
        (judges.next_hops, sent(next_hop("2001:db8::1"))),
        (judges.fits(1280), sent(*[entry(P1, 3)] * 62)),
        (judges.once, sent(entry(P1, 3), entry(P1, 4))),
        (judges.asks_for_all, sent(entry(P1, 16), command=1)),
    ]
    for judge, frame in wrong:
        if not judge([good, frame]) and not judge([frame]):
            raise Failed(f"{judge.__qualname__} finds nothing in {frame.entries}")
        if judge is not judges.asks_for_all and judge([good]):
            raise Failed(f"{judge.__qualname__} finds {judge([good])} in what is right")
    same("a list that could be fuller", len(judges.filled(1280)([sent(*[entry(P1, 3)] * 60), sent(entry(P2, 3))])), 1)
    same("full but for the last", judges.filled(1280)([sent(*[entry(P1, 3)] * 61), sent(entry(P2, 3))]), [])


def tables_are_judged_by_what_is_wanted(_):
    table = {P1: entry(P1, 4, 7)}
    same("as wanted", judged(table, {P1: 4, P2: None})[0], AS_RFC)
    same("another metric", judged(table, {P1: 5}), (DIFFERS, f"{P1} at 4"))
    same("one of several", judged(table, {P1: (16, 4)})[0], AS_RFC)
    same("one that is open", judged(table, {P1: (16, Open(4)), P2: None})[0], OPEN)
    same("a tag", judged(table, {P1: Tagged(4, 8)}), (DIFFERS, f"{P1} at 4 tag 7"))
    same("none", judged(table, {P2: 4}), (DIFFERS, f"{P2} not there"))


def blocks(data):
    while data:
        kind, length = struct.unpack_from("<II", data)
        same("the length at a block's end", struct.unpack_from("<I", data, length - 4)[0], length)
        yield kind, data[8 : length - 4]
        data = data[length:]


def captures_have_a_block_for_each_frame(_):
    late, early = sent(entry(P1, 3), link="b"), sent(entry(P2, 3))
    early.time = 0.25
    found = list(blocks(pcapng.capture([late, early], ["a", "b"], "why")))
    same("the blocks", [kind for kind, _ in found], [0x0A0D0D0A, 1, 1, 6, 6])
    same("the links of the frames", [struct.unpack_from("<I", body)[0] for _, body in found[3:]], [0, 1])
    high, low, kept, whole = struct.unpack_from("<IIII", found[4][1], 4)
    same("the time, and the lengths", ((high << 32) + low, kept, whole), (1_500_000_000, len(late.raw), len(late.raw)))
    same("the bytes", found[4][1][20 : 20 + kept], late.raw)


def tcpdump_reads_captures(folder):
    path = pathlib.Path(folder) / "kept.pcapng"
    path.write_bytes(pcapng.capture([sent(entry(P1, 3, 7)), sent(entry(P2, 16), hops=254, link="b")], ["a", "b"], "why"))
    told = subprocess.run(["tcpdump", "-n", "-vv", "-r", path], capture_output=True, text=True, check=False).stdout
    same("what it read", [told.count(words) for words in ("udp sum ok", "ripng-resp", f"{P1} [7] (3)", f"{P2} (16)", "hlim 254")], [2, 2, 1, 1, 1])


def results_stand_beside_one_another(folder):
    for router, verdict in (("one", AS_RFC), ("other", DIFFERS)):
        path = pathlib.Path(folder) / router
        path.write_text(report.written([Result("a-rule", "2.1", "says", verdict)], router, "2026-01-01"))
    told = report.compared([pathlib.Path(folder) / "one", pathlib.Path(folder) / "other"])
    same("the last row", told.splitlines()[-1], "| `a-rule` | 2.1 | as the RFC | **differs** |")


SCRIPT = """router a
  iface fe80::1 1 0
  own 2001:db8:1::/48 7 times 2
router
iface fe80::2 3 1280 0   # dear
cold 0
rounds 2 0 15000
expect a 2001:db8:1::/48 1
down 0 100
drop a +5 2001:db8:1::/48
tell a 200
up 0 300
refused BadLine
phases 1
"""


def scripts_are_read_as_networks_and_turns(_):
    script = playable.read(SCRIPT)
    same("the routers", [one.name for one in script.players], ["a", "1"])
    same("what the first owns", script.players[0].own, {"2001:db8:1::/48": 7, "2001:db8:2::/48": 7})
    same("cost, MTU and link of the second", [(one.cost, one.mtu, one.link) for one in script.players[1].interfaces], [(3, 1280, 0)])
    same("the turns", script.turns, [[["down", "0", "100"], ["drop", "a", "+5", "2001:db8:1::/48"]], [["up", "0", "300"]]])
    same("what is left out", script.left_out, {"rounds": 1, "tell": 1, "refused": 1})
    for text, why in (("router quiet\ncold 0", "quiet"), ("router\n", "cold"), ("router\niface x\ncold 0", "line 2")):
        try:
            playable.read(text)
        except playable.Refused as refused:
            same(f"{why} in what is said of {text!r}", why in str(refused), True)
        else:
            raise Failed(f"{text!r} is not refused")


def the_laboratory_settles(folder):
    """The tables that have to come out: those of least costs, by hand. The second router's link costs it 3."""
    script = playable.read(SCRIPT)
    path = pathlib.Path(folder) / "settled.lab"
    path.write_text(playable.settled(script))
    done = subprocess.run([PROGRAM, "lab", path], capture_output=True, text=True, check=False)
    same("the status", (done.returncode, done.stderr), (0, ""))
    first = {"a": {"2001:db8:1::/48": 1, "2001:db8:2::/48": 1}, "1": {"2001:db8:1::/48": 4, "2001:db8:2::/48": 4}}
    down = {"a": {"2001:db8:2::/48": 1}, "1": {}}
    up = {"a": {"2001:db8:2::/48": 1}, "1": {"2001:db8:2::/48": 4}}
    tables = playable.tables_of(script, done.stdout)
    same("the tables", tables, [first, down, up])
    same("a difference", playable.differences(up, down), ["1 2001:db8:2::/48: 4 in the laboratory, none here"])


def rule_named(name):
    """A case that plays a rule: the router has to do as the RFC says."""

    def case(_):
        words = [BENCH / "ripng-bench", "ripngd", "--program", PROGRAM, "-v", "--rule", name]
        done = subprocess.run(words, capture_output=True, text=True, check=False)
        if not done.stdout.startswith(AS_RFC):
            raise Failed(done.stdout + done.stderr)

    return name, case


def quick_rules(_):
    words = [BENCH / "ripng-bench", "ripngd", "--program", PROGRAM, "--quick"]
    done = subprocess.run(words, capture_output=True, text=True, check=False)
    if done.returncode:
        raise Failed("\n".join(line for line in done.stdout.splitlines() if not line.startswith((AS_RFC, OPEN))) + done.stderr)


def listed(*words):
    """The rules that the bench would play with these options, each with its section."""
    told = subprocess.run([BENCH / "ripng-bench", "--list", *words], capture_output=True, text=True, check=True).stdout
    return re.findall(r"^([\w-]+), ([\d.]+): ", told, re.M)


def the_page_has_each_rule(_):
    """docs/BENCH.md has a row for each rule, with its section, and says how many there are."""
    page = (BENCH.parent / "docs/BENCH.md").read_text()
    same("the rows of the page", re.findall(r"^\| `([\w-]+)` \| ([\d.]+) \|", page, re.M), listed("--slow"))
    counts = [str(len(listed(*words))) for words in (["--quick"], [], ["--slow"])]
    same("the counts of the page", re.findall(r"# (?:all )?(\d+)\b", page), counts)


def lacking():
    """What is missing for rules, or nothing."""
    if os.geteuid() != 0:
        return "there is no root"
    if not shutil.which("ip"):
        return "there is no `ip`"
    with tempfile.TemporaryFile() as nowhere:
        words = ["unshare", "-n", "ip", "link", "add", "end0", "type", "veth", "peer", "name", "end1"]
        if subprocess.run(words, stderr=nowhere, check=False).returncode:
            return "there is no name space with virtual interfaces"
    return ""


PURE = [layout_of_a_captured_update, a_frame_is_read_as_it_was_made, a_checksum_is_that_of_rfc_1071, a_neighbor_is_where_the_bench_says]
PURE += [judges_find_what_is_wrong, tables_are_judged_by_what_is_wanted, captures_have_a_block_for_each_frame]
PURE += [tcpdump_reads_captures] if shutil.which("tcpdump") else []
PURE += [results_stand_beside_one_another, the_page_has_each_rule, scripts_are_read_as_networks_and_turns, the_laboratory_settles]


def main():
    names = sys.argv[2:]
    if tcpdump_reads_captures not in PURE:
        print("skipped: there is no tcpdump, so captures of the bench are read by its own tests alone")
    cases = named([(case.__name__, case) for case in PURE], names)
    known = {name for name, _ in listed("--slow")}
    wanted = [rule_named(name) for name in names if name in known] or ([("quick_rules", quick_rules)] if not names else [])
    if wanted and (why := lacking()):
        print(f"skipped: {why}, so no rule of the bench is played")
    else:
        cases += wanted
    return play(cases)


if __name__ == "__main__":
    PROGRAM = os.path.realpath(sys.argv[1])
    sys.exit(main())
