#!/usr/bin/env python3
"""Captures: what `lab --pcap` writes of each example, beside its trace, and read by tshark; and what `show --pcap` reads, of each form of
file and of frames, of cut and broken files, of 2,000 files made by chance, and of what tcpdump captured of BIRD and FRR.

    tests/captures/capture.py PROGRAM [NAME..]      all cases, or those that have NAME in theirs

A file of pcap or pcapng is written here by the definitions of the formats (tests/captures/pcaps.py), and so is read what `lab --pcap` wrote. What
a datagram holds, and which test of a router it fails, is told here by RFC 2080 (tests/captures/captured.py). Without tshark, a line `skipped: ..`
says what was left out.
"""

import functools
import pathlib
import random
import re
import shutil
import struct
import subprocess
import sys

sys.dont_write_bytecode = True
sys.path.append(str(pathlib.Path(__file__).resolve().parents[1] / "support"))
import pcaps
from captured import Traced, datagram_of, listing, said, wire_fault
from datagrams import REQUEST, entry, request, response
from pcaps import Datagram
from suite import Failed, named, play, same

ROOT = pathlib.Path(__file__).resolve().parents[2]
SCRIPTS = sorted((ROOT / "examples").rglob("*.lab"))
FILES, BATCHES = 2_000, 20
# What tshark has to say of a packet that has a comment: that it has one.
COMMENTED = "1048576"
FIELDS = ["frame.interface_name", "frame.time_epoch", "ipv6.src", "ipv6.dst", "ipv6.hlim", "udp.srcport", "udp.dstport", "udp.payload", "frame.comment"]


def run(*words):
    """What a program prints on standard output, and its exit status."""
    ended = subprocess.run(words, capture_output=True, timeout=60)
    if ended.returncode not in (0, 1):
        raise Failed(f"{words[1:]} ends with {ended.returncode}: {ended.stderr!r}")
    return ended.stdout.decode(), ended.returncode


def shown(program, folder, file):
    """The lines of `show --pcap` for the bytes of a file, and its exit status."""
    path = pathlib.Path(folder) / "shown"
    path.write_bytes(file)
    out, status = run(program, "show", "--pcap", path)
    return out.splitlines(), status


ROUTE = Datagram(response(entry("2001:db8::/32", 1)))
TABLE = Datagram(response(entry("fe80::9/0", 255), entry("2001:db8:1::/48", 16, 7)), "fe80::b0")
TIMES = [1_700_000_000_123_456_000, 1_700_000_030_000_001_000]


def ends(frames, ripng, short=0):
    return [f"frames {frames} ripng {ripng} short {short}"]


# What `lab --pcap` writes.


def capture_of(program, folder, script):
    """The capture of a script, and what its trace says was on its links."""
    path = pathlib.Path(folder) / "made.pcapng"
    made, plain = run(program, "lab", "--pcap", path, script), run(program, "lab", script)
    same("what the script prints, and its status", made, plain)
    traced = Traced(script.read_text(), run(program, "lab", "--trace", script)[0])
    return path.read_bytes(), traced


def writes(program, script, folder):
    file, traced = capture_of(program, folder, script)
    links, packets = pcaps.read(file)
    same("the names of the interfaces", links, [str(link) for link in traced.links()])
    same("how many packets there are", len(packets), len(traced.seen))
    for packet, seen in zip(packets, traced.seen):
        link, now, datagram, comment = seen.fields()
        same("a packet", packet, pcaps.Read(str(link), pcaps.IPV6, now, 1_000, pcaps.ipv6(datagram), comment))
    lines, status = shown(program, folder, file)
    wanted = [said(number, 1_000_000 * seen.now, links.index(str(seen.link)), seen.datagram) for number, seen in enumerate(traced.seen, 1)]
    same("what is shown", (lines, status), (sum(wanted, []) + ends(len(wanted), len(wanted)), 0))
    texts = re.split(r"^frame .*\n", "\n".join(lines[:-1]) + "\n", flags=re.M)[1:]
    back = [datagram_of(text.splitlines()) for text, seen in zip(texts, traced.seen) if seen.is_sent]
    same("the datagrams of `sent`", back, [seen.datagram.payload for seen in traced.of_number])


def is_read_by_tshark(program, script, folder):
    """The capture of a script, without a warning and with right checksums. What is malformed is a datagram that the script has so."""
    traced = capture_of(program, folder, script)[1]
    words = ["tshark", "-n", "-r", pathlib.Path(folder) / "made.pcapng", "-o", "udp.check_checksum:TRUE", "-T", "fields", "-E", "separator=|"]
    asked = [*FIELDS, "udp.checksum.status", "_ws.malformed", "_ws.expert.severity"]
    read = subprocess.run([*words, *(word for field in asked for word in ("-e", field))], capture_output=True, text=True, timeout=120)
    warned = [line for line in read.stderr.splitlines() if "Running as user" not in line]
    same("the status of tshark, and its warnings", (read.returncode, warned), (0, []))
    rows = [row.split("|") for row in read.stdout.splitlines()]
    same("how many packets tshark reads", len(rows), len(traced.seen))
    for row, seen in zip(rows, traced.seen):
        link, now, datagram, comment = seen.fields()
        wanted = [str(link), f"{now // 1000}.{now % 1000:03}000000", datagram.source, datagram.destination, str(datagram.hops),
                  str(datagram.source_port), str(datagram.destination_port), datagram.payload.hex(), comment, "1"]
        said_of_it = row[-2:] if wire_fault(datagram.payload) else ["", COMMENTED if comment else ""]
        same("a packet, by tshark", row, wanted + said_of_it)


# What `show --pcap` reads.


def raw(datagram):
    return pcaps.ipv6(datagram)


LINKS = {
    "ethernet": (pcaps.ETHERNET, lambda datagram: pcaps.ethernet(raw(datagram))),
    "ethernet, filled up": (pcaps.ETHERNET, lambda datagram: pcaps.ethernet(raw(datagram), tail=b"\xaa" * 30)),
    "a tag of a VLAN": (pcaps.ETHERNET, lambda datagram: pcaps.ethernet(raw(datagram), tags=[(pcaps.ETHER_TAG, 7)])),
    "linux cooked": (pcaps.COOKED, lambda datagram: pcaps.cooked(raw(datagram))),
    "linux cooked, version 2": (pcaps.COOKED_2, lambda datagram: pcaps.cooked_2(raw(datagram))),
    "raw": (pcaps.RAW, raw),
    "raw ipv6": (pcaps.IPV6, raw),
}


def forms(link_type, frames):
    """The same frames as files of each form, each with its name and the times that it keeps."""
    for order, name in (("<", "little"), (">", "big")):
        yield f"pcap, {name}", pcaps.pcap(frames, link_type, order), TIMES
        yield f"pcap in nanoseconds, {name}", pcaps.pcap(frames, link_type, order, True), TIMES
        for resolution, unit in ((None, 1_000), (6, 1_000), (9, 1), (3, 1_000_000)):
            blocks = [pcaps.packet(order, 0, time // unit, frame) for time, frame in frames]
            file = pcaps.section(order) + pcaps.interface(order, link_type, resolution, b"eth0") + b"".join(blocks)
            yield f"pcapng, resolution {resolution}, {name}", file, [time // unit * unit for time in TIMES]


def reads_links(program, name, folder):
    link_type, frame = LINKS[name]
    frames = [(time, frame(datagram)) for time, datagram in zip(TIMES, (ROUTE, TABLE))]
    for form, file, times in forms(link_type, frames):
        wanted = said(1, times[0], 0, ROUTE) + said(2, times[1], 0, TABLE) + ends(2, 2)
        same(f"{name} in {form}", shown(program, folder, file), (wanted, 0))


def reads_blocks(program, folder):
    """Blocks of other kinds are skipped, a section has its own order and interfaces, and an interface its own link type and times."""
    for order, other in ("<>", "><"):
        file = pcaps.section(order) + pcaps.block(order, 4, b"\1\0\0\0" * 3) + pcaps.interface(order, pcaps.IPV6, 9)
        file += pcaps.interface(order, pcaps.ETHERNET, 0x80 | 10) + pcaps.packet(order, 1, 5 * 1024 + 512, pcaps.ethernet(raw(TABLE)), comment=b"why")
        file += pcaps.packet(order, 0, 5, raw(ROUTE), pcaps.OLD_PACKET) + pcaps.simple(order, raw(ROUTE)) + pcaps.block(order, 0xBAD, b"")
        file += pcaps.section(other) + pcaps.interface(other, pcaps.COOKED, 0) + pcaps.packet(other, 0, 7, pcaps.cooked(raw(TABLE)))
        wanted = said(1, 5_500_000_000, 1, TABLE) + said(2, 5, 0, ROUTE) + said(3, 0, 0, ROUTE) + said(4, 7_000_000_000, 0, TABLE)
        same("what is shown", shown(program, folder, file), (wanted + ends(4, 4), 0))


def skips_others(program, folder):
    """Frames without a datagram of RIPng are counted, and those that end too soon. Extension headers are passed by."""
    hop, way, atomic = bytes.fromhex("1100050200000000"), bytes.fromhex("110100000000000000000000000000000000"[:32]), bytes.fromhex("1100000012345678")
    part = bytes.fromhex("1100000112345678")
    twice = bytes.fromhex("3c00050200000000") + bytes.fromhex("1100010400000000")
    read = [pcaps.ipv6(ROUTE, hop, 0), pcaps.ipv6(ROUTE, way, 43), pcaps.ipv6(ROUTE, atomic, 44), pcaps.ipv6(ROUTE, twice, 0)]
    to_tool = Datagram(ROUTE.payload, "2001:db8::1", "2001:db8::2", 521, 40_000, 64)
    read = [(packet, ROUTE) for packet in read] + [(raw(to_tool), to_tool)]
    other = [raw(Datagram(b"\0" * 8, source_port=53, destination_port=40_000)), pcaps.ipv6(ROUTE, first=6, body=b"\0" * 20),
             pcaps.ipv6(ROUTE, part, 44), pcaps.ipv6(ROUTE, first=59, body=b""), b"\x45" + bytes(39)]
    whole = raw(ROUTE)
    short = [whole[:39], whole[:-1], whole[:47], pcaps.ipv6(ROUTE, first=0, body=b"\x11"), pcaps.ipv6(ROUTE, first=43, body=b"\x11\xff" + bytes(6)),
             whole[:44] + b"\0\7" + whole[46:], b""]
    frames = [*other, *(packet for packet, _ in read), *short]
    file = pcaps.pcap([(0, frame) for frame in frames], pcaps.RAW)
    wanted = sum([said(len(other) + number, 0, 0, datagram) for number, (_, datagram) in enumerate(read, 1)], [])
    same("what is shown", shown(program, folder, file), (wanted + ends(len(frames), len(read), len(short)), 0))
    frames = [pcaps.ethernet(b"\x45" + bytes(39), pcaps.ETHER_IPV4), pcaps.ethernet(whole)[:13], pcaps.ethernet(whole, tags=[(pcaps.ETHER_TAG, 7)])[:17]]
    file = pcaps.pcap([(0, frame) for frame in frames], pcaps.ETHERNET)
    same("what is shown", shown(program, folder, file), (ends(3, 0, 2), 0))
    same("frames of another link", shown(program, folder, pcaps.pcap([(0, whole)], 105)), (ends(1, 0), 0))


def refuses(program, folder):
    """Each test of a router that a datagram alone may fail, with the number that comes of it, by hand."""
    empty, ask = request(), REQUEST
    far = {"source": "2001:db8::1"}
    rows = [
        (b"\2\1\0", {}, "1 Short"), (b"", {}, "1 Short"), (b"\2\1\0\0" + bytes(20 * 3277), {}, None), (b"\2\1\0\0\0", {}, "3 Ragged"),
        (b"\3\1\0\0", {}, "4 BadCommand"), (b"\2\2\0\0", {}, "5 BadVersion"), (b"\2\1\0\1", {}, "6 NotZero"),
        (ROUTE.payload, {"source_port": 520}, "7 NotRipngPort"), (ROUTE.payload, far, "8 NotLinkLocal"), (ROUTE.payload, {"hops": 254}, "10 HopLimit"),
        (ROUTE.payload, {"hops": 254, "destination": "fe80::1"}, listing(ROUTE.payload)[0]), (empty, {}, "11 EmptyRequest"),
        (ask, far, "8 NotLinkLocal"), (ask, {**far, "source_port": 4_000}, listing(ask)[0]), (ask, {"source_port": 4_000, "source": "::"}, "12 BadSource"),
        (ask, {"source_port": 4_000, "source": "ff02::1"}, "12 BadSource"), (ask, {"source_port": 0}, "12 BadSource"),
    ]
    rows = [(Datagram(data, **others), wanted) for data, others, wanted in rows if wanted]
    file = pcaps.pcap([(0, raw(datagram)) for datagram, _ in rows], pcaps.RAW)
    lines, status = shown(program, folder, file)
    heads = [number for number, line in enumerate(lines) if line.startswith("frame ")]
    same("the line behind each head", [lines[number + 1].removeprefix("refused ") for number in heads], [wanted for _, wanted in rows])
    whole = sum([said(number, 0, 0, datagram) for number, (datagram, _) in enumerate(rows, 1)], [])
    same("what is shown", (lines, status), (whole + ends(len(rows), len(rows)), 0))


# Damaged files.


def parts():
    """Two files as lists of parts: a header, and then what may break."""
    frames = [(time, raw(datagram)) for time, datagram in zip(TIMES, (ROUTE, TABLE))]
    whole = pcaps.pcap(frames, pcaps.RAW)
    first = 24 + 16 + len(frames[0][1])
    blocks = [pcaps.section(), pcaps.interface("<", pcaps.IPV6, 9, b"0"), *(pcaps.packet("<", 0, time, frame) for time, frame in frames)]
    return {"pcap": [whole[:24], whole[24:first], whole[first:]], "pcapng": blocks}


CUT = "it ends before what begins here does"


def tells_cuts(program, form, folder):
    """A file that is cut anywhere gives what stands whole before, and the place where the part begins that is cut."""
    made = parts()[form]
    file, starts = b"".join(made), [sum(map(len, made[:number])) for number in range(len(made) + 1)]
    told = [said(1, TIMES[0], 0, ROUTE), said(2, TIMES[1], 0, TABLE)]
    for length in range(len(file) + 1):
        whole = sum(start <= length for start in starts[1:])
        frames = max(0, whole - (len(made) - 2))
        wanted = sum(told[:frames], []) + ends(frames, frames)
        if length < 4:
            wanted.append("damaged at byte 0: it is no file of pcap or pcapng")
        elif length not in starts:
            wanted.append(f"damaged at byte {starts[whole]}: {CUT}")
        status = int(length not in starts[1:])
        same(f"the first {length} bytes", shown(program, folder, file[:length]), (wanted, status))


def tells_damage(program, folder):
    """Each way in which a file may be broken, and what stands before."""
    section, face, one, two = parts()["pcapng"]
    head = section + face + one
    at, told = len(head), said(1, TIMES[0], 0, ROUTE) + ends(1, 1)
    wrong = two[:-4] + struct.pack("<I", len(two) + 4)
    rows = [
        (head + struct.pack("<II", 6, 8) + bytes(8), at, "the length of a block is wrong"),
        (head + struct.pack("<II", 6, 14) + bytes(20), at, "the length of a block is wrong"),
        (head + wrong, at, "the two lengths of a block differ"),
        (head + pcaps.block("<", 6, bytes(16)), at, "the length of a block is wrong"),
        (head + pcaps.block("<", 6, struct.pack("<IIIII", 0, 0, 0, 9, 9) + bytes(8)), at, "the length of a block is wrong"),
        (head + pcaps.block("<", 3, b""), at, "the length of a block is wrong"),
        (head + pcaps.block("<", 1, bytes(4)), at, "the length of a block is wrong"),
        (head + pcaps.packet("<", 1, 0, raw(ROUTE)), at, "a packet is of an interface that is not described"),
        (head + pcaps.section(">") + pcaps.packet(">", 0, 0, raw(ROUTE)), at + 28, "a packet is of an interface that is not described"),
        (head + pcaps.interface("<", pcaps.RAW, 10), at, "the times of an interface are finer than nanoseconds"),
        (head + pcaps.section(version=2), at, "its version is not known"),
        (head + struct.pack("<IIIHHq", 0x0A0D0D0A, 28, 0x1A2B3C4E, 1, 0, -1) + struct.pack("<I", 28), at, "the byte order of a section is not known"),
    ]
    for file, place, why in rows:
        same(why, shown(program, folder, file + one), (told + [f"damaged at byte {place}: {why}"], 1))
    rows = [(b"", "it is no file of pcap or pcapng"), (b"\x7fELF" + bytes(60), "it is no file of pcap or pcapng"),
            (pcaps.pcap([], pcaps.RAW, version=3), "its version is not known"), (pcaps.pcap([], pcaps.RAW)[:23], CUT)]
    for file, why in rows:
        same(why, shown(program, folder, file), (ends(0, 0) + [f"damaged at byte 0: {why}"], 1))


def mutated(chance, files):
    """One of these files with up to five other bytes, or numbers that are large or small, and one in four is cut short."""
    made = bytearray(chance.choice(files))
    for _ in range(chance.randrange(6)):
        place = chance.randrange(len(made))
        if chance.randrange(2):
            made[place] = chance.choice([0, 1, 3, 4, 255, chance.randrange(256)])
        else:
            made[place:place + 4] = struct.pack(chance.choice("<>") + "I", chance.choice([0, 4, 12, 16, 2**31, 2**32 - 1, chance.randrange(200)]))
    return bytes(made[:chance.randrange(len(made))] if chance.randrange(4) == 0 else made)


def bears_chance(program, batch, folder):
    """No file makes it crash, run on, or say anything but whole lines; where it is damaged, the last says so."""
    chance = random.Random(batch)
    files = [file for link_type, frame in LINKS.values() for _, file, _ in forms(link_type, [(TIMES[0], frame(ROUTE)), (TIMES[1], frame(TABLE))])]
    for number in range(FILES // BATCHES):
        lines, status = shown(program, folder, mutated(chance, files))
        is_damaged = lines[-1].startswith("damaged at byte ")
        same(f"the status at file {number}", status, int(is_damaged))
        same(f"the last line at file {number}", re.sub(r"\d+", "N", lines[-2 if is_damaged else -1]), "frames N ripng N short N")


def cases(program):
    found = [(f"lab --pcap of {script.relative_to(ROOT)}", functools.partial(writes, program, script)) for script in SCRIPTS]
    if shutil.which("tshark"):
        found += [(f"tshark reads that of {script.relative_to(ROOT)}", functools.partial(is_read_by_tshark, program, script)) for script in SCRIPTS]
    else:
        print("skipped: there is no tshark, so captures of the laboratory are read by tests/captures/pcaps.py alone")
    found += [(f"frames of {name}", functools.partial(reads_links, program, name)) for name in LINKS]
    found += [(f"a cut file of {form}", functools.partial(tells_cuts, program, form)) for form in ("pcap", "pcapng")]
    found += [(f"files by chance, {batch}", functools.partial(bears_chance, program, batch)) for batch in range(BATCHES)]
    return found + [
        ("blocks of pcapng", functools.partial(reads_blocks, program)),
        ("frames that are no datagram of RIPng", functools.partial(skips_others, program)),
        ("each refusal", functools.partial(refuses, program)),
        ("each damage", functools.partial(tells_damage, program)),
    ]


def main(program, *names):
    return play(named(cases(program), names))


if __name__ == "__main__":
    sys.exit(main(*sys.argv[1:]))
