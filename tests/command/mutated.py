#!/usr/bin/env python3
"""100,000 datagrams, made by chance from those that BIRD sent, come to two routers of a laboratory: one hears Responses whole, the other
entry by entry. Their tables are the same throughout, and so is all that they send.

    tests/command/mutated.py PROGRAM

What a datagram is to be taken for is judged here, by RFC 2080, section 2.4: a Response that a router has to hear comes as a liar's,
anything else as a stranger's. The laboratory refuses a script that has one for the other.
"""

import pathlib
import random
import re
import subprocess
import sys

sys.dont_write_bytecode = True
sys.path.append(str(pathlib.Path(__file__).resolve().parents[1] / "support"))
from suite import Failed, play, same

CASES = pathlib.Path(__file__).resolve().parents[1] / "cases"
NETWORKS, DATAGRAMS = 10, 10_000
TICKS, PRINTS = 50, 500

START = """router
iface fe80::aaaa:0 1 1280 0
iface fe80::aaaa:1 1 1280 1
own 2001:db8::/32 0
router
iface fe80::bbbb:0 1 1280 2
iface fe80::bbbb:1 1 1280 3
own 2001:db8::/32 0
cold 0
"""


def known():
    """The datagrams that BIRD sent."""
    texts = (file.read_text() for file in sorted(CASES.glob("show_captured*.case")))
    found = [bytes.fromhex(digits) for text in texts for digits in re.findall(r"^\$ ripngd show ([0-9a-f]+)$", text, re.M)]
    same("the number of captured datagrams", len(found), 45)
    return found


def mutated(chance, datagrams):
    """One of these with up to three other bytes, and one in eight is cut short."""
    made = bytearray(chance.choice(datagrams))
    for _ in range(chance.randrange(4)):
        made[chance.randrange(len(made))] = chance.randrange(256)
    return bytes(made[:chance.randrange(len(made))] if chance.randrange(8) == 0 else made)


def is_heard(made, port, hop_limit, to_group):
    """Whether a link-local neighbor's datagram is a Response that a router hears."""
    is_whole = 4 <= len(made) <= 65_524 and len(made) % 20 == 4 and made[1:4] == b"\1\0\0"
    return is_whole and made[0] == 2 and port == 521 and (hop_limit == 255 or not to_group)


def pieces(made):
    """The Responses of one entry each, behind the next hop entry that holds for it."""
    hop = b""
    for place in range(4, len(made), 20):
        entry = made[place:place + 20]
        if entry[19] == 255:
            hop = entry
        else:
            yield made[:4] + hop + entry


def comes(chance, datagrams, now):
    """The lines by which one datagram comes to both routers."""
    made = mutated(chance, datagrams)
    at, source = f"{chance.randrange(2)} {now}", f"fe80::{2 + chance.randrange(4)}"
    port = chance.choice([1024] + [521] * 15)
    hop_limit, to_group = chance.choice([64] + [255] * 15), chance.randrange(4) > 0
    if is_heard(made, port, hop_limit, to_group):
        return [f"liar 0 {at} {source} {made.hex()}", *(f"liar 1 {at} {source} {piece.hex()}" for piece in pieces(made))]
    how = f"{at} {source} {port} {hop_limit} {'group' if to_group else 'peer'} {made.hex() or '-'}"
    return [f"stranger 0 {how}", f"stranger 1 {how}"]


def script(seed, datagrams):
    chance = random.Random(seed)
    lines = []
    for number in range(1, DATAGRAMS + 1):
        lines += comes(chance, datagrams, number * 100)
        if number % TICKS == 0:
            word = chance.getrandbits(32)
            lines += [f"tick {router} {number * 100} {word}" for router in (0, 1)]
        if number % PRINTS == 0:
            lines += ["print 0", f"say {number}", "print 1", f"say {number}"]
    return START + "\n".join(lines + ["sent"]) + "\n"


def agree(program, folder, seed, datagrams):
    """Plays a script, and compares what it prints of the two routers."""
    file = pathlib.Path(folder, "mutated.lab")
    file.write_text(script(seed, datagrams))
    run = subprocess.run([program, "lab", str(file)], capture_output=True, text=True, timeout=300)
    if run.returncode:
        raise Failed(f"{run.stdout[-300:]}{run.stderr[-300:]}")
    tables, sent = {"0": [], "1": []}, {"0": [], "1": []}
    for line in run.stdout.splitlines():
        words = line.split(" ", 3)
        if words[1:2] == ["router"]:
            sent[words[2]].append(words[3])
        elif len(words) > 1:
            tables[words[0]].append(" ".join(words[1:]))
    same("the table of the router that hears entry by entry", tables["1"], tables["0"])
    same("what it sends", sent["1"], sent["0"])
    if len(tables["0"]) < 1_000 or len(sent["0"]) < 1_000:
        raise Failed("too little was learned or sent")


def main(program):
    datagrams = known()
    return play([(f"seed {seed}", lambda folder, seed=seed: agree(program, folder, seed, datagrams)) for seed in range(NETWORKS)])


if __name__ == "__main__":
    sys.exit(main(*sys.argv[1:]))
