#!/usr/bin/env python3
"""The module in docs/lab.html beside the native program: traces of all examples and lessons, of a long script, and of 300 scripts made by
chance, byte for byte, by node and in each browser that is there.

    tests/page/lab_file.py PROGRAM [NAME..]      all cases, or those that have NAME in theirs
"""

import pathlib
import random
import shutil
import subprocess
import sys
import tempfile

sys.dont_write_bytecode = True
sys.path.append(str(pathlib.Path(__file__).resolve().parents[1] / "support"))
import browser
from networks import random_network
from suite import Failed, named, play, same

ROOT = pathlib.Path(__file__).resolve().parents[2]
FILE = ROOT / "docs/lab.html"
SCRIPTS, BATCH = 300, 30
LIE = "0201000020010db800000000000000000000000000012001"
DATAGRAMS = ["010100000000000000000000000000000000000000000010", LIE, "02", "01020000", "0201000020010db8000c0000000000000000000000053003"]


def ordinary(words, now):
    """A line of what routers do by themselves, and of what is read of them."""
    router, iface = words.randrange(3), words.randrange(2)
    return words.choice([
        f"round {now}", f"rounds 2 {now} 15000", f"tick {router} {now} {words.randrange(30000)}", f"tell {router} {now} 0 but 0",
        f"tell {router} {now} {words.randrange(9)}", "hear", "hear but 1", "print", f"print {router}", "sent", "say so it is # and a remark",
        f"restart {router} {now}", f"cost {router} {iface} {now} {words.randint(1, 15)}", f"cut {words.randrange(3)}", f"mend {words.randrange(3)}",
        f"silent {router}", f"speaks {router}", f"phases {words.randint(1, 3)} {words.randrange(99)}",
        f"stranger {router} {iface} {now} fe80::99 {words.choice([521, 1024])} {words.choice([255, 254])} group {words.choice(DATAGRAMS)}",
        f"ask {router} {iface} {now} fe80::99 1024 all", f"# a remark at {now}", "",
    ])


def risky(words, now):
    """A line that may be refused, and lies, behind which other lines are."""
    router, iface = words.randrange(5), words.randrange(3)
    return words.choice([
        f"deliver {words.randrange(40)} {router} {iface} {now}", f"lose {words.randrange(40)}", f"gain {router} {now} 2001:db8:7::/48 7",
        f"drop {router} {now} 2001:db8::/32", f"expect {router} 2001:db8::/32 {words.choice(['none', '1', '5'])}", "refused NotOwned",
        f"liar {router} {iface} {now} fe80::66 {LIE}", f"cost {router} {iface} {now} 16", f"tick {router} {now - 1} 0", "print 1 2001:db8::/32",
        f"stranger {router} {iface} {now} fe80::99 521 255 peer {words.choice(DATAGRAMS)}", f"gain {router} {now} ff02::/16 1",
    ])


def spoiled(words, script):
    """A script with one mistake of a writer in it."""
    at = words.randrange(len(script))
    signs = [b"", b" ", b"\t", b"x", b"0", b"\r", b"\xff", b"\xc3\xa9", b"99999999999999999999"]
    return script[:at] + words.choice(signs) + script[at + words.randint(0, 2):]


def random_script(seed):
    """A network and what happens in it; of three scripts one has lines that may be refused, and one a mistake."""
    words, now, lines = random.Random(seed), 0, [random_network(seed)]
    for _ in range(words.randint(5, 40)):
        now += words.choice([0, 20, 15000, 30000, 40000])
        lines.append(risky(words, now) if seed % 3 == 1 and words.randrange(4) == 0 else ordinary(words, now))
    script = "\n".join([*lines, "print", ""]).encode()
    return spoiled(words, script) if seed % 3 == 2 else script


def all_scripts():
    """The scripts by their names."""
    files = sorted((ROOT / "examples").rglob("*.lab"))
    found = {file.stem: file.read_bytes() for file in files}
    found["line and remarks"] = found["line"] + 20_000 * b"# a remark\n"
    return {**found, **{f"random {seed}": random_script(seed) for seed in range(SCRIPTS)}}


def traced(program):
    """What the program makes of each script: its name, its bytes, its trace, and whether a line was refused."""
    found = []
    with tempfile.TemporaryDirectory() as folder:
        path = pathlib.Path(folder, "script.lab")
        for name, script in all_scripts().items():
            path.write_bytes(script)
            ran = subprocess.run([program, "lab", "--trace", path], capture_output=True)
            found.append((name, script, ran.stdout, ran.returncode))
    return found


def compared(name, given, wanted):
    """Fails the case where a trace is another, at the line where it is."""
    if given != wanted:
        pairs = enumerate(zip(given.split(b"\n"), wanted.split(b"\n")))
        at, (mine, its) = next(((at, pair) for at, pair in pairs if pair[0] != pair[1]), (0, (given[-99:], wanted[-99:])))
        raise Failed(f"the trace of {name} differs at line {at + 1}: {mine[:300]!r} and not {its[:300]!r}")


def by_node(native, folder):
    paths = [pathlib.Path(folder, f"{number}.lab") for number in range(len(native))]
    for path, (_, script, _, _) in zip(paths, native):
        path.write_bytes(script)
    ran = subprocess.run(["node", ROOT / "tests/page/lab_file.mjs", FILE, *paths], capture_output=True, text=True)
    same("what node says of it", ran.stderr, "")
    for path, said, (name, _, wanted, status) in zip(paths, ran.stdout.split(), native, strict=True):
        compared(name, pathlib.Path(f"{path}.trace").read_bytes(), wanted)
        same(f"whether a line of {name} is refused", int(said), status)
    kinds_are_there(wanted for _, _, wanted, _ in native)


def kinds_are_there(traces):
    """The scripts have records of each kind, lies among them."""
    whole = b"".join(traces)
    for kind in ("start", "event", "print", "sent", "say", "lost", "phases", "refused"):
        if f'"record":"{kind}"'.encode() not in whole:
            raise Failed(f"no script has a record {kind}")
    for part in (b'"kind":"liar"', b'"kind":"stranger"', b"BadLine", b"Router"):
        if part not in whole:
            raise Failed(f"no script has {part}")


def is_text(script):
    """Whether it can be put into a page: UTF-8."""
    try:
        return bool(script.decode())
    except UnicodeDecodeError:
        return False


def by_browser(kind, native, folder):
    traces = [one for one in native if is_text(one[1])]
    page = browser.open_browser(kind)
    try:
        page.open(f"file://{FILE}")
        page.wait('document.getElementById("where").textContent', 120)
        for first in range(0, len(traces), BATCH):
            batch = traces[first:first + BATCH]
            given = page.traced([script.decode() for _, script, _, _ in batch])
            for (name, _, wanted, _), text in zip(batch, given, strict=True):
                compared(name, text.encode(), wanted)
    finally:
        page.close()


def main(program, *names):
    native = traced(str(pathlib.Path(program).resolve(strict=True)))
    cases = []
    if shutil.which("node"):
        cases.append(("node traces as the program does", lambda folder: by_node(native, folder)))
    else:
        print("skipped: there is no node, so the module of docs/lab.html is not run by it")
    for kind in browser.PROGRAMS:
        if browser.program_of(kind):
            cases.append((f"{kind} traces as the program does", lambda folder, kind=kind: by_browser(kind, native, folder)))
        else:
            print(f"skipped: there is no {kind}, so the module of docs/lab.html is not run in it")
    return play(named(cases, names))


if __name__ == "__main__":
    sys.exit(main(*sys.argv[1:]))
