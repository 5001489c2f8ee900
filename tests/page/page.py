#!/usr/bin/env python3
"""The laboratory's page, docs/lab.html, in a browser, beside what the program prints: each example stepped to its end, what a reader does
by clicks, keys and files (tests/page/page.js), and visits by real clicks and keys (tests/page/visits.py).

    tests/page/page.py PROGRAM chromium|firefox [NAME..]      all cases, or those that have NAME in theirs
    tests/page/page.py PROGRAM modules                        the page's modules on random scripts, by node and tests/page/page.mjs

Without the browser, or node, a line `skipped: ..` says what was not tried.
"""

import contextlib
import json
import os
import pathlib
import queue
import re
import shutil
import subprocess
import sys

sys.dont_write_bytecode = True
sys.path.append(str(pathlib.Path(__file__).resolve().parents[1] / "support"))
import browser
import visits
from page_class import ClassCases, example
from seen import FIND
from suite import Failed, named, play, same

ROOT = pathlib.Path(__file__).resolve().parents[2]
FILE = ROOT / "docs/lab.html"
sys.path.insert(0, str(ROOT / "page"))
import film  # noqa: E402

BROWSERS = 2
# The milliseconds that a step may take in large networks, at least of fifty.
QUICK, QUICK_OF_256, QUICK_AMONG_MANY = 100, 500, 50

# Routes that come and go, in the order of addresses; costs and owners that change; a quiet router; and what is refused.
CHANGES = """router
iface fe80::a0 1 1280 0
own 2001:db8:10::/48 1
own 2001:db8:2::/48 2
own ::/0 3
own 2001:0:0:1::/64 4
router
iface fe80::b0 1 1280 0
iface fe80::b1 1 1280 1
router quiet
iface fe80::c0 1 1280 1
cold 0
tick 0 0 0
deliver 3 1 0 0
print
restart 1 10
print
stranger 1 0 20 fe80::9 521 254 group 02010000
cost 1 0 30 4
deliver 3 1 0 30
print
drop 0 40 2001:db8:2::/48
print
gain 2 40 2001:db8:2::/48 7
gain 0 40 2001:db8:1::/48 5
print
tick 0 50 0
deliver 6 1 0 50
tick 0 200000 0
tick 1 350000 0
print
drop 1 350000 ::/0
"""


LINE = example("line")
PLACE = "  // What a class does, of tests/page/page_class.js, comes here.\n"
UPDATES = {"regular": "regular update", "triggered": "triggered update", "held": "a triggered update waits", None: "its timer, nothing is due"}


def ticked(record):
    """What the page says of a tick."""
    sent = len(record["sent"])
    return f"R{record['router']}: {UPDATES[record['update']]}" + (f", {sent} sent" if sent else "")


class Page(ClassCases):
    """The page with tests/page/page.js in it, in browsers that are open, and the program that it is compared with."""

    def __init__(self, program, kind):
        self.program, self.kind = program, kind
        self.free = queue.Queue()
        self.opened = []

    @contextlib.contextmanager
    def browser(self):
        """A browser that nobody uses meanwhile, which keeps nothing of the visit before, nor its window. One in which a case failed is
        closed."""
        try:
            one = self.free.get_nowait()
        except queue.Empty:
            one = browser.open_browser(self.kind)
            self.opened.append(one)
        try:
            one.size(1400, 900)
            if self.kind == "chromium":
                one.media()
            one.open(f"file://{FILE}")
            one.value("localStorage.clear(), sessionStorage.clear()")
            yield one
        except BaseException:
            self.opened.remove(one)
            one.close()
            raise
        self.free.put(one)

    def close(self):
        for one in self.opened:
            one.close()

    def lab(self, folder, script, *words):
        """What the program prints of a script, a line each, but which it says that it refused, and phases."""
        path = os.path.join(folder, "script.lab")
        pathlib.Path(path).write_text(script)
        ran = subprocess.run([self.program, "lab", *words, path], capture_output=True, text=True)
        if ran.returncode > 1:
            raise Failed(f"the program ends with status {ran.returncode}: {ran.stderr}")
        return ran.stdout.splitlines()

    def trace(self, folder, script):
        return [json.loads(line) for line in self.lab(folder, script, "--trace")]

    def report(self, folder, name, script=None, fragment="line"):
        """What a play reports, a line each: of the page as it is, or of a film of a script. The page's policy lets no other script run,
        so it is left out here."""
        page = FILE.read_text()
        if script is not None:
            page = film.film(page, "own.lab", script)
        page, policies = re.subn(r'<meta http-equiv="Content-Security-Policy".*?>\n', "", page, flags=re.DOTALL)
        same("how many policies the page has", policies, 1)
        driver, plays = ((ROOT / "tests/page" / name).read_text() for name in ("page.js", "page_class.js"))
        driver = driver.replace(PLACE, plays, 1)
        path = os.path.join(folder, "played.html")
        pathlib.Path(path).write_text(page.replace("</body>", f"<script>\n{driver}</script>\n</body>"))
        with self.browser() as one:
            one.open(f"file://{path}?{name}#{fragment}")
            lines = one.wait('document.getElementById("report")?.textContent', 300).splitlines()
        for line in lines:
            if line.startswith("wrong"):
                raise Failed(line)
        return lines

    # ---- What is shown ----
    def film(self, folder, name, script, fragment="step=1"):
        """Each step of a script is shown: its tables are what `lab` prints of routes, each walk is a sum, each datagram is decoded as by
        `show`. What the page says of all routes together at each `print` is answered."""
        said = self.report(folder, "film", script, fragment)
        script = example(name) if script is None else script
        of = {word: [line.removeprefix(f"{word} ") for line in said if line.startswith(f"{word} ")]
              for word in ("print", "steps", "walks", "tally", "show", "step")}
        routes = [line for line in self.lab(folder, script) if not re.match(r"line \d+ refused|phases ", line)]
        trace = self.trace(folder, script)
        same("what is shown", of["print"], routes)
        same("the number of steps", of["steps"], [str(len(trace))])
        same("the step gone back to", of["step"][0].partition(",")[0], f"1 of {len(trace)}")
        if int(of["walks"][0]) == 0:
            raise Failed("no walk was seen")
        datagrams = {sent["bytes"] for record in trace for sent in record.get("sent", [])}
        shown = {bytes: subprocess.run([self.program, "show", bytes], capture_output=True, text=True).stdout for bytes in datagrams}
        sent = [shown[one["bytes"]] for record in trace for one in record.get("sent", [])]
        same("what is decoded", of["show"], "".join(sent).splitlines())
        return of["tally"]

    def example(self, folder, name):
        self.film(folder, name, None, name)

    def least_costs(self, folder):
        """By hand, as the remarks of rounds.lab have it: router 2 is without a route at first, router 3 at 13, then at 7."""
        tallies = self.film(folder, "rounds", None, "rounds")
        same("how many have the least cost", [re.search(r"\d+ of 4 routes", text)[0] for text in tallies],
             [f"{count} of 4 routes" for count in (2, 3, 4, 4)])

    def counting(self, folder):
        """At the second `print` of counting.lab router 1 holds 5, by hand: the owner's 1, the link to it, and three hops around the ring."""
        prints = [step for step, record in enumerate(self.trace(folder, example("counting"))) if record["record"] == "print"]
        said = self.report(folder, "asked", fragment=f"counting&step={prints[1] + 1}&router=1&prefix=2001:db8::/32")
        same("the sum", said[0], "1 + 1 + 1 + 1 + 1 = 5: 1 at the owner, and the cost of each hop. 3 hops around the ring R1 → R2 → R3 → R1, "
             "and 1 hop to the owner, R1 → R0.")
        same("the walk", re.findall(r"R\d → R\d", said[1]), ["R1 → R2", "R2 → R3", "R3 → R1", "R1 → R0"])

    def changes(self, folder):
        tallies = self.film(folder, "changes", CHANGES)
        same("the tally behind the drop", tallies[3], "7 of 7 metrics belong to a path that is or was there. 6 of 9 routes are shortest paths.")
        same("what is red", self.report(folder, "refusals", CHANGES, "step=1"),
             ["refused: sent to the group, it has to come with hop limit 255 (10 HopLimit)",
              "refused: the router does not own it (7 ReconfigureRefused 35 NotOwned)"])

    def address(self, folder):
        """An address that names nothing does nothing; one with half a step neither; one of a route leads there; one of a lesson opens it."""
        steps = len(self.trace(folder, LINE))
        for words in ("step=2.5&router=length&prefix=x", "step=-1&router=0x0&prefix=2001:db8::/32", "router=__proto__&prefix=::/0"):
            same(f"where {words} leads", self.report(folder, "where", fragment=f"line&{words}"), [f"step 2 of {steps}, at 0.000 s | nothing chosen"])
        same("where a route's address leads", self.report(folder, "where", fragment="line&step=1&router=0&prefix=2001:db8::/32"),
             [f"step 2 of {steps}, at 0.000 s | chosen"])
        lesson = "06-timeout"
        steps = len(self.trace(folder, example(f"lessons/{lesson}")))
        where = self.report(folder, "where", fragment=f"{lesson}&step=1")[0]
        same("where a lesson's address leads", where.partition(",")[0], f"step 2 of {steps}")

    # ---- What a reader does ----
    def hint(self, folder, script):
        """What the laboratory says of the line that it refuses last, behind the reason."""
        record = self.trace(folder, script)[-1]
        hint = record.get("hint")
        at = "" if hint is None or hint["line"] == record["line"] else f"line {hint['line']}: "
        return "" if hint is None else f"; {at}{hint['text']}"

    def edit(self, folder):
        script = f"{LINE}tick 0 400 0\n"
        line, records = script.count("\n"), self.trace(folder, script)
        steps = len(records)
        same("the report", self.report(folder, "edit"),
             ["appended tick 0 400 0", f"last {line} {ticked(records[-1])}", f"step {steps} of {steps}, at 0.400 s", "marks true",
              f"refused line {line + 1}", f"last {line + 1} refused: there is no such router (1 NoSuchRouter)"])

    def refused_clicks(self, folder):
        """Nothing stays of a click whose line is refused, and nothing is put behind a line that is."""
        line, reason = LINE.count("\n"), "the prefix is multicast or link-local (7 ReconfigureRefused 32 PrefixNotAllowed)"
        same("the report", self.report(folder, "refuseClicks"),
             ["print | Not added: " + reason + self.hint(folder, LINE + "gain 0 400 ff00::/8 0\n"), "print | 0",
              f"cost 0 0 400 7 | {line + 1} R0 has cost 7 at interface 0",
              f"tick 9 400 0 | Line {line + 2} is refused, so no line after it is reached. Correct it first, or undo."])

    def undo(self, folder):
        same("the report", self.report(folder, "undoAll"), ["own-line.lab | own-line.lab", "true | line.lab", *["true"] * 5])

    def drafts(self, folder):
        same("the report", self.report(folder, "keepDrafts"),
             ["true | How routes come,How routes go,Loops and infinity,What comes in the end,Who may speak,More,Exercises,Examples", "your own own-line.lab", "your own own-line-2.lab own-line.lab", "# first | own-line.lab",
              "your own mine.lab own-line-2.lab", "https://example.org/lab.html | true"])

    def called_off(self, folder):
        line, steps, last = LINE.count("\n") + 1, len(self.trace(folder, LINE)), ticked(self.trace(folder, f"{LINE}tick 0 400 0\n")[-1])
        stopped = "The run was stopped. again | true"
        same("the report", self.report(folder, "callOffRuns"),
             [f"true | step 2 of {steps} | running .. stop | true", f"false | step 2 of {steps} | {stopped}",
              f"false | step 2 of {steps} | {stopped}", f"1 |  | {line} {last}"])

    def faults(self, folder):
        said = ["it wants more memory than there is", "the laboratory has stopped (unreachable)"]
        same("the report", self.report(folder, "sayFaults"),
             ["not run: its trace has so many MiB, and at most 64 are shown again | rounds 1000 +15000 15000",
              *(f"not run: {fault} again | # {fault}" for fault in said)])

    def keys(self, folder):
        """One thing of each pane is reached by Tab, the next by an arrow; the focus stays; a left or right arrow steps and nothing else."""
        same("the report", self.report(folder, "useKeys"),
             ["1,1,1 | 0 | true", "2 | true", "route 1 2001:db8::/32", "route 1 2001:db8::/32 | Why has R1 metric 5 for 2001:db8::/32?",
              "nothing | route 1 2001:db8::/32", "R0 | R0, originates 2001:db8::/32 with tag 9, metric 1 for 2001:db8::/32",
              "send what is due | tick 0 400 0",
              "nothing", "nameless | none"])

    def drawing_stays(self, folder):
        line, other = LINE[:LINE.index("cold")].count("\n") + 1, LINE.replace("cold", "xcold")
        refused = f"Line {line}: refused: the line is malformed or out of place (BadLine){self.hint(folder, other)}"
        same("the report", self.report(folder, "keepDrawing"), ["true | true", "true", f"3 | stale | {refused}", "true |  | ", "false", 'stale | no network yet: the script has no line "cold NOW"'])

    def files(self, folder):
        steps = len(self.trace(folder, LINE))
        same("the report", self.report(folder, "loadFiles"), [f"true | mine.lab | true | step 1 of {steps}, at 0.000 s | ", "1 | "])

    def acts(self, folder):
        """The next round is when all regular updates are due: the latest of them."""
        due = max(record["timers"]["regular"] for record in self.trace(folder, LINE) if record["record"] == "event")
        steps = len(self.trace(folder, f"{LINE}round {due}\n"))
        branch = LINE[:LINE.index("deliver 4 1 0 0")].count("\n") + 3
        said = [line.partition(", at ")[0] for line in self.report(folder, "useActs")]
        same("the report", said, [f"round {due} | step {steps} of {steps}", "lose 10 | true", f"tick 1 0 0 | {branch} R1: regular update, 2 sent",
                                  "123", "true", "true", "3 | true"])

    def capture(self, folder):
        """The button gives what `lab --pcap` writes of the script that was run."""
        wanted = pathlib.Path(folder) / "wanted.pcapng"
        self.lab(folder, LINE, "--pcap", wanted)
        with self.browser() as one:
            one.open(f"file://{FILE}#line")
            one.wait('/^step /.test(document.getElementById("where").textContent)')
            one.click_at(*one.wait(f'{FIND}("save as pcap")'))
            same("the file", pathlib.Path(one.downloaded("line.pcapng")).read_bytes(), wanted.read_bytes())

    # ---- Visits, and times ----
    def visit(self, folder, name):
        with self.browser() as one:
            visits.visit(one, f"file://{FILE}", name)

    def quick(self, folder):
        """The least times of a step in networks of many routers, routes and events, as `page_times.py` has them; the median is what a
        reader meets, but rests on what else the machine does."""
        ran = subprocess.run([ROOT / "tools/page_times.py", self.kind], capture_output=True, text=True)
        took = re.findall(r"^(.*?): .*a step (\d+),", ran.stdout, re.M)
        same("how many networks were timed", len(took), 6)
        for name, least in took:
            most = QUICK_AMONG_MANY if "10,000" in name else QUICK if name.startswith("64") else QUICK_OF_256
            if int(least) >= most:
                raise Failed(f"a step of {name} takes {least} ms")


def cases_of(page):
    # The page shows all tables where a script prints: of an example that prints one router's, it shows more.
    whole = [file.stem for file in (ROOT / "examples").glob("*.lab") if "print" in file.read_text().splitlines()]
    cases = [(f"film of {name}", lambda folder, name=name: page.example(folder, name)) for name in whole]
    cases += [(name.replace("_", " "), getattr(page, name)) for name in (
        "called_off", "acts", "keys", "undo", "drafts", "refused_clicks", "changes", "address", "least_costs", "counting", "edit", "faults",
        "drawing_stays", "files", "capture", "rounds", "updates", "losing", "forging", "cutting", "lessons", "blanks", "names", "embedded", "asking", "quiz", "matrix", "removing", "packets", "crowds", "letters")]
    cases += [(f"visit of a {name}", lambda folder, name=name: page.visit(folder, name)) for name in visits.NAMES]
    return cases + ([("quick", page.quick)] if page.kind == "chromium" else [])


def modules(program):
    if shutil.which("node") is None:
        print("skipped: there is no node, so no module of the page is run on random scripts\n0 passed, 0 failed")
        return 0
    return subprocess.run(["node", ROOT / "tests/page/page.mjs", program]).returncode


def main(program, kind, *names):
    if kind == "modules":
        return modules(program)
    if browser.program_of(kind) is None:
        print(f"skipped: there is no {kind}, so the page is not opened in it\n0 passed, 0 failed")
        return 0
    page = Page(str(pathlib.Path(program).resolve(strict=True)), kind)
    try:
        return play([(f"{kind}: {name}", case) for name, case in named(cases_of(page), names)], BROWSERS)
    finally:
        page.close()


if __name__ == "__main__":
    if len(sys.argv) < 3 or sys.argv[2] not in (*browser.PROGRAMS, "modules"):
        sys.exit(__doc__)
    sys.exit(main(*sys.argv[1:]))
