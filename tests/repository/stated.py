"""What README, docs, manual pages, examples and doc comments state of this tree, and whether it is so.

Each check takes a `Tree` and gives the faults that it finds, a line each. A fault begins with its place, as `docs/TRACE.md:13`."""

import os
import pathlib
import re

# What is made here, or belongs to git.
MADE = {".git", "out", "bin", "dist", "__pycache__"}
KINDS = r"md|lab|out|toml|case|py|sh|mjs|js|rt|antt|edit|8|service|html|txt|c|css|json|png"
FILE = re.compile(rf"(?<![\w/.*@{{}}-])[\w.@/-]*[\w-]\.(?:{KINDS})\b(?![\w/-])")
SPAN = re.compile(r"`([^`]+)`")
INSTALLED = re.compile(r"^(/usr/)?share/doc/ripngd/")
# A name with a part in capitals, as NAME.toml or crates/C/src, stands for many; README.md and its like are files, and found before.
ANY = re.compile(r"(^|/)[A-Z]+([./]|$)")
# Files that somebody else makes, and who does.
ELSEWHERE = {"router.toml": "the companion", "status.json": "the companion", "line.html": "make film"}
# Words in code's letters that stand in no file of this tree, and whose they are.
FOREIGN = {"AllZip": "the kit", "IsX": "a pattern", "x_of": "a pattern", "rmem_default": "Linux", "_is_free": "the end of names"}
CODE = {".rt", ".antt", ".py", ".sh", ".js", ".mjs", ".c", ".css", ".edit", ".toml", ".case", ".lab", ".service", ""}
# Numbers of pages that the code has: the page, a pattern, and for each of its groups the file and the name of the constant.
CONSTANTS = [
    ("docs/PROTOCOL.md", r"\| ([\d,]+) \(`TABLE_LIMIT`\)", [("route_table/src/store.rt", "TABLE_LIMIT")]),
    ("docs/PROTOCOL.md", r"\| timeout \| ([\d,]+) ms", [("router_core/src/timers.rt", "TIMEOUT_MS")]),
    ("docs/PROTOCOL.md", r"\| garbage-collection time \| ([\d,]+) ms", [("router_core/src/timers.rt", "GARBAGE_TIME_MS")]),
    ("docs/PROTOCOL.md", r"each `([\d,]+) \+ \(word mod ([\d,]+)\)` ms", [("router_core/src/timers.rt", "REGULAR_LEAST_MS"), ("router_core/src/timers.rt", "REGULAR_SPREAD_MS")]),
    ("docs/PROTOCOL.md", r"more than ([\d,]+) \(`INTERFACE_LIMIT`\)", [("router_core/src/config.rt", "INTERFACE_LIMIT")]),
    ("docs/PROTOCOL.md", r"more than ([\d,]+) owned prefixes \(`OWNED_LIMIT`\)", [("router_core/src/config.rt", "OWNED_LIMIT")]),
    ("docs/PROTOCOL.md", r"MTU is not ([\d,]+) to ([\d,]+) bytes", [("router_core/src/config.rt", "LEAST_MTU"), ("router_core/src/config.rt", "MOST_MTU")]),
    ("docs/PROTOCOL.md", r"at most ([\d,]+) entries, as many", [("ripng_wire/src/rte.rt", "MAX_ENTRIES")]),
    ("docs/SCRIPTS.md", r"more than ([\d,]+) routers \(`ROUTER_LIMIT`\)", [("ripng_world/src/network.rt", "ROUTER_LIMIT")]),
    ("docs/SCRIPTS.md", r"K rounds, 1 to ([\d,]+),", [("ripng_lab/src/line.rt", "ROUNDS_LIMIT")]),
    ("docs/SCRIPTS.md", r"K phases, 1 to ([\d,]+),", [("ripng_lab/src/moving.rt", "PHASES_LIMIT")]),
    ("docs/OPERATING.md", r"([\d,]+) divided by `n` datagrams", [("ripngd_udp/src/pace.rt", "AT_ONCE")]),
    ("docs/OPERATING.md", r"as many ([\d,]+) ms after the last", [("ripngd_udp/src/pace.rt", "PAUSE_MS")]),
    ("docs/OPERATING.md", r"Up to ([\d,]+) wait there", [("ripngd_udp/src/send_queue.rt", "ROOM")]),
    ("docs/OPERATING.md", r"\*\*Inbox\*\*: ([\d,]+) datagrams", [("ripngd_udp/src/receive_queue.rt", "ROOM")]),
    ("docs/OPERATING.md", r"What comes in the next ([\d,]+) ms", [("ripngd_udp/src/sockets.rt", "GATHER_MS")]),
    ("docs/OPERATING.md", r"what is due, ([\d,]+) ms at most \(([\d,]+) ms", [("ripngd_udp/src/udp.rt", "LONGEST_MS"), ("ripngd_daemon/src/turns.rt", "SHORT_MS")]),
    ("docs/OPERATING.md", r"the interface has ([\d,]+) peers or more", [("ripngd_udp/src/peer_table.rt", "PEER_LIMIT")]),
    ("docs/OPERATING.md", r"a line is longer than ([\d,]+) bytes", [("ripngd_control/src/connection.rt", "LINE_LIMIT")]),
]
WORDS = """zero one two three four five six seven eight nine ten eleven twelve thirteen fourteen fifteen sixteen seventeen eighteen
nineteen""".split()
TENS = {20: "twenty", 30: "thirty", 40: "forty", 50: "fifty"}


class Tree:
    """The files of the repository below a folder, without those that are made."""

    def __init__(self, root):
        self.root, self.files, self.texts = pathlib.Path(root), [], {}
        for folder, inner, names in os.walk(self.root, followlinks=True):
            inner[:] = sorted(set(inner) - MADE)
            self.files += [(pathlib.Path(folder) / name).relative_to(self.root) for name in sorted(names)]
        self.ends = {"/".join(parts[place:]) for file in self.files for parts in (file.parts, file.parts[:-1]) for place in range(len(parts))}

    def text(self, name):
        return self.texts.setdefault(str(name), None) or self.read(str(name))

    def read(self, name):
        self.texts[name] = (self.root / name).read_text(errors="replace")
        return self.texts[name]

    def matching(self, pattern):
        """The names of files that a pattern of `pathlib` matches, in order."""
        return [str(file) for file in self.files if file.match(pattern) and len(file.parts) == pattern.count("/") + 1]

    def pages(self):
        patterns = ("docs/*.md", "docs/*.8", "examples/*.md", "page/*.md", "crates/*/*.md")
        return ["README.md", *(page for pattern in patterns for page in self.matching(pattern))]

    def page_lines(self):
        """The lines of pages, each with its place."""
        return [(f"{page}:{number}", line) for page in self.pages() for number, line in enumerate(self.text(page).splitlines(), 1)]

    def comments(self):
        """The lines of doc comments, each with its place."""
        return [(f"{file}:{number}", said[1]) for file in self.files if file.suffix == ".rt" and file.parts[2:3] == ("src",)
                for number, line in enumerate(self.text(file).splitlines(), 1) if (said := re.match(r"\s*//[/!] ?(.*)", line))]

    def remarks(self):
        """The remarks of the scripts of examples, each with its place."""
        return [(f"{file}:{number}", line[1:]) for file in self.files if file.suffix == ".lab"
                for number, line in enumerate(self.text(file).splitlines(), 1) if line.startswith("#")]


def in_words(number):
    """A number below 60 as a word, as at the beginning of a sentence."""
    if number < len(WORDS):
        return WORDS[number].capitalize()
    tens = TENS.get(number // 10 * 10, "")
    return (tens + (f"-{WORDS[number % 10]}" if number % 10 else "")).capitalize() or str(number)


def unknown_files(tree):
    """Files that are named and not there. A name may leave out the folders before it, and be one that a case or a
    command of a page makes."""
    made = {name for file in tree.matching("tests/cases/*.case") for name in re.findall(r"^file (\S+)", tree.text(file), re.MULTILINE)}
    made |= {name for _, line in tree.page_lines() for name in re.findall(r"^ {4}.*> (\S+)$", line)}
    faults = []
    for place, line in [*tree.page_lines(), *tree.comments(), *tree.remarks()]:
        for name in FILE.findall(line):
            bare = INSTALLED.sub("", name).removeprefix("../").removeprefix("./")
            known = bare in tree.ends or bare in made or bare in ELSEWHERE or (ANY.search(bare) and not bare.endswith(".md"))
            if not known and re.search("[A-Za-z]", bare.rpartition(".")[0]):
                faults.append(f"{place}: there is no file {name}")
    return faults


def words_of_code(tree):
    """All words of files that are code or data, and the parts of all files' names."""
    words = set()
    for file in tree.files:
        words.update(part for name in file.parts for part in re.findall(r"\w+", name))
        if file.suffix in CODE and file.parts[0] != "docs" and file.name not in ("pages.py", "stated.py"):
            words.update(re.findall(r"\w+", tree.text(file)))
    return words


def unknown_words(tree):
    """Names of code, in back quotes, that no code has: a function, a definition, a law, a mutant, a type. CHANGELOG names what was."""
    words, faults = words_of_code(tree) | set(FOREIGN), []
    for place, line in [*tree.page_lines(), *tree.comments()]:
        if place.startswith("docs/CHANGELOG.md"):
            continue
        for word in (word for span in SPAN.findall(line) for word in re.findall(r"\w+", span)):
            if ("_" in word.strip("_") or re.match("[A-Z][a-z]+[A-Z]", word)) and word not in words:
                faults.append(f"{place}: nothing is named {word}")
    return faults


def unknown_laws(tree):
    """Functions that THEOREMS, READING-SPECS and README name with their crate, as `ripng_world::path_is_one`, and the crate lacks."""
    faults = []
    for place, line in tree.page_lines():
        for crate, name in re.findall(r"`(\w+)::(\w+)`", line):
            sources = [file for file in tree.files if file.parts[:3] == ("crates", crate, "src")]
            if (tree.root / "crates" / crate).is_dir() and not any(re.search(rf"\b{name}\b", tree.text(file)) for file in sources):
                faults.append(f"{place}: {crate} has no {name}")
    return faults


def unknown_mutants(tree):
    """Mutants of PREMISES that no crate has: all that its third column names."""
    known = {file.stem for file in tree.files if file.suffix == ".edit"}
    rows = [(place, line.split(" | ")) for place, line in tree.page_lines() if place.startswith("docs/PREMISES.md") and line.count(" | ") == 3]
    return [f"{place}: there is no mutant {name}" for place, cells in rows[1:] for name in SPAN.findall(cells[2]) if name not in known]


def unknown_headings(tree):
    """Headings that are named after their page, as (PROTOCOL.md, "Requests"), what a file of rows is said to have, and cases, as 'show: short'."""
    faults = []
    for page in tree.pages():
        for name, heading in re.findall(r'([\w/.-]+\.(?:md|txt))`?,\s+"([^"]+)"', tree.text(page)):
            files = [file for file in tree.files if str(file).endswith(name)]
            if not any(" ".join(heading.split()) in " ".join(tree.text(file).split()) for file in files):
                faults.append(f"{page}: {name} has no \"{heading}\"")
        for name, words in re.findall(r"'(\w+): ([\w ]+)'", tree.text(page)):
            if not re.search(rf"^case .*{words}", tree.text(f"tests/cases/{name}.case"), re.MULTILINE):
                faults.append(f"{page}: no case of {name} has \"{words}\"")
    return faults


def unknown_lessons(tree):
    """Lessons and exercises by their names, as 11-ring-of-three, and by their numbers."""
    course = re.findall(r"^ +(\S+)$", tree.text("examples/lessons/course.txt"), re.MULTILINE)
    names = {file.stem for file in tree.files if file.suffix == ".lab"}
    faults = []
    for place, line in [*tree.page_lines(), *tree.remarks()]:
        faults += [f"{place}: there is no lesson {name}" for name in re.findall(r"(?<![\w-])\d\d-[a-z][a-z-]+\b", line) if name not in names]
        numbers = [int(number) for said in re.findall(r"\blessons? ((?:\d+(?:, | and )?)+)", line) for number in re.findall(r"\d+", said)]
        faults += [f"{place}: there is no lesson {number}" for number in numbers if not 0 < number <= len(course)]
    page = "examples/README.md"
    faults += [f"{page}: lesson {name} has no row" for name in course if f"](lessons/{name}.lab)" not in tree.text(page)]
    if f"{in_words(len(course))} lessons" not in tree.text(page):
        faults.append(f"{page}: there are {len(course)} lessons")
    return faults


def unplayed_scripts(tree):
    """Scripts by which PREMISES shows that a premise is needed, and that no case plays."""
    cases = [tree.text(file) for file in tree.matching("tests/cases/*.case")]
    faults = []
    for place, line in tree.page_lines():
        for name in re.findall(r"`([\w-]+\.lab)`", line) if place.startswith("docs/PREMISES.md") else []:
            folder = next((at for at in ("examples", "examples/lessons") if f"{at}/{name}" in map(str, tree.files)), None)
            played = f'"$REPOSITORY"/{folder}/*.lab' if folder else f"$ ripngd lab {name}\n"
            if name != "X.lab" and not any(played in case for case in cases):
                faults.append(f"{place}: no case plays {name}")
    return faults


def ratios(tree):
    """The rows of the comparison in PERFORMANCE: their names, and their ratios, in the order of prefixes and at random, if any."""
    section = tree.text("docs/PERFORMANCE.md").partition("## Beside BIRD")[2].partition("\n## ")[0]
    rows = [[cell.strip() for cell in line.strip("|").split("|")] for line in section.splitlines() if line.count("|") == 8]
    return [(row[0], row[3].partition(" ")[0], row[6]) for row in rows if re.match(r"\d", row[3])]


def span(values):
    """The least and the greatest of some numbers, as texts."""
    numbers = sorted((value for value in values if value), key=float)
    least, most = numbers[0], numbers[-1]
    return least if least == most else f"{least} to {most}"


def false_ratios(tree):
    """What README says of costs beside BIRD, and PERFORMANCE does not."""
    rows = ratios(tree)
    memory, idle = ([row for row in rows if row[0].startswith(word)] for word in ("memory", "idle"))
    time = [row for row in rows if not re.match("memory|peak|idle", row[0])]
    wanted = {
        "time for a route, beside BIRD": f"in the order of prefixes {span(row[1] for row in time)} times, at random {span(row[2] for row in time)}",
        "memory for a route": f"in that order {span(row[1] for row in memory)} times, at random {span(row[2] for row in memory)}",
        "time while idle": f"{span(row[1] for row in idle)} times",
    }
    return [f"README.md: {name} is {said} by docs/PERFORMANCE.md" for name, said in wanted.items()
            if f"| {name} | {said} |" not in tree.text("README.md")]


def false_constants(tree):
    """Numbers of pages that are not those of the code."""
    faults = []
    for page, pattern, constants in CONSTANTS:
        said = re.search(pattern, tree.text(page))
        if not said:
            faults.append(f"{page}: nothing matches {pattern}")
            continue
        for number, (file, name) in zip(said.groups(), constants):
            value = re.search(rf"\bconst {name}: \w+ = ([\d_]+);", tree.text(f"crates/{file}"))
            if not value or int(number.replace(",", "")) != int(value[1].replace("_", "")):
                faults.append(f"{page}: {number} is not {name} of {file}, which is {value[1] if value else 'not there'}")
    return faults


def items(tree, page, heading, item):
    """How many lines of a section of a page match a pattern."""
    section = tree.text(page).partition(heading)[2].partition("\n## ")[0]
    return len(re.findall(item, section, re.MULTILINE))


def false_counts(tree):
    """Counts that pages state of what stands beside them, or in a test."""
    refusals = [int(number) for number in re.findall(r"(?:^\| |with )(\d+)(?: \| | )`\w+`", tree.text("docs/PROTOCOL.md"), re.MULTILINE)]
    scripts = re.search(r"^SCRIPTS, \w+ = (\d+)", tree.text("tests/page/lab_file.py"), re.MULTILINE)[1]
    widths = [f"{int(width):,}" for width in re.findall(r"(\d+): \d+[,}]", re.search("^HEIGHTS = .*", tree.text("tests/page/newcomer.py"), re.MULTILINE)[0])]
    wanted = [
        ("docs/OPERATING.md", f"the numbers 1 to {max(refusals)} of refusals"),
        ("README.md", f"## {in_words(items(tree, 'README.md', ' ways to start', '^[*][*]You '))} ways to start"),
        ("README.md", f"## {in_words(items(tree, 'README.md', ' layers, and what', '^    v$') + 1)} layers, and what"),
        ("docs/READING-SPECS.md", f"## {in_words(items(tree, 'docs/READING-SPECS.md', ' files to begin with', '^[0-9]+[.] '))} files to begin with"),
        ("docs/PROTOCOL.md", f"{in_words(items(tree, 'docs/PROTOCOL.md', ' words come from code', '^- a '))} words come from code"),
        ("page/README.md", f"all examples and lessons and {scripts} random scripts"),
        ("page/README.md", f"at {', '.join(widths[:-1])} and {widths[-1]} pixels"),
    ]
    return [f"{page}: it has no \"{said}\"" for page, said in wanted if said not in " ".join(tree.text(page).split())]


CHECKS = {
    "each file that is named is there": unknown_files,
    "each name of code is there": unknown_words,
    "each law is in its crate": unknown_laws,
    "each mutant of a premise is there": unknown_mutants,
    "each heading that is named is there": unknown_headings,
    "each lesson is there, and has its row": unknown_lessons,
    "each script that shows a premise is played": unplayed_scripts,
    "the ratios of README are those of PERFORMANCE": false_ratios,
    "the limits of pages are those of the code": false_constants,
    "the counts of pages are right": false_counts,
}
