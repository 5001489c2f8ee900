#!/usr/bin/env python3
"""What README, docs, manual pages, examples and doc comments say, beside the tree and the program: names, numbers and commands.

    tests/repository/pages.py PROGRAM [NAME..]     all cases, or those whose name has one of these words in it

stated.py has the checks of names and numbers, tools/prose.py those of sentences and words. Here are the commands that pages show:
each is run, or stands in NOT_PLAYED with the reason. Then faults are planted in copies of the tree, and each has to be found."""

import os
import pathlib
import re
import shutil
import subprocess
import sys

sys.dont_write_bytecode = True
sys.path.append(str(pathlib.Path(__file__).resolve().parents[1] / "support"))
from stated import CHECKS, MADE, SPAN, Tree
from suite import Failed, Ports, end_group, named, play, same

ROOT = pathlib.Path(__file__).resolve().parents[2]
sys.path.append(str(ROOT / "tools"))
import prose

SECONDS = 120
# How a line of a block begins that is a command, and a text in back quotes that is a whole one.
COMMAND = re.compile(r"(sudo )?((bin/)?ripngd(-links)?|make|rt|ip|apt|git) |(sudo )?(/usr/share|companion|tests|tools)/\S")
INLINE = re.compile(r"(make|rt|git|grep|sysctl) \S|(tests|tools|page)/\S+ |(bin/)?ripngd --version$")
# A word in capitals stands for something else.
USAGE = re.compile(r"(^|[ =])[A-Z]{2,}\b")
# Commands that are not run here: how they begin, and why. Each has to be in some page.
NOT_PLAYED = {
    r"(sudo )?make(?! film)": "minutes, the kit, or root",
    r"sudo companion/bird.sh": "root and BIRD; tests/links/edges.py plays it",
    r"sudo ripngd-links": "root and BIRD; tests/links/edges.py plays it",
    r"ip -6 route show proto 152": "root and BIRD; tests/links/edges.py looks at that table",
    r"rt ": "the kit, and minutes",
    r"git grep": "a clone with its history",
    r"sysctl": "root; it changes the system",
    r"page/build.sh": "the kit, and minutes; the gate checks the page by it",
    r"tools/mutants": "minutes, the kit, and root",
    r"apt install": "root and a package; tests/links/package.py plays it",
    r"/usr/share/doc/ripngd/companion/bird.sh": "root and BIRD; tests/links/package.py has it",
    r"ripngd-links": "root and a link; tests/links plays it",
    r"ripngd ctl /run/ripngd-links": "root and a link; tests/links plays it",
}
PROSE = "sentences, words and lengths are those of tools/prose.py"
# A fault, where it is planted and how, the check that has to find it, and a word of what that says.
PLANTED = [
    ("a dead name", "docs/OPERATING.md", "PROTOCOL.md has the numbers", "RULES.md has the numbers", "each file that is named is there", "RULES.md"),
    ("a dead name in a doc comment", "crates/fib/src/lib.rt", "specs/Forwarding.antt", "specs/Routing.antt", "each file that is named is there", "specs/Routing.antt"),
    ("a lesson with another number", "docs/PREMISES.md", "`19-liar.lab`", "`20-liar.lab`", "each file that is named is there", "20-liar.lab"),
    ("a lesson that a script names", "examples/counting-slowly.lab", "(30-old-news)", "(31-old-news)", "each lesson is there, and has its row", "31-old-news"),
    ("a function that is gone", "docs/PROTOCOL.md", "`fault_leaves_all`", "`fault_changes_all`", "each name of code is there", "fault_changes_all"),
    ("a law of another crate", "docs/THEOREMS.md", "`ripng_world::path_is_one`", "`fib::path_is_one`", "each law is in its crate", "path_is_one"),
    ("a mutant that is gone", "docs/PREMISES.md", "`links_overtake`", "`links_gone`", "each mutant of a premise is there", "links_gone"),
    ("a script that no case plays", "tests/cases/premises.case", "$ ripngd lab asleep.lab", "", "each script that shows a premise is played", "asleep.lab"),
    ("a heading that is gone", "docs/PROTOCOL.md", "## How old news may be", "## Ages", "each heading that is named is there", "How old news may be"),
    ("a false ratio", "README.md", "0.30 to 0.93", "0.29 to 0.93", "the ratios of README are those of PERFORMANCE", "0.30 to 0.93"),
    ("a false limit", "docs/PROTOCOL.md", "65,536 (`TABLE_LIMIT`)", "65,535 (`TABLE_LIMIT`)", "the limits of pages are those of the code", "TABLE_LIMIT"),
    ("a false count of lessons", "examples/README.md", "Thirty-two lessons", "Twenty-nine lessons", "each lesson is there, and has its row", "32 lessons"),
    ("a false count", "docs/OPERATING.md", "numbers 1 to 37", "numbers 1 to 38", "the counts of pages are right", "1 to 37"),
    ("a house word in a page", "docs/EMBEDDING.md", "## A network", "There are so\nmany of them.\n\n## A network", PROSE, "\"so many\" is refused"),
    ("a house word in a doc comment", "crates/ripng_show/src/lib.rt", "//! ", "//! For want of memory. ", PROSE, "crates/ripng_show/src/lib.rt:1: "),
    ("a page that is too long", "README.md", "# ripngd\n", "# ripngd\n\n\n\n", PROSE, "README.md has "),
]
ALL = CHECKS | {PROSE: lambda tree: prose.faults(tree.root)}


def copied(here, there, *apart):
    """A copy of the tree: links to what it has, but the files and folders `apart` are copied, with the folders on the way to them."""
    there.mkdir()
    for item in here.iterdir():
        below = [pathlib.PurePath(*path.parts[1:]) for path in map(pathlib.PurePath, apart) if path.parts[0] == item.name]
        if item.name in MADE:
            continue
        if not below:
            (there / item.name).symlink_to(item)
        elif all(path.parts for path in below):
            copied(item, there / item.name, *below)
        else:
            (shutil.copytree if item.is_dir() else shutil.copy)(item, there / item.name)
    return there


def holds(check):
    """A check of the tree finds no fault."""
    if faults := check(Tree(ROOT)):
        raise Failed("\n".join(faults))


def finds(folder, file, old, new, name, word):
    """The check finds the fault that is planted in a copy, and what it says has the word."""
    tree = copied(ROOT, pathlib.Path(folder) / "tree", file)
    text = (tree / file).read_text()
    if old not in text:
        raise Failed(f"{file} has no {old}")
    (tree / file).write_text(text.replace(old, new, 1))
    faults = ALL[name](Tree(tree))
    if not any(word in fault for fault in faults):
        raise Failed(f"`{name}` finds {faults}")


def blocks(page, text):
    """The commands of a page, a list for each of its blocks of code."""
    if page.endswith(".8"):
        for block in re.findall(r"^\.Bd -literal.*?^\.Ed", text, re.MULTILINE | re.DOTALL):
            yield [line[2:] for line in block.splitlines() if re.match(r"[$#] ", line)]
        return
    for block in re.findall(r"(?:^    .*\n)+", text, re.MULTILINE):
        yield [re.split(r" {2,}#", line)[0].strip() for line in block.splitlines() if COMMAND.match(line.strip())]


def inline(text):
    """The commands of a page in back quotes, each once."""
    return sorted({code for code in SPAN.findall(text) if INLINE.match(code) and not USAGE.search(code)})


def shown():
    """The commands that pages show, by blocks, and each in back quotes by itself, with their pages."""
    tree = Tree(ROOT)
    return [(page, commands) for page in tree.pages()
            for commands in [*blocks(page, tree.text(page)), *([command] for command in inline(tree.text(page)))] if commands]


def is_played(command):
    return not any(re.match(words, command) for words in NOT_PLAYED)


def none_is_stale():
    """Each reason not to run a command is that of some command that a page shows."""
    commands = [command for _, block in shown() for command in block]
    same("what no page shows", [words for words in NOT_PLAYED if not any(re.match(words, command) for command in commands)], [])
    if not [command for command in commands if is_played(command)]:
        raise Failed("no command is run")


def with_ports(tree, ports):
    """Gives the configurations of examples free ports, the same one wherever a port stands twice."""
    numbers = {}
    for file in sorted((tree / "examples").glob("*.toml")):
        file.write_text(re.sub(r"(?<=_port = )\d+", lambda port: numbers.setdefault(port[0], str(ports.next())), file.read_text()))


def session(commands):
    """The commands of a block as a script. A router that is begun beside it has its control socket before the next command."""
    lines = ["set -eu"]
    for command in commands:
        lines.append(command)
        if control := re.search(r"--control (\S+) .*&$", command):
            lines.append(f"until [ -S {control[1]} ]; do sleep 0.1; done")
    return "\n".join([*lines, "wait"])


def runs(folder, program, commands):
    """The commands of a block, one after another, as a reader would type them: each has status 0."""
    tree, ports = copied(ROOT, pathlib.Path(folder) / "tree", "examples"), Ports()
    (tree / "bin").mkdir()
    (tree / "bin/ripngd").symlink_to(program)
    with_ports(tree, ports)
    environment = dict(os.environ, PATH=f"{tree}/bin:{os.environ['PATH']}", PYTHONDONTWRITEBYTECODE="1")
    with open(tree / "said", "wb") as said:
        process = subprocess.Popen(["bash", "-c", session(commands)], cwd=tree, env=environment, stdin=subprocess.DEVNULL,
                                   stdout=said, stderr=said, start_new_session=True)
        try:
            status = process.wait(SECONDS)
        except subprocess.TimeoutExpired:
            status = f"none after {SECONDS} seconds"
        finally:
            end_group(process)
            ports.close()
    if status:
        raise Failed(f"{commands}: status {status}\n{(tree / 'said').read_text(errors='replace')[-2000:]}")


def help_of(program, *words):
    return subprocess.run([program, *words], capture_output=True, text=True, check=True).stdout


def subcommands(program):
    """The subcommands that help lists."""
    return re.findall(r"^  (\w+) ", help_of(program, "help"), re.MULTILINE)


def no_unknown_words(program):
    """Subcommands, targets of make and options that pages name, and that are none."""
    tree, known = Tree(ROOT), set(subcommands(program))
    targets = set(" ".join(re.findall(r"^([a-z][\w ]*):", tree.text("Makefile"), re.MULTILINE)).split())
    helps = " ".join(help_of(program, "help", word) for word in known)
    sources = helps + " ".join(tree.text(file) for file in tree.files if file.parts[0] in ("bench", "companion", "tools", "tests", "page", ".ci") and file.suffix in (".py", ".sh", ""))
    faults = []
    for place, line in tree.page_lines():
        for code in SPAN.findall(line):
            faults += [f"{place}: {word} is no subcommand" for word in re.findall(r"^(?:bin/)?ripngd ([a-z]\w*)", code) if word not in known]
            faults += [f"{place}: make has no {word}" for word in re.findall(r"\bmake ([a-z]+)\b", code) if word not in targets]
            faults += [f"{place}: nothing has {word}" for word in re.findall(r"(?<![\w-])--[a-z][a-z-]+", code) if word not in sources and not code.startswith("rt ")]
    same("what is named and is not there", faults, [])


def main(program, *names):
    program = pathlib.Path(program).resolve(strict=True)
    cases = [(name, lambda folder, check=check: holds(check)) for name, check in ALL.items()]
    cases.append(("subcommands, targets and options are there", lambda folder: no_unknown_words(program)))
    cases.append(("each reason not to run a command is of use", lambda folder: none_is_stale()))
    cases += [(f"{page}: {commands[0]}", lambda folder, commands=played: runs(folder, program, commands))
              for page, commands in shown() if (played := [command for command in commands if is_played(command)])]
    cases += [(f"{name} is found", lambda folder, planted=planted: finds(folder, *planted)) for name, *planted in PLANTED]
    return play(named(cases, names))


if __name__ == "__main__":
    if len(sys.argv) < 2:
        sys.exit("usage: tests/repository/pages.py PROGRAM [NAME..]")
    sys.exit(main(*sys.argv[1:]))
