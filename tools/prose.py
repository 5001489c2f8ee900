#!/usr/bin/env python3
"""How pages, manuals and doc comments read: lengths of sentences and pages, and words that have a plainer one.

    tools/prose.py          a line for each page; what is refused goes to standard error with its place, and the status is then 1

The pages are README.md, docs/*.md, docs/*.8, examples/*.md, page/*.md and crates/*/*.md; the doc comments are those of crates/*/src. A
sentence ends with a full stop, a question mark or an exclamation mark; in a cell of a table a semicolon ends one, too. Code counts as
one word. Averages are over paragraphs and lists, the longest is over cells, too. Words are searched for outside of code."""

import pathlib
import re
import sys

ROOT = pathlib.Path(__file__).resolve().parent.parent
AVERAGE, LONGEST, README_LINES, LINES = 20, 35, 150, 320
# Words that may stand where names of code or the protocol have them: they are only listed.
WORDS = re.compile(r"\b(tells?|told|hears?|heard|hearing|stranger|liar|lies?|deceive|asker|headline|watcher|given up|deed|"
                   r"desk|telling|dear|dearer|behind|is none|are none|but for|the house|urgent|quiet|doubles?)\b", re.IGNORECASE)
# Words that stand nowhere, and what to write.
REFUSED = {
    r"so many(?= of\b|[.,;:])": "the number, or the name of what has it",
    r"(for )?want of memory|wants? memory": "out of memory",
    r"none of RIPng": "what does not follow RIPng",
    r"as it should be": "what is right, or what is wrong",
    r"(is|was) (still )?looked for|looked for one": "polls, or searches",
    r"goes? on behind": "continues past",
    r"(stands?|comes?|written) behind (it|them|one)": "follows, or after",
    r"by (the )?chance": "at random",
    r"(is|if it is) not nothing": "if there is one",
    r"in the place of the other": "replaces it",
    r"by reading": "argued from the code, or seen by reading it",
    r"(one|ones|moment) that there (is|are)": "the last one, or one that exists",
    r"in how many": "how many",
    r"nor of a\b": "neither .. nor",
}
# The glossary names words of code in order to translate them.
GLOSSARY = "docs/READING-SPECS.md"


def paragraphs(page):
    """What a page says outside of code and headings: triples of a text, whether it is a cell of a table, and its line."""
    block, start, fenced, after_blank = [], 0, False, True
    for number, line in enumerate(page.splitlines() + [""], 1):
        fenced ^= line.startswith("```")
        if fenced or line.startswith("```") or (line.startswith("    ") and not block and after_blank):
            continue
        begins = line.lstrip(" >")
        if block and (not begins or begins[0] in "#|" or re.match(r"([-*]|\d+\.) ", begins)):
            yield " ".join(block), False, start
            block = []
        if begins.startswith("|"):
            yield from ((cell, True, number) for cell in re.split(r"(?<!\\)\|", begins) if cell.strip(" -:"))
        elif begins and begins[0] != "#":
            start = start if block else number
            block.append(re.sub(r"^([-*]|\d+\.) ", "", begins))
        after_blank = not begins


def manual(page):
    """A manual page as plain paragraphs: macros go, and what begins or ends something ends a paragraph. Lines keep their numbers."""
    page = re.sub(r"\.Bd.*?\.Ed|\.Bl -column.*?\.El", lambda block: "\n" * block[0].count("\n"), page, flags=re.DOTALL)
    page = re.sub(r"^\.(Sh|Ss|Dd|Dt|Os|Rs|Re|%.|Pp|Bl|El|It)\b.*$", "", page, flags=re.MULTILINE)
    return re.sub(r"^\.[A-Z][a-z] ?", "", page, flags=re.MULTILINE)


def sentences(text, is_cell):
    """How many words each sentence has."""
    text = re.sub(r"`[^`]*`", "code", re.sub(r"!\[.*?\]\(.*?\)", "", text))
    text = re.sub(r"\[(.*?)\]\([^)]*\)", r"\1", text)
    parts = re.split(r"(?<=[.!?;])[*)\"']*\s+" if is_cell else r"(?<=[.!?])[*)\"']*\s+", text)
    return [count for part in parts if (count := sum(bool(re.search(r"\w", word)) for word in part.split()))]


def refused(lines):
    """The words of some lines that stand nowhere: for each the number of its line, and what to write. A phrase may go over a line's end."""
    text = re.sub(r"`[^`]*`", lambda code: "`" * len(code[0]), "\n".join(lines))
    for pattern, instead in REFUSED.items():
        for found in re.finditer(rf"\b(?:{pattern})\b".replace(" ", r"\s+"), text, re.IGNORECASE):
            yield text.count("\n", 0, found.start()), f"\"{' '.join(found[0].split())}\" is refused: write {instead}"


def pages(root):
    """The pages that are read."""
    patterns = ("docs/*.md", "docs/*.8", "examples/*.md", "page/*.md", "crates/*/*.md")
    return [root / "README.md", *(page for pattern in patterns for page in sorted(root.glob(pattern)))]


class Page:
    """A page as it reads."""

    def __init__(self, root, page):
        self.name, self.text = str(page.relative_to(root)), page.read_text()
        self.size, self.lines, self.is_manual = page.stat().st_size, self.text.count("\n"), page.suffix == ".8"
        self.parts = list(paragraphs(manual(self.text) if self.is_manual else self.text))
        self.counts = [count for part, is_cell, _ in self.parts if not is_cell for count in sentences(part, is_cell)] or [0]
        self.average = sum(self.counts) / len(self.counts)
        self.longest, self.where = max((count, line) for part, is_cell, line in self.parts for count in sentences(part, is_cell))
        self.words = sorted({word.lower() for part, _, _ in self.parts for word in WORDS.findall(re.sub(r"`[^`]*`", "", part))})

    def line(self):
        return f"{self.name:24} {self.size:6}  {len(self.counts):9}  {self.average:7.1f}  {self.longest:7}  {', '.join(self.words)}"

    def faults(self):
        """What is refused. A manual page has a line for each macro, so its lines are not counted."""
        most = README_LINES if self.name == "README.md" else LINES
        if self.average > AVERAGE:
            yield f"{self.name}: sentences have {self.average:.1f} words on average, more than {AVERAGE}"
        if self.longest > LONGEST:
            yield f"{self.name}:{self.where}: a sentence has {self.longest} words, more than {LONGEST}"
        if self.lines >= most and not self.is_manual:
            yield f"{self.name} has {self.lines} lines, and not fewer than {most}"
        for line, why in refused(self.text.split("\n")) if self.name != GLOSSARY else []:
            yield f"{self.name}:{line + 1}: {why}"


def comments(root):
    """The doc comments of the crates, the lines of one file after another; what is no comment is an empty line."""
    for file in sorted(root.glob("crates/*/src/**/*.rt")):
        said = [re.match(r"\s*//[/!] ?(.*)", line) for line in file.read_text().splitlines()]
        yield file.relative_to(root), [line[1] if line else "" for line in said]


def faults(root):
    """All that is refused of a tree."""
    found = [fault for page in pages(root) for fault in Page(root, page).faults()]
    return found + [f"{file}:{line + 1}: {why}" for file, lines in comments(root) for line, why in refused(lines)]


def main():
    print(f"{'page':24}  bytes  sentences  average  longest  words")
    for page in pages(ROOT):
        print(Page(ROOT, page).line())
    wrong = faults(ROOT)
    print("\n".join(wrong), end="\n" * bool(wrong), file=sys.stderr)
    sys.exit(bool(wrong))


if __name__ == "__main__":
    main()
