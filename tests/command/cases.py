#!/usr/bin/env python3
"""Plays the cases of tests/cases on the built program.

    tests/command/cases.py PROGRAM [NAME..]     all files, or those of these names (`help`); `help: version` is each case of the file help.case
                                        whose sentence has `version` in it

A file NAME.case is text. An empty line, and one that begins with `#`, says nothing; the others are

    case SENTENCE           a case begins, and what it shows
    file NAME               the next lines that begin with `| ` are the lines of that file in the case's own new folder (`|` alone is an
                            empty line); `file NAME no newline` leaves out the last line feed. NAME may be in a folder, which is made
    hex NAME                the next lines that begin with `| ` are the bytes of that file, in hexadecimal digits and spaces
    $ COMMAND               is run by `bash -c` in that folder, with `ripngd`, the program, on PATH. The lines behind it say what must
                            come out, and where none does, that nothing comes, with status 0:
    > LINE                  a line of standard output (`>` alone is an empty line)
    ! LINE                  a line of standard error
    >~ TEXT                 standard output has TEXT somewhere, and is not compared otherwise
    !~ TEXT                 the same of standard error
    = N                     the exit status, 128 and its number where a signal ended the command

What stands before the first case of a file is there in each of its cases. In all texts PORT1 to PORT9 are free ports of 127.0.0.1, the
same ones throughout a case and others in each; $REPOSITORY names the folder above this one. A case has 60 seconds."""

import os
import pathlib
import re
import subprocess
import sys
import time

sys.dont_write_bytecode = True
sys.path.append(str(pathlib.Path(__file__).resolve().parents[1] / "support"))
from suite import Failed, Ports, end_group, play

TESTS = pathlib.Path(__file__).resolve().parents[1]
SECONDS = 60
WORD = re.compile(r"\bPORT[1-9]\b")


class Block:
    """What a line with those behind it says: a file, or a command and what must come out."""

    def __init__(self, kind, text):
        self.kind, self.text, self.status = kind, text, 0
        self.lines = {"|": [], ">": [], "!": [], ">~": [], "!~": []}

    def add(self, mark, text):
        of_file = self.kind != "$"
        if (mark == "|") != of_file:
            raise ValueError(f"`{mark}` behind `{self.kind}`")
        if mark == "=":
            self.status = int(text)
        else:
            self.lines[mark].append(text)
        for stream in ">!":
            if self.lines[stream] and self.lines[f"{stream}~"]:
                raise ValueError(f"`{stream}` and `{stream}~` of one command")


def blocks_of(text):
    """The blocks before the first case, and the cases: pairs of a sentence and its blocks."""
    shared, cases = [], []
    blocks = shared
    for number, line in enumerate(text.split("\n"), 1):
        mark, _, rest = line.partition(" ")
        try:
            if mark == "case":
                blocks = list(shared)
                cases.append((rest, blocks))
            elif mark in ("file", "hex", "$"):
                blocks.append(Block(mark, rest))
            elif mark in ("|", ">", "!", ">~", "!~", "="):
                blocks[-1].add(mark, rest)
            elif line and mark != "#":
                raise ValueError("no line begins so")
        except (ValueError, IndexError) as error:
            raise Failed(f"line {number} is no line of a case: {error}")
    return cases


class Case:
    """A case that is played: its ports, and what it has started."""

    def __init__(self, program, folder):
        self.folder = pathlib.Path(folder)
        self.work = self.folder / "work"
        self.ports, self.numbers, self.started = Ports(), {}, []
        (self.folder / "bin").mkdir()
        (self.folder / "bin/ripngd").symlink_to(program)
        self.work.mkdir()
        self.environment = dict(os.environ, PATH=f"{self.folder}/bin:{os.environ['PATH']}", LC_ALL="C", REPOSITORY=str(TESTS.parent))
        self.end = time.monotonic() + SECONDS

    def filled(self, text):
        """A text with the case's ports in the place of their words."""
        def port(word):
            if word[0] not in self.numbers:
                self.numbers[word[0]] = str(self.ports.next())
            return self.numbers[word[0]]
        return WORD.sub(port, text)

    def write(self, block):
        name, bare, _ = block.text.partition(" no newline")
        lines = [self.filled(line) for line in block.lines["|"]]
        file = self.work / name
        file.parent.mkdir(parents=True, exist_ok=True)
        if block.kind == "hex":
            file.write_bytes(bytes.fromhex("".join(lines)))
        else:
            file.write_text("\n".join(lines) + ("" if bare or not lines else "\n"))

    def run(self, block):
        command = self.filled(block.text)
        streams = {">": self.folder / "out", "!": self.folder / "err"}
        with open(streams[">"], "wb") as out, open(streams["!"], "wb") as err:
            process = subprocess.Popen(["bash", "-c", command], cwd=self.work, env=self.environment, stdin=subprocess.DEVNULL,
                                       stdout=out, stderr=err, start_new_session=True)
            self.started.append(process)
            try:
                status = process.wait(max(0, self.end - time.monotonic()))
            except subprocess.TimeoutExpired:
                raise Failed(f"$ {command}\n    the case did not end within {SECONDS} seconds")
        if status < 0:
            status = 128 - status
        faults = [] if status == block.status else [f"    status {status} and not {block.status}"]
        for stream, file in streams.items():
            faults += self.compared(stream, block, file.read_text(errors="backslashreplace"))
        if faults:
            raise Failed("\n".join([f"$ {command}", *faults]))

    def compared(self, stream, block, got):
        """What a stream has that is not wanted, or has not that is."""
        name = {">": "standard output", "!": "standard error"}[stream]
        texts = [self.filled(text) for text in block.lines[f"{stream}~"]]
        wanted = "".join(self.filled(line) + "\n" for line in block.lines[stream])
        missing = [text for text in texts if text not in got]
        if (texts and not missing) or (not texts and got == wanted):
            return []
        told = [f"    {name} has no {text}" for text in missing] or [f"    {name} is not as wanted:", *marked("wanted", wanted)]
        return told + marked("got", got)


def marked(what, text):
    """The lines of a text to be shown, each behind a word; a last one without a line feed says so."""
    lines = text.split("\n")
    last = lines.pop()
    return [f"      {what:6} {line}" for line in lines] + ([f"      {what:6} {last} (no line feed)"] if last else [])


def played(program, blocks, folder):
    case = Case(program, folder)
    try:
        for block in blocks:
            if block.kind == "$":
                case.run(block)
            else:
                case.write(block)
    finally:
        for process in case.started:
            end_group(process)
        case.ports.close()


def chosen(file, sentence, names):
    """Whether a case is one of those that are named."""
    for name in names:
        of, _, words = name.partition(":")
        if of.removesuffix(".case") == file and words.strip() in sentence:
            return True
    return not names


def main(program, *names):
    program = pathlib.Path(program).resolve(strict=True)
    cases = []
    for file in sorted((TESTS / "cases").glob("*.case")):
        try:
            found = blocks_of(file.read_text())
        except Failed as failed:
            sys.exit(f"FAILED {file.name}: {failed}")
        for sentence, blocks in found:
            if chosen(file.stem, sentence, names):
                cases.append((f"{file.name}: {sentence}", lambda folder, blocks=blocks: played(program, blocks, folder)))
    return play(cases)


if __name__ == "__main__":
    if len(sys.argv) < 2:
        sys.exit("usage: tests/command/cases.py PROGRAM [NAME..]")
    sys.exit(main(*sys.argv[1:]))
