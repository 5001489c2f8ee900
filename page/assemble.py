#!/usr/bin/env python3
"""The laboratory in one file, docs/lab.html: the page with the module, the lessons and the examples in it.

    page/assemble.py page MODULE KIT WASM_OPT proved|unproved     prints the file, with that module, and says what made the module; MODULE
                                                                  may be such a file, whose module is taken as it stands there
    page/assemble.py sum sources|code                             prints the sum of all sources, or of those of the module
    page/assemble.py fact NAME FILE                               prints what a file notes: sources, code, kit, wasm-opt or proof
    page/assemble.py module FILE                                  prints the module of a file

The page is put together of page/src: into frame.html go the styles and the modules, of whose script and style its policy has the hashes.
The modules stand in one script, so their imports, the word `export` and lines that are a remark alone are left out.
"""
import base64
import hashlib
import html
import pathlib
import re
import subprocess
import sys
import zlib

PAGE = pathlib.Path(__file__).resolve().parent
ROOT = PAGE.parent
# The modules in order, of the page and of its worker.
PAGE_MODULES = ["trace", "losses", "datagrams", "pcap", "packets", "walks", "building", "numbering", "losing", "branching", "removing", "lessons", "veiling", "exercises", "varying", "layout", "placing", "markup",
                "texts", "asking", "filtering", "tables", "acting", "forwarding", "plot", "detail", "quiz", "marks", "timeline", "outsiders", "running", "drawing", "versions", "edges", "comparing", "showing", "keeping", "rooming", "languages", "laboratory", "playing",
                "editor", "giving", "acts", "keys", "page"]
WORKER_MODULES = ["module", "worker"]
STYLES = ["style", "beside"]
FACTS = ("sources", "code", "kit", "wasm-opt", "proof")
MADE = {"proved": "It was compiled from the proved sources", "unproved": "It was compiled from the sources without their proof"}


def escaped(text):
    """A text as it stands within an element."""
    return text.replace("&", "&amp;").replace("<", "&lt;").replace("\r", "&#13;")


def joined(names):
    """Modules as one script."""
    lines = [line for name in names for line in (PAGE / "src" / f"{name}.js").read_text().splitlines()]
    kept = [line for line in lines if line and not re.match(r"import |\s*// ", line)]
    return "\n".join(line.removeprefix("export ") for line in kept)


def course():
    """The lessons in their order, each with its group: examples/lessons/course.txt has them indented below it."""
    lines = [line for line in (ROOT / "examples/lessons/course.txt").read_text().splitlines() if line and not line.startswith("#")]
    group, found = None, []
    for line in lines:
        if line.startswith(" "):
            found.append((group, ROOT / "examples/lessons" / f"{line.strip()}.lab"))
        else:
            group = line
    assert sorted(file for _, file in found) == sorted((ROOT / "examples/lessons").glob("*.lab")), "course.txt names each lesson once"
    return found


def scripts():
    """The lessons, the exercises and the examples, each an element with its name."""
    lessons = [(group, file, " data-lesson") for group, file in course()]
    others = [(kind, file, "") for kind, folder in (("Exercises", "exercises"), ("Examples", "."))
              for file in sorted((ROOT / "examples" / folder).glob("*.lab"))]
    return "\n".join(f'<div data-name="{file.name}" data-kind="{html.escape(kind)}"{mark}>{escaped(file.read_text())}</div>'
                     for kind, file, mark in [*lessons, *others])


def words():
    """The words of other languages, each an element with its name."""
    return "\n".join(f'<div class="words" data-language="{file.stem}" hidden>\n{escaped(file.read_text())}</div>' for file in sorted((PAGE / "words").glob("*.txt")))


def hash_of(text):
    """The hash of what stands between the tags of a script or a style, as a policy names it."""
    return base64.b64encode(hashlib.sha256(text.encode()).digest()).decode()


def between(text, tag):
    return re.search(f"<{tag}>(.*?)</{tag}>", text, re.DOTALL)[1]


def page(module, *facts):
    """The whole page. What is put in first decides the hashes, which are put in last."""
    noted = dict(zip(FACTS, [sum_of("sources"), sum_of("code"), *facts]))
    metas = "\n".join(f'<meta name="{name}" content="{html.escape(value)}">' for name, value in noted.items())
    made = f"{MADE[noted['proof']]}, by {noted['kit']} and wasm-opt {noted['wasm-opt']}. The sum of the sources is <code>{noted['sources'][:16]}</code>."
    parts = {
        "facts": metas, "made": made, "style": "".join((PAGE / f"src/{name}.css").read_text() for name in STYLES).rstrip("\n"), "scripts": scripts(), "words": words(),
        "module": packed_of(pathlib.Path(module)), "worker": escaped(joined(WORKER_MODULES)),
        "script": joined(PAGE_MODULES),
    }
    text = (PAGE / "src/frame.html").read_text()
    for name, part in parts.items():
        before, mark, behind = text.partition(f"<!-- {name} -->")
        assert mark, name
        text = before + part + behind
    for tag in ("script", "style"):
        text = text.replace(f"{tag.upper()}-HASH", hash_of(between(text, tag)), 1)
    return text


def crates_below():
    return subprocess.run([ROOT / "tools/crates.py", "below", "lab_page"], capture_output=True, text=True, check=True).stdout.split()


def code():
    """What the module is made of: the code of the crate lab_page and of those below it, and what compiles it."""
    crates = [file for crate in crates_below() for file in (ROOT / "crates" / crate / "src").rglob("*.rt")]
    return [*crates, *(PAGE / name for name in ("wasm.sh", "lower.py", "heap.c")), ROOT / "tools/lent.sh"]


def sources():
    """What the file is made of: the module, the page, and the scripts."""
    return [*code(), PAGE / "assemble.py", *(PAGE / "src").iterdir(), *(PAGE / "words").iterdir(), *(ROOT / "examples").rglob("*.lab"), ROOT / "examples/lessons/course.txt"]


def sum_of(what):
    total = hashlib.sha256()
    for file in sorted({"code": code, "sources": sources}[what]()):
        total.update(f"{file.relative_to(ROOT)} {hashlib.sha256(file.read_bytes()).hexdigest()}\n".encode())
    return total.hexdigest()


def fact(name, file):
    """What a file notes by that name, or nothing."""
    found = re.search(f'<meta name="{name}" content="(.*?)">', pathlib.Path(file).read_text())
    return html.unescape(found[1]) if found else ""


def packed_in(file):
    """The module of a file as it stands there, and its bytes. In files of before it is not packed."""
    text = re.search('<div id="module" hidden(?:="")?>(.*?)</div>', file.read_text())[1]
    data = base64.b64decode(text)
    return (None, data) if data.startswith(b"\0asm") else (text, zlib.decompress(data, -15))


def packed_of(module):
    """A module as it stands in a file: without what repeats (RFC 1951), in letters."""
    text, data = packed_in(module) if module.suffix == ".html" else (None, module.read_bytes())
    deflate = zlib.compressobj(9, zlib.DEFLATED, -15)
    return text or base64.b64encode(deflate.compress(data) + deflate.flush()).decode()


def module_of(file):
    return packed_in(pathlib.Path(file))[1]


def main(way, *words):
    match way, len(words):
        case "page", 4:
            sys.stdout.write(page(*words))
        case "sum", 1:
            print(sum_of(*words))
        case "fact", 2:
            print(fact(*words))
        case "module", 1:
            sys.stdout.buffer.write(module_of(*words))
        case _:
            sys.exit(__doc__)


if __name__ == "__main__":
    if len(sys.argv) < 2:
        sys.exit(__doc__)
    main(*sys.argv[1:])
