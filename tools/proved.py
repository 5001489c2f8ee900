#!/usr/bin/env python3
"""The mark of a proved program: the file PROGRAM.proved beside it, with sums of program, sources and kit, and what `rt ci` said.

    tools/proved.py sum [CRATE]                        prints the sum of the sources of a program's crate and of those below it
    tools/proved.py check PROGRAM [CRATE]              says why PROGRAM is not the proved program of these sources; 0 if it is
    tools/proved.py write CRATE PROGRAM FOLDER LOG..   writes the mark. LOG.. is all that `rt ci` printed about the sources below
                                                       FOLDER, and it passed in the last one

CRATE is ripngd_program if none is named. Only tools/prove.sh and .ci/run write marks. A mark has the lines

    program SUM             of the program
    kit NAME                as `rt version` says it
    kit-files SUM           of the kit's tools, logic and built libraries
    sources SUM             of the program's crate and of those below it, as their sums stand in the lines `crate`, and of HANDLES
    crate NAME SUM VERDICT  a line for each crate that was proved: its sum, and the prover's line on it, or that it was proved before
    edits NAME N refused    how many of its must-fail edits were refused, if some were tried
    said LINE               what `rt ci` said last: two lines
    tests LINE              of the merge gate alone: what it counted, and what was skipped

Each SUM is a SHA-256. That of a crate is of its line in crates.txt, and of the sums and names of its files in src, specs and proofs."""

import hashlib
import pathlib
import re
import subprocess
import sys

from crates import USES, below

ROOT = pathlib.Path(__file__).resolve().parent.parent
PROGRAM = "ripngd_program"
PARTS = ("src", "specs", "proofs")
# What a verdict rests on in the folder of a kit; a built library's file `format` has the sum of its other files.
KIT_PARTS = ("KIT-ID", "bin/*", "c/*", "toolchain/**/*", "logic_built/**/*", "rattle/logic/**/*", "rattle/antt/**/*", "rlibs/*/format")


def sum_of(text):
    return hashlib.sha256(text.encode()).hexdigest()


def sum_of_file(path):
    with open(path, "rb") as file:
        return hashlib.file_digest(file, "sha256").hexdigest()


def sum_of_files(folder, patterns):
    """The sums and names of the files of a folder that patterns name, a line for each, in order."""
    found = {path.relative_to(folder).as_posix(): path for pattern in patterns for path in folder.glob(pattern) if path.is_file()}
    return "".join(f"{sum_of_file(found[name])}  {name}\n" for name in sorted(found))


def sum_of_crate(folder, crate):
    [line] = [line for line in (folder / "crates.txt").read_text().splitlines() if re.match(rf"{crate}( staticlib)?:", line)]
    return sum_of(f"{line}\n" + sum_of_files(folder, [f"crates/{crate}/{part}/**/*" for part in PARTS]))


def sums(folder, crate):
    """The sum of a crate and of each that it stands on, by their names."""
    found = below(crate)
    return {name: sum_of_crate(folder, name) for name in USES if name in found}


def whole(folder, crates):
    """One sum of several, as `sums` has them."""
    return sum_of("".join(f"{crates[name]}  {name}\n" for name in crates) + (folder / "HANDLES").read_text())


def verdicts(logs):
    """What logs of `rt ci` say of each crate: the prover's own line where one of them proved it, or that it was proved before."""
    found, line_of, crate = {}, {}, None
    for log in logs:
        for line in log.splitlines():
            if line.startswith("== "):
                crate = line[3:]
            elif line.startswith("logic=proved "):
                line_of[crate] = line
            elif (proved := re.fullmatch(r"rt: (\w+) proved", line)) and proved[1] in line_of:
                found[proved[1]] = line_of[proved[1]]
            elif kept := re.fullmatch(r"rt: (\w+) is (kept: .*)", line):
                found.setdefault(kept[1], kept[2])
    return found


def lines_of(folder, crate, logs):
    """The lines of a mark about the sources, from what was said of them; ends the program where that does not prove the crate."""
    said, refused = verdicts(logs), re.findall(r"^rt: must-fail (\w+)/\S+: refused, as it must be", logs[-1], re.M)
    last = logs[-1].splitlines()[-2:]
    if len(last) < 2 or not last[0].startswith("rt: ok; ") or not re.fullmatch(r"[1-9]\d* passed, 0 failed", last[1]):
        sys.exit(f"no mark: `rt ci` did not say that all is proved, but {' / '.join(last)}")
    wanted = sums(folder, crate)
    if lacking := [name for name in wanted if name not in said]:
        sys.exit(f"no mark: `rt ci` did not say that these are proved: {' '.join(lacking)}")
    yield f"sources {whole(folder, wanted)}"
    for name in USES:
        if name in said:
            yield f"crate {name} {wanted.get(name) or sum_of_crate(folder, name)} {said[name]}"
            if name in refused:
                yield f"edits {name} {refused.count(name)} refused"
    yield from (f"said {line}" for line in last)


def output(*words):
    return subprocess.run(words, capture_output=True, text=True, check=True).stdout.strip()


def write(crate, program, folder, *logs):
    kit = pathlib.Path(output("rt", "doc")).parent
    lines = [f"program {sum_of_file(program)}", f"kit {output('rt', 'version')}", f"kit-files {sum_of(sum_of_files(kit, KIT_PARTS))}"]
    lines += lines_of(pathlib.Path(folder), crate, [pathlib.Path(log).read_text(errors="replace") for log in logs])
    pathlib.Path(f"{program}.proved").write_text("".join(f"{line}\n" for line in lines))


def fault(program, crate):
    """Why a program is not the proved program of these sources, or None."""
    try:
        found = sum_of_file(program)
        mark = pathlib.Path(f"{program}.proved").read_text().splitlines()
    except FileNotFoundError as missing:
        return f"{missing.filename} is not there"
    if f"program {found}" not in mark:
        return f"{program} is not the program whose mark {program}.proved is"
    now = sums(ROOT, crate)
    if f"sources {whole(ROOT, now)}" not in mark:
        noted = {tuple(line.split()[1:3]) for line in mark if line.startswith("crate ")}
        changed = [name for name in now if (name, now[name]) not in noted]
        return f"{program} was proved, but of other sources: since then {' '.join(changed) or 'HANDLES'} changed"
    return None


def main():
    match sys.argv[1:]:
        case ["sum", *crate] if len(crate) < 2:
            print(whole(ROOT, sums(ROOT, *crate or [PROGRAM])))
        case ["check", program, *crate] if len(crate) < 2:
            sys.exit(fault(program, *crate or [PROGRAM]))
        case ["write", crate, program, folder, *logs] if logs:
            write(crate, program, folder, *logs)
        case _:
            print(__doc__, file=sys.stderr)
            sys.exit(2)


main()
