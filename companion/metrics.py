"""What a companion says of itself, in the text format of Prometheus, as its node exporter reads it from a file: `ripngd-links metrics`."""

import argparse

from asking import FOLDER
from report import put
from shape import COUNTER, FLAG, LIST, SHAPE, TEXT, values
from status import current
from table import Fault


def name_of(name):
    """The name of a metric, of a name of the shape."""
    words = name.replace("links[].neighbors[].", "neighbor.").replace("links[].", "link.").removesuffix(".*").replace(".", "_")
    return f"ripngd_{words}{'_total' * (SHAPE[name][0] == COUNTER)}"


def quoted(text):
    return str(text).replace("\\", r"\\").replace('"', r"\"").replace("\n", r"\n")


def lines(told):
    """All of a report but texts, line by line: of each metric what it means, and of which kind it is."""
    found = {}
    for name, labels, value in values(told):
        if SHAPE[name][0] not in (TEXT, LIST) and value is not None:
            words = ",".join(f'{key}="{quoted(one)}"' for key, one in labels.items())
            found.setdefault(name, []).append(f"{name_of(name)}{{{words}}} {value + 0}" if words else f"{name_of(name)} {value + 0}")
    for name, (kind, meaning) in SHAPE.items():
        if kind not in (TEXT, LIST):
            yield f"# HELP {name_of(name)} {meaning[0].upper()}{meaning[1:]}{', or 0' * (kind == FLAG)}."
            yield f"# TYPE {name_of(name)} {COUNTER if kind == COUNTER else 'gauge'}"
            yield from found.get(name, ())


def main(words):
    parser = argparse.ArgumentParser(prog="ripngd-links metrics", description="Says how a companion that runs is, for Prometheus.")
    parser.add_argument("--output", metavar="FILE", help="a file that is replaced as a whole, as one of node exporter's")
    parser.add_argument("folder", nargs="?", default=FOLDER, help="its folder (default: %(default)s)")
    given = parser.parse_args(words)
    text = "".join(f"{line}\n" for line in lines(current(given.folder)))
    if not given.output:
        return print(text, end="")
    try:
        return put(given.output, text)
    except OSError as fault:
        raise Fault(f"cannot write {given.output}: {fault.strerror}", 3) from None
