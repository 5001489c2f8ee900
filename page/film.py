#!/usr/bin/env python3
"""A film of a script: docs/lab.html with that script in it, which it shows first.

    page/film.py SCRIPT > FILE.html
"""
import pathlib
import sys

sys.dont_write_bytecode = True
import assemble  # noqa: E402


def film(page, name, script):
    """The page with a script of its own, and a title that names it."""
    own = f'<div id="own" hidden><div data-name="{assemble.html.escape(name)}">{assemble.escaped(script)}</div></div>'
    title = f"<title>{assemble.escaped(name.removesuffix('.lab'))}, a network of ripngd</title>"
    parts = {r'<div id="own" hidden></div>': own, r"<title>ripngd laboratory</title>": title}
    for mark, part in parts.items():
        assert page.count(mark) == 1, mark
        page = page.replace(mark, part)
    return page


if __name__ == "__main__":
    if len(sys.argv) != 2:
        sys.exit(__doc__)
    script = pathlib.Path(sys.argv[1])
    sys.stdout.write(film((assemble.ROOT / "docs/lab.html").read_text(), script.name, script.read_text()))
