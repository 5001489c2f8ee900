#!/usr/bin/env python3
"""Makes a picture of each example at a telling step, docs/pictures/NAME.png, with the walk behind a router's metric and where its packets
go, as *present* shows them; and preview.png, which stands beside links to the page: a ring that counts, with its time diagram. Needs
Chromium.

    page/pictures.py [FILE]      of docs/lab.html, or of another such page
"""
import collections
import os
import struct
import sys
import tempfile
import zlib

ROOT = os.path.join(os.path.dirname(os.path.realpath(__file__)), "..")
sys.path.insert(0, os.path.join(ROOT, "tests/support"))
sys.dont_write_bytecode = True
import browser  # noqa: E402

# Each with the step and the router.
PICTURES = {"counting": (36, 1), "healing": (38, 0), "line": (10, 1), "moving": (9, 1), "rounds": (20, 3), "square": (31, 3)}
FILE = os.path.join(ROOT, "docs/lab.html")
SIZE = (760, 800)
# What those who link to a page take for a picture beside it.
PREVIEW, PREVIEW_SIZE = "preview", (1200, 630)


# ---- Small files ----
def pixels_of(png):
    """The width and the height of a picture as Chromium writes it, and its rows of pixels, each three or four bytes."""
    at, width, height, kind, data = 8, 0, 0, 0, b""
    while at < len(png):
        length, name = struct.unpack(">I4s", png[at:at + 8])
        part = png[at + 8:at + 8 + length]
        if name == b"IHDR":
            width, height, _, kind = struct.unpack(">IIBB", part[:10])
        data += part if name == b"IDAT" else b""
        at += 12 + length
    many = {2: 3, 6: 4}[kind]
    raw, rows, above = zlib.decompress(data), [], bytes(many * width)
    for row in range(height):
        start = row * (many * width + 1)
        above = unfiltered(raw[start], bytearray(raw[start + 1:start + 1 + many * width]), above, many)
        rows.append([above[pixel:pixel + 3] for pixel in range(0, many * width, many)])
    return width, height, rows


def unfiltered(way, row, above, many):
    """A row without the filter of PNG that was put on it (PNG, section 9)."""
    if way == 2:
        return bytes((one + up) % 256 for one, up in zip(row, above))
    for at in range(len(row) if way else 0):
        left, up, corner = (row[at - many], above[at], above[at - many]) if at >= many else (0, above[at], 0)
        if way == 4:
            guess = left + up - corner
            near = min((abs(guess - one), order, one) for order, one in enumerate((left, up, corner)))[2]
        row[at] = (row[at] + (left if way == 1 else (left + up) // 2 if way == 3 else near)) % 256
    return bytes(row)


def small(png):
    """The same picture of 256 colors: the most frequent, and each other by the nearest of them."""
    width, height, rows = pixels_of(png)
    counts = collections.Counter(pixel for row in rows for pixel in row)
    colors = [color for color, _ in counts.most_common(256)]
    nearest = {color: number for number, color in enumerate(colors)}
    for color in counts.keys() - nearest.keys():
        nearest[color] = min(range(len(colors)), key=lambda number: sum((a - b) ** 2 for a, b in zip(color, colors[number])))
    data = b"".join(b"\0" + bytes(nearest[pixel] for pixel in row) for row in rows)
    parts = [(b"IHDR", struct.pack(">IIBBBBB", width, height, 8, 3, 0, 0, 0)), (b"PLTE", b"".join(colors)),
             (b"IDAT", zlib.compress(data, 9)), (b"IEND", b"")]
    return b"\x89PNG\r\n\x1a\n" + b"".join(
        struct.pack(">I", len(part)) + name + part + struct.pack(">I", zlib.crc32(name + part)) for name, part in parts)


def taken(page, file, words, step, acts):
    """The picture of a step, once what is named there has been done."""
    page.open(f"file://{os.path.realpath(file)}#{words}&step={step}")
    page.wait(f'document.getElementById("where").textContent.startsWith("step {step} ")', 60)
    for act in acts:
        page.value(f'document.querySelector("[data-act={act}]").click()')
    with tempfile.NamedTemporaryFile(suffix=".png") as picture:
        page.picture(picture.name)
        return small(picture.read())


def keep(name, picture):
    with open(os.path.join(ROOT, f"docs/pictures/{name}.png"), "wb") as file:
        file.write(picture)


def main(file=FILE):
    page = browser.open_browser("chromium", *SIZE)
    try:
        for name, (step, router) in PICTURES.items():
            keep(name, taken(page, file, f"{name}&router={router}&prefix=2001:db8::/32", step, ["present"]))
        page.size(*PREVIEW_SIZE)
        keep(PREVIEW, taken(page, file, "ring-of-three", 40, ["times", "present"]))
    finally:
        page.close()


if __name__ == "__main__":
    if len(sys.argv) > 2:
        sys.exit(__doc__)
    main(*sys.argv[1:])
