#!/usr/bin/env python3
"""Clears the flag of 64 bits of a WebAssembly module's table, which is empty: older readers of modules do not know that flag.

    page/lower.py FROM TO
"""
import sys

TABLES, WITH_64_BITS, WITH_32_BITS = 4, 5, 1


def number(code, at):
    """The number that stands there in groups of seven bits, the lowest first, and what is behind it."""
    value = shift = 0
    while True:
        byte = code[at]
        at, value, shift = at + 1, value | (byte & 127) << shift, shift + 7
        if not byte & 128:
            return value, at


def lowered(code):
    """The module with a table of 32 bits. A module is a head of eight bytes and sections, each with its kind and its length."""
    code, at = bytearray(code), 8
    while at < len(code):
        length, begin = number(code, at + 1)
        if code[at] == TABLES:
            # How many tables there are, the kind of the first one's elements, its flags.
            assert code[begin + 2] == WITH_64_BITS
            code[begin + 2] = WITH_32_BITS
        at = begin + length
    return code


def main(source, target):
    with open(source, "rb") as file:
        code = lowered(file.read())
    with open(target, "wb") as file:
        file.write(code)


if __name__ == "__main__":
    if len(sys.argv) != 3:
        sys.exit(__doc__)
    main(*sys.argv[1:])
