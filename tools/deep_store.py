#!/usr/bin/env python3
"""Writes a store whose place map has 256 levels, of which each look-up goes down all: every inner page names the page below it in each of its
29 entries, and the leaf has three places without words, "v", "w" and "x", whose labels are empty. No program makes such a store; each page of it
keeps the rules that a look-up checks.
usage: tools/deep_store.py STORE [LEVELS]"""
import struct
import sys

KEY, VALUE = 66, 649


def form(text):
    return bytes([0]) + text.ljust(KEY - 2, b"\0") + bytes([len(text)])


def page(kind, level, cells):
    body = struct.pack(">BBHB", kind, 5, len(cells), level).ljust(16, b"\0") + b"".join(cells)
    return body.ljust(4096, b"\0")


def main():
    store = sys.argv[1]
    levels = int(sys.argv[2]) if len(sys.argv) > 2 else 256
    above = int.from_bytes(form(b"y"), "big")
    pages = []
    for depth in range(levels - 1):
        # The keys of the entries behind the first, each page's below those of the page above it.
        first = above - 100 * (depth + 1)
        child = struct.pack(">I", depth + 2)
        cells = [bytes(KEY) + child] + [(first + n).to_bytes(KEY, "big") + child for n in range(28)]
        pages.append(page(2, levels - 1 - depth, cells))
    value = struct.pack(">ii", 10, 20).ljust(VALUE, b"\0")
    pages.append(page(1, 0, [form(name) + value for name in (b"v", b"w", b"x")]))
    head = b"IRTREE02" + struct.pack(">IIIIIIIIQQQ", levels + 1, 0, 1, 0, 0, 0, 0, 3, 1, 3, 1)
    with open(store, "wb") as out:
        out.write(head.ljust(4096, b"\0") + b"".join(pages))


main()
