#!/usr/bin/env python3
"""bench/entries.py FOLDER: writes a module with 100,000 minimal entries of each kind, as FOLDER/KIND.wasm.

FOLDER/kinds has a line for each: the kind and the number of entries. FOLDER/empty.wasm has no section.
Every run writes the same bytes. All modules are well formed; none is valid.
"""
import sys
from pathlib import Path

from inputs import HEAD, number, section

COUNT = 100000
IMPORTS, FUNCTIONS, GLOBALS, EXPORTS, ELEMENTS, DATA = 2, 3, 6, 7, 9, 11
OFFSET_0 = b"\x41\x00\x0B"


def sized(content):
    """The content after its length, as in a name."""
    return number(len(content)) + content


def entries(section_id, entry):
    """A section of entries, each of them made from its number."""
    return section(section_id, number(COUNT) + b"".join(map(entry, range(COUNT))))


def segment(head, item):
    """An element section of one segment, whose items are made from their numbers."""
    return section(ELEMENTS, b"\x01" + head + number(COUNT) + b"".join(map(item, range(COUNT))))


def kinds():
    """Each kind: its name and its section."""
    yield "import", entries(IMPORTS, lambda n: sized(b"env") + sized(b"f%05d" % n) + b"\x00" + number(n % 100))
    yield "global", entries(GLOBALS, lambda n: b"\x7F\x00\x41" + number(n % 60) + b"\x0B")
    yield "function", entries(FUNCTIONS, lambda n: number(n % 100))
    yield "export", entries(EXPORTS, lambda n: sized(b"f%05d" % n) + b"\x00" + number(n % 100))
    yield "element_index", segment(b"\x00" + OFFSET_0, lambda n: number(n % 100))
    yield "element_expression", segment(b"\x05\x70", lambda n: b"\xD2" + number(n % 100) + b"\x0B")
    yield "data_segment", entries(DATA, lambda n: b"\x00\x41" + number(n % 60) + b"\x0B" + sized(b"abcdefgh"))


def main(folder):
    (folder / "empty.wasm").write_bytes(HEAD)
    with open(folder / "kinds", "w") as table:
        for kind, content in kinds():
            (folder / f"{kind}.wasm").write_bytes(HEAD + content)
            print(kind, COUNT, file=table)


if __name__ == "__main__":
    if len(sys.argv) != 2:
        sys.exit("usage: bench/entries.py FOLDER")
    main(Path(sys.argv[1]))
