#!/usr/bin/env python3
"""Writes crates/first_cue/stdin: a small show as a packed image (tools/udf.py), with the directory SHOW and in it four cues.

Every tag's location is right: the sector's number, or the block's inside the partition (ECMA-167 3/7.2.8, 4/7.2.8). So is its CRC, which is that of
the whole descriptor behind it (3/7.2.6).

10.1A stands before 10.1a: matching ignores ASCII case, so a lookup of either name gives the first of the two.

Usage: tools/show_image.py. Needs Python's standard library alone, prints nothing, and writes the same bytes each time.
"""

import os
import struct
import sys

sys.dont_write_bytecode = True
import udf
from udf import BLOCK, EMBEDDED, FILE_IDENTIFIER, MAIN, PARTITION, SECTOR, SHORT, START
from udf import entry, long_ad, sealed, short_ad, tag

DIRECTORY, PARENT = 2, 8  # File characteristics (ECMA-167 4/14.4.3).
CUES = [
    ("9", b"cue 9\nhouse lights to half\n"),
    ("10.1A", b"cue 10.1A\nfront wash 80, blue backs 40, follow 6 seconds\n"),
    ("10.1a", b"cue 10.1a\nfront wash 20, the look before the interval\n"),
    ("11", b"cue 11\nblackout\n"),
]


def identifier(location, name, block, marks=0):
    """A file identifier descriptor (ECMA-167 4/14.4), embedded in the entry of block `location`."""
    text = b"\x08" + name.encode("latin-1") if name else b""
    whole = tag(FILE_IDENTIFIER, location) + struct.pack("<HBB16sH", 1, marks, len(text), long_ad(SECTOR, block), 0) + text
    return sealed(whole + bytes(-len(whole) % 4))


def volume(descriptor):
    """A descriptor of the volume or of its file set: of the sector it has 512 bytes."""
    return sealed(descriptor, 512 - 16)


def show(deep=False):
    """The image. A deep one has in SHOW a further entry that is SHOW itself, so that a tree goes down as far as it may."""
    image = udf.Image("show", START + 16)
    root, directory, first = BLOCK + 1, BLOCK + 2, BLOCK + 3
    image.lay(udf.ANCHOR, volume(udf.anchor()))
    image.lay(MAIN, volume(udf.primary(MAIN, b"\x08SHOW 1")))
    image.lay(MAIN + 1, volume(udf.partition(MAIN + 1, PARTITION)))
    image.lay(MAIN + 2, volume(udf.logical(MAIN + 2, PARTITION)))
    image.lay(MAIN + 3, volume(udf.TERMINATOR(MAIN + 3)))
    image.lay(START + BLOCK, volume(udf.file_set(BLOCK, root=long_ad(SECTOR, root))))
    entries = identifier(root, "", root, DIRECTORY | PARENT) + identifier(root, "SHOW", directory, DIRECTORY)
    image.lay(START + root, sealed(entry(EMBEDDED, entries, len(entries), location=root)))
    entries = identifier(directory, "", root, DIRECTORY | PARENT)
    for i, (name, look) in enumerate(CUES):
        block = first + 2 * i
        entries += identifier(directory, name, block)
        image.lay(START + block, sealed(entry(SHORT, short_ad(len(look), block + 1), len(look), location=block)))
        image.lay(START + block + 1, look)
    if deep:
        entries += identifier(directory, "AGAIN", directory, DIRECTORY)
    image.lay(START + directory, sealed(entry(EMBEDDED, entries, len(entries), location=directory)))
    return image.bytes


if __name__ == "__main__":
    here = os.path.dirname(os.path.abspath(__file__))
    with open(os.path.join(here, "..", "crates", "first_cue", "stdin"), "wb") as out:
        out.write(udf.packed(show()))
