#!/usr/bin/env python3
"""Writes strandlodge/src/bin/vault/sample: the image that `vault sample` writes, packed (tools/udf.py). It has the cues of tools/show_image.py in the same
blocks, and around them all that other readers look for: the recognition sequence, both sequences of descriptors, the integrity sequence, and the last
anchor. Each is that of a vault (docs/LAYOUT.md), under another label and with a partition at 288 that holds a folder too.

    tools/sample_image.py            writes it
    tools/sample_image.py --check    fails where it isn't what this says

Needs Python's standard library alone, and writes the same bytes each time.
"""

import sys

sys.dont_write_bytecode = True
import udf
from kit import ROOT
from show_image import CUES
from udf import BLOCK, MAIN, SECTOR, START
from writer_model import CHARSPEC, DOMAIN, IMPLEMENTATION, STAMP
from writer_model import anchor, block_at, descriptor, entity, numbers, padded, terminating, text_field, unallocated, whole

FILE = ROOT / "strandlodge/src/bin/vault/sample"
SECTORS = 352  # A multiple of 32, as a vault has; the last one has an anchor, and the partition ends before it.
BLOCKS = SECTORS - 1 - START
RESERVE, INTEGRITY = 48, 64
ROOT_BLOCK, SHOW_BLOCK, FIRST = BLOCK + 1, BLOCK + 2, BLOCK + 3
LABEL = b"SHOW 1"
DIRECTORY, PARENT = 2, 8  # File characteristics (ECMA-167 4/14.4.3).
FOLDER, PLAIN = (4, 0x14A5), (5, 0x1084)  # File types, each with its permissions.
SHORT, EMBEDDED = 0, 3
UNIQUE = 16  # The first that isn't kept free (UDF 3.2.1).


# ---- the volume


def primary(at):
    names = (text_field(LABEL, 32), numbers("HHHHII", 1, 1, 2, 2, 1, 1), text_field(b"386D438000000000" + LABEL, 128), CHARSPEC, CHARSPEC)
    return descriptor(1, at, bytes(8), *names, bytes(48), STAMP, IMPLEMENTATION, bytes(92))


def information(at):
    names = (entity(b"*UDF LV Info", b"\x02\x01"), CHARSPEC, text_field(LABEL, 128))
    return descriptor(4, at, numbers("I", 1), *names, bytes(108), IMPLEMENTATION, bytes(128))


def partition(at):
    return descriptor(5, at, numbers("IHH", 2, 1, 0), entity(b"+NSR02"), bytes(128), numbers("III", 1, START, BLOCKS), IMPLEMENTATION, bytes(284))


def logical(at):
    names = (CHARSPEC, text_field(LABEL, 128), numbers("I", SECTOR), DOMAIN)
    maps = (numbers("II", 8192, INTEGRITY), bytes.fromhex("010601000000"))
    return descriptor(6, at, numbers("I", 3), *names, block_at(BLOCK), numbers("II", 6, 1), IMPLEMENTATION, bytes(128), *maps)


def integrity():
    counts = numbers("IIHHH", len(CUES), 2, 0x0102, 0x0102, 0x0102)
    unique = numbers("I8xQ24x", 1, UNIQUE + 1 + len(CUES))
    return descriptor(9, INTEGRITY, STAMP, unique, numbers("IIII", 1, 46, 0, BLOCKS), IMPLEMENTATION, counts)


def file_set():
    names = (CHARSPEC, text_field(LABEL, 128), CHARSPEC, text_field(LABEL, 32))
    return descriptor(256, BLOCK, STAMP, numbers("HHIIII", 3, 3, 1, 1, 0, 0), *names, bytes(64), block_at(ROOT_BLOCK), DOMAIN, bytes(64))


# ---- its files


def entry(block, kind, links, storage, area, length, unique):
    icb = numbers("IHHHxB6xH", 0, 4, 0, 1, kind[0], storage)
    owners = numbers("IIIHBBI", 0xFFFFFFFF, 0xFFFFFFFF, kind[1], links, 0, 0, 0)
    sizes = numbers("QQ", length, 0 if storage == EMBEDDED else whole(length, SECTOR))
    tail = numbers("QII", unique, 0, len(area)) + area
    return descriptor(261, block, icb, owners, sizes, STAMP * 3, numbers("I16x", 1), IMPLEMENTATION, tail)


def identifier(location, marks, block, name=""):
    recorded = b"\x08" + name.encode("ascii") if name else b""
    named = numbers("HBB", 1, marks, len(recorded)) + block_at(block) + numbers("H", 0) + recorded
    return descriptor(257, location, padded(named, whole(16 + len(named), 4) * 4 - 16))


def volume(image):
    for i, letters in enumerate((b"BEA01", b"NSR02", b"TEA01")):
        image.lay(16 + i, b"\0" + letters + b"\x01")
    for first in (MAIN, RESERVE):
        for i, one in enumerate((primary, information, partition, logical, unallocated, terminating)):
            image.lay(first + i, one(first + i))
    image.lay(INTEGRITY, integrity())
    image.lay(INTEGRITY + 1, terminating(INTEGRITY + 1))
    for at in (udf.ANCHOR, SECTORS - 1):
        image.lay(at, anchor(at))


def sample():
    image = udf.Image("sample", SECTORS)
    volume(image)
    image.lay(START + BLOCK, file_set())
    entries = identifier(ROOT_BLOCK, DIRECTORY | PARENT, ROOT_BLOCK) + identifier(ROOT_BLOCK, DIRECTORY, SHOW_BLOCK, "SHOW")
    image.lay(START + ROOT_BLOCK, entry(ROOT_BLOCK, FOLDER, 2, EMBEDDED, entries, len(entries), 0))
    entries = identifier(SHOW_BLOCK, DIRECTORY | PARENT, ROOT_BLOCK)
    for i, (name, look) in enumerate(CUES):
        block = FIRST + 2 * i
        entries += identifier(SHOW_BLOCK, 0, block, name)
        image.lay(START + block, entry(block, PLAIN, 1, SHORT, numbers("II", len(look), block + 1), len(look), UNIQUE + 1 + i))
        image.lay(START + block + 1, look)
    image.lay(START + SHOW_BLOCK, entry(SHOW_BLOCK, FOLDER, 1, EMBEDDED, entries, len(entries), UNIQUE))
    return image.bytes


def main(words):
    packed = udf.packed(bytes(sample()))
    if words != ["--check"]:
        FILE.write_bytes(packed)
    elif FILE.read_bytes() != packed:
        print(f"{FILE.relative_to(ROOT)} isn't what tools/sample_image.py says", file=sys.stderr)
        return 1
    return 0


if __name__ == "__main__":
    sys.exit(main(sys.argv[1:]))
