#!/usr/bin/env python3
"""Runs the extent list as a row of records, which no program of the gate can lend: `Volume::extents` and `file_rows`.

    tools/rows.py

The C program tools/rows/rows.c asks for the extents by every ICB of crates/asker/data, on the volume that it is asked on there, and of the root of
every volume that is opened there: in both rows of records and in the row of numbers of target/staticlib/libvault_c.a, which must be the same. Each
must be what the rules say (tools/rules.py), to which the stored answers are held too. The two functions cross to C by way of crates/rows_c, whose
archive stands beside that of vault_c (`tools/archives proved`) and is handed on to nobody. Needs cc.
"""
import pathlib
import struct
import sys
import tempfile

sys.dont_write_bytecode = True
import asked
import rules
import udf
from asked import BIT, BY_HAND, FILES, WAYS
from kit import ROOT, Failed, linked, ran

HERE = ROOT / "tools/rows"
MOST, FEW = 256, 7  # Slots: what rows.c has, and where none are asked for.
BY_ICB = sum(BIT[call] for call in ("list", "read", "part", "extents", "measure", "runs", "part_at"))


def lists(image):
    """The volume, the ICB and the slots of each extent list, once each."""
    opened = [rules.asked(rules.Disc(image.bytes), lambda disc: rules.opened(disc, how))[1] or rules.NOTHING for how in range(WAYS)]
    found, volumes = {}, opened + image.by_hand
    for q in image.queries:
        volume = volumes[q.volume]
        if q.calls & BIT["open"]:
            found[volume, volume.root, FEW] = None
        if q.calls & BY_ICB:
            found[volume, q.icb, min(q.slots, MOST) if q.calls & BIT["extents"] else FEW] = None
    return list(found)


def recorded(image, queries):
    """What rows.c reads of an image."""
    packed = udf.packed(image.bytes)
    mounts = (BY_HAND.pack(*v[:4], *v.volumes, *v.numbers, *v.starts, icb) + struct.pack("<H", slots) for v, icb, slots in queries)
    return struct.pack("<I", len(packed)) + packed + struct.pack("<H", len(queries)) + b"".join(mounts)


def expected(image, volume, icb, slots):
    """The line by the rules."""
    disc = rules.Disc(image.bytes)
    answer, found = rules.asked(disc, lambda disc: rules.extents(disc, volume, icb, slots))
    numbers = [answer, disc.count, len(found or ()), *(n for extent in found or () for n in extent)]
    return " ".join(["same", *map(str, numbers), "kept"])


def built(folder):
    """rows.c over both archives."""
    linked(HERE / "rows.c", [ROOT / f"target/staticlib/lib{crate}.a" for crate in ("rows_c", "vault_c")], folder / "rows")
    return folder / "rows"


def held(program, name):
    """How many lists of a file's images are what the rules say, and how many images there are."""
    images = [(image, lists(image)) for image in asked.images_of(name)]
    lines = iter(ran(program, b"".join(recorded(*one) for one in images)).decode().splitlines())
    for image, queries in images:
        for query in queries:
            line, wanted = next(lines, "nothing"), expected(image, *query)
            if line != wanted:
                raise Failed(f"{name}, {image.name}: {line}, and the rules say: {wanted}")
    return sum(len(queries) for _, queries in images), len(images)


def main():
    try:
        with tempfile.TemporaryDirectory() as folder:
            program = built(pathlib.Path(folder))
            counts = [held(program, name) for name in FILES]
    except Failed as why:
        print(f"rows: {why}")
        return 1
    many, images = map(sum, zip(*counts))
    print(f"rows: {many} extent lists on {images} images, the same as records and as numbers, and what the rules say")
    return 0


if __name__ == "__main__":
    sys.exit(main())
