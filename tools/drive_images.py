"""The discs of tools/file_images.py and tools/volume_images.py, and some more for a reader that is lent a sector at a time, with what is asked of each:
crates/drive_cases/data/images.

The file is a row of records, with little-endian numbers:

    u16 length of the name, the name, u32 length of the packed image, the packed image, u16 number of queries, the queries

tools/udf.py says what a packed image is. An image without queries is opened. A query has 50 bytes:

    u32 the partition's start, u16 its number, u32 whether bodies are checked, u32 the number of maps, u32 the starts of four of them,
    16 bytes the ICB (a long_ad), u32 room of the output
"""

import struct

import file_images
import udf
import volume_images
from asked import WAYS
from file_images import OTHER, ROOM, START, marks
from udf import ALLOCATED, DESCRIPTOR, EMBEDDED, EXT, LONG, NEXT, PARTITION, SECTOR, SHORT, aed, entry, ext_ad, long_ad, sealed, short_ad


def query(start, partition, icb, room, checked=0, maps=0, starts=(0, 0, 0, 0)):
    return struct.pack("<IHII4I16sI", start, partition, checked, maps, *starts, icb, room)


def record(name, image, queries):
    """The queries once each, in their order."""
    once = list(dict.fromkeys(queries))
    return udf.record(name, image) + struct.pack("<H", len(once)) + b"".join(once)


class Image(file_images.Image):
    def ask(self, block, room=ROOM, partition=PARTITION, icb=None, **how):
        self.queries.append(query(START, partition, icb or long_ad(SECTOR, block), room, **how))

    def record(self):
        return record(self.name, self.bytes, self.queries)


# ---- descriptors across two sectors

EMPTY = ext_ad(1, 7, recorded=0, information=0)  # An extent of no bytes: it needs a slot, and no sector.


def before(size, sector):
    """How many descriptors stand before the one that begins in a sector of a continuation, counted from 1, and doesn't end there."""
    return (sector * SECTOR - 24) // size


def each_offset():
    """An ext_ad across each of five ends of sectors, of which it has 4, 12, 0, 8 and 16 bytes in front: there are no others, since areas begin at 24."""
    i = Image("ext_ads across five ends of sectors", 60)
    area = [EMPTY] * 512
    for sector in range(1, 6):
        area[before(20, sector)] = ext_ad(10 + sector, 20 + sector)
        i.marked(20 + sector)
    i.put(30, aed(b"".join(area)))
    i.file(0, entry(EXT, ext_ad(6 * SECTOR, 30, NEXT), 1000))
    i.file(1, entry(EXT, ext_ad(5, 21) + ext_ad(6 * SECTOR, 30, NEXT), 40))
    yield i


def other_descriptors():
    """What else may stand across the end of a sector: a continuation, the area's end, and what is refused."""
    for kind, name, filler in [(LONG, "long", long_ad(1, 7)), (EXT, "ext", EMPTY)]:
        ad = DESCRIPTOR[kind]
        across = {
            "continuation": ad(24 + 20, 60, NEXT),
            "end": ad(0, 2**32 - 1),
            "unrecorded extent": ad(9, 8, ALLOCATED),
            "extent of another partition": ad(9, 8, partition=OTHER),
        }
        if kind == EXT:
            across["compressed extent"] = ext_ad(9, 8, information=8)
        for what, one in across.items():
            for sector in (1, 2) if (kind, what) in [(EXT, "continuation"), (EXT, "end")] else (1,):
                i = Image("%s, across the end of sector %d of %s_ads" % (what, sector, name), 80)
                i.marked(7, 8)
                i.put(30, aed(filler * before(len(filler), sector) + one + ad(5, 8)))
                i.put(60, aed(ad(6, 8)))
                i.file(0, entry(kind, ad((sector + 1) * SECTOR, 30, NEXT), 1000))
                yield i


def cut_descriptors():
    """An area that ends within a descriptor that stands across two sectors, or right before it or behind it."""
    i = Image("an area that ends within an ext_ad across two sectors", 60)
    i.marked(8)
    n = before(20, 1)
    for k, more in enumerate([0, 1, 3, 4, 5, 19, 20]):
        i.put(10 + 3 * k, aed(EMPTY * n + ext_ad(9, 8), area_length=20 * n + more))
        i.file(k, entry(EXT, ext_ad(2 * SECTOR, 10 + 3 * k, NEXT), 1000))
    yield i


# ---- bodies that are checked as they arrive

WHOLE = 3 * SECTOR  # The length of a continuation here.


def body(area=short_ad(9, 7) + short_ad(8, 8), length=WHOLE - 16, flipped=None, said=None, **how):
    """A continuation of three sectors with the CRC of so many bytes of its body, of which one is another then; or with another CRC length."""
    whole = bytearray(aed(area, **how).ljust(WHOLE, b"\0"))
    for at in (2000, 2047, 2048, 2049, 4095, 4096, 6143):
        whole[at] = at % 251 + 1
    whole = bytearray(sealed(bytes(whole), length))
    if said is not None:
        struct.pack_into("<H", whole, 10, said)
        whole[4] = (sum(whole[:16]) - whole[4]) % 256
    if flipped is not None:
        whole[16 + flipped] ^= 1
    return bytes(whole)


def checked_bodies():
    """CRC lengths around the ends of sectors, a byte that is wrong in each sector, and the order of what is refused."""
    long = 2**32 - 24
    bodies = [body(length=n) for n in (0, 100, 2031, 2032, 2033, 4079, 4080, 4081, 6127, 6128)]
    bodies += [body(flipped=at) for at in (4, 50, 2031, 2032, 4080, 6127)]
    bodies += [body(length=2032, flipped=2032), body(length=2033, flipped=2032), body(said=6129), body(said=65535)]
    bodies += [body(identifier=257), body(identifier=257, flipped=60), body(area_length=long), body(area_length=long, flipped=60)]
    bodies += [body(area_length=WHOLE - 23), body(area_length=WHOLE - 24)]
    i = Image("bodies of continuations", 160)
    i.marked(7, 8)
    for k, one in enumerate(bodies):
        i.put(50 + 3 * k, one)
        i.put(10 + k, sealed(entry(SHORT, short_ad(3, 7) + short_ad(WHOLE, 50 + 3 * k, NEXT), 100)))
        i.ask(10 + k, checked=1)
        i.ask(10 + k)
    yield i
    i = Image("a body with a bad tag, and bodies of entries", 60)
    i.marked(7, 8)
    bad = bytearray(body(flipped=60))
    bad[4] ^= 1
    i.put(30, bytes(bad))
    good = sealed(entry(SHORT, short_ad(3, 7) + short_ad(WHOLE, 30, NEXT), 100))
    wrong = bytearray(sealed(entry(SHORT, short_ad(3, 7), 3)))
    wrong[40] ^= 1
    for block, one in enumerate([good, bytes(wrong), sealed(entry(EMBEDDED, b"in the entry", 12))]):
        i.put(block, one)
        i.ask(block, checked=2**31)
        i.ask(block)
    yield i


# ---- through maps


def mapped():
    """Entries, continuations and extents by way of maps: a short_ad goes by its ICB's reference."""
    i = Image("through maps", 90)
    starts = (START, START + 40, 2**32 - 1, START)
    for at in (7, 8, 47, 48):
        i.put(at, marks(at))
    areas = [
        (SHORT, short_ad(5, 7) + short_ad(6, 8)),
        (SHORT, short_ad(5, 7) + short_ad(SECTOR, 20, NEXT)),
        (LONG, long_ad(5, 7, partition=0) + long_ad(6, 8, partition=1)),
        (LONG, long_ad(5, 7, partition=0) + long_ad(SECTOR, 21, NEXT, partition=1)),
        (LONG, long_ad(5, 7, partition=0) + long_ad(6, 8, partition=4)),
        (EXT, ext_ad(5, 7, partition=1) + ext_ad(6, 8, partition=2)),
        (EXT, ext_ad(5, 7, partition=3) + ext_ad(SECTOR, 21, NEXT, partition=9)),
    ]
    i.put(20, aed(short_ad(7, 8)))
    i.put(60, aed(short_ad(8, 8)))
    i.put(61, aed(long_ad(7, 8, partition=1)))
    for k, (kind, area) in enumerate(areas):
        i.put(k, entry(kind, area, 100))
        i.put(40 + k, entry(kind, area, 100)) if 40 + k < 47 else None
        for maps, reference in [(2, 0), (2, 1), (2, 2), (4, 3), (7, 2), (7, 4)]:
            i.ask(k, icb=long_ad(SECTOR, k, partition=reference), maps=maps, starts=starts)
    yield i


def copied(image, queries=()):
    """An image of another writer, asked by a reader that is lent sectors."""
    one = Image(image.name, data=image.bytes)
    one.queries += queries
    return one


def of_files():
    for case in file_images.CASES:
        for image in case():
            volumes = [image.hands[q.volume - WAYS] for q in image.queries]
            yield copied(image, [query(v.start, v.partition, q.icb, q.room) for v, q in zip(volumes, image.queries)])


def of_volumes():
    for image in volume_images.images():
        yield copied(image)


CASES = [of_files, of_volumes, each_offset, other_descriptors, cut_descriptors, checked_bodies, mapped]
