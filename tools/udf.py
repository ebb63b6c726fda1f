"""What the scripts that write images share: the descriptors of ECMA-167, the layout of a volume, and images kept sparse.

A packed image (crate `sparse`) is u32 image length, u32 number of runs, and then each run: u32 offset, u32 length, that many bytes. Every
other byte of the image is 0. All numbers are little-endian.

Where a script says nothing else, the main volume descriptor sequence of a volume has 16 sectors from 32 on, the anchor is in 256, the
partition starts at 288, and the file set descriptor is its block 2.
"""

import functools
import re
import struct

SECTOR = 2048
MAIN, ANCHOR, START, BLOCK = 32, 256, 288, 2
PARTITION = 5  # The number of the partition that a long_ad or an ext_ad names.
RECORDED, ALLOCATED, UNALLOCATED, NEXT = 0, 1, 2, 3  # Types of an extent (ECMA-167 4/14.14.1.1).
SHORT, LONG, EXT, EMBEDDED = 0, 1, 2, 3  # Kinds of an area (ECMA-167 4/14.6.8).
FILE_IDENTIFIER, ALLOCATION_EXTENT, FILE_ENTRY, EXTENDED_FILE_ENTRY = 257, 258, 261, 266


def filled(size, *parts):
    """`size` bytes with each (offset, bytes) in its place."""
    b = bytearray(size)
    for at, text in parts:
        b[at : at + len(text)] = text
    return bytes(b)


# ---- tags and allocation descriptors


def tag(identifier, location=0, reserved=0, wrong=0):
    """A descriptor tag (ECMA-167 3/7.2, 4/7.2); `wrong` is added to its checksum."""
    t = bytearray(struct.pack("<HHBBHHHI", identifier, 3, 0, reserved, 1, 0, 0, location))
    t[4] = (sum(t) + wrong) % 256
    return bytes(t)


@functools.cache
def crc(body):
    """The CRC of a descriptor's body (ECMA-167 3/7.2.6), a bit at a time."""
    register = 0
    for byte in body:
        register ^= byte << 8
        for _ in range(8):
            register = register << 1 ^ 0x11021 * (register >> 15)
    return register


def sealed(whole, length=None):
    """A descriptor with the CRC and the CRC length of its body, which is all of it behind the tag unless a length is given; and the checksum."""
    t, body = bytearray(whole[:16]), whole[16:][:length]
    struct.pack_into("<HH", t, 8, crc(body), len(body))
    t[4] = 0
    t[4] = sum(t) % 256
    return bytes(t) + whole[16:]


def raw(length, kind):
    return length | kind << 30


def short_ad(length, block, kind=RECORDED):
    """ECMA-167 4/14.14.1."""
    return struct.pack("<II", raw(length, kind), block)


def long_ad(length, block, kind=RECORDED, partition=PARTITION, use=bytes([1, 2, 3, 4, 5, 6])):
    """ECMA-167 4/14.14.2; the implementation use is 1 2 3 4 5 6 unless given, so that a reader of the wrong width is caught."""
    return struct.pack("<IIH6s", raw(length, kind), block, partition, use)


def ext_ad(length, block, kind=RECORDED, partition=PARTITION, recorded=None, information=None):
    """ECMA-167 4/14.14.3; the recorded and the information length are the stored length unless given."""
    recorded = length if recorded is None else recorded
    information = length if information is None else information
    return struct.pack("<IIIIH2s", raw(length, kind), recorded, information, block, partition, bytes([1, 2]))


DESCRIPTOR = [short_ad, long_ad, ext_ad]  # By the kind of the area.


# ---- descriptors of a volume; a ruined one has a wrong checksum, and `sequence` is the volume descriptor sequence number


def field(text, size):
    """A d-string in a field of `size` bytes, whose last byte is its length (1/7.2.12)."""
    return filled(size, (0, text), (size - 1, bytes([len(text)])))


def anchor(sector=ANCHOR, identifier=2, location=MAIN, length=16 * SECTOR, ruined=False):
    return filled(SECTOR, (0, tag(identifier, sector, wrong=ruined)), (16, struct.pack("<IIII", length, location, length, 64)))


def primary(sector, label=b"\x08VOLUME", ruined=False, raw=None, sequence=1):
    return filled(SECTOR, (0, tag(1, sector, wrong=ruined)), (16, struct.pack("<II", sequence, 0)), (24, raw or field(label, 32)))


def partition(sector, number=0, start=START, ruined=False, sequence=2):
    return filled(SECTOR, (0, tag(5, sector, wrong=ruined)), (16, struct.pack("<IHH", sequence, 1, number)), (188, struct.pack("<II", start, 32)))


def logical(sector, number=0, block=BLOCK, size=SECTOR, label=b"\x08LOGICAL", ruined=False, sequence=3):
    return filled(
        SECTOR,
        (0, tag(6, sector, wrong=ruined)),
        (16, struct.pack("<I", sequence)),
        (84, field(label, 128)),
        (212, struct.pack("<I", size)),
        (248, long_ad(SECTOR, block, partition=number, use=b"")),
    )


def file_set(sector, identifier=256, ruined=False, root=None):
    return filled(SECTOR, (0, tag(identifier, sector, wrong=ruined)), (400, root or long_ad(SECTOR, 5, partition=0)))


def other(identifier):
    """A descriptor that is skipped, or that ends the sequence, by its id alone."""
    return lambda sector, ruined=False: filled(SECTOR, (0, tag(identifier, sector, wrong=ruined)), (16, b"\x04"))


TERMINATOR = other(8)


# ---- descriptors of files


def entry(
    kind,
    area,
    information,
    identifier=FILE_ENTRY,
    attributes=b"",
    flags=None,
    attribute_length=None,
    area_length=None,
    reserved=0,
    wrong=0,
    location=0,
):
    """A file entry (ECMA-167 4/14.9) or an extended one (4/14.17). The lengths are those of what is given, unless they are given too."""
    extended = identifier == EXTENDED_FILE_ENTRY
    size = 216 if extended else 176
    e = bytearray(size)
    e[0:16] = tag(identifier, location, reserved, wrong)
    struct.pack_into("<IHHHBB6sH", e, 16, 0, 4, 0, 1, 0, 5, bytes(6), kind if flags is None else flags)
    struct.pack_into("<Q", e, 56, information)
    attribute_length = len(attributes) if attribute_length is None else attribute_length
    area_length = len(area) if area_length is None else area_length
    struct.pack_into("<II", e, size - 8, attribute_length, area_length)
    return bytes(e) + attributes + area


def aed(area, area_length=None, identifier=ALLOCATION_EXTENT, reserved=0, wrong=0):
    """An Allocation Extent Descriptor (ECMA-167 4/14.5) and the area behind it."""
    area_length = len(area) if area_length is None else area_length
    return tag(identifier, reserved=reserved, wrong=wrong) + struct.pack("<II", 0, area_length) + area


# ---- images


def packed(image, base=b""):
    """The runs of an image: where its bytes are others than those of a base, or without one aren't 0. What lies between two runs is kept where it costs no
    more than a run's head."""
    others = image
    if base:
        assert len(image) == len(base)
        others = (int.from_bytes(image, "little") ^ int.from_bytes(base, "little")).to_bytes(len(image), "little")
    runs = [(m.start(), image[m.start() : m.end()]) for m in re.finditer(rb"[^\0]+(?:\0{1,8}[^\0]+)*", others)]
    body = b"".join(struct.pack("<II", at, len(run)) + run for at, run in runs)
    return struct.pack("<II", len(image), len(runs)) + body


def record(name, image):
    """The front of a record of a file of images: u16 length of the name, the name, u32 length of the packed image, the packed image."""
    name, one = name.encode("ascii"), packed(image)
    return struct.pack("<H", len(name)) + name + struct.pack("<I", len(one)) + one


class Image:
    """An image under the name of its case, with sectors put into it."""

    def __init__(self, name, sectors, more=0):
        self.name = name
        self.bytes = bytearray(sectors * SECTOR + more)

    def lay(self, sector, what):
        """Puts bytes at a sector where nothing stands yet; what has no room in the image is left out."""
        at = sector * SECTOR
        what = what[: max(len(self.bytes) - at, 0)]
        assert not any(self.bytes[at : at + len(what)]), self.name
        self.bytes[at : at + len(what)] = what
