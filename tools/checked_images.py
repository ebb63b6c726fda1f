"""A good disc, what is asked of it, and the ways in which one of its descriptors is ruined: each is an image over the good disc."""

import struct

from discs import CHECKED, DELETED, DIRECTORY, Asked, identifier, parent
from udf import ANCHOR, BLOCK, EMBEDDED, EXTENDED_FILE_ENTRY, LONG, MAIN, NEXT, PARTITION, SECTOR, SHORT, START, TERMINATOR
from udf import aed, anchor, crc, entry, file_set, logical, long_ad, other, partition, primary, sealed, short_ad

# Blocks of the partition: entries, the bytes of directories and files, and continuations.
ROOT, ROOT_BYTES, SHOW, SHOW_BYTES, DEEP, SMALL, CUE, CHAIN, CUE_BYTES = 5, 6, 8, 9, 10, 12, 13, 14, 20
FIRST, LONGER, SECOND, LONGER_BYTES, LAST = 21, 22, 25, 24, 26
SECTORS = START + 32


def tagged(data, number, length, identifier=None, wrong=0):
    """A descriptor with this CRC and CRC length in its tag, and the checksum of that."""
    t = bytearray(data[:16])
    struct.pack_into("<HH", t, 8, number, length)
    if identifier is not None:
        struct.pack_into("<H", t, 0, identifier)
    t[4] = 0
    t[4] = (sum(t) + wrong) % 256
    return bytes(t) + data[16:]


def embedded(data, **how):
    return entry(EMBEDDED, data, len(data), **how)


# ---- the good disc: a descriptor of each kind, at each depth


class Good(Asked):
    def __init__(self):
        super().__init__("the good disc", SECTORS)
        self.descriptors = {}

    def put(self, name, sector, data, hand=SECTOR, within=0):
        """A descriptor under its name, with so many bytes at hand from it on."""
        at = sector * SECTOR + within
        self.bytes[at : at + len(data)] = data
        self.descriptors[name] = (at, hand)

    def directory(self, sector, within, entries):
        """The identifiers of a directory, of which the bytes at hand end with its last one."""
        rest = sum(len(data) for _, data in entries)
        for name, data in entries:
            self.put(name, sector, data, rest, within)
            within, rest = within + len(data), rest - len(data)


def icb(block):
    return long_ad(SECTOR, block)


def named(name, block, marks=0):
    return sealed(identifier(name, icb(block), marks))


def volume(disc):
    disc.put("anchor", ANCHOR, sealed(anchor(), 496))
    disc.put("primary", MAIN, sealed(primary(MAIN), 496))
    # Neither of these is parsed, nor is the terminating descriptor: their bodies aren't looked at.
    disc.put("skipped", MAIN + 1, tagged(other(4)(MAIN + 1), 0xBEEF, 100))
    disc.put("partition", MAIN + 2, sealed(partition(MAIN + 2, number=PARTITION), 496))
    disc.put("unlisted", MAIN + 3, tagged(other(77)(MAIN + 3), 0xBEEF, 100))
    disc.put("logical", MAIN + 4, sealed(logical(MAIN + 4, number=PARTITION)))
    disc.put("terminating", MAIN + 5, tagged(TERMINATOR(MAIN + 5), 0xBEEF, 65535))
    disc.put("file set", START + BLOCK, sealed(file_set(START + BLOCK, root=icb(ROOT))))


def directories(disc, also):
    root = [
        ("root's parent", sealed(parent())),
        ("root's deleted", named("old", SMALL, DELETED)),
        ("root's show", named("show", SHOW, DIRECTORY)),
        ("root's small", named("small", SMALL)),
        ("root's last", named("last", CUE)),
        *also,
    ]
    n = sum(len(data) for _, data in root)
    disc.put("root", START + ROOT, sealed(entry(SHORT, short_ad(n, ROOT_BYTES), n)))
    disc.directory(START + ROOT_BYTES, 0, root)
    show = [("show's parent", sealed(parent())), ("show's chain", named("chain", CHAIN)), ("show's deep", named("deep", DEEP, DIRECTORY))]
    n = sum(len(data) for _, data in show)
    disc.put("show", START + SHOW, sealed(entry(LONG, long_ad(n, SHOW_BYTES), n, EXTENDED_FILE_ENTRY, attributes=b"attr")))
    disc.directory(START + SHOW_BYTES, 0, show)
    # A directory that stands in its own entry, whose CRC is of what stands before it.
    deep = [("deep's parent", sealed(parent())), ("deep's cue", named("cue", CUE))]
    data = embedded(b"".join(data for _, data in deep))
    disc.put("deep", START + DEEP, sealed(data, 160))
    disc.directory(START + DEEP, 176, deep)


def files(disc):
    disc.put("small", START + SMALL, sealed(embedded(b"a small file")))
    disc.put("cue", START + CUE, sealed(entry(SHORT, short_ad(700, CUE_BYTES), 700)))
    area = long_ad(100, FIRST) + long_ad(2100, LONGER, NEXT)
    disc.put("chain", START + CHAIN, sealed(entry(LONG, area, 200)))
    # The first continuation has 2,100 bytes in two sectors, all of which are at hand.
    area = long_ad(50, LONGER_BYTES) + long_ad(200, SECOND, NEXT)
    disc.put("first continuation", START + LONGER, sealed(aed(area)), 2 * SECTOR)
    disc.put("second continuation", START + SECOND, sealed(aed(long_ad(50, LAST))))
    for block, size, byte in ((CUE_BYTES, 700, b"c"), (FIRST, 100, b"1"), (LONGER_BYTES, 50, b"2"), (LAST, 50, b"3")):
        disc.bytes[(START + block) * SECTOR : (START + block) * SECTOR + size] = byte * size


# ---- what is ruined: each gives the bytes at hand anew


def flipped(data, at):
    return data[:at] + bytes([data[at] ^ 0x10]) + data[at + 1 :]


def of_tag(data):
    """Its CRC and its CRC length."""
    return struct.unpack_from("<HH", data, 8)


def ruins(name, hand):
    # The main extent of an anchor is at 16; of all others what stands there has no meaning for a reader.
    body = flipped(hand, 24 if name == "anchor" else 16)
    number, length = of_tag(hand)
    whole = len(hand) - 16
    yield "body", body
    yield "last byte of the body", flipped(hand, 15 + length)
    yield "crc", tagged(hand, number ^ 0x0100, length)
    yield "length one less", tagged(hand, number, length - 1)
    yield "length to the end", tagged(hand, crc(hand[16:]), whole)
    yield "length past the end", tagged(hand, crc(hand[16:]), whole + 1)
    yield "length 0, crc 0", tagged(body, 0, 0)
    yield "length 0, crc 1", tagged(hand, 1, 0)
    yield "body and checksum", tagged(body, number, length, wrong=1)
    yield "body and reserved byte", body[:5] + b"\1" + body[6:]
    # By their ids these are taken for something else, or skipped.
    if name not in ("primary", "partition", "logical"):
        yield "body and id", tagged(body, number, length, identifier=259)
        yield "id", tagged(hand, number, length, identifier=259)


def cases(disc):
    """A name, and the bytes that are put over the good disc at a place."""
    yield "nothing", 0, b""
    for name, (at, hand) in disc.descriptors.items():
        good = bytes(disc.bytes[at : at + hand])
        if name in ("skipped", "unlisted", "terminating"):
            continue
        for what, ruined in ruins(name, good):
            yield f"{name}: {what}", at, ruined
    at, hand = disc.descriptors["first continuation"]
    good = bytes(disc.bytes[at : at + hand])
    yield "first continuation: length past its own, within its sectors", at, tagged(good, crc(good[16:2117]), 2101)
    yield "first continuation: the second of its sectors, length to the end", at, flipped(tagged(good, crc(good[16:]), hand - 16), 3000)


# ---- what is asked

BY_PATH, BY_ICB = ("lookup", "failed", "read_path"), ("list", "read", "extents", "part_at")
UNCHECKED, BY_ROOT, BY_SHOW, BY_DEEP, BY_SMALL, BY_CUE, BY_CHAIN = ALL = range(7)
# Of each query what the volume has as `checked`, the ICB's block, the path, the room and the work space.
QUERIES = {
    UNCHECKED: (0, CHAIN, "show/chain", 1024, 1024),
    BY_ROOT: (1, ROOT, "show/chain", 1024, 1024),
    BY_SHOW: (1, SHOW, "show/deep/cue", 1024, 1024),
    BY_DEEP: (2**31, DEEP, "SMALL", 1024, 1024),
    BY_SMALL: (256, SMALL, "nothing", 1024, 1024),
    BY_CUE: (1, CUE, "small/x", 1024, 1024),
    BY_CHAIN: (1, CHAIN, "last", 99, 300),
}


def reaching(name):
    """The queries that come to a descriptor, or by it; a volume's is met on opening alone."""
    if name.startswith("root"):
        return (UNCHECKED, BY_ROOT, BY_SMALL)
    if name.startswith("show"):
        return (UNCHECKED, BY_SHOW)
    if name.startswith("deep"):
        return (BY_SHOW, BY_DEEP)
    if name in ("chain", "first continuation", "second continuation"):
        return (UNCHECKED, BY_ROOT, BY_CHAIN)
    return {"small": (BY_DEEP, BY_SMALL), "cue": (BY_SHOW, BY_CUE), "nothing": ALL}.get(name, ())


def ask(image, number):
    checked, block, path, room, work = QUERIES[number]
    volume = image.by_hand(start=START, partition=PARTITION, checked=checked, root=icb(ROOT))
    place = long_ad(SECTOR, block, partition=0, use=b"")
    image.query(*BY_PATH, *BY_ICB, volume=volume, icb=place, text=path, room=room, work=work, slots=8)


def good_disc(also=()):
    """The disc, whose root may have more entries."""
    disc = Good()
    volume(disc)
    directories(disc, also)
    files(disc)
    return disc


def ruined(disc, name, at, data):
    """The disc with other bytes at a place."""
    image = Asked(name, base=disc)
    image.bytes[at : at + len(data)] = data
    return image


def all_ruined():
    disc = good_disc()
    disc.query("open")
    yield disc
    for name, at, data in cases(disc):
        image = ruined(disc, name, at, data)
        for how in (0, CHECKED):
            image.query("open", "label", volume=how, room=32)
        for number in reaching(name.partition(":")[0]):
            ask(image, number)
        yield image


CASES = [all_ruined]
