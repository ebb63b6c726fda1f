"""Discs with partition maps, what is asked of each, and cases, each a disc with other bytes put over it."""

import struct
from typing import NamedTuple

import udf
from discs import CHECKED, DELETED, DIRECTORY, EVERY_WAY, HIGHEST, MAPS, Asked, identifier, parent
from udf import ALLOCATED, ANCHOR, BLOCK, EMBEDDED, EXT, EXTENDED_FILE_ENTRY, LONG, MAIN, NEXT, RECORDED, SECTOR, SHORT
from udf import aed, anchor, entry, ext_ad, file_set, logical, long_ad, partition, primary, sealed, short_ad

LAST = 2**32 - 1
CALLS = ("lookup", "list", "read", "extents", "read_path", "part_at")
STRAY = 288  # A partition that no good map leads to, with a file set descriptor of its own.

# Where a thing stands: its block, and its partition by its place among four maps. With fewer maps the places are counted round.
PLACES = {
    "file set": (BLOCK, 1),
    "root": (5, 2),
    "show": (7, 3),
    "show's bytes": (8, 0),
    "deep": (9, 1),
    "small": (10, 0),
    "lines": (11, 1),
    "mixed": (12, 0),
    "chain": (13, 3),
    "wide": (14, 2),
    "both": (15, 0),
    "cue": (16, 3),
    "old root": (17, 0),
    "first": (18, 0),
    "second": (19, 2),
    "third": (20, 1),
    "links": (22, 1),
    "mixed 0": (24, 0),
    "mixed 1": (25, 1),
    "mixed 2": (26, 2),
    "mixed 3": (24, 3),
    "chain 0": (25, 1),
    "chain 1": (24, 2),
    "chain 2": (26, 3),
    "wide 0": (26, 3),
    "wide 1": (25, 0),
    "wide 2": (25, 2),
    "last link": (26, 0),
}
ROOT_BYTES, LINES_NEXT, DATA, LINKS = 6, 21, (24, 25, 26), 32


class Shape:
    """The partitions of a disc: of each map the partition's number and start, and the order of the partition descriptors."""

    def __init__(self, name, numbers, starts, order, links=False, sectors=None):
        self.name, self.numbers, self.starts, self.order, self.links = name, numbers, starts, order, links
        self.sectors = sectors or max(starts) + (64 if links else 28)


# Numbers are places too, but never their own, so that a number taken for a place leads elsewhere; the last descriptor is of the number that the
# file set's reference is, so that the old comparison holds.
FOUR = Shape("four", [1, 3, 0, 2], [344, 260, 372, 300], [3, 0, 2, 1])
TWO = Shape("two", [1, 0], [270, 340], [0, 1], links=True)
ONE = Shape("one", [0], [280], [0])


# ---- the volume descriptor sequence: each a function of its sector


def pvd(**how):
    return lambda sector: sealed(primary(sector, **how), 496)


def pd(shape, number, start=None, sequence=2):
    """That of a number, which starts where its map's partition does unless it is given."""
    at = shape.starts[shape.numbers.index(number)] if start is None else start
    return lambda sector: sealed(partition(sector, number, at, sequence=sequence), 496)


def one_map(number, volume, kind=1, size=6):
    return struct.pack("<BBHH", kind, size, volume, number)


def maps_of(shape):
    return [one_map(number, 11 + i) for i, number in enumerate(shape.numbers)]


def lvd(shape, maps=None, count=None, length=None, reference=None, size=SECTOR, sequence=3, block=BLOCK):
    """A logical volume descriptor: the count and the table's length are those of the maps, unless they are given."""
    maps = maps_of(shape) if maps is None else maps
    table = b"".join(maps)
    count = len(maps) if count is None else count
    length = len(table) if length is None else length
    reference = PLACES["file set"][1] % len(shape.numbers) if reference is None else reference

    def made(sector):
        whole = bytearray(logical(sector, reference, block, size, sequence=sequence))
        struct.pack_into("<II", whole, 264, length, count)
        whole[440 : 440 + len(table)] = table
        return sealed(bytes(whole), 496)

    return made


def spoilt(make, at=40):
    """With a bit of the body changed, and the CRC as it was."""

    def made(sector):
        whole = bytearray(make(sector))
        whole[at] ^= 1
        return bytes(whole)

    return made


def usual(shape, logical_volume=None):
    """The partition descriptors stand before and behind the logical volume's."""
    half = len(shape.order) // 2
    pds = [pd(shape, number) for number in shape.order]
    return [pvd(), *pds[:half], logical_volume or lvd(shape), *pds[half:], udf.TERMINATOR]


# ---- a disc


class Disc:
    """A disc of a shape. `moved` has things that stand in another partition, `named` what descriptors say other than where the thing stands, `bad`
    descriptors with a spoilt body, `also` more names in the root, each with the thing that it leads to."""

    def __init__(self, shape, sequence=None, moved=None, named=None, bad=(), information=None, also=()):
        self.shape, self.moved, self.named, self.bad, self.also = shape, moved or {}, named or {}, bad, also
        self.information = information or {}
        self.bytes = bytearray(shape.sectors * SECTOR)
        self.volume(sequence or usual(shape))
        self.directories()
        self.files()
        if shape.links:
            self.links()

    def place(self, name):
        block, at = PLACES[name]
        return block, self.moved.get(name, at) % len(self.shape.numbers)

    def put(self, name, data, more=0):
        block, at = self.place(name)
        self.lay(self.shape.starts[at] + block + more, data, "" if more else name)

    def lay(self, sector, data, name=""):
        at = sector * SECTOR
        assert not any(self.bytes[at : at + len(data)]) and at + len(data) <= len(self.bytes), (self.shape.name, name, sector)
        self.bytes[at : at + len(data)] = spoilt(lambda _: data, 18)(0) if name in self.bad else data

    def ad(self, name, length=SECTOR, kind=RECORDED, maker=long_ad):
        """The descriptor that names a thing."""
        block, at = self.place(name)
        said = {"length": length, "block": block, "kind": kind, "partition": at, **self.named.get(name, {})}
        return maker(said.pop("length"), said.pop("block"), **said)

    def volume(self, sequence):
        self.lay(ANCHOR, sealed(anchor(), 496))
        for i, make in enumerate(sequence):
            self.lay(MAIN + i, make(MAIN + i))
        # A file set descriptor in each partition: of all but the volume's own the root is the old one.
        own = self.place("file set")[1]
        starts = {start: i for i, start in reversed(list(enumerate(self.shape.starts)))}
        for start, i in starts.items():
            root = self.ad("root") if start == self.shape.starts[own] else self.ad("old root")
            self.lay(start + BLOCK, sealed(file_set(start + BLOCK, root=root), 400 + 16), "file set" if start == self.shape.starts[own] else "")
        if STRAY + BLOCK not in [start + n for start in starts for n in range(28)]:
            self.lay(STRAY + BLOCK, sealed(file_set(STRAY + BLOCK, root=self.ad("old root")), 416))

    def identifier(self, name, thing, marks=0):
        return sealed(identifier(name, self.ad(thing), marks))

    def directories(self):
        # The parent and the deleted entry name partitions beyond every map.
        gone = sealed(identifier("gone", long_ad(SECTOR, 5, partition=9), DELETED))
        names = ["small", "lines", "mixed", "chain", "wide"] + ["links"] * self.shape.links
        named = [(name, name) for name in names] + list(self.also)
        root = sealed(parent()) + gone + self.identifier("show", "show", DIRECTORY) + b"".join(self.identifier(*one) for one in named)
        self.put("root", sealed(entry(SHORT, short_ad(len(root), ROOT_BYTES), len(root))))
        self.put("root", root, ROOT_BYTES - PLACES["root"][0])
        show = sealed(parent()) + self.identifier("deep", "deep", DIRECTORY) + self.identifier("both", "both")
        self.put("show", sealed(entry(LONG, self.ad("show's bytes", len(show)), len(show), EXTENDED_FILE_ENTRY, attributes=b"attr")))
        self.put("show's bytes", show)
        deep = sealed(parent()) + self.identifier("cue", "cue")
        self.put("deep", sealed(entry(EMBEDDED, deep, len(deep))))
        # Where references aren't looked at.
        old = b"".join(sealed(identifier(name, long_ad(SECTOR, PLACES[name][0], partition=9))) for name in ("both", "small"))
        self.put("old root", sealed(entry(EMBEDDED, old, len(old))))

    def file(self, name, kind, area, information, **how):
        self.put(name, sealed(entry(kind, area, self.information.get(name, information), **how)))

    def files(self):
        # What stands in a block says in which partition.
        for start in sorted(set(self.shape.starts)):
            for block in DATA:
                self.lay(start + block, b"%d+%d " % (start, block) * 8)
        self.file("small", EMBEDDED, b"a small file", 12)
        area = short_ad(30, DATA[0]) + short_ad(SECTOR, LINES_NEXT, NEXT)
        self.file("lines", SHORT, area, 70)
        self.put("lines", sealed(aed(short_ad(20, DATA[1]) + short_ad(20, DATA[2]))), LINES_NEXT - PLACES["lines"][0])
        area = b"".join(self.ad(f"mixed {i}", size) for i, size in enumerate((40, 2100, 30, 20)))
        self.file("mixed", LONG, area, 2190, identifier=EXTENDED_FILE_ENTRY)
        self.file("chain", LONG, self.ad("chain 0", 50) + self.ad("first", SECTOR, NEXT), 100)
        self.put("first", sealed(aed(self.ad("chain 1", 30) + self.ad("second", 200, NEXT))))
        self.put("second", sealed(aed(self.ad("chain 2", 20))))
        area = self.ad("wide 0", 20, maker=ext_ad) + self.ad("wide 1", 25, maker=ext_ad) + self.ad("third", SECTOR, NEXT, ext_ad)
        self.file("wide", EXT, area, 60)
        self.put("third", sealed(aed(self.ad("wide 2", 15, maker=ext_ad))))
        self.file("both", LONG, long_ad(33, DATA[0], partition=1 % len(self.shape.numbers)), 33)
        self.file("cue", SHORT, short_ad(33, DATA[1]), 33)

    def links(self):
        """A file of 32 continuations, one in each partition by turns. `link N` and `over` in `named` change the Nth, and give a 33rd."""
        ads = []
        for i in range(32):
            said = {"length": 40, "partition": i % 2, **self.named.get(f"link {i}", {})}
            ads.append(long_ad(said["length"], LINKS + i, NEXT, partition=said["partition"]))
        over = self.named.get("over")
        ads.append(long_ad(over["length"], LINKS + 32, NEXT, partition=over["partition"]) if over else b"")
        self.file("links", LONG, ads[0], 9)
        for i in range(32):
            area = ads[i + 1] if i < 31 else ads[32] or self.ad("last link", 9)
            self.lay(self.shape.starts[i % 2] + LINKS + i, sealed(aed(area)))


# ---- what is asked


class Query(NamedTuple):
    """How the volume is opened, an ICB and a path; and a number for the volume's maps, where it is made by hand."""

    how: int
    icb: bytes
    path: bytes = b""
    maps: int | None = None
    room: int = 4096
    work: int = 1024


def icb_of(shape, name, length=SECTOR, reference=None):
    block, at = PLACES[name]
    return long_ad(length, block, partition=at % len(shape.numbers) if reference is None else reference)


# Each under its name: how the volume is opened, the ICB's thing, and a path.
READING = {
    "mixed": (MAPS, "mixed", b"mixed"),
    "chain": (MAPS, "chain", b"chain"),
    "chain, checked": (MAPS | CHECKED, "chain", b"Chain"),
    "lines": (MAPS | CHECKED, "lines", b"lines"),
    "wide": (MAPS | HIGHEST, "wide", b"wide"),
    "root": (MAPS, "root", b"small"),
    "root, checked": (MAPS | CHECKED | HIGHEST, "root", b"SMALL/x"),
    "show": (MAPS, "show", b"show/both"),
    "show, checked": (MAPS | CHECKED, "show", b"show/none"),
    "deep": (MAPS | CHECKED | HIGHEST, "deep", b"SHOW/deep/cue"),
}


def queries(shape):
    """Each under its name."""
    n = len(shape.numbers)
    asked = {name: Query(how, icb_of(shape, thing), path) for name, (how, thing, path) in READING.items()}
    if n == 1:
        # All of it can be read without maps too.
        asked.update({f"old {name}": Query(how - MAPS, icb_of(shape, thing), path) for name, (how, thing, path) in READING.items()})
    else:
        asked["old chain"] = Query(CHECKED, icb_of(shape, "chain", reference=9), b"small")
        asked["old mixed"] = Query(HIGHEST, icb_of(shape, "mixed"), b"mixed")
    asked |= {
        "old both": Query(0, icb_of(shape, "both"), b"both"),
        "empty at the maps": Query(MAPS, icb_of(shape, "small", 0, n)),
        "at the maps": Query(MAPS, icb_of(shape, "small", reference=n)),
        "far beyond the maps": Query(MAPS | CHECKED, icb_of(shape, "small", reference=65535)),
        "below the maps": Query(MAPS, icb_of(shape, "cue", reference=n - 1), b"show/deep/cue"),
        "old at the maps": Query(0, icb_of(shape, "small", reference=n)),
        "old and empty": Query(0, icb_of(shape, "small", 0, n)),
        "by hand 0": Query(MAPS, icb_of(shape, "both"), b"show/both", maps=0),
    }
    if n > 1:
        asked |= {
            "by hand 1": Query(MAPS, icb_of(shape, "mixed", reference=0), b"mixed", maps=1),
            "by hand 3": Query(MAPS, icb_of(shape, "mixed"), b"mixed", maps=3),
            "by hand 4": Query(MAPS, icb_of(shape, "cue", reference=3), b"chain", maps=4),
            "by hand 5": Query(MAPS, icb_of(shape, "cue", reference=4), b"chain", maps=5),
            "by hand, most": Query(MAPS, icb_of(shape, "cue", reference=65535), b"show/deep/cue", maps=LAST),
            "by hand over none": Query(0, icb_of(shape, "both"), b"both", maps=4),
            "little room": Query(MAPS, icb_of(shape, "mixed"), b"mixed", room=100),
            "little work": Query(MAPS, icb_of(shape, "show"), b"show/both", room=30, work=150),
        }
    if shape.links:
        asked["links"] = Query(MAPS, icb_of(shape, "links"), b"links")
    return asked


# ---- the cases

ALL = EVERY_WAY
SOME = (0, MAPS, MAPS | CHECKED, MAPS | HIGHEST)
BOTH = (0, MAPS)
MAPPED = (MAPS,)
READS = ("mixed", "chain", "lines", "wide", "root", "show", "deep", "old both")


def by_hand(shape, how):
    """The volume that the good disc opens to: through the maps, or as the last partition descriptor has it."""
    if not how & MAPS:
        last = shape.numbers.index(shape.order[-1])
        return {"start": shape.starts[last], "partition": shape.order[-1], "root": icb_of(shape, "old root")}
    own, none = PLACES["file set"][1] % len(shape.numbers), [0] * (4 - len(shape.numbers))
    rows = {"volumes": [11 + i for i in range(len(shape.numbers))], "numbers": shape.numbers, "starts": shape.starts}
    rows = {name: tuple([*row, *none]) for name, row in rows.items()}
    return {"start": shape.starts[own], "partition": shape.numbers[own], "root": icb_of(shape, "root"), **rows}


class Cases:
    """The good disc of a shape, and images over it."""

    def __init__(self, shape, number):
        self.shape, self.asked = shape, queries(shape)
        self.good = Asked(f"disc {number}", data=Disc(shape).bytes)
        self.good.query("open")
        self.images = [self.good]

    def add(self, name, opens=SOME, asks=(), image=None, **how):
        one = Asked(f"{self.shape.name}: {name}", data=(image or Disc(self.shape, **how)).bytes, base=self.good)
        for way in opens:
            one.query("open", "label", volume=way, room=32)
        if "old root" in self.asked:
            asks = set(asks) | {f"old {what}" for what in asks if what in READING}
        assert set(asks) <= set(self.asked), (name, asks)
        for what, q in self.asked.items():
            if what in asks:
                volume = q.how if q.maps is None else one.by_hand(maps=q.maps, **by_hand(self.shape, q.how))
                one.query(*CALLS, volume=volume, icb=q.icb, text=q.path, room=q.room, work=q.work, slots=8)
        self.images.append(one)

    def table(self, name, opens=SOME, asks=(), **how):
        """With another logical volume descriptor."""
        self.add(name, opens, asks, sequence=usual(self.shape, lvd(self.shape, **how)))


def replaced(maps, at, one):
    return maps[:at] + [one] + maps[at + 1 :]


def counts_and_lengths(c):
    """How many maps there are, and how long their table is."""
    maps = maps_of(c.shape)
    for count in (0, 1, 2, 3):
        c.table(f"{count} maps", count=count, opens=SOME, asks=("mixed", "chain", "below the maps") if count > 1 else ())
    fifth = one_map(2, 15)
    c.table("5 maps", maps=maps + [fifth], opens=ALL)
    c.table("5 maps, the table without the fifth", maps=maps + [fifth], length=29)
    c.table("260 maps", count=260)
    c.table("65540 maps", count=65540)
    c.table("2^24 + 4 maps", count=2**24 + 4)
    c.table("715827883 maps", count=715827883)
    c.table("2^32 - 1 maps", count=LAST, opens=ALL)
    c.table("2^32 - 1 maps, length 0", count=LAST, length=0)
    c.table("2^32 - 1 maps, length 2^32 - 1", count=LAST, length=LAST)
    for length in (0, 23, 25, 1608, 1609, 65536 + 24, 2**32 - 440, 2**32 - 416, LAST):
        c.table(f"table length {length}", length=length, opens=SOME if length in (23, 1608) else BOTH)
    for count, length in ((0, 0), (0, 1608), (0, 1609), (1, 5), (1, 6), (1, 1609), (2, 11), (2, 12)):
        c.table(f"{count} maps, table length {length}", count=count, length=length, reference=0)


def forms(c):
    """Maps that aren't begun 01 06, or whose number no partition descriptor has."""
    maps, last = maps_of(c.shape), len(c.shape.numbers) - 1
    odd = {
        "type 2": one_map(0, 1, kind=2, size=64),
        "type 2 of length 6": one_map(0, 1, kind=2),
        "type 0": one_map(0, 1, kind=0),
        "length 7": one_map(0, 1, size=7),
        "length 5": one_map(0, 1, size=5),
        "type 6 of length 1": one_map(0, 1, kind=6, size=1),
        "zeros": bytes(6),
        "number 9": one_map(9, 1),
        "number 65535": one_map(65535, 1),
        "number 256": one_map(256, 1),
    }
    for what, one in odd.items():
        for at in (0, last) if what in ("type 2", "length 7", "number 9") else (last,):
            c.table(f"map {at}: {what}", maps=replaced(maps, at, one))
    c.table("the last map: type 2, and not counted", maps=replaced(maps, last, odd["type 2"]), count=last, opens=SOME)
    c.table("the last map: number 9, and not counted", maps=replaced(maps, last, odd["number 9"]), count=last)
    c.table("a fifth map: type 2, and not counted", maps=maps + [odd["type 2"]], count=4)
    # Which comes first.
    c.table("map 0: type 2; the table a byte short", maps=replaced(maps, 0, odd["type 2"]), length=23)
    c.table("map 0: number 9; the table past the sector", maps=replaced(maps, 0, odd["number 9"]), length=1609)
    c.table("map 0: type 2; reference beyond", maps=replaced(maps, 0, odd["type 2"]), reference=4)
    c.table("the table a byte short; reference beyond", length=23, reference=4)
    c.table("5 maps; the table a byte short; map 0: type 2", maps=replaced(maps, 0, odd["type 2"]) + maps[:1], length=29)
    c.table("block size 512; the table a byte short", size=512, length=23, opens=SOME)
    c.table("block size 4096", size=4096)
    c.table("a map cut by the table, of type 2", maps=replaced(maps, last, odd["type 2"]), length=23)


def references(c):
    """Where the file set descriptor stands."""
    n = len(c.shape.numbers)
    for at in range(n):
        c.add(f"file set in {at}", SOME if at == n - 1 else BOTH, ("root", "old both"), moved={"file set": at}, sequence=usual(c.shape, lvd(c.shape, reference=at)))
    for at in sorted({n, 4, 5, 256 + n - 1, 65535}):
        c.table(f"file set reference {at}", reference=at, opens=SOME if at == n else BOTH)


def sequences(c):
    """Several descriptors of one kind, and none."""
    shape, made, end = c.shape, lambda number, **how: pd(c.shape, number, **how), [udf.TERMINATOR]
    p, volume, three, others = pvd(), lvd(shape), shape.numbers[1], [pd(shape, n) for n in (0, 2, 1)]

    def stray(sequence=2):
        return made(three, start=STRAY, sequence=sequence)

    for what, a, e in (("rising", 4, 5), ("falling", 5, 4), ("equal", 4, 4), ("to 2^32 - 1", 0, LAST), ("from 2^32 - 1", LAST, 0)):
        first, second = made(three, sequence=a), stray(e)
        rows = {
            "before": [p, first, second, volume, *others],
            "around": [p, first, volume, *others[:1], second, *others[1:]],
            "behind": [p, volume, *others, first, second],
        }
        for where, row in rows.items():
            if where == "around" or what in ("falling", "rising"):
                c.add(f"two of one number {where}, {what}", ALL if where == "around" else SOME, ("root",) if where == "around" else (), sequence=row + end)
    row = [p, made(three, sequence=9), made(0, sequence=4), volume, stray(4), made(0, start=STRAY, sequence=9), *others[1:]]
    c.add("two of each of two numbers", ALL, ("root", "old both"), sequence=row + end)
    row = [p, stray(7), made(three, sequence=9), stray(8), volume, made(0, sequence=10), *others[1:]]
    c.add("three of one number", ALL, ("root",), sequence=row + end)

    def unmapped(sector, sequence=2):
        return sealed(partition(sector, 77, STRAY, sequence=sequence), 496)

    row = [p, *others, made(three), volume, lambda sector: unmapped(sector, 99)]
    c.add("one of a number in no map, last and highest", ALL, ("root", "old both"), sequence=row + end)
    c.add("all before", BOTH, sequence=[p, made(three), *others, volume] + end)
    c.add("all behind", SOME, ("deep",), sequence=[p, volume, made(three), *others] + end)
    c.add("one behind the end", SOME, sequence=[p, volume, *others] + end + [made(three)])
    c.add("a later one behind the end", SOME, sequence=[p, volume, made(three), *others] + end + [stray(9)])
    c.add("none of one number", SOME, sequence=[p, made(three), *others[:1], volume, *others[2:]] + end)
    c.add("none", SOME, sequence=[p, volume] + end)
    c.add("none, and 5 maps", BOTH, sequence=[p, lvd(shape, count=5)] + end)
    c.add("one, of a number in no map", BOTH, sequence=[p, volume, unmapped] + end)
    c.add("no primary, and the table short", BOTH, sequence=[made(three), *others, lvd(shape, length=23)] + end)
    c.add("no logical volume", BOTH, sequence=[p, made(three), *others] + end)
    c.add("one with a ruined tag, of a number in no map", BOTH, sequence=[p, made(three), *others, lambda sector: partition(sector, 77, ruined=True), volume] + end)
    c.add("one with a spoilt body, of a number in no map", ALL, sequence=[p, spoilt(lambda sector: unmapped(sector, 1)), made(three), *others, volume] + end)
    c.add("one with a spoilt body, lower", ALL, sequence=[p, spoilt(stray(1), 189), made(three), *others, volume] + end)
    c.add("one at the last sector", BOTH, sequence=[p, made(three, start=LAST), *others, volume] + end)
    c.add("root's at the last sector", BOTH, ("root",), sequence=[p, made(three), made(0, start=LAST), *others[1:], volume] + end)


def volumes(c):
    """Two logical volume descriptors."""
    shape, p, end = c.shape, pvd(), [udf.TERMINATOR]
    pds = [pd(shape, number) for number in shape.order]
    maps, strange = maps_of(shape), [one_map(0, 1, kind=2)] * 4
    fewer = {"maps": maps[:2], "reference": 1}
    other = {"maps": [maps[3], maps[2], maps[1], maps[0]], "reference": 2}
    for what, a, e in (("rising", 4, 5), ("falling", 5, 4), ("equal", 4, 4)):
        row = [p, *pds[:2], lvd(shape, sequence=a), lvd(shape, sequence=e, **fewer), *pds[2:]]
        c.add(f"two volumes, the second with two maps, {what}", ALL if what == "falling" else SOME, ("root", "mixed"), sequence=row + end)
    row = [p, lvd(shape, sequence=5), lvd(shape, sequence=4, **other), *pds]
    c.add("two volumes, the second with its maps turned round, all behind it", ALL, ("root", "deep", "wide"), sequence=row + end)
    for what, first, second in (("first", strange, maps), ("second", maps, strange)):
        row = [p, *pds, lvd(shape, maps=first, sequence=5), lvd(shape, maps=second, sequence=4)]
        c.add(f"two volumes, the {what} with maps of type 2", SOME, sequence=row + end)
    row = [p, *pds, lvd(shape, length=23, sequence=5), lvd(shape, sequence=4)]
    c.add("two volumes, the table of the first a byte short", SOME, sequence=row + end)
    row = [p, *pds, lvd(shape, sequence=5), lvd(shape, size=512, sequence=4)]
    c.add("two volumes, the block size of the second 512", SOME, sequence=row + end)
    # The body of a map table.
    for what, at in (("number", 440 + 6 + 4), ("type", 440), ("volume", 442), ("count", 268), ("length", 264 + 1)):
        c.add(f"a map table with a spoilt {what}", SOME, sequence=usual(shape, spoilt(lvd(shape), at)))


def same_partition(c):
    """Two maps of one partition, and of one number alone."""
    shape = c.shape
    twin = Shape(shape.name, [1, 3, 0, 3], [344, 260, 372, 260], [3, 0, 1], sectors=shape.sectors)
    c.add("two maps of one partition", SOME, READS, image=Disc(twin))
    c.add("four maps of one partition", BOTH, ("root", "old both"), sequence=usual(shape, lvd(shape, maps=[one_map(1, 1)] * 4)))
    rest = {number: pd(shape, number, start=260) for number in (3, 0, 2, 1)}
    c.add("four numbers at one start", SOME, ("root",), sequence=[pvd(), *rest.values(), lvd(shape), udf.TERMINATOR])


# The queries that come to a thing.
REACHING = {
    "root": ("root", "root, checked"),
    "show": ("show", "show, checked"),
    "show's bytes": ("show",),
    "deep": ("deep",),
    "cue": ("deep",),
    "small": ("root",),
    "first": ("chain", "chain, checked"),
    "second": ("chain, checked",),
    "third": ("wide",),
    "mixed 0": ("mixed",),
    "mixed 3": ("mixed",),
    "wide 0": ("wide",),
    "chain 2": ("chain",),
}


def readings(c):
    """Each thing in another partition; references just below the number of maps, at it and beyond."""
    n = len(c.shape.numbers)
    for name, asks in REACHING.items():
        for at in sorted({0, n - 1} - {PLACES[name][1] % n}):
            c.add(f"{name} in {at}", MAPPED if name == "root" else (), asks[:1], moved={name: at})
        for at in (n, 65535) if name in ("root", "first", "mixed 0") else (n,):
            c.add(f"{name} reference {at}", BOTH if name == "root" else (), asks, named={name: {"partition": at}})
    for at in sorted({3, 4} - {n}) + [256]:
        c.add(f"show reference {at}", (), ("show",), named={"show": {"partition": at}})


def orders(c):
    """Which refusal comes first."""
    n = len(c.shape.numbers)
    c.add("root of length 0, reference beyond", MAPPED, ("root",), named={"root": {"length": 0, "partition": n}})
    c.add("root of length 0", (), ("root",), named={"root": {"length": 0}})
    c.add("root of type 3", (), ("root",), named={"root": {"kind": NEXT}})
    c.add("show of length 0, reference beyond", (), ("show",), named={"show": {"length": 0, "partition": n}})
    c.add("show not on the disc, reference beyond", (), ("show",), named={"show": {"block": LAST, "partition": n}})
    c.add("show not on the disc", (), ("show",), named={"show": {"block": LAST}})
    for length in (0, 23, 2**20 + 1):
        c.add(f"first of length {length}, reference beyond", (), ("chain",), named={"first": {"length": length, "partition": n}})
    c.add("first of length 23", (), ("chain",), named={"first": {"length": 23}})
    c.add("first not on the disc, reference beyond", (), ("chain",), named={"first": {"block": LAST, "partition": n}})
    c.add("first spoilt, second's reference beyond", (), ("chain", "chain, checked"), named={"second": {"partition": n}}, bad=("first",))
    c.add("first's extent beyond, second's reference too", (), ("chain",), named={"chain 1": {"partition": n}, "second": {"partition": n}})
    c.add("mixed 1 of length 0, reference beyond", (), ("mixed",), named={"mixed 1": {"length": 0, "partition": n}})
    c.add("mixed 1 of type 1, mixed 3 beyond", (), ("mixed",), named={"mixed 1": {"kind": ALLOCATED}, "mixed 3": {"partition": n}})
    c.add("mixed 2 not on the disc, reference beyond", (), ("mixed",), named={"mixed 2": {"block": LAST, "partition": n}})
    c.add("mixed 2 not on the disc, mixed 3 beyond", (), ("mixed",), named={"mixed 2": {"block": LAST}, "mixed 3": {"partition": n}})
    c.add("mixed 2 and 3 beyond, behind the end", (), ("mixed",), named={"mixed 2": {"partition": n}, "mixed 3": {"partition": n}}, information={"mixed": 2140})
    c.add("mixed 2 beyond, a byte before the end", (), ("mixed",), named={"mixed 2": {"partition": n}}, information={"mixed": 2141})
    c.add("mixed 0 beyond, no information", (), ("mixed",), named={"mixed 0": {"partition": n}}, information={"mixed": 0})
    c.add("mixed 1 beyond, no information", (), ("mixed",), named={"mixed 1": {"partition": n}}, information={"mixed": 0})
    c.add("wide 1 compressed, wide 0 beyond", (), ("wide",), named={"wide 0": {"partition": n}, "wide 1": {"recorded": 24}})
    c.add("wide 0 without bytes, reference beyond", (), ("wide",), named={"wide 0": {"partition": n, "recorded": 0, "information": 0}})
    c.add("wide 0 without bytes", (), ("wide",), named={"wide 0": {"recorded": 0, "information": 0}})
    c.add("wide 2 beyond, third spoilt", (), ("wide",), named={"wide 2": {"partition": n}}, bad=("third",))


def bodies(c):
    for name, asks in (("root", ("root", "root, checked")), ("show", ("show", "show, checked")), ("second", ("chain", "chain, checked")), ("file set", ())):
        c.add(f"{name} spoilt", ALL if name == "file set" else (), asks, bad=(name,))
    c.add("show's bytes spoilt", (), ("show", "show, checked"), bad=("show's bytes",))


def chains(c):
    """32 continuations, and a 33rd."""
    c.add("link 31 beyond", (), ("links",), named={"link 31": {"partition": 2}})
    c.add("link 31 of length 23, reference beyond", (), ("links",), named={"link 31": {"partition": 2, "length": 23}})
    c.add("a 33rd link", (), ("links",), named={"over": {"partition": 0, "length": 40}})
    c.add("a 33rd link, reference beyond", (), ("links",), named={"over": {"partition": 2, "length": 40}})


def four():
    c = Cases(FOUR, 1)
    c.add("nothing", ALL, tuple(c.asked))
    counts_and_lengths(c)
    forms(c)
    references(c)
    sequences(c)
    volumes(c)
    same_partition(c)
    readings(c)
    orders(c)
    bodies(c)
    return c.images


def two():
    c = Cases(TWO, 2)
    c.add("nothing", ALL, tuple(c.asked))
    references(c)
    readings(c)
    chains(c)
    for count in (0, 1, 3, 4):
        maps = (maps_of(TWO) * 2)[:count]
        c.table(f"{count} maps", maps=maps, asks=("mixed",) if count > 1 else ())
    return c.images


def one():
    c = Cases(ONE, 3)
    c.add("nothing", ALL, tuple(c.asked))
    c.table("0 maps", maps=[], opens=ALL)
    c.table("file set reference 1", reference=1, opens=ALL)
    c.add("a partition of another number", ALL, ("mixed", "old both"), image=Disc(Shape("one", [2989], [280], [2989])))
    readings(c)
    orders(c)
    bodies(c)
    return c.images


CASES = [four, two, one]
