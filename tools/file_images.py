"""Small discs with odd, good and damaged files, and what is asked of each by an ICB, on volumes made by hand."""

from discs import Asked
from udf import ALLOCATED, DESCRIPTOR, EMBEDDED, EXT, EXTENDED_FILE_ENTRY, FILE_ENTRY, LONG, NEXT, PARTITION, RECORDED, SECTOR, SHORT, UNALLOCATED
from udf import aed, entry, ext_ad, long_ad, short_ad

START = 3  # The partition's first sector.
OTHER = 6  # Another partition's number.
MOST = 1048576  # The longest continuation that is followed.
ROOM = 8192  # The output's room and the row's slots, where a query says nothing else.
SLOTS = 8


# ---- images


def marks(block):
    """A block of a file: a few bytes at its front, in its middle and at its end that no other block has."""
    b = bytearray(SECTOR)
    for at in [0, 1, 2, 49, 50, 951, 952, 1023, 1024, 2045, 2046, 2047]:
        b[at] = (block * 37 + at * 11) % 255 + 1
    return bytes(b)


def full(block):
    """A block of which every byte holds something."""
    return bytes((block * 5 + i * 7 + i // 251) % 255 + 1 for i in range(SECTOR))


class Image(Asked):
    """An image, its partition from START on, and files asked for."""

    def put(self, block, what, start=START):
        self.lay(start + block, what)

    def marked(self, *blocks):
        for block in blocks:
            self.put(block, marks(block))

    def ask(self, block, room=ROOM, slots=SLOTS, start=START, partition=PARTITION, icb=None):
        icb = long_ad(SECTOR, block) if icb is None else icb
        self.query("read", "part", "extents", icb=icb, volume=self.by_hand(start=start, partition=partition), room=room, slots=slots)

    def file(self, block, what, **how):
        """Puts a file's entry at a block, and asks for the file."""
        self.put(block, what)
        self.ask(block, **how)


# ---- cases


def kinds():
    """Each kind of area, in an entry of each kind."""
    for identifier in [FILE_ENTRY, EXTENDED_FILE_ENTRY]:
        i = Image("kinds, entry %d" % identifier, 40)
        i.marked(10, 11, 20)
        for kind, ad in enumerate(DESCRIPTOR):
            i.file(kind, entry(kind, ad(3000, 10) + ad(100, 20), 3050, identifier))
        i.file(3, entry(EMBEDDED, b"embedded bytes", 14, identifier))
        yield i


def attributes():
    """Attributes stand before the area. These would be refused as descriptors."""
    i = Image("attributes before the area", 40)
    i.marked(10)
    bad = short_ad(77, 30, ALLOCATED)
    for at, identifier in [(0, FILE_ENTRY), (4, EXTENDED_FILE_ENTRY)]:
        i.file(at, entry(SHORT, short_ad(100, 10), 100, identifier, attributes=bad))
        i.file(at + 1, entry(LONG, long_ad(100, 10), 100, identifier, attributes=bad[:3]))
        i.file(at + 2, entry(EXT, ext_ad(100, 10), 100, identifier, attributes=bad * 5))
        i.file(at + 3, entry(EMBEDDED, b"behind", 6, identifier, attributes=b"in front"))
    yield i


def example():
    """The example of RULES 7.11."""
    i = Image("the example", 40)
    i.marked(10, 11, 20)
    area = short_ad(3000, 10) + short_ad(100, 20) + short_ad(5000, 30, ALLOCATED)
    for block, information in enumerate([3050, 0, 3101]):
        i.file(block, entry(SHORT, area, information))
    yield i


def whole_bytes():
    """Sectors of which every byte holds something, cut in the middle of a sector and joined."""
    i = Image("blocks full of bytes", 20)
    i.put(5, full(5))
    i.put(6, full(6))
    i.put(9, full(9))
    i.file(0, entry(SHORT, short_ad(2700, 5) + short_ad(1000, 9), 3650))
    i.file(1, entry(EMBEDDED, full(1)[:1872], 1872))
    yield i


def chains():
    """Chains of 0, 1, 2, 31, 32 and 33 continuations: 33 of them in a row, entered at each place."""
    for kind, name in [(SHORT, "short"), (LONG, "long"), (EXT, "ext")]:
        ad = DESCRIPTOR[kind]
        i = Image("chains of continuations, %s" % name, 60)
        i.marked(7)
        for k in range(33):
            area = ad(16 + k, 7)
            if k < 32:
                area += ad(SECTOR, 11 + k, NEXT)
            i.put(10 + k, aed(area))
        lengths = [0, 1, 2, 31, 32, 33] if kind == SHORT else [1, 32, 33]
        for block, n in enumerate(lengths):
            area = ad(16, 7)
            if n:
                area += ad(SECTOR, 10 + 33 - n, NEXT)
            i.file(block, entry(kind, area, 4000), slots=n + 1)
        yield i


def last_continuation():
    """The 33rd continuation is refused before anything of it is looked at."""
    i = Image("a 33rd continuation with faults", 60)
    i.marked(7)
    for k in range(32):
        following = long_ad(SECTOR, 11 + k, NEXT) if k < 31 else long_ad(23, 100, NEXT, OTHER)
        i.put(10 + k, aed(following))
    i.file(0, entry(LONG, long_ad(SECTOR, 10, NEXT), 0))
    i.file(1, entry(LONG, long_ad(SECTOR, 11, NEXT), 0))
    i.ask(1, partition=OTHER)
    yield i


def circles():
    """Chains that come back to themselves."""
    i = Image("chains that come back", 30)
    i.marked(7)
    i.put(10, aed(short_ad(1, 7) + short_ad(SECTOR, 10, NEXT)))
    i.put(11, aed(long_ad(1, 7) + long_ad(SECTOR, 12, NEXT)))
    i.put(12, aed(long_ad(1, 7) + long_ad(SECTOR, 11, NEXT)))
    i.file(0, entry(SHORT, short_ad(SECTOR, 10, NEXT), 1))
    i.file(1, entry(LONG, long_ad(SECTOR, 11, NEXT), 0))
    yield i


def continuation_lengths():
    """The length of a continuation, and of the area in it."""
    for kind, name in [(SHORT, "short"), (LONG, "long"), (EXT, "ext")]:
        ad = DESCRIPTOR[kind]
        i = Image("continuation lengths, %s" % name, 1024 if kind == SHORT else 100)
        i.marked(40)
        pairs = [(23, 0), (24, 0), (24, 1), (2048, 100), (2048, 2024), (2048, 2025), (2049, 2025), (2049, 2026)]
        if kind == SHORT:
            pairs += [(MOST, 100), (MOST, MOST - 24), (MOST, MOST - 23), (MOST + 1, 100), (2**30 - 1, 100), (2048, 2**32 - 1)]
        for k, (length, size) in enumerate(pairs):
            i.put(50 + 2 * k, aed(ad(100, 40), area_length=size))
            i.file(k, entry(kind, ad(7, 40) + ad(length, 50 + 2 * k, NEXT), 1000))
        yield i


def continuation_ends():
    """Continuations of which a sector isn't there."""
    i = Image("continuations that run off", 30)
    i.marked(12)
    last = 30 - START - 1
    i.put(last, aed(short_ad(5, 12)))
    i.put(last - 1, aed(short_ad(6, 12)))
    for block, (length, at) in enumerate(
        [
            (2048, last),
            (2049, last),
            (4096, last - 1),
            (4097, last - 1),
            (2048, last + 1),
            (MOST, last),
            (23, last + 1),
            (24, 2**32 - 1),
            # No header stands there, and its last sector is missing, which is found first.
            (4 * SECTOR, last - 2),
            (3 * SECTOR, last - 2),
        ]
    ):
        i.file(block, entry(SHORT, short_ad(3, 12) + short_ad(length, at, NEXT), 8))
    yield i
    # The last of 512 sectors is missing, and then only its last byte.
    for name, sectors, more in [("is missing", 600, 0), ("lacks a byte", 600, 2047), ("is there", 601, 0)]:
        i = Image("the last sector of the longest continuation %s" % name, sectors, more)
        i.marked(7)
        at = 601 - START - 512
        i.put(at, aed(short_ad(5, 7)))
        i.file(0, entry(SHORT, short_ad(MOST, at, NEXT), 8))
        yield i


def across_sectors():
    """Descriptors that stand across the end of a continuation's first sector, the last of which is a continuation too."""
    for kind, name, n in [(LONG, "long", 126), (EXT, "ext", 101)]:
        ad = DESCRIPTOR[kind]
        i = Image("a descriptor across two sectors, %s" % name, 30)
        i.marked(7, 8)
        i.put(10, aed(ad(1, 7) * n + ad(50, 8) + ad(24 + 20, 20, NEXT)))
        i.put(20, aed(ad(60, 7)))
        i.put(0, entry(kind, ad(4096, 10, NEXT), 1000))
        i.ask(0, slots=n + 2)
        i.ask(0, slots=n + 1)
        yield i


def continuation_headers():
    """Headers that are refused."""
    i = Image("continuation headers", 40)
    i.marked(15)
    more = short_ad(5, 15)
    heads = [
        aed(more),
        aed(more, identifier=257),
        aed(more, identifier=FILE_ENTRY),
        aed(more, identifier=0),
        aed(more, identifier=267),
        aed(more, wrong=1),
        aed(more, reserved=1),
        aed(more, area_length=2025),
        aed(more, area_length=2**32 - 24),
    ]
    for k, head in enumerate(heads):
        i.put(20 + k, head)
        i.file(k, entry(SHORT, short_ad(3, 15) + short_ad(SECTOR, 20 + k, NEXT), 3))
    yield i


def other_types():
    """Extents of type 1 and 2, in and beyond the information length, in the entry and in a continuation."""
    for kind, name in [(SHORT, "short"), (LONG, "long"), (EXT, "ext")]:
        ad = DESCRIPTOR[kind]
        i = Image("types of extents, %s" % name, 60)
        i.marked(40)
        block = 0
        for number in [ALLOCATED, UNALLOCATED]:
            two = ad(16, 40) + ad(16, 41, number)
            i.put(50 + number, aed(two))
            for area, information in [
                (two, 16),
                (two, 17),
                (ad(16, 41, number), 0),
                (ad(8, 40) + ad(SECTOR, 50 + number, NEXT), 24),
                (ad(8, 40) + ad(SECTOR, 50 + number, NEXT), 25),
            ]:
                i.file(block, entry(kind, area, information))
                block += 1
        # What stands behind a continuation isn't read.
        i.put(54, aed(ad(9, 40)))
        i.file(block, entry(kind, ad(8, 40) + ad(SECTOR, 54, NEXT) + ad(16, 41, ALLOCATED), 100))
        yield i


def other_partitions():
    """Extents and continuations in another partition."""
    for kind, name in [(LONG, "long"), (EXT, "ext")]:
        ad = DESCRIPTOR[kind]
        i = Image("other partitions, %s" % name, 60)
        i.marked(40)
        two = ad(16, 40) + ad(16, 41, RECORDED, OTHER)
        i.put(50, aed(two))
        i.put(51, aed(ad(5, 40) + ad(SECTOR, 52, NEXT, OTHER)))
        areas = [
            (two, 16),
            (two, 17),
            (ad(16, 41, RECORDED, OTHER), 0),
            (ad(16, 41, ALLOCATED, OTHER), 1),
            (ad(8, 40) + ad(SECTOR, 50, NEXT), 24),
            (ad(8, 40) + ad(SECTOR, 50, NEXT), 25),
            # A continuation in another partition is refused, whatever the information length, and before its length is looked at.
            (ad(8, 40) + ad(SECTOR, 50, NEXT, OTHER), 0),
            (ad(8, 40) + ad(23, 50, NEXT, OTHER), 8),
            (ad(8, 40) + ad(SECTOR, 51, NEXT), 8),
        ]
        for block, (area, information) in enumerate(areas):
            i.file(block, entry(kind, area, information))
        # The same descriptors on a volume whose partition has the other number.
        i.ask(0, partition=OTHER)
        i.ask(2, partition=OTHER)
        yield i


def information_lengths():
    """Information lengths around the ends of sectors and of extents, and absurd ones."""
    lengths = [0, 1, 2047, 2048, 2049, 2999, 3000, 3001, 3100, 3101, 5147, 5148, 5149, 2**32, 2**63 - 1, 2**63, 2**64 - 1]
    for kind, name in [(SHORT, "short"), (LONG, "long"), (EXT, "ext")]:
        ad = DESCRIPTOR[kind]
        i = Image("information lengths, %s" % name, 60)
        i.marked(40, 41, 45, 50)
        chosen = lengths if kind == SHORT else [0, 2049, 5148, 2**64 - 1]
        for block, information in enumerate(chosen):
            i.file(block, entry(kind, ad(3000, 40) + ad(100, 45) + ad(2048, 50), information))
        # No extent at all.
        i.file(30, entry(kind, b"", 0))
        i.file(31, entry(kind, b"", 100))
        i.file(32, entry(kind, b"", 2**64 - 1))
        yield i
    i = Image("information lengths, embedded", 30)
    for block, information in enumerate([0, 1, 8, 9, 10, 2**63, 2**64 - 1]):
        i.file(block, entry(EMBEDDED, b"nine byte", information))
    i.file(20, entry(EMBEDDED, b"", 5))
    yield i


def rooms():
    """Outputs that are exactly full, and one byte short; refusals that come before 5."""
    i = Image("rooms", 30)
    i.marked(20, 21, 22)
    i.put(0, entry(SHORT, short_ad(3000, 20) + short_ad(100, 22), 3050))
    for room in [3051, 3050, 3049, 3000, 2048, 1, 0]:
        i.ask(0, room=room)
    i.put(1, entry(EMBEDDED, b"embedded bytes", 10))
    for room in [14, 10, 9, 0]:
        i.ask(1, room=room)
    i.file(2, entry(SHORT, short_ad(100, 20), 0), room=0)
    i.file(3, entry(EMBEDDED, b"embedded bytes", 0), room=0)
    # The short total counts, and not the information length.
    i.put(4, entry(SHORT, short_ad(100, 20), 2**64 - 1))
    i.ask(4, room=100)
    i.ask(4, room=99)
    # A later extent that is refused, or that isn't there, is refused first.
    i.file(5, entry(SHORT, short_ad(3000, 20) + short_ad(100, 22, ALLOCATED), 3001), room=10)
    i.file(6, entry(SHORT, short_ad(3000, 20) + short_ad(100, 27), 3001), room=10)
    i.file(7, entry(SHORT, short_ad(3000, 20) + short_ad(100, 27), 3000), room=10)
    yield i


def slots():
    """Rows that are exactly full, and one slot short; refusals that come before 7."""
    i = Image("slots", 40)
    i.marked(20)
    i.put(0, entry(LONG, long_ad(1, 20) + long_ad(2, 20, ALLOCATED) + long_ad(3, 20, UNALLOCATED, OTHER), 1))
    for n in [4, 3, 2, 1, 0]:
        i.ask(0, slots=n)
    i.put(30, aed(short_ad(6, 20) + short_ad(7, 2**32 - 1)))
    i.put(1, entry(SHORT, short_ad(5, 20) + short_ad(SECTOR, 30, NEXT), 5))
    for n in [3, 2, 0]:
        i.ask(1, slots=n)
    i.file(2, entry(SHORT, b"", 0), slots=0)
    i.file(3, entry(EMBEDDED, b"embedded", 8), slots=0)
    i.file(4, entry(LONG, long_ad(5, 20) + long_ad(SECTOR, 30, NEXT, OTHER), 5), slots=0)
    i.file(5, entry(SHORT, short_ad(5, 20) + short_ad(23, 30, NEXT), 5), slots=0)
    i.file(6, entry(SHORT, short_ad(5, 20) + short_ad(SECTOR, 37, NEXT), 5), slots=0)
    i.file(7, entry(EXT, ext_ad(5, 20) + ext_ad(5, 20, information=4), 5), slots=0)
    yield i


def full_area():
    """An area that fills its entry's sector, and rows for it."""
    i = Image("an area that fills the sector", 20)
    i.marked(9)
    area = b"".join(short_ad(k + 1, 9) for k in range(234))
    i.put(0, entry(SHORT, area, 2**20))
    i.ask(0, room=234 * 235 // 2, slots=234)
    i.ask(0, room=234 * 235 // 2 - 1, slots=233)
    yield i


def missing_sectors():
    """Extents of which the first, the middle or the last sector isn't there, read whole and in part."""
    end = 40 - START  # The first block past the image.
    i = Image("extents that run off", 40)
    i.marked(30, end - 3, end - 2, end - 1)
    block = 0
    for at in [end, end - 1, end - 2, end - 3]:
        for information in [0, 2048, 2049, 4096, 4097, 6144]:
            if at < end or information in [0, 6144]:
                i.file(block, entry(SHORT, short_ad(6144, at), information))
                block += 1
    # Behind an extent that is there.
    i.file(block, entry(SHORT, short_ad(10, 30) + short_ad(10, end), 10))
    i.file(block + 1, entry(SHORT, short_ad(10, 30) + short_ad(10, end), 11))
    yield i
    # The image ends one byte too early.
    i = Image("an image that lacks its last byte", 19, 2047)
    i.marked(15, 16)
    i.file(0, entry(SHORT, short_ad(2049, 15), 2048))
    i.file(1, entry(SHORT, short_ad(2049, 15), 2049))
    i.file(2, entry(SHORT, short_ad(1, 16), 1))
    i.ask(16)
    yield i


def far_places():
    """Places past the end of what 32 bits count, and images of no and of one sector."""
    i = Image("places far past the image", 20)
    i.file(0, entry(SHORT, short_ad(10, 2**32 - 1), 10))
    i.file(1, entry(SHORT, short_ad(2**30 - 1, 10), 2**64 - 1), room=0)
    i.file(2, entry(LONG, long_ad(2**30 - 1, 2**32 - 1), 2**64 - 1), room=0)
    i.ask(2**32 - 1)
    i.ask(2**32 - 1, start=2**32 - 1)
    i.ask(0, start=2**32 - 1)
    # start + block wraps to the entry's own sector in 32 bits.
    i.ask(2**32 - 2, start=START + 2)
    yield i
    i = Image("no image", 0)
    i.ask(0, start=0)
    yield i
    i = Image("an image of one sector", 1)
    i.put(0, entry(EMBEDDED, b"alone", 5), start=0)
    i.ask(0, start=0)
    i.ask(1, start=0)
    yield i


def ext_lengths():
    """ext_ads whose stored, recorded and information lengths differ (ECMA-167 4/14.14.3)."""
    i = Image("lengths of ext_ads", 60)
    i.marked(40, 41, 45)
    second = ext_ad(7, 45)
    top = 2**30
    i.put(50, aed(ext_ad(9, 45)))
    i.put(51, aed(ext_ad(9, 45, information=8)))
    for block, (first, information) in enumerate(
        [
            (ext_ad(2048, 40, recorded=100, information=100), 1000),
            (ext_ad(100, 40, recorded=3000, information=3000), 4000),
            (ext_ad(100, 40, recorded=100, information=200), 1000),
            (ext_ad(100, 40, recorded=200, information=100), 1000),
            # Two bits above the recorded length aren't kept; those of the information length are.
            (ext_ad(100, 40, recorded=100 + top, information=100), 1000),
            (ext_ad(100, 40, recorded=100 + 3 * top, information=100), 1000),
            (ext_ad(100, 40, recorded=100, information=100 + top), 1000),
            (ext_ad(100, 40, recorded=100 + top, information=100 + top), 1000),
            # The stored length ends the area where it is 0, and the others don't.
            (ext_ad(0, 40, recorded=100, information=100), 1000),
            (ext_ad(0, 40, recorded=100, information=99), 1000),
            (ext_ad(100, 40, recorded=0, information=0), 1000),
            (ext_ad(100, 40, recorded=0, information=0), 0),
            (ext_ad(100, 40, ALLOCATED, recorded=0, information=0), 0),
            # A continuation's other lengths aren't compared.
            (ext_ad(SECTOR, 50, NEXT, recorded=1, information=2), 1000),
            (ext_ad(SECTOR, 51, NEXT), 1000),
        ]
    ):
        i.file(block, entry(EXT, first + second, information))
    # A compressed extent is refused where the area is read, also beyond the information length, and not behind the area's end.
    i.file(20, entry(EXT, second + ext_ad(7, 45, information=6), 7))
    i.file(21, entry(EXT, second + ext_ad(7, 45, ALLOCATED, information=6), 0))
    i.file(22, entry(EXT, second + ext_ad(0, 45) + ext_ad(7, 45, information=6), 7))
    i.file(23, entry(EXT, second + ext_ad(SECTOR, 51, NEXT), 7))
    # An extent of no bytes first, then one that is refused if it is visited.
    none = ext_ad(100, 40, recorded=0, information=0)
    i.file(24, entry(EXT, none + ext_ad(7, 45, ALLOCATED), 0))
    i.file(25, entry(EXT, none + ext_ad(7, 45, ALLOCATED), 1))
    yield i


def zero_lengths():
    """A descriptor of length 0 ends its area, whatever its type."""
    for kind, name in [(SHORT, "short"), (LONG, "long"), (EXT, "ext")]:
        ad = DESCRIPTOR[kind]
        i = Image("descriptors of length 0, %s" % name, 60)
        i.marked(40)
        for number in range(4):
            i.put(50 + number, aed(ad(6, 40) + ad(0, 41, number) + ad(8, 40)))
            i.file(number, entry(kind, ad(5, 40) + ad(0, 41, number) + ad(7, 40), 100))
            i.file(10 + number, entry(kind, ad(5, 40) + ad(SECTOR, 50 + number, NEXT), 100))
        i.file(20, entry(kind, ad(0, 41, NEXT) + ad(7, 40), 100))
        yield i


def trailing_bytes():
    """Bytes behind the last whole descriptor aren't read."""
    for kind, name in [(SHORT, "short"), (LONG, "long"), (EXT, "ext")]:
        ad = DESCRIPTOR[kind]
        i = Image("bytes under a descriptor, %s" % name, 60)
        i.marked(40)
        cut = ad(7, 41, ALLOCATED)[:-1]
        i.put(50, aed(ad(6, 40) + cut))
        i.put(51, aed(ad(6, 40) + ad(SECTOR, 50, NEXT), area_length=2 * len(cut) + 1))
        for block, area in enumerate([ad(5, 40) + cut, ad(5, 40) + cut[:1], cut, ad(5, 40) + ad(SECTOR, 50, NEXT), ad(SECTOR, 51, NEXT)]):
            i.file(block, entry(kind, area, 100))
        yield i


def icbs():
    """The ICB: its length 0 is refused; its type and its partition aren't looked at."""
    i = Image("ICBs", 20)
    i.marked(10)
    i.put(1, entry(SHORT, short_ad(5, 10), 5))
    for icb in [
        long_ad(0, 1),
        long_ad(0, 1, NEXT),
        long_ad(0, 100),
        long_ad(1, 1),
        long_ad(2**30 - 1, 1),
        long_ad(SECTOR, 1, ALLOCATED),
        long_ad(SECTOR, 1, NEXT),
        long_ad(SECTOR, 1, RECORDED, OTHER),
        long_ad(SECTOR, 100),
    ]:
        i.ask(1, icb=icb)
    # No entry stands there, or bytes of a file.
    i.ask(2)
    i.ask(10)
    yield i


def entries():
    """Entries that are refused, and what is beside them: sizes, flags and tags."""
    i = Image("sizes of entries", 30)
    most = 2**32 - 1
    area = short_ad(5, 20)
    i.marked(20)
    for k, (identifier, size) in enumerate([(FILE_ENTRY, 176), (EXTENDED_FILE_ENTRY, 216)]):
        rest = SECTOR - size
        for block, (attribute_length, area_length) in enumerate(
            [(rest, 0), (rest + 1, 0), (0, rest), (0, rest + 1), (rest - 8, 8), (rest - 7, 8), (most, most), (most, 0), (0, most)]
        ):
            what = entry(SHORT, area, 5, identifier, attribute_length=attribute_length, area_length=area_length)
            i.file(10 * k + block, what)
    yield i
    i = Image("embedded bytes to the end of the sector", 10)
    for block, (identifier, rest) in enumerate([(FILE_ENTRY, 1872), (EXTENDED_FILE_ENTRY, 1832)]):
        data = bytearray(rest)
        data[:3], data[-3:] = b"abc", b"xyz"
        i.put(block, entry(EMBEDDED, bytes(data), rest, identifier))
        i.ask(block, room=rest)
        i.ask(block, room=rest - 1)
        i.file(block + 2, entry(EMBEDDED, bytes(data), rest, identifier, area_length=rest + 1))
    yield i
    i = Image("flags", 30)
    i.marked(25)
    for flags in range(8):
        i.file(flags, entry(0, short_ad(5, 25), 5, flags=flags))
    for block, flags in enumerate([8, 0xFFF8, 0xFFFB, 0xFFFC]):
        i.file(10 + block, entry(0, short_ad(5, 25), 5, flags=flags))
    yield i
    i = Image("tags of entries", 30)
    i.marked(25)
    for block, identifier in enumerate([0, 1, 9, 10, 255, 256, 257, 258, 260, 262, 265, 267, 65535]):
        i.file(block, entry(SHORT, short_ad(5, 25), 5, identifier))
    i.file(20, entry(SHORT, short_ad(5, 25), 5, wrong=1))
    i.file(21, entry(SHORT, short_ad(5, 25), 5, reserved=1))
    i.file(22, entry(SHORT, short_ad(5, 25), 5, EXTENDED_FILE_ENTRY, wrong=255))
    yield i


CASES = [
    kinds,
    attributes,
    example,
    whole_bytes,
    chains,
    last_continuation,
    circles,
    continuation_lengths,
    continuation_ends,
    across_sectors,
    continuation_headers,
    other_types,
    other_partitions,
    information_lengths,
    rooms,
    slots,
    full_area,
    missing_sectors,
    far_places,
    ext_lengths,
    zero_lengths,
    trailing_bytes,
    icbs,
    entries,
]
