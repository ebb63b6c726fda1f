"""Shelves of images, one behind another, and the surveys that are asked of them; and rows by hand, that are totalled: crates/survey_cases/data/shelves.

The file is a row of records, with little-endian numbers:

    u16 length of the name, the name, u32 length of the packed shelf, the packed shelf, u32 bytes of the queries, the queries

tools/udf.py says what is packed. A query is

    u32 what is asked (0 a survey, 1 a total), u32 how the images are opened, u32 how many numbers the row has, u32 size of the work space,
    u64 how many sectors each image is lent (2^64 - 1: no budget), u32 how many numbers follow, and those, u64 each: the lengths of the images; or how many
    places are totalled, and what the row has at its front
"""

import struct

import mapped_images
import rules
import tree_images
import udf
from discs import CHECKED, DELETED, DIRECTORY, HIDDEN, HIGHEST, MAPS, OTHER, PARENT, ROOT, identifier
from tree_images import Chance, Item, grown, nested
from udf import ALLOCATED, ANCHOR, BLOCK, EMBEDDED, EXT, EXTENDED_FILE_ENTRY, LONG, MAIN, NEXT, PARTITION, SECTOR, SHORT, TERMINATOR, UNALLOCATED
from udf import aed, entry, ext_ad, file_set, logical, long_ad, partition, primary, short_ad
from volume_images import made

START = 40  # The partition stands before the anchor, so that an image has no more than the sectors up to that.
LATER = 140  # Where a second partition starts.
GONE = 4000  # A block past every image.
WORK = 8192  # The work space, where a query says nothing else.
PLACE = 80  # How many numbers a place has.
MOST = 2**64 - 1
NONE_SUCH = 8  # No way of opening.
SURVEY, TOTAL = 0, 1
HEADS = (b"\x02\x01", b"\x05\x01", b"\x0a\x01")  # How an allocation extent and the two file entries begin.
USUAL = [primary, made(partition, number=PARTITION, start=START), made(logical, number=PARTITION), TERMINATOR]


class Volume(tree_images.Volume):
    """An image with a volume on it, of which every descriptor has a right body; `more` sectors stand behind the anchor."""

    def __init__(self, sequence=USUAL, more=0):
        udf.Image.__init__(self, "a volume", ANCHOR + 1 + more)
        self.root, self.free, self.sizes, self.is_sealed = long_ad(SECTOR, ROOT), ROOT + 1, {}, True
        self.lay(ANCHOR, udf.sealed(udf.anchor(), 496))
        for i, make in enumerate(sequence):
            self.lay(MAIN + i, udf.sealed(make(MAIN + i), 496))
        self.put(BLOCK, udf.sealed(file_set(START + BLOCK, root=self.root), 496))

    def put(self, block, what):
        self.lay(START + block, udf.sealed(what) if what[:2] in HEADS else what)

    def data(self, n=1):
        """Blocks that hold something."""
        at = self.take(n)
        self.put(at, bytes(k % 255 + 1 for k in range(n * SECTOR)))
        return at

    def chained(self, n, information=4000, last=b""):
        """A file of n continuations with an extent of 16 bytes in each, and in its entry; and what stands behind the last."""
        at, following = self.data(), self.take(n)
        for k in range(n):
            self.put(following + k, aed(short_ad(16, at) + (short_ad(SECTOR, following + k + 1, NEXT) if k < n - 1 else last)))
        return self.stored(entry(SHORT, short_ad(16, at) + (short_ad(SECTOR, following, NEXT) if n else last), information))

    def flip(self, sector, at, fix=True):
        """Changes a bit of the descriptor in a sector; in its tag, the checksum is right again where it is fixed."""
        first = sector * SECTOR
        self.bytes[first + at] ^= 1
        if fix:
            head = self.bytes[first : first + 16]
            self.bytes[first + 4] = (sum(head) - head[4]) % 256

    def wrong(self, icb):
        """The body of the entry at an ICB isn't what its CRC says."""
        self.flip(START + struct.unpack_from("<I", icb, 4)[0], 8)
        return icb


class Shelf:
    """Images one behind another, bytes that stand behind them, and what is asked."""

    def __init__(self, name, *images, behind=b""):
        parts = [bytes(getattr(image, "bytes", image)) for image in images]
        self.name, self.lengths, self.bytes, self.queries = name, [len(one) for one in parts], b"".join(parts) + behind, []

    def ask(self, what, how, numbers, work, row, most=MOST):
        self.queries.append(struct.pack("<4IQI", what, how, numbers, work, most, len(row)) + struct.pack("<%dQ" % len(row), *row))

    def survey(self, how=0, lengths=None, numbers=None, work=WORK, more=0, most=MOST):
        """Of all images, with a row exactly long enough, unless something else is given."""
        lengths = self.lengths if lengths is None else lengths
        self.ask(SURVEY, how, PLACE * (len(lengths) + 1) + more if numbers is None else numbers, work, lengths, most)

    def total(self, places, row, numbers=None):
        self.ask(TOTAL, 0, len(row) if numbers is None else numbers, 0, [places, *row])

    def record(self):
        queries = b"".join(self.queries)
        return udf.record(self.name, self.bytes) + struct.pack("<I", len(queries)) + queries


# ---- volumes


def show(name="show", cues=3):
    """Files of every kind, at three levels."""
    v = Volume()
    files = [v.named("%s%d" % (name, k), v.file(b"a cue of %s, " % name.encode() * (k + 1))) for k in range(cues)]
    kinds = []
    for kind, cuts in ((SHORT, (3000,)), (LONG, (100, 2200)), (EXT, ())):
        for chained in (False, True):
            icb = v.file(bytes(k % 251 + 1 for k in range(5000)), kind=kind, cuts=cuts, chained=chained)
            kinds.append(v.named("kind%d%d" % (kind, chained), icb))
    large = v.named("large", v.file(b"xyz" * 700, kind=SHORT, identifier=EXTENDED_FILE_ENTRY), HIDDEN)
    v.is_root([*files, v.folder("kinds", kinds, kind=LONG), v.folder("in", [v.folder("empty", []), large], kind=SHORT), v.cue("last")], kind=EXT)
    return v


def deep(levels):
    """A tree of so many levels, with a cue before and behind each directory."""
    v = Volume()
    v.is_root(nested(v, levels - 1, [v.cue("cue")]))
    return v


def small(*names):
    v = Volume()
    v.is_root([v.cue(name) for name in names])
    return v


def with_files(*icbs):
    """A volume whose files are what the functions make of it."""
    v = Volume()
    v.is_root([v.cue("first"), *(v.named("f%d" % k, icb(v)) for k, icb in enumerate(icbs)), v.cue("last")], kind=SHORT)
    return v


# ---- cases


def nothing():
    """A shelf of no bytes: no images, empty images, and lengths that pass it."""
    s = Shelf("no bytes")
    for numbers in (PLACE, PLACE - 1, PLACE + 1, 2 * PLACE, 1, 0):
        s.survey(numbers=numbers)
    s.survey(how=NONE_SUCH)
    s.survey(work=0)
    for lengths in ([0], [0, 0, 0], [0] * 12):
        s.survey(lengths=lengths)
        s.survey(lengths=lengths, more=-1)
        s.survey(lengths=lengths, how=CHECKED | MAPS | HIGHEST, more=7)
    for lengths in ([1], [MOST], [0, 1], [2**63, 2**63], [1, MOST], [MOST, 1], [MOST, MOST, 2], [2**62] * 4):
        s.survey(lengths=lengths)
    s.survey(lengths=[1], numbers=0)
    yield s


def rows():
    """One image, and five: rows exactly long enough, a number and a place short, and longer; lengths that pass the shelf, wrap, and leave bytes."""
    v = show()
    n = len(v.bytes)
    s = Shelf("one image", v, behind=b"bytes behind it")
    for more in (0, -1, -PLACE, -PLACE - 1, 1, PLACE, PLACE + 5):
        s.survey(more=more)
    for lengths in ([n + 15], [n + 16], [n, 15], [n, 16], [n, 14], [n, 0], [0, n], [n + 1], [n - 1], [n, MOST], [n, 15, MOST], [n, MOST - n, 1], [2**64 - n, n], []):
        s.survey(lengths=lengths)
    for work in (v.work, v.work - 1, v.work + 1, 0):
        s.survey(work=work)
    for how in (CHECKED, MAPS, HIGHEST, 7, NONE_SUCH, NONE_SUCH | 7, 256, 2**32 - 1):
        s.survey(how=how)
    yield s
    two = small("a", "b")
    s = Shelf("five images", v, two, b"", deep(3), show("other", 1))
    for more in (0, -1, -PLACE, -PLACE - 1, 3):
        s.survey(more=more)
    for how in (CHECKED, MAPS, HIGHEST, NONE_SUCH):
        s.survey(how=how)
    s.survey(lengths=[*s.lengths[:4], s.lengths[4] + 1])
    s.survey(lengths=[*s.lengths[:4], s.lengths[4] - 1])
    s.survey(lengths=[*s.lengths, 1])
    s.survey(lengths=[*s.lengths, 0])
    s.survey(lengths=[sum(s.lengths)])
    s.survey(lengths=s.lengths[:2])
    s.survey(lengths=[s.lengths[0], 0, s.lengths[1], 0, *s.lengths[3:]])
    for work in (v.work, v.work - 1, two.work, two.work - 1):
        s.survey(work=work)
    yield s


def cuts():
    """Images whose last sector is cut: what needs it is refused by 1, also where the bytes stand in the next image."""
    v = Volume(more=2)
    behind = ANCHOR + 1 - START
    v.put(behind, b"in the first sector behind the anchor")
    v.put(behind + 1, b"in the second")
    files = [
        v.file(b"before it"),
        v.stored(entry(SHORT, short_ad(30, behind), 30)),
        v.stored(entry(SHORT, short_ad(30, behind + 1), 30)),
        v.stored(entry(SHORT, short_ad(3000, behind), 2000)),
        v.stored(entry(SHORT, short_ad(4096, behind), 2049)),
    ]
    v.is_root([v.named("f%d" % k, icb) for k, icb in enumerate(files)], kind=SHORT)
    n, other = len(v.bytes), small("a")
    s = Shelf("lengths that end inside a sector", v, other)
    for cut in (0, 1, 2047, 2048, 2049, 4095, 4096, 4097, 6144, n - 1, n):
        s.survey(lengths=[n - cut])
        s.survey(lengths=[n - cut, cut, len(other.bytes)])
    s.survey(lengths=[n + 1, len(other.bytes) - 1])
    s.survey(lengths=[n + 2048, len(other.bytes) - 2048])
    yield s


def openings():
    """Images that are refused on opening, by each number that opening gives; what stands on them isn't counted."""
    two, three, four, ten = (Volume(), Volume(USUAL[1:]), Volume([USUAL[0], USUAL[1], made(logical, number=PARTITION, size=512), TERMINATOR]), Volume())
    for v in (two, three, four, ten):
        v.is_root([v.cue("a"), v.folder("d", [v.cue("b")])])
    two.flip(ANCHOR, 4, fix=False)
    ten.flip(MAIN, 100)
    good = small("a", "b", "c")
    s = Shelf("openings refused by 1, 2, 3, 4 and 10", good.bytes[: ANCHOR * SECTOR + 2047], two, three, four, ten)
    for how in (0, CHECKED, MAPS, HIGHEST, 7, NONE_SUCH):
        s.survey(how=how)
    yield s
    away = Volume([USUAL[0], made(partition, number=PARTITION, start=GONE), *USUAL[2:]])
    apart = Volume([USUAL[0], made(partition, number=OTHER, start=START), *USUAL[2:]])
    plain = small("a")
    plain.flip(START + BLOCK, 5)
    s = Shelf("other openings that are refused, between good ones", good, away, apart, plain, good)
    for how in (0, CHECKED):
        s.survey(how=how)
    yield s


def trees():
    """Trees that are refused, each behind files that are good: by 1, 2, 4, 10 and 11; and with work space that doesn't suffice, by 6."""

    def holding(item):
        v = Volume()
        v.is_root([v.cue("a"), v.folder("good", [v.cue("b")]), v.folder("d", [v.cue("c"), item(v), v.cue("e")]), v.cue("z")])
        return v

    gone = holding(lambda v: v.named("gone", long_ad(SECTOR, GONE), DIRECTORY))
    bad = holding(lambda v: Item(identifier("bad", v.root, wrong=1)))
    other = holding(lambda v: v.named("other", v.stored(entry(SHORT, short_ad(300, 9, ALLOCATED), 300)), DIRECTORY))
    body = holding(lambda v: v.named("body", v.wrong(v.directory([v.parent().bytes])), DIRECTORY))
    loop = holding(lambda v: v.named("loop", v.root, DIRECTORY))
    s = Shelf("trees refused by 1, 2, 4, 10 and 11", gone, bad, other, body, loop)
    for how in (0, CHECKED, HIGHEST):
        s.survey(how=how)
    for work in (body.work, body.work - 1, body.sizes[body.root], body.sizes[body.root] - 1, 0):
        s.survey(work=work)
    yield s
    sixteen, seventeen = deep(16), deep(17)
    s = Shelf("trees of 15, 16 and 17 levels", deep(15), sixteen, seventeen)
    for work in (sixteen.work, sixteen.work - 1, seventeen.work, WORK, 100):
        s.survey(work=work)
    s.survey(how=CHECKED)
    yield s
    unread = [
        Volume([USUAL[0], USUAL[1], made(logical, number=PARTITION, block=BLOCK + 100), TERMINATOR]),
        Volume(),
        Volume(),
    ]
    unread[0].put(BLOCK + 100, udf.sealed(file_set(0, root=long_ad(0, ROOT)), 496))
    unread[0].is_root([])
    unread[1].root_is([])
    unread[2].root_is([b"text" * 20])
    s = Shelf("a root of length 0, one of no bytes, and one that is no directory", *unread)
    s.survey()
    s.survey(work=0)
    s.survey(work=79)
    yield s


REFUSED = {
    1: [
        lambda v: long_ad(SECTOR, GONE),
        lambda v: long_ad(SECTOR, 2**32 - 1),
        lambda v: v.stored(entry(SHORT, short_ad(2048, v.data()) + short_ad(10, GONE), 2058)),
        lambda v: v.stored(entry(SHORT, short_ad(10, v.data()) + short_ad(SECTOR, GONE, NEXT), 10)),
        lambda v: v.stored(entry(SHORT, short_ad(10, GONE), 0)),
        lambda v: v.chained(32, last=short_ad(10, GONE)),
    ],
    2: [
        lambda v: long_ad(0, ROOT),
        lambda v: long_ad(SECTOR, v.take()),
        lambda v: v.stored(entry(4, b"", 0)),
        lambda v: v.stored(entry(SHORT, short_ad(10, v.data()) + short_ad(23, 9, NEXT), 10)),
        lambda v: v.stored(entry(SHORT, short_ad(10, v.data()) + short_ad(24, v.data(), NEXT), 10)),
        lambda v: v.chained(33),
    ],
    4: [
        lambda v: v.stored(entry(SHORT, short_ad(2048, v.data()) + short_ad(10, 9, ALLOCATED), 2049)),
        lambda v: v.stored(entry(SHORT, short_ad(10, 9, UNALLOCATED), 0)),
        lambda v: v.stored(entry(LONG, long_ad(10, v.data(), partition=OTHER), 10)),
        lambda v: v.stored(entry(EXT, ext_ad(10, v.data(), recorded=9), 10)),
        lambda v: v.stored(entry(SHORT, short_ad(10, v.data()) + short_ad(2**20 + 1, 9, NEXT), 10)),
        lambda v: v.chained(2, last=short_ad(10, 9, ALLOCATED)),
    ],
    10: [
        lambda v: v.wrong(v.file(b"bytes of a file")),
        lambda v: v.wrong(v.file(b"bytes of a file", kind=LONG, cuts=(4,), chained=True)),
        lambda v: followed_wrong(v),
    ],
}


def followed_wrong(v):
    """A file whose continuation has a wrong body, and its entry a right one."""
    icb = v.chained(3)
    v.flip(START + struct.unpack_from("<I", icb, 4)[0] - 2, 8)
    return icb


def files():
    """Refused files, of each number that a read gives: by themselves, and together with good ones."""
    v = with_files(*(make for several in REFUSED.values() for make in several[:3]))
    s = Shelf("refused files of each number", v)
    for how in (0, CHECKED):
        s.survey(how=how)
    yield s
    each = [with_files(*several) for several in REFUSED.values()]
    s = Shelf("refused files of one number each", *each, small("good"))
    for how in (0, CHECKED, HIGHEST):
        s.survey(how=how)
    for k in range(5):
        s.survey(how=CHECKED, lengths=s.lengths[: k + 1])
    yield s


def paths():
    """Files with two names, directories that two paths lead to: each counts once for each path. What is deleted doesn't count."""
    v = Volume()
    file = v.file(b"bytes of a file " * 200, kind=SHORT)
    shared, room, work = v.holding([v.named("one", file), v.named("two", file), v.named("gone", long_ad(SECTOR, GONE)), v.folder("empty", [])])
    names = [Item(v.named(name, shared, DIRECTORY).bytes, 0, work) for name in ("first", "second", "third")]
    skipped = [v.skipped("old", file, DELETED), v.skipped("up", v.root, DIRECTORY | PARENT)]
    v.is_root([names[0], v.named("three", file), *skipped, names[1], v.folder("under", [names[2], v.named("four", file)])], kind=SHORT)
    s = Shelf("files and directories with several names", v, v, v)
    s.survey()
    s.survey(lengths=s.lengths[:1])
    s.survey(work=v.work - 1)
    yield s
    v = Volume()
    below = v.holding([v.named("f", v.file(b"12345", kind=SHORT))])[0]
    for _ in range(9):
        below = v.holding([v.named(name, below, DIRECTORY) for name in "ab"])[0]
    v.is_root([v.named(name, below, DIRECTORY) for name in "ab"])
    s = Shelf("ten directories of two entries, each naming the next", v)
    s.survey()
    yield s


def chains():
    """Chains of 0 to 32 continuations, and the longest of several; a refused file's isn't counted, however long."""
    volumes = [
        with_files(lambda v: v.chained(1)),
        with_files(lambda v: v.chained(2), lambda v: v.chained(32), lambda v: v.chained(5, information=0)),
        with_files(lambda v: v.chained(3), lambda v: v.chained(32, last=short_ad(10, GONE)), lambda v: v.chained(33)),
        with_files(lambda v: v.chained(0)),
        with_files(lambda v: v.chained(31, information=17), lambda v: v.chained(7, last=short_ad(0, 9, NEXT))),
    ]
    s = Shelf("chains", *volumes)
    s.survey()
    s.survey(how=CHECKED)
    n = s.lengths[0]
    for many in range(1, 5):
        s.survey(lengths=[n] * many)
    yield s
    v = Volume()
    at = v.take()
    v.put(at, aed(short_ad(1, 9) + short_ad(SECTOR, at, NEXT)))
    loop = v.stored(entry(SHORT, short_ad(SECTOR, at, NEXT), 1))
    two = v.take(2)
    v.put(two, aed(ext_ad(1, v.data()) * 101 + ext_ad(60, v.data()) + ext_ad(44, v.free, NEXT)))
    v.put(v.take(), aed(ext_ad(60, v.data())))
    wide = v.stored(entry(EXT, ext_ad(4096, two, NEXT), 1000))
    v.is_root([v.named("loop", loop), v.named("wide", wide), v.folder("d", [v.named("empty", v.stored(entry(LONG, b"", 5)))])], kind=SHORT)
    s = Shelf("a chain that comes back, and one over two sectors", v)
    s.survey()
    yield s


def beyond():
    """Extents that the read doesn't come to are counted, and not read; files that are empty, or that have fewer bytes than they say."""
    behind = short_ad(5000, 9, ALLOCATED) + short_ad(10, GONE) + short_ad(9, 9, UNALLOCATED)
    v = with_files(
        lambda v: v.stored(entry(SHORT, short_ad(100, v.data()) + behind, 100)),
        lambda v: v.stored(entry(SHORT, short_ad(3000, v.data(2)) + behind, 2048)),
        lambda v: v.stored(entry(SHORT, short_ad(100, v.data()) + behind, 0)),
        lambda v: v.stored(entry(SHORT, short_ad(100, v.data()) + short_ad(0, 9) + behind, 2**63)),
        lambda v: v.stored(entry(SHORT, b"", 0)),
        lambda v: v.stored(entry(SHORT, b"", MOST)),
        lambda v: v.stored(entry(EMBEDDED, b"embedded", 0)),
        lambda v: v.stored(entry(EMBEDDED, b"embedded", MOST)),
        lambda v: v.stored(entry(LONG, long_ad(50, v.data()) + long_ad(60, 9, partition=OTHER), 50)),
        lambda v: v.stored(entry(SHORT, short_ad(100, v.data()) + behind, 101)),
    )
    s = Shelf("extents behind the information length, and empty files", v)
    s.survey()
    s.survey(how=CHECKED)
    yield s


def choices():
    """Volumes that the choices of opening tell apart."""
    two = Volume([USUAL[0], made(partition, number=PARTITION, start=START, sequence=9), made(partition, number=PARTITION, start=LATER, sequence=8), *USUAL[2:]])
    two.is_root([two.cue("first"), two.cue("second")])
    two.put(LATER - START + BLOCK, udf.sealed(file_set(LATER + BLOCK), 496))
    later = udf.sealed(identifier("later", long_ad(SECTOR, 4)))
    two.put(LATER - START + 5, entry(EMBEDDED, later, len(later)))
    two.put(LATER - START + 4, entry(EMBEDDED, b"in the other partition", 22))
    body = with_files(lambda v: v.wrong(v.file(b"wrong")), lambda v: v.file(b"right"))
    s = Shelf("volumes that the choices tell apart", mapped_images.Disc(mapped_images.FOUR), two, body, mapped_images.Disc(mapped_images.ONE))
    for how in (*range(9), 16, 2**31):
        s.survey(how=how)
    yield s
    s = Shelf("a volume of two maps", mapped_images.Disc(mapped_images.TWO))
    for how in range(8):
        s.survey(how=how)
    yield s


def at_random():
    """Trees at random, cut at random."""
    for seed in range(6):
        chance, volumes = Chance(seed + 100), []
        for _ in range(1 + chance.below(4)):
            v = Volume()
            makers = [make for several in REFUSED.values() for make in several[:3]]
            odd = [v.named("o%d" % k, makers[chance.below(len(makers))](v)) for k in range(chance.below(4))]
            v.is_root([*grown(v, chance, 4, []), *odd, *grown(v, chance, 3, [])], kind=SHORT)
            volumes.append(v)
        s = Shelf("trees at random, %d" % seed, *volumes)
        for how in (0, CHECKED, HIGHEST):
            s.survey(how=how)
        for v in volumes:
            s.survey(work=v.work)
            s.survey(work=v.work - 1)
        for _ in range(3):
            s.survey(how=chance.below(9), lengths=[n - chance.below(2) * chance.below(n) for n in s.lengths], work=chance.below(2000))
        yield s


# ---- rows by hand


def place(*figures, **more):
    """A place with these figures, by their number; a figure is a number, or a number and its mark."""
    row = [0] * PLACE
    for at, figure in [*enumerate(figures), *((int(name[1:]), figure) for name, figure in more.items())]:
        row[2 * at : 2 * at + 2] = figure if isinstance(figure, tuple) else (figure, 0)
    return row


def by_hand():
    """Totals of any numbers: sums up to 2^64 - 1 and past it, marks, chains, too few places and none."""
    s, free = Shelf("rows by hand"), [0] * PLACE
    every = place(*range(1, 41))
    for row in (
        [every],
        [every, place(*range(100, 4, -1)[:40])],
        [place(MOST - 1), place(1)],
        [place(MOST), place(0)],
        [place(MOST), place(1)],
        [place(1), place(MOST)],
        [place(MOST), place(MOST)],
        [place(2**63, _38=2**63), place(2**63, _38=2**63 - 1), place(0, _38=1)],
        [place((5, 1)), place(3)],
        [place(3), place((5, 1)), place(4)],
        [place((MOST, 1), (0, 1)), place(0, 0)],
        [place((7, 2), (0, MOST), (MOST, 2**63)), place(1, 1, 1)],
        [place(1, 1), place((7, 2), (0, MOST))],
        [place(_39=5), place(_39=7)],
        [place(_39=7), place(_39=5)],
        [place(_39=7), place(_39=7), place(_39=6)],
        [place(_39=MOST), place(_39=1)],
        [place(_39=(5, 1)), place(_39=7)],
        [place(_39=7), place(_39=(5, 9))],
        [place(_38=MOST, _39=MOST), place(_38=MOST, _39=MOST)],
        [place(*[MOST] * 40), place(*[1] * 40)],
        [place(*[(MOST, 1)] * 40)],
        [place(k) for k in range(1, 11)],
    ):
        s.total(len(row), [n for one in [*row, free] for n in one])
    # The place behind them is written over, whatever it held; what stands behind that isn't.
    s.total(1, every, 2 * PLACE)
    s.total(1, every, 2 * PLACE + 79)
    s.total(0, every)
    s.total(1, every + every)
    # Too few places, and none: 2^62 places have as many numbers as none in 64 bits.
    for numbers in (0, 79, 80):
        s.total(0, every[:numbers])
    for places, numbers in ((1, 80), (1, 159), (1, 160), (2, 160), (2, 239), (3, 240)):
        s.total(places, (every * 3)[:numbers])
    for places in (2**32, 2**62 - 1, 2**63, MOST):
        s.total(places, every * 3)
    yield s


# ---- budgets: how many sectors are wanted, tools/rules.py says


def wanted(v, how=0):
    """How many sectors an image takes for its opening; for that and its tree; and for these and the reads of its first files, one after another."""
    disc = rules.Disc(bytes(v.bytes))
    volume = rules.opened(disc, how)
    yield disc.count
    tree = list(rules.nodes(disc, volume, volume.root, 1, rules.MOST_LEVELS, WORK))
    yield disc.count
    for icb in (one.icb for _, one in tree if not one.is_directory):
        rules.asked(disc, lambda disc: rules.measure(disc, volume, icb))
        yield disc.count


def around(v, how=0):
    """Each of these, and one sector fewer."""
    return sorted({n - less for n in wanted(v, how) for less in (0, 1)})


def of_zeros():
    """Files of each kind at two levels, whose bytes are zeros, which cost nothing to keep."""
    v = Volume()
    short = v.stored(entry(SHORT, short_ad(5000, v.take(3)), 5000))
    long = v.stored(entry(LONG, long_ad(2048, v.take()) + long_ad(2049, v.take(2)), 4000))
    ext = v.stored(entry(EXT, ext_ad(9000, v.take(5)) + ext_ad(9, GONE), 9000, EXTENDED_FILE_ENTRY))
    kinds = [v.named("short", short), v.named("long", long), v.named("ext", ext), v.named("chain", v.chained(3)), v.named("again", short)]
    v.is_root([v.cue("a"), v.folder("kinds", kinds, kind=LONG), v.cue("z")], kind=SHORT)
    return v


def harmful():
    """Thirteen directories, the root first, of twenty entries that all lead to the next, and a last one with a file."""
    v = Volume()
    below = v.holding([v.cue("file")])[0]
    for block in (*[None] * 12, ROOT):
        below = v.holding([v.named("%02d" % n, below, DIRECTORY) for n in range(20)], block=block)[0]
    return v


def budgets():
    """Sectors exactly enough and one short for the opening, the tree, and each file; a disc made to do harm between good ones. Each shelf
    is asked first with no budget, or where it doesn't end so with the highest that it is lent."""
    good, small_one = of_zeros(), small("a", "b")
    s = Shelf("a disc made to do harm, between good ones", good, harmful(), small_one)
    enough, few = max(wanted(good)), max(wanted(small_one))
    for most in (1000, enough, enough - 1, few, few - 1, 20, 19, 6, 0):
        s.survey(work=2**15, most=most)
    # Its tree has no work space below the eighth of its directories.
    for most in (1000, 15, 14):
        s.survey(most=most)
    for how in (CHECKED, MAPS, HIGHEST, NONE_SUCH):
        s.survey(how=how, work=2**15, most=1000)
    s.survey(how=NONE_SUCH, most=0)
    s.survey(work=2**15, most=1000, more=-1)
    yield s
    s = Shelf("sectors enough and one short for each part", good)
    for most in (MOST, MOST - 1, 2**63, 2**32 + enough - 1, 2**32, enough + 1, *around(good), 1, 0):
        s.survey(most=most)
    yield s
    # A refused read counts with the sectors that it asked for, and is then followed by the next.
    refused = with_files(*(make for several in REFUSED.values() for make in several[:3]))
    s = Shelf("sectors enough and one short for refused files", refused)
    for how in (0, CHECKED):
        for most in (MOST, *around(refused, how)):
            s.survey(how=how, most=most)
    yield s
    # Files are read behind the tree: where that is refused none is, however long those are that stand before.
    loop, bad = Volume(), Volume()
    loop.is_root([loop.named("long", loop.chained(32)), loop.named("loop", loop.root, DIRECTORY)])
    bad.is_root([bad.named("long", bad.chained(32)), bad.folder("d", [Item(identifier("bad", bad.root, wrong=1))])])
    gone = with_files(lambda v: v.chained(32), lambda v: long_ad(SECTOR, GONE))
    s = Shelf("trees that are refused behind long files, and one that isn't", loop, bad, gone)
    for most in (MOST, 5, 6, 7, 8, 21, 22, 23, *around(gone)[-4:], 100):
        s.survey(most=most)
    yield s
    two, three, ten = Volume(), Volume(USUAL[1:]), small("c")
    two.flip(ANCHOR, 4, fix=False)
    ten.flip(MAIN, 100)
    s = Shelf("openings that are refused within a budget and by it", good.bytes[: ANCHOR * SECTOR + 2047], two, three, ten, small_one)
    for most in (MOST, *range(9)):
        s.survey(most=most)
        s.survey(how=CHECKED, most=most)
    yield s


CASES = [nothing, rows, cuts, openings, trees, files, paths, chains, beyond, choices, at_random, by_hand, budgets]
