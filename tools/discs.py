"""What the writers of images share: an image with what is asked of it (tools/asked.py), and a volume whose files and directories are put into its
blocks one behind another (tools/udf.py has the layout).

A writer is a module with CASES, a row of functions that yield images. tools/images.py runs them.
"""

import struct

import udf
from asked import BIT, WAYS, Query, recorded
from rules import NOTHING, UNLIMITED
from udf import ANCHOR, BLOCK, DESCRIPTOR, EMBEDDED, FILE_IDENTIFIER, MAIN, NEXT, PARTITION, SECTOR, START
from udf import aed, entry, long_ad, tag

OTHER = 6  # Another partition's number.
ROOT = BLOCK + 1  # The block of the root directory's entry.
HIDDEN, DIRECTORY, DELETED, PARENT = 1, 2, 4, 8  # File characteristics (ECMA-167 4/14.4.3).
CHECKED, MAPS, HIGHEST = 1, 2, 4  # Ways of opening, which are added.
EVERY_WAY = range(8)
CASE_IGNORED, AS_WRITTEN, UNAMBIGUOUS = MATCHINGS = 0, 1, 2


class Asked(udf.Image):
    """An image and what is asked of it. Its bytes may be given, or be those of a base, over which it is kept."""

    def __init__(self, name, sectors=0, more=0, data=None, base=None):
        super().__init__(name, sectors, more)
        self.base, self.hands, self.queries = base, [], []
        if data or base:
            self.bytes = bytearray(data or base.bytes)

    def query(self, *calls, text=b"", icb=bytes(16), volume=0, there=None, matching=0, levels=0, most=UNLIMITED, room=0, work=0, slots=0, answers=0):
        """Asks for calls, of all the image unless less is there."""
        bits = sum(BIT[call] for call in calls)
        there = len(self.bytes) if there is None else there
        self.queries.append(Query(bits, volume, there, matching, levels, room, work, slots, answers, icb, most, encoded(text)))

    def by_hand(self, **said):
        """The number of a volume that is made by hand."""
        one = NOTHING._replace(**said)
        if one not in self.hands:
            self.hands.append(one)
        return WAYS + self.hands.index(one)

    def record(self):
        packed = udf.packed(self.bytes, self.base.bytes if self.base else b"")
        return recorded(self.name, 1 if self.base else 0, packed, self.hands, self.queries)


def encoded(path):
    return path if isinstance(path, bytes) else path.encode("utf-8")


# ---- entries of directories


def dstring(name):
    """A name in 8 bits a character where that is enough, else in 16 (OSTA UDF 2.1.1). Bytes are taken as they are."""
    if isinstance(name, bytes):
        return name
    if all(ord(c) < 256 for c in name):
        return b"\x08" + name.encode("latin-1")
    return wide(name)


def wide(name):
    """A name in 16 bits a character; surrogates are kept."""
    return b"\x10" + name.encode("utf-16-be", "surrogatepass")


def identifier(name, icb, marks=0, use=b"", padded=True, name_length=None, use_length=None, **tagged):
    """A file identifier descriptor (ECMA-167 4/14.4); the lengths are those of what is given, unless they are given too."""
    text = dstring(name)
    name_length = len(text) if name_length is None else name_length
    use_length = len(use) if use_length is None else use_length
    head = tag(tagged.pop("identifier", FILE_IDENTIFIER), **tagged) + struct.pack("<HBB16sH", 1, marks, name_length, icb, use_length)
    whole = head + use + text
    return whole + bytes(-len(whole) % 4) if padded else whole


def parent(use=b""):
    """The entry that each directory begins with: it has no name (4/8.6)."""
    return identifier(b"", long_ad(SECTOR, ROOT), DIRECTORY | PARENT, use)


# ---- volumes


class Volume(Asked):
    """An image with a volume on it, whose files are put into its blocks one behind the other."""

    is_opened = True  # Opening it is asked for first.

    def __init__(self, name, blocks=64, label=b"\x08VAULT", root=long_ad(SECTOR, ROOT), block_size=SECTOR, more=0):
        super().__init__(name, START + blocks, more)
        self.root = root
        self.free = ROOT + 1
        self.sizes = {}
        self.lay(ANCHOR, udf.anchor())
        self.lay(MAIN, udf.primary(MAIN, label))
        self.lay(MAIN + 1, udf.partition(MAIN + 1, PARTITION))
        self.lay(MAIN + 2, udf.logical(MAIN + 2, PARTITION, size=block_size))
        self.lay(MAIN + 3, udf.TERMINATOR(MAIN + 3))
        self.lay(START + BLOCK, udf.file_set(START + BLOCK, root=root))
        if self.is_opened:
            self.query("open")

    def put(self, block, what):
        self.lay(START + block, what)

    def take(self, n=1):
        """The first of n blocks that nothing else has."""
        self.free += n
        return self.free - n

    def extents(self, kind, data, cuts):
        """The data in extents, cut at the places given; a descriptor for each."""
        ads = []
        for a, e in zip([0] + cuts, cuts + [len(data)]):
            at = self.take(max(1, -(-(e - a) // SECTOR)))
            self.put(at, data[a:e])
            ads.append(DESCRIPTOR[kind](e - a, at))
        return ads

    def chain(self, kind, ads):
        """Continuations with one of the descriptors in each; the descriptor of the first."""
        rest = b""
        for ad in reversed(ads):
            at = self.take()
            self.put(at, aed(ad + rest))
            rest = DESCRIPTOR[kind](SECTOR, at, NEXT)
        return rest

    def stored(self, what):
        """A file entry, or what stands in its place, in a block of its own: its ICB."""
        at = self.take()
        self.put(at, what)
        return long_ad(SECTOR, at)

    def file(self, data, kind=EMBEDDED, cuts=(), chained=False, block=None, information=None, **how):
        """A file of these bytes; its ICB. A chained one has each extent but the first in a continuation of its own."""
        block = self.take() if block is None else block
        information = len(data) if information is None else information
        if kind == EMBEDDED:
            self.put(block, entry(kind, data, information, **how))
        else:
            first, *others = self.extents(kind, data, list(cuts))
            rest = self.chain(kind, others) if chained else b"".join(others)
            self.put(block, entry(kind, first + rest, information, **how))
        icb = long_ad(SECTOR, block)
        self.sizes[icb] = min(len(data), information)
        return icb

    def cue(self, name, marks=0):
        """An entry, and behind it a file that says which it is."""
        return identifier(name, self.file(b"cue %d" % self.free), marks)

    def directory(self, entries, **how):
        return self.file(b"".join(entries), **how)

    def folder(self, name, entries, marks=0, **how):
        return identifier(name, self.directory(entries, **how), DIRECTORY | marks)

    def root_is(self, entries, **how):
        return self.directory(entries, block=ROOT, **how)
