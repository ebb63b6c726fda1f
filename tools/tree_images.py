"""Volumes with trees of directories, and the shows that are asked of them, with budgets too: how long a list is, tools/rules.py says."""

import random

import discs
import rules
import udf
from asked import BIT, WAYS
from discs import DELETED, DIRECTORY, HIDDEN, OTHER, PARENT, ROOT, identifier, parent, wide
from udf import ALLOCATED, EMBEDDED, EXT, EXTENDED_FILE_ENTRY, LONG, PARTITION, SECTOR, SHORT, START, long_ad, short_ad

ROOM, WORK = 4096, 8192  # The output's room and the work space's, where a query says nothing else.
LARGE = 65536  # As much as the program has to lend.
HEAD = 22  # What a record has before its name.
MOST = 16  # The most levels that can be asked for.


class Item:
    """An entry of a directory: its bytes, the bytes of its record and of those under it, and the work space that the directories under it take."""

    def __init__(self, data, room=0, work=0):
        self.bytes, self.room, self.work = data, room, work


class Volume(discs.Volume):
    def __init__(self, name, blocks=64, sealed=False, **how):
        super().__init__(name, blocks, **how)
        self.is_sealed = sealed

    # -- what stands on it

    def put(self, block, what):
        """A descriptor of a sealed volume has the CRC of its body."""
        super().put(block, udf.sealed(what) if self.is_sealed and what[:2] in (b"\x05\x01", b"\x0a\x01") else what)

    def named(self, name, icb, marks=0, **how):
        """An entry that is listed."""
        one = identifier(name, icb, marks, **how)
        size = len(name.encode("utf-8")) if isinstance(name, str) else 0
        return Item(udf.sealed(one) if self.is_sealed else one, HEAD + size)

    def skipped(self, name, icb, marks):
        one = identifier(name, icb, marks)
        return Item(udf.sealed(one) if self.is_sealed else one)

    def parent(self):
        return Item(udf.sealed(parent()) if self.is_sealed else parent())

    def cue(self, name, marks=0):
        return self.named(name, self.file(name.encode("utf-8")), marks)

    def holding(self, items, **how):
        """A directory of these items, behind its parent's entry: its ICB, and what it takes."""
        items = [self.parent(), *items]
        icb = self.directory([one.bytes for one in items], **how)
        return icb, sum(one.room for one in items), self.sizes[icb] + max(one.work for one in items)

    def folder(self, name, items, marks=0, **how):
        icb, room, work = self.holding(items, **how)
        one = self.named(name, icb, DIRECTORY | marks)
        return Item(one.bytes, one.room + room, work)

    def is_root(self, items, **how):
        """Puts the root down: the room and the work space of the whole tree."""
        _, self.room, self.work = self.holding(items, block=ROOT, **how)

    # -- what is asked of it

    def show(self, *levels, room=ROOM, work=WORK, checked=0):
        volume = self.by_hand(start=START, partition=PARTITION, checked=checked, root=self.root) if checked else 0
        for n in levels:
            self.query("show", volume=volume, levels=n, room=room, work=work)

    def edges(self, levels=MOST):
        """Room and work space exactly enough, a byte short, a byte more, and none."""
        for room in dict.fromkeys((self.room, self.room + 1, max(self.room - 1, 0), 0)):
            self.show(levels, room=room, work=self.work)
        for work in dict.fromkeys((self.work, self.work + 1, max(self.work - 1, 0), 0)):
            self.show(levels, room=self.room, work=work)

    def listed(self, q):
        """The answer number of a show that was asked for, and how many sectors are on its list."""
        disc = rules.Disc(bytes(self.bytes))
        volume = rules.opened(disc, q.volume) if q.volume < WAYS else self.hands[q.volume - WAYS]
        disc.count = 0
        answer, _ = rules.asked(disc, lambda disc: rules.show(disc, volume, q.levels, q.most, q.room, q.work))
        return answer, disc.count

    def lend(self):
        """Of each answer number the show with the longest list once more, lent as many sectors as are on it, and one fewer; the longest of all also lent none."""
        longest = {}
        for q in self.queries:
            answer, count = self.listed(q) if q.calls == BIT["show"] else (0, -1)
            if count > longest.get(answer, (-1, q))[0]:
                longest[answer] = count, q
        for count, q in longest.values():
            least = 0 if count == max(count for count, _ in longest.values()) else count
            self.queries += [q._replace(most=most) for most in sorted({least, count - 1, count}) if most >= 0]


def lent(case):
    """The volumes of a case, with budgets behind all else that is asked of them."""

    def volumes():
        for v in case():
            v.lend()
            yield v

    return volumes


# ---- cases


def depths():
    """Trees of 1 to 17 levels, with a cue at each: shown to one level fewer, to as many, to more; with work space for the directories down to each."""
    for depth in range(1, MOST + 2):
        v = Volume("a tree of %d level%s" % (depth, "s" * (depth > 1)), 60)
        items, sizes = [v.cue("cue%d" % depth)], []
        for level in range(depth - 1, 0, -1):
            before, behind = v.cue("a%d" % level), v.cue("z%d" % level)
            one = v.folder("down%d" % level, items, kind=SHORT if level % 3 == 0 else EMBEDDED)
            sizes.append(one.work)
            items = [before, one, behind]
        v.is_root(items)
        v.show(*range(depth + 2) if depth < MOST else (1, 15, 16, 17))
        v.edges(depth)
        # The directories from the root down to each: those sizes are of what is left below.
        for left in sizes:
            v.show(depth, work=v.work - left)
            v.show(depth, work=v.work - left - 1)
        yield v


def numbers():
    """Numbers of levels: those that are refused at once, with 0 sectors, also where nothing can be read; and 257, which is 1 in eight bits."""
    all_numbers = (0, 1, 2, 15, 16, 17, 18, 255, 256, 257, 272, 65535, 65536, 65537, 2**31, 2**32 - 16, 2**32 - 1)
    v = Volume("numbers of levels", 20)
    v.is_root([v.cue("one"), v.folder("two", [v.cue("three")])])
    v.show(*all_numbers)
    v.show(0, 17, room=0, work=0)
    yield v
    v = Volume("numbers of levels, of a root past the image", 8, root=long_ad(SECTOR, 100))
    v.show(*all_numbers)
    yield v


def roots():
    """Roots of no entries, of files alone, and that can't be read."""
    v = Volume("an empty root", 8)
    v.is_root([])
    v.edges(1)
    v.show(1, 16, room=0)
    yield v
    v = Volume("a root of no bytes", 8)
    v.root_is([])
    v.show(1, 16, room=0, work=0)
    yield v
    v = Volume("a root of files", 20)
    v.is_root([v.cue("a"), v.cue("b"), v.cue("\u00e9\u20ac"), v.named(wide("A\ud800B"), v.file(b""))])
    v.show(1, 2, 16)
    yield v
    for name, icb in [
        ("of length 0", long_ad(0, ROOT)),
        ("past the image", long_ad(SECTOR, 100)),
        ("where no entry stands", long_ad(SECTOR, udf.BLOCK)),
        ("of type 3 in another partition", long_ad(1, ROOT, udf.NEXT, OTHER)),
    ]:
        v = Volume("a root %s" % name, 16, root=icb)
        v.is_root([v.cue("f"), v.folder("d", [])])
        v.show(1, 2, 17)
        yield v


def loops():
    """Directories that hold themselves: each is found at the last level, or has no work space left before."""
    v = Volume("a root that holds itself", 20)
    v.is_root([v.cue("a"), v.named("loop", v.root, DIRECTORY), v.cue("z")])
    size = v.sizes[v.root]
    v.show(*range(1, 18))
    for levels in (1, 2, 5, 16):
        v.show(levels, work=size * levels)
        v.show(levels, work=size * levels - 1)
        v.show(levels, work=size * (levels - 1))
        v.show(levels, room=0, work=size * levels)
    yield v
    v = Volume("a directory that holds itself, at each depth", 60)
    at = v.take()
    itself = v.named("again", long_ad(SECTOR, at), DIRECTORY)
    v.directory([v.parent().bytes, v.cue("in").bytes, itself.bytes], block=at)
    v.is_root([v.cue("first"), v.folder("one", [v.folder("two", [v.cue("before"), itself, v.cue("behind")])]), v.cue("last")])
    v.show(1, 2, 3, 4, 10, 16)
    v.show(16, work=1000)
    yield v
    v = Volume("two directories that hold each other", 20)
    here, there = v.take(), v.take()
    v.directory([v.parent().bytes, v.named("there", long_ad(SECTOR, there), DIRECTORY).bytes], block=here)
    v.directory([v.parent().bytes, v.named("here", long_ad(SECTOR, here), DIRECTORY).bytes], block=there)
    v.is_root([v.named("here", long_ad(SECTOR, here), DIRECTORY)])
    v.show(1, 2, 3, 16)
    yield v
    # Its parent's entry leads to the root, and so does a deleted one: neither is followed.
    v = Volume("a root that only skipped entries name", 20)
    v.is_root([v.skipped("up", v.root, DIRECTORY | DELETED), v.cue("a"), v.folder("d", [v.skipped("up", v.root, DIRECTORY | PARENT)])])
    v.show(1, 2, 3, 16)
    v.edges()
    yield v


def doubles():
    """Directories with several names: each is shown, and read, once for each path."""
    v = Volume("two names of one directory", 40)
    inner = v.folder("inner", [v.cue("x"), v.cue("y")])
    shared, room, work = v.holding([v.cue("a"), inner, v.cue("b")], kind=SHORT)
    names = [Item(v.named(name, shared, DIRECTORY).bytes, HEAD + len(name) + room, work) for name in ("first", "second", "second")]
    v.is_root([names[0], v.cue("between"), names[1], v.folder("under", [names[2]])])
    v.show(*range(1, 6))
    v.edges()
    yield v
    for depth, room in ((10, LARGE), (12, LARGE), (15, 0)):
        v = Volume("%d directories of two entries, each naming the next; room %d" % (depth - 1, room), 40)
        below, size, work = v.holding([])
        for _ in range(depth - 1):
            below, size, work = v.holding([Item(v.named(name, below, DIRECTORY).bytes, HEAD + 1 + size, work) for name in "ab"])
        v.is_root([Item(v.named(name, below, DIRECTORY).bytes, HEAD + 1 + size, work) for name in "ab"])
        v.show(depth, depth + 1, room=room, work=v.work)
        v.show(depth + 1, room=room, work=v.work - 1)
        if v.room <= LARGE:
            v.edges(depth + 1)
        yield v


def empties():
    """Empty directories at the last level, which are 11, and above it, which are shown; first, last and alone."""
    v = Volume("empty directories", 60)
    v.is_root([v.cue("a"), v.folder("empty", []), v.folder("d", [v.folder("empty", []), v.cue("b"), v.folder("e", [v.folder("empty", [])])]), v.cue("z")])
    v.show(*range(1, 7))
    v.edges()
    yield v
    for name, items in [("first", ("empty", "a", "b")), ("between", ("a", "empty", "b")), ("last", ("a", "b", "empty")), ("alone", ("empty",))]:
        v = Volume("an empty directory at the last level, %s" % name, 20)
        v.is_root([v.folder(one, []) if one == "empty" else v.cue(one) for one in items])
        v.show(1, 2, 16)
        yield v
    v = Volume("a directory of no bytes", 20)
    nothing = v.directory([])
    short = v.file(b"text" * 9)
    v.is_root([v.named("nothing", nothing, DIRECTORY), v.named("short", short, DIRECTORY), v.cue("z")])
    v.show(1, 2, work=v.work + 36)
    v.show(2, work=v.work + 35)
    v.show(2, work=v.work)
    yield v


def nested(v, depth, items, word="d"):
    """The items under so many directories, each with a cue before and behind."""
    for level in range(depth, 0, -1):
        items = [v.cue("%s%da" % (word, level)), v.folder("%s%d" % (word, level), items), v.cue("%s%dz" % (word, level))]
    return items


def bad():
    """A bad entry at each depth, first, between and last, of which all before and behind are good: directories among them aren't come to."""
    for depth in range(5):
        for place, name in enumerate(("first", "between", "last")):
            v = Volume("a bad entry at level %d, %s" % (depth + 1, name), 60)
            items = [v.cue("a"), v.folder("b", [v.cue("c")])]
            items.insert(place, Item(identifier("bad", v.root, wrong=1)))
            v.is_root(nested(v, depth, items))
            v.show(*range(1, depth + 3))
            v.show(16, room=0)
            # A byte less than the directory takes is 6, before the bad entry is looked at.
            v.show(16, work=v.work - v.sizes[long_ad(SECTOR, v.free - 1 if depth else ROOT)])
            yield v
    # What stands before the bad directory has its turn, and what is behind it hasn't.
    gone = long_ad(SECTOR, 4000)
    for name, order in [("before", (1, 0)), ("behind", (0, 1))]:
        v = Volume("a directory past the image, %s a bad one" % name, 40)
        two = [v.folder("bad", [Item(identifier("bad", v.root, wrong=1))]), v.named("gone", gone, DIRECTORY)]
        v.is_root([v.cue("a"), *[two[n] for n in order]])
        v.show(1, 2, 3)
        yield v
    for name, items in [
        ("a directory at the last level before a bad entry", lambda v: [v.folder("d", []), Item(identifier("bad", v.root, wrong=1))]),
        ("a name that ends past the directory", lambda v: [v.folder("d", []), Item(identifier("long", v.root, name_length=200))]),
        ("a name of no d-string", lambda v: [v.folder("d", []), Item(identifier(b"\x09text", v.root))]),
        ("an entry of another id", lambda v: [v.folder("d", []), Item(identifier("other", v.root, identifier=258))]),
        ("a bad deleted entry", lambda v: [v.folder("d", []), Item(identifier("gone", v.root, DELETED, wrong=1))]),
        ("fewer than 38 bytes behind the last entry", lambda v: [v.cue("a"), Item(b"\xff" * 37)]),
    ]:
        for depth in (0, 2):
            v = Volume("%s, at level %d" % (name, depth + 1), 40)
            v.is_root(nested(v, depth, items(v)))
            v.show(*range(1, depth + 3))
            yield v


def unread():
    """Directories that can't be read, at each depth, between others: by 1, 2 and 4."""

    def extent(v, area, size, kind=SHORT):
        at = v.take()
        v.put(at, udf.entry(kind, area, size))
        return long_ad(SECTOR, at)

    for name, icb in [
        ("past the image", lambda v: long_ad(SECTOR, 4000)),
        ("past what 32 bits count", lambda v: long_ad(SECTOR, 2**32 - 1)),
        ("with its bytes past the image", lambda v: extent(v, short_ad(300, 4000), 300)),
        ("with the second of its extents past the image", lambda v: extent(v, short_ad(38, 9) + short_ad(300, 4000), 300)),
        ("of length 0", lambda v: long_ad(0, ROOT)),
        ("of length 0 and type 1", lambda v: long_ad(0, ROOT, ALLOCATED)),
        ("that is a file", lambda v: v.file(b"text" * 20)),
        ("that is a file of fewer bytes than an entry", lambda v: v.file(b"text" * 2)),
        ("of a bad entry", lambda v: v.file(b"", wrong=1)),
        ("that isn't recorded", lambda v: extent(v, short_ad(300, 9, ALLOCATED), 300)),
        ("of another partition", lambda v: extent(v, long_ad(300, 9, partition=OTHER), 300, LONG)),
    ]:
        for depth in (0, 1, 4):
            v = Volume("a directory %s, at level %d" % (name, depth + 1), 60)
            before, behind = v.folder("b", [v.cue("c")]), v.folder("y", [v.cue("x")])
            v.is_root(nested(v, depth, [v.cue("a"), before, v.named("it", icb(v), DIRECTORY), behind]))
            v.show(*range(1, depth + 4), 16)
            v.show(16, room=0)
            yield v
    # A file's own ICB isn't read.
    v = Volume("files that can't be read", 20)
    v.is_root([v.named("gone", long_ad(SECTOR, 4000)), v.named("none", long_ad(0, 0)), v.folder("d", [v.named("gone", long_ad(SECTOR, 2**32 - 1))])])
    v.show(1, 2, 3)
    v.edges()
    yield v


def spaces():
    """Work space: siblings take the same bytes, one behind the other; what counts is the way down that takes most."""
    v = Volume("a narrow way behind a wide one", 60)
    wide_one = v.folder("wide", [v.cue("a long name of a cue in the wide directory %d" % n) for n in range(8)])
    narrow = v.folder("narrow", [v.folder("n", [v.folder("m", [v.cue("c")])])])
    v.is_root([wide_one, narrow, v.cue("z")])
    v.show(1, 2, 3, 4, 5)
    v.edges()
    for one in (wide_one, narrow):
        for less in (0, 1):
            v.show(16, work=v.sizes[v.root] + one.work - less)
    yield v
    v = Volume("directories over sectors", 120)
    many = v.folder("many", [v.cue("cue number %02d" % n) for n in range(40)], kind=SHORT, cuts=(2048,))
    more = v.folder("more", [many, v.cue("z")], kind=EXT, cuts=(30,), chained=True)
    v.is_root([v.cue("a"), more], kind=LONG, cuts=(45, 100), identifier=EXTENDED_FILE_ENTRY)
    v.show(1, 2, 3, 4)
    v.edges()
    v.edges(3)
    yield v
    # 6 comes behind the refusals of reading the directory, and before its entries.
    v = Volume("a directory with no work space left that can't be read", 30)
    at = v.take()
    v.put(at, udf.entry(SHORT, short_ad(300, 4000), 300))
    v.is_root([v.named("gone", long_ad(SECTOR, at), DIRECTORY)])
    v.show(2, work=v.work)
    v.show(2, work=v.work - 1)
    yield v
    v = Volume("a bad directory with no work space left", 30)
    v.is_root([v.folder("bad", [Item(identifier("bad", v.root, wrong=1))])])
    v.show(2, work=v.work)
    v.show(2, work=v.work - 1)
    yield v


def skips():
    """Deleted and parent entries, directories among them, at the last level and above it; other marks aren't looked at."""
    v = Volume("skipped entries", 60)

    def around(items):
        gone = v.skipped("old", long_ad(SECTOR, 4000), DIRECTORY | DELETED)
        up = v.skipped("up", v.root, DIRECTORY | PARENT)
        return [gone, up, v.skipped(b"\xfe", v.root, DELETED), *items, v.skipped("both", v.root, DELETED | PARENT), gone]

    v.is_root(around([v.cue("a"), v.folder("d", around([v.cue("b"), v.folder("e", around([]), HIDDEN)])), v.cue("z", HIDDEN | 0xF0)]))
    v.show(1, 2, 3, 4)
    v.edges()
    yield v
    v = Volume("nothing but skipped directories at the last level", 20)
    v.is_root([v.skipped("a", v.root, DIRECTORY | DELETED), v.skipped("b", v.root, DIRECTORY | PARENT)])
    v.show(1, 2)
    yield v


def names():
    """Names of each width, the longest, and none; a directory without a name is a directory all the same."""
    v = Volume("names", 60)
    longest = v.named(b"\x10" + "\u00e9".encode("utf-16-be") * 127, v.file(b""))
    longest.room = HEAD + 254
    most = v.named(b"\x08" + b"\xe9" * 254, v.file(b""))
    most.room = HEAD + 508
    inner = [v.cue("\u20ac uro"), longest, most, v.named(b"", v.file(b"")), v.named(b"\x08", v.file(b"")), v.named(b"\xff\x01", v.file(b""))]
    v.is_root([v.folder("", [v.cue("in")]), v.folder("/", [v.cue("..")]), v.folder("Caf\u00e9", inner, kind=SHORT)], kind=SHORT)
    v.show(1, 2, 3)
    v.edges()
    yield v


def checked():
    """Volumes with right CRCs, and a wrong body in an entry, or in the descriptor of a directory, at each depth: 10 where bodies are checked."""
    v = Volume("right bodies at every depth", 60, sealed=True)
    v.is_root(nested(v, 4, [v.cue("a")]))
    for number in (0, 1, 256, 2**31):
        v.show(4, 5, 16, checked=number)
    yield v

    def wrong(item):
        """With a bit of the CRC changed, and a checksum that is right again."""
        b = bytearray(item.bytes)
        b[8] ^= 1
        b[4] = (sum(b[:16]) - b[4]) % 256
        return Item(bytes(b), item.room, item.work)

    for depth in (0, 1, 3):
        for place, name in enumerate(("first", "between", "last")):
            v = Volume("a wrong body in the %s entry of level %d" % (name, depth + 1), 60, sealed=True)
            items = [v.cue("a"), v.folder("b", [v.cue("c")])]
            items.insert(place, wrong(v.skipped("old", v.root, DELETED) if place == 1 else v.cue("wrong")))
            v.is_root(nested(v, depth, items))
            for number in (0, 1, 256):
                v.show(depth + 1, depth + 2, checked=number)
            v.show(depth, checked=1)
            yield v
        v = Volume("a wrong body of the directory at level %d" % (depth + 1), 60, sealed=True)
        one = v.folder("wrong", [v.cue("a")])
        at = (START + v.free - 1) * SECTOR
        v.bytes[at + 8] ^= 1
        v.bytes[at + 4] = (sum(v.bytes[at : at + 16]) - v.bytes[at + 4]) % 256
        v.is_root(nested(v, depth, [v.cue("a"), one, v.folder("b", [v.cue("c")])]))
        for number in (0, 1, 2**31):
            v.show(depth + 1, depth + 2, depth + 3, checked=number)
        yield v
    v = Volume("a wrong body behind a directory at the last level", 40, sealed=True)
    v.is_root([v.folder("d", [v.folder("e", []), v.cue("a")]), wrong(v.cue("wrong"))])
    v.show(1, 2, 3, checked=1)
    v.show(1, 2, 3)
    yield v


class Chance:
    """Numbers at random, the same each time."""

    def __init__(self, seed):
        self.random = random.Random(seed).random

    def below(self, n):
        return int(self.random() * n)

    def one_in(self, n):
        return self.below(n) == 0


def grown(v, chance, depth, made):
    """Items of a directory at random; some of its directories are ones that were made before."""
    items = []
    for n in range(chance.below(5)):
        name = "%c%s" % (97 + n, "\u00e9" * chance.below(3))
        kind = chance.below(8)
        if kind < 4 or (kind == 4 and not made):
            items.append(v.cue(name))
        elif kind == 4:
            shared, room, work = made[chance.below(len(made))]
            items.append(Item(v.named(name, shared, DIRECTORY).bytes, HEAD + len(name.encode("utf-8")) + room, work))
        elif kind == 5:
            items.append(v.skipped(name, v.root, DELETED | (DIRECTORY if chance.one_in(2) else 0)))
        elif depth > 0 and v.free < 120:
            inner = grown(v, chance, depth - 1, made)
            if chance.one_in(20):
                inner.append(Item(identifier("bad", v.root, wrong=1)))
            below = v.holding(inner, kind=(EMBEDDED, SHORT, LONG, EXT)[chance.below(4)])
            made.append(below)
            items.append(Item(v.named(name, below[0], DIRECTORY).bytes, HEAD + len(name.encode("utf-8")) + below[1], below[2]))
        else:
            items.append(v.named(name, v.root if chance.one_in(3) else long_ad(SECTOR, 4000), DIRECTORY if chance.one_in(3) else 0))
    return items


def at_random():
    """Trees at random, shown to each number of levels, with room and work space at random and around what they take."""
    for seed in range(24):
        chance = Chance(seed)
        v = Volume("a tree at random, %d" % seed, 180)
        v.is_root([v.cue("cue"), *grown(v, chance, 3 + seed % 4, []), *grown(v, chance, 3, []), v.cue("last")], kind=SHORT)
        v.show(1, 2, 3, 4, 5, 6, 8, 16)
        v.edges()
        for _ in range(4):
            v.show(1 + chance.below(8), room=chance.below(v.room + 40), work=chance.below(v.work + 40))
        yield v


CASES = [lent(case) for case in (depths, numbers, roots, loops, doubles, empties, bad, unread, spaces, skips, names, checked, at_random)]
