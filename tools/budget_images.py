"""Discs made to do harm, whose whole show would never end, and shows that are lent a number of sectors."""

import combined_images
import tree_images
import udf
from asked import WATCHED
from discs import DIRECTORY, EVERY_WAY, ROOT, identifier
from rules import UNLIMITED
from tree_images import LARGE, Item
from udf import ALLOCATED, BLOCK, EXT, LONG, SECTOR, SHORT, long_ad, short_ad

ENTRIES, DEEP = 20, 14  # So many entries has each directory but the last, and so many directories there are.
GONE = long_ad(SECTOR, 4000)


class Volume(tree_images.Volume):
    def lent(self, levels, *budgets, room=0, work=LARGE, **how):
        for most in budgets:
            self.query("show", levels=levels, most=most, room=room, work=work, **how)

    def each(self, levels, room=LARGE, work=LARGE, **how):
        """Every budget up to one more than the list takes, and some that 32 bits don't hold."""
        self.lent(levels, UNLIMITED, room=room, work=work, **how)
        _, count = self.listed(self.queries[-1])
        self.lent(levels, *range(count + 2), 2**32, 2**32 + count - 1, 2**63, UNLIMITED - 1, room=room, work=work, **how)


def many_names(name, last=None, base=None, **how):
    """Thirteen directories, the root first, of twenty entries that all lead to the next, and a last one with a file, or what else is given for it: in 304
    sectors, since each has a block by itself, and none is free."""
    v = Volume(name, DEEP + 2, **how)
    blocks = [ROOT, *(block for block in range(DEEP + 1) if block not in (BLOCK, ROOT))]
    v.free, v.base = DEEP + 1, base
    file = v.cue("file")
    below = last(v, blocks[-1], file) if last else v.holding([file], block=blocks[-1])[0]
    for block in reversed(blocks[:-1]):
        below = v.holding([v.named("%02d" % n, below, DIRECTORY) for n in range(ENTRIES)], block=block)[0]
    return v


def harm():
    """Where it ends without a budget it ends on the first way down: at the last level that is asked for, or at the last directory."""
    v = many_names("a disc made to do harm")
    assert len(v.bytes) == 622592
    v.lent(16, 0, 1, 12, 13, 14, 15, 1000, 10000)
    v.lent(14, 0, 13, 14, 1000)
    for levels in (13, 12):
        v.lent(levels, 0, levels - 1, levels, levels + 1, 1000, UNLIMITED - 1, UNLIMITED)
    v.lent(1, 0, 1, 2)
    for levels in (0, 17):
        v.lent(levels, 0, 1, UNLIMITED, work=0)
    # Work space for all directories, and for all but the last.
    size, last = v.sizes[v.root], 80
    for work in ((DEEP - 1) * size + last, (DEEP - 1) * size + last - 1, (DEEP - 1) * size, size, size - 1, 0):
        v.lent(16, 0, 1, 2, 13, 14, 15, work=work)
    yield v
    good = v
    for name, last in [
        ("gone", lambda v, block, file: GONE),
        ("a bad one", lambda v, block, file: v.holding([file, Item(identifier("bad", v.root, wrong=1))], block=block)[0]),
        ("of length 0", lambda v, block, file: long_ad(0, ROOT)),
        ("the first", lambda v, block, file: v.root),
    ]:
        v = many_names("the same, the last directory %s" % name, last, good)
        v.lent(16, 0, 12, 13, 14, 15, 1000)
        yield v
    # Where bodies are checked: that of the last directory is wrong.
    v = many_names("the same with right bodies, but for the last directory's", base=good, sealed=True)
    at = (udf.START + DEEP) * SECTOR
    v.bytes[at + 8] ^= 1
    v.bytes[at + 4] = (sum(v.bytes[at : at + 16]) - v.bytes[at + 4]) % 256
    for checked in (0, 1):
        v.lent(16, 0, 12, 13, 14, 15, 1000, volume=v.by_hand(start=udf.START, partition=udf.PARTITION, checked=checked, root=v.root))
    yield v


def inside():
    """Budgets that end inside the read of a directory: in its entry, its chain and its extents; behind them, whatever stands there."""

    def tree(name, odd=None, **how):
        v = Volume(name, 120, **how)
        many = v.folder("many", [v.cue("cue number %02d" % n) for n in range(40)], kind=SHORT, cuts=(2048,))
        more = v.folder("more", [many, v.cue("z")], kind=EXT, cuts=(30,), chained=True)
        v.is_root([v.cue("a"), more, *([odd(v)] if odd else []), v.folder("last", [v.cue("b")])], kind=LONG, cuts=(45, 100))
        return v

    def stored(v, area, size):
        return v.named("odd", v.stored(udf.entry(SHORT, area, size)), DIRECTORY)

    v = tree("budgets inside directories")
    v.each(16)
    v.each(16, room=v.room - 1)
    v.each(16, work=v.work - 1)
    v.each(2)
    for most in (0, 1, 4, 9, 10, 11, 12):
        v.lent(16, most, room=LARGE, there=WATCHED)
    yield v
    for name, odd in [
        ("the second extent gone", lambda v: stored(v, short_ad(38, 9) + short_ad(300, 4000), 300)),
        ("the second extent not recorded", lambda v: stored(v, short_ad(38, 9) + short_ad(300, 9, ALLOCATED), 300)),
        ("a continuation gone", lambda v: stored(v, short_ad(38, 9) + short_ad(SECTOR, 4000, udf.NEXT), 300)),
        ("an extent of no directory", lambda v: stored(v, short_ad(4096, 9), 4096)),
        ("no entry", lambda v: v.named("odd", long_ad(SECTOR, BLOCK), DIRECTORY)),
    ]:
        v = tree("budgets at a directory with %s" % name, odd)
        v.each(16)
        yield v


def every_way():
    """A disc that opens in every way, shown in each, whole and growing."""
    image = combined_images.every_way_disc("budgets on a disc that opens in every way")
    for how in EVERY_WAY:
        for there, budgets in ((None, (0, 1, 3, 5, 6, 100)), (WATCHED, (2, 4))):
            for most in budgets:
                image.query("show", volume=how, there=there, levels=combined_images.LEVELS, most=most, room=8192, work=2048)
    yield image


CASES = [harm, inside, every_way]
