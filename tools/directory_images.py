"""Volumes with good, odd and damaged directories, and what is asked of each by a path or by an ICB. tools/udf.py has the layout of a volume."""

import struct

import discs
from discs import DELETED, DIRECTORY, HIDDEN, OTHER, PARENT, ROOT, dstring, identifier, parent, wide
from udf import ALLOCATED, BLOCK, EMBEDDED, EXT, EXTENDED_FILE_ENTRY, FILE_ENTRY
from udf import LONG, NEXT, RECORDED, SECTOR, SHORT, UNALLOCATED
from udf import aed, entry, ext_ad, long_ad, short_ad

ROOM, WORK = 2048, 4096  # The output's room and the work space's, where a query says nothing else.
KINDS = [(SHORT, "short"), (LONG, "long"), (EXT, "ext"), (EMBEDDED, "embedded")]


def joined(path):
    return "/".join(path)


class Volume(discs.Volume):
    def label(self, *rooms):
        for room in rooms:
            self.query("label", room=room)

    def path(self, *paths, room=ROOM, work=WORK):
        for path in paths:
            self.query("lookup", "failed", "read_path", text=path, room=room, work=work)

    def icb(self, *icbs, room=ROOM, work=WORK):
        for icb in icbs:
            self.query("list", "read", "part", icb=icb, room=room, work=work)


# ---- cases


def labels():
    """Labels, with room for all, exactly enough, a byte short and none; and volumes that don't open."""
    for name, label, size in [("of 8 bits", b"\x08Caf\xe9", 5), ("of 16 bits", b"\x10\x20\xac\x00A", 4), ("of no bytes", b"", 0)]:
        v = Volume("a label %s" % name, 8, label)
        v.root_is([])
        v.label(64, size, max(size - 1, 0), 0)
        v.path("")
        yield v
    v = Volume("blocks of 512 bytes", 8, block_size=512)
    v.label(64, 0)
    yield v
    v = Volume("no file set descriptor", BLOCK)
    v.label(64, 0)
    yield v


def roots():
    """Roots that are empty, odd, refused and missing."""
    v = Volume("an empty root", 8)
    v.root_is([])
    v.path("", "/", "a", work=0)
    v.path("a/b")
    v.icb(v.root, work=0, room=0)
    yield v
    for name, icb in [
        ("of length 0", long_ad(0, ROOT)),
        ("of type 3 in another partition", long_ad(1, ROOT, NEXT, OTHER, b"\xff" * 6)),
        ("past the image", long_ad(SECTOR, 100)),
        ("past what 32 bits count", long_ad(SECTOR, 2**32 - 1)),
        ("where no entry stands", long_ad(SECTOR, BLOCK)),
    ]:
        v = Volume("a root %s" % name, 8, root=icb)
        v.root_is([parent(), identifier("f", v.file(b"file"))])
        v.path("", "f", "none")
        v.icb(icb)
        yield v
    for n in [37, 38]:
        v = Volume("a root of %d bytes that are no entry" % n, 8)
        v.root_is([b"text" * 10], information=n)
        v.path("", "f")
        v.icb(v.root, work=n - 1)
        v.icb(v.root, work=n)
        yield v


def kinds():
    """Directories of each kind, in an entry of each kind, in a chain too, cut in the middle of entries."""
    v = Volume("directories of each kind", 160)
    top = [parent()]
    for tagged in [FILE_ENTRY, EXTENDED_FILE_ENTRY]:
        for kind, name in KINDS:
            for chained in [False, True] if kind != EMBEDDED else [False]:
                inner = [parent()] + [identifier("file %d" % k, v.file(b"%d %s" % (k, name.encode()))) for k in range(3)]
                icb = v.directory(inner, kind=kind, cuts=(45, 100), chained=chained, identifier=tagged)
                path = "%s%d%s" % (name, tagged, "c" if chained else "")
                top.append(identifier(path, icb, DIRECTORY))
                v.path(path + "/FILE 2", path + "/file 3")
                size = v.sizes[icb]
                v.icb(icb, work=size, room=81)
                v.icb(icb, work=size, room=80)
                v.icb(icb, work=size - 1)
    v.root_is(top, kind=SHORT)
    v.icb(v.root)
    yield v
    # Over sectors: an entry stands across the ends of two sectors and of an extent.
    v = Volume("a directory over sectors", 80)
    files = [v.file(b"number %d" % k) for k in range(3)]
    top = [parent()] + [identifier("%d" % k, files[k % 3], use=bytes(k % 5)) for k in range(72)]
    v.root_is(top, kind=EXT, cuts=(1000, 3100))
    v.path("0", "23", "47", "49", "71", "72")
    v.path("71", work=v.sizes[v.root])
    v.path("0", work=v.sizes[v.root] - 1)
    v.icb(v.root, room=4096)
    yield v


def long_chains():
    """A directory over 32 continuations, and one over 33."""
    v = Volume("directories over long chains", 128)
    top = [parent()]
    inner = b"".join([parent()] + [identifier("%02d" % k, v.file(b"in a chain")) for k in range(1)])
    for n in [32, 33]:
        at = v.take()
        v.put(at, inner)
        following = v.take(n)
        for k in range(n):
            last = k == n - 1
            v.put(following + k, aed(short_ad(len(inner), at) if last else short_ad(SECTOR, following + k + 1, NEXT)))
        block = v.take()
        v.put(block, entry(SHORT, short_ad(SECTOR, following, NEXT), len(inner)))
        top.append(identifier("chain%d" % n, long_ad(SECTOR, block), DIRECTORY))
        v.icb(long_ad(SECTOR, block), work=len(inner))
        v.path("chain%d/00" % n, "chain%d/none" % n, work=200)
        v.path("chain%d/00" % n, "chain%d" % n, work=len(inner) - 1)
    v.root_is(top)
    yield v


def nested():
    """Directories to depth 8, each larger than the one above: work space that is exactly enough, and a byte short, at each depth."""
    v = Volume("nested directories", 64)
    steps = ["D%d" % k for k in range(1, 9)]
    kinds = [EMBEDDED, SHORT, LONG, EXT, EMBEDDED, SHORT, LONG, EXT, EMBEDDED]
    inner, icbs = v.directory([]), []
    for depth in range(8, -1, -1):
        entries = [
            parent(bytes(range(4 * depth))),
            identifier("F%d" % depth, v.file(b"file at depth %d" % depth)),
            identifier("d%d" % (depth + 1), inner, DIRECTORY),
            identifier("last", long_ad(SECTOR, ROOT)),
        ]
        inner = v.directory(entries, kind=kinds[depth], cuts=(50,), chained=depth > 4, block=None if depth else ROOT)
        icbs.insert(0, inner)
    for depth, icb in enumerate(icbs):
        size = v.sizes[icb]
        v.path(joined(steps[:depth]), joined(steps[:depth] + ["f%d" % depth]), work=size)
        v.path(joined(steps[:depth] + ["f%d" % depth]), joined(steps + ["F8"]), work=size - 1)
        v.path(joined(steps[:depth] + ["F%d" % depth]), room=15)
        v.path(joined(steps[:depth] + ["F%d" % depth]), room=14)
        v.icb(icb, work=size)
        v.icb(icb, work=size - 1)
    yield v


def rising():
    """Sizes of directories along a path: rising, falling, and the largest in the middle; each size and a byte less."""
    for name, sizes in [("rising", range(9)), ("falling", range(8, -1, -1)), ("highest in the middle", [0, 2, 4, 6, 8, 7, 5, 3, 1])]:
        v = Volume("sizes of directories, %s" % name, 40)
        inner = v.file(b"at the end")
        marks, spaces = 0, []
        for depth in range(8, -1, -1):
            block = ROOT if depth == 0 else None
            inner = v.directory([parent(bytes(4 * sizes[depth])), identifier("x", inner, marks)], block=block)
            marks = DIRECTORY
            spaces.append(v.sizes[inner])
        for space in sorted(spaces):
            v.path("x/x/x/x/x/x/x/x/x", work=space)
            v.path("x/x/x/x/x/x/x/x/x", work=space - 1)
        v.path("x/x/x/x/none", "x/x/x", work=max(spaces[5:]))
        yield v


def failing():
    """The component that fails at each place: none of its name, and one under a file."""
    v = Volume("failing components", 40)
    steps = ["A%d" % k for k in range(8)]
    inner = v.directory([parent()])
    text = v.file(b"a file")
    for depth in range(7, -1, -1):
        inner = v.directory(
            [parent(), identifier("file", text), identifier(steps[depth], inner, DIRECTORY)], block=ROOT if depth == 0 else None
        )
    for k in range(8):
        v.path(joined(steps[:k] + ["none%d" % k] + steps[k + 1 :]))
        v.path("//" + "//".join(steps[:k] + ["FILE", "under%d" % k, "more"]) + "/")
    v.path(joined(steps), joined(steps + ["none"]), joined(steps + ["none", "none"]))
    # The same name twice: the failing one is the second.
    v.path("A0/A0", "file/file", "none/none")
    yield v


def marks():
    """Deleted and parent entries first, last, between and alone; they are parsed, and then skipped."""
    v = Volume("deleted and parent entries", 80)
    old, new = v.file(b"old file"), v.file(b"new file")
    good = identifier("NAME", new)
    gone, up = identifier("name", old, DELETED), parent()
    named, both = identifier("NAME", old, PARENT), identifier("NAME", old, DELETED | PARENT | DIRECTORY | HIDDEN)
    top = []
    for k, entries in enumerate(
        [
            [gone, good],
            [good, gone],
            [gone],
            [up, good],
            [good, up],
            [up],
            [named, good],
            [good, named],
            [named],
            [both],
            [up, gone, good, both, gone, up],
            [gone, gone],
            [],
        ]
    ):
        icb = v.directory(entries)
        top.append(identifier("%d" % k, icb, DIRECTORY))
        v.icb(icb)
        v.path("%d/name" % k)
    v.root_is(top)
    yield v
    v = Volume("file characteristics", 40)
    inner = v.directory([parent(), identifier("f", v.file(b"in it"))])
    values = list(range(16)) + [0x10, 0x20, 0x40, 0x80, 0xF1, 0xF3, 0xFF]
    v.root_is([identifier("C%02X" % c, inner, c) for c in values])
    v.icb(v.root)
    v.path(*("c%02x/f" % c for c in values))
    v.path("C01", "C03", "C04", "C08")
    yield v


def cases_of_letters():
    """Names that differ in case alone: the first entry wins, in both orders."""
    v = Volume("names that differ in case alone", 40)
    first, second = v.file(b"cue 10.1A"), v.file(b"cue 10.1a")
    upper, lower = identifier("10.1A", first), identifier("10.1a", second)
    below = [v.directory([parent(), upper, lower]), v.directory([parent(), lower, upper])]
    v.root_is([parent(), identifier("Cues", below[0], DIRECTORY), identifier("cuES", below[1], DIRECTORY), identifier("other", below[1], DIRECTORY)])
    v.path("Cues/10.1A", "Cues/10.1a", "cuES/10.1A", "CUES/10.1a", "OTHER/10.1A", "other/10.1a", "other/10.1B", "other/10.1")
    v.icb(*below)
    yield v
    # Letters end at Z and z: what stands 32 further on is another character.
    v = Volume("characters beside the letters", 40)
    v.root_is([identifier(c, v.file(b"file " + dstring(c))) for c in ["@", "[", "{", "`", "A", "z", "0", "\x10", "~", "^"]])
    v.path("@", "`", "[", "{", "a", "Z", "0", "P", "~", "^", "\x7f", "p", ">")
    yield v


def beyond_ascii():
    """Names that fold to each other outside ASCII alone aren't equal."""
    v = Volume("letters outside ASCII", 60)
    one = v.directory([identifier("caf\xe9", v.file(b"small"))])
    two = v.directory([identifier("CAF\xc9", v.file(b"large")), identifier("caf\xe9", v.file(b"small too"))])
    odd = v.directory([identifier(c, v.file(b"file " + wide(c))) for c in ["\u212a", "\u017f", "\u0130", "\u00df", "\u03c3", "\ufb01"]])
    same = v.directory([identifier(wide("Wide"), v.file(b"16 bits")), identifier("wIDE", v.file(b"8 bits"))])
    v.root_is([identifier(n, icb, DIRECTORY) for n, icb in [("one", one), ("two", two), ("odd", odd), ("same", same)]])
    for c in ["one", "two"]:
        v.path(*(c + "/" + name for name in ["caf\xe9", "CAF\xe9", "caf\xc9", "CAF\xc9", "cafe", "cafe\u0301"]))
    for c in ["\u212a", "k", "K", "\u017f", "s", "S", "\u0130", "i", "\u00df", "ss", "\u1e9e", "\u03c3", "\u03a3", "\u03c2", "fi"]:
        v.path("odd/" + c)
    v.path("same/wide", "SAME/WIDE")
    v.icb(one, two, odd, same)
    yield v


def surrogates():
    """Surrogate values are dropped: names become equal, and empty."""
    v = Volume("dropped surrogates", 60)
    names = [wide("A\ud800B"), dstring("ab"), wide("\udfffAB"), wide("\ud834\udd1e")]
    rows = [names, names[::-1], names[1:3], names[3:]]
    top = []
    for k, row in enumerate(rows):
        icb = v.directory([identifier(name, v.file(b"number %d %d" % (k, j))) for j, name in enumerate(row)])
        top.append(identifier("%d" % k, icb, DIRECTORY))
        v.icb(icb)
        v.path("%d/AB" % k, "%d/aB" % k, "%d/\U0001d11e" % k, "%d/A" % k)
    edges = ["\ud7ff", "\ue000", "\uffff", "\u0800", "\u07ff", "\u0080", "\u007f", "\ufffd"]
    icb = v.directory([identifier(wide(c), v.file(b"edge %d" % j)) for j, c in enumerate(edges)])
    v.root_is(top + [identifier("edges", icb, DIRECTORY)])
    v.icb(icb)
    v.path(*("edges/" + c for c in edges[1:] + ["\ud7ff", "\U00010000", "?"]))
    yield v


def odd_names():
    """Names with a slash, dots, a zero, spaces, and none at all."""
    v = Volume("a slash in a name", 40)
    inner = v.directory([parent(), identifier("b", v.file(b"b in a"))])
    slashed = [identifier(name, v.file(b"named " + dstring(name))) for name in ["a/b", "/", "/a", "a/", "b/c"]]
    alone, beside = v.directory(slashed), v.directory(slashed + [identifier("a", inner, DIRECTORY)])
    v.root_is([identifier("alone", alone, DIRECTORY), identifier("beside", beside, DIRECTORY)])
    for c in ["alone", "beside"]:
        v.path(*(c + "/" + name for name in ["a/b", "/", "//a", "a/", "b/c", "a/b/c", "a%2Fb", "a\\b"]))
    v.icb(alone, beside)
    yield v
    v = Volume("dots, zeros and empty names", 60)
    inner = v.directory([parent(), identifier("f", v.file(b"in it"))])
    names = [".", "..", "", b"\x00none", b"\x08\x00none", b"\x10\x00\x00\x00A", "AB\x00CD", b"\x10\x00X\x00\x00\xd8\x00", " ", "a ", "\t", "C:"]
    v.root_is([parent()] + [identifier(name, inner, DIRECTORY) for name in names])
    v.icb(v.root)
    v.path("./f", "../f", "..//f", ".../f", "AB/f", "AB\x00CD/f", "AB\x00/f", "x/f")
    v.path(" /f", "  /f", "a /f", "a/f", "\t/f", "c:/f", "none/f", "\x00", "f")
    yield v


def deleted_names():
    """Names with the ids of deleted ones, 254 and 255 (OSTA UDF 2.1.1 of 2.01): empty, whatever stands behind the id."""
    for name, label in [("254", b"\xfeVAULT"), ("255 and an odd body", b"\xff\x00V\x00")]:
        v = Volume("a label of id %s" % name, 8, label)
        v.root_is([])
        v.label(64, 0)
        v.path("")
        yield v
    v = Volume("names of ids 254 and 255", 60)
    old, new = v.file(b"old file"), v.file(b"new file")
    texts = [b"\xfe", b"\xff", b"\xfeKEPT", b"\xff\x00K\x00E", b"\xff\x00K\x00", b"\xff\xd8\x00"]
    others = [b"\xff", b"\xfe", b"\xff\x00\x00\x00\x00", b"\xfe/\x08ab", b"\xfe\xff\xff\xff", b"\xfe\x00\x10"]
    kept = identifier("kept", new)
    rows = {
        "deleted": [parent()] + [identifier(text, old, DELETED) for text in texts] + [kept],
        "other": [parent()] + [identifier(text, old, DELETED) for text in others] + [kept],
        "listed": [parent()] + [identifier(text, old) for text in texts] + [kept],
        "otherwise": [parent()] + [identifier(text, old) for text in others] + [kept],
        "parent": [identifier(b"\xfeup", long_ad(SECTOR, ROOT), DIRECTORY | PARENT), kept, identifier(b"\xff\x00", old, PARENT)],
        "alone": [identifier(b"\xff\x00", old, DIRECTORY)],
    }
    top = []
    for name, row in rows.items():
        icb = v.directory(row, kind=SHORT)
        top.append(identifier(name, icb, DIRECTORY))
        # A record has 21 bytes and the name.
        shown = {"listed": 6 * 21 + 25, "otherwise": 6 * 21 + 25, "alone": 21}.get(name, 25)
        v.icb(icb, work=v.sizes[icb], room=shown)
        v.icb(icb, work=v.sizes[icb], room=shown - 1)
        v.icb(icb, work=v.sizes[icb] - 1)
        v.path(name + "/kept", name + "//KEPT/", name + "/KE", name + "/")
    v.path(b"listed/\xfe", b"listed/\xff", b"alone/\xff", b"listed/\xfeKEPT")
    v.root_is(top, kind=SHORT)
    v.path("deleted/kept", work=v.sizes[v.root] - 1)
    yield v


def longest_names():
    """The longest names: 255 recorded bytes, of which each character takes one, two and three bytes."""
    v = Volume("the longest names", 40)
    names = [b"\x08" + b"n" * 254, b"\x08" + b"\xe9" * 254, b"\x10" + b"\x20\xac" * 127, b"\x08" + b"N" * 253, b"\x08" + b"\xe9" * 253]
    v.root_is([identifier(name, v.file(b"name %d" % k)) for k, name in enumerate(names)], kind=LONG)
    v.icb(v.root)
    v.icb(v.root, work=v.sizes[v.root], room=5 * 21 + 254 + 508 + 381 + 253 + 506)
    v.icb(v.root, work=v.sizes[v.root], room=5 * 21 + 254 + 508 + 381 + 253 + 506 - 1)
    for n in [254, 255]:
        v.path("N" * n, "\xe9" * n)
    v.path("n" * 253, "\u20ac" * 127, "n" * 600)
    yield v


def paths():
    """Empty components, leading and trailing slashes, paths through a file."""
    v = Volume("slashes", 40)
    inner = v.directory([parent(), identifier("b", v.file(b"b in a")), identifier("c", v.directory([]), DIRECTORY)])
    v.root_is([parent(), identifier("f", v.file(b"file in the root")), identifier("a", inner, DIRECTORY)])
    v.path("", "/", "//", "///", "a", "/a", "a/", "/a/", "//a//", "a/b", "a//b", "/a///b/", "a/b/", "a/c", "a/c/", "a/c/d")
    v.path("f", "f/", "f//", "/f", "f/x", "f//x/", "/f/x/y", "f/f", "a/b/x", "a/b//x/y/", "a/b/b/b")
    v.path("none", "/none/", "a/none", "a/none/b", "//a//none//b//", " a", "a ", "a/b c", "a/./b", "a/../f")
    v.path("", "/", "f", "a/b", work=0)
    v.path("", "/", "//f", "a//b/", room=0)
    yield v


def not_utf8():
    """Paths that aren't UTF-8: the same rules, on bytes."""
    v = Volume("paths that aren't UTF-8", 40)
    inner = v.directory([parent(), identifier("caf\xe9", v.file(b"with an accent")), identifier(wide("\ud800"), v.file(b"nameless"))])
    files = [("f", v.file(b"file"), 0), ("a", inner, DIRECTORY), ("A", v.file(b"shadowed"), 0), ("\x7f", v.file(b"7F"), 0)]
    v.root_is([identifier(*one) for one in files])
    for text in [b"\xff", b"\x80", b"\xe9", b"\xc3", b"\xc3\xa9\xff", b"\xe3\xa9", b"\xc3\x09", b"\xc3\xe9"]:
        v.path(b"a/caf" + text)
    v.path(b"a/\xed\xa0\x80", b"a/\xc1\x81", b"a/\xff/caf\xc3\xa9", b"a/caf\xc3/\xa9", b"\xc1\xa1/caf\xc3\xa9")
    v.path(b"\xff", b"/\xff/", b"\xff/a", b"\xff/\xfe", b"f/\xff", b"f/\xff/a", b"none/\xff")
    v.path(b"\xe1", b"\xc1", b"\xff" * 600, b"\xc3\x2f\xa9", b"\xe0\x81\xa1", b"\xf5\x80\x80\x80", b"a\xcc", b"\xa0\xaf")
    v.path(b"a/\xff", work=v.sizes[v.root])
    v.path(b"a/\xff", b"\xff", b"/\xff", work=v.sizes[v.root] - 1)
    v.path(b"a/\xff", b"\xff", room=0, work=0)
    yield v


def padding():
    """A last entry whose padding runs past the data's end, and one that itself does."""
    v = Volume("padding past the end", 60)
    top = [parent()]
    text = v.file(b"a file")
    for n in range(1, 5):
        whole = parent() + identifier("n" * n, text, padded=False)
        room = -len(whole) % 4
        for cut in range(-1, room + 2):
            data = (whole + bytes([0xA5] * 8))[: len(whole) + cut]
            name = "%d %d" % (n, cut)
            icb = v.file(data, kind=SHORT if cut % 2 else EMBEDDED)
            top.append(identifier(name, icb, DIRECTORY))
            v.icb(icb, work=len(data))
            v.path(name + "/" + "n" * n)
    v.root_is(top)
    yield v
    # Cut by the information length.
    v = Volume("entries cut by the information length", 100)
    top = []
    text = v.file(b"a file")
    whole = identifier("one", text, DELETED) + identifier("two", text) + identifier("three", text)
    for n in [0, 1, 37, 38, 41, 42, 44, 45, 80, 81, 82, 85, 86, 88, 125, 126, 131, 132, 133, 200]:
        icb = v.file(whole, kind=EMBEDDED if n % 2 else LONG, information=n)
        top.append(identifier("%d" % n, icb, DIRECTORY))
        v.icb(icb, work=min(n, len(whole)))
        v.path("%d/two" % n)
    v.root_is(top)
    yield v


def trailing():
    """0 to 38 bytes behind the last entry: under 38 they aren't looked at."""
    v = Volume("bytes behind the last entry", 100)
    top = []
    text = v.file(b"a file")
    front = identifier("f", text)
    tails = [(n, bytes([0xA5] * n)) for n in range(39)]
    tails += [(n, bytes(n)) for n in [37, 38, 39]] + [(n, identifier(b"", text, padded=False) + bytes(n - 38)) for n in [38, 39, 40]]
    tails += [(n, identifier("g", text)[:n]) for n in [37, 38, 39, 40, 43]]
    for k, (n, tail) in enumerate(tails):
        icb = v.file(front + tail)
        top.append(identifier("%d" % k, icb, DIRECTORY))
        v.icb(icb, work=40 + n, room=22)
        if n > 36:
            v.path("%d/g" % k)
    v.root_is(top, kind=SHORT)
    yield v


def bad_entries():
    """One bad entry refuses the directory: alone, behind the one that is looked for, and deleted."""
    v = Volume("bad entries", 80)
    top = []
    text = v.file(b"a file")
    faults = [
        dict(identifier=256),
        dict(identifier=258),
        dict(identifier=0),
        dict(identifier=267),
        dict(wrong=1),
        dict(reserved=1),
        dict(name_length=255),
        dict(use_length=5),
        dict(use_length=65535),
    ]
    good = identifier("good", text)
    bad = [lambda marks, f=f: identifier("bad", text, marks, **f) for f in faults]
    bad += [lambda marks, n=n: identifier(n, text, marks) for n in [b"\x09bad", b"\xfdbad", b"\x10\x00b\x00", b"\x10\x00"]]
    for k, make in enumerate(bad):
        for place, entries in [("alone", [make(0)]), ("behind", [good, make(0)]), ("deleted", [good, make(DELETED | PARENT)])]:
            icb = v.directory(entries)
            name = "%d %s" % (k, place)
            top.append(identifier(name, icb, DIRECTORY))
            v.icb(icb, room=0)
            if place == "behind":
                v.path(name + "/good")
    v.root_is(top, kind=SHORT)
    yield v
    # What isn't checked: the tag's version, serial, CRC and location, the entry's version; use before the name.
    v = Volume("entries with what isn't checked", 20)
    text = v.file(b"a file")
    odd = bytearray(identifier("odd", text, use=b"\x08use bytes"))
    odd[2:4], odd[6:16], odd[16:18] = b"\xff\xff", bytes(range(100, 110)), b"\x00\x00"
    odd[4] = (sum(odd[:16]) - odd[4]) % 256
    v.root_is([bytes(odd), identifier("16", text, use=bytes(3)), identifier(b"", text, use=b"\x08name")])
    v.path("odd", "use bytes", "16", "name")
    v.icb(v.root)
    yield v


def orders():
    """Which refusal comes first: 6, a bad entry, 5; and the Rust's own before 6."""
    v = Volume("the order of refusals", 60)
    text = v.file(b"a file")
    good, bad = identifier("good", text), identifier("bad", text, wrong=1)
    wrong = v.directory([good, bad])
    big = v.directory([good, identifier("next", wrong, DIRECTORY), good])
    size = v.sizes[wrong]
    for space, room in [(size, 0), (size - 1, 0), (size, ROOM), (size - 1, ROOM), (0, 0)]:
        v.icb(wrong, work=space, room=room)
    for space, room in [(v.sizes[big], 3 * 25), (v.sizes[big], 3 * 25 - 1), (v.sizes[big] - 1, 0), (v.sizes[big], 0)]:
        v.icb(big, work=space, room=room)
    at = v.take()
    v.put(at, good * 3)
    faulty = []
    for area in [short_ad(50, at) + short_ad(50, at, ALLOCATED), short_ad(50, at) + short_ad(50, 1000), short_ad(50, at) + short_ad(23, at, NEXT)]:
        block = v.take()
        v.put(block, entry(SHORT, area, 100))
        faulty.append(long_ad(SECTOR, block))
        v.icb(faulty[-1], work=0, room=0)
        v.icb(faulty[-1])
    v.root_is([identifier(n, icb, DIRECTORY) for n, icb in [("big", big), ("bad", wrong), ("4", faulty[0]), ("1", faulty[1]), ("2", faulty[2])]])
    root = v.sizes[v.root]
    v.path("bad/good", "big/good", "4/good", "1/good", "2/good", "big/next/good", "big/good/x")
    v.path("bad/good", "big/good", "4/good", "1/good", "2/good", "none/x", work=root - 1)
    v.path("bad/good", "big/none", "big/good/x", "none", work=root, room=0)
    v.path("big/next/good", work=v.sizes[big] - 1)
    yield v


def files():
    """Files of each kind read through a path: room exactly enough, and a byte short."""
    v = Volume("files read through a path", 80)
    entries = [parent()]
    for tagged in [FILE_ENTRY, EXTENDED_FILE_ENTRY]:
        for kind, name in KINDS:
            for chained in [False, True] if kind != EMBEDDED else [False]:
                data = b"%s file, entry %d, in a few extents" % (name.encode(), tagged)
                icb = v.file(data, kind=kind, cuts=(7, 20), chained=chained, identifier=tagged)
                path = "%s%d%s" % (name, tagged, "c" if chained else "")
                entries.append(identifier(path, icb))
                v.path(path, room=len(data))
                v.path(path, room=len(data) - 1)
                v.icb(icb, room=len(data))
    data = bytes(k % 251 + 1 for k in range(2500))
    entries.append(identifier("sectors", v.file(data, kind=SHORT, cuts=(2100,))))
    entries.append(identifier("none", v.file(b"")))
    v.root_is(entries, kind=EXT)
    v.path("sectors", room=2500)
    v.path("sectors", room=2499)
    v.path("sectors/x", "none", "none/x", room=0)
    yield v


def refused_reads():
    """A read that is refused after a lookup: the counts are added."""
    v = Volume("reads that are refused after a lookup", 60)
    text = v.take()
    v.put(text, b"bytes of a file")
    blocks = []
    for what in [
        entry(SHORT, short_ad(5, text) + short_ad(5, text, ALLOCATED), 10),
        entry(SHORT, short_ad(5, text) + short_ad(5, text, UNALLOCATED), 5),
        entry(LONG, long_ad(5, text) + long_ad(5, text, RECORDED, OTHER), 10),
        entry(SHORT, short_ad(5, text) + short_ad(5, 1000), 10),
        entry(SHORT, short_ad(5, text) + short_ad(23, text, NEXT), 5),
        entry(SHORT, short_ad(5, text) + short_ad(24, 1000, NEXT), 5),
        entry(EXT, ext_ad(5, text) + ext_ad(5, text, information=4), 5),
        entry(SHORT, short_ad(5, text), 5, wrong=1),
        entry(SHORT, short_ad(5, text), 5, 260),
        entry(4, short_ad(5, text), 5),
        entry(SHORT, short_ad(5, text), 5, area_length=2000),
    ]:
        blocks.append(v.take())
        v.put(blocks[-1], what)
    icbs = [long_ad(SECTOR, b) for b in blocks] + [long_ad(0, text), long_ad(SECTOR, 1000), long_ad(SECTOR, text), long_ad(SECTOR, 2**32 - 1)]
    entries = [identifier("%d" % k, icb, DIRECTORY) for k, icb in enumerate(icbs)]
    inner = v.directory(entries)
    v.root_is([parent(), identifier("in", inner, DIRECTORY)])
    v.icb(inner)
    for k, icb in enumerate(icbs):
        v.path("in/%d" % k, "in/%d/x" % k)
        v.icb(icb)
    v.path("in/1", room=4)
    v.path("in/1", room=5)
    yield v
    v = Volume("an image that lacks its last byte", 9, more=2047)
    last = long_ad(SECTOR, 9)
    v.root_is([identifier("here", v.file(b"here")), identifier("last", last, DIRECTORY)])
    v.put(9, entry(EMBEDDED, b"last", 4))
    v.path("here", "last", "last/x")
    v.icb(last)
    yield v


def odd_icbs():
    """ICBs of odd lengths, types, partitions and use: handed on as they stand, and gone by their block."""
    v = Volume("odd ICBs in entries", 40)
    inner = v.directory([parent(), identifier("f", v.file(b"behind it"))])
    block = struct.unpack("<I", inner[4:8])[0]
    icbs = [
        long_ad(1, block),
        long_ad(2**30 - 1, block, NEXT, 0xFFFF, b"\xff" * 6),
        long_ad(SECTOR, block, ALLOCATED, 0, bytes(6)),
        long_ad(SECTOR, block, UNALLOCATED, OTHER),
        long_ad(0, block),
        long_ad(0, block, NEXT),
    ]
    v.root_is([identifier("%d" % k, icb, DIRECTORY) for k, icb in enumerate(icbs)])
    v.icb(v.root)
    for k, icb in enumerate(icbs):
        v.path("%d" % k, "%d/f" % k)
        v.icb(icb)
    yield v


def tangles():
    """Directories in themselves; a file and a directory of one name; files that say they are directories, and the other way round."""
    v = Volume("directories in themselves", 20)
    v.root_is([identifier("up", long_ad(SECTOR, ROOT), DIRECTORY), identifier("f", v.file(b"file in the root"))])
    for n in [1, 8, 40]:
        v.path("UP/" * n + "f", "up/" * n + "none", "f/" + "up/" * n)
    yield v
    v = Volume("a file and a directory of one name", 20)
    inner = v.directory([parent(), identifier("f", v.file(b"in the directory"))])
    text = v.file(b"the file")
    rows = [[("x", text, 0), ("X", inner, DIRECTORY)], [("x", inner, DIRECTORY), ("X", text, 0)], [("x", inner, 0)], [("x", text, DIRECTORY)]]
    top = []
    for k, row in enumerate(rows):
        top.append(identifier("%d" % k, v.directory([identifier(*e) for e in row]), DIRECTORY))
        v.path("%d/x" % k, "%d/x/f" % k, "%d/X/f/" % k, "%d/x//" % k)
    v.root_is(top)
    v.icb(text, inner)
    yield v


CASES = [
    labels,
    roots,
    kinds,
    long_chains,
    nested,
    rising,
    failing,
    marks,
    cases_of_letters,
    beyond_ascii,
    surrogates,
    odd_names,
    longest_names,
    paths,
    not_utf8,
    padding,
    trailing,
    bad_entries,
    orders,
    files,
    refused_reads,
    odd_icbs,
    tangles,
    deleted_names,
]
