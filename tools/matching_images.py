"""Volumes whose directories have several entries of one name, and the paths that are asked for, under each choice of matching."""

import discs
import udf
from discs import DELETED, DIRECTORY, HIDDEN, MATCHINGS, PARENT, identifier, parent, wide
from udf import SECTOR, SHORT, long_ad, short_ad

ROOM, WORK = 64, 4096
LAST = "f"  # The file at the end of a long path.


class Volume(discs.Volume):
    def path(self, *paths, choices=MATCHINGS, room=ROOM, work=WORK):
        """Asks for each path under each choice."""
        for path in paths:
            for choice in choices:
                self.query("lookup", "failed", "read_path", "failed_at", text=path, matching=choice, room=room, work=work)


def letters():
    """Names that differ in case alone, in both orders, and beside them names that differ in more."""
    v = Volume("names that differ in case alone")
    one = v.folder("Cues", [parent(), v.cue("10.1A"), v.cue("10.1a"), v.cue("10.1")])
    other = v.folder("other", [parent(), v.cue("10.1a"), v.cue("9"), v.cue("10.1A")])
    v.root_is([parent(), one, other])
    for folder in ("Cues", "CUES", "other", "oTHER"):
        v.path(*(folder + "/" + cue for cue in ("10.1A", "10.1a", "10.1", "10.1b", "9", "10.1A/x")))
    v.path("", "/", "cues", "Cues", "Cues/", "//Cues//10.1a//", "nothing/10.1A")
    # Any other number counts as 2.
    v.path("Cues/10.1A", "Cues/10.1", "cues/10.2", choices=(3, 7, 65536, 2**32 - 1))
    yield v


def equal_names():
    """Entries of exactly one name: they are ambiguous too, however they are recorded."""
    v = Volume("equal names")
    twice = v.folder("twice", [v.cue("cue"), v.cue("cue")])
    thrice = v.folder("thrice", [v.cue("x"), v.cue("cue"), v.cue("CUE"), v.cue("y"), v.cue("cue"), v.cue("Cue")])
    widths = v.folder("widths", [v.cue(wide("cue")), v.cue("cue")])
    dropped = v.folder("dropped", [v.cue(b"\x10\x00c\xd8\x00\x00u\x00e"), v.cue("CUE"), v.cue(b"\x08cue\x00more")])
    kinds = v.folder("kinds", [v.cue("cue"), v.folder("CUE", [v.cue(LAST)]), v.cue("one")])
    empty = v.folder("empty", [identifier(b"\xfe", v.file(b"")), identifier(b"\xff\x00a", v.file(b"")), v.cue("cue")])
    v.root_is([parent(), twice, thrice, widths, dropped, kinds, empty])
    for folder in ("twice", "thrice", "widths", "dropped", "kinds", "empty"):
        v.path(folder + "/cue", folder + "/CUE", folder + "/cUe", folder + "/cu")
    v.path("thrice/x", "thrice/Y", "kinds/cue/f", "kinds/CUE/f", "kinds/CUE/g", "kinds/ONE/f", "empty/\xfe")
    yield v


def outside_ascii():
    """Letters outside ASCII have no case: two names that differ in such a letter's case alone aren't ambiguous."""
    v = Volume("letters outside ASCII")
    apart = v.folder("apart", [v.cue("caf\xe9"), v.cue("caf\xc9")])
    both = v.folder("both", [v.cue("caf\xe9"), v.cue("CAF\xe9"), v.cue("CAF\xc9"), v.cue(wide("caf\xe9"))])
    far = v.folder("far", [v.cue("\u20acA"), v.cue("\u20aca"), v.cue("\u0416"), v.cue("\u0436")])
    v.root_is([apart, both, far])
    for folder in ("apart", "both"):
        v.path(*(folder + "/" + name for name in ("caf\xe9", "CAF\xe9", "caf\xc9", "CAF\xc9", "Caf\xe9", "cafe")))
    v.path("far/\u20aca", "far/\u20acA", "FAR/\u0416", "far/\u0436", b"far/\xe2\x82", b"apart/caf\xc3", b"apart/CAF\xe9")
    yield v


def skipped():
    """Deleted and parent entries that match aren't counted, before and behind one that is."""
    v = Volume("deleted and parent entries", 120)
    folders = []
    for name, marks in (("deleted", DELETED), ("parents", DIRECTORY | PARENT), ("hidden", HIDDEN), ("all", DELETED | PARENT)):
        inside = [
            v.folder("front", [v.cue("10.1A", marks), v.cue("10.1a")]),
            v.folder("back", [v.cue("10.1A"), v.cue("10.1a", marks)]),
            v.folder("alone", [v.cue("10.1A", marks)]),
            v.folder("three", [v.cue("10.1A"), v.cue("10.1A", marks), v.cue("10.1a")]),
        ]
        folders.append(v.folder(name, inside))
    v.root_is([parent(), *folders])
    for name in ("deleted", "parents", "hidden", "all"):
        for folder in ("front", "back", "alone", "three"):
            v.path(f"{name}/{folder}/10.1A", f"{name}/{folder}/10.1a")
    yield v


def bad_entries():
    """One bad entry refuses its directory, wherever the entries that match stand."""
    v = Volume("bad entries")
    bad = identifier("bad", long_ad(SECTOR, 3), wrong=1)
    a, b = v.cue("10.1A"), v.cue("10.1a")
    orders = {"last": [a, b, bad], "between": [a, bad, b], "first": [bad, a, b], "none": [a, b], "one": [a, bad]}
    v.root_is([v.folder(name, entries) for name, entries in orders.items()])
    for name in orders:
        v.path(name + "/10.1A", name + "/10.1a", name + "/10.2")
    yield v


def tree(v, depth, doubled):
    """The entries of directories d1/d2/.., each longer than the one above, with a second entry beside the one at each depth in `doubled`."""
    sizes = []
    below = v.cue(LAST)
    for level in range(depth, 0, -1):
        entries = [parent(), *[v.cue("n%d" % n) for n in range(level)], below]
        if level in doubled:
            entries.append(v.cue(LAST.upper() if level == depth else "D%d" % (level + 1)))
        sizes.insert(0, sum(map(len, entries)))
        below = identifier("d%d" % level, v.directory(entries, **({} if sizes[0] < 1500 else {"kind": SHORT})), DIRECTORY)
    return below, sizes


def depths():
    """Several entries at each depth of a path: the component that they match is refused before the next one, and after those above it."""
    whole = "/".join(["d1", "d2", "d3", "d4", LAST])
    for doubled in ((), (1,), (2,), (3,), (4,), (2, 4), (1, 2, 3, 4)):
        v = Volume("several at depth " + (" ".join(map(str, doubled)) or "none"))
        below, sizes = tree(v, 4, doubled)
        v.root_is([below])
        v.path(whole, whole.upper(), "d1/D2", "d1/d2/d3/none", "d1/d2/d3/d4/f/g")
        # A work space that holds each directory of the path exactly, or lacks a byte of it.
        for size in sizes:
            v.path(whole, work=size)
            v.path(whole, work=size - 1)
        yield v
    v = Volume("several in the root")
    one, sizes = tree(v, 2, ())
    twin = v.cue("D1")
    v.root_is([parent(), one, twin])
    root = sum(map(len, [parent(), one, twin]))
    v.path("d1/d2/f", "D1/d2/f", "D1", "d1", "none")
    for size in (*sizes, root):
        v.path("d1/d2/f", "D1", work=size)
        v.path("d1/d2/f", "D1", work=size - 1)
    yield v


def unread():
    """A directory that can't be read is refused before its entries are looked at; one that several entries name isn't read."""
    v = Volume("directories that can't be read", 80)
    entries = [v.cue("10.1A"), v.cue("10.1a")]
    data = b"".join(entries)
    at = v.take()
    v.put(at, udf.entry(SHORT, short_ad(len(data), 4000), len(data)))
    gone = identifier("gone", long_ad(SECTOR, at), DIRECTORY)
    empty = identifier("empty", long_ad(0, 5), DIRECTORY)
    nowhere = identifier("nowhere", long_ad(SECTOR, 5000), DIRECTORY)
    v.root_is([gone, empty, nowhere, identifier("GONE2", long_ad(SECTOR, at), DIRECTORY), identifier("gone2", long_ad(SECTOR, at), DIRECTORY), v.folder("good", entries)])
    v.path("gone/10.1A", "empty/10.1A", "nowhere/10.1A", "gone2/10.1A", "GONE2/10.1a", "gone2", "good/10.1A", "good/10.1a")
    yield v


def rooms():
    """Reads by path: with room for the file, a byte short, and none; 9 comes first."""
    v = Volume("rooms")
    long = v.file(b"0123456789" * 20, kind=SHORT)
    v.root_is([identifier("10.1A", long), identifier("10.1a", v.file(b"small")), identifier("one", long)])
    for path in ("10.1A", "10.1a", "ONE", "one"):
        for room in (200, 199, 5, 4, 0):
            v.path(path, room=room)
    yield v


CASES = [letters, equal_names, outside_ascii, skipped, bad_entries, depths, unread, rooms]
