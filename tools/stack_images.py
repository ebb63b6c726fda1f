"""Volumes, and the lists of paths that are read from them in one call."""

import discs
import udf
from discs import MATCHINGS, encoded, identifier, parent
from udf import ALLOCATED, SECTOR, SHORT, long_ad, short_ad

ROOM, WORK = 4096, 4096


class Volume(discs.Volume):
    def stack(self, items, choices=(0,), room=ROOM, work=WORK, lengths=None, answers=None):
        """Asks for a list of items under each choice; each row has a place for each item, unless it is given."""
        paths = b"\0".join(map(encoded, items))
        slots = len(items) if lengths is None else lengths
        answers = len(items) if answers is None else answers
        for choice in choices:
            self.query("read_all", text=paths, matching=choice, room=room, work=work, slots=slots, answers=answers)


def text(n, size):
    """The bytes of cue n: no two cues are alike, and no two bytes beside each other."""
    return bytes((n * 37 + i * 7 + i // 251) % 255 + 1 for i in range(size))


SIZES = (100, 700, 1, 0, 2048, 3000)  # Of the cues 0 to 5.


def show(name):
    """A volume with cues of several sizes, and a file or a directory for each refusal that a path can have."""
    v = Volume(name, 120)
    cues = [identifier("cue%d" % n, v.file(text(n, size), **({"kind": SHORT} if size > 500 else {}))) for n, size in enumerate(SIZES)]
    at = v.take()
    v.put(at, udf.entry(SHORT, short_ad(300, 4000), 300))
    gone = identifier("gone", long_ad(SECTOR, at))  # 1: its extent is past the image.
    bad = identifier("bad", v.file(b"bad", wrong=1))  # 2: its entry has a wrong checksum.
    at = v.take()
    v.put(at, udf.entry(SHORT, short_ad(300, 9, ALLOCATED), 300))
    unrecorded = identifier("unrecorded", long_ad(SECTOR, at))  # 4: its extent isn't recorded.
    twins = v.folder("twins", [parent(), identifier("Ten", v.file(b"Ten")), identifier("ten", v.file(b"ten")), identifier("one", v.file(b"one"))])
    broken = v.folder("broken", [parent(), identifier("x", v.file(b"x")), identifier("y", long_ad(SECTOR, 3), wrong=1)])  # 2: a bad entry.
    deep = v.folder("deep", [parent(), v.folder("down", [parent(), identifier("cue", v.file(text(9, 50)))])])
    many = v.folder("many", [parent(), *[identifier("n%02d" % n, v.file(b"n%02d" % n)) for n in range(30)]], kind=SHORT)  # 6, with little work space.
    v.root_is([parent(), *cues, gone, bad, unrecorded, twins, broken, deep, many], kind=SHORT)
    return v


REFUSED = ("gone", "bad", "nothing", "unrecorded", "broken/x", "cue0/x", "deep/down/none")


def counts():
    """One item, two, forty and a thousand; the rows exact, with places behind, one short, and empty."""
    v = show("as many items as places, more and fewer")
    forty = ["cue%d" % (n % 4) for n in range(40)]
    thousand = ["many/n%02d" % (n % 30) if n % 3 else "cue%d" % (n % 4) for n in range(1000)]
    for items in (["cue0"], ["cue0", "cue1"], forty):
        n = len(items)
        rows = [(n, n), (n + 1, n), (n, n + 3), (n + 5, n + 5), (n - 1, n), (n, n - 1), (n - 1, n - 1), (0, n), (n, 0), (0, 0)]
        for lengths, answers in dict.fromkeys(rows):
            v.stack(items, room=40000, lengths=lengths, answers=answers)
    v.stack(thousand, choices=MATCHINGS, room=65536)
    v.stack(thousand, room=65536, lengths=1003, answers=1001)
    v.stack(thousand, room=65536, lengths=999)
    v.stack(thousand, room=65536, answers=999)
    v.stack(thousand, room=5000)
    yield v


def empties():
    """Empty items read the root's bytes: alone, first, last, two together, and nothing else."""
    v = show("empty items")
    v.stack([""], choices=MATCHINGS)
    for items in (["", "cue0"], ["cue0", ""], ["", "cue0", ""], ["cue0", "", "", "cue1"], ["", ""], ["", "", "", "", ""], ["/", "//", ""]):
        v.stack(items, room=16384)
    v.stack([""], lengths=0)
    v.stack([""], answers=0)
    v.stack(["", ""], lengths=1)
    # The root's bytes don't fit, and what is behind them does.
    v.stack(["", "cue0"], room=200)
    v.stack(["", "cue0", ""], room=0)
    yield v


def refusals():
    """Each refusal first, last, between and twice; the others go on."""
    v = show("refusals between")
    for why in REFUSED:
        v.stack([why])
        v.stack([why, "cue0"])
        v.stack(["cue0", why])
        v.stack(["cue0", why, why, "cue1", "twins/one"])
    v.stack(REFUSED)
    v.stack(["cue0", *REFUSED, "cue1"], lengths=12, answers=10)
    # 5: a cue that has no room between two that have.
    v.stack(["cue0", "cue5", "cue1", "cue2"], room=900)
    # 6: with a work space for the root alone, and with less.
    for work in (4096, 1024, 700, 600, 100, 0):
        v.stack(["cue0", "many/n00", "cue1", "deep/down/cue", "", "many"], room=16384, work=work)
    # 9, under the third choice alone.
    v.stack(["cue0", "twins/ten", "twins/Ten", "TWINS/ONE", "twins/TEN", "twins/one", "CUE1"], choices=(*MATCHINGS, 3, 2**32 - 1))
    # All seven in one list.
    v.stack(["cue0", "gone", "bad", "nothing", "unrecorded", "cue5", "many/n00", "twins/ten", "cue2"], choices=MATCHINGS, room=1000, work=1100)
    yield v


def rooms():
    """The output exactly full, with a byte behind, and a byte short: for the last item, and for the third of five, where the fourth still fits."""
    v = show("rooms")
    five = ["cue1", "cue0", "cue5", "cue2", "cue1"]
    sizes = [SIZES[int(item[3])] for item in five]
    for room in (sum(sizes), sum(sizes) + 1, sum(sizes) - 1):
        v.stack(five, room=room)
    # A byte short for the third: it takes none, and the room that was left to it is the fourth's and the fifth's.
    v.stack(five, room=sum(sizes[:3]) - 1)
    v.stack(five, room=sum(sizes[:3]))
    v.stack(five, room=sizes[0] + sizes[1] + sizes[3])
    v.stack(five, room=sizes[0] + sizes[1] + sizes[3] - 1)
    # No room at all: what has no bytes still has room.
    v.stack(["cue3", "cue2", "cue3"], room=0)
    v.stack(["cue3"], room=0)
    v.stack(["cue2", "cue2", "cue2"], room=2)
    # The same cue again and again.
    v.stack(["cue4"] * 5, room=5 * 2048)
    v.stack(["cue4"] * 5, room=5 * 2048 - 1)
    yield v


def paths():
    """Paths as they are read alone: slashes, cases, names that aren't UTF-8; and a list that ends with a zero, which has an empty item behind it."""
    v = show("paths of every form")
    v.stack(["/cue0", "cue0/", "//deep//down//cue//", "CUE0", "Cue0", "deep/down", "deep/down/cue/x", b"\xff", b"cue0\xc3"], choices=MATCHINGS, room=16384)
    v.stack(["deep/down/cue"], choices=MATCHINGS)
    v.stack(["cue0", "cue1", ""], room=16384)
    yield v


def unopened():
    """A root that can't be read: every item is refused, and the empty one too."""
    v = Volume("a root past the image", 8, root=long_ad(SECTOR, 100))
    v.stack(["", "a", "b/c"])
    v.stack(["a"] * 40, lengths=41)
    yield v


CASES = [counts, empties, refusals, rooms, paths, unopened]
