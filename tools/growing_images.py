"""Discs that are asked while they are copied, and what is asked of each."""

import discs
import udf
from asked import WATCHED
from discs import AS_WRITTEN, CASE_IGNORED, CHECKED, DIRECTORY, MAPS, ROOT, UNAMBIGUOUS, Asked, identifier, parent
from mapped_images import Disc, Shape, icb_of
from stack_images import text
from udf import ALLOCATED, ANCHOR, EXT, LONG, NEXT, PARTITION, SECTOR, SHORT, aed, entry, ext_ad, long_ad, short_ad

OPENING, BY_PATH, BY_ICB = ("open", "label"), ("lookup", "failed_at", "read_path"), ("read", "part_at", "extents")
ROOM, WORK, LENT = 8192, 4096, 4


def watch(image, *calls, how=0, room=ROOM, work=WORK, **more):
    image.query(*calls, volume=how, there=WATCHED, room=room, work=work, slots=LENT, answers=LENT, **more)


# ---- files of every form, in blocks that are chosen


class Volume(discs.Volume):
    """A volume on which each thing has a block of its own choice."""

    is_opened = False

    def lay_file(self, block, kind, area, information, **how):
        self.put(block, entry(kind, area, information, **how))
        return long_ad(SECTOR, block)

    def lay_extents(self, data, places, maker):
        """The data cut into extents of so many bytes in these blocks: a descriptor for each."""
        ads, at = [], 0
        for size, block in places:
            self.put(block, data[at : at + size])
            ads.append(maker(size, block))
            at += size
        assert at == len(data)
        return ads


SCATTERED, SIZES = text(3, 7000), ((3000, 38), (1500, 20), (2500, 30))  # A later extent is there before an earlier one.


def lay_good(v):
    """Files of each form, by their names."""
    files = {}
    files["embedded"] = v.lay_file(4, udf.EMBEDDED, text(1, 60), 60)
    files["empty"] = v.lay_file(5, SHORT, b"", 0)
    # Of a file that has an extent and no bytes the first sector is asked for.
    files["nought"] = v.lay_file(6, SHORT, short_ad(100, 33), 0)
    files["one"] = v.lay_file(7, SHORT, b"".join(v.lay_extents(text(2, 5000), ((5000, 22),), short_ad)), 5000)
    files["scattered"] = v.lay_file(8, LONG, b"".join(v.lay_extents(SCATTERED, SIZES, long_ad)), 7000)
    # The first continuation stands behind the second, and the last extent before both.
    first, second, third = v.lay_extents(text(4, 3000), ((1000, 19), (1000, 41), (1000, 18)), short_ad)
    files["chain"] = v.lay_file(9, SHORT, first + short_ad(SECTOR, 37, NEXT), 3000)
    v.put(37, aed(second + short_ad(SECTOR, 27, NEXT)))
    v.put(27, aed(third))
    # Five extents, of which the last stands in a continuation of two sectors: there are four slots.
    ads = v.lay_extents(text(5, 500), tuple((100, block) for block in (28, 29, 17, 36, 16)), ext_ad)
    files["wide"] = v.lay_file(10, EXT, b"".join(ads[:4]) + ext_ad(SECTOR + 24, 34, NEXT), 500)
    v.put(34, aed(ads[4] + bytes(20) + bytes(SECTOR - 40)))
    return files


def lay_refused(v):
    """Files for each refusal, by their names."""
    files = {}
    # Behind one extent that is there in the end: one that isn't recorded (4), one of another partition (4), a bad continuation (2), and none (1).
    files["unrecorded"] = v.lay_file(11, SHORT, short_ad(SECTOR, 32) + short_ad(10, 32, ALLOCATED), 3000)
    files["foreign"] = v.lay_file(12, LONG, long_ad(SECTOR, 32) + long_ad(10, 32, partition=PARTITION + 1), 3000)
    files["spoilt"] = v.lay_file(13, SHORT, short_ad(100, 32) + short_ad(SECTOR, 35, NEXT), 200)
    v.put(35, aed(short_ad(100, 33), wrong=1))
    files["gone"] = v.lay_file(14, SHORT, short_ad(SECTOR, 32) + short_ad(SECTOR, 44), 4096)
    files["bad"] = v.lay_file(15, SHORT, b"", 0, wrong=1)
    return files


def every_form(name):
    """A volume with a file of each form and a file or a directory for each refusal, in the order of the copy: entries first, then what they lead to.
    The ICBs of these by their names, and how many bytes the directories have."""
    v = Volume(name, 44)
    files = {**lay_good(v), **lay_refused(v)}
    # What is behind the file's length isn't asked for.
    files["cut"] = v.lay_file(21, SHORT, short_ad(5000, 22) + short_ad(SECTOR, 44), 5000)
    # A directory in two extents, the second of which is there first, and one with names of the same letters.
    names = [parent(), identifier("Ten", files["embedded"]), identifier("ten", files["one"]), identifier("cue", files["scattered"])]
    show = b"".join(names)
    ads = v.lay_extents(show, ((100, 42), (len(show) - 100, 40)), short_ad)
    files["show"] = v.lay_file(25, SHORT, b"".join(ads), len(show))
    directories = ("show",)
    root = [parent(), *(identifier(name, icb, DIRECTORY if name in directories else 0) for name, icb in files.items())]
    data = b"".join(root)
    v.put(26, data)
    v.put(ROOT, entry(SHORT, short_ad(len(data), 26), len(data)))
    return v, files, len(data), len(show)


def forms():
    v, files, root, show = every_form("files of every form")
    watch(v, *OPENING)
    for name, icb in files.items():
        watch(v, *BY_ICB, "read_path", icb=icb, text=name)
    # By path: through the directory in two extents, under each choice, and what isn't there.
    for matching, path in ((CASE_IGNORED, "show/cue"), (AS_WRITTEN, "show/ten"), (UNAMBIGUOUS, "show/ten"), (CASE_IGNORED, "SHOW/none/x")):
        watch(v, *BY_PATH, "list", icb=files["show"], text=path, matching=matching)
    # With too little room (5), and with too little work space (6) for the root or for the directory behind it.
    assert root > show
    watch(v, "read", "read_path", icb=files["scattered"], text="scattered", room=6999)
    watch(v, "list", *BY_PATH, icb=files["show"], text="show/cue", room=60, work=root)
    watch(v, "list", *BY_PATH, icb=files["show"], text="show/cue", work=root - 1)
    watch(v, "list", icb=files["show"], work=show - 1)
    # Lists: of files that come in another order than they are asked for; of two of which the second is there first, and has no room left once the
    # first is there too; of refusals; and of an item too many.
    watch(v, "read_all", text="scattered\0one\0embedded\0show/cue", room=ROOM + 4000)
    watch(v, "read_all", text="scattered\0one", room=11000)
    watch(v, "read_all", text="gone\0nothing\0unrecorded\0chain")
    watch(v, "read_all", text="\0".join(["one"] * 5))
    yield v


# ---- two partitions, found through the maps, with bodies checked and without

TWO = Shape("two", [1, 0], [290, 262], [0, 1])  # The first map leads to the partition that is copied last.


def two_partitions(name, **how):
    """The disc of tools/mapped_images.py with two partitions, closer together."""
    return Asked(name, data=Disc(TWO, **how).bytes)


def mapped():
    """A continuation and a directory's identifiers have wrong bodies."""
    image = two_partitions("two partitions", bad=("second", "show's bytes"))
    for how in (0, MAPS, MAPS | CHECKED):
        watch(image, *OPENING, how=how)
    for name in ("small", "lines", "mixed", "chain", "wide"):
        watch(image, *BY_ICB, "read_path", icb=icb_of(TWO, name), text=name, how=MAPS)
    for name in ("chain", "lines"):
        watch(image, *BY_ICB, "read_path", icb=icb_of(TWO, name), text=name, how=MAPS | CHECKED)
    for how in (MAPS, MAPS | CHECKED):
        watch(image, *BY_PATH, "list", icb=icb_of(TWO, "show"), text="show/deep/cue", how=how)
    watch(image, *BY_ICB, icb=icb_of(TWO, "small", reference=2), how=MAPS)
    yield image


# ---- a partition in front of the volume's descriptors


def behind():
    """The partition is there before the volume can be opened; the sequence stands behind the anchor, and the file set descriptor behind both."""
    start, first, block = 40, ANCHOR + 2, 222
    image = Asked("the volume's descriptors last", 266)
    sequence = [
        udf.primary(first, b"\x08LAST"),
        udf.partition(first + 1, PARTITION, start),
        udf.logical(first + 2, PARTITION, block),
        udf.TERMINATOR(first + 3),
    ]
    image.lay(ANCHOR, udf.anchor(location=first))
    for i, one in enumerate(sequence):
        image.lay(first + i, one)
    image.lay(start + block, udf.file_set(start + block, root=long_ad(SECTOR, 3)))
    icb = long_ad(SECTOR, 4)
    data = parent() + identifier("cue", icb)
    image.lay(start + 3, entry(udf.EMBEDDED, data, len(data)))
    image.lay(start + 4, entry(SHORT, short_ad(3000, 6) + short_ad(90, 5), 3050))
    image.lay(start + 6, text(7, 3000))
    image.lay(start + 5, text(8, 90))
    watch(image, *OPENING)
    watch(image, *BY_PATH, *BY_ICB, icb=icb, text="cue")
    yield image


CASES = [forms, mapped, behind]
