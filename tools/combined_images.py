"""Calls, choices and volumes in combinations that the other writers leave out, on discs of theirs:

- lists of paths, measures, runs and shows on volumes whose bodies are checked, that are found through the maps, by the highest numbers or made by
  hand, under every matching;
- every call on discs that grow, opened in every way, under every matching;
- the runs and the measure of every file of tools/file_images.py.
"""

import struct

import checked_images
import file_images
import growing_images
import mapped_images
import rules
from asked import CALLS, MOST_PLACES, WATCHED, WAYS
from discs import CHECKED, EVERY_WAY, HIGHEST, MAPS, MATCHINGS, Asked
from mapped_images import FOUR, STRAY, Disc, Shape, icb_of, lvd, pd, pvd
from udf import BLOCK, PARTITION, SECTOR, SHORT, START, TERMINATOR, entry, file_set, long_ad, sealed, short_ad
from volume_images import recognised

EVERY_CALL = tuple(CALLS)
ON_VOLUME = EVERY_CALL[3:]  # All but the probe, opening and the label.
OF_FILE = ("measure", "runs")
LENT = {"room": 8192, "work": 2048, "slots": 8, "answers": 8}
LEVELS = 4
TWO_LABELS = [pvd(label=b"\x08HIGH", sequence=9), pvd(label=b"\x08LAST")]


# ---- what is asked of a volume


def ask_lists(image, volume, items, matchings=MATCHINGS, **lent):
    """A list of paths, under each matching; with a place for each item, unless fewer are lent."""
    n = len(items)
    for matching in matchings:
        image.query("read_all", text="\0".join(items), volume=volume, matching=matching, **{**LENT, "slots": n, "answers": n, **lent})


def ask_edges(image, volume, items, sizes):
    """A list with the room for all items, a byte less, and none; with little work space; a place too few in each row. A show likewise, and to one
    level."""
    n = len(items)
    for room in (sum(sizes), sum(sizes) - 1, sizes[0], 0):
        ask_lists(image, volume, items, MATCHINGS[:1], room=room)
    ask_lists(image, volume, items, work=100)
    for places in ({"slots": n - 1}, {"answers": n - 1}, {"slots": n + 1, "answers": n + 2}):
        ask_lists(image, volume, items, MATCHINGS[1:2], **places)
    for levels, room, work in ((LEVELS, 100, 2048), (LEVELS, 8192, 300), (1, 8192, 2048)):
        image.query("show", volume=volume, levels=levels, room=room, work=work)


def ask_files(image, volume, icbs):
    """How long each file is, and where its bytes stand; and the whole tree."""
    for icb in icbs:
        image.query(*OF_FILE, volume=volume, icb=icb, slots=LENT["slots"])
    image.query("show", volume=volume, levels=LEVELS, room=LENT["room"], work=LENT["work"])


# ---- bodies that are checked

CHECKED_ITEMS = ("small", "SMALL", "show/chain", "show/deep/cue", "last", "none", "small/x", "")
RUINED = (
    "nothing",
    "file set: body",
    "root: crc",
    "root's show: body",
    "show's chain: last byte of the body",
    "deep's cue: crc",
    "small: length one less",
    "cue: length past the end",
    "chain: length 0, crc 1",
    "first continuation: body",
)


def checked():
    """A disc of tools/checked_images.py with two names of the same letters, good and ruined."""
    disc = checked_images.good_disc([("root's twin", checked_images.named("SMALL", checked_images.CUE))])
    disc.name = "checked, with two names of the same letters"
    root = checked_images.icb(checked_images.ROOT)
    icbs = [checked_images.icb(getattr(checked_images, name)) for name in ("SMALL", "CUE", "CHAIN", "DEEP", "ROOT")]
    for volume in (0, CHECKED):
        ask_edges(disc, volume, ("small", "show/chain", "last"), (12, 200, 700))
    yield disc
    ruins = {name: ruin for name, *ruin in checked_images.cases(disc)}
    for name in RUINED:
        image = checked_images.ruined(disc, f"checked, {name}", *ruins[name])
        by_hand = image.by_hand(start=START, partition=PARTITION, checked=256, root=root)
        for volume in (0, CHECKED, CHECKED | HIGHEST, by_hand):
            ask_lists(image, volume, CHECKED_ITEMS)
            ask_files(image, volume, icbs)
        yield image


def listed_ids():
    """Ids at both ends of the lists, with a right body and with a wrong one: one that isn't listed is refused before its body."""
    image = file_images.Image("ids of entries, checked", 40)
    image.marked(30)
    for n, identifier in enumerate((0, 1, 9, 10, 255, 256, 260, 261, 262, 266, 267, 65535)):
        whole = sealed(entry(SHORT, short_ad(5, 30), 5, identifier))
        for is_wrong in (False, True):
            block = 2 * n + is_wrong
            image.put(block, whole[:40] + bytes([whole[40] ^ is_wrong]) + whole[41:])
            volume = image.by_hand(start=file_images.START, partition=PARTITION, checked=1)
            image.query("measure", volume=volume, icb=long_ad(SECTOR, block))
    yield image


# ---- through the maps

MAPPED_ITEMS = ("small", "SMALL", "lines", "mixed", "chain", "wide", "show/deep/cue", "both", "none", "")
TWINS = (("SMALL", "lines"),)
THINGS = ("small", "lines", "mixed", "chain", "wide", "show")


def two_of_one_number():
    """The partition descriptor that is last leads elsewhere than the one with the highest number."""
    number = FOUR.numbers[1]
    others = [pd(FOUR, n) for n in FOUR.order if n != number]
    return [*TWO_LABELS, pd(FOUR, number, sequence=9), *others, lvd(FOUR), pd(FOUR, number, STRAY), TERMINATOR]


def mapped_discs():
    """How each is another than the good disc."""
    beyond = {"partition": len(FOUR.numbers)}
    yield "as it is", {}
    yield "two of one number", {"sequence": two_of_one_number()}
    yield "bodies spoilt", {"bad": ("first", "show's bytes")}
    yield "the show beyond the maps", {"named": {"show": beyond}}
    yield "the second continuation beyond the maps", {"named": {"second": beyond}}
    yield "an extent beyond the maps, and one past the disc", {"named": {"mixed 2": beyond, "wide 1": {"block": 2**32 - 1}}}
    yield "extents in other partitions", {"moved": {"mixed 0": 3, "wide 0": 0, "chain 2": 0}}


def mapped():
    good = Asked("through the maps, with two names of the same letters", data=Disc(FOUR, also=TWINS).bytes)
    for volume in (MAPS, MAPS | CHECKED):
        ask_edges(good, volume, ("small", "lines", "chain"), (12, 70, 100))
    yield good
    for name, how in mapped_discs():
        image = Asked(f"through the maps, {name}", data=Disc(FOUR, also=TWINS, **how).bytes, base=good)
        for volume in EVERY_WAY:
            ask_lists(image, volume, MAPPED_ITEMS)
            ask_files(image, volume, [icb_of(FOUR, thing) for thing in THINGS])
        yield image


# ---- by hand


def volumes_by_hand():
    """Volumes for the disc with four maps: with fewer and with more of them, with bodies checked by odd numbers, with fields that lead nowhere."""
    good, old = mapped_images.by_hand(FOUR, MAPS), mapped_images.by_hand(FOUR, 0)
    for maps in (0, 1, 3, 4, 5, 2**32 - 1):
        yield {**good, "maps": maps}
    for checked in (2, 256, 2**31):
        yield {**good, "maps": 4, "checked": checked}
    yield {**old, "maps": 4}
    yield {**old, "checked": 1}
    yield {**good, "maps": 4, "starts": (2**32 - 1,) * 4}
    yield {**good, "maps": 2, "starts": tuple(reversed(good["starts"]))}
    yield {**good, "maps": 4, "root": long_ad(0, 5, partition=2)}
    yield {**good, "maps": 0, "start": 2**32 - 1}


def by_hand():
    image = Asked("volumes made by hand", data=Disc(FOUR, also=TWINS, bad=("second",)).bytes)
    for volume in volumes_by_hand():
        number = image.by_hand(**volume)
        for thing, path, matching in (("mixed", "show/deep/cue", 0), ("chain", "SMALL", 1), ("small", "small", 2)):
            image.query(*ON_VOLUME, volume=number, icb=icb_of(FOUR, thing), text=path, matching=matching, levels=LEVELS, **LENT)
        ask_lists(image, number, MAPPED_ITEMS)
    yield image


# ---- discs that grow

NEAR = Shape("one", [0], [262], [0], sectors=292)  # One partition, whose number is also the place of its map.
SECOND_SET = BLOCK + 1  # The block of another file set descriptor.


def every_way_disc(name, **how):
    """A disc that opens in every way: by the highest numbers to the root, else to the old one; a continuation and a directory have wrong bodies."""
    sequence = [*TWO_LABELS, pd(NEAR, 0), lvd(NEAR, sequence=9), lvd(NEAR, block=SECOND_SET), TERMINATOR]
    disc = Disc(NEAR, sequence, also=TWINS, bad=("second", "deep"), **how)
    at = NEAR.starts[0] + SECOND_SET
    disc.lay(at, sealed(file_set(at, root=disc.ad("old root")), 416))
    for i, one in enumerate((b"BEA01", b"NSR03", b"TEA01")):
        disc.lay(16 + i, recognised(one))
    return Asked(name, data=disc.bytes)


def growing():
    image = every_way_disc("every way of opening, growing")
    for how in EVERY_WAY:
        for matching, thing, path in zip(MATCHINGS, ("chain", "mixed", "show"), ("show/deep/cue", "SMALL", "small")):
            image.query(*EVERY_CALL, volume=how, there=WATCHED, matching=matching, icb=icb_of(NEAR, thing), text=path, levels=LEVELS, **LENT)
        ask_lists(image, how, ("small", "SMALL", "chain", "show/deep/cue", "none"), there=WATCHED)
    yield image
    # The same with a front of it there, by itself.
    image = every_way_disc("every way of opening, cut")
    for there in (18 * SECTOR, 257 * SECTOR - 1, 257 * SECTOR, 270 * SECTOR, 280 * SECTOR - 1, 288 * SECTOR + 1):
        for how in EVERY_WAY:
            image.query(*EVERY_CALL, volume=how, there=there, icb=icb_of(NEAR, "mixed"), text="SMALL", levels=LEVELS, **LENT)
    yield image


# Of descriptors, by their ids, bytes that no rule looks at: from here up to there.
UNREAD = {
    1: ((20, 24), (56, 512)),
    2: ((32, 512),),
    5: ((20, 22), (24, 188), (192, 512)),
    6: ((20, 84), (216, 248), (258, 264), (272, 440), (446, 512)),
    256: ((16, 400), (416, 512)),
    258: ((16, 20),),
    261: ((16, 34), (36, 56), (64, 168)),
    266: ((16, 34), (36, 56), (64, 208)),
}


def unread():
    """The disc that opens in every way, with something in every byte of a descriptor that no rule looks at: nothing else is said of it."""
    image = every_way_disc("every way of opening, with bytes that aren't looked at", information={"mixed": 2000})
    for at in range(0, len(image.bytes), SECTOR):
        sector = image.bytes[at : at + SECTOR]
        kind, length = struct.unpack_from("<H8xH", sector)
        for first, last in UNREAD.get(kind, ()):
            sector[first:last] = b"\xa7" * (last - first)
        image.bytes[at : at + SECTOR] = sealed(bytes(sector), length) if kind in UNREAD else sector
    for how in EVERY_WAY:
        image.query(*EVERY_CALL, volume=how, icb=icb_of(NEAR, "mixed"), text="small", levels=LEVELS, **LENT)
    yield image


def growing_forms():
    """The files of every form: how long they are, and where their bytes stand, as they come; and the tree."""
    v, files, root, show = growing_images.every_form("files of every form, growing")
    for how in (0, CHECKED | HIGHEST):
        for icb in files.values():
            v.query(*OF_FILE, volume=how, there=WATCHED, icb=icb, slots=4)
        for levels, room, work in ((1, 4096, root), (2, 4096, root + show), (2, 4096, root + show - 1), (2, 700, root + show)):
            v.query("show", volume=how, there=WATCHED, levels=levels, room=room, work=work)
    for how in EVERY_WAY:
        v.query("open", "label", volume=how, there=WATCHED, room=5)
    yield v


# ---- files


def found_runs(image, volume, icb):
    """How many runs a file has, or none where it is refused."""
    answer, runs = rules.asked(rules.Disc(bytes(image.bytes)), lambda disc: rules.runs(disc, volume, icb, MOST_PLACES))
    return None if answer else len(runs)


def files():
    """The measure and the runs of each file, with slots enough, exactly enough and one too few."""
    for case in file_images.CASES:
        for image in case():
            one = Asked(f"runs, {image.name}", data=image.bytes)
            for number, icb in dict.fromkeys((q.volume, q.icb) for q in image.queries):
                volume = image.hands[number - WAYS]
                n, number = found_runs(one, volume, icb), one.by_hand(**volume._asdict())
                one.query(*OF_FILE, volume=number, icb=icb, slots=8 if n is None else n + 1)
                for slots in range(max(n - 1, 0), n + 1) if n is not None else ():
                    one.query("runs", volume=number, icb=icb, slots=slots)
            yield one


CASES = [checked, listed_ids, mapped, by_hand, growing, unread, growing_forms, files]
