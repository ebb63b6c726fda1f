#!/usr/bin/env python3
"""The files of queries that the program `asker` answers, crates/asker/data, and what it is to print of them: what the rules say (tools/rules.py).
The format of the files is described below under "the records", that of the lines under "what is printed of a call".

    tools/asked.py                     writes crates/asker/stdout
    tools/asked.py --check             fails where that file isn't what the rules say, and says which query's line is the first
    tools/asked.py --show FILE IMAGE   prints what is said of one image
    tools/asked.py --self-test         a file that is cut, and one with a number that means nothing, must be refused at the right byte, and by
                                       the proved program too, where that is built
"""

import functools
import pathlib
import struct
import sys
import tempfile
from typing import Callable, NamedTuple

sys.dont_write_bytecode = True
import kit
import rules
from rules import SIZE, UNLIMITED, Disc, Volume

CRATES = kit.ROOT / "crates"
HERE = CRATES / "asker"
FILES = (HERE / "args").read_text(encoding="ascii").split()
PROGRAM = HERE / "out/asker"  # As `rt ci` and `rt run` leave it.
LONGEST_IMAGE, MOST_BYTES, MOST_PLACES = 2**21, 65536, 1024
WAYS = 8  # Of opening; behind them come the volumes made by hand.
WATCHED = 2**32 - 1
FREE_LENGTH, FREE_ANSWER = 0xA5A5A5A5A5A5A5A5, 0xA5A5A5A5
BY_HAND = struct.Struct("<IHII4H4H4I16s")
QUERY = struct.Struct("<9I16sQI")
OTHER_BYTES = "a name of other bytes"


# ---- the records

# A file is a sequence of records. All numbers are little-endian. A record is an image and the queries on it:
#
#     2, n   length of the name; the name, in ASCII
#     1      0: the image stands alone; 1: it is laid over the last image that stood alone
#     4, n   length of the packed image; the packed image, which begins with the length of the image itself
#     2, n   number of volumes made by hand; 62 bytes for each: start u32, partition u16, checked u32, maps u32, volumes 4 x u16,
#            numbers 4 x u16, starts 4 x u32, the root's ICB as recorded
#     4, n   length of the queries; the queries
#
# A packed image is u32 image length, u32 number of runs, and for each run u32 offset, u32 length and that many bytes. Every other byte is 0,
# or the byte of the image below. An image has at most 2 MiB.
#
# A query is 64 bytes, followed by its text:
#
#      0  calls     u32, a bit for each call to make: 0 probe, 1 open, 2 label, 3 lookup, 4 failed, 5 list, 6 read, 7 part, 8 extents,
#                   9 read_path, 10 read_all, 11 show, 12 measure, 13 runs, 14 failed_at, 15 part_at
#      4  volume    u32; 0 to 7: the volume that the whole image opens to in this way (the sum of 1 checked, 2 maps, 4 highest), or all zeros
#                   if it does not open; 8 and above: a volume made by hand
#      8  there     u32, how many bytes of the image are there, counted from its front; 2^32 - 1: the image is watched as it grows
#     12  matching  u32, the number of a choice of matching
#     16  levels    u32, for a show
#     20  room      u32, bytes of output that are lent, at most 65,536
#     24  work      u32, bytes of work space that are lent, at most 65,536
#     28  slots     u32, places that are lent for extents, for runs and for the lengths of a list, at most 1,024
#     32  answers   u32, places that are lent for the answers of a list, at most 1,024
#     36  icb       16 bytes, as recorded
#     52  most      u64, the budget of a show in sectors; 2^64 - 1: no budget
#     60  size      u32, length of the text
#     64  text      the path, or the list of paths
#
# `open` and `label` open the image in the way that `volume` gives, so they can't be asked of a volume made by hand. This module, the program and
# strandlodge-sys/src/asked.rs all refuse a file that is cut or holds a number without a meaning. The program names the first byte of the image
# or query that is wrong; the other two name the first byte of the field.


class Query(NamedTuple):
    calls: int
    volume: int
    there: int
    matching: int
    levels: int
    room: int
    work: int
    slots: int
    answers: int
    icb: bytes
    most: int
    text: bytes

    def bytes(self):
        *fields, text = self
        return QUERY.pack(*fields, len(text)) + text


class Image(NamedTuple):
    name: str
    bytes: bytes
    by_hand: list
    queries: list


def recorded(name, base, packed, by_hand, queries):
    """The record of an image."""
    name, asked = name.encode("ascii"), b"".join(query.bytes() for query in queries)
    head = struct.pack("<H", len(name)) + name + struct.pack("<BI", base, len(packed)) + packed + struct.pack("<H", len(by_hand))
    hands = (BY_HAND.pack(*v[:4], *v.volumes, *v.numbers, *v.starts, v.root) for v in by_hand)
    return head + b"".join(hands) + struct.pack("<I", len(asked)) + asked


# ---- reading them


class Unread(Exception):
    """A file of records that isn't one: the byte where, and what is wrong there."""

    def __init__(self, at, why):
        super().__init__(f"byte {at}: {why}")
        self.at = at


class Cursor:
    """Bytes of a file that are taken one behind another."""

    def __init__(self, data, at=0, end=None):
        self.data, self.at, self.end = data, at, len(data) if end is None else end

    def left(self):
        return self.at < self.end

    def take(self, size, what):
        if size > self.end - self.at:
            raise Unread(self.at, f"{what}: {size} bytes, of which {self.end - self.at} are there")
        self.at += size
        return self.data[self.at - size : self.at]

    def number(self, size, what, most=None):
        at, found = self.at, int.from_bytes(self.take(size, what), "little")
        if most is not None and found > most:
            raise Unread(at, f"{what}: {found}, and the most is {most}")
        return found

    def inner(self, size, what):
        """So many of the bytes, by themselves."""
        at = self.at
        self.take(size, what)
        return Cursor(self.data, at, self.at)


def unpacked(packed, base=b"", longest=LONGEST_IMAGE):
    """An image that is kept sparse, over another."""
    length, many = packed.number(4, "the image's length", longest), packed.number(4, "how many runs")
    image = bytearray(base[:length].ljust(length, b"\0"))
    for _ in range(many):
        where = packed.number(4, "where a run is", length)
        size = packed.number(4, "a run's length", length - where)
        image[where : where + size] = packed.take(size, "a run")
    if packed.left():
        raise Unread(packed.at, "bytes behind the last run")
    return bytes(image)


def named(records):
    """The name at the front of a record."""
    at, name = records.at, records.take(records.number(2, "the name's length"), "the name")
    if not name.isascii():
        raise Unread(at, "a name that isn't ASCII")
    return name.decode("ascii")


def volume_by_hand(records):
    start, partition, checked, maps, *rows, root = BY_HAND.unpack(records.take(BY_HAND.size, "a volume made by hand"))
    return Volume(start, partition, checked, maps, tuple(rows[:4]), tuple(rows[4:8]), tuple(rows[8:]), root, bytes(32))


def query_read(records, image, by_hand):
    """A query; each number that means nothing is refused at its place."""
    at = records.at
    *fields, size = QUERY.unpack(records.take(QUERY.size, "a query"))
    query = Query(*fields, records.take(size, "a query's text"))
    opens = query.calls & OPENING and query.volume >= WAYS
    for place, is_wrong, why in (
        (0, query.calls == 0 or query.calls >> len(CALLS), "no call, or an unknown one"),
        (4, query.volume >= WAYS + len(by_hand), "a volume that isn't there"),
        (4, opens, "opening by a volume made by hand"),
        (8, query.there != WATCHED and query.there > len(image), "more bytes than the image has"),
        (20, query.room > MOST_BYTES, "too much room"),
        (24, query.work > MOST_BYTES, "too much work space"),
        (28, query.slots > MOST_PLACES, "too many slots"),
        (32, query.answers > MOST_PLACES, "too many answers"),
    ):
        if is_wrong:
            raise Unread(at + place, why)
    return query


def images(data):
    """The images of a file, with what is asked of each."""
    records, alone = Cursor(data), None
    while records.left():
        name, at = named(records), records.at
        base = records.number(1, "the base", 1)
        if base and alone is None:
            raise Unread(at, "no image to lie over")
        packed = records.inner(records.number(4, "the packed image's length"), "the packed image")
        image = unpacked(packed, alone if base else b"")
        alone = alone if base else image
        by_hand = [volume_by_hand(records) for _ in range(records.number(2, "how many volumes are made by hand"))]
        asked, queries = records.inner(records.number(4, "the queries' length"), "the queries"), []
        while asked.left():
            queries.append(query_read(asked, image, by_hand))
        yield Image(name, image, by_hand, queries)


# ---- what is printed of a call

# `file NAME`, `image NAME`, and for each query a line `query` and a line for each call: its name, its answer number, `count`, and what the call gives.
# The line of a query has volume, there, matching, levels, most, room, work, slots, answers, icb and text, in this order. It omits `there` if it
# is the whole length, `most` if it is no budget, and every other field that is 0 or empty. Bytes from 20 to 7E except \ stand for themselves; any
# other is \ and two hex digits.
#
# Output, work space and rows are lent full of A5. `sum` is taken over the bytes that were written: 31 times the sum so far plus the byte, in 32 bits.
# `kept` says that everything after what was written is unchanged, `zero` that the work space came back all zero. The two rows of a list are
# printed whole.
#
# A watched image is cut one byte before the end of each sector, at its end, and one byte after it. Each call is made on every cut. A line is
# printed, after `at` and the length, only if it differs from that of the cut before. The volume is that of the whole image, so calls are answered
# even on cuts that could not be opened.


def shown(data):
    return "".join(chr(b) if 0x20 <= b <= 0x7E and b != 0x5C else f"\\{b:02x}" for b in data)


@functools.cache
def total(data):
    n = 0
    for b in data:
        n = (n * 31 + b) % 2**32
    return n


def row(numbers):
    return "".join(f" {n}" for n in numbers)


def summed(data):
    return f"length {len(data)} sum {total(data)}"


def opened_words(v, _):
    rows = f"volumes{row(v.volumes)} numbers{row(v.numbers)} starts{row(v.starts)}"
    return f"start {v.start} partition {v.partition} checked {v.checked} maps {v.maps} {rows} root {shown(v.root)} label {shown(v.label)}"


def slots_words(found, _):
    return f"length {len(found)}" + "".join(f" ({row(slot)[1:]})" for slot in found) + " kept"


def all_words(found, q):
    data, lengths, answers = found
    lengths, answers = lengths + [FREE_LENGTH] * (q.slots - len(lengths)), answers + [FREE_ANSWER] * (q.answers - len(answers))
    return f"{summed(data)} kept lengths{row(lengths)} answers{row(answers)} zero"


class Call(NamedTuple):
    """Of a disc, a volume and a query a value; the value that a refusal has; and the words for a value."""

    make: Callable
    refused: object
    words: Callable


# In the order of their numbers. The probe has neither an answer number nor a count.
CALLS = {
    "probe": Call(lambda d, v, q: rules.probe(d), False, lambda found, q: "yes" if found else "no"),
    "open": Call(lambda d, v, q: rules.opened(d, q.volume), rules.NOTHING, opened_words),
    "label": Call(lambda d, v, q: rules.label(d, q.volume, q.room), b"", lambda name, q: f"{summed(name)} kept text {shown(name)}"),
    "lookup": Call(lambda d, v, q: rules.lookup(d, v, q.text, q.matching, q.work), bytes(16), lambda icb, q: f"icb {shown(icb)} zero"),
    "failed": Call(
        lambda d, v, q: rules.failed(d, v, q.text, q.matching, q.work), (b"", 0), lambda one, q: f"length {len(one[0])} component {shown(one[0])} zero"
    ),
    "list": Call(lambda d, v, q: rules.listing(d, v, q.icb, q.room, q.work), b"", lambda data, q: f"{summed(data)} kept zero"),
    "read": Call(lambda d, v, q: rules.read(d, v, q.icb, q.room), b"", lambda data, q: f"{summed(data)} kept"),
    "part": Call(lambda d, v, q: rules.part(d, v, q.icb), (b"", 0), lambda one, q: summed(one[0])),
    "extents": Call(lambda d, v, q: rules.extents(d, v, q.icb, q.slots), [], slots_words),
    "read_path": Call(
        lambda d, v, q: rules.read_path(d, v, q.text, q.matching, q.room, q.work), b"", lambda data, q: f"{summed(data)} kept zero"
    ),
    "read_all": Call(
        lambda d, v, q: rules.read_all(d, v, q.text, q.matching, q.room, q.work, q.slots, q.answers), (b"", [], []), all_words
    ),
    "show": Call(lambda d, v, q: rules.show(d, v, q.levels, q.most, q.room, q.work), b"", lambda data, q: f"{summed(data)} kept zero"),
    "measure": Call(lambda d, v, q: rules.measure(d, v, q.icb), 0, lambda length, q: f"length {length}"),
    "runs": Call(lambda d, v, q: rules.runs(d, v, q.icb, q.slots), [], slots_words),
    "failed_at": Call(
        lambda d, v, q: rules.failed(d, v, q.text, q.matching, q.work), (b"", 0), lambda one, q: f"length {len(one[0])} at {one[1]} zero"
    ),
    "part_at": Call(lambda d, v, q: rules.part(d, v, q.icb), (b"", 0), lambda one, q: f"length {len(one[0])} at {one[1]}"),
}
BIT = {name: 1 << n for n, name in enumerate(CALLS)}
OPENING = BIT["open"] | BIT["label"]


# The numbers that each call may answer (docs/RULES.md, 1.1): its row in the proof, of which every one is met by a stored query.
OF_FILE, ALONG = {0, 1, 2, 4, 10}, {0, 1, 2, 3, 4, 6, 9, 10}
ROWS = {
    "open": OF_FILE | {3},
    "label": OF_FILE | {3, 5},
    "lookup": ALONG,
    "failed": ALONG,
    "list": OF_FILE | {5, 6},
    "read": OF_FILE | {5},
    "part": OF_FILE,
    "extents": OF_FILE | {7},
    "read_path": ALONG | {5},
    "read_all": {0, 12},
    "show": OF_FILE | {5, 6, 11, 16},
    "measure": OF_FILE,
    "runs": OF_FILE | {7},
    "failed_at": ALONG,
    "part_at": OF_FILE,
}


def rows_met(lines):
    """What is wrong with the numbers that stored lines have, a text for each call: one that isn't in its row, or one of its row that no line has."""
    met = {name: set() for name in ROWS}
    for line in lines:
        words = line.split(" ", 5)
        words = words[2:] if words[0] == "at" else words
        if words[0] in met and words[2] == "count":
            met[words[0]].add(int(words[1]))
    return [f"{name}: the numbers are {sorted(met[name])}, and not {sorted(ROWS[name])}" for name in ROWS if met[name] != ROWS[name]]


def said(name, disc, volume, query):
    """The line of a call."""
    call = CALLS[name]
    answer, found = rules.asked(disc, lambda disc: call.make(disc, volume, query))
    words = call.words(call.refused if found is None else found, query)
    return f"probe {words}" if name == "probe" else f"{name} {answer} count {disc.count} {words}"


def watched(name, image, volume, query):
    """A line for each cut of the image at which the call says something else than at the one before. A sector is there when all its bytes are; and by
    2.7 nothing changes before the lowest sector is there that was asked for and wasn't."""
    there, before = SIZE - 1, None
    while there <= len(image) // SIZE * SIZE:
        disc = Disc(image, there)
        line = said(name, disc, volume, query)
        if line != before:
            yield f"at {there} {line}"
        if disc.missing is None:
            break
        there, before = (disc.missing + 1) * SIZE, line


def query_line(q, size):
    """What is asked; what is 0 or empty is left out, and so are the whole length of the image and a budget that is none."""
    there, most = [("there", q.there)] * (q.there != size), [("most", q.most)] * (q.most != UNLIMITED)
    numbers = [("room", q.room), ("work", q.work), ("slots", q.slots), ("answers", q.answers)]
    numbers = [("volume", q.volume), *there, ("matching", q.matching), ("levels", q.levels), *most, *numbers]
    words = [f" {name} {n}" for name, n in numbers if n or name in ("there", "most")]
    return "query" + "".join(words) + "".join(f" {name} {shown(data)}" for name, data in (("icb", q.icb), ("text", q.text)) if any(data))


def lines_of(image):
    """What is printed of an image."""
    yield f"image {image.name}"
    whole = functools.cache(lambda how: rules.asked(Disc(image.bytes), lambda disc: rules.opened(disc, how))[1] or rules.NOTHING)
    for q in image.queries:
        volume = whole(q.volume) if q.volume < WAYS else image.by_hand[q.volume - WAYS]
        yield query_line(q, len(image.bytes))
        for name in CALLS:
            if q.calls & BIT[name]:
                yield from watched(name, image.bytes, volume, q) if q.there == WATCHED else [said(name, Disc(image.bytes, q.there), volume, q)]


def images_of(name):
    """The images of a file of crates/asker/data."""
    try:
        yield from images((HERE / "data" / name).read_bytes())
    except Unread as why:
        raise SystemExit(f"crates/asker/data/{name}: {why}")


def lines():
    for name in FILES:
        yield f"file {name}"
        for image in images_of(name):
            yield from lines_of(image)


# ---- the stored output


def differing(wanted, found):
    """Where a stored output is first another than it is to be, in words; "" where it nowhere is."""
    around, heads = [], ("file", "image", "query")
    for number, line in enumerate(wanted, 1):
        kind = line.split(" ", 1)[0]
        if kind in heads:
            around = [*around[: heads.index(kind)], line]
        stored = next(found, "(the end)")
        if stored != line:
            return "\n    ".join([f"line {number}:", *around, f"stored:    {stored}", f"the rules: {line}"])
    return "" if next(found, None) is None else f"line {number + 1} is one too many"


def stored(program, lines, words):
    """Writes what a program is to print, or with --check fails where the stored output is something else."""
    path = CRATES / program / "stdout"
    if words == ["--check"]:
        why = differing(lines, iter(path.read_text(encoding="ascii").splitlines()))
        if why:
            print(f"crates/{program}/stdout: {why}", file=sys.stderr)
        return 1 if why else 0
    path.write_text("".join(line + "\n" for line in lines), encoding="ascii")
    return 0


# ---- files that are no files of queries


def sample():
    """A file with one image, and where each of its fields starts."""
    image = struct.pack("<IIII4s", 4096, 1, 5, 4, b"some")
    query = Query(BIT["read"], WAYS, 4096, 0, 1, 10, 10, 1, 1, bytes(16), UNLIMITED, b"path")
    one = recorded("one", 0, image, [rules.NOTHING], [query, query._replace(text=b"")])
    sizes = {"name length": 2, "name": 3, "base": 1, "packed length": 4, "packed": len(image), "hands": 2, "by hand": BY_HAND.size}
    places, at = {}, 0
    for name, size in {**sizes, "queries length": 4}.items():
        places[name], at = at, at + size
    return one, {**places, "queries": at}


def cuts(one, places):
    """Each file that is cut, with the byte where that is to be found: the start of the field that isn't whole."""
    for size in range(1, len(one)):
        yield f"cut to {size} bytes", one[:size], max(at for at in places.values() if at <= size)
    # Where what stands under a length is cut, and the length says so.
    for name, starts, lengths in (("packed length", (0, 4, 8, 12, 16), range(20)), ("queries length", (0, QUERY.size), range(1, QUERY.size + 4))):
        at = places[name] + 4
        rest = one[at + int.from_bytes(one[at - 4 : at], "little") :]
        for size in lengths:
            if size != QUERY.size:
                where = at + max(start for start in starts if start <= size)
                yield f"{name} {size}", one[: at - 4] + struct.pack("<I", size) + one[at : at + size] + rest, where


def meaningless(one, places):
    """Each file with a number that means nothing, and its place."""
    packed, query = places["packed"], places["queries"]
    for what, at, form, number in (
        ("base", places["base"], "B", 2),
        ("a base where there is none", places["base"], "B", 1),
        ("an image too long", packed, "I", LONGEST_IMAGE + 1),
        ("a run behind the image", packed + 8, "I", 4097),
        ("a run that ends behind the image", packed + 12, "I", 4092),
        ("no call", query, "I", 0),
        ("an unknown call", query, "I", 1 << 16),
        ("a volume that isn't there", query + 4, "I", WAYS + 1),
        ("bytes that aren't there", query + 8, "I", 4097),
        ("room", query + 20, "I", MOST_BYTES + 1),
        ("work", query + 24, "I", MOST_BYTES + 1),
        ("slots", query + 28, "I", MOST_PLACES + 1),
        ("answers", query + 32, "I", MOST_PLACES + 1),
    ):
        yield what, one[:at] + struct.pack("<" + form, number) + one[at + struct.calcsize(form) :], at
    for what in OPENING & BIT["open"], OPENING & BIT["label"]:
        yield "opening by hand", one[:query] + struct.pack("<I", what) + one[query + 4 :], query + 4
    yield "a text that ends behind the queries", one[: query + 60] + struct.pack("<I", 69) + one[query + 64 :], query + QUERY.size
    yield "a run fewer", one[: packed + 4] + struct.pack("<I", 0) + one[packed + 8 :], packed + 8
    yield OTHER_BYTES, b"\2\0\xc3\xa9" + one[5:], 0


def taken(tried):
    """The files that the proved program takes, by its words on each: it is run on all of them at once. A name may have any bytes there."""
    with tempfile.TemporaryDirectory() as folder:
        for i, (_, data, _) in enumerate(tried):
            (pathlib.Path(folder) / str(i)).write_bytes(data)
        said = kit.ran(PROGRAM, words=range(len(tried)), cwd=folder).decode("ascii", "replace")
    last = [section.splitlines()[-1] for section in said.split("file ")[1:]]
    assert len(last) == len(tried), "the program said nothing of some files"
    return [what for (what, _, _), line in zip(tried, last) if not line.startswith("refused at byte ") and what != OTHER_BYTES]


def self_test():
    one, places = sample()
    tried = [*cuts(one, places), *meaningless(one, places)]
    wrong = [] if len(list(images(one + one))) == 2 else ["the good file"]
    for what, data, place in tried:
        # A file that is wrong behind a good image is refused at the same place of its second record.
        for before in (b"", one)[: 1 if "base where" in what else 2]:
            try:
                list(images(before + data))
                wrong.append(f"{what}: not refused")
            except Unread as why:
                if why.at != len(before) + place:
                    wrong.append(f"{what}: {why}, and not byte {len(before) + place}")
    by = "the model" if not PROGRAM.exists() else "the model and the program"
    wrong += [f"{what}: not refused by the program" for what in taken(tried)] if PROGRAM.exists() else []
    for why in wrong:
        print(f"asked: {why}")
    print(f"asked: {len(tried)} files that are cut or mean nothing: {'FAILED' if wrong else 'each is refused, by ' + by}")
    return 1 if wrong else 0


def main(words):
    if words == ["--self-test"]:
        return self_test()
    if len(words) == 3 and words[0] == "--show":
        found = [image for image in images_of(words[1]) if image.name == words[2]]
        print("\n".join(line for image in found for line in lines_of(image)))
        return 0 if found else 1
    if words not in ([], ["--check"]):
        print(__doc__, file=sys.stderr)
        return 2
    wrong = rows_met((HERE / "stdout").read_text(encoding="ascii").splitlines()) if words else []
    for why in wrong:
        print(f"asked: {why}", file=sys.stderr)
    return stored("asker", lines(), words) or int(bool(wrong))


if __name__ == "__main__":
    sys.exit(main(sys.argv[1:]))
