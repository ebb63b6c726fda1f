"""The one reader of the rules: every call of docs/RULES.md on an image, written from the rules apart from the library and from the scripts that write
the images. It reads the images themselves, and nothing of it is fast or lent: a call gives a value of Python, or is refused.

A call asks a disc for sectors, which counts them. Each function names the rules that it is written from.
"""

import binascii
import functools
import math
from typing import NamedTuple

SIZE = 2048
GONE, BAD, ABSENT, OTHER, ROOM, WORK, SLOT, SEVERAL, WRONG, TOO_DEEP, TOO_MANY, OVER_BUDGET = 1, 2, 3, 4, 5, 6, 7, 9, 10, 11, 12, 16
CHECKED, MAPS, HIGHEST = 1, 2, 4
CASE_IGNORED, AS_WRITTEN = 0, 1
PRIMARY, ANCHOR, PARTITION, LOGICAL, TERMINATING, FILE_SET, IDENTIFIER, CONTINUATION, ENTRY, EXTENDED_ENTRY = 1, 2, 5, 6, 8, 256, 257, 258, 261, 266
SHORT, LONG, EXT, EMBEDDED = range(4)
RECORDED, NEXT = 0, 3
MOST_MAPS, MOST_CONTINUATIONS, LONGEST_CONTINUATION, MOST_LEVELS = 4, 32, 2**20, 16
NO_PARTITION = 65536
UNLIMITED = 2**64 - 1
IDENTIFIERS = (b"BEA01", b"NSR02", b"NSR03", b"TEA01", b"CD001", b"CDW02")


class Refused(Exception):
    """A refusal by a number of 1.1; the call for the component that failed returns something all the same."""

    def __init__(self, number, value=None):
        self.number, self.value = number, value


class Disc:
    """An image of which a front is there: it counts the sectors that are asked for, and keeps the lowest of those that aren't there (2.1 to 2.4). It may be
    lent a number of sectors, and then refuses each question behind those."""

    def __init__(self, image, there=None):
        self.image, self.there = image, len(image) if there is None else there
        self.count, self.left, self.missing = 0, math.inf, None

    def lend(self, most):
        """From now on so many sectors: 2.15 to 2.18."""
        self.left = math.inf if most == UNLIMITED else most

    def sector(self, number):
        if self.left == 0:
            raise Refused(OVER_BUDGET)
        self.left -= 1
        self.count += 1
        if (number + 1) * SIZE > self.there:
            self.missing = number if self.missing is None else min(number, self.missing)
            raise Refused(GONE)
        return self.image[number * SIZE : (number + 1) * SIZE]

    def sectors(self, first, size):
        """The sectors that so many bytes take, in turn: 2.5."""
        return b"".join(self.sector(first + n) for n in range((size + SIZE - 1) // SIZE))


# ---- numbers, tags and names: parts 3 and 4


def number(data, at, size):
    return int.from_bytes(data[at : at + size], "little")


crc = functools.cache(lambda data: binascii.crc_hqx(data, 0))  # The register of 3.21, which starts at 0.


def headed(data, wanted, least, checked):
    """The gate of descriptors: 3.5, 3.7, 3.23 and 3.24. The id that is found."""
    if len(data) < least:
        raise Refused(BAD)
    found = number(data, 0, 2)
    if not (1 <= found <= 9 or 256 <= found <= 266) or data[5] or data[4] != (sum(data[:16]) - data[4]) % 256:
        raise Refused(BAD)
    length = number(data, 10, 2)
    if checked and (length > len(data) - 16 or crc(data[16 : 16 + length]) != number(data, 8, 2)):
        raise Refused(WRONG)
    if found not in wanted:
        raise Refused(BAD)
    return found


def text(recorded):
    """A d-string as UTF-8: 4.2 to 4.7."""
    if not recorded or recorded[0] in (0, 254, 255):
        return b""
    body = recorded[1:]
    if recorded[0] == 8:
        points = list(body)
    elif recorded[0] == 16 and len(body) % 2 == 0:
        points = [body[i] * 256 + body[i + 1] for i in range(0, len(body), 2)]
    else:
        raise Refused(BAD)
    points = points[: points.index(0)] if 0 in points else points
    return "".join(chr(p) for p in points if not 0xD800 <= p < 0xE000).encode("utf-8")


def named(field):
    """The name in a d-string field: 4.8."""
    if field[-1] > len(field) - 1:
        raise Refused(BAD)
    return text(field[: field[-1]])


def lower(name):
    """4.10."""
    return bytes(b + 32 if 65 <= b <= 90 else b for b in name)


# ---- the volume: part 5


class Volume(NamedTuple):
    """What opening gives (5.14, 5.29), which is also made by hand."""

    start: int
    partition: int
    checked: int
    maps: int
    volumes: tuple
    numbers: tuple
    starts: tuple
    root: bytes
    label: bytes


NO_MAPS = (0,) * MOST_MAPS
NOTHING = Volume(0, 0, 0, 0, NO_MAPS, NO_MAPS, NO_MAPS, bytes(16), bytes(32))


def sequence(disc, anchor, checked):
    """The descriptors of the three kinds, whole and in their order: 5.3 to 5.10."""
    found = {PRIMARY: [], PARTITION: [], LOGICAL: []}
    first = number(anchor, 20, 4)
    for at in range(first, first + number(anchor, 16, 4) // SIZE):
        data = disc.sector(at)
        kind = number(data, 0, 2)
        if kind == TERMINATING:
            break
        if kind in found:
            headed(data, (kind,), {PRIMARY: 56, PARTITION: 196, LOGICAL: 440}[kind], checked)
            if kind != PARTITION:
                named(data[24:56] if kind == PRIMARY else data[84:212])
            found[kind].append(data)
    return found


def prevailing(alike, highest):
    """The last, or the last of those with the highest sequence number: 5.6 and 5.20."""
    most = max(number(data, 16, 4) for data in alike)
    return [data for data in alike if not highest or number(data, 16, 4) == most][-1]


def mapped(logical, partitions, highest):
    """Volume, number and start of each map of a logical volume: 5.27 and 5.28."""
    length, many = number(logical, 264, 4), number(logical, 268, 4)
    if many > MOST_MAPS:
        raise Refused(OTHER)
    if 6 * many > length or 440 + length > SIZE:
        raise Refused(BAD)
    found = []
    for at in range(440, 440 + 6 * many, 6):
        wanted = number(logical, at + 4, 2)
        alike = [data for data in partitions if number(data, 22, 2) == wanted]
        if logical[at : at + 2] != b"\1\6" or not alike:
            raise Refused(OTHER)
        found.append((number(logical, at + 2, 2), wanted, number(prevailing(alike, highest), 188, 4)))
    if number(logical, 256, 2) >= many:
        raise Refused(OTHER)
    return found


def opened(disc, how):
    """5.1 to 5.30."""
    checked, highest = bool(how & CHECKED), bool(how & HIGHEST)
    anchor = disc.sector(256)
    headed(anchor, (ANCHOR,), 32, checked)
    found = sequence(disc, anchor, checked)
    if not all(found.values()):
        raise Refused(ABSENT)
    primary, partition, logical = (prevailing(alike, highest) for alike in found.values())
    if number(logical, 212, 4) != SIZE:
        raise Refused(OTHER)
    reference, maps = number(logical, 256, 2), []
    own, start = number(partition, 22, 2), number(partition, 188, 4)
    if how & MAPS:
        maps = mapped(logical, found[PARTITION], highest)
        _, own, start = maps[reference]
    elif reference != own:
        raise Refused(OTHER)
    file_set = disc.sector(start + number(logical, 252, 4))
    headed(file_set, (FILE_SET,), 416, checked)
    rows = zip(*maps, *[(0, 0, 0)] * (MOST_MAPS - len(maps)))
    return Volume(start, own, int(checked), len(maps), *rows, file_set[400:416], primary[24:56])


def label(disc, how, room):
    """5.16."""
    return fitted(named(opened(disc, how).label), room)


def probe(disc):
    """5.17 and 5.18."""
    seen = set()
    for at in range(16, 24):
        try:
            data = disc.sector(at)
        except Refused:
            return False
        if data[0] != 0 or data[1:6] not in IDENTIFIERS:
            return False
        if data[1:6] == b"TEA01":
            return b"BEA01" in seen and bool({b"NSR02", b"NSR03"} & seen)
        seen.add(data[1:6])
    return False


# ---- partition references: 9.6


def by_map(volume, reference):
    """The start of a map's partition; of more than four maps four count (5.30)."""
    if reference >= min(volume.maps, MOST_MAPS):
        raise Refused(OTHER)
    return volume.starts[reference]


def of_icb(volume, icb):
    """The start of the partition that an ICB names, whose reference isn't looked at without maps: 6.1."""
    return by_map(volume, number(icb, 8, 2)) if volume.maps else volume.start


def start_of(volume, own, reference):
    """The start of the partition that a descriptor names, in an entry whose own partition starts there."""
    if reference == NO_PARTITION:
        return own
    if volume.maps:
        return by_map(volume, reference)
    if reference != volume.partition:
        raise Refused(OTHER)
    return volume.start


# ---- files: parts 6 and 7


class File(NamedTuple):
    """A file entry: its kind, its information length, its area and the place of that in the image, and where its partition starts."""

    kind: int
    information: int
    area: bytes
    at: int
    own: int


class Extent(NamedTuple):
    length: int
    type: int
    block: int
    reference: int


def entry_of(disc, volume, icb):
    """The file entry of an ICB: 6.1 to 6.7."""
    if number(icb, 0, 4) % 2**30 == 0:
        raise Refused(BAD)
    own = of_icb(volume, icb)
    sector = own + number(icb, 4, 4)
    data = disc.sector(sector)
    head = 216 if headed(data, (ENTRY, EXTENDED_ENTRY), 176, volume.checked) == EXTENDED_ENTRY else 176
    kind, at, size = data[34] & 7, head + number(data, head - 8, 4), number(data, head - 4, 4)
    if kind > EMBEDDED or at + size > len(data):
        raise Refused(BAD)
    return File(kind, number(data, 56, 8), data[at : at + size], sector * SIZE + at, own)


def descriptor(one, kind):
    """A descriptor as it is recorded: 3.9 to 3.13."""
    block = 12 if kind == EXT else 4
    reference = NO_PARTITION if kind == SHORT else number(one, block + 4, 2)
    return Extent(number(one, 0, 4) % 2**30, number(one, 0, 4) >> 30, number(one, block, 4), reference)


def descriptors(area, kind):
    """The extents of an area, and the continuation that ends it, if one does: 6.9 to 6.14."""
    extents, size = [], {SHORT: 8, LONG: 16, EXT: 20}[kind]
    for at in range(0, len(area) - size + 1, size):
        one = area[at : at + size]
        found = descriptor(one, kind)
        if found.length == 0:
            break
        if found.type == NEXT:
            return extents, found
        if kind == EXT:
            if number(one, 4, 4) % 2**30 != number(one, 8, 4):
                raise Refused(OTHER)
            found = found._replace(length=number(one, 8, 4))
        extents.append(found)
    return extents, None


def continued(disc, volume, file, following):
    """The extents of a continuation's area, and the next one: 6.16 but for the number of them, and 6.17."""
    start = start_of(volume, file.own, following.reference)
    if following.length < 24:
        raise Refused(BAD)
    if following.length > LONGEST_CONTINUATION:
        raise Refused(OTHER)
    data = disc.sectors(start + following.block, following.length)
    headed(data, (CONTINUATION,), 24, volume.checked)
    size = number(data, 20, 4)
    if 24 + size > following.length:
        raise Refused(BAD)
    return descriptors(data[24 : 24 + size], file.kind)


def chained(disc, volume, file):
    """The extents of a file's chain, and how many continuations were followed: 6.15 to 6.18. An embedded file has neither."""
    if file.kind == EMBEDDED:
        return [], 0
    extents, following = descriptors(file.area, file.kind)
    followed = 0
    while following:
        followed += 1
        if followed > MOST_CONTINUATIONS:
            raise Refused(BAD)
        more, following = continued(disc, volume, file, following)
        extents += more
    return extents, followed


def taken(disc, volume, icb):
    """Of each run of bytes that a read takes, its place in the image and its bytes, empty ones too: 7.1 to 7.9."""
    file = entry_of(disc, volume, icb)
    if file.kind == EMBEDDED:
        yield file.at, file.area[: file.information]
        return
    missing = file.information
    for extent in chained(disc, volume, file)[0]:
        if extent.type != RECORDED:
            raise Refused(OTHER)
        first, data = start_of(volume, file.own, extent.reference) + extent.block, b""
        for n in range((extent.length + SIZE - 1) // SIZE):
            data += disc.sector(first + n)[: extent.length - n * SIZE]
            if len(data) >= missing:
                break
        yield first * SIZE, data[:missing]
        missing -= len(data[:missing])
        if missing == 0:
            return


def content(disc, volume, icb):
    return b"".join(data for _, data in taken(disc, volume, icb))


def fitted(data, room):
    """10.4."""
    if len(data) > room:
        raise Refused(ROOM)
    return data


def slotted(row, slots):
    """7.17."""
    if len(row) > slots:
        raise Refused(SLOT)
    return row


def read(disc, volume, icb, room):
    return fitted(content(disc, volume, icb), room)


def part(disc, volume, icb):
    """The bytes of an embedded file, and their place in the image: 7.12 to 7.14."""
    file = entry_of(disc, volume, icb)
    chained(disc, volume, file)
    return (file.area[: file.information], file.at) if file.kind == EMBEDDED else (b"", 0)


def extents(disc, volume, icb, slots):
    """7.15 to 7.17."""
    return slotted(chained(disc, volume, entry_of(disc, volume, icb))[0], slots)


def measure(disc, volume, icb):
    """7.18."""
    return len(content(disc, volume, icb))


def runs(disc, volume, icb, slots):
    """7.19."""
    return slotted([(at, len(data)) for at, data in taken(disc, volume, icb) if data], slots)


# ---- directories: 8.1 to 8.10


class Entry(NamedTuple):
    name: bytes
    icb: bytes
    is_directory: int


@functools.cache
def parsed(data, checked):
    """The entries of a directory's bytes that are neither deleted nor the parent's, of which all are read: 8.2 to 8.8; and the number that they are
    refused by."""
    found = []
    try:
        while len(data) >= 38:
            headed(data, (IDENTIFIER,), 38, checked)
            marks, size, at = data[18], data[19], 38 + number(data, 36, 2)
            if at + size > len(data):
                raise Refused(BAD)
            name = text(data[at : at + size])
            if not marks & 12:
                found.append(Entry(name, data[20:36], marks >> 1 & 1))
            data = data[(at + size + 3) // 4 * 4 :]
    except Refused as why:
        return (), why.number
    return tuple(found), 0


def entries(data, volume):
    found, refused = parsed(data, bool(volume.checked))
    if refused:
        raise Refused(refused)
    return found


def directory(disc, volume, icb, work):
    """The bytes of a directory: 8.1."""
    data = content(disc, volume, icb)
    if len(data) > work:
        raise Refused(WORK)
    return data


def record(entry, head=b"DE"):
    """8.9."""
    return head + bytes([entry.is_directory]) + entry.icb + len(entry.name).to_bytes(2, "little") + entry.name


def listing(disc, volume, icb, room, work):
    """8.9 and 8.10."""
    return fitted(b"".join(map(record, entries(directory(disc, volume, icb, work), volume))), room)


# ---- paths: 8.11 to 8.33


def matching_entry(matching, component, found):
    """The entry that a component takes, or none: 8.15 and 8.22 to 8.24."""
    if matching == AS_WRITTEN:
        alike = [one for one in found if one.name == component]
    else:
        alike = [one for one in found if lower(one.name) == lower(component)]
    if len(alike) > 1 and matching not in (CASE_IGNORED, AS_WRITTEN):
        raise Refused(SEVERAL)
    return alike[0] if alike else None


def walked(disc, volume, path, matching, work):
    """The ICB that a path names, or none and the component that isn't there, with its place in the path: 8.11 to 8.18."""
    icb, is_directory, at = volume.root, True, 0
    for component in path.split(b"/"):
        if component:
            found = matching_entry(matching, component, entries(directory(disc, volume, icb, work), volume)) if is_directory else None
            if found is None:
                return None, (component, at)
            _, icb, is_directory = found
        at += len(component) + 1
    return icb, (b"", 0)


def lookup(disc, volume, path, matching, work):
    icb, _ = walked(disc, volume, path, matching, work)
    if icb is None:
        raise Refused(ABSENT)
    return icb


def failed(disc, volume, path, matching, work):
    """The component that failed and its place, which come with the refusal by 3: 8.19, 8.20 and 8.25."""
    icb, lost = walked(disc, volume, path, matching, work)
    if icb is None:
        raise Refused(ABSENT, lost)
    return lost


def read_path(disc, volume, path, matching, room, work):
    """8.21."""
    return read(disc, volume, lookup(disc, volume, path, matching, work), room)


def read_all(disc, volume, paths, matching, room, work, lengths, answers):
    """The bytes of all items, and the length and the answer number of each: 8.26 to 8.33."""
    items = paths.split(b"\0")
    if len(items) > lengths or len(items) > answers:
        raise Refused(TOO_MANY)
    data, sizes, numbers = b"", [], []
    for path in items:
        try:
            one, answer = read_path(disc, volume, path, matching, room - len(data), work), 0
        except Refused as why:
            one, answer = b"", why.number
        data += one
        sizes.append(len(one))
        numbers.append(answer)
    return data, sizes, numbers


# ---- a whole show: 8.34 to 8.41


def nodes(disc, volume, icb, level, levels, work):
    """The entries of the directory at an ICB, which have this level, and of all under it, each with its level: 8.35 to 8.39."""
    if level > levels:
        raise Refused(TOO_DEEP)
    data = directory(disc, volume, icb, work)
    for one in entries(data, volume):
        yield level, one
        if one.is_directory:
            yield from nodes(disc, volume, one.icb, level + 1, levels, work - len(data))


def show(disc, volume, levels, most, room, work):
    """8.34, 8.37 and 8.40."""
    if not 1 <= levels <= MOST_LEVELS:
        raise Refused(TOO_DEEP)
    disc.lend(most)
    tree = nodes(disc, volume, volume.root, 1, levels, work)
    return fitted(b"".join(record(one, b"DE" + bytes([level])) for level, one in tree), room)


# ---- a call


def asked(disc, call):
    """The answer number and the value of a call, which is None where it is refused without one."""
    try:
        return 0, call(disc)
    except Refused as why:
        return why.number, why.value
