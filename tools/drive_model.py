#!/usr/bin/env python3
"""Says what the program `drive_cases` is to print: a model of opening and reading a sector at a time (docs/RULES.md, 14), written from the rules
apart from the library and from the script that writes the images. It reads the images themselves. What the one call comes to is what tools/rules.py
makes of it; with slots and room enough, and no sector denied, the fed read must come to the same.

    tools/drive_model.py             writes crates/drive_cases/stdout
    tools/drive_model.py --check     fails where that file isn't what the model says
"""
import struct
import sys

sys.dont_write_bytecode = True
import rules
from asked import CRATES, Cursor, named, stored, total, unpacked
from rules import BAD, GONE, MOST_CONTINUATIONS, OTHER, ROOM, SIZE, SLOT, Disc, Refused

SLOTS, NOWHERE = 1024, -1


def mixed(sum, *numbers):
    for n in numbers:
        sum = (sum * 31 + n) % 2**32
    return sum


class Drive(Disc):
    """Lends the sectors of an image, and denies the one at a place of the list of those that are wanted."""

    def __init__(self, image, denied=NOWHERE):
        super().__init__(image)
        self.denied, self.wanted = denied, []

    def sector(self, at):
        self.wanted.append(at)
        found = super().sector(at)
        if self.count == self.denied + 1:
            raise Refused(GONE)
        return found


# ---- a read


class Read:
    """A read into so many slots and so much room: what arrived, and the most extents that were held."""

    def __init__(self, volume, icb, slots, room):
        self.volume, self.icb, self.slots, self.room = volume, icb, slots, room
        self.out, self.held = b"", 0

    def hold(self, extents):
        """14.6: an area has come whole and is good."""
        if len(extents) > self.slots:
            raise Refused(SLOT)
        self.held = len(extents)

    def put(self, data):
        """14.7: what fits arrives."""
        left = self.room - len(self.out)
        self.out += data[:left]
        if len(data) > left:
            raise Refused(ROOM)

    def chain(self, drive, file):
        extents, following = rules.descriptors(file.area, file.kind)
        for n in range(MOST_CONTINUATIONS + 1):
            self.hold(extents)
            if not following:
                return extents
            if n == MOST_CONTINUATIONS:
                raise Refused(BAD)
            more, following = rules.continued(drive, self.volume, file, following)
            extents = extents + more

    def run(self, drive):
        file = rules.entry_of(drive, self.volume, self.icb)
        missing = file.information
        if file.kind == rules.EMBEDDED:
            return self.put(file.area[:missing])
        for length, what, block, reference in self.chain(drive, file):
            if what:
                raise Refused(OTHER)
            at = rules.start_of(self.volume, file.own, reference) + block
            for n in range((length + SIZE - 1) // SIZE):
                here = drive.sector(at + n)[: length - n * SIZE][:missing]
                self.put(here)
                missing -= len(here)
                if not missing:
                    return
            if not missing:
                return


def read(image, volume, icb, slots, room, denied=NOWHERE):
    """What a fed read says, and how many extents it held at the most."""
    drive, one = Drive(image, denied), Read(volume, icb, slots, room)
    answer, _ = rules.asked(drive, one.run)
    return (answer, drive.count, len(one.out), total(one.out), mixed(0, *drive.wanted)), one.held


# ---- what is printed


def said(slots, room, what, more=""):
    answer, count, length, sum, list = what
    return f"slots {slots} room {room} fed {answer} count {count} length {length} sum {sum} list {list} zero kept still{more}"


def reading(image, volume, icb, room):
    drive = Drive(image)
    answer, data = rules.asked(drive, lambda disc: rules.read(disc, volume, icb, room))
    data = data or b""
    call = answer, drive.count, len(data), total(data)
    yield f"call {answer} count {drive.count} length {len(data)} sum {call[3]}"
    one, needed = read(image, volume, icb, SLOTS, room)
    if one[0] not in (ROOM, SLOT) and answer not in (ROOM, SLOT):
        assert one[:2] == call[:2] and one[4] == mixed(0, *drive.wanted) and (answer or one[:4] == call)
    yield said(SLOTS, room, one, " same" if one[:4] == call else "")
    yield f"needs {needed}"
    before = one
    less, short = max(needed - 1, 0), max(one[2] - 1, 0)
    for slots, bytes in ((needed, one[2]), (less, room), (0, room), (SLOTS, short), (SLOTS, 0)):
        this, _ = read(image, volume, icb, slots, bytes)
        if this != before:
            yield said(slots, bytes, this)
        before = this
    sum = 0
    for i in range(one[1]):
        a, count, length, arrived, list = read(image, volume, icb, SLOTS, room, i)[0]
        assert a == GONE and count == i + 1
        sum = mixed(sum, mixed(list, a, count, length, arrived, 1, 1, 1))
    yield f"denied {sum}"


def opening(image):
    def ran(denied):
        drive = Drive(image, denied)
        answer, found = rules.asked(drive, lambda disc: rules.opened(disc, 0))
        v = found or rules.NOTHING
        return (answer, drive.count, v.start, v.partition, total(v.root), total(v.label)), mixed(0, *drive.wanted)

    one, list = ran(NOWHERE)
    words = "%d count %d start %d partition %d root %d label %d" % one
    yield f"call {words}"
    yield f"fed {words} list {list} still same"
    sum = 0
    for i in range(one[1]):
        what, list = ran(i)
        assert what[:2] == (GONE, i + 1)
        sum = mixed(sum, mixed(list, *what, 1))
    yield f"denied {sum}"


def query(image, words):
    start, partition, checked, maps, *starts, icb, room = struct.unpack("<IHII4I16sI", words)
    volume = rules.NOTHING._replace(start=start, partition=partition, checked=checked, maps=maps, starts=starts)
    raw, block, reference = struct.unpack_from("<IIH", icb)
    yield f"icb {raw % 2**30} {raw >> 30} {block} {reference} start {start} partition {partition} checked {checked} maps {maps} room {room}"
    yield from reading(image, volume, icb, room)


def lines(data):
    records = Cursor(data)
    while records.left():
        name = named(records)
        image = unpacked(records.inner(records.number(4, "the packed image's length"), "the packed image"))
        queries = [records.take(50, "a query") for _ in range(records.number(2, "how many queries"))]
        yield "image " + name
        if not queries:
            yield from opening(image)
        for one in queries:
            yield from query(image, one)


if __name__ == "__main__":
    sys.exit(stored("drive_cases", lines((CRATES / "drive_cases/data/images").read_bytes()), sys.argv[1:]))
