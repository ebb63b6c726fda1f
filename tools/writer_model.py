#!/usr/bin/env python3
"""Says what the program `writer_cases` is to print: a model of the writer's rules (docs/RULES.md, 15) and of docs/LAYOUT.md, written apart from the
library, and of what reading back the vaults gives.

    tools/writer_model.py             writes crates/writer_cases/stdout, and data/written, a vault that is kept sparse
    tools/writer_model.py --check     fails where one of them isn't what the model says
"""

import struct
import sys

sys.dont_write_bytecode = True
from asked import CRATES, stored
from rules import ROOM, SIZE

BAD_NAME, BAD_FILES = 13, 14
MOST_FILES, MOST_NAME, MOST_BYTES = 64, 127, 1073739776
START, DIRECTORY, ENTRIES, FILES = 272, 8, 16, 80  # The partition's first sector; blocks.
OUT, WORK = 65536, 65536  # What the program lends for reading.
FREE = b"\xa5"


def whole(count, unit):
    """How many units so many bytes take."""
    return -(-count // unit)


def padded(data, size):
    assert len(data) <= size
    return data.ljust(size, b"\0")


def numbers(form, *values):
    return struct.pack("<" + form, *values)


# ---- LAYOUT 3: records that recur


def crc(body):
    register = 0
    for byte in body:
        for bit in range(7, -1, -1):
            high = register >> 15 ^ byte >> bit & 1
            register = (register << 1 & 0xFFFF) ^ (0x1021 if high else 0)
    return register


def descriptor(number, location, *fields):
    body = b"".join(fields)
    head, tail = numbers("HH", number, 2), numbers("xHHHI", 0, crc(body), len(body), location)
    return head + bytes([sum(head + tail) % 256]) + tail + body


def text_field(text, size):
    return padded(b"\x08" + text, size - 1) + bytes([len(text) + 1])


def entity(text, suffix=b""):
    return b"\0" + padded(text, 23) + padded(suffix, 8)


STAMP = bytes.fromhex("0010d0070101000000000000")
CHARSPEC = padded(b"\0OSTA Compressed Unicode", 64)
IMPLEMENTATION = entity(b"*Strandlodge Vault")
DOMAIN = entity(b"*OSTA UDF Compliant", b"\x02\x01\x03")
LABEL_32, LABEL_128 = text_field(b"VAULT", 32), text_field(b"VAULT", 128)


def block_at(block):
    return numbers("IIH6x", SIZE, block, 0)


# ---- LAYOUT 4: descriptors


def primary(at):
    set_name = text_field(b"386D438000000000VAULT", 128)
    levels = numbers("HHHHII", 1, 1, 2, 2, 1, 1)
    return descriptor(1, at, bytes(8), LABEL_32, levels, set_name, CHARSPEC, CHARSPEC, bytes(48), STAMP, IMPLEMENTATION, bytes(92))


def information(at):
    return descriptor(4, at, numbers("I", 1), entity(b"*UDF LV Info", b"\x02\x01"), CHARSPEC, LABEL_128, bytes(108), IMPLEMENTATION, bytes(128))


def partition(at, blocks):
    where = numbers("III", 1, START, blocks)
    return descriptor(5, at, numbers("IHH", 2, 1, 0), entity(b"+NSR02"), bytes(128), where, IMPLEMENTATION, bytes(284))


def logical(at):
    maps = numbers("II", 6, 1)
    behind = numbers("II", 8192, 64) + bytes.fromhex("010601000000")
    return descriptor(6, at, numbers("I", 3), CHARSPEC, LABEL_128, numbers("I", SIZE), DOMAIN, block_at(0), maps, IMPLEMENTATION, bytes(128), behind)


def unallocated(at):
    return descriptor(7, at, numbers("II", 4, 0))


def terminating(at):
    return descriptor(8, at, bytes(496))


def integrity(blocks, files):
    tables = numbers("IIII", 1, 46, 0, blocks)
    counts = numbers("IIHHH", files, 1, 0x0102, 0x0102, 0x0102)
    return descriptor(9, 64, STAMP, numbers("I8xQ24x", 1, 16 + files), tables, IMPLEMENTATION, counts)


def anchor(at):
    return descriptor(2, at, numbers("IIII", 32768, 32, 32768, 48), bytes(480))


def file_set():
    names = (CHARSPEC, LABEL_128, CHARSPEC, LABEL_32)
    return descriptor(256, 0, STAMP, numbers("HHIIII", 3, 3, 1, 1, 0, 0), *names, bytes(64), block_at(2), DOMAIN, bytes(64))


def entry(at, kind, permissions, length, unique, block):
    icb = numbers("IHHHxB6xH", 0, 4, 0, 1, kind, 0)
    owners = numbers("IIIHBBI", 0xFFFFFFFF, 0xFFFFFFFF, permissions, 1, 0, 0, 0)
    sizes = numbers("QQ", length, whole(length, SIZE))
    tail = numbers("QIIII", unique, 0, 8, length, block)
    return descriptor(261, at, icb, owners, sizes, STAMP * 3, numbers("I16x", 1), IMPLEMENTATION, tail)


def identifier(place, marks, block, recorded):
    named = numbers("HBB", 1, marks, len(recorded)) + block_at(block) + numbers("H", 0) + recorded
    size = whole(16 + len(named), 4) * 4 - 16
    return descriptor(257, DIRECTORY + place // SIZE, padded(named, size))


# ---- LAYOUT 1 and 2: the image


def total(lengths):
    return (384 + sum(whole(length, SIZE) for length in lengths)) // 32 * 32


def directory(names):
    data = identifier(0, 0x0A, 2, b"")
    for i, name in enumerate(names):
        data += identifier(len(data), 0, ENTRIES + i, b"\x08" + name)
    return data


def image(names, lengths, staging):
    """Each sector that isn't all zero, put in its place."""
    sectors = total(lengths)
    blocks = sectors - 273
    made = bytearray(sectors * SIZE)

    def put(sector, data):
        made[sector * SIZE : sector * SIZE + len(data)] = data

    for i, letters in enumerate((b"BEA01", b"NSR02", b"TEA01")):
        put(16 + i, b"\0" + letters + b"\x01")
    for first in (32, 48):
        put(first, primary(first))
        put(first + 1, information(first + 1))
        put(first + 2, partition(first + 2, blocks))
        put(first + 3, logical(first + 3))
        put(first + 4, unallocated(first + 4))
        put(first + 5, terminating(first + 5))
    put(64, integrity(blocks, len(names)))
    put(65, terminating(65))
    put(256, anchor(256))
    data = directory(names)
    put(START, file_set())
    put(START + 2, entry(2, 4, 0x14A5, len(data), 0, DIRECTORY))
    put(START + DIRECTORY, data)
    block, place = FILES, 0
    for i, length in enumerate(lengths):
        put(START + ENTRIES + i, entry(ENTRIES + i, 5, 0x1084, length, ENTRIES + i, block if length else 0))
        put(START + block, staging[place : place + length])
        block, place = block + whole(length, SIZE), place + length
    put(sectors - 1, anchor(sectors - 1))
    return bytes(made)


# ---- RULES 15: the call


def is_name(name):
    return 1 <= len(name) <= MOST_NAME and all(0x21 <= byte <= 0x7E and byte != 0x2F for byte in name)


def total_answer(names, lengths):
    """The answer of the sector total, and the names."""
    *parts, rest = names.split(b"\0")
    folded = {part.lower() for part in parts}
    if rest or not all(map(is_name, parts)) or len(folded) < len(parts):
        return BAD_NAME, parts
    if len(parts) > MOST_FILES or len(parts) != len(lengths) or any(length > MOST_BYTES for length in lengths):
        return BAD_FILES, parts
    return 0, parts


def write_answer(answer, lengths, staged, lent):
    if answer:
        return answer
    if sum(lengths) > staged:
        return BAD_FILES
    return ROOM if total(lengths) > lent // SIZE else 0


# ---- what is printed

SUMS = {}  # Of sectors, most of which are alike.


def summed(data):
    """The sum of the program `programs`, a sector at a time."""
    whole_factor, result = pow(31, SIZE, 1 << 32), 0
    for at in range(0, len(data), SIZE):
        part = bytes(data[at : at + SIZE])
        if part not in SUMS:
            value = 0
            for byte in part:
                value = (value * 31 + byte) % (1 << 32)
            SUMS[part] = value
        factor = whole_factor if len(part) == SIZE else pow(31, len(part), 1 << 32)
        result = (result * factor + SUMS[part]) % (1 << 32)
    return result


def left(call, answer, count, data, room):
    """A reply, with what it leaves of an output that came full of A5."""
    given = data if answer == 0 else b""
    return f"{call} {answer} count {count} length {len(given)} sum {summed(given + FREE * (room - len(given)))} zero"


def listing(names):
    """RULES 8: a record for each name, in the order of the directory."""
    record = lambda i, name: b"DE\0" + block_at(ENTRIES + i) + numbers("H", len(name)) + name
    return b"".join(record(i, name) for i, name in enumerate(names))


def reading(names, lengths, staging):
    """Opening asks for the anchor, six sectors of the sequence and the file set; a lookup for the root's entry and its directory."""
    yield "open 0 count 8"
    root = 1 + whole(len(directory(names)), SIZE)
    yield left("list", 0, root, listing(names), OUT)
    place = 0
    for length in lengths:
        data = staging[place : place + length]
        answer = 0 if length <= OUT else ROOM
        yield left("read", answer, root + 1 + whole(length, SIZE), data, OUT)
        place += length


def one(names, lengths, staging, lent):
    answer, parts = total_answer(names, lengths)
    yield f"total {answer} sectors {0 if answer else total(lengths)}"
    answer = write_answer(answer, lengths, len(staging), lent)
    came = FREE * lent
    made = b"" if answer else image(parts, lengths, staging)
    after = made + came[len(made) :]
    yield f"write {answer} sectors {len(made) // SIZE} sum {summed(after)}"
    if answer:
        return
    places = (("front", 0, 280), ("directory", 280, 288), ("entries", 288, 352), ("files", 352, len(made) // SIZE))
    sums = [f"{name} {summed(made[a * SIZE : e * SIZE])}" for name, a, e in places]
    yield " ".join([*sums, f"behind {summed(after[len(made) :])}"])
    for _ in range(2):
        yield from reading(parts, lengths, staging)


def staged(count):
    return bytes((k % 256 * 7 + k // SIZE) % 256 for k in range(count))


STORED = ([b"9", b"10.1A", b"Interval.look", b"11"], [0, 2049, 2048, 5000])


def lines(data):
    everything, at = staged(1 << 20), 0

    def sized(form):
        nonlocal at
        n, = struct.unpack_from(form, data, at)
        start = at + struct.calcsize(form)
        at = start + n
        return data[start:at]

    while at < len(data):
        title, names, row = sized("<H"), sized("<I"), sized("<I")
        lengths = [value for value, in struct.iter_unpack("<Q", row)]
        count, lent = struct.unpack_from("<II", data, at)
        at += 8
        yield "case " + title.decode("ascii")
        yield from one(names, lengths, everything[:count], lent)
    yield f"written 0 sectors {total(STORED[1])} same"


# ---- the stored vault


def packed(data):
    """Kept sparse (docs/COMPARING.md): the runs of bytes of which none are far apart from the next."""
    runs, at = [], 0
    for sector in range(len(data) // SIZE):
        part = data[sector * SIZE : (sector + 1) * SIZE].rstrip(b"\0")
        if part:
            runs.append((sector * SIZE, part))
    return numbers("II", len(data), len(runs)) + b"".join(numbers("II", at, len(part)) + part for at, part in runs)


def main(words):
    wanted = packed(image(*STORED, staged(sum(STORED[1]))))
    file = CRATES / "writer_cases" / "data" / "written"
    if words != ["--check"]:
        file.write_bytes(wanted)
    elif file.read_bytes() != wanted:
        print("crates/writer_cases/data/written isn't what the model says", file=sys.stderr)
        return 1
    return stored("writer_cases", lines((CRATES / "writer_cases/data/cases").read_bytes()), words)


if __name__ == "__main__":
    sys.exit(main(sys.argv[1:]))
