#!/usr/bin/env python3
"""Writes crates/writer_cases/data/cases: names, lengths and memory from which vaults are to be written, and those that are refused.

The file is a row of records, with little-endian numbers:

    u16 length of the title, the title, u32 bytes of the names, the names, u32 bytes of the lengths, the lengths as u64,
    u32 bytes of the staging area, u32 bytes of the slice that is lent

Usage: tools/writer_cases.py. Needs Python's standard library alone, prints nothing, and writes the same bytes each time.
tools/writer_model.py says what is expected.
"""

import os
import struct

SECTOR = 2048
MOST = 1073739776  # The most bytes of a file.
LEAST = 384  # The sectors of a vault with no more than 31 sectors of files.
STAGED = 1 << 20  # As much as the program has staged.
LENT = 600 * SECTOR  # As much as the program lends, where a case says nothing else.


def ended(names):
    return b"".join(name + b"\0" for name in names)


def record(title, names, lengths, staged=None, lent=LENT):
    """A case. Names are given as a list, or as the bytes themselves."""
    names = names if isinstance(names, bytes) else ended(names)
    staged = min(sum(lengths), STAGED) if staged is None else staged
    row = b"".join(struct.pack("<Q", length) for length in lengths)
    title = title.encode("ascii")
    sized = (struct.pack("<H", len(title)) + title, struct.pack("<I", len(names)) + names, struct.pack("<I", len(row)) + row)
    return b"".join(sized) + struct.pack("<II", staged, lent)


def numbered(count, tail=b""):
    return [b"%02d" % i + tail for i in range(count)]


def written():
    yield record("no files", [], [])
    yield record("no files, staged bytes that are of none", [], [], staged=5000)
    yield record("one file of one byte", [b"A"], [1])
    yield record("an empty file", [b"A"], [0])
    yield record("three files", [b"a", b"B.dat", b"z" * 127], [0, 2049, 2048])
    yield record("three files, and staged bytes behind them", [b"a", b"B.dat", b"z" * 127], [0, 2049, 2048], staged=9000)
    for length in (2047, 2048, 2049, 4095, 4096, 4097):
        yield record("lengths around a sector, %d" % length, [b"first", b"second"], [length, 1])
    yield record("64 files of 100 i bytes", [b"cue%02d" % i for i in range(64)], [100 * i for i in range(64)])
    yield record("64 empty files with the longest names", numbered(64, b"n" * 125), [0] * 64)
    yield record("64 files of a byte with the shortest names", [bytes([c]) for c in range(0x3F, 0x7F) if not 0x61 <= c <= 0x7A] + [b"0%c" % c for c in b"abcdefghijklmnopqrstuvwxyz"], [1] * 64)
    # A total goes up by 32 sectors where the files pass a multiple of 32 less one.
    for sectors in (30, 31, 32, 62, 63, 64, 95, 96):
        yield record("files of %d sectors" % sectors, [b"one", b"two"], [SECTOR, SECTOR * (sectors - 1)])


def named():
    yield record("every byte of a name", [bytes([c]) + b"." for c in range(0x21, 0x5B) if c != 0x2F] + [b"~`{|}^_[]"], [1] * 58)
    for length in (1, 2, 3, 4, 5, 126, 127):
        yield record("a name of %d bytes" % length, [b"n" * length], [7])
    yield record("names that differ in one character", [b"cue 1".replace(b" ", b"-"), b"cue-2", b"cue-3", b"Cue_3"], [3, 2, 1, 0])
    yield record("names of which one begins another", [b"cue", b"cue1", b"cue11", b"cu"], [1, 2, 3, 4])
    yield record("names next to the letters", [b"@", b"`", b"[", b"{", b"A", b"z"], [1] * 6)
    yield record("names of dots", [b".", b"..", b"..."], [1, 2, 3])


def bad_names():
    """13, whatever else is wrong: no room is lent, and the lengths are too many."""
    for what, names in [
        ("an empty name", [b"a", b"", b"b"]),
        ("an empty name alone", [b""]),
        ("a name of 128 bytes", [b"n" * 128]),
        ("a name of 255 bytes", [b"a", b"n" * 255]),
        ("a rest without its zero byte", b"a\0b"),
        ("a name alone without its zero byte", b"a"),
        ("a rest of 128 bytes without its zero byte", b"a\0" + b"n" * 128),
        ("a slash", [b"a/b"]),
        ("a space", [b"a b"]),
        ("byte 20 at the end", [b"ab\x20"]),
        ("byte 7F", [b"\x7f"]),
        ("byte 80", [b"a\x80"]),
        ("byte FF", [b"a", b"b\xff"]),
        ("byte 01", [b"\x01"]),
        ("two equal names", [b"a", b"b", b"a"]),
        ("two names equal but for case", [b"10.1A", b"9", b"10.1a"]),
        ("two of 127 bytes equal but for the case of the last", [b"n" * 127, b"n" * 126 + b"N"]),
        ("a bad name behind 64 good ones", numbered(64) + [b"a/b"]),
        ("two equal names behind 64 others", numbered(64) + [b"x", b"X"]),
        ("the last of 70 equal to the first", numbered(69) + [b"00"]),
    ]:
        count = 1 if isinstance(names, bytes) else len(names)
        yield record(what, names, [0] * count)
        yield record(what + ", and other refusals", names, [MOST + 1] * 70, staged=0, lent=0)


def bad_files():
    """14, whether or not there is room."""
    for what, names, lengths, staged in [
        ("65 files", numbered(65), [0] * 65, 0),
        ("70 files", numbered(70), [0] * 70, 0),
        ("a name more than lengths", [b"a", b"b"], [0], 0),
        ("a length more than names", [b"a"], [0, 0], 0),
        ("a length and no name", [], [0], 0),
        ("a name and no length", [b"a"], [], 0),
        ("64 names and 65 lengths", numbered(64), [0] * 65, 0),
        ("65 names and 64 lengths", numbered(65), [0] * 64, 0),
        ("a file one byte too long", [b"a"], [MOST + 1], STAGED),
        ("a file of 2^32 bytes", [b"a"], [1 << 32], STAGED),
        ("a file of 2^64 - 1 bytes", [b"a", b"b"], [1, (1 << 64) - 1], STAGED),
        ("two files of 2^63 bytes", [b"a", b"b"], [1 << 63, 1 << 63], STAGED),
        ("the last of 64 too long", numbered(64), [0] * 63 + [MOST + 1], STAGED),
        ("a byte more than is staged", [b"a", b"b"], [3000, 2001], 5000),
        ("a byte where nothing is staged", [b"a"], [1], 0),
        ("the longest file, which isn't staged", [b"a"], [MOST], STAGED),
        ("64 of the longest, which aren't staged", numbered(64), [MOST] * 64, STAGED),
    ]:
        yield record(what, names, lengths, staged=staged)
        yield record(what + ", and no room", names, lengths, staged=staged, lent=0)


def lent():
    """5 exactly where there are fewer whole sectors; what is behind them isn't looked at, and stays."""
    for files, sectors in (([], LEAST), ([5000], LEAST), ([31 * SECTOR], LEAST), ([31 * SECTOR + 1], LEAST + 32), ([32 * SECTOR], LEAST + 32)):
        names = [b"a"] * len(files)
        for more in (-sectors * SECTOR, -SECTOR, -1, 0, 1, SECTOR - 1, SECTOR, SECTOR + 1):
            yield record("files of %d bytes, %d bytes more than the layout" % (sum(files), more), names, files, lent=sectors * SECTOR + more)


CASES = [written, named, bad_names, bad_files, lent]


def main():
    root = os.path.dirname(os.path.dirname(os.path.abspath(__file__)))
    folder = os.path.join(root, "crates", "writer_cases", "data")
    os.makedirs(folder, exist_ok=True)
    with open(os.path.join(folder, "cases"), "wb") as file:
        file.write(b"".join(one for case in CASES for one in case()))


if __name__ == "__main__":
    main()
