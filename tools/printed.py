#!/usr/bin/env python3
"""Runs the program tag_printer on inputs that rt doesn't run it on, refused ones among them, and compares what it prints with RULES 3.4, 3.5, 11.3
and 11.4 read anew.

    tools/printed.py [PROGRAM]      by default crates/tag_printer/out/tag_printer, which `rt ci` makes, and `rt run` in the crate's folder

rt runs a program once, on its file `stdin`; and no contract says what is printed. Ends with 1 if anything else is printed.
"""
import struct
import sys

sys.dont_write_bytecode = True
from kit import ROOT, Failed, ran

NAMES = "id version serial crc crclen location"
CASE_1 = bytes.fromhex("020003000600 000000000000 00010000")
MOST = 2048


def mended(tag):
    """A tag with the checksum that it must have."""
    return tag[:4] + bytes([(sum(tag[:4]) + sum(tag[5:16])) % 256]) + tag[5:]


def expected(input):
    """What is to be printed, by the rules."""
    tag = input[:MOST][:16]
    if len(tag) == 16:
        id, version, checksum, reserved, serial, crc, crc_length, location = struct.unpack("<HHBBHHHI", tag)
        is_listed = 1 <= id <= 9 or 256 <= id <= 266
        if is_listed and reserved == 0 and checksum == (sum(tag) - checksum) % 256:
            return f"{NAMES}\n{id} {version} {serial} {crc} {crc_length} {location}\n"
    return f"{NAMES}\nrefused 2\n"


def inputs():
    """What each is, and the bytes."""
    yield "case 1", CASE_1
    yield "case 2", CASE_1[:4] + b"\x07" + CASE_1[5:]
    yield "case 3", CASE_1[:4] + b"\x07\x01" + CASE_1[6:]
    yield "case 4", CASE_1[:15]
    yield "case 5", bytes(16)
    yield "nothing", b""
    for n in (17, MOST - 1, MOST, MOST + 1):
        yield f"{n} bytes", CASE_1 + b"\xff" * (n - 16)
        yield f"{n} bytes that are refused", bytes(16) + CASE_1 * (n // 16)
    for id in (0, 1, 9, 10, 255, 256, 257, 258, 266, 267, 512 + 2, 65535):
        yield f"id {id}", mended(struct.pack("<H", id) + CASE_1[2:])
    full = mended(struct.pack("<HHBBHHHI", 261, 65535, 0, 0, 65534, 65533, 65532, 2**32 - 1))
    yield "large fields", full
    for at in range(16):
        yield f"byte {at} of another value", full[:at] + bytes([full[at] ^ 1 << at % 8]) + full[at + 1 :]


def main(words):
    program = words[0] if words else ROOT / "crates/tag_printer/out/tag_printer"
    seen = {"read": 0, "refused": 0}
    for what, input in inputs():
        try:
            printed = ran(program, input).decode(errors="replace")
        except Failed as why:
            print(f"printed: {what}: {why}")
            return 1
        if printed != expected(input):
            print(f"printed: {what}: {printed!r}, and the rules say {expected(input)!r}")
            return 1
        seen["refused" if "refused" in printed else "read"] += 1
    print(f"printed: tag_printer on {sum(seen.values())} inputs, of which {seen['refused']} are refused")
    return 0


if __name__ == "__main__":
    sys.exit(main(sys.argv[1:]))
