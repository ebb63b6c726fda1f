#!/usr/bin/env python3
"""Prints what the program crc_cases is to print: the CRC of RULES 3.21, bit by bit.

    tools/crc_cases.py > crates/crc_cases/stdout

The CRCs that are published, or that another program wrote, stand beside their bytes; it ends with 1 where one isn't what the rule gives.
"""
import struct
import sys


def crc(text):
    register = 0
    for byte in text:
        for place in range(7, -1, -1):
            top = register >> 15 ^ byte >> place & 1
            register = register << 1 & 0xFFFF ^ 0x1021 * top
    return register


def anchor(main, reserve):
    return struct.pack("<4I480x", 16 * 2048, main, 16 * 2048, reserve)


def line(what, text, published=None):
    if published not in (None, crc(text)):
        sys.exit(f"{what}: {crc(text):04x}, and {published:04x} is published")
    print(f"{what}: {crc(text) >> 8:02x} {crc(text) & 255:02x}")


def bytes_line(text, published=None):
    line(" ".join(["bytes", *(f"{byte:02x}" for byte in text)]), text, published)


bytes_line(b"", 0)
bytes_line(b"\x70\x6a\x77", 0x3299)
bytes_line(b"123456789", 0x31C3)
for key, slot in (b"somekey", 11058), (b"hash_tag", 2515):
    bytes_line(key, slot + crc(key) // 16384 * 16384)
for text in b"\x01", b"\x80", b"\x00\x01", b"\x01\x00", b"\x80\x00", b"\x10\x21", b"\x01\x10\x21":
    bytes_line(text)
line("anchor 96 3936", anchor(96, 3936), 0x9317)
line("anchor 32 48", anchor(32, 48), 0xD701)
pattern = bytes((i + 1 + i // 256 * 59) % 256 for i in range(4100))
for n in 0, 1, 2, 15, 16, 17, 18, 19, 20, 255, 256, 257, 2031, 2032, 2048, 2049, 4100:
    line(f"pattern {n}", pattern[:n])
