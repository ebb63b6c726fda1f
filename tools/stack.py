#!/usr/bin/env python3
"""Holds each call of include/vault.h to the bytes of stack that the header says it takes at most.

    tools/stack.py [archive..]  by default those of vault_c, drives_c and surveys_c in target/staticlib (`tools/archives proved`)

Builds strandlodge-sys/c/stack.c over the archives and runs it on the show of crates/first_cue, and on the same show with a directory that holds itself, so
that a tree goes down 16 levels. Prints for each call the most that it took, unchecked and checked. Ends with 1 where a call takes more than the header's
table says, or so much less that an array of SLACK bytes more would go unnoticed.
"""
import re
import sys
import tempfile

sys.dont_write_bytecode = True
import udf
from kit import ROOT, linked, ran
from show_image import show

SOURCE, HEADER = ROOT / "strandlodge-sys/c/stack.c", ROOT / "include/vault.h"
SLACK = 508  # A name's longest text: such an array once stood in the name test.
OTHERS = (512, 512)  # For a call that the table doesn't name.


def measured(archives):
    """The most that each call takes over both images: unchecked, checked."""
    most = {}
    with tempfile.TemporaryDirectory() as folder:
        linked(SOURCE, archives, f"{folder}/stack")
        for deep in (False, True):
            for line in ran(f"{folder}/stack", udf.packed(show(deep))).decode().splitlines():
                name, *taken = line.split()
                most[name] = [max(pair) for pair in zip(map(int, taken), most.get(name, (0, 0)))]
    return most


def bounds():
    """The header's table: a call, and two numbers."""
    rows = re.findall(r"^ \*     (vault_\w+) +([\d,]+) +([\d,]+)$", HEADER.read_text(), re.M)
    return {name: [int(number.replace(",", "")) for number in two] for name, *two in rows}


def faults(taken, stated):
    for name in stated.keys() - taken.keys():
        yield f"{name} has a bound, and is no call"
    for name, numbers in taken.items():
        for took, most, how in zip(numbers, stated.get(name, OTHERS), ("unchecked", "checked")):
            if took > most:
                yield f"{name}, {how}, takes {took} bytes, and its bound is {most}"
            elif name in stated and took + SLACK <= most:
                yield f"{name}, {how}, takes {took} bytes: a bound of {most} would let {SLACK} more go unnoticed"


if __name__ == "__main__":
    declared = set(re.findall(r"^\w+ (vault_\w+)\(", HEADER.read_text(), re.M))
    if missing := declared - set(re.findall(r"ROW\((vault_\w+)\)", SOURCE.read_text())):
        sys.exit(f"strandlodge-sys/c/stack.c doesn't call {', '.join(sorted(missing))}")
    taken = measured(sys.argv[1:] or [ROOT / f"target/staticlib/lib{crate}.a" for crate in ("vault_c", "drives_c", "surveys_c")])
    for name, numbers in taken.items():
        print(name, *numbers)
    wrong = list(faults(taken, bounds()))
    for why in wrong:
        print(f"stack: {why}", file=sys.stderr)
    sys.exit(1 if wrong else 0)
