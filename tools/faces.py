#!/usr/bin/env python3
"""Writes what C and Rust are told of the archives, from the sources of the crates that the archives are made of.

    tools/faces.py              writes include/vault.h, include/records.h, strandlodge-sys/src/vault.rs, strandlodge-sys/src/records.rs and strandlodge-sys/c/layouts.c
    tools/faces.py --check      says which line of which of them isn't what it would write, and ends with 1 if there is one
    tools/faces.py --self-test  plants faults in copies of sources and files, each of which --check must see

The sources are the functions for C of crates/vault_c and crates/records_c, the structs that they name wherever these are declared, the answer
numbers of crates/disc, and the comments above all of these; in vault.h also strandlodge-sys/c/entries.h, which takes a listing's records apart. Needs nothing but
Python.
"""
import pathlib
import sys

sys.dont_write_bytecode = True
from interface import c, rust
from interface.model import interface_of
from interface.source import Unread

ROOT = pathlib.Path(__file__).resolve().parents[1]
CRATES = ("vault_c", "records_c")
# C that stands in a crate's header behind its calls.
BEHIND = {"vault_c": "strandlodge-sys/c/entries.h"}


def made(root):
    """Each file by its path, with what it must hold."""
    interfaces = {crate: interface_of(root, crate) for crate in CRATES}
    files = {}
    for crate, interface in interfaces.items():
        files[f"include/{interface.prefix}.h"] = c.header(interface, crate, (root / BEHIND[crate]).read_text(encoding="utf-8") if crate in BEHIND else "")
        files[f"strandlodge-sys/src/{interface.prefix}.rs"] = rust.module(interface, crate)
    files["strandlodge-sys/c/layouts.c"] = c.layouts(interfaces.values())
    return files


def difference(path, wanted):
    """The first line that differs, in words; "" where none does."""
    try:
        lines = path.read_text(encoding="utf-8").split("\n")
    except OSError as why:
        return why.strerror
    wanted = wanted.split("\n")
    for number, (line, want) in enumerate(zip(lines, wanted), 1):
        if line != want:
            return f"line {number} is\n    {line}\nand the sources say\n    {want}"
    return "" if len(lines) == len(wanted) else f"{len(lines)} lines, and the sources say {len(wanted)}"


def check(root):
    """What is wrong, a text for each file; empty where nothing is."""
    found = [(name, difference(root / name, text)) for name, text in made(root).items()]
    return [f"{name}: {why}" for name, why in found if why]


def main(words):
    if words == ["--self-test"]:
        from interface import trial

        return trial.run(ROOT, check, made)
    if words not in ([], ["--check"]):
        print(__doc__, file=sys.stderr)
        return 2
    try:
        if words:
            wrong = check(ROOT)
            for why in wrong:
                print(f"faces: {why}", file=sys.stderr)
            return 1 if wrong else 0
        for name, text in made(ROOT).items():
            (ROOT / name).parent.mkdir(exist_ok=True)
            (ROOT / name).write_text(text, encoding="utf-8")
        return 0
    except Unread as why:
        print(f"faces: {why}", file=sys.stderr)
        return 1


if __name__ == "__main__":
    sys.exit(main(sys.argv[1:]))
