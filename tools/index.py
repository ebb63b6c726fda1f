#!/usr/bin/env python3
"""Writes docs/INDEX.md: each public call with its contract, each promise with the statements that are its proof, and every definition that these reach.

    tools/index.py              writes it
    tools/index.py --check      says where it isn't what the sources say; where docs/PROMISES.md names a theorem, a contract or an edit that isn't there, or
                                leaves an edit out; where an outer spec uses an inner one; where a promise's statement reaches a definition outside
                                specs/. Ends with 1 if there is anything
    tools/index.py --self-test  plants faults in a copy of the sources, each of which --check must see

Each name of each `use` in crates/ is resolved on the way, and one that isn't declared fails the tool. Needs nothing but Python.
"""
import pathlib
import sys

sys.dont_write_bytecode = True
from faces import difference
from interface.source import Unread
from statements import trial
from statements.page import PATH, Page
from statements.reached import Reached
from statements.world import World

ROOT = pathlib.Path(__file__).resolve().parents[1]


def read(root):
    """All that is reached in a tree, with each `use` of it resolved."""
    world = World(root)
    world.uses_resolved()
    return Reached(world)


def check(root):
    """What is wrong, a line for each."""
    try:
        reached = read(root)
        why = difference(root / PATH, Page(reached).text())
    except Unread as unread:
        return [str(unread)]
    return reached.faults() + ([f"{PATH}: {why}"] if why else [])


def write(root):
    """Writes the page; says what --check would say besides."""
    reached = read(root)
    (root / PATH).write_text(Page(reached).text(), encoding="utf-8")
    return reached.faults()


def main(words):
    if words not in ([], ["--check"], ["--self-test"]):
        print(__doc__, file=sys.stderr)
        return 2
    try:
        if words == ["--self-test"]:
            return trial.run(ROOT, check, write)
        wrong = check(ROOT) if words else write(ROOT)
    except Unread as why:
        wrong = [str(why)]
    for why in wrong:
        print(f"index: {why}", file=sys.stderr)
    return 1 if wrong else 0


if __name__ == "__main__":
    sys.exit(main(sys.argv[1:]))
