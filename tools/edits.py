#!/usr/bin/env python3
"""Tries the wrong programs of crates/NAME/edits/*.edit, each of which the prover must refuse.

    tools/edits.py                  every crate that has such edits
    tools/edits.py NAME [LABEL]     those of one crate, or one of them
    tools/edits.py --self-test      shows that it can fail: edits that must be told otherwise than as refused

An edit has the form of those under must-fail/, and is tried as those are: by `rt ci`, in a copy of the crates, in which it stands there. So what `rt ci` proved
on this machine of the same files is taken from there, and an edit that it refused there isn't tried again while nothing that it stands on has changed.

An edit is refused where rt says so, and names a place in the crate. Whatever else happens to it fails the run: it doesn't apply, it is still proved, it is no
Rattle, the prover can't tell, or all that it says is that a proof names what the edit took away. RT_JOBS is rt's. target/edits.txt has what was said.
"""
import pathlib
import re
import resource
import sys
import tempfile
import time

sys.dont_write_bytecode = True
from kit import ROOT, copied, gate

LOG = ROOT / "target/edits.txt"
# What rt says behind the name of an edit that is refused, with the place.
REFUSED = re.compile(r"refused, as it must be: (?:note: )?\S*?:\d+:\d+:")


class Wrong(Exception):
    """A crate that can't be tried, and why."""


def edits_of(name, label=None):
    """The label and the text of each edit of a crate, or of one."""
    found = sorted((ROOT / "crates" / name / "edits").glob("*.edit"))
    return [(path.stem, path.read_bytes().decode()) for path in found if label in (None, path.stem)]


def told(said, name):
    """What rt says of each edit of a crate, by its label."""
    lines = re.findall(rf"^rt: must-fail {re.escape(name)}/(\S+)\.edit: (.*)$", said, re.M)
    return {label: words for label, words in lines}


def tried(asked, log=None, change=None):
    """The lines for the edits that are asked for, by crates, and how many of each crate were refused. The self-test changes a copy before."""
    with tempfile.TemporaryDirectory(prefix="edits-") as folder:
        repository = pathlib.Path(folder, "repository")
        copied(asked, repository)
        for name, edits in asked.items():
            there = repository / "crates" / name / "must-fail"
            there.mkdir()
            for label, text in edits:
                (there / f"{label}.edit").write_bytes(text.encode())
        if change:
            change(repository)
        said = gate(repository)[1]
    if log:
        log.parent.mkdir(exist_ok=True)
        log.write_text(said)
    lines, refused = [], {}
    for name, edits in asked.items():
        words, good = told(said, name), 0
        for label, _ in edits:
            line = words.get(label, "NOT TRIED: the crate isn't proved as it is, or the run ended before")
            is_good = bool(REFUSED.match(line))
            good += is_good
            lines.append(f"edits: {name}/{label}: {line if is_good or not line.startswith('refused') else line.replace('refused', 'NOT CLEAR: refused', 1)}")
        lines.append(f"edits: {name}: {good} of {len(edits)} refused" if edits else f"edits: {name}: FAILED: it has no such edit")
        refused[name] = good
    return lines, refused


def run(asked):
    """Tries the edits that are asked for, and prints a line for each. Ends with 0 if all were refused."""
    began = time.monotonic()
    lines, refused = tried(asked, LOG)
    print("\n".join(lines), flush=True)
    number, used = sum(map(len, asked.values())), resource.getrusage(resource.RUSAGE_CHILDREN)
    failed = [name for name, edits in asked.items() if not edits or refused[name] != len(edits)]
    spent = f"{used.ru_utime + used.ru_stime:.0f} s of processors, at most {used.ru_maxrss / 1024:.0f} MiB for a check"
    print(f"edits: {number} edits of {len(asked)} crates, {sum(refused.values())} refused ({time.monotonic() - began:.0f} s; {spent})")
    if failed or not number:
        print(f"edits: FAILED: {' '.join(failed) or 'there is no edit'}: {LOG.relative_to(ROOT)} has all that was said")
        return 1
    return 0


# Edits of the crate `crcs`, and what must be said of each. The first two are right programs; the last is a wrong one.
PLANTED = (
    ("file: src/lib.rt\nold: // The CRC of the bytes of s.\nnew: // The CRC of all bytes of s.", "NOT REFUSED"),
    ("file: src/lib.rt\nold:     crc_behind(0, s)\nnew:     let zero = 0; crc_behind(zero, s)", "NOT REFUSED"),
    ("file: src/lib.rt\nold:     crc_behind(1, s)\nnew:     crc_behind(2, s)", "BAD EDIT: an 'old:' text is in src/lib.rt 0 times"),
    ("file: src/lib.rt\nold: take_byte(\nnew: take_bytes(", "BAD EDIT: an 'old:' text is in src/lib.rt 2 times"),
    ("file: src/none.rt\nold: a\nnew: b", "BAD EDIT: there is no file"),
    ("file: ../disc/src/lib.rt\nold: a\nnew: b", "BAD EDIT: a 'file:' line names no file"),
    ("# nothing", "BAD EDIT: it has no 'old:' and 'new:' pair"),
    ("file: src/lib.rt\nold:     crc_behind(0, s)\nnew:     crc_behind(0, s)", "BAD EDIT: it changes nothing"),
    ("file: src/lib.rt\nold:     crc_behind(0, s)\nnew:     crc_behind(s, 0)", "BAD EDIT: it did not reach the prover"),
    ("file: src/lib.rt\nold:     crc_behind(0, s)\nnew:     crc_behind(0, s", "BAD EDIT: it did not reach the prover"),
    ("file: src/lib.rt\nold:     crc_behind(0, s)\nnew:     crc_behind(1, s)", "refused, as it must be: "),
)


def planted(repository):
    """Makes a copy of `crcs` one that isn't proved."""
    path = repository / "crates/crcs/src/lib.rt"
    path.write_text(path.read_text().replace("    crc_behind(0, s)", "    crc_behind(1, s)"))


def self_test():
    """Whether each planted edit is told as what it is, and a crate with no edits, or that isn't proved as it is, fails."""
    edits = [(f"planted_{i:02}", text) for i, (text, _) in enumerate(PLANTED)]
    lines, refused = tried({"crcs": edits, "disc": []})
    wants = [f"edits: crcs/{label}: {must}" for (label, _), (_, must) in zip(edits, PLANTED)]
    wants += [f"edits: crcs: 1 of {len(PLANTED)} refused", "edits: disc: FAILED: it has no such edit", f"edits: crcs/{edits[-1][0]}: NOT TRIED", "edits: crcs: 0 of 1 refused"]
    more, others = tried({"crcs": edits[-1:]}, change=planted)
    lines += more
    good = len(lines) == len(wants) and all(line.startswith(want) for line, want in zip(lines, wants)) and (refused["crcs"], others["crcs"]) == (1, 0)
    if not good:
        print("\n".join(lines))
    print(f"edits: {len(wants) - 3} faults and a wrong program planted: {'all told' if good else 'FAILED'}")
    return 0 if good else 1


def main(words):
    if words == ["--self-test"]:
        return self_test()
    if len(words) > 2 or any(word.startswith("-") for word in words):
        print(__doc__, file=sys.stderr)
        return 2
    names = words[:1] or sorted({path.parts[-3] for path in ROOT.glob("crates/*/edits/*.edit")})
    return run({name: edits_of(name, *words[1:]) for name in names})


if __name__ == "__main__":
    sys.exit(main(sys.argv[1:]))
