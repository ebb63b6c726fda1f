#!/usr/bin/env python3
"""Holds the headers to C, and the archives to the headers.

    tools/calls.py              needs the archives of vault_c, drives_c, surveys_c and records_c (`tools/archives proved`)
    tools/calls.py --self-test  plants faults in copies of vault.h, each of which must be seen, and in the sources, each of which the prover must refuse

Compiles strandlodge-sys/c/layouts.c, which asserts every size, offset, type and number of the two headers, as C11 and as C++17. Sees that a choice on opening isn't
taken for one of matching. Then it builds over the archives, and runs:

    strandlodge-sys/c/calls.c      every call of vault.h on a small show
    strandlodge-sys/c/records.c    every call of records.h, as C11 and as C++17
    strandlodge-sys/c/growing.c    reads in which row and output grow at every step, on the images of crates/drive_cases and on a file of 5 MB
    packaging/window.c  that file through a window of 2,048 bytes, which must be what vault_read gives; on x86-64, with cc's own library
    packaging/lookup.c  its name looked up a sector at a time; in the same way

Needs cc and c++.
"""
import os
import pathlib
import random
import re
import sys
import tempfile

sys.dont_write_bytecode = True
import drive_images
import edits
import udf
from kit import ROOT, STRICT, Failed, did, linked, ran
from show_image import identifier
from udf import EMBEDDED, MAIN, NEXT, PARTITION, SECTOR as SIZE, SHORT, START, aed, entry, long_ad, short_ad

SHOW = ROOT / "crates/first_cue/stdin"
ARCHIVES = ("vault_c", "drives_c", "surveys_c")
C, CPP = ("-std=c11",), ("-x", "c++", "-std=c++17")

# Two parameters of a call that the archive takes the other way round than the header says. An ICB and a number beside it the other way round are no fault: a
# struct so large is passed on the stack, and the number in a register.
TURNED = """
vault_list out work
vault_show out work
vault_show image levels
vault_show most out
vault_show levels most
vault_read_path out work
vault_read_path path out
vault_read_path matching out
vault_read_path image path
vault_read_all paths out
vault_read_all lengths answers
vault_runs image row
vault_lookup path work
vault_failed work component_at
vault_label image out
vault_open image how
vault_label how out
vault_reading_step sector row
vault_reading_step sector out
vault_reading_step row out
vault_list_bytes bytes out
vault_match bytes component
vault_match component matching
vault_next_component path at
vault_write names staging
vault_survey shelf work
vault_survey lengths figures
vault_survey how figures
vault_survey most figures
vault_survey how most
vault_survey_total figures images
"""
# Two fields of a struct that the archive has the other way round.
SWAPPED_FIELDS = """
vault_run at length
vault_reading count length
vault_opening left opened
vault_named answer found
vault_component at length
vault_opened answer count
vault_reply count length
vault_volume mount root
vault_lb_addr block partition_ref
vault_mount partition checked
"""


# What it is, a pattern that stands in include/vault.h once, and what takes its place: numbers that are others in the archive, what the header's inlines say,
# which no proof covers, and the constant that stands for no call.
HEADER_FAULTS = (
    ("a number that is another", "VAULT_NO_ROOM = 5", "VAULT_NO_ROOM = 75"),
    ("a refusal by another number", "VAULT_BAD_CRC = 10", "VAULT_BAD_CRC = 70"),
    ("the bits of two choices the other way round", "VAULT_CHECKED = 1(.*)VAULT_HIGHEST = 4", r"VAULT_CHECKED = 4\1VAULT_HIGHEST = 1"),
    ("a sector of 4,096 bytes", "VAULT_SECTOR_SIZE = 2048", "VAULT_SECTOR_SIZE = 4096"),
    ("the type by one bit", r"\(raw >> 30\)", "(raw >> 31)"),
    ("a length of 31 bits", "raw & 0x3fffffff", "raw & 0x7fffffff"),
    ("marks that aren't tested", r"r\[0\] != 0x44 \|\| r\[1\] != 0x45 \|\| ", ""),
    ("one mark that isn't tested", r" \|\| r\[1\] != 0x45", ""),
    ("a name's length in one byte", r"\(size_t\)\(r\[head - 2\] \| r\[head - 1\] << 8\)", "r[head - 2]"),
    ("a name that isn't whole", r" \|\| length - \*at - head < name", ""),
    ("a partition in one byte", r"\(uint16_t\)\(icb\[8\] \| icb\[9\] << 8\)", "icb[8]"),
    ("any kind but 0 a directory", r"r\[head - 19\] == 1", "r[head - 19] != 0"),
    ("a place behind the listing", r"\*at > length \|\| ", ""),
    ("a text of another answer", "case VAULT_NO_WORK:", "case 8:"),
)
# What it is, a crate, a file of its sources, a pattern that stands there once, and what takes its place: calls that do something else, which the prover must
# refuse, since an archive is compiled of nothing else than what it proves.
WRONG = (
    ("a row that isn't zeroed", "drives", "readings", r"row\[i\] = \[0; 4\]", "row[i] = [1; 4]"),
    ("a denied sector that isn't counted", "drives", "openings", r"refused\(IO, count\)", "refused(IO, self.opened.count)"),
    ("no more bytes missing than there is room for", "drives", "located", r"take_area\(r, e\.kind, e\.information_length, ",
     "take_area(r, e.kind, lesser(e.information_length, out.len() as u64 + 1), "),
    ("a full row that has no end", "drives", "scans", r"r\.listed = i \+ 1;", "r.listed = i + 1; if r.listed == row.len() { r.listed = 0xffff_ffff_ffff_ffff; }"),
    ("an extent read by the row's length", "drives", "turns", r"let n = least\(r\.scan\.listed, row\.len\(\)\);", "let n = row.len();"),
    ("a level more than the most", "shows", "whole", r"if MOST_LEVELS < levels", "if MOST_LEVELS + 1 < levels"),
    ("a bit of no choice that is taken", "volumes", "choices", r"if how / 8 != 0", "if how / 16 != 0"),
    ("a total that is no multiple of 32", "writers", "lib", r"\(384 \+ blocks_of\(lengths\)\) / 32 \* 32", "353 + blocks_of(lengths)"),
    ("a sector of room too few", "writers", "lib", r"image\.len\(\) / 2048\) as u64\) < reply", "image.len() / 2048 + 1) as u64) < reply"),
    ("two refusals the other way round", "writers", "lib", r"if !are_good\(names\)(.*)if !are_files\(names, lengths\)",
     r"if !(are_files(names, lengths))\1if !are_good(names)"),
    ("a budget that is one more", "shows", "levels", r"if p\.most < count", "if p.most < count && p.most + 1 != count"),
    ("a count at 16 that is the call's", "shows", "levels", r"stopped\(Refusal::OverBudget\.number\(\), p\.most\)", "stopped(Refusal::OverBudget.number(), count)"),
    ("reads that take nothing of the budget", "shows", "whole", r"< sectors_in\(tally\)", "< sectors_in(&[])"),
    ("an opening that takes nothing of it", "surveys", "lib", r"let left = left_of\(most, opened\.count\)", "let left = left_of(most, 0)"),
    ("bytes in the place of extents", "figures", "lib", r"BYTES: usize = 4(.*)EXTENTS: usize = 6", r"BYTES: usize = 6\1EXTENTS: usize = 4"),
    ("a figure that wraps", "figures", "lib", r"if MOST - number < more", "if MOST < more"),
    ("a bound that wraps", "surveys", "lib", r"if left < n", "if left > n"),
    ("checked by the lowest bit alone", "disc", "places", r"self\.checked != 0", "self.checked == 1"),
)

# A choice on opening where one of matching is wanted. C warns of it, and C++ refuses it and any number.
SWAPPED = """#include "vault.h"
vault_named swapped(vault_volume v, const uint8_t *bytes);
vault_named swapped(vault_volume v, const uint8_t *bytes) { return vault_match(v, bytes, 1, bytes, 1, %s); }
"""
CHOICES = {"VAULT_AS_WRITTEN": (True, True), "(vault_matching)77": (True, True), "VAULT_CHECKED": (False, False), "VAULT_DONE": (False, False), "1u": (True, False)}


def uncalled(header, source):
    """The functions of a header, and those of them that a source doesn't call."""
    declared = re.findall(r"^(?:static inline )?(?:const )?\w+ \*?((?:vault|records)_\w+)\(", (ROOT / header).read_text(), re.M)
    called = re.findall(r"\b((?:vault|records)_\w+)\(", (ROOT / source).read_text())
    missing = [name for name in declared if name not in called]
    if missing or not declared:
        raise Failed(f"{source} doesn't call {', '.join(missing) or 'anything'}")
    return len(declared)


def is_taken(compiler, text, folder):
    """Whether a compiler takes a text with no warning."""
    path = pathlib.Path(folder) / "text.c"
    path.write_text(text, encoding="utf-8")
    try:
        did(*compiler, *STRICT, "-fsyntax-only", path)
        return True
    except Failed:
        return False


def told_apart(folder):
    """Holds each choice to what C and C++ say of it in another's place."""
    for choice, wanted in CHOICES.items():
        found = tuple(is_taken(compiler, SWAPPED % choice, folder) for compiler in (("cc", *C), ("c++", *CPP)))
        if found != wanted:
            raise Failed(f"{choice} in the place of a matching: C and C++ {'take' if found[0] else 'refuse'} and {'take' if found[1] else 'refuse'} it")


def made(archives, folder, headers=()):
    """Makes the calls over the archives."""
    linked(ROOT / "strandlodge-sys/c/calls.c", archives, f"{folder}/calls", headers=headers)
    ran(f"{folder}/calls", SHOW.read_bytes())


def small_records(archive, folder):
    """Makes the calls of records.h."""
    for language in (C, CPP):
        linked(ROOT / "strandlodge-sys/c/records.c", [archive], f"{folder}/records", language)
        ran(f"{folder}/records")


# ---- a long file

LONG_FILE, PIECE, CHAIN = 5 * 2**20 + 123, 2, 3 * SIZE  # Bytes, sectors of an extent, bytes of a continuation.


def areas(extents):
    """The descriptors of a file's entry, and of each continuation: as many as there is room for, with one more that leads on."""
    found, room = [], (SIZE - 176) // 8
    while len(extents) > room:
        found.append(extents[: room - 1])
        extents, room = extents[room - 1 :], (CHAIN - 24) // 8
    return [*found, extents]


def long_disc():
    """A volume with a file LONG of 5 MB in its root, whose extents stand on the disc from the back to the front, in a chain; the file's bytes; and its ICB."""
    data = random.Random(1).randbytes(LONG_FILE)
    pieces = [data[at : at + PIECE * SIZE] for at in range(0, LONG_FILE, PIECE * SIZE)]
    first = 8 + 3 * 8
    blocks = [first + PIECE * i for i in reversed(range(len(pieces)))]
    rows = areas([short_ad(len(piece), block) for piece, block in zip(pieces, blocks)])
    image = udf.Image("a long file", START + first + PIECE * len(pieces))
    image.lay(udf.ANCHOR, udf.anchor())
    for i, one in enumerate((udf.primary(MAIN), udf.partition(MAIN + 1, PARTITION), udf.logical(MAIN + 2, PARTITION), udf.TERMINATOR(MAIN + 3))):
        image.lay(MAIN + i, one)
    image.lay(START + udf.BLOCK, udf.file_set(udf.BLOCK, root=long_ad(SIZE, 3)))
    names = identifier(3, "LONG", 4)
    image.lay(START + 3, entry(EMBEDDED, names, len(names)))
    for i, row in enumerate(rows):
        area = b"".join(row) + (short_ad(CHAIN, 8 + 3 * i, NEXT) if i + 1 < len(rows) else b"")
        image.lay(START + (8 + 3 * (i - 1) if i else 4), aed(area) if i else entry(SHORT, area, LONG_FILE))
    for block, piece in zip(blocks, pieces):
        image.lay(START + block, piece)
    return bytes(image.bytes), data, long_ad(SIZE, 4)


def grown(archives, folder, times):
    """Reads on the stored images whose memory grows at every step, so many in each way; what is said of them."""
    linked(ROOT / "strandlodge-sys/c/growing.c", archives, f"{folder}/growing")
    return ran(f"{folder}/growing", (ROOT / "crates/drive_cases/data/images").read_bytes(), [times]).decode().strip()


def windowed(archive, folder):
    """The same on the long file, whose bytes are those that vault_read gives; and the example of packaging/ on it."""
    image, data, icb = long_disc()
    record = drive_images.record("a long file", image, [drive_images.query(START, PARTITION, icb, 0)])
    ran(f"{folder}/growing", record, [3])
    if ran(f"{folder}/growing", record, ["whole"]) != data:
        raise Failed("vault_read gives other bytes of the long file")
    if os.uname().machine != "x86_64":
        return "packaging/window.c and lookup.c: left out, the archive is x86-64 code"
    disc, program = pathlib.Path(folder) / "long.img", f"{folder}/window"
    disc.write_bytes(image)
    did("cc", *C, *STRICT, ROOT / "packaging/window.c", archive, "-o", program)
    if did(program, disc, "LONG") != data:
        raise Failed("packaging/window.c gives other bytes than vault_read")
    did("cc", *C, *STRICT, ROOT / "packaging/lookup.c", archive, "-o", f"{folder}/lookup")
    # Opening takes 6 sectors, and the root, whose bytes stand in its entry, one.
    if did(f"{folder}/lookup", disc, "LONG") != b"file in block 4, partition 5: 7 sectors\n":
        raise Failed("packaging/lookup.c finds something else")
    return f"{len(data)} bytes through a window of {SIZE}"


def is_refused(archives, folder, headers=()):
    """Whether one of the programs that a fault may show in ends with another status than 0."""
    try:
        made(archives, folder, headers)
        grown(archives[:2], folder, 1)
        return False
    except Failed:
        return True


def planted(text, old, new, name):
    """A text with a fault in the one place that it has for it."""
    changed, times = re.subn(old, new, text, flags=re.S)
    if times != 1 or changed == text:
        raise Failed(f"the fault has no place in {name}: {old}")
    return changed


def header():
    return (ROOT / "include/vault.h").read_text(encoding="utf-8")


def turned(call, one, other):
    """The header with a macro in front of a call, by which what is passed for one parameter, with its length, comes where the other is taken."""
    text = header()
    gives, takes = re.search(rf"^(\w+) {call}\(([^;]*)\);", text, re.M).groups()
    takes = [" ".join(word.split()) for word in takes.split(",")]
    names, types = zip(*(re.fullmatch(r"(.*?)(\w+)", word).groups()[::-1] for word in takes))
    groups = [[i for i, name in enumerate(names) if name == wanted or name.startswith(f"{wanted}_")] for wanted in (one, other)]
    first, last = sorted(groups)
    order = [*range(first[0]), *last, *range(first[-1] + 1, last[0]), *first, *range(last[-1] + 1, len(names))]
    if not all(groups) or sorted(order) != [*range(len(names))]:
        raise Failed(f"{call} has no {one} and {other}")
    wide, passed = ", ".join(types[i] for i in order), ", ".join(f"(a{i})" for i in order)
    return f"{text}\n#define {call}({', '.join(f'a{i}' for i in range(len(names)))}) ((({gives}(*)({wide}))(void (*)(void)){call})({passed}))\n"


def swapped(struct, one, other):
    """The header with two fields of a struct the other way round."""
    text = header()
    whole = re.search(rf"typedef struct \{{(?:(?!typedef struct).)*?\}} {struct};", text, re.S)[0]
    fields = [re.search(rf"^    \w+ {name}(?:\[\d+\])?;", whole, re.M)[0] for name in (one, other)]
    changed = whole.replace(fields[0], "@").replace(fields[1], fields[0]).replace("@", fields[1])
    return text.replace(whole, changed)


def header_faults():
    """What each fault is, and the copy of vault.h that has it."""
    for what, old, new in HEADER_FAULTS:
        yield what, planted(header(), old, new, "vault.h")
    for line in TURNED.strip().splitlines():
        yield f"{line}, turned", turned(*line.split())
    for line in SWAPPED_FIELDS.strip().splitlines():
        yield f"{line}, swapped", swapped(*line.split())


def is_seen_in_header(text, archives, folder):
    """Whether calls.c sees a fault in a copy of vault.h. The copy is one that compiles."""
    there = folder / "include"
    there.mkdir(exist_ok=True)
    (there / "vault.h").write_text(text, encoding="utf-8")
    linked(ROOT / "strandlodge-sys/c/calls.c", archives, f"{folder}/calls", headers=[there])
    return is_refused(archives, folder, [there])


def as_edit(crate, module, old, new):
    """A fault in a source as an edit, which changes line by line."""
    text = (ROOT / f"crates/{crate}/src/{module}.rt").read_text(encoding="utf-8")
    pairs = [pair for pair in zip(text.split("\n"), planted(text, old, new, f"{crate}/src/{module}.rt").split("\n")) if pair[0] != pair[1]]
    return "\n".join([f"file: src/{module}.rt", *(f"old: {one}\nnew: {other}" for one, other in pairs)])


def self_test():
    archives, asked = [ROOT / f"target/staticlib/lib{crate}.a" for crate in ARCHIVES], {}
    with tempfile.TemporaryDirectory() as there:
        made(archives, there)
        copies = list(header_faults())
        missed = [what for what, text in copies if not is_seen_in_header(text, archives, pathlib.Path(there))]
    for i, (_, crate, *fault) in enumerate(WRONG):
        asked.setdefault(crate, []).append((f"wrong_{i:02}", as_edit(crate, *fault)))
    lines, _ = edits.tried(asked)
    told = dict(re.findall(r"edits: \w+/wrong_(\d\d): (.*)", "\n".join(lines)))
    missed += [f"{what}: {told[f'{i:02}']}" for i, (what, *_) in enumerate(WRONG) if not edits.REFUSED.match(told[f"{i:02}"])]
    for what in missed:
        print(f"calls: not seen: {what}")
    print(f"calls: {len(copies)} faults planted in copies of vault.h, and {len(WRONG)} that the prover refuses: {'FAILED' if missed else 'all seen'}")
    return 1 if missed else 0


def check():
    vault, records = uncalled("include/vault.h", "strandlodge-sys/c/calls.c"), uncalled("include/records.h", "strandlodge-sys/c/records.c")
    did("cc", *C, *STRICT, "-fsyntax-only", ROOT / "strandlodge-sys/c/layouts.c")
    did("c++", *CPP, *STRICT, "-fsyntax-only", ROOT / "strandlodge-sys/c/layouts.c")
    archives = [ROOT / f"target/staticlib/lib{crate}.a" for crate in ARCHIVES]
    with tempfile.TemporaryDirectory() as folder:
        told_apart(folder)
        made(archives, folder)
        small_records(ROOT / "target/staticlib/librecords_c.a", folder)
        reads = grown(archives[:2], folder, 100)
        window = windowed(archives[1], folder)
    print(f"calls: the {vault} functions of include/vault.h and the {records} of include/records.h, made from C; the layouts of both, as C11 and as C++17")
    print(f"calls: memory that grows: {reads}; {window}")
    return 0


def main(words):
    try:
        if words == ["--self-test"]:
            return self_test()
        if words:
            print(__doc__, file=sys.stderr)
            return 2
        return check()
    except Failed as why:
        print(f"calls: {why}")
        return 1


if __name__ == "__main__":
    sys.exit(main(sys.argv[1:]))
