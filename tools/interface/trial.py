"""Faults planted in copies of the sources and of the files made from them, each of which must be seen; and what is to come to the interface, which
must be taken as it is."""
import pathlib
import re
import shutil
import subprocess
import tempfile

from .source import Unread

VAULT, CHOICES, ANSWERS, OPENINGS, PLACES = (
    "crates/vault_c/src/lib.rt",
    "crates/volumes/src/choices.rt",
    "crates/disc/src/answers.rt",
    "crates/volumes/src/openings.rt",
    "crates/disc/src/places.rt",
)

# What it is, the file, a pattern that stands there once, and what takes its place.
FAULTS = (
    ("out and work of a call the other way round", VAULT, r"(fn vault_list\([^)]*?)(out: &mut \[u8\]),(\s+)(work: &mut \[u8\])", r"\1\4,\3\2"),
    ("count before answer", OPENINGS, r"(pub struct Opened \{.*?)(pub answer: u64,)(.*?)(pub count: u64,)", r"\1\4\3\2"),
    ("a number that is another", ANSWERS, r"DONE: u64 = 0", "DONE: u64 = 1"),
    ("two numbers the other way round", ANSWERS, r"NO_ROOM: u64 = 5(.*)NO_WORK: u64 = 6", r"NO_ROOM: u64 = 6\1NO_WORK: u64 = 5"),
    ("a number that is gone", ANSWERS, r"pub const NO_SLOT: u64 = 7;\n", ""),
    ("a wider field", PLACES, r"pub start: u32,\n    // The p", "pub start: u64,\n    // The p"),
    ("two fields the other way round", PLACES, r"(pub partition: u16,)(.*?)(pub checked: u32,)", r"\3\2\1"),
    ("a choice that is another", CHOICES, r"CHECKED: u32 = 1", "CHECKED: u32 = 2"),
    ("a field that is gone", OPENINGS, r"    pub label: \[u8; 32\],\n", ""),
    ("an array of another length", OPENINGS, r"pub label: \[u8; 32\]", "pub label: [u8; 33]"),
    ("a struct without C's layout", PLACES, r"#\[repr\(C\)\]\n(#\[derive\(Clone, Copy\)\]\npub struct Mount)", r"\1"),
    ("a call without its name", VAULT, r"#\[unsafe\(no_mangle\)\]\n(pub extern \"C\" fn vault_open)", r"\1"),
    ("a call that is gone", VAULT, r"pub extern \"C\" fn vault_probe", "pub fn vault_probe"),
    ("a call that isn't public", VAULT, r"pub extern \"C\" fn vault_probe", 'extern "C" fn vault_probe'),
    ("memory that is written", VAULT, r"fn vault_probe\(image: &\[u8\]\)", "fn vault_probe(image: &mut [u8])"),
    ("another answer", VAULT, r"(fn vault_open\(image: &\[u8\], how: u32\)) -> Opened", r"\1 -> Reply"),
    ("a type that can't cross", VAULT, r"part_at: &mut usize", "part_at: (usize, usize)"),
    ("a comment that says something else", VAULT, r"Opening does not depend on it", "Opening depends on it"),
    ("a matching of another width", VAULT, r"(fn vault_lookup\([^)]*?matching: )u32", r"\1u64"),
    ("a choice on opening among those of matching", VAULT, r"(VAULT_CHECKED: u32 = )CHECKED", r"\1AS_WRITTEN"),
    ("a choice of matching that has no enumeration", VAULT, r"(VAULT_UNAMBIGUOUS: u32 = )UNAMBIGUOUS", r"\g<1>2"),
    ("a slot of other fields", "crates/layouts/src/lists.rt", r"pub extent_type: u32", "pub extent_type: u16"),
    ("a call on bytes that is gone", "crates/records_c/src/headers.rt", r"pub extern \"C\" fn records_tag_body", "pub fn records_tag_body"),
    ("a number of the header", "include/vault.h", r"VAULT_NO_ROOM = 5", "VAULT_NO_ROOM = 6"),
    ("a matching of the header that is a number", "include/vault.h", r"(vault_named vault_match\([^)]*?)vault_matching", r"\1uint32_t"),
    ("two parameters of the header", "include/vault.h", r"(bool vault_probe\()(const uint8_t \*image), (size_t image_length)", r"\1\3, \2"),
    ("a field of the header", "include/records.h", r"uint16_t crc_length", "uint32_t crc_length"),
    ("a line more in the header", "include/records.h", r"#endif\n\Z", "#endif\n\n"),
    ("a number for Rust", "strandlodge-sys/src/vault.rs", r"NO_WORK: u64 = 6", "NO_WORK: u64 = 7"),
    ("an offset for Rust", "strandlodge-sys/src/records.rs", r"148 logical_block_size", "152 logical_block_size"),
    ("a layout that isn't asserted", "strandlodge-sys/c/layouts.c", r"FIELD\(vault_reply, length, .*\n", ""),
)

TO_COME = """
// Areas are told apart.
pub const APART: u32 = 2;

// A far bit.
pub const FAR: u64 = APART << 40;

// Reads many.
#[unsafe(no_mangle)]
pub extern "C" fn vault_ask_many<'a>(
    volume: Volume, paths: &'a [u8], matching: u32, wide: u64, narrow: u16, lengths: &mut [u64], answers: &mut [u32], at: &mut u32, only: &[u16],
    triples: &mut [[u64; 3]],
)
    ensures { wide ≡ wide }
{
}
"""

IN_THE_MOUNT = """    pub checked: u32,
    // The areas.
    pub kinds: [u16; FEW],
    pub sizes: [u32; 4],
"""

EXPECTED = (
    "VAULT_APART = 2, /* Areas are told apart. */",
    "#define VAULT_FAR UINT64_C(2199023255552)",
    "void vault_ask_many(vault_volume volume, const uint8_t *paths, size_t paths_length, vault_matching matching, uint64_t wide, uint16_t narrow, "
    "uint64_t *lengths, size_t lengths_places, uint32_t *answers, size_t answers_places, uint32_t *at, const uint16_t *only, size_t only_places, "
    "uint64_t (*triples)[3], size_t triples_places);",
    "uint32_t checked; uint16_t kinds[4]; /* The areas. */ uint32_t sizes[4];",
)


def copied(root, to):
    """The sources and what is made of them, and nothing else of the repository."""
    for source in (root / "crates").glob("*/src"):
        shutil.copytree(source, to / source.relative_to(root))
    for folder in ("include", "strandlodge-sys/src", "strandlodge-sys/c"):
        shutil.copytree(root / folder, to / folder)


def planted(path, old, new):
    text = path.read_text(encoding="utf-8")
    changed, times = re.subn(old, new, text, flags=re.S)
    if times != 1 or changed == text:
        raise Unread(f"the fault has no place in {path.name}: {old}")
    path.write_text(changed, encoding="utf-8")
    return text


def is_seen(there, check):
    try:
        return bool(check(there))
    except Unread:
        return True


def faults(there, check):
    """The faults that weren't seen."""
    missed = []
    for what, name, old, new in FAULTS:
        before = planted(there / name, old, new)
        if not is_seen(there, check):
            missed.append(what)
        (there / name).write_text(before, encoding="utf-8")
    return missed


def to_come(there, made):
    """What is to come and isn't taken as it should be."""
    path = there / VAULT
    path.write_text(path.read_text(encoding="utf-8") + TO_COME, encoding="utf-8")
    planted(there / PLACES, r"    pub checked: u32,\n", IN_THE_MOUNT)
    planted(there / PLACES, r"\n(#\[derive\(Clone, Copy\)\]\npub struct Block)", r"\nconst FEW: usize = 2 * 2;\n\n\1")
    files = made(there)
    header = re.sub(r"\s+", " ", files["include/vault.h"])
    missed = [line for line in EXPECTED if line not in header]
    for name, text in files.items():
        (there / name).write_text(text, encoding="utf-8")
    for compiler in (["cc", "-std=c11"], ["c++", "-std=c++17", "-x", "c++"]):
        if shutil.which(compiler[0]):
            words = [*compiler, "-Wall", "-Wextra", "-Werror", "-fsyntax-only", "-I", there / "include", there / "strandlodge-sys/c/layouts.c"]
            said = subprocess.run(words, capture_output=True, text=True)
            missed += [f"{compiler[0]}: {said.stderr[:300]}"] if said.returncode else []
    return missed


def run(root, check, made):
    with tempfile.TemporaryDirectory() as folder:
        there = pathlib.Path(folder)
        copied(root, there)
        wrong = [f"before anything is planted: {why}" for why in check(there)]
        wrong += [f"not seen: {what}" for what in faults(there, check)]
        wrong += [f"not taken: {what}" for what in to_come(there, made)]
    for why in wrong:
        print(f"faces: {why}")
    print(f"faces: {len(FAULTS)} faults planted, {len(EXPECTED)} lines that are to come: {'FAILED' if wrong else 'all seen and taken'}")
    return 1 if wrong else 0
