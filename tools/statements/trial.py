"""Faults planted in a copy of what the index is made of, each of which must be seen."""
import pathlib
import re
import shutil
import tempfile

from interface.source import Unread

from .reached import calls_of
from .world import PARTS, World

PROMISES, INDEX = "docs/PROMISES.md", "docs/INDEX.md"
CRCS, LAWS, FIGURES = "crates/crcs/specs/Crcs.antt", "crates/crcs/proofs/Promises.antt", "crates/figures/src/lib.rt"

# What it is, the file, a pattern that stands there once, what takes its place, and what must be said.
FAULTS = (
    ("a theorem that isn't there", PROMISES, r"\| Promises `crc-joined` \|", "| Promises `crc-joint` |", "there is no `crc-joint` in crcs Promises"),
    ("a module that isn't there", PROMISES, r"\| Promises `crc-joined` \|", "| Promise `crc-joined` |", "crcs have no module Promise"),
    ("a contract that isn't there", PROMISES, r"\| `DescriptorTag::encode` \|", "| `DescriptorTag::decode` |", "no `DescriptorTag::decode` in tags"),
    ("a theorem of two modules", PROMISES, r"ReadPromises `ample`, `whole-list`", "ReadPromises `ample`; `whole-list`", "`whole-list` is several theorems"),
    ("a name in the words below a table", PROMISES, r"^- `crc-pair`:", "- `crc-pairs`:", "nothing is called `crc-pairs`"),
    ("an edit that isn't there", PROMISES, r"\| `start_of_all_ones`, ", "| `start_of_no_ones`, ", "there is no edit `start_of_no_ones` of crcs"),
    ("an edit of another crate", PROMISES, r"\| `start_of_all_ones`, ", "| `tags` `start_of_all_ones`, ", "no edit `start_of_all_ones` of tags"),
    ("an edit that is left out", PROMISES, r"\| `start_of_all_ones`, ", "| ", "start_of_all_ones.edit isn't named"),
    ("a sentence that is another", PROMISES, r"CRC of bytes joined is taken on", "CRC of bytes joined goes on", "CRC of bytes joined goes on"),
    ("a statement that is another", LAWS, r"^(pub crc-fits : .*)< 2 \^ 16", r"\1< 2 ^ 17", "< 2 ^ 17"),
    ("a statement that stands elsewhere", LAWS, r"\A", "-- Moved.\n", "crates/crcs/proofs/Promises.antt:"),
    ("a definition that is another", CRCS, r"^crc_of s = crc_from 0 s", "crc_of s = crc_from 1 s", "| crates/crcs/specs/Crcs.antt |"),
    ("a comment that is another", CRCS, r"^-- The register starts at 0\.", "-- The register starts at zero.", "starts at zero"),
    ("a definition of a name that isn't there", CRCS, r"^crc_of s = crc_from 0 s", "crc_of s = crc_behind 0 s", "nothing here is called crc_behind"),
    ("a variable that hides a definition", CRCS, r"^crc_of s = crc_from 0 s", "crc_of crc_from = 0", "the calls of the vault"),
    ("an outer definition over an inner one", CRCS, r"\A", "use Rattle.crcs.specs.Inner.Tables.{Remainders}\n", "an outer spec uses"),
    ("a name that is used and isn't there", LAWS, r"Crcs\.\{one_bit", "Crcs.{crc_by, one_bit", "Crcs.antt has no crc_by"),
    ("a private name that is used", LAWS, r"CrcLaws\.\{byte_fits", "CrcLaws.{bit_is, byte_fits", "CrcLaws.antt has no bit_is"),
    ("a module that is used and isn't there", LAWS, r"specs\.Crcs\.\{", "specs.Crc.{", "there is no specs.Crc in crcs"),
    ("a crate that is used and isn't there", LAWS, r"Rattle\.disc\.", "Rattle.disk.", "there is no Rattle.disk"),
    ("a type that is another", "crates/disc/src/places.rt", r"^(pub struct Mount \{\n(?:.*\n)*?    pub start: )u32", r"\1u64", "| `Mount` |"),
    ("a contract of a name that isn't there", FIGURES, r"(?s)(fn total\(.*?)total_answer", r"\1total_mark", "nothing here is called total_mark"),
    ("a call more", FIGURES, r"\Z", "\npub fn none(n: u64) -> u64\n    ensures { result ≡ n }\n{\n    n\n}\n", "`none`"),
    ("a definition outside specs/", LAWS, r"^(pub crc-fits : .*)< 2 \^ 16", r"abbrev pub most : ℕ\nmost = 2 ^ 16\n\n\1< most", "reaches most, which stands outside"),
    ("a page that isn't the sources'", INDEX, r"^## The promises$", "## Promises", "line "),
)
# A small repository, and what each contract of it reaches: the case that it names, or both where any value may be meant.
SMALL = {
    "crates.txt": "small:\n",
    "crates/small/specs/Kinds.antt": """use Prim.Native.Nat.{ℕ}

pub data Kind : Type 0 where
  one : Kind
  other : Kind

abbrev pub of_one : ℕ
of_one = 1

abbrev pub of_other : ℕ
of_other = 2

abbrev pub value_of : Kind → ℕ
value_of one = of_one
value_of other = of_other

module _ (k : Kind) where
  abbrev pub given : ℕ
  given = value_of k
""",
    "crates/small/src/lib.rt": """ghost use Rattle.std.specs.Prelude.{◌≡◌};
ghost use Rattle.small.specs.Kinds.{Kind, given, of_other};
ghost use Rattle.small.specs.Kinds.Kind.{one, other as second};
pub fn first() -> u8
    ensures { result ≡ given one }
{
    1
}
pub fn last() -> u8
    ensures { result ≡ given second }
{
    2
}
pub fn any() -> bool
    ensures { (k : Kind) → given k ≡ given k }
{
    true
}
pub fn hidden(of_other: u8) -> u8
    ensures { result ≡ of_other }
{
    of_other
}
""",
}
REACHED = {
    "first": "Kind given of_one value_of",
    "last": "Kind given of_other value_of",
    "any": "Kind given of_one of_other value_of",
    "hidden": "",
}


def small():
    """What the contracts of the small repository reach that isn't so."""
    with tempfile.TemporaryDirectory() as name:
        room = pathlib.Path(name)
        for path, text in SMALL.items():
            (room / path).parent.mkdir(parents=True, exist_ok=True)
            (room / path).write_text(text, encoding="utf-8")
        found = {call.function.name: " ".join(sorted(one.name for one in call.reached)) for call in calls_of(World(room), "small")}
    return [f"{name} of the small repository reaches {found.get(name)}" for name, must in REACHED.items() if found.get(name) != must]


def copied(root, room):
    """Copies what is read of a tree."""
    for path in (*(path for part in (*PARTS, "must-fail", "edits") for path in root.glob(f"crates/*/{part}/**/*")), root / "crates.txt", root / PROMISES, root / INDEX, *root.glob("compare/src/bin/*")):
        to = room / path.relative_to(root)
        if path.is_dir() and path.parent.name == "bin":
            to.mkdir(parents=True, exist_ok=True)
        elif path.suffix in (".antt", ".rt", ".edit", ".md", ".txt"):
            to.parent.mkdir(parents=True, exist_ok=True)
            shutil.copyfile(path, to)


def planted(room, file, pattern, new, check):
    """What `check` says of the copy with a fault in it, which is mended again."""
    path = room / file
    was = path.read_text(encoding="utf-8")
    text, number = re.subn(pattern, new, was, flags=re.M)
    if number != 1:
        raise Unread(f"{file}: the pattern {pattern} is there {number} times")
    path.write_text(text, encoding="utf-8")
    try:
        return check(room)
    finally:
        path.write_text(was, encoding="utf-8")


def run(root, check, write):
    """Whether each fault is seen, by words that aren't said of the copy as it is."""
    with tempfile.TemporaryDirectory() as name:
        room = pathlib.Path(name)
        copied(root, room)
        write(room)
        before, wrong = check(room), small()
        for what, file, pattern, new, must in FAULTS:
            said = [line for line in planted(room, file, pattern, new, check) if line not in before]
            if not any(must in line for line in said):
                wrong.append(f"{what}: {'; '.join(said) or 'nothing was said'}")
    for why in wrong:
        print(f"index: NOT SEEN: {why}")
    print(f"index: {len(FAULTS)} faults planted and {len(REACHED)} contracts tried: {'FAILED' if wrong else 'all seen'}")
    return 1 if wrong else 0
