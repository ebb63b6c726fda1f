"""Contracts, theorems and tables that are planted: tools/contracts.py must tell those that leave one result from those that don't."""
import pathlib
import re
import tempfile

from interface.source import Unread
from pinned.functions import RESULT, functions
from pinned.table import TABLE

# A function, and whether it is to be seen.
TRIED = (
    ("pub fn f(a: u8) -> u8 {\n    a\n}\n", True),
    ("pub fn f(a: &mut [u8]) {\n}\n", True),
    ("pub fn f<'a>(a: &'a mut u64) {\n}\n", True),
    ("impl S {\n    pub fn f(\n        self,\n        a: u8,\n    ) -> S {\n        self\n    }\n}\n", True),
    ("pub fn f(a: u8) -> u8\n    requires { a < 2 }\n    ensures { result ≡ record { x = a } }\n{\n    a\n}\n", True),
    ("#[unsafe(no_mangle)]\npub extern \"C\" fn f(a: &[u8]) -> bool {\n    true\n}\n", True),
    ("pub fn f(a: u8)\n    requires { a < 2 }\n{\n}\n", True),
    ("pub fn f(a: u8) -> u8\n    ensures { result ≡ record { x = a } }\n{\n    g(a)\n}\n", False),
    ("pub fn f(a: &[u8]) {\n    say(a);\n}\n", True),
    ("pub fn f(a: &[u8])\n    ensures { g a ≡ g a }\n{\n    say(a);\n}\n", True),
    ("fn f(a: u8) -> u8\n    requires { a < 2 }\n{\n    a\n}\n", False),
    ("pub(crate) fn f(a: u8) -> u8 {\n    a\n}\n", False),
    ("// pub fn f(a: u8) -> u8 {\npub struct S(pub u8);\n", False),
    ("pub fn f(a: u8) -> u8\n    ensures { λ r. ⌜ r ≡ g a ⌝ }\n{\n    a\n}\n", True),
)
# What a call says of itself, and whether it leaves more than one result: `f` is lent `a` and may write `out`.
LENT = "pub fn f(a: &[u8], out: &mut [u8]) -> u64\n{}{{\n    0\n}}\n"
SAID_OF_LENT = (
    (["record { reply = result; out = out.new } ≡ g a.now out.old"], False),
    (["result ≡ g a.now", "out.new ≡ h a.now"], False),
    (["(result ≡ g a.now) × (out.new ≡ h a.now) × (result < 5)"], False),
    (["result ≡ g a.now"], True),
    (["out.new ≡ h a.now"], True),
    (["result ≡ g out.new", "out.new ≡ h a.now"], True),
    (["result ≡ g a.now", "out.new ≡ out.new"], True),
    (["result ≡ g a.now", "out.new ≡ h result"], True),
    (["result ≡ g a.now", "out.old ≡ h a.now"], True),
    (["result ≡ g a.now", "length out.new ≡ length out.old"], True),
    (["record { reply = result } ≡ g a.now"], True),
    (["record { reply = result; out = out.old } ≡ g a.now"], True),
    (["record { reply = result; out = h out.new } ≡ g a.now"], True),
    (["Rel a.now out.new result"], True),
)
# The same of a function that takes a number and gives one, or a struct of two fields.
PLAIN = "pub struct S {{\n    pub answer: u64,\n    pub some_value: u64,\n}}\n\npub fn f({}) -> {}\n{}{{\n    0\n}}\n"
SAID_OF_PLAIN = (
    ("a: u64", "u64", ["result ≡ g a"], False),
    ("a: u64", "u64", ["result ≡ a"], False),
    ("a: u64", "u64", ["(result ≡ g a) × (result < 5)"], False),
    ("", "u64", ["result ≡ 11"], False),
    ("a: &[u8]", "&[u8]", ["result.now ≡ take 4 a.now"], False),
    ("a: u64", "S", ["record { number = result.answer; value = result.«some_value» } ≡ g a"], False),
    ("a: u64", "S", ["result.answer ≡ g a", "result.«some_value» ≡ h a"], False),
    ("a: u64", "u64", ["0 ≡ 0"], True),
    ("a: u64", "u64", ["result ≡ result"], True),
    ("a: u64", "u64", ["result ≡ result + 0"], True),
    ("a: u64", "u64", ["g a ≡ g a"], True),
    ("a: u64", "u64", ["result ≡ 11"], True),
    ("a: u64", "bool", ["result ≡ true"], True),
    ("a: u64", "S", ["result ≡ record { answer = 0; «some_value» = 0 }"], True),
    ("a: u64", "u64", ["result < 5"], True),
    ("a: u64", "u64", ["g result ≡ g a"], True),
    ("a: u64", "[u8; 4]", ["4 ≡ length result"], True),
    ("a: u64", "u64", ["(result ≡ g a) ⊎ (result ≡ h a)"], True),
    ("a: u64", "u64", ["result ≡ g a ⊎ result ≡ h a"], True),
    ("a: u64", "u64", ["a ≡ 1 → result ≡ g a"], True),
    ("a: u64", "u64", ["(x : ℕ) → result ≡ g x → P x"], True),
    ("a: u64", "u64", ["Fewest 10 1 a result"], True),
    ("a: u64", "S", ["result.answer ≡ g a"], True),
    ("a: u64", "S", ["record { number = result.answer; value = result.answer } ≡ g a"], True),
    ("a: u64", "Other", ["result.answer ≡ g a", "result.«some_value» ≡ h a"], True),
)
# A call whose contract is a relation, its theorem and its line; `g` is pinned by itself, and `h` is open.
SOURCE = """ghost use Rattle.x.specs.Calls.{Rel, Other};
ghost use Rattle.disc.specs.Ran.{ran as run};

pub fn f(a: &[u8], out: &mut [u8], work: &mut [u8]) -> u64
    ensures related { Rel 10 (run a.now) out.new result }
    ensures work_after { work.new ≡ replicate (length work.old) 0 }
{
    0
}

pub fn g(a: u8) -> u8
    ensures { result ≡ a }
{
    a
}

pub fn h(a: u8) -> u8
    ensures { Other a result }
{
    a
}
"""
PROOF = """-- One result.
use Rattle.x.specs.Calls.{Rel}
use Rattle.disc.specs.Ran.{ran}

module _ (base : ℕ) where
  pub rel_one : {A : Type 0} (s : List A) {a a' : List ℕ} {r r' : ℕ} → Rel base (ran s) a r
      → Rel base (ran s) a' r' → (r ≡ r') × (a ≡ a')
  unfolding ran
  rel_one s p q = (p .0 ∙ sym (q .0), p .1 ∙ sym (q .1))
"""
LINES = "| `x::f` | `rel_one` | crates/x/proofs/OneResult.antt |\n\n| `x::h` | which of two |\n"
# Edits of these by which a second result would pass, or the table would say what isn't so.
EDITS = (
    ("SOURCE", "    ensures work_after { work.new ≡ replicate (length work.old) 0 }\n", ""),
    ("SOURCE", "Rel 10 (run a.now)", "Other 10 (run a.now)"),
    ("SOURCE", "Rel 10 (run a.now)", "Rel 10 (runs a.now)"),
    ("SOURCE", "Rel 10 (run a.now)", "Rel 10 (run out.new)"),
    ("SOURCE", "out.new result }", "out.new (h result) }"),
    ("SOURCE", "out.new result }", "out.old result }"),
    ("SOURCE", "Rel 10 (run", "P → Rel 10 (run"),
    ("SOURCE", "Rattle.x.specs.Calls.{Rel, Other}", "Rattle.x.specs.Inner.Calls.{Rel, Other}"),
    ("SOURCE", "{ result ≡ a }", "{ 0 ≡ 0 }"),
    ("SOURCE", "{ Other a result }", "{ result ≡ a }"),
    ("SOURCE", "pub fn f", "pub fn other"),
    ("PROOF", "(r ≡ r') × (a ≡ a')", "r ≡ r'"),
    ("PROOF", "(r ≡ r') × (a ≡ a')", "(r ≡ r') × (a ≡ a)"),
    ("PROOF", "(r ≡ r') × (a ≡ a')", "(r ≡ r') × (length a ≡ length a')"),
    ("PROOF", "(r ≡ r') × (a ≡ a')", "(r ≡ r') ⊎ (a ≡ a')"),
    ("PROOF", "→ (r ≡ r') × (a ≡ a')", "→ a ≡ [] → (r ≡ r') × (a ≡ a')"),
    ("PROOF", "→ Rel base (ran s) a r\n", "→ (short : length a ≡ 0) → Rel base (ran s) a r\n"),
    ("PROOF", "(base : ℕ) where", "(base : ℕ) (none : ⊥) where"),
    ("PROOF", "Rel base (ran s) a r\n", "Rel 16 (ran s) a r\n"),
    ("PROOF", "Rel base (ran s) a r\n      → Rel base (ran s) a' r'", "Rel 16 (ran s) a r\n      → Rel 16 (ran s) a' r'"),
    ("PROOF", "Rel base (ran s) a r\n      → Rel base (ran s) a' r'", "Rel base (run s) a r\n      → Rel base (run s) a' r'"),
    ("PROOF", "Rel base (ran s) a r\n", "Rel base (ran []) a r\n"),
    ("PROOF", "→ Rel base (ran s) a r\n", "→ Other base (ran s) a r\n"),
    ("PROOF", "use Rattle.x.specs.Calls.{Rel}\n", ""),
    ("PROOF", "(base : ℕ) where", "(base : ℕ) (Rel : ℕ → ℕ → List ℕ → ℕ → Type 0) where"),
    ("PROOF", "Rel base (ran s) a' r'", "Rel base (ran s) a r'"),
    ("PROOF", "Rel base (ran s) a' r'", "Rel base (ran s) a' a'"),
    ("PROOF", "Rattle.x.specs.Calls.{Rel}", "Rattle.y.specs.Calls.{Rel}"),
    ("PROOF", "pub rel_one :", "rel_one :"),
    ("PROOF", "  rel_one s p q = (p .0 ∙ sym (q .0), p .1 ∙ sym (q .1))\n", ""),
    ("LIB", "pub mod OneResult", "pub mod Laws"),
    ("LINES", "`rel_one`", "`rel_two`"),
    ("LINES", "OneResult.antt", "Promises.antt"),
    ("LINES", "| `x::f` | `rel_one` | crates/x/proofs/OneResult.antt |\n", ""),
    ("LINES", "| `x::h` | which of two |\n", ""),
    ("LINES", "`x::h`", "`x::g`"),
    ("LINES", "| `x::h` | which of two |\n", "| `x::h` | which of two |\n| `x::gone` | which of two |\n"),
    ("LINES", "| `x::h` | which of two |\n", "| `x::h` | which of two |\n| `x::f` | which of two |\n"),
    ("LINES", "| `x::h` | which of two |\n", "| `x::h` | which of two |\n| `x::g` | `rel_one` | crates/x/proofs/OneResult.antt |\n"),
    ("LINES", "| `rel_one` | crates/x/proofs/OneResult.antt |", "| which of two |"),
)
# A clause, which is a line.
ENSURES = r"(?m)^( +ensures (?:\w+ )?)\{.*\}$"
# Edits of every contract of this repository at once, and which results are lost by them.
WHOLE = (
    ("a contract says nothing", ENSURES, r"\1{ 0 ≡ 0 }", lambda results: results),
    ("a result is itself", ENSURES, r"\1{ result ≡ result }", lambda results: results),
    ("what is written isn't said", r"\.new\b", ".old", lambda results: results - {RESULT}),
)


def clauses(said):
    return "".join(f"    ensures {f'part_{i} ' if len(said) > 1 else ''}{{ {one} }}\n" for i, one in enumerate(said))


def faults(check, most_open, files):
    """What is wrong with a repository of these files."""
    with tempfile.TemporaryDirectory() as folder:
        root = pathlib.Path(folder)
        for name, text in files.items():
            (root / name).parent.mkdir(parents=True, exist_ok=True)
            (root / name).write_text(text, encoding="utf-8")
        try:
            return check(root, most_open)[0]
        except Unread as why:
            return [str(why)]


def is_seen(check, most_open, files):
    return bool(faults(check, most_open, files))


def unseen(check, root, pattern, new, left):
    """The public functions of this repository that leave something of what is looked for, and aren't named where every contract is edited so."""
    texts = {str(path.relative_to(root)): path.read_text(encoding="utf-8") for path in (root / "crates").glob("*/src/**/*.rt")}
    lines = faults(check, 0, {name: re.sub(pattern, new, text) for name, text in texts.items()} | {TABLE: ""})
    named = {line.split()[1] for line in lines}
    return sorted(function.name for function in functions(root) if left(function.results()) and function.name not in named)


def planted(parts):
    return {
        "crates/x/src/lib.rt": parts["SOURCE"],
        "crates/x/proofs/OneResult.antt": parts["PROOF"],
        "crates/x/proofs/Lib.antt": parts["LIB"],
        TABLE: parts["LINES"],
    }


def run(check, root):
    sources = [*TRIED]
    sources += [(LENT.format(clauses(said)), seen) for said, seen in SAID_OF_LENT]
    sources += [(PLAIN.format(takes, gives, clauses(said)), seen) for takes, gives, said, seen in SAID_OF_PLAIN]
    wrong = [text for text, seen in sources if is_seen(check, 0, {"crates/x/src/lib.rt": text, TABLE: ""}) != seen]
    parts = {"SOURCE": SOURCE, "PROOF": PROOF, "LIB": "-- Laws.\npub mod OneResult\n", "LINES": LINES}
    if is_seen(check, 1, planted(parts)):
        wrong.append("the contract, the theorem and the table as they are")
    for part, old, new in EDITS:
        if parts[part].count(old) != 1 or not is_seen(check, 1, planted(parts | {part: parts[part].replace(old, new)})):
            wrong.append(f"{part}: {old}\n -> {new}")
    wrong += [f"{name} passes where {what}" for what, *edit in WHOLE for name in unseen(check, root, *edit)]
    for text in wrong:
        print(f"contracts: told wrongly:\n{text}")
    tried = f"{len(sources)} functions, {len(EDITS)} edits and {len(WHOLE)} edits of every contract tried"
    print(f"contracts: {tried}: {'FAILED' if wrong else 'all told'}")
    return 1 if wrong else 0
