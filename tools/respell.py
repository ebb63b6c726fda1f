#!/usr/bin/env python3
"""Brings this repository's own names to today's spelling, once, behind the toolchain's port.py: functions, lemmas and fields of specs/ and proofs/ in snake
case, modules in camel case, a lemma that would have its function's name with `_lem`. Functions of src/, strings, inputs and outputs keep their names. It
fails, and writes nothing, where two names would fall together or a parameter would hide a name of its function's clauses."""
import glob
import os
import re
import sys

TOKEN = re.compile(r"(?<![\\\w'])[a-z][A-Za-z0-9_'₀-₉-]*")
# Lemmas that would have the name of the function that they speak of: in these files the lemma ends in `_lem`.
LEMMAS = {
    "layouts": {"part_in": "part_in_lem"},
    "directories": {"takes_first": "takes_first_lem"},
    "vault": {"takes_first": "takes_first_lem"},
    "cue_stacks": {"all_read": "all_read_lem"},
    "writers": {"entry_read": "entry_read_lem"},
    "figures": {"in_place": "in_place_lem"},
}
# What isn't only a matter of case: a function into types is a type; `getD` is std's `get_or`.
OTHERS = {"placesEnough": "PlacesEnough", "getD-same": "get_or-same"}


def is_camel(word):
    return re.search(r"[a-z0-9][A-Z]", word) is not None


def snake(word):
    if word in OTHERS:
        return OTHERS[word]
    return re.sub(r"([a-z0-9])([A-Z])", lambda m: m.group(1) + "_" + m.group(2).lower(), word)


def files(ending):
    kinds = ("specs", "proofs") if ending == "antt" else ("src",)
    return sorted(f for kind in kinds for f in glob.glob(f"crates/*/{kind}/**/*.{ending}", recursive=True))


def parts(text):
    """The text of a Rust-like file in pieces: (is a string, piece)."""
    at = 0
    for m in re.finditer(r'b?"(?:\\.|[^"\\])*"', text):
        yield False, text[at:m.start()]
        yield True, m.group(0)
        at = m.end()
    yield False, text[at:]


def respelled(text, words):
    return TOKEN.sub(lambda m: snake(m.group(0)) if m.group(0) in words else m.group(0), text)


def hidden(text, new):
    """Parameters of functions whose names are words of the function's clauses."""
    found = []
    for m in re.finditer(r"\bfn (\w+)(?:<[^>]*>)?\(([^)]*)\)([^{]*(?:\{[^\n]*\}\s*)*?)\n\{", text):
        clauses = re.sub(r"\w+\.(now|old|new)|\.\w+", "", m.group(3))
        for p in re.findall(r"(\w+):", m.group(2)):
            if p in new and re.search(rf"(?<![\w.]){p}\b(?!\.)", clauses):
                found.append((m.group(1), p))
    return found


def main():
    antt, rust = files("antt"), files("rt")
    text = {f: open(f, encoding="utf-8").read() for f in antt + rust}
    for f in antt:
        for old, new in LEMMAS.get(f.split("/")[1], {}).items():
            text[f] = re.sub(rf"(?<![\w.'-]){old}(?![\w'-])(?! =[^=≡]*;)", new, text[f])
        for crate, lemmas in LEMMAS.items():
            for old, new in lemmas.items():
                text[f] = re.sub(rf"(use Rattle\.{crate}\.proofs\.[^\n]*[{{ ]){old}(?=[,}}])", rf"\g<1>{new}", text[f])
    words = {w for f in antt for w in TOKEN.findall(re.sub(r"--.*", "", text[f])) if is_camel(w)}
    names = {}
    for w in words:
        names.setdefault(snake(w), set()).add(w)
    wrong = [f"{sorted(ws)} would all be {s}" for s, ws in names.items() if len(ws) > 1]
    for f in antt:
        plain = re.sub(r"--.*", "", text[f])
        here = set(TOKEN.findall(plain))
        for s, ws in names.items():
            if ws & here and re.search(rf"(?<![\w.'-]){re.escape(s)}(?![\w'-])(?!\s*(=[^≡]*;|=[^≡]*}}))", re.sub(r"\.antt|proofs\.[\w.]*|pub \w+ :", "", plain)):
                wrong.append(f"{f}: {ws} would fall together with {s}")
    for f in antt:
        text[f] = respelled(text[f], words)
    for f in rust:
        text[f] = "".join(p if is_string else respelled(p, words) for is_string, p in parts(text[f]))
        wrong += [f"{f}: {fn}: the parameter {p} hides a word" for fn, p in hidden(text[f], set(names))]
    if wrong and "--anyway" not in sys.argv:
        print("\n".join(wrong))
        return 1
    for f, t in text.items():
        t = re.sub(r"\.specs\.inner\b", ".specs.Inner", t)
        if f.endswith("specs/Lib.antt"):
            t = re.sub(r"\bmod inner\b", "mod Inner", t)
        with open(f, "w", encoding="utf-8") as out:
            out.write(t)
    for crate in sorted(glob.glob("crates/*/specs")):
        for name in ("inner.antt", "inner"):
            if os.path.exists(f"{crate}/{name}"):
                os.rename(f"{crate}/{name}", f"{crate}/{name.replace('inner', 'Inner')}")
    print(f"{len(words)} names in {len(text)} files")
    return 0


if __name__ == "__main__":
    os.chdir(os.path.join(os.path.dirname(os.path.abspath(__file__)), ".."))
    sys.exit(main())
