"""The public functions of the libraries, and what of their results their contracts pin by equations."""
import re
from dataclasses import dataclass

from interface.source import Unread, closing, pieces, tight
from pinned.terms import LOOSE, conjuncts, equation, imports, opened, plain, read, split, words

PUBLIC = re.compile(r'^[ \t]*pub (?:extern "C" )?fn (\w+)\s*(?:<[^>]*>)?\(', re.M)
CLAUSE = re.compile(r"\s*(requires|ensures)(?:\s+\w+)?\s*\{")
RESULT = "the result"


@dataclass
class Relation:
    """A part of a contract that is no equation: by which definition it is said, of what, and which of these are results."""

    head: str
    takes: tuple
    results: dict  # by their places


@dataclass
class Function:
    name: str  # with its crate, its module and the type that it belongs to
    where: str
    takes: list  # of (name, type)
    gives: str  # "" for nothing
    clauses: list  # of (kind, text)
    known: dict  # the imports of its module
    structs: dict  # of its crate: the fields of each

    def whole(self, name):
        return self.known.get(name, name)

    def results(self):
        """What a call leaves: what it gives, and each piece of memory that it is lent to write."""
        return ({RESULT} if self.gives else set()) | {name for name, type in self.takes if type.startswith("&mut ")}

    def says(self):
        """Each thing that the contract says."""
        for kind, text in self.clauses:
            if kind == "ensures":
                yield from conjuncts(read(text))

    def pinned(self):
        """The results that an equation gives, by a term in which no result is."""
        found = set()
        for said in self.says():
            sides = equation(said)
            if sides and self.is_given(sides[1]):
                found |= told(sides[0]) or set()
        fields = {name.partition(".")[2] for name in found if name.startswith(RESULT + ".")}
        if fields and fields >= set(self.structs.get(self.gives, [None])):
            found.add(RESULT)
        return found & self.results()

    def is_given(self, term):
        """Whether a term says a value: no result is in it, and it names something, where there is something to name."""
        used = set(words(term))
        named = [word for word in used if re.match(r"[^\W\d]|«", word) and word not in ("record", "true", "false")]
        return not any(map(is_left, used)) and bool(named or not self.takes)

    def relations(self):
        """What the contract says by a definition, where each result in it stands by itself."""
        for said in self.says():
            if not said or said[0] not in self.known or any(item in LOOSE or str(item).startswith(".") for item in said):
                continue
            at = {place: told((item,)) for place, item in enumerate(said[1:])}
            results = {place: left.pop() for place, left in at.items() if left and len(left) == 1}
            others = [item for place, item in enumerate(said[1:]) if place not in results]
            if results and not any(map(is_left, words(others))):
                yield Relation(said[0], said[1:], results)


def is_left(word):
    """Whether a word is of what a call leaves: the result, or memory as it is then."""
    first, *others = word.split(".")
    return first == "result" or "new" in others


def told(term):
    """The results that a side of an equation is made of; None where it is anything else."""
    term = opened(term)
    if len(term) == 2 and term[0] == "record" and isinstance(term[1], tuple):
        fields = [told(part[2:]) for part in split(term[1][1:], ";") if part]
        return set().union(*fields) if fields and None not in fields else None
    if len(term) != 1 or not isinstance(term[0], str):
        return None
    first, *others = map(plain, term[0].split("."))
    if first == "result" and others in ([], ["now"]):
        return {RESULT}
    if first == "result" and len(others) == 1 and others[0] not in ("old", "new"):
        return {f"{RESULT}.{others[0]}"}
    return {first} if others == ["new"] else None


def owners(text):
    """Where each `impl` begins and ends, and of what type it is."""
    return [(held.start(), closing(text, held.end() - 1), held[1]) for held in re.finditer(r"^impl (\w+) \{", text, re.M)]


def parameters(text, name):
    found = []
    for piece in pieces(text):
        word, colon, type = piece.partition(":")
        if not colon and word not in ("self", "mut self"):
            raise Unread(f"{name}: a parameter that has no type: {piece}")
        found.append((word.strip(), tight(type)))
    return found


def read_function(text, found, name, where, known, structs):
    end = closing(text, found.end() - 1)
    takes = parameters(text[found.end() : end - 1], name)
    rest = text[end:]
    gives = re.match(r"\s*->\s*(.*?)\s*(?=\{|\brequires\b|\bensures\b)", rest, re.S)
    at, clauses = gives.end() if gives else 0, []
    while clause := CLAUSE.match(rest, at):
        at = closing(rest, clause.end() - 1)
        clauses.append((clause[1], rest[clause.end() : at - 1]))
    if not re.match(r"\s*\{", rest[at:]):
        raise Unread(f"{name}: what stands behind its contract is no body")
    return Function(name, where, takes, tight(gives[1]) if gives else "", clauses, known, structs)


def fields_of(texts):
    """The fields of each struct of a crate that has braces."""
    return {
        name: re.findall(r"^\s*(?:pub )?(\w+):", body, re.M)
        for text in texts
        for name, body in re.findall(r"^(?:pub )?struct (\w+) \{\n(.*?)^\}", text, re.M | re.S)
    }


def functions(root):
    """The public functions of every library: a crate with src/lib.rt and no src/main.rt."""
    for crate in sorted((root / "crates").iterdir()):
        if not (crate / "src/lib.rt").exists() or (crate / "src/main.rt").exists():
            continue
        texts = {path: path.read_text(encoding="utf-8") for path in sorted((crate / "src").rglob("*.rt"))}
        structs = fields_of(texts.values())
        for path, text in texts.items():
            module = [word for word in path.relative_to(crate / "src").with_suffix("").parts if word != "lib"]
            for found in PUBLIC.finditer(text):
                owner = [type for begins, ends, type in owners(text) if begins < found.start() < ends]
                line = text.count("\n", 0, found.start(1)) + 1
                name = "::".join([crate.name, *module, *owner, found[1]])
                yield read_function(text, found, name, f"{path.relative_to(root)}:{line}", imports(text), structs)
