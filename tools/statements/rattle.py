"""A source (.rt), read from its text: what its contracts use, its functions with their contracts, and the types that definitions know as `declared`."""
import functools
import re
from dataclasses import dataclass, field

from interface.source import Unread, closing, pieces, read_uses, spoken

from .antt import Declaration, dedented, read_use

FUNCTION = re.compile(r'^([ \t]*)(pub(?:\(crate\))? )?(?:extern "C" )?fn (\w+)\s*(?:<[^>]*>)?\(', re.M)
CLAUSE = re.compile(r"\s*((?:requires|ensures|decreases)(?: \w+)?)\s*\{")
TYPE = re.compile(r"^(pub(?:\(crate\))? )?(struct|enum) (\w+)[^\n]*", re.M)


@dataclass(eq=False)
class Function:
    name: str
    owner: str  # the type whose method it is, or ""
    place: object
    line: int
    about: list
    public: bool
    takes: list  # the names of its parameters
    head: str  # its first line or lines, without the contract
    clauses: list  # of (kind, text), where a kind may have a name behind it

    @property
    def called(self):
        return f"{self.owner}::{self.name}" if self.owner else self.name


@dataclass(eq=False)
class Source:
    crate: str
    path: str
    module: tuple  # () for the crate's root
    lines: int
    uses: list = field(default_factory=list)  # what contracts use
    imports: dict = field(default_factory=dict)  # what code uses: a name, and its path
    functions: list = field(default_factory=list)
    declared: dict = field(default_factory=dict)


def above(lines, number):
    """The comment above a line, and its attributes left out."""
    at = number - 2
    while at >= 0 and lines[at].lstrip().startswith("#["):
        at -= 1
    found = []
    while at >= 0 and lines[at].lstrip().startswith("//"):
        found.insert(0, spoken(lines[at]))
        at -= 1
    return found


def owner_of(text, at):
    """The type in whose `impl` a method stands that begins at `at`, or "" where it stands in none."""
    found = list(re.finditer(r"^impl(?:<[^>]*>)? (\w+)", text[:at], re.M))
    return found[-1][1] if found and text[at : at + 1].isspace() else ""


def read_function(source, text, lines, found):
    end = closing(text, found.end() - 1)
    takes = [piece.partition(":")[0].split()[-1].lstrip("&") for piece in pieces(text[found.end() : end - 1])]
    gives = re.compile(r"\s*->\s*(.*?)\s*(?=\{|\brequires\b|\bensures\b|\bdecreases\b)", re.S).match(text, end)
    at = behind = gives.end() if gives else end
    clauses = []
    while clause := CLAUSE.match(text, at):
        at = closing(text, clause.end() - 1)
        clauses.append((clause[1], text[clause.end() : at - 1].strip()))
    line = text.count("\n", 0, found.start(3)) + 1
    head = "\n".join(dedented(text[found.start() : behind].rstrip().split("\n")))
    return Function(found[3], owner_of(text, found.start()), source, line, above(lines, line), found[2] == "pub ", takes, head, clauses)


def read_type(source, text, lines, found):
    """A struct or an enum; the parts of an enum are its variants."""
    line = text.count("\n", 0, found.start()) + 1
    opens = found[0].find("{")
    end = closing(text, found.start() + opens) if opens >= 0 else found.end()
    one = Declaration(found[3], found[2], source, line, above(lines, line), bool(found[1]), statement=text[found.start() : end].split("\n"))
    one.end = line + len(one.statement) - 1
    if found[2] == "enum":
        bare = re.sub(r"//[^\n]*", "", text[found.start() + opens + 1 : end - 1])
        for piece in pieces(bare):
            one.parts.append(Declaration(re.match(r"\w+", piece)[0], "variant", source, line, [], True, owner=one))
    return one


@functools.cache
def read_source(shown, text, crate, module):
    """The functions and the types of a source, which is shown by its path."""
    lines = text.split("\n")
    source = Source(crate, shown, () if module in (("lib",), ("main",)) else module, text.count("\n"))
    try:
        for found in re.finditer(r"^(ghost |pub )?use ([^;]+);", text, re.M):
            if found[1] == "ghost ":
                source.uses.append(read_use(found[0][6:-1], text.count("\n", 0, found.start()) + 1))
            else:
                source.imports.update(read_uses(re.sub(r"\s+", " ", found[2])))
        source.functions = [read_function(source, text, lines, found) for found in FUNCTION.finditer(text)]
        for found in TYPE.finditer(text):
            source.declared[found[3]] = read_type(source, text, lines, found)
    except Unread as why:
        raise Unread(f"{shown}: {why}")
    return source
