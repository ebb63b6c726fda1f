"""A file of definitions or proofs (.antt), read from its text: what it uses, and its declarations, each with its place, its comment, its statement and its
clauses. It reads what this repository writes, and refuses the rest."""
import functools
import re
from dataclasses import dataclass, field

from interface.source import Unread

NAME = r'(?:«[^»\n]*»|[^\s(){}.;,@"«»]+)'
TOKEN = re.compile(rf'--[^\n]*|"(?:[^"\\\n]|\\.)*"|(?<![^\s(){{}};,])\.{NAME}(?:\.{NAME})*|{NAME}(?:\.{NAME})*|[(){{}};,@.]')
MARKED = re.compile(rf"((?:(?:unfoldable|abbrev|pub|axiom) )*)({NAME})(?: \{{[^}}:]*\}})? :(?=\s|$)")
HOLDER = re.compile(rf"(pub )?(record|data) ({NAME})(?=\s)")
RULES = re.compile(rf"(pub )?ruleset ({NAME}) =")
USE = re.compile(r"(pub )?use (\S+?)(?:\.\{(.*)\}| as (\S+))?$", re.S)
# A line that begins so goes on with the item above it, wherever it stands.
CLOSERS = (")", "}", "]")


@dataclass
class Use:
    path: str
    names: dict  # what each is called here, and what it is called there
    alias: str  # of a whole module, or ""
    line: int
    public: bool


@dataclass(eq=False)
class Declaration:
    name: str
    kind: str  # theorem, definition, record, data, rules; of its parts: field, constructor
    place: object  # the file that it stands in
    line: int
    about: list
    public: bool = False
    sections: list = field(default_factory=list)  # the `module _ .. where` that it stands in, from the outermost
    statement: list = field(default_factory=list)  # lines
    clauses: list = field(default_factory=list)  # texts
    parts: list = field(default_factory=list)
    owner: object = None
    end: int = 0  # the last line


@dataclass(eq=False)
class File:
    crate: str
    path: str  # from the repository's root
    module: tuple  # ("specs", "Calls")
    lines: int
    about: list
    uses: list = field(default_factory=list)
    declared: dict = field(default_factory=dict)


@functools.cache
def tokens(text):
    """The words of a text, without its comments."""
    return tuple(found[0] for found in TOKEN.finditer(text) if not found[0].startswith("--"))


def plain(name):
    """A name without the marks of an escaped one."""
    return name.replace("«", "").replace("»", "")


def indent(line):
    return len(line) - len(line.lstrip(" "))


def items(lines, first):
    """The items of a block, whose lines begin at line `first`: of each its line, its lines, and the comment right above it."""
    level = next((indent(line) for line in lines if line.strip()), 0)
    found, about = [], []
    for number, line in enumerate(lines, first):
        text = line.strip()
        own = indent(line) == level and not text.startswith(CLOSERS)
        if not text:
            about = []
        elif own and text.startswith("--"):
            about.append(text[2:].strip())
            continue
        elif own:
            found.append((number, [line], about))
            about = []
            continue
        elif indent(line) < level and not text.startswith(CLOSERS):
            raise Unread(f"line {number}: it stands further left than its block")
        if found:
            # Comments between two lines of one item stood there too; blank lines at its end go again below.
            held = found[-1][1]
            held += [""] * (number - found[-1][0] - len(held))
            held.append(line)
    return [(number, trimmed(held), about) for number, held, about in found]


def trimmed(lines):
    while lines and not lines[-1].strip():
        lines = lines[:-1]
    return lines


def heading(lines):
    """How many lines the head of a block has, up to its `where`."""
    for i, line in enumerate(lines):
        if tokens(line)[-1:] == ("where",):
            return i + 1
    raise Unread("a block that has no `where`")


def dedented(lines):
    """Lines as they would stand at the left."""
    level = min((indent(line) for line in lines if line.strip()), default=0)
    return [line[level:].rstrip() for line in lines]


def read_use(text, line):
    if not (found := USE.match(re.sub(r"\s+", " ", text.strip()))):
        raise Unread(f"a `use` that isn't understood: {text.strip()}")
    names = {}
    for piece in (found[3] or "").split(","):
        there, _, here = piece.strip().partition(" as ")
        if there:
            names[here.strip() or there] = there
    return Use(plain(found[2]), names, found[4] or "", line, bool(found[1]))


def read_parts(lines, first, owner):
    """The fields of a record or the constructors of a data type."""
    kind = "field" if owner.kind == "record" else "constructor"
    for line, held, about in items(lines, first):
        words = tokens("\n".join(held))
        words = words[1:] if words[0] == "pub" else words
        if ":" not in words[1:]:
            raise Unread(f"line {line}: a {kind} that isn't understood")
        for name in words[: words.index(":", 1)]:
            owner.parts.append(Declaration(plain(name), kind, owner.place, line, about, True, owner.sections, dedented(held), owner=owner))


class Reader:
    """Reads the items of one file, block by block."""

    def __init__(self, file):
        self.file = file

    def block(self, lines, first, sections):
        """Reads a block that stands in some sections; the clauses of a declaration come behind its signature."""
        last = None
        for line, held, about in items(lines, first):
            word = tokens(held[0])[0]
            try:
                last = self.item(line, held, about, sections, word, last)
            except Unread as why:
                raise Unread(f"{self.file.path}:{line}: {why}")

    def item(self, line, held, about, sections, word, last):
        text = "\n".join(held)
        if text.lstrip().startswith(("use ", "pub use ")):
            self.file.uses.append(read_use(text, line))
        elif re.match(r"(?:pub )?mod \S+$", text.strip()):
            pass  # a file below this one, which is read by itself
        elif word == "module":
            n = heading(held)
            self.block(held[n:], line + n, [*sections, "\n".join(dedented(held[:n]))])
        elif word == "unfolding" and last:
            last.end = line + len(held) - 1
            return last
        elif found := RULES.match(text.lstrip()):
            return self.keep(Declaration(found[2], "rules", self.file, line, about, bool(found[1]), sections))
        elif found := HOLDER.match(text.lstrip()):
            return self.holder(line, held, about, sections, found)
        elif found := MARKED.match(text.lstrip()):
            kind = "definition" if re.search("abbrev|unfoldable", found[1]) else "theorem"
            one = Declaration(plain(found[2]), kind, self.file, line, about, "pub" in found[1], sections, dedented(held), end=line + len(held) - 1)
            return self.keep(one)
        elif last and plain(word) == last.name:
            last.clauses.append(text)
            last.end = line + len(held) - 1
            return last
        else:
            raise Unread(f"an item that isn't understood: {held[0].strip()}")
        return None

    def holder(self, line, held, about, sections, found):
        """A record or a data type, with its fields or constructors."""
        n = heading(held)
        one = Declaration(plain(found[3]), found[2], self.file, line, about, bool(found[1]), sections, dedented(held), end=line + len(held) - 1)
        read_parts(held[n:], line + n, one)
        return self.keep(one)

    def keep(self, one):
        if one.name in self.file.declared:
            raise Unread(f"{one.name} is declared twice")
        self.file.declared[one.name] = one
        return one


@functools.cache
def read_file(shown, text, crate, module):
    """The declarations of a file, which is shown by its path."""
    if "{-" in text:
        raise Unread(f"{shown}: a comment in braces")
    lines = text.split("\n")
    head = []
    for line in lines:
        if not line.startswith("--"):
            break
        head.append(line[2:].strip())
    file = File(crate, shown, module, text.count("\n"), head)
    try:
        Reader(file).block(lines, 1, [])
    except Unread as why:
        raise why if str(why).startswith(shown) else Unread(f"{shown}: {why}")
    return file
