"""The declarations of a Rattle source, read from its text: what it says at its head, its modules and imports, constants, structs, and the
functions for C, each with the comment above it."""
import re
from dataclasses import dataclass, field
from pathlib import Path


class Unread(Exception):
    """Something that isn't understood; never passed over."""


@dataclass
class Constant:
    name: str
    type: str
    value: str
    about: list
    where: str
    public: bool = True


@dataclass
class Field:
    name: str
    type: str
    about: list


@dataclass
class Struct:
    name: str
    fields: list
    about: list
    where: str
    wraps: str = ""  # the type that a tuple struct of one field holds
    laid_out: bool = False  # by C's rules: #[repr(C)]


@dataclass
class Function:
    name: str
    takes: list  # of (name, type)
    gives: str  # "" for nothing
    about: list
    where: str
    exported: bool = False  # #[unsafe(no_mangle)]


@dataclass
class Source:
    crate: str
    about: list
    mods: list = field(default_factory=list)
    uses: dict = field(default_factory=dict)
    constants: dict = field(default_factory=dict)
    structs: dict = field(default_factory=dict)
    functions: list = field(default_factory=list)


def spoken(line):
    """The words of a comment line, without the mark and the space behind it."""
    return line.strip()[2:].removeprefix(" ").rstrip()


def closing(text, at):
    """Behind the bracket that closes the one at `at`."""
    depth = 0
    for i in range(at, len(text)):
        depth += {"(": 1, "[": 1, "{": 1, ")": -1, "]": -1, "}": -1}.get(text[i], 0)
        if depth == 0:
            return i + 1
    raise Unread("a bracket that isn't closed")


def pieces(text):
    """What stands between the commas of a list that lie in no bracket, without spaces around."""
    found, depth, here = [], 0, ""
    for c in text:
        depth += {"(": 1, "[": 1, "{": 1, ")": -1, "]": -1, "}": -1}.get(c, 0)
        if c == "," and depth == 0:
            found.append(here.strip())
            here = ""
        else:
            here += c
    return [piece for piece in [*found, here.strip()] if piece]


def tight(type):
    """A type in one spelling."""
    return re.sub(r"\s+", " ", re.sub(r"&'\w+ ", "&", type.strip()))


def fields_of(body, where):
    """The fields between a struct's braces, each with the comment above it."""
    found, about = [], []
    for line in body.split("\n"):
        text = line.strip()
        if text.startswith("//"):
            about.append(spoken(text))
        elif held := re.fullmatch(r"(?:pub )?(\w+): (.+?),", text):
            found.append(Field(held[1], tight(held[2]), about))
            about = []
        elif text:
            raise Unread(f"{where}: a field that isn't one: {text}")
    return found


def read_uses(path):
    """The names that a `use` brings in, with the path of each."""
    front, brace, names = path.partition("::{")
    if not brace:
        return {path.rsplit("::", 1)[-1]: path}
    return {name: f"{front}::{name}" for name in pieces(names.rstrip("}"))}


def read_function(text, at, marks, about, where):
    if not (name := re.match(r'pub extern "C" fn (\w+)(?:<[^>]*>)?\(', text[at:])):
        raise Unread(f"{where}: a function that isn't understood")
    opens = at + name.end() - 1
    end = closing(text, opens)
    takes = []
    for piece in pieces(text[opens + 1 : end - 1]):
        word, colon, type = piece.partition(":")
        if not colon:
            raise Unread(f"{where}: a parameter that has no type: {piece}")
        takes.append((word.strip(), tight(type)))
    gives = re.match(r"\s*->\s*([^{]*?)\s*(?:\brequires\b|\bensures\b|\{)", text[end:])
    return Function(name[1], takes, tight(gives[1]) if gives else "", about, where, "#[unsafe(no_mangle)]" in marks)


def read_struct(text, at, marks, about, where):
    laid_out = "#[repr(C)]" in marks
    if whole := re.match(r"pub struct (\w+)\((?:pub )?([^,()]+)\);", text[at:]):
        return Struct(whole[1], [], about, where, tight(whole[2]), laid_out)
    if not (front := re.match(r"pub struct (\w+) \{", text[at:])):
        raise Unread(f"{where}: a struct that isn't understood")
    opens = at + front.end() - 1
    return Struct(front[1], fields_of(text[opens + 1 : closing(text, opens) - 1], where), about, where, "", laid_out)


def take_item(source, text, at, line, marks, about, where):
    """Keeps what a line declares, if it declares something that can cross."""
    if held := re.match(r"(?:pub )?mod (\w+);", line):
        source.mods.append(held[1])
    elif held := re.match(r"(?:pub )?use ([^;]+);", text[at:]):
        source.uses.update(read_uses(re.sub(r"\s+", " ", held[1])))
    elif held := re.match(r"(pub )?const (\w+): (\w+) = (.+);", line):
        source.constants[held[2]] = Constant(held[2], held[3], held[4], about, where, bool(held[1]))
    elif line.startswith("pub struct "):
        struct = read_struct(text, at, marks, about, where)
        source.structs[struct.name] = struct
    elif line.startswith('pub extern "C" fn '):
        source.functions.append(read_function(text, at, marks, about, where))


def read_source(root, crate, module):
    """The declarations of a crate's module; of its root, where the module is ""."""
    shown = f"crates/{crate}/src/{(module or 'lib').replace('::', '/')}.rt"
    try:
        text = (Path(root) / shown).read_text(encoding="utf-8")
    except OSError as why:
        raise Unread(f"{shown}: {why.strerror}")
    head = []
    for line in text.split("\n"):
        if not line.startswith("//"):
            break
        head.append(spoken(line))
    source = Source(crate, head)
    at, marks, about = 0, [], []
    for number, line in enumerate(text.split("\n"), 1):
        if line.startswith("//"):
            about.append(spoken(line))
        elif line.startswith("#["):
            marks.append(line.strip())
        else:
            take_item(source, text, at, line, marks, about, f"{shown}:{number}")
            marks, about = [], []
        at += len(line) + 1
    if len(re.findall(r'^[^/\n]*\bextern "C" fn\b', text, re.M)) != len(source.functions):
        raise Unread(f"{shown}: a function for C that isn't read: each begins its line, with `pub`")
    return source
