"""docs/PROMISES.md: the sentence of each promise, the theorems and contracts that it names, and the wrong programs. A row's names are read from left to
right: a crate or a module holds for the names behind it, a module up to the next semicolon. Without a module a name is a function's, or that of a theorem of
Promises, or of another file of the crates that the heading names."""
import re
from dataclasses import dataclass, field

from .antt import Declaration, File, plain
from .rattle import Function

PATH = "docs/PROMISES.md"
PROOFS = ("theorem", "contract or theorem", "proof")
EDITS = ("shuts out", "wrong programs")
CLAUSES = ("ensures", "requires")
# Files that declare nothing that is promised: the list of a folder's modules.
OWN = ("Lib", "Inner")
PIECE = re.compile(r"`([^`]+)`|(?<![\w`/])([A-Z]\w+)(?![\w/])|(;)")


@dataclass
class Row:
    number: str
    sentence: str
    line: int
    proof: str
    edits: str
    named: list = field(default_factory=list)


@dataclass
class Section:
    title: str
    crates: list
    rows: list = field(default_factory=list)


def cells(line):
    """What stands between the bars of a table's line."""
    return [cell.strip() for cell in line.strip().strip("|").split("|")]


def read_sections(text, crates):
    """The sections that have promises, with their rows."""
    found, head = [Section("", [])], None
    for number, line in enumerate(text.split("\n"), 1):
        if line.startswith("#"):
            named = re.search(r"\(crates? ([^)]*)\)", line)
            title = line.lstrip("#").strip()
            found.append(Section(title, [name for name in re.findall("`([^`]+)`", named[1] if named else "") if name in crates]))
            head = None
        elif not line.startswith("|"):
            head = None
        elif head is None:
            head = cells(line)
        elif not set(line) <= set("|-: ") and (row := read_row(head, cells(line), number)):
            found[-1].rows.append(row)
    return [section for section in found if section.rows]


def read_row(head, line, number):
    """A row of a table of promises; None in any other table."""
    held = dict(zip(head, line))
    proof = next((held[name] for name in PROOFS if name in held), None)
    if "promise" not in held or proof is None:
        return None
    edits = next((held[name] for name in EDITS if name in held), "")
    return Row(held.get("", ""), held["promise"], number, proof, edits)


class Names:
    """Finds what the names of a row name."""

    def __init__(self, world):
        self.world = world
        self.held = {}  # the files of each crate
        for (crate, parts), file in world.files.items():
            if parts[-1] not in OWN:
                self.held.setdefault(crate, []).append(file)
        self.all = set()
        self.faults = []

    def files(self, crates, module=None):
        """The files of some crates, or those of one name: proofs first, and Promises before the others."""
        held = [file for crate in crates for file in self.held.get(crate, ()) if module in (None, file.module[-1])]
        return sorted(held, key=lambda file: (file.module[0] != "proofs", file.module[-1] != "Promises", file.path))

    def is_module(self, crates, word):
        return bool(self.files(crates, word))

    def functions(self, crates, name):
        """The functions of a name, which may stand behind its type's or its module's, or end in `..`."""
        path = name.split("::")
        for (crate, parts), source in self.world.sources.items():
            for one in source.functions if crate in crates else ():
                whole = [crate, *parts, *([one.owner] if one.owner else []), one.name]
                if whole[-len(path) :] == path or (name.endswith("..") and one.name.startswith(name[:-2])):
                    yield one

    def members(self, files, name):
        """The declarations of a name in some files; where there is none, the fields and constructors of that name."""
        held = [file.declared[name] for file in files if name in file.declared]
        return held or [part for file in files for one in file.declared.values() for part in one.parts if part.name == name]

    def find(self, crates, module, name):
        """All that a name may name: in its module; else, of these the first that have it, functions, Promises, the other proofs, definitions, types."""
        if module:
            return self.members(self.files(crates, module), name)
        if functions := list(self.functions(crates, name)):
            return functions
        files = self.files(crates)
        for some in (self.files(crates, "Promises"), [f for f in files if f.module[0] == "proofs"], [f for f in files if f.module[0] == "specs"]):
            if held := [file.declared[name] for file in some if name in file.declared]:
                return held
        return self.members(files, name) or [
            source.declared[name] for (crate, _), source in self.world.sources.items() if crate in crates and name in source.declared
        ]

    def used(self, crates, name):
        """What the definitions and contracts of some crates use by a name."""
        places = [place for (crate, _), place in (*self.world.files.items(), *self.world.sources.items()) if crate in crates]
        held = (self.world.scope(place).get(name) for place in places)
        return list({one: None for one in held if isinstance(one, Declaration)})

    def row(self, section, row):
        """What a row names, each once: functions, declarations, and whole files where no name follows."""
        crates, module, found = section.crates, None, {}
        pieces = list(PIECE.finditer(row.proof))
        for i, piece in enumerate(pieces):
            name, word, ends = piece.groups()
            after = pieces[i + 1] if i + 1 < len(pieces) else None
            touches = bool(after) and row.proof[piece.end() : after.start()] == " "
            if ends:
                module = None
            elif word and self.is_module(crates, word):
                module = word
                if not (touches and after[1]):
                    found.update(dict.fromkeys(self.files(crates, word)))
            elif word and touches and after[1]:
                self.faults.append(f"{PATH}:{row.line}: {' and '.join(crates)} have no module {word}")
            elif name in self.world.crates and touches and (after[1] or after[2]):
                crates, module = [name], None
            elif name and name not in CLAUSES:
                found.update(dict.fromkeys(self.named(row, crates, module, plain(name), found)))
        row.named = list(found)

    def known(self):
        """Every name of the repository that prose may name."""
        world = self.world
        found = set(world.crates) | {path.stem for path in (*world.root.glob("crates/*/*/*.edit"), *world.root.glob("compare/src/bin/*"))}
        for place in (*world.files.values(), *world.sources.values()):
            for one in place.declared.values():
                found |= {one.name, *(part.name for part in one.parts)}
                if one.kind == "struct":
                    found |= set(re.findall(r"^ +pub (\w+):", "\n".join(one.statement), re.M))
        return found | {one.name for source in world.sources.values() for one in source.functions}

    def prose(self, line, number):
        """Holds the names in a line to those that are there. A path, a flag or an attribute is none; of an application the function is one."""
        if not self.all:
            self.all = self.known()
        for text in re.findall("`([^`]+)`", line):
            name = plain(text.split()[0])
            if name in CLAUSES or name[0] in "-#" or "/" in name or name in self.all:
                continue
            if not list(self.functions(self.world.crates, name)):
                self.faults.append(f"{PATH}:{number}: nothing is called `{name}`")

    def named(self, row, crates, module, name, before):
        """What a name of a row names. A field or a constructor is taken for what it is a part of: of what was named before it, where that has one."""
        found = self.find(crates, module, name) or ([] if module else self.used(crates, name))
        owners = list(dict.fromkeys(one.owner for one in found if isinstance(one, Declaration) and one.owner))
        found = [one for one in owners if one in before] or owners or found
        where = f"{' and '.join(crates)}{' ' + module if module else ''}"
        if not found:
            self.faults.append(f"{PATH}:{row.line}: there is no `{name}` in {where}")
        if len(found) > 1 and any(is_theorem(one) for one in found):
            self.faults.append(f"{PATH}:{row.line}: `{name}` is several theorems of {where}: {', '.join(map(place_of, found))}")
        return found


def place_of(one):
    """Where something that is named stands."""
    if isinstance(one, File):
        return one.path
    return f"{one.place.path}:{one.line}"


def is_theorem(one):
    return isinstance(one, Declaration) and one.kind == "theorem"


def is_function(one):
    return isinstance(one, Function)


class Edits:
    """The wrong programs of the repository, and which of them are named."""

    def __init__(self, root, crates):
        self.crates = crates
        self.held = {(path.parts[-3], path.stem): path.relative_to(root).as_posix() for path in sorted(root.glob("crates/*/*/*.edit"))}
        self.named = set()
        self.faults = []

    def column(self, crates, text, line):
        """Takes the edits of a column of edits, in which nothing else is named: behind a crate's name they are that crate's."""
        for name in re.findall("`([^`]+)`", text):
            if name in self.crates:
                crates = [name]
            elif found := [(crate, name) for crate in crates if (crate, name) in self.held]:
                self.named.update(found[:1])
            else:
                self.faults.append(f"{PATH}:{line}: there is no edit `{name}` of {' or '.join(crates)}")

    def prose(self, crates, text, line):
        """Takes the edits that a paragraph names: of the crate that is named before it, or of the heading's, or of the only crate that has one."""
        crate = None
        for name in re.findall("`([^`]+)`", text):
            crate = name if name in self.crates else crate
            held = [one for one, edit in self.held if edit == name]
            found = [one for one in (crate, *crates) if one in held] or held
            if len(found) > 1 and found[0] not in (crate, *crates):
                self.faults.append(f"{PATH}:{line}: `{name}` is an edit of {' and of '.join(found)}")
            self.named.update((one, name) for one in found[:1])

    def left_out(self):
        return [f"{PATH}: {path} isn't named" for key, path in self.held.items() if key not in self.named]
