"""What is reached: from each public call by its contract, and from each promise by the statements that it names."""
import re
from dataclasses import dataclass, field

from . import promises
from .antt import File
from .cases import Cases
from .rattle import Function

FACE = "vault"
# The other crates whose functions a user calls, from Rattle and from C.
OTHERS = ("drives", "surveys", "figures", "writers", "vault_c", "drives_c", "surveys_c", "records_c")


@dataclass
class By:
    """Who reaches a definition: calls of the face, other calls, promises."""

    calls: list = field(default_factory=list)
    others: list = field(default_factory=list)
    promises: list = field(default_factory=list)


@dataclass
class Call:
    function: Function
    names: list
    reached: dict


@dataclass
class Promise:
    label: str
    row: promises.Row
    reached: dict


def order(root):
    """The crates, lowest first, as crates.txt lists them."""
    return re.findall(r"^(\w+)[^:#\n]*:", (root / "crates.txt").read_text(encoding="utf-8"), re.M)


def calls_of(world, crate):
    """The public functions of a crate, each with what its contract names and reaches."""
    held = [source for (name, _), source in world.sources.items() if name == crate]
    functions = [one for source in held for one in source.functions if one.public]
    named = [(one, world.contract_names(one)) for one in functions]
    return [Call(one, names, Cases(world).go(names)) for one, names in named]


def started(world, one):
    """What a thing that a promise names begins with: a theorem's statement or a contract names it; a definition is reached itself."""
    if isinstance(one, File):
        return []
    if isinstance(one, Function):
        return world.contract_names(one)
    return world.names(one) if promises.is_theorem(one) else [one]


class Reached:
    def __init__(self, world):
        self.world = world
        text = (world.root / promises.PATH).read_text(encoding="utf-8")
        self.sections = promises.read_sections(text, world.crates)
        self.names = promises.Names(world)
        self.edits = promises.Edits(world.root, world.crates)
        self.numbers = {}
        self.face = calls_of(world, FACE)
        self.others = {crate: calls_of(world, crate) for crate in OTHERS}
        self.promises = [(section, self.read_rows(section)) for section in self.sections]
        self.read_prose(text)
        self.by = {}
        self.gather()

    def read_rows(self, section):
        """The promises of a section. One that has no number of its own has one behind the section's first crate, over all sections of that crate."""
        found, crate = [], section.crates[0]
        for row in section.rows:
            self.numbers[crate] = self.numbers.get(crate, 0) + 1
            self.names.row(section, row)
            self.names.prose(row.sentence, row.line)
            self.edits.column(section.crates, row.edits, row.line)
            begins = {one: None for named in row.named for one in started(self.world, named)}
            found.append(Promise(row.number or f"{crate} {self.numbers[crate]}", row, self.world.reach(begins)))
        return found

    def read_prose(self, text):
        """What is named outside the tables: edits, paragraph by paragraph, and names that have to be there somewhere."""
        crates, said, begins = [], "", 1
        for number, line in enumerate([*text.split("\n"), ""], 1):
            if not line.startswith("|"):
                self.names.prose(line, number)
            if not line.strip() or line[0] in "#|-":
                self.edits.prose(crates, said, begins)
                said, begins = "", number
            if line.startswith("#"):
                crates = [name for name in re.findall("`([^`]+)`", line) if name in self.world.crates]
            elif not line.startswith("|"):
                said += f" {line}"

    def gather(self):
        for call in self.face:
            self.note(call.reached, "calls", call.function.name)
        for crate, calls in self.others.items():
            for call in calls:
                self.note(call.reached, "others", f"{crate} {call.function.called}")
        for _, found in self.promises:
            for promise in found:
                self.note(promise.reached, "promises", promise.label)

    def note(self, reached, kind, name):
        for one in reached:
            getattr(self.by.setdefault(one, By()), kind).append(name)

    def statements(self):
        """Each theorem that a promise names, once, with what its statement reaches."""
        named = {one: None for _, found in self.promises for promise in found for one in promise.row.named if promises.is_theorem(one)}
        return {one: self.world.reach(self.world.names(one)) for one in named}

    def outside(self):
        """The definitions outside specs/ that statements reach, a line for each."""
        held = {}
        for statement, reached in self.statements().items():
            for one in reached:
                if one.kind not in ("struct", "enum") and one.place.module[0] != "specs":
                    held.setdefault((one.place.path, one.line, one.name), statement.name)
        return [f"{path}:{line}: the statement of `{by}` reaches {name}, which stands outside specs/" for (path, line, name), by in sorted(held.items())]

    def inner(self):
        """The outer definitions' files that use an inner one, a line for each."""
        return [
            f"{file.path}:{use.line}: an outer spec uses an inner one, {use.path}"
            for file in self.world.files.values()
            if file.module[0] == "specs" and file.module[1] != "Inner"
            for use in file.uses
            if (found := self.world.split(use.path)) and found[1][:2] == ("specs", "Inner")
        ]

    def faults(self):
        return [*self.names.faults, *self.edits.faults, *self.edits.left_out(), *self.inner(), *self.outside()]
