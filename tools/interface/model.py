"""What crosses to C, made of the declarations of a crate for C and of the structs that they name: the names in C and in Rust, and the layouts.

A type's name in C is its name in Rattle with the crate's front, LongAd as vault_long_ad. Three rules give another:
- what a call PREFIX_parse_X answers with, a number and a struct, is PREFIX_X_answer with the fields `answer` and `value`; the struct is PREFIX_X
- what a call PREFIX_encode_X gives, a struct of nothing but `bytes`, is PREFIX_X_bytes
- a struct in a tuple struct of its own has the tuple struct's name
"""
import ast
import re
from dataclasses import dataclass, field

from .source import Unread, read_source

NUMBERS = {
    "bool": ("bool", 1),
    "u8": ("uint8_t", 1),
    "u16": ("uint16_t", 2),
    "u32": ("uint32_t", 4),
    "u64": ("uint64_t", 8),
    "usize": ("size_t", 8),
    "i8": ("int8_t", 1),
    "i16": ("int16_t", 2),
    "i32": ("int32_t", 4),
    "i64": ("int64_t", 8),
    "isize": ("ptrdiff_t", 8),
}

# An item of a lent row that C has as a struct, since no proof covers a lent row of structs: the struct has as many fields of that type.
SLOTS = {"[u32; 4]": "layouts::lists::Extent", "[u64; 2]": "layouts::runs::Run"}

# Crates whose functions for C stand in the header of another, with an archive of their own: what they call is then called once in each archive, and
# the compiler puts it into its callers.
BESIDE = {"vault_c": ["drives_c", "surveys_c"]}

# The module that has the answer numbers.
ANSWERS = ("disc", "answers")

# Constants that are one enumeration in C, by its name: the module that has their numbers, and what is said of it. The others have no name in common.
ENUMERATIONS = {
    "answer": ("disc::answers", "The answer of a call: done, or why it is refused."),
    "matching": ("listings::matchings", "How a component of a path is matched with the names of a directory's entries."),
    "how": ("volumes::choices", "The choices on opening, one bit each. A `how` is the sum of the choices that you make."),
}

# Parameters whose type in C is the enumeration of their name. `how` is a number: its bits are added up.
CHOSEN = {"matching": "u32"}


@dataclass
class Number:
    rust: str

    def __post_init__(self):
        self.c, self.size = NUMBERS[self.rust]
        self.align, self.behind = self.size, ""


@dataclass
class Chosen:
    """One of an enumeration of C, and a number to the archive and to Rust."""

    c: str
    rust: str

    def __post_init__(self):
        self.size = self.align = Number(self.rust).size
        self.behind = ""


@dataclass
class Array:
    item: object
    length: int

    def __post_init__(self):
        self.c, self.size, self.align = self.item.c, self.item.size * self.length, self.item.align
        self.behind = f"[{self.length}]{self.item.behind}"
        self.rust = f"[{self.item.rust}; {self.length}]"


@dataclass
class Member:
    name: str
    type: object
    about: list
    at: int = 0


@dataclass
class Record:
    """A struct. Its kind is "plain", "answer" or "bytes"."""

    c: str
    rust: str
    kind: str
    members: list
    about: list
    behind: str = ""

    def __post_init__(self):
        at, self.align = 0, 1
        for member in self.members:
            align = member.type.align
            member.at = (at + align - 1) // align * align
            at = member.at + member.type.size
            self.align = max(self.align, align)
        self.size = (at + self.align - 1) // self.align * self.align


@dataclass
class Lent:
    """Behind a pointer. A row has the name of its length; one number has none."""

    item: object
    written: bool
    length: str = ""


@dataclass
class Call:
    name: str
    takes: list  # of (name, type), where a type may be Lent
    gives: object  # None for nothing
    about: list


@dataclass
class Named:
    """A constant."""

    name: str
    type: str
    value: int
    about: list


@dataclass
class Group:
    """Constants that stand together; those of an enumeration have its name, and where a call takes one, its type."""

    held: list
    name: str = ""
    about: list = field(default_factory=list)
    type: object = None

    def __iter__(self):
        return iter(self.held)


@dataclass
class Section:
    about: list
    records: list = field(default_factory=list)
    calls: list = field(default_factory=list)


@dataclass
class Interface:
    prefix: str
    about: list
    constants: list  # of groups, the answer numbers first
    sections: list


def snake(name):
    return re.sub(r"(?<=[a-z0-9])(?=[A-Z])", "_", name).lower()


def camel(name):
    return "".join(word.capitalize() for word in name.split("_"))


class Reader:
    """Finds declarations by the paths of imports."""

    def __init__(self, root):
        self.root, self.read = root, {}

    def source(self, crate, module):
        if (crate, module) not in self.read:
            self.read[crate, module] = read_source(self.root, crate, module)
        return self.read[crate, module]

    def found(self, source, name, kind):
        """The source that declares a name which `source` uses, and what it is there called; kind is "structs" or "constants"."""
        if "::" not in name and name in getattr(source, kind):
            return source, name
        path = source.uses.get(name, name).split("::")
        crate = source.crate if path[0] == "crate" else path[0]
        there = self.source(crate, "::".join(path[1:-1])) if len(path) > 1 else None
        if there is None or path[-1] not in getattr(there, kind):
            raise Unread(f"{name}, which crates/{source.crate} names: there is no such declaration")
        return there, path[-1]

    def number(self, source, text):
        """What a constant expression comes to: numbers, names of constants, + - * << | &."""
        text = re.sub(r"(?<=[0-9a-fA-F])_?(u|i)(8|16|32|64|size)\b", "", text)

        def value(node):
            if isinstance(node, ast.Constant) and isinstance(node.value, int):
                return int(node.value)
            if isinstance(node, ast.Name):
                there, name = self.found(source, node.id, "constants")
                return self.number(there, there.constants[name].value)
            if isinstance(node, ast.BinOp) and type(node.op) in OPERATIONS:
                return OPERATIONS[type(node.op)](value(node.left), value(node.right))
            raise Unread(f"a constant that isn't understood: {text}")

        try:
            return value(ast.parse(text.replace("true", "1").replace("false", "0"), mode="eval").body)
        except SyntaxError:
            raise Unread(f"a constant that isn't understood: {text}")


OPERATIONS = {
    ast.Add: lambda a, b: a + b,
    ast.Sub: lambda a, b: a - b,
    ast.Mult: lambda a, b: a * b,
    ast.LShift: lambda a, b: a << b,
    ast.BitOr: lambda a, b: a | b,
    ast.BitAnd: lambda a, b: a & b,
}


class Maker:
    """Makes the interface of one crate for C."""

    def __init__(self, reader, crate):
        self.reader, self.crate, self.prefix = reader, crate, crate.removesuffix("_c")
        self.root = reader.source(crate, "")
        beside = [reader.source(other, "") for other in BESIDE.get(crate, [])]
        self.sources = [self.root, *(reader.source(crate, mod) for mod in self.root.mods), *beside]
        self.names, self.kinds, self.owners, self.made = {}, {}, {}, {}
        for source in self.sources:
            for function in source.functions:
                self.name_types(source, function)

    # ---- names

    def struct(self, source, name):
        """A struct, with what it is known by; one that is wrapped stands for its wrapper."""
        there, name = self.reader.found(source, name, "structs")
        struct = there.structs[name]
        if not struct.laid_out:
            raise Unread(f"{struct.where}: {name} crosses to C and has no #[repr(C)]")
        if struct.wraps:
            key, there, inner = self.struct(there, struct.wraps)
            self.names[key] = snake(name)
            return key, there, inner
        return (there.crate, struct.where, name), there, struct

    def name_types(self, source, function):
        """Names what the rules name by this function, or by a tuple struct that it takes or gives."""
        for type in [function.gives, *(type for _, type in function.takes)]:
            if re.fullmatch(r"\w+", type) and type not in NUMBERS:
                self.struct(source, type)
        verb, _, name = function.name.removeprefix(self.prefix + "_").partition("_")
        if verb not in ("parse", "encode") or not re.fullmatch(r"\w+", function.gives) or function.gives in NUMBERS:
            return
        key, there, given = self.struct(source, function.gives)
        types = [field.type for field in given.fields]
        if verb == "parse" and len(types) == 2 and given.fields[0].name == "answer" and types[1] not in NUMBERS:
            value, _, _ = self.struct(there, types[1])
            self.names[value], self.owners[value] = name, source
            self.names[key], self.kinds[key] = f"{name}_answer", "answer"
        if verb == "encode" and len(types) == 1 and given.fields[0].name == "bytes":
            self.names[key], self.kinds[key] = f"{name}_bytes", "bytes"

    # ---- types

    def type(self, source, text):
        """A type that is passed by value or held in a struct."""
        if text in NUMBERS:
            return Number(text)
        if row := re.fullmatch(r"\[(.+); ([^;]+)\]", text):
            return Array(self.type(source, row[1]), self.reader.number(source, row[2]))
        if not re.fullmatch(r"[\w:]+", text):
            raise Unread(f"a type that can't cross to C: {text}")
        return self.record(*self.struct(source, text))

    def record(self, key, source, struct):
        if key not in self.made:
            kind, name = self.kinds.get(key, "plain"), self.names.get(key, snake(struct.name))
            members = [Member(f.name, self.type(source, f.type), f.about) for f in struct.fields]
            rust, about = camel(name), struct.about
            if kind == "answer":
                members[1].name, rust = "value", f"Answer<{members[1].type.rust}>"
            if kind == "bytes":
                rust = f"Encoded<{members[0].type.length}>"
            if kind != "plain":
                about = []
            record = Record(f"{self.prefix}_{name}", rust, kind, members, about)
            if any(other.c == record.c for other in self.made.values()):
                raise Unread(f"{struct.where}: a second struct that is {record.c} in C")
            self.made[key] = record
        return self.made[key]

    def slot(self, source, text):
        """An item of a lent row."""
        if text not in SLOTS:
            return self.type(source, text)
        record, row = self.type(source, SLOTS[text]), self.type(source, text)
        if [member.type for member in record.members] != [row.item] * row.length:
            raise Unread(f"{record.c} has other fields than the {text} that it stands for")
        return record

    def chosen(self, name, text):
        """A parameter that is one of an enumeration."""
        if text != CHOSEN[name]:
            raise Unread(f"{name} is a {text}, and {CHOSEN[name]} in the enumeration of that name")
        return Chosen(f"{self.prefix}_{name}", text)

    def taken(self, source, name, text):
        """What a parameter is."""
        lent = re.fullmatch(r"&(mut )?(.+)", text)
        if not lent:
            if text.startswith("["):
                raise Unread(f"an array can't cross to C by value: {name}: {text}")
            if name in CHOSEN:
                return self.chosen(name, text)
            return self.type(source, text)
        written, inner = bool(lent[1]), lent[2]
        row = re.fullmatch(r"\[(.+)\]", inner)
        if not row or re.fullmatch(r"\[[^\[\]]+; [^;\]]+\]", inner):
            return Lent(self.type(source, inner), written)
        item = self.slot(source, row[1])
        behind = "slots" if isinstance(item, Record) else "length" if item == Number("u8") else "places"
        return Lent(item, written, f"{name}_{behind}")

    # ---- the whole

    def call(self, source, function):
        try:
            if not function.exported:
                raise Unread("it has no #[unsafe(no_mangle)]")
            if not function.name.startswith(self.prefix + "_"):
                raise Unread(f"its name doesn't begin with {self.prefix}_")
            takes = [(name, self.taken(source, name, type)) for name, type in function.takes]
            gives = self.type(source, function.gives) if function.gives else None
            return Call(function.name, takes, gives, function.about)
        except Unread as why:
            raise Unread(f"{function.where}: {function.name}: {why}")

    def constant(self, source, held):
        name = held.name.removeprefix(self.prefix.upper() + "_")
        if held.type not in NUMBERS:
            raise Unread(f"{held.where}: a constant of another type than a number")
        return Named(name, held.type, self.reader.number(source, held.value), held.about)

    def constants(self):
        """The answer numbers that are given, and the constants of the crate itself."""
        answers = self.reader.source(*ANSWERS)
        given = re.search(r"Used here: ([\w, ]+)\.", " ".join(self.root.about))
        front = self.prefix.upper() + "_"
        names = [word.removeprefix(front) for word in given[1].split(", ")] if given else list(answers.constants)
        for name in names:
            if name not in answers.constants:
                raise Unread(f"{front}{name} is given and no answer number")
        groups = [self.group("answer", [self.constant(answers, answers.constants[name]) for name in names])]
        for source in self.sources:
            public = [held for held in source.constants.values() if held.public]
            kinds = dict.fromkeys(self.enumeration(source, held) for held in public)
            for kind in sorted(kinds, key=lambda kind: kind == ""):
                groups.append(self.group(kind, [self.constant(source, held) for held in public if self.enumeration(source, held) == kind]))
        return [group for group in groups if group.held]

    def enumeration(self, source, held):
        """The enumeration to which a constant belongs: its number is that of a constant in the enumeration's module."""
        module = source.uses.get(held.value, "").rpartition("::")[0]
        return next((kind for kind, (there, _) in ENUMERATIONS.items() if there == module), "")

    def group(self, kind, held):
        if not kind:
            return Group(held)
        type = Chosen(f"{self.prefix}_{kind}", CHOSEN[kind]) if kind in CHOSEN else None
        return Group(held, f"{self.prefix}_{kind}", [ENUMERATIONS[kind][1]], type)

    def section(self, source, seen):
        """The calls of a source, and the structs that no section before has; in front of it the sections whose structs it needs."""
        if any(source is other for other in seen):
            return []
        seen.append(source)
        calls = [self.call(source, function) for function in source.functions]
        records = []
        for call in calls:
            for type in [call.gives, *(type for _, type in call.takes)]:
                gather(type, records)
        # A struct of the source itself that no call names: what stands in a row of numbers.
        for name, struct in source.structs.items():
            if struct.laid_out:
                gather(self.type(source, name), records)
        owners = {id(self.made[key]): owner for key, owner in self.owners.items() if key in self.made}
        before = [part for record in records for part in self.section(owners.get(id(record), source), seen)]
        have = [record for part in before for record in part.records]
        own = [record for record in records if not any(record is other for other in have)]
        about = source.about if source is not self.root else []
        return [*before, Section(about, own, calls)] if calls else before

    def interface(self):
        seen, sections, have = [], [], []
        for source in self.sources:
            for part in self.section(source, seen):
                part.records = [record for record in part.records if not any(record is other for other in have)]
                part.records.sort(key=lambda record: ["plain", "answer", "bytes"].index(record.kind))
                have += part.records
                sections.append(part)
        return Interface(self.prefix, self.root.about, self.constants(), sections)


def gather(type, records):
    """Adds a type's structs, those that it holds first."""
    if isinstance(type, (Lent, Array)):
        gather(type.item, records)
    elif isinstance(type, Record) and not any(type is other for other in records):
        for member in type.members:
            gather(member.type, records)
        records.append(type)


def interface_of(root, crate):
    return Maker(Reader(root), crate).interface()
