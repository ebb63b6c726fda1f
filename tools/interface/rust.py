"""The declarations for Rust: a module of the crate in strandlodge-sys/, whose macros assert the layouts."""
from .model import Lent
from .prose import documented

WIDTH = 140  # of strandlodge-sys/rustfmt.toml

GENERIC = {
    "answer": """\
/// The result of a call that parses: `{prefix}_X_answer`.
#[repr(C)]
#[derive(Debug, Clone, Copy, PartialEq, Eq)]
pub struct Answer<T> {{
    /// A number of the table.
    pub answer: u64,
    /// Zeros if the call was refused.
    pub value: T,
}}
""",
    "bytes": """\
/// The result of a call that encodes: `{prefix}_X_bytes`.
#[repr(C)]
#[derive(Debug, Clone, Copy, PartialEq, Eq)]
pub struct Encoded<const N: usize> {{
    /// The record as recorded.
    pub bytes: [u8; N],
}}
""",
}


def constants(groups):
    lines = []
    for group in groups:
        for held in group:
            value = ("true" if held.value else "false") if held.type == "bool" else held.value
            lines += [*documented(held.about), f"pub const {held.name}: {held.type} = {value};"]
        lines.append("")
    return lines


def declared(records):
    """The structs that have names of their own."""
    lines = ["structs! {"]
    for held in records:
        lines += [*documented(held.about, "    "), f"    {held.c} as {held.rust}, {held.size} aligned to {held.align} {{"]
        for member in held.members:
            lines += [*documented(member.about, "        "), f"        {member.at} {member.name}: {member.type.rust},"]
        lines += ["    }", ""]
    lines.pop()
    return [*lines, "}", ""]


def generic(prefix, kind, records):
    """The structs that are one struct of Rust, with what they are made of."""
    lines = [*GENERIC[kind].format(prefix=prefix).splitlines(), "", "layouts! {"]
    for held in records:
        fields = ", ".join(f"{member.at} {member.name}" for member in held.members)
        lines.append(f"    {held.c} as {held.rust}, {held.size} aligned to {held.align} {{ {fields}, }}")
    return [*lines, "}", ""]


def parameter(name, type):
    if not isinstance(type, Lent):
        return [f"{name}: {type.rust}"]
    pointer = f"{name}: *{'mut' if type.written else 'const'} {type.item.rust}"
    return [pointer, f"{type.length}: usize"] if type.length else [pointer]


def call(held):
    words = [word for name, type in held.takes for word in parameter(name, type)]
    gives = f" -> {held.gives.rust}" if held.gives else ""
    line = f"    pub fn {held.name}({', '.join(words)}){gives};"
    if len(line) > WIDTH:
        line = "\n".join([f"    pub fn {held.name}(", *(f"        {word}," for word in words), f"    ){gives};"])
    return [*documented(held.about, "    "), line]


def calls(held):
    lines = []
    for i, one in enumerate(held):
        if i and (one.about or held[i - 1].about):
            lines.append("")
        lines += call(one)
    return ['unsafe extern "C" {', *lines, "}"]


def silent(interface, records, all_calls):
    """Whether something public has no comment."""
    said = [held.about for group in interface.constants for held in group] + [held.about for held in all_calls]
    for held in records:
        said += [held.about, *(member.about for member in held.members)]
    return not all(said)


def module(interface, crate):
    records = [held for part in interface.sections for held in part.records]
    all_calls = [held for part in interface.sections for held in part.calls]
    by = {kind: [held for held in records if held.kind == kind] for kind in ("plain", "answer", "bytes")}
    head = [f"include/{interface.prefix}.h: {interface.about[0]}", *interface.about[1:]]
    head += ["", f"Made by tools/faces.py from the comments and declarations of crates/{crate}."]
    lines = documented(head, mark="//!")
    lines += ["#![allow(missing_docs)]", ""] if silent(interface, by["plain"], all_calls) else [""]
    lines += [*constants(interface.constants), *declared(by["plain"])]
    for kind in ("answer", "bytes"):
        if by[kind]:
            lines += generic(interface.prefix, kind, by[kind])
    return "\n".join([*lines, *calls(all_calls)]) + "\n"
