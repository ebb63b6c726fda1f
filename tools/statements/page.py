"""The page: the calls, the promises, and the definitions that these reach."""
import hashlib
import re

from .antt import File, tokens
from .promises import is_function, is_theorem, place_of
from .reached import FACE, order

PATH = "docs/INDEX.md"
HEAD = """# Index

`tools/index.py` makes this page from the sources, and the gate fails where the two differ. It lists each call with its contract, each promise of PROMISES.md
with the statements that prove it, and then, once, every definition that a contract or a statement reaches. If you believe these definitions and the
toolchain, you need to read no proof.

A contract or a statement *reaches* the definitions that it names, those that these name, and so on. Of a theorem, and of what can't be unfolded, only the
statement is reached. Of a definition by cases, a contract reaches only the cases that it can come to. A type is one that the code declares.
"""
DEFINITIONS = """## The definitions

Lowest crate first. A definition without a comment is shown with its type. The last column says which calls of the vault reach it; if none does, which
other calls do; and if no call does, which promises.
"""
TYPES = ("struct", "enum")
# How many calls of other crates, or promises, are named beside a definition.
MOST = 6


def sentence(about):
    """The first sentence of a comment."""
    text = " ".join(line for line in about if line and not line.startswith("----"))
    found = re.match(r".*?\.(?=\s+[A-Z`]|\s*$)", text)
    return (found[0] if found else text).strip()


def cell(text):
    return text.replace("|", "\\|")


def module_name(place):
    """How a module is named in its crate."""
    return "/".join(place.module[1:])


def counted(number, word):
    return f"{number:,} {word}{'' if number == 1 else 's'}"


def contract(function):
    """A function's head and its contract, as lines."""
    lines = function.head.split("\n")
    for kind, text in function.clauses:
        lines.append(f"    {kind} {{ {text} }}")
    return lines


def listed(names):
    return ", ".join(f"`{name}`" for name in names)


class Page:
    def __init__(self, reached):
        self.reached = reached
        self.world = reached.world
        crates = order(self.world.root)
        self.rank = {crate: i for i, crate in enumerate(crates)}
        self.stated = {call.function: "above" for call in reached.face}
        self.calls = [call.function.name for call in reached.face]

    def text(self):
        parts = [HEAD, *self.believed(), *self.face(), *self.others(), *self.promises(), *self.definitions()]
        return "\n".join(part.rstrip("\n") + "\n" for part in parts)

    # ---- the calls

    def summary(self, reached):
        """How much is reached, and in which modules."""
        crates = {}
        found = sorted((one for one in reached if one.kind not in TYPES), key=self.placed)
        for one in found:
            held = crates.setdefault(one.place.crate, {})
            held[module_name(one.place)] = held.get(module_name(one.place), 0) + 1
        said = "; ".join(f"`{crate}` " + ", ".join(f"{name} {number}" for name, number in held.items()) for crate, held in crates.items())
        return f"{counted(len(found), 'definition')} and {counted(len(reached) - len(found), 'type')}" + (f": {said}" if said else "") + "."

    def placed(self, one):
        return self.rank.get(one.place.crate, 0), one.place.path, one.line

    def face(self):
        yield f"## The calls of `{FACE}`\n"
        for call in self.reached.face:
            one = call.function
            yield f"### `{one.called}`\n\n{' '.join(one.about)}\n"
            yield "```rust\n// " + place_of(one) + "\n" + "\n".join(contract(one)) + "\n```\n"
            names = [f"{name.owner.name}.{name.name}" if name.owner else name.name for name in call.names if name.kind not in TYPES]
            yield f"It names {listed(names)}, and reaches {self.summary(call.reached)}\n"

    def others(self):
        yield "## The calls of the other crates, and those for C\n"
        for crate, calls in self.reached.others.items():
            yield f"### `{crate}`\n"
            rows = ["| function | place | contract | reaches |", "|---|---|---|---|"]
            for call in calls:
                said = "; ".join(f"`{kind} {{ {' '.join(text.split())} }}`" for kind, text in call.function.clauses)
                rows.append(f"| `{call.function.called}` | {place_of(call.function)} | {cell(said)} | {len(call.reached)} |")
            yield "\n".join(rows) + "\n"

    # ---- the promises

    def promises(self):
        yield "## The promises\n\nThe sentences are those of PROMISES.md, in its order. A statement stands where it is first named.\n"
        for section, found in self.reached.promises:
            yield f"### {section.title}\n"
            for promise in found:
                yield from self.promise(promise)

    def promise(self, promise):
        row = promise.row
        yield (f"**{promise.label}. {row.sentence[2:]}" if row.sentence.startswith("**") else f"**{promise.label}.** {row.sentence}") + "\n"
        new = [one for one in row.named if one not in self.stated]
        theorems, functions = [one for one in new if is_theorem(one)], [one for one in new if is_function(one)]
        if theorems:
            yield "```antt\n" + "\n\n".join(self.statements(theorems)) + "\n```\n"
        if functions:
            yield "```rust\n" + "\n\n".join("\n".join([f"// {place_of(one)}", *contract(one)]) for one in functions) + "\n```\n"
        said = [f"`{one.name}` (stated {self.stated[one]})" for one in row.named if one in self.stated]
        said += [self.mention(one) for one in new if one not in theorems + functions]
        if said:
            yield f"Also: {', '.join(said)}.\n"
        self.stated.update({one: f"at {promise.label}" for one in theorems + functions})

    def mention(self, one):
        return f"`{one.crate}` {module_name(one)} ({one.path})" if isinstance(one, File) else f"`{one.name}` ({place_of(one)})"

    def statements(self, theorems):
        """Each theorem with its place and the sections that it stands in, which aren't said twice in a row."""
        last = None
        for one in theorems:
            lines = [f"-- {place_of(one)}"]
            indent = ""
            for head in one.sections:
                if (one.place, one.sections) != last:
                    lines += [indent + line for line in head.split("\n")]
                indent += "  "
            last = (one.place, one.sections)
            yield "\n".join(lines + [indent + line for line in one.statement])

    # ---- the definitions

    def places(self, types):
        """The files that hold what is reached, lowest first, each with what it holds."""
        held = {}
        for one in sorted((one for one in self.reached.by if (one.kind in TYPES) == types), key=self.placed):
            held.setdefault(one.place, []).append(one)
        return held

    def believed(self):
        yield "## What has to be believed\n"
        held = self.places(False)
        by = {one: self.reached.by[one] for found in held.values() for one in found}
        yield "\n".join(
            [
                "| reached by | definitions | their lines | modules | the modules' lines |",
                "|---|---|---|---|---|",
                sizes("the calls of the vault", [one for one in by if by[one].calls]),
                sizes("all calls", [one for one in by if by[one].calls or by[one].others]),
                sizes("all calls and promises", list(by)),
                "",
            ]
        )
        yield "The sum is over the text of the definitions that are reached, comments left out: it changes where one of them does.\n"
        rows = ["| module | lines | reached by a call of the vault | by another call alone | by a promise alone | sum |", "|---|---|---|---|---|---|"]
        for place, found in held.items():
            first = sum(bool(by[one].calls) for one in found)
            second = sum(bool(by[one].others and not by[one].calls) for one in found)
            rows.append(f"| {place.path} | {place.lines} | {first or ''} | {second or ''} | {len(found) - first - second or ''} | {summed(found)} |")
        yield "\n".join(rows) + "\n"

    def definitions(self):
        yield DEFINITIONS
        for place, found in self.places(False).items():
            yield f"### {place.path}\n\n{sentence(place.about)}\n"
            yield "\n".join(["| line | definition | says | reached by |", "|---|---|---|---|", *map(self.definition, found)]) + "\n"
        yield "## The types that the code declares\n"
        rows = ["| type | place | says | reached by | sum |", "|---|---|---|---|---|"]
        for found in self.places(True).values():
            rows += [f"| `{one.name}` | {place_of(one)} | {cell(sentence(one.about))} | {self.who(one)} | {summed([one])} |" for one in found]
        yield "\n".join(rows) + "\n"

    def definition(self, one):
        said = sentence(one.about) or f"`{type_of(one)}`"
        return f"| {one.line} | `{one.name}` | {cell(said)} | {self.who(one)} |"

    def who(self, one):
        by = self.reached.by[one]
        if by.calls:
            left = [name for name in self.calls if name not in by.calls]
            if not left:
                return "every call"
            return f"all but {', '.join(left)}" if len(left) < len(by.calls) else ", ".join(by.calls)
        found = by.others or by.promises
        return ("" if by.others else "promise ") + ", ".join(found[:MOST]) + (f" and {len(found) - MOST} more" if len(found) > MOST else "")


def summed(found):
    """A short sum over the words of some declarations."""
    words = [word for one in found for text in (*one.sections, *one.statement, *one.clauses) for word in tokens(text.partition("//")[0])]
    return hashlib.sha256(" ".join(words).encode()).hexdigest()[:8]


def sizes(words, found):
    """A row of sizes: some definitions, their lines, the modules that hold them, and the lines of these."""
    modules = {one.place for one in found}
    numbers = (len(found), sum(one.end - one.line + 1 for one in found), len(modules), sum(place.lines for place in modules))
    return f"| {words} | " + " | ".join(f"{number:,}" for number in numbers) + " |"


def type_of(one):
    """The type that a declaration's statement gives it, in one line."""
    text = " ".join(" ".join(one.statement).split())
    return text.partition(" : ")[2] if one.kind in ("definition", "theorem") else text.partition(" where")[0]
