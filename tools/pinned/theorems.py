"""Theorems of one result: what their statements say, and whether that is what a contract needs."""
import re
from dataclasses import dataclass

from interface.source import Unread
from pinned.terms import conjuncts, equation, imports, is_instance, read, split, words


@dataclass
class Theorem:
    bound: dict  # each name that it is over, with the words of its type
    premises: list
    gives: tuple
    known: dict  # the imports of its module

    def whole(self, name):
        return self.known.get(name, name)


def indent(line):
    return len(line) - len(line.lstrip())


def enclosing(lines, at):
    """What the modules around a line are over."""
    found, deep = [], indent(lines[at])
    for line in reversed(lines[:at]):
        if not line.strip() or line.lstrip().startswith("--") or indent(line) >= deep:
            continue
        if not (held := re.fullmatch(r"\s*module _ (.*) where", line)):
            raise Unread(f"what is around it isn't understood: {line.strip()}")
        found.append(read(held[1]))
        deep = indent(line)
    return found


def binders(term):
    """The names of a telescope, each with the words of its type; None where the term is none."""
    found = {}
    for item in term:
        if not isinstance(item, tuple) or ":" not in item:
            return None
        at = item.index(":")
        found |= {name: set(words(item[at + 1 :])) for name in item[1:at]}
    return found


def statement(lines, name):
    """Where a public theorem stands and where its statement ends: behind it stands its proof."""
    begins = [at for at, line in enumerate(lines) if line.lstrip().startswith(f"pub {name} :")]
    if len(begins) != 1:
        raise Unread(f"{len(begins)} theorems `{name}`")
    at = end = begins[0]
    while end + 1 < len(lines) and indent(lines[end + 1]) > indent(lines[at]):
        end += 1
    behind = [line.split()[0] for line in lines[end + 1 :] if line and not line.lstrip().startswith("unfolding ")]
    if behind[:1] != [name]:
        raise Unread(f"`{name}` isn't proved")
    return at, end


def read_theorem(root, file, name):
    """What a public theorem says, of a module that its crate has."""
    path = root / file
    try:
        text, modules = path.read_text(encoding="utf-8"), (path.parent / "Lib.antt").read_text(encoding="utf-8")
    except OSError as why:
        raise Unread(f"{why.strerror}: {why.filename}")
    if f"pub mod {path.stem}" not in modules.split("\n"):
        raise Unread(f"{file} isn't a module of its crate")
    lines = [re.sub(r"(^|\s)--\s.*", "", line).rstrip() for line in text.split("\n")]
    at, end = statement(lines, name)
    bound, premises = {}, []
    for telescope in enclosing(lines, at):
        bound |= binders(telescope) or {}
    *over, gives = split(read(" ".join(lines[at : end + 1]).split(" :", 1)[1]), "→")
    for term in over:
        names = binders(term)
        bound |= names or {}
        if names is None:
            premises.append(term)
    return Theorem(bound, premises, gives, imports(text))


def unused(theorem):
    """The names that a theorem is over and that stand in no premise, nor in the type of one that does: something that it asks for besides."""
    used = {word for premise in theorem.premises for word in words(premise)}
    while more := {word for name in used & set(theorem.bound) for word in theorem.bound[name]} - used:
        used |= more
    return sorted(set(theorem.bound) - used)


def is_of(theorem, premise, function, relation):
    """Whether a premise is this part of a contract, with anything for the names that the theorem is over."""
    held, same = {}, lambda mine, theirs: theorem.whole(mine) == function.whole(theirs)
    parts = (relation.head, *relation.takes)
    if premise[0] in theorem.bound or len(premise) != len(parts):
        return False
    return all(is_instance(*both, theorem.bound, held, same) for both in zip(premise, parts))


def misses(theorem, function, relation):
    """Why a theorem doesn't say that two results which meet this part of a contract are equal; "" where it does."""
    if len(theorem.premises) != 2 or unused(theorem):
        return "asks for more than the contract, twice"
    if not all(is_of(theorem, premise, function, relation) for premise in theorem.premises):
        return f"doesn't speak of this call's `{relation.head}`"
    both = list(zip(*(premise[1:] for premise in theorem.premises)))
    pairs = [both[place] for place in relation.results]
    names = [name for pair in pairs for name in pair]
    if any(name not in theorem.bound for name in names) or len(set(names)) != len(names):
        return "isn't over two results"
    if any(one != other for place, (one, other) in enumerate(both) if place not in relation.results):
        return "isn't over two results of one call"
    equal = [{side for (side,) in sides} for said in conjuncts(theorem.gives) if (sides := equation(said)) and all(len(side) == 1 for side in sides)]
    return "" if all(set(pair) in equal for pair in pairs) else "leaves a result out"
