"""Which names a text names, those left out that are bound in it. Binders are `(x : T)`, `{x : T}`, `λ x.`, `let x = ..` and, in a clause, the variables
of its patterns; a name is bound up to the end of the bracket that it stands in, or up to the next `;` or `,` there."""
import functools

from .antt import MARKED, heading, items, plain, tokens

OPENS, CLOSES = ("(", "{"), (")", "}")
MARKS = (";", ",", "=", ".", "@")
# What binds names up to one of its ends.
BINDERS = {"λ": (".",), "let": (":", "=")}


def bound_by(words, at):
    """The names that the group binds which opens at `at`; none where it binds nothing."""
    names = []
    for word in words[at + 1 :]:
        if word == ":":
            return names
        if word in OPENS + CLOSES + MARKS or word in BINDERS or word[0] == ".":
            return []
        names.append(plain(word))
    return []


def up_to(words, at, ends):
    """The names from `at` up to an end, or to a bracket."""
    names = []
    for word in words[at:]:
        if word in ends or word in OPENS:
            return names
        names.append(plain(word))
    return names


class Walk:
    """Goes over the words of a text; `free` has the names that it doesn't bind, in order."""

    def __init__(self, bound=()):
        self.scopes = [("", set(bound), [])]  # of each bracket that stands open: which it is, what is bound in it, and what it binds behind it
        self.free = []

    def holds(self, name):
        """Whether a name is bound, or the value of which it names a part."""
        return any(name.partition(".")[0] in names for _, names, _ in self.scopes)

    def go(self, words):
        at = 0
        while at < len(words):
            at = self.step(words, at)
        return self

    def step(self, words, at):
        """Takes the word at `at`, with the names that it binds; says where to go on."""
        word = words[at]
        if word in OPENS:
            names = bound_by(words, at)
            self.scopes.append((word, set(), names))
            return at + 1 + (len(names) + 1 if names else 0)
        if word in CLOSES:
            _, _, names = self.scopes.pop()
            self.scopes[-1][1].update(names)
        elif word in (";", ","):
            self.scopes[-1][1].clear()
        elif word in BINDERS:
            names = up_to(words, at + 1, BINDERS[word])
            self.scopes[-1][1].update(names)
            return at + 1 + len(names)
        elif word[0] not in '.@"' and not self.is_label(words, at) and not self.holds(plain(word)):
            self.free.append(word)
        return at + 1

    def is_label(self, words, at):
        """Whether it is the name of a field or of an argument: `record { x = .. }`, `{A = ..}`."""
        return words[at + 1 : at + 2] == ("=",) and self.scopes[-1][0] == "{"


def split_clause(words):
    """The patterns of a clause, without the name before them, and what stands behind its `=`."""
    depth = 0
    for at, word in enumerate(words):
        depth += (word in OPENS) - (word in CLOSES)
        if word == "=" and depth == 0:
            return words[1:at], words[at + 1 :]
    return words[1:], ()


def clause_names(text, is_constructor, bound=()):
    """The constructors of a clause's patterns, and the names that its body and the declarations under its `where` name."""
    lines = text.split("\n")
    under = [i for i, line in enumerate(lines) if tokens(line) == ("where",)]
    inner = lines[under[0] + 1 :] if under else []
    patterns, body = split_clause(tokens("\n".join(lines[: under[0]] if under else lines)))
    names = [word for word in patterns if word not in OPENS + CLOSES]
    constructors = [word for word in names if is_constructor(word)]
    local = ["\n".join(held).strip() for _, held, _ in items(inner, 1)]
    held = {*bound, *(plain(found[2]) for text in local if (found := MARKED.match(text))), *(plain(word) for word in names if word not in constructors)}
    free = Walk(held).go(body).free
    for text in local:
        if found := MARKED.match(text):
            free += Walk(held).go(tokens(text[found.end() :])).free
        elif not text.startswith("unfolding"):
            free += [word for words in clause_names(text, is_constructor, held) for word in words]
    return constructors, free


def section_walk(sections):
    """A walk that is behind the heads of the sections that a declaration stands in."""
    walk = Walk()
    for head in sections:
        walk.go(tokens(head)[2:-1])
    return walk


def holder_names(one, walk):
    """The names that the head of a record or a data type and the types of its parts name; a field is bound in those behind it."""
    words = tokens("\n".join(one.statement[: heading(one.statement)]))
    walk.go(words[words.index(one.kind) + 2 : -1])
    for part in one.parts:
        words = tokens("\n".join(part.statement))
        walk.free += Walk(walk.scopes[0][1]).go(words[words.index(":", 1) + 1 :]).free
        if one.kind == "record":
            walk.scopes[0][1].add(part.name)
    return walk.free


@functools.cache
def statement_names(one):
    """The names that a declaration's statement names."""
    walk = section_walk(one.sections)
    if one.kind in ("record", "data"):
        return holder_names(one, walk)
    text = "\n".join(one.statement)
    return walk.go(tokens(text[MARKED.match(text).end() :])).free


def definition_names(one, is_constructor):
    """Of each clause of a definition the constructors that it is for, and the names that it names."""
    bound = section_walk(one.sections).scopes[0][1]
    return [clause_names(clause, is_constructor, bound) for clause in one.clauses] if one.kind == "definition" else []
