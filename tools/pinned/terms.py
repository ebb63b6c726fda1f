"""Terms of contracts and theorems, as far as they must be understood: a tuple of words and of brackets, each a tuple that begins with "(" or "{"."""
import re

from interface.source import Unread

CLOSES = {"(": ")", "{": "}"}
# What binds less than an application does. A term with one of these is no relation, and no side of an equation.
LOOSE = ("→", "⊎", "×", "≡", ":", ";", "=")


def read(text):
    """A text as a term."""
    rows = [[]]
    for word in re.findall(r"[(){};]|[^\s(){};]+", text):
        if word in CLOSES:
            rows.append([word])
        elif word in CLOSES.values():
            if len(rows) == 1 or CLOSES[rows[-1][0]] != word:
                raise Unread(f"a bracket that isn't opened: {text}")
            shut = tuple(rows.pop())
            rows[-1].append(shut)
        else:
            rows[-1].append(word)
    if len(rows) != 1:
        raise Unread(f"a bracket that isn't closed: {text}")
    return tuple(rows[0])


def split(term, word):
    """The terms between the places of a word, outside of brackets."""
    found, here = [], []
    for item in term:
        if item == word:
            found.append(tuple(here))
            here = []
        else:
            here.append(item)
    return [*found, tuple(here)]


def opened(term):
    """A term without brackets around the whole of it."""
    while len(term) == 1 and isinstance(term[0], tuple) and term[0][0] == "(":
        term = term[0][1:]
    return term


def conjuncts(term):
    """What a term says, one by one."""
    parts = split(opened(term), "×")
    return [opened(term)] if len(parts) == 1 else [said for part in parts for said in conjuncts(part)]


def words(term):
    """Every word of a term but its brackets and the names of a record's fields."""
    for at, item in enumerate(term):
        if isinstance(item, tuple):
            yield from words(item[1:])
        elif term[at + 1 : at + 2] != ("=",) and item != "=":
            yield item


def equation(term):
    """Both sides of an equation; None of any other term."""
    sides = split(term, "≡")
    return sides if len(sides) == 2 and all(sides) and not any(item in LOOSE for side in sides for item in side) else None


def is_instance(pattern, item, free, held, same):
    """Whether an item is a pattern with something for each of its free names; `held` is given what."""
    if isinstance(pattern, str):
        return held.setdefault(pattern, item) == item if pattern in free else isinstance(item, str) and same(pattern, item)
    return isinstance(item, tuple) and len(pattern) == len(item) and all(is_instance(*both, free, held, same) for both in zip(pattern, item))


def plain(name):
    """A name without the marks of an escaped one."""
    return name.strip("«»")


def imports(text):
    """The names that `use` brings in, each with its whole name."""
    found = {}
    for path, names in re.findall(r"^(?:ghost )?use ([^\s{;]+)\.\{([^}]*)\}", text, re.M):
        for name in names.split(","):
            whole, _, known = name.strip().partition(" as ")
            found[known or whole] = f"{path}.{whole}"
    return found
