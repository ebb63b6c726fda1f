#!/usr/bin/env python3
"""Holds every public function of every library to a contract that leaves one result, and that asks nothing of its caller (no `requires`).

    tools/contracts.py              names each function whose contract doesn't, and ends with 1 if there is one
    tools/contracts.py --self-test  plants such contracts, theorems and tables, each of which must be seen

What a call leaves is what it gives and each piece of memory that it is lent to write. An equation in an `ensures` pins one of these, or several as
the fields of a record: one side is made of results, the other is a term that none is in, and that names a definition or a parameter (a literal will
do where there is no parameter). A contract that is a relation has a theorem instead, that two results which meet it are equal: docs/ONE-RESULT.md
names it, and its statement is read. A function with neither stands there as open. There are MOST_OPEN of these.

A library is a crate with src/lib.rt and no src/main.rt. Needs nothing but Python.
"""
import pathlib
import sys

sys.dont_write_bytecode = True
from interface.source import Unread
from pinned import trial
from pinned.functions import functions
from pinned.table import TABLE, read_table
from pinned.theorems import misses, read_theorem

ROOT = pathlib.Path(__file__).resolve().parents[1]
# It goes down where a contract is made tighter or a theorem is found, and never up.
MOST_OPEN = 4


def clause_faults(function):
    """What is wrong with the kinds of a function's clauses."""
    kinds = [kind for kind, _ in function.clauses]
    if "requires" in kinds:
        yield "asks something of its caller"
    if "ensures" not in kinds:
        yield "says nothing of what it gives or writes"
    if not function.results():
        yield "gives nothing and writes nothing"


def theorem_fault(root, function, missing, name, file):
    """Why a theorem doesn't give what no equation does; "" where it does."""
    try:
        theorem = read_theorem(root, file, name)
    except Unread as why:
        return f"has no theorem: {why}"
    whys = []
    for relation in function.relations():
        why = misses(theorem, function, relation)
        if not why:
            left = missing - set(relation.results.values())
            return f"says nothing of {', '.join(sorted(left))}" if left else ""
        whys.append(why)
    return f"`{name}` {whys[0]}" if whys else "has no relation that a theorem could be of"


def check(root, most_open):
    """What is wrong, a line for each; what is open; and how many functions of how many libraries are pinned by an equation, and by a theorem."""
    proved, left = read_table(root)
    wrong, names, by_equation, by_theorem = [], set(), 0, 0
    for function in functions(root):
        if function.name in names:
            raise Unread(f"{function.where}: a second {function.name}")
        names.add(function.name)
        missing = function.results() - function.pinned()
        faults = list(clause_faults(function))
        if not missing:
            by_equation += 1
            faults += [f"needs no line in {TABLE}"] if function.name in {*proved, *left} else []
        elif function.name in proved:
            by_theorem += 1
            fault = theorem_fault(root, function, missing, *proved[function.name])
            faults += [fault] if fault else []
        elif function.name not in left:
            faults.append(f"doesn't pin {', '.join(sorted(missing))}, and has no theorem in {TABLE}")
        wrong += [f"{function.where}: {function.name} {why}" for why in faults]
    wrong += [f"{TABLE}: there is no public function {name}" for name in sorted({*proved, *left} - names)]
    if len(left) != most_open:
        wrong.append(f"{TABLE}: {len(left)} functions are open, and MOST_OPEN of tools/contracts.py is {most_open}")
    return wrong, left, (len(names), len({name.partition("::")[0] for name in names}), by_equation, by_theorem)


def main(words):
    if words == ["--self-test"]:
        return trial.run(check, ROOT)
    if words:
        print(__doc__, file=sys.stderr)
        return 2
    try:
        wrong, left, (seen, libraries, by_equation, by_theorem) = check(ROOT, MOST_OPEN)
    except Unread as why:
        print(f"contracts: {why}")
        return 1
    for name, why in left.items():
        print(f"contracts: open: {name}: {why}")
    for why in wrong:
        print(f"contracts: {why}")
    if not wrong:
        print(
            f"contracts: {seen} public functions of {libraries} libraries, none asks anything; the result is pinned by an equation of {by_equation}, "
            f"by a theorem of {by_theorem}; {len(left)} are open"
        )
    return 1 if wrong else 0


if __name__ == "__main__":
    sys.exit(main(sys.argv[1:]))
