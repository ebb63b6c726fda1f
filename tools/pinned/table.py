"""docs/ONE-RESULT.md: the functions whose contract is no equation, each with its theorem of one result, and those that have none."""
import re

from interface.source import Unread

TABLE = "docs/ONE-RESULT.md"


def read_table(root):
    """Of each function of the first table its theorem and the theorem's file; and those of the second, with what their contract leaves open."""
    try:
        text = (root / TABLE).read_text(encoding="utf-8")
    except OSError as why:
        raise Unread(f"{TABLE}: {why.strerror}")
    proved, left = {}, {}
    for number, line in enumerate(text.split("\n"), 1):
        if not line.startswith("| `"):
            continue
        if held := re.fullmatch(r"\| `([\w:]+)` \| `([^\s`]+)` \| (crates/\w+/proofs/\w+\.antt) \|", line):
            name, said, into = held[1], (held[2], held[3]), proved
        elif held := re.fullmatch(r"\| `([\w:]+)` \| ([^|]+) \|", line):
            name, said, into = held[1], held[2], left
        else:
            raise Unread(f"{TABLE}:{number}: a line that isn't understood")
        if name in proved or name in left:
            raise Unread(f"{TABLE}:{number}: {name} stands there twice")
        into[name] = said
    return proved, left
