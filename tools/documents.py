#!/usr/bin/env python3
"""Holds the documents to the tree: each link leads somewhere, and each path, name, option and rule that is cited is there.

    tools/documents.py              says what is cited and isn't there; ends with 1 if there is anything
    tools/documents.py --words      counts the words of each document (docs/INDEX.md is generated, and left out)
    tools/documents.py --commands   prints every command that a document shows, with its place
    tools/documents.py --self-test  plants faults in a copy of the documents, each of which must be seen

A document is a file of Markdown in the repository. Names are looked for between backticks, in every document but the notes on landings, the change log and
that of the port, which speak of what was. A name is there when it is a word of a source, or the name of a file. Rules are numbers of docs/RULES.md, and are looked for in
every source too. Needs Python and git.
"""
import pathlib
import re
import subprocess
import sys

ROOT = pathlib.Path(__file__).resolve().parents[1]
PAST = ("CHANGELOG.md", "docs/PORT.md", "docs/DESIGN-PASS.md")
INDEX, RULES, THIS = "docs/INDEX.md", "docs/RULES.md", "tools/documents.py"
WORD = re.compile(r"[^\W\d][\w′]*(?:-[\w′]+)*")
OPTION = re.compile(r"(?<![\w-])--?[A-Za-z][\w-]*")
LINK = re.compile(r"(?<!!)\[[^\]]*\]\(([^)\s]+)\)")
SPAN = re.compile(r"`([^`\n]+)`")
FENCE = re.compile(r"^```.*?^```\s*$", re.M | re.S)
# "RULES 8.26 to 8.33", "docs/RULES.md, 6.16", "rule 1.3": every number that follows.
CITED = re.compile(r"(?:RULES(?:\.md)?|\b[Rr]ules?)[),:]*\s+(\d+\.\d+(?:(?:,? and |,? or | to |, |-|–)\d+\.\d+)*)")
NUMBER = re.compile(r"\d+\.\d+")
# Functions of the original, other programs and words of UDF that no source of ours has; and what stands for any name.
OTHERS = set("read_sector read_partition_block resolve_ad_continuations xz -dc Non-Allocatable Space".split())
ANY = set("NAME CRATE X N".split())


def tracked(root):
    """Every file of the repository, by its path; a new one that isn't ignored too."""
    said = subprocess.run(["git", "-C", root, "ls-files", "-co", "--exclude-standard"], capture_output=True, text=True, check=True).stdout
    return [path for path in said.splitlines() if (root / path).is_file()]


def speaks_of_the_past(path):
    return "/landings/" in path or path in PAST


class Tree:
    """The documents, and what the rest of the repository has."""

    def __init__(self, root):
        self.root = root
        self.paths = tracked(root)
        self.folders = {str(up) for path in self.paths for up in pathlib.PurePath(path).parents}
        self.documents = {p: (root / p).read_text(encoding="utf-8") for p in self.paths if p.endswith(".md") and p != INDEX}
        self.sources = {p: text for p in self.paths if not p.endswith(".md") for text in [self.text(p)] if text is not None}
        self.words, self.options = OTHERS | ANY, {one for one in OTHERS if one.startswith("-")}
        for path, text in self.sources.items():
            self.words.update(re.split(r"[/.]", path))
            # Not the names that this tool plants.
            self.take(text.partition("\nFAULTS = ")[0] if path == THIS else text)
        self.rules = set(re.findall(r"^\*\*(\d+\.\d+)\*\*", self.documents.get(RULES, ""), re.M))

    def text(self, path):
        held = (self.root / path).read_bytes()
        return None if b"\0" in held[:4096] else held.decode("utf-8", "replace")

    def take(self, text):
        for word in WORD.findall(text):
            self.words.add(word)
            self.words.update(word.split("-"))
        self.options.update(OPTION.findall(text))

    def faults(self):
        for path, text in self.documents.items():
            yield from self.links(path, text)
            yield from self.cited_paths(path, text)
            if not speaks_of_the_past(path):
                yield from self.names(path, text)
        for path, text in (*self.documents.items(), *self.sources.items()):
            yield from self.numbers(path, text)

    def links(self, path, text):
        for found in LINK.finditer(text):
            to, _, mark = found[1].partition("#")
            if re.match(r"[a-z]+:", to):
                continue
            target = self.beside(path, to) if to else path
            if target not in self.paths and target not in self.folders:
                yield path, line(text, found), f"a link leads to {to}, which isn't there"
            elif mark and mark not in anchors(self.documents.get(target, "")):
                yield path, line(text, found), f"{target} has no heading #{mark}"

    def beside(self, path, to):
        """A path from the document's folder on, as the repository writes it."""
        parts = []
        for part in (*pathlib.PurePath(path).parent.parts, *pathlib.PurePath(to).parts):
            if part == "..":
                parts[-1:] = []
            elif part != ".":
                parts.append(part)
        return "/".join(parts)

    def cited_paths(self, path, text):
        """What starts like a path from the root on: `..`, `*` and NAME stand for any part."""
        if speaks_of_the_past(path):
            return
        for found in re.finditer(r"(?<![\w/.$-])(?:crates|docs|tools|strandlodge|strandlodge-sys|compare|include|packaging|\.ci)/[\w*./{}-]*[\w*}]", text):
            if not self.is_path(found[0]):
                yield path, line(text, found), f"{found[0]} isn't there"

    def is_path(self, cited):
        parts = re.split(r"(/|\*\*|\*|\.\.|\b[A-Z]+\b)", cited)
        pattern = "".join(".*" if part == "**" else "[^/]*" if part in ("*", "..") or part in ANY else re.escape(part) for part in parts)
        return any(re.fullmatch(pattern, one) for one in (*self.paths, *self.folders))

    def names(self, path, text):
        for found in SPAN.finditer(FENCE.sub(lambda block: re.sub(r"[^\n]", " ", block[0]), text)):
            if re.search(r"\bRULES\b", found[1]):
                continue
            for option in OPTION.findall(found[1]):
                if option not in self.options:
                    yield path, line(text, found), f"no source has the option {option}"
            for word in WORD.findall(OPTION.sub(" ", found[1])):
                if word not in self.words and not all(part in self.words for part in word.split("-")):
                    yield path, line(text, found), f"no source has the name {word}"

    def numbers(self, path, text):
        for found in CITED.finditer(text):
            for number in NUMBER.findall(found[1]):
                if number not in self.rules:
                    yield path, line(text, found), f"{RULES} has no {number}"


def line(text, found):
    return text.count("\n", 0, found.start()) + 1


def anchors(text):
    """The anchors of a document's headings, as they are made of their words."""
    heads = re.findall(r"^#+ +(.*?)\s*#*$", FENCE.sub("", text), re.M)
    return {re.sub(r"[^\w\- ]", "", head.lower()).replace(" ", "-") for head in heads}


def commands(text):
    """Lines of a block that is a shell's, or of an indented one that starts with a command of ours: with their numbers."""
    shell = False
    for number, one in enumerate(text.splitlines(), 1):
        if one.startswith("```"):
            shell = one.strip() in ("```sh", "```console", "```shell", "```bash") and not shell
        elif shell and (one.startswith("$ ") or not text.splitlines()[number - 2].endswith("\\")):
            yield number, one.removeprefix("$ ")
        elif re.match(r"\s*\$ |    (\./|vault |tools/|target/|cargo |rt |cc |cd |\.ci/)", one):
            yield number, one.strip().removeprefix("$ ")


# What it is, the document, a pattern of it, what takes its place, and what must be said.
FAULTS = (
    ("a link to no file", "README.md", r"\(docs/GUIDE\.md\)", "(docs/GUIDES.md)", "docs/GUIDES.md, which isn't there"),
    ("a link to no heading", "README.md", r"\(docs/GUIDE\.md\)", "(docs/GUIDE.md#nowhere)", "has no heading #nowhere"),
    ("a name that no source has", "docs/GUIDE.md", r"\Z", "\n`vault_opens`\n", "the name vault_opens"),
    ("an option that no source has", "docs/GUIDE.md", r"\Z", "\n`vault ls --hidden-things`\n", "the option --hidden-things"),
    ("a path that isn't there", "docs/GUIDE.md", r"\Z", "\nSee crates/vaults/src.\n", "crates/vaults/src isn't there"),
    ("a rule that isn't there", "docs/GUIDE.md", r"\Z", "\nRULES" + " 2.1 and 2.99\n", "has no 2.99"),
    ("a rule of a source that isn't there", "tools/rules.py", r"\Z", "\n# RULES" + " 2.98\n", "has no 2.98"),
)


def self_test():
    wrong = [f"nothing planted, and yet: {told(fault)}" for fault in Tree(ROOT).faults()]
    for what, path, pattern, instead, said in FAULTS:
        tree = Tree(ROOT)
        held = tree.documents if path in tree.documents else tree.sources
        held[path], times = re.subn(pattern, instead, held[path], count=1)
        if not times or not any(said in why for _, _, why in tree.faults()):
            wrong.append(f"{what}: not seen")
    for why in wrong:
        print(f"documents: {why}", file=sys.stderr)
    print(f"documents: {len(FAULTS)} faults planted: {'FAILED' if wrong else 'all seen'}")
    return 1 if wrong else 0


def told(fault):
    return "{}:{}: {}".format(*fault)


def main(words):
    if words not in ([], ["--words"], ["--commands"], ["--self-test"]):
        print(__doc__, file=sys.stderr)
        return 2
    if words == ["--self-test"]:
        return self_test()
    tree = Tree(ROOT)
    if words == ["--words"]:
        counts = {path: len(text.split()) for path, text in tree.documents.items()}
        for path, count in sorted(counts.items(), key=lambda one: -one[1]):
            print(f"{count:6} {path}")
        print(f"{sum(counts.values()):6} in all")
        return 0
    if words == ["--commands"]:
        for path, text in tree.documents.items():
            for number, one in commands(text):
                print(f"{path}:{number}: {one}")
        return 0
    wrong = [told(fault) for fault in tree.faults()]
    for why in wrong:
        print(f"documents: {why}", file=sys.stderr)
    return 1 if wrong else 0


if __name__ == "__main__":
    sys.exit(main(sys.argv[1:]))
