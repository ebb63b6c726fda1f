"""The toolchain's own compiler, linker and loader, as ./run and compare/build.rs use them, and its gate over copies of crates. Its programs and archives are
x86-64 code, and so is the toolchain."""
import functools
import pathlib
import re
import shutil
import subprocess

ROOT = pathlib.Path(__file__).resolve().parents[1]
STRICT = ["-Wall", "-Wextra", "-Werror", "-pedantic", "-I", str(ROOT / "include")]
TARGET = "x86_64-unknown-linux-gnu"
# What a crate's proof reads; and what a program is run on.
PARTS = ("src", "specs", "proofs")
RUN_ON = ("stdin", "stdout", "args", "status", "data")


class Failed(Exception):
    """A command that ended otherwise than with 0, with what it said."""


def did(*words, **more):
    """What a command wrote to its standard output."""
    done = subprocess.run([str(word) for word in words], capture_output=True, **more)
    if done.returncode:
        said = (done.stdout + done.stderr).decode(errors="replace")
        raise Failed(f"{words[0]} ended with {done.returncode}: {said}")
    return done.stdout


@functools.cache
def kit():
    return pathlib.Path(did("rt", "doc").decode().strip()).parent


def linked(source, archives, program, language=("-std=c11",), headers=()):
    """Compiles a C source and links it with archives, as rt links a program. The kit has no headers: stdint.h and its like are cc's. Headers of the
    repository may be others than its own, in a folder."""
    tools, object = kit() / "toolchain", f"{program}.o"
    system = did("cc", "-print-file-name=include").decode().strip()
    plain = [*language, "-O1", "-fPIE", "-ffreestanding", "-nostdinc", "-isystem", system]
    first = [word for folder in headers for word in ("-I", folder)]
    did(tools / "bin/clang", "-target", TARGET, *plain, *first, *STRICT, "-c", source, "-o", object)
    did(kit() / "bin/rattle-link", "--target", TARGET, "--toolchain", tools, "-o", program, object, *archives)


def ran(program, input=b"", words=(), **more):
    """What a program writes to its standard output, given this on its standard input, and these words."""
    tools = kit() / "toolchain"
    return did(tools / "lib/ld-linux-x86-64.so.2", "--library-path", tools / "lib", program, *words, input=input, **more)


def depends(root=ROOT):
    """What each crate of the repository depends on, by crates.txt."""
    lines = re.findall(r"^(\w+)[^:#\n]*:([^#\n]*)", (root / "crates.txt").read_text(), re.M)
    return {name: said.split() for name, said in lines}


def below(*crates, root=ROOT):
    """These crates and those of the repository that they stand on, themselves or by way of another, lowest first."""
    lines, found = depends(root), []

    def visit(name):
        if name not in found:
            for one in lines[name]:
                if one in lines:
                    visit(one)
            found.append(name)

    for crate in crates:
        visit(crate)
    return found


def copied(crates, to, root=ROOT):
    """A repository of some crates and all that they stand on, as they now are, in a folder; it has their tests, their programs and no edits."""
    wanted = below(*crates, root=root)
    (to / ".git").mkdir(parents=True)
    lines = [line for line in (root / "crates.txt").read_text().splitlines() if re.match(r"\w+", line) and re.match(r"\w+", line)[0] in wanted]
    (to / "crates.txt").write_text("\n".join(lines) + "\n")
    for crate in wanted:
        for part in (*PARTS, *RUN_ON):
            source, there = root / "crates" / crate / part, to / "crates" / crate / part
            if source.is_dir():
                shutil.copytree(source, there, symlinks=True)
            elif source.exists():
                there.parent.mkdir(parents=True, exist_ok=True)
                shutil.copyfile(source, there)
    return wanted


def gate(repository, tell=lambda line: None):
    """Runs `rt ci` on a repository that isn't this one: the status, and what was said, of which each line is told as it comes. What an earlier run on this
    machine proved of the same files, the gate's own among them, is taken from there, as rt ever takes it."""
    said = []
    with subprocess.Popen(["rt", "ci"], cwd=repository, stdout=subprocess.PIPE, stderr=subprocess.STDOUT, stdin=subprocess.DEVNULL) as run:
        for line in run.stdout:
            said.append(line.decode(errors="replace"))
            tell(said[-1].rstrip("\n"))
    return run.returncode, "".join(said)


def archive(repository, crate, to):
    """Compiles the archive of a static library over the libraries that `rt ci` proved in that repository and left there; the compiler checks the crate
    itself once more, and compiles no other than what is proved."""
    under = [one for one in below(crate, root=repository) if one != crate]
    rlib = {one: repository / f"crates/{one}/out/rlib/{one}.rlib" for one in under}
    words = [kit() / "bin/rattle", "build", "--crate-name", crate, "src/lib.rt", "--extern", f"std={kit()}/rlibs/std.rlib", "-L", f"dependency={kit()}/rlibs"]
    for one in depends(repository)[crate]:
        words += ["--extern", f"{one}={rlib.get(one, kit() / f'rlibs/{one}.rlib')}"]
    for one in under:
        words += ["-L", f"dependency={rlib[one].parent}"]
    words += ["--antt-project", kit() / "rattle/logic/antt-project.json", "--logic-built", kit() / "logic_built", "--links", f"{crate}="]
    words += ["--crate-type", "staticlib", "--toolchain", kit() / "toolchain", "--backend", "llvm", "-o", to]
    did(*words, cwd=repository / "crates" / crate)
