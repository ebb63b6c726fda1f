"""Comments of the sources, set again to a width."""
import textwrap

WIDTH = 120


def filled(about, width):
    """Lines of at most this width. Paragraphs are parted by an empty line; a line with four spaces in front stays as it is."""
    lines, words = [], []

    def flush():
        lines.extend(textwrap.wrap(" ".join(words), width, break_long_words=False, break_on_hyphens=False))
        words.clear()

    for line in about:
        if line.startswith("    ") or not line:
            flush()
            lines.append(line)
        else:
            words.append(line)
    flush()
    return lines


def commented(about, indent=""):
    """A comment of C; none where nothing is said."""
    if not about:
        return []
    lines = filled(about, WIDTH - len(indent) - 6)
    lines = [lines[0], *(f" * {line}".rstrip() for line in lines[1:])]
    end = [" */"] if about[-1].startswith("    ") else []
    if not end:
        lines[-1] += " */"
    return [indent + line for line in ["/* " + lines[0], *lines[1:], *end]]


def beside(code, about, indent):
    """A line of code with its comment behind it, or above it where the line would be too long."""
    line = f"{indent}{code} /* {' '.join(about)} */"
    if about and len(line) <= WIDTH:
        return [line]
    return [*commented(about, indent), indent + code]


def documented(about, indent="", mark="///"):
    """A comment of Rust's documentation."""
    return [f"{indent}{mark} {line}".rstrip() for line in filled(about, WIDTH - len(indent) - len(mark) - 1)]
