"""The header, and a source that asserts what is said of its structs and numbers."""
from .model import Lent, Number
from .prose import WIDTH, beside, commented

MADE = "Made by tools/faces.py from the comments and declarations of crates/{crate}."
INT_MAX = 2**31 - 1


def literal(value):
    """A number as C has it: one that no int holds is 64 bits wide."""
    return str(value) if value <= INT_MAX else f"UINT64_C({value})"


def opened(group):
    """The line that an enumeration begins with. One that a call takes has its type in C++, where a cast to it then gives any number; C has no such form."""
    if not group.name:
        return ["enum {"]
    front = f"typedef enum {group.name}"
    if not group.type:
        return [*commented(group.about), front + " {"]
    return [*commented(group.about), "#ifdef __cplusplus", f"{front} : {Number(group.type.rust).c} {{", "#else", front + " {", "#endif"]


def constants(interface, groups):
    """Enumerations; a number that is too large for one is a macro."""
    lines = []
    for group in groups:
        front = interface.prefix.upper() + "_"
        small = [held for held in group if held.value <= INT_MAX]
        if small:
            lines += opened(group)
            for held in small:
                lines += beside(f"{front}{held.name} = {held.value},", held.about, "    ")
            lines += [f"}} {group.name};" if group.name else "};", ""]
        for held in group:
            if held not in small:
                lines += [*commented(held.about), f"#define {front}{held.name} {literal(held.value)}", ""]
    return lines


def record(held):
    lines = [*commented(held.about), "typedef struct {"]
    for member in held.members:
        lines += beside(f"{member.type.c} {member.name}{member.type.behind};", member.about, "    ")
    return [*lines, f"}} {held.c};", ""]


def parameter(name, type):
    """The declarations that a parameter comes to."""
    if not isinstance(type, Lent):
        return [f"{type.c} {name}"]
    front = "" if type.written else "const "
    pointer = f"{front}{type.item.c} *{name}"
    if type.item.behind:
        pointer = f"{front}{type.item.c} (*{name}){type.item.behind}"
    return [pointer, f"size_t {type.length}"] if type.length else [pointer]


def call(held):
    front = f"{held.gives.c if held.gives else 'void'} {held.name}("
    words = [word for name, type in held.takes for word in parameter(name, type)] or ["void"]
    lines, here = [], front
    for i, word in enumerate(words):
        word += ", " if i + 1 < len(words) else ");"
        if here != front and len(here) + len(word.rstrip()) > WIDTH:
            lines.append(here.rstrip())
            here = " " * len(front)
        here += word
    return [*commented(held.about), *lines, here]


def section(held):
    lines = []
    if held.about:
        first = [f"---- {held.about[0]}", *held.about[1:]]
        lines += [*commented(first), ""]
    for one in held.records:
        lines += record(one)
    for i, one in enumerate(held.calls):
        if i and (one.about or held.calls[i - 1].about):
            lines.append("")
        lines += call(one)
    return [*lines, ""]


def texts(interface):
    """What each answer number says, as the comment in the sources has it."""
    front = interface.prefix.upper() + "_"
    lines = [*commented(["The meaning of an answer, as a sentence without its full stop."])]
    lines += [f"static inline const char *{interface.prefix}_answer_text(uint64_t answer) {{", "    switch (answer) {"]
    for held in interface.constants[0]:
        said = " ".join(held.about).split(". ")[0].rstrip(".").replace("`", "")
        lines += [f"    case {front}{held.name}:", f'        return "{said}";']
    return [*lines, "    default:", '        return "An unknown number";', "    }", "}", ""]


def header(interface, crate, behind=""):
    """`behind` is C that stands behind the calls."""
    guard = f"{interface.prefix.upper()}_H"
    head = [f"{interface.prefix}.h: {interface.about[0]}", *interface.about[1:], "", MADE.format(crate=crate)]
    lines = [*commented(head), f"#ifndef {guard}", f"#define {guard}", ""]
    lines += ["#include <stdbool.h>", "#include <stddef.h>", "#include <stdint.h>", ""]
    lines += ["#ifdef __cplusplus", 'extern "C" {', "#endif", ""]
    lines += constants(interface, interface.constants)
    for held in interface.sections:
        lines += section(held)
    if behind:
        lines += [*texts(interface), behind]
    lines += ["#ifdef __cplusplus", "}", "#endif", "", "#endif"]
    return "\n".join(lines) + "\n"


def asserted(held):
    """What is said of a struct, and of each field that it stands where it is said to, as what it is said to be."""
    lines = [f"HOLDS(sizeof({held.c}) == {held.size} && ALIGN({held.c}) == {held.align});"]
    for member in held.members:
        pointer = f"{member.type.c} (*){member.type.behind}" if member.type.behind else f"{member.type.c} *"
        lines.append(f"FIELD({held.c}, {member.name}, {member.at}, {member.type.size}, {pointer});")
    return lines


LAYOUTS = """\
/* Holds the headers to the sources: size and alignment of every struct, offset, size and type of every field, every number, and the size and sign of a choice.
 *
 * Made by tools/faces.py. Nothing here is run: it is compiled as C11 and as C++17 (tools/calls.py). */
#include "vault.h"
#include "records.h"

#ifdef __cplusplus
#include <type_traits>
#define HOLDS(fact) static_assert(fact, #fact)
#define ALIGN(name) alignof(name)
#define IS(name, field, pointer) std::is_same<decltype(&((name *)0)->field), pointer>::value
#else
#define HOLDS(fact) _Static_assert(fact, #fact)
#define ALIGN(name) _Alignof(name)
#define IS(name, field, pointer) _Generic(&((name *)0)->field, pointer: 1, default: 0)
#endif
#define FIELD(name, field, at, size, pointer) \\
    HOLDS(offsetof(name, field) == at && sizeof(((name *)0)->field) == size && IS(name, field, pointer))

"""


def layouts(interfaces):
    lines = [LAYOUTS]
    for interface in interfaces:
        front = interface.prefix.upper() + "_"
        for group in interface.constants:
            lines += [f"HOLDS({front}{held.name} == {literal(held.value)});" for held in group]
            if group.type:
                lines.append(f"HOLDS(sizeof({group.name}) == {group.type.size} && ({group.name})-1 > 0);")
        for part in interface.sections:
            for held in part.records:
                lines += ["", *asserted(held)]
        lines.append("")
    return "\n".join(lines)
