#!/usr/bin/env python3
"""c_assertions: prints a file of C11 that compiles only if the headers say what the crate rathonsi_c has: the number of each status, the
size of each struct, the place and type of each field, and the prototype of each export. What C can't say, the names of parameters and
the list of statuses, is compared here: if one differs, this says which, and ends with 1. The sources and the headers are read; nothing is
built.
"""
import glob
import os
import re
import sys

TOP = os.path.dirname(os.path.dirname(os.path.realpath(__file__)))
CRATE = os.path.join(TOP, "crates", "rathonsi_c", "src")
NUMBERS = {"u8": ("uint8_t", 1), "u16": ("uint16_t", 2), "u32": ("uint32_t", 4), "i32": ("int32_t", 4), "u64": ("uint64_t", 8), "usize": ("size_t", 0)}
# names that the headers have otherwise: of structs, of fields, of parameters, and of what says how long a slice is
STRUCTS = {"Plan": "RathonsiPlan", "Write": "RathonsiWrite", "FlashNumbers": "RathonsiFlash", "FlashOperation": "RathonsiFlashOperation"}
FIELDS = {("Write", "size"): "length", ("RathonsiInput", "size"): "length"}
PARAMETERS = {"id": "data_id"}
LENGTHS = {"routes": "count", "authkey": "key_length"}
# structs of which C knows the size alone, and those within it, of which it knows nothing
OPAQUE = {"FlashNumbers"}
WITHIN = {"StepNumbers", "BestNumbers", "PutNumbers"}
# a slice of cells
CELL = ("[[u8; 32]]", "RathonsiCell", 32)
# the sources of structs that other crates have
OTHERS = ("store_plan/src/planning.rt", "flash_calls/src/numbers.rt", "flash_calls/src/operations.rt")
# three fields of one type, which are one array for C
ARRAYS = {"Plan": ("writes", "Write", 3)}


def read(path):
    with open(path, encoding="utf-8") as it:
        return it.read()


def code_of(path):
    """A source without its comments, its ghost lines and its test code."""
    text = re.sub(r"//[^\n]*", "", read(path))
    return re.sub(r"^\s*ghost use [^;]*;", "", text, flags=re.M)


def laws():
    """The numbers of the statuses, as the law has them."""
    text = read(os.path.join(CRATE, "step_laws.rt"))
    body = text[text.index("pub fn each_status_has_its_number"):]
    return {name: int(number) for name, number in re.findall(r"\{ (\w+) ≡ pos (\d+) \}", body)}


def constants():
    return {name: int(value, 0) for name, value in re.findall(r"^pub const (\w+): i32 = (\w+);", read(os.path.join(CRATE, "lib.rt")), re.M)}


def structs():
    """The structs that cross to C: name, its fields with their types."""
    paths = [*sorted(glob.glob(os.path.join(CRATE, "*.rt"))), *(os.path.join(TOP, "crates", it) for it in OTHERS)]
    found = {}
    for path in paths:
        for name, body in re.findall(r"#\[repr\(C\)\]\s*pub struct (\w+) \{(.*?)\}", code_of(path), re.S):
            found[name] = re.findall(r"(\w+):\s*([^,]+?)\s*(?:,|$)", body.strip(), re.M)
    return found


def named(struct):
    return STRUCTS.get(struct, struct)


def layout(kind, known):
    """What a type is for C: its element, how many of them, its size and its alignment."""
    if kind in NUMBERS:
        return NUMBERS[kind][0], 0, NUMBERS[kind][1], NUMBERS[kind][1]
    inner = re.fullmatch(r"\[(.*);\s*(\d+)\]", kind)
    if inner:
        element, count, size, alignment = layout(inner[1], known)
        times = int(inner[2])
        return element, max(count, 1) * times, size * times, alignment
    size, alignment, _ = places(kind, known)
    return named(kind), 0, size, alignment


def places(struct, known):
    """The size and the alignment of a struct, and its fields with their places."""
    at, most, found = 0, 1, []
    for field, kind in known[struct]:
        element, count, size, alignment = layout(kind, known)
        at += -at % alignment
        most = max(most, alignment)
        found.append((field, element, count, at, size))
        at += size
    return at + -at % most, most, found


def struct_lines(struct, known):
    name, (size, _, fields) = named(struct), places(struct, known)
    if struct in WITHIN:
        return
    yield f"_Static_assert(sizeof({name}) == {size}, \"the size of {name}\");"
    if struct in OPAQUE:
        return
    if struct in ARRAYS:
        field, element, count = ARRAYS[struct]
        fields = [(field, named(element), count, 0, size)]
    for field, element, count, at, bytes_ in fields:
        member = f"(({name} *)0)->{FIELDS.get((struct, field), field)}"
        one = f"{member}[0]" if count else member
        yield f"_Static_assert(offsetof({name}, {FIELDS.get((struct, field), field)}) == {at}, \"{field} of {name}\");"
        yield f"_Static_assert(sizeof({member}) == {bytes_}, \"{field} of {name}\");"
        yield f"_Static_assert(_Generic({one}, {element}: 1, default: 0), \"{field} of {name}\");"


def exports():
    """The exports: name, its parameters with their types, its result."""
    found = {}
    for path in sorted(glob.glob(os.path.join(CRATE, "*.rt"))):
        for name, params, result in re.findall(r'pub extern "C" fn (\w+)\((.*?)\)\s*->\s*(\w+)', code_of(path), re.S):
            found[name] = ([tuple(part.strip() for part in it.split(":", 1)) for it in re.split(r",(?![^\[]*\])", params) if it.strip()], result)
    return found


def parameters(params, known):
    """The parameters for C: what stands before a name, the name, and what stands after it."""
    for name, kind in params:
        name = PARAMETERS.get(name, name)
        pointer = re.fullmatch(r"&(mut )?(.*)", kind, re.S)
        if not pointer:
            yield NUMBERS[kind][0] + " ", name, ""
            continue
        const, inner = "" if pointer[1] else "const ", pointer[2].strip()
        if inner == CELL[0]:
            yield f"{const}{CELL[1]} *", name, ""
            yield "size_t ", f"{name}_length", ""
            continue
        part = re.fullmatch(r"\[([^;]*)\]", inner)
        element, count, _, _ = layout(part[1] if part else inner, known)
        if count:
            yield f"{const}{element} ", name, f"[{count}]"
            continue
        yield f"{const}{element} *", name, ""
        if part:
            yield "size_t ", LENGTHS.get(name, f"{name}_length"), ""


def headers():
    """The prototypes of the headers: name, the names of its parameters."""
    whole = "".join(read(os.path.join(TOP, "include", name)) for name in ("rathonsi.h", "rathonsi_store.h", "rathonsi_freshness.h", "rathonsi_flash.h"))
    whole = re.sub(r"^#.*?[^\\]$", "", re.sub(r"/\*.*?\*/", " ", whole, flags=re.S), flags=re.M | re.S)
    return {name: [re.sub(r"\[.*\]", "", it).split()[-1].lstrip("*") for it in params.split(",") if it.strip() != "void"]
            for name, params in re.findall(r"\w+\s+(rathonsi_\w+)\(([^)]*)\)\s*;", whole)}


def differences(found, known):
    """What differs and C doesn't see."""
    if laws() != constants():
        yield f"the law of the statuses has {laws()}, and the crate {constants()}"
    told = headers()
    for name in sorted({*found, *told}):
        if name not in told or name not in found:
            yield f"{name} is only in {'the crate' if name in found else 'a header'}"
            continue
        wanted = [it for _, it, _ in parameters(found[name][0], known)]
        if wanted != told[name]:
            yield f"{name}: the header has {', '.join(told[name])}, and the crate {', '.join(wanted)}"


def main():
    known, found = structs(), exports()
    wrong = list(differences(found, known))
    for line in wrong:
        print(line, file=sys.stderr)
    if wrong:
        sys.exit(1)
    lines = ["/* checks/c_assertions.py wrote this from the crate rathonsi_c. */", "#include <stddef.h>", '#include "rathonsi_flash.h"', '#include "rathonsi_freshness.h"', ""]
    lines += [f'_Static_assert(RATHONSI_{name} == {number}, "{name}");' for name, number in constants().items()]
    lines += ["#define COUNTED(name, number) + (RATHONSI_##name == (number))",
              f'_Static_assert(0 RATHONSI_STATUSES(COUNTED) == {len(constants())}, "RATHONSI_STATUSES");']
    lines.append(f'_Static_assert(sizeof({CELL[1]}) == {CELL[2]}, "the size of {CELL[1]}");')
    lines += [line for struct in known for line in struct_lines(struct, known)]
    for name, (params, result) in found.items():
        words = ", ".join(f"{before}{word}{after}" for before, word, after in parameters(params, known))
        lines.append(f"{NUMBERS[result][0] if result in NUMBERS else named(result)} {name}({words or 'void'});")
    print("\n".join(lines))


main()
