"""ll2c MODULE.ll HEADER.h.. [--head TEXT] [--cipher CIPHER]: writes the module that rattle hands to clang, as text, as one file of C99.

The C asks nothing of the compiler but C99 and pointers of at most 64 bits: no number of 128 bits, no vector, no aligned address, no
number with a sign, no library but memcpy, memmove and memset. It works in either order of bytes. Each instruction becomes one
statement. An instruction that isn't known is refused, and so is a place that is read both as a pointer and as a number."""
import argparse
import os
import re
import sys

import exports
import lowering
from depths import kept_apart
from dialect import module_of, stop
from places import ZERO, is_call
from pointers import Pointers
from sharing import share

HERE = os.path.dirname(os.path.abspath(__file__))
# the ciphers of she_aes, in the order of its enum, and the function that says which one a build takes
CIPHERS = ("shuffles", "words", "tables")
CHOSEN = "she_aes::choice::chosen"


def read(path):
    with open(path, encoding="utf-8") as it:
        return it.read()


def names_of(functions):
    """A name in C for each function: the end of its path, and a number."""
    found = {}
    for function in functions:
        plain = re.sub(r"\W+", "_", re.sub(r"<.*", "", function.name)).strip("_")
        found[function.name] = f"f{len(found)}_{'_'.join(plain.split('_')[-4:])}"
    return found


def check_pointers(functions):
    count, bad = Pointers(functions).misread()
    print(f"ll2c: {count} places of pointers, {len(bad)} of them also read as numbers", file=sys.stderr)
    if bad:
        stop("\n".join(bad))


def chosen(functions):
    """The function that says which cipher is taken. It takes nothing, and gives the number of one."""
    found = next((it for it in functions if it.name == CHOSEN), None) or stop(f"the module has no {CHOSEN}")
    body = [it for block in found.blocks for it in block.body]
    given = [it.operands[0] for it in body if it.op == "store"]
    if found.params or found.result != "i8" or given not in [[("i8", str(i))] for i in range(len(CIPHERS))] \
            or not all(it.op in ("alloca", "store", "load", "br", "ret") or is_call(it, ZERO) for it in body):
        stop(f"{CHOSEN} doesn't give the number of a cipher")
    return found


def choice(cipher):
    """The words of the preprocessor that choose a cipher."""
    return ["/* The cipher: by shuffles of bytes (0), by words of 32 bits (1), which encrypts without a table, or by tables (2). Each gives the",
            " * same. */",
            "#ifndef RATHONSI_CIPHER", f"#define RATHONSI_CIPHER {CIPHERS.index(cipher)}", "#endif",
            f"#if RATHONSI_CIPHER < 0 || RATHONSI_CIPHER >= {len(CIPHERS)}", '#error "RATHONSI_CIPHER is 0, 1 or 2"', "#endif", ""]


def table(name, raw):
    rows = [", ".join(map(str, raw[at:at + 24])) for at in range(0, len(raw), 24)]
    return [f"static const uint8_t {name}[{max(len(raw), 1)}] = {{", *(f"    {row}," for row in rows or ["0"]), "};"]


def main():
    parser = argparse.ArgumentParser(prog="ll2c", description=__doc__, formatter_class=argparse.RawDescriptionHelpFormatter)
    parser.add_argument("--head", default="", help="the first comment of the C")
    parser.add_argument("--cipher", choices=CIPHERS, default="words", help="the cipher, if the compiler of the C isn't told another")
    parser.add_argument("--apart", action="store_true", help="gives each local a place of its own")
    parser.add_argument("module")
    parser.add_argument("headers", nargs="+")
    words = parser.parse_args()
    functions, constants = module_of(read(words.module))
    check_pointers(functions)
    at = functions.index(chosen(functions))
    share(functions, words.apart)
    names, globals_ = names_of(functions), {name: f"g{i}" for i, name in enumerate(constants)}
    bodies = [lowering.Lowering(function, names, globals_) for function in functions]
    written = [body.write() for body in bodies]
    apart = kept_apart(functions, {function.name: body.size() for function, body in zip(functions, bodies)})
    heads = {it.name: "APART" if it.name in apart else "static" for it in functions}
    written[at] = [bodies[at].prototype(), "{", "    return RATHONSI_CIPHER;", "}"]
    structs, known = exports.read_headers([read(path) for path in words.headers])
    ends = []
    for function in functions:
        if function.is_export:
            if function.name not in known:
                stop(f"{function.name} is in no header")
            ends += ["", *exports.export(function, names[function.name], known.pop(function.name), structs)]
    if known:
        stop(f"the module has no {', '.join(known)}")
    head = words.head.strip("\n")
    lines = [f"/*\n{head}\n */" if head else "", *(f'#include "{os.path.basename(path)}"' for path in words.headers),
             *choice(words.cipher), read(f"{HERE}/fixed.c"), "/* ---- The module " + "-" * 109 + " */", "",
             *(f"typedef struct {name} {{ {text} }} {name};" for name, text in lowering.structs.values()), "",
             *exports.layouts(structs), ""]
    for name, raw in constants.items():
        lines += table(globals_[name], raw)
    lines += [f"{heads[body.function.name]} {body.prototype()};" for body in bodies]
    for function, text in zip(functions, written):
        lines += ["", f"/* {function.name.replace('*/', '* /')} */", f"{heads[function.name]} {text[0]}", *text[1:]]
    print("\n".join([*lines, *ends]))


main()
