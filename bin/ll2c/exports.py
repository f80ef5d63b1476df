"""The exports with the prototypes of the headers: what lies between a caller's structs and the module's memory."""
import re

from dialect import members_of, stop
from lowering import C_TYPES, c_type, declared

WIDTHS = {"uint8_t": 1, "uint16_t": 2, "uint32_t": 4, "int32_t": 4, "uint64_t": 8}
VERDICT = ("[2 x i64]", "{ i64, i64 }")


class Struct:
    """A struct of the headers, as rattle lays it out: its size, its alignment, its fields (name, offset), and its numbers of several
    bytes (offset, width)."""

    def __init__(self, body, known):
        self.fields, self.numbers, self.alignment, at = [], [], 1, 0
        for text in filter(None, (" ".join(it.split()) for it in body.split(";"))):
            kind, name, count = re.fullmatch(r"(\w+) (\w+)(?:\[(\d+)\])?", text).groups()
            size, alignment, numbers = (WIDTHS[kind], WIDTHS[kind], [(0, WIDTHS[kind])]) if kind in WIDTHS else known[kind].parts()
            at += -at % alignment
            self.alignment = max(self.alignment, alignment)
            self.fields.append((name, at))
            for _ in range(int(count or 1)):
                self.numbers += [(at + inner, width) for inner, width in numbers if width > 1]
                at += size
        self.size = at + -at % self.alignment

    def parts(self):
        return self.size, self.alignment, self.numbers


def read_headers(texts):
    """The structs and the functions of the headers: name, (result, parameters)."""
    whole = "".join(re.sub(r"^#.*$", "", re.sub(r"/\*.*?\*/", " ", text, flags=re.S), flags=re.M) for text in texts)
    structs, functions = {}, {}
    for name, body in re.findall(r"typedef struct (\w+) \{(.*?)\} \w+;", whole, flags=re.S):
        structs[name] = Struct(body, structs)
    for result, name, params in re.findall(r"\b(u?int32_t|\w+Verdict)\s+(\w+)\(([^)]*)\)\s*;", whole):
        functions[name] = (result, [] if params.strip() == "void" else [" ".join(it.split()) for it in params.split(",")])
    return structs, functions


def layouts(structs):
    """That the compiler lays out each struct as rattle does, else it doesn't compile; and how its numbers are turned round."""
    lines = []
    for name, struct in structs.items():
        lines.append(f"typedef char size_of_{name}[sizeof({name}) == {struct.size} ? 1 : -1];")
        lines += [f"typedef char {field}_of_{name}[offsetof({name}, {field}) == {at} ? 1 : -1];" for field, at in struct.fields]
    lines += ["", "#if RATHONSI_BIG_ENDIAN", "/* The numbers of a struct with their bytes in the other order. */",
              "INLINE void turn(uint8_t *p, unsigned n) {", "    for (unsigned i = 0; i < n / 2u; i++) {",
              "        uint8_t b = p[i];", "        p[i] = p[n - 1u - i];", "        p[n - 1u - i] = b;", "    }", "}"]
    for name, struct in structs.items():
        if struct.numbers:
            turns = " ".join(f"turn(p + {at}, {width}u);" for at, width in struct.numbers)
            lines.append(f"INLINE void turn_{name}(uint8_t *p) {{ {turns} }}")
    return [*lines, "#endif"]


def passed(kind, text, after, structs):
    """A parameter, and the text of the one after it: what is passed for it, and the lines before and after the call. A pointer to a
    number of several bytes is turned round like a struct; structs with a count are turned round where they are."""
    name = re.sub(r"\[.*\]", "", text).split()[-1].lstrip("*")
    struct = text.replace("const ", "").split()[0].rstrip("*")
    if kind != "ptr":
        return f"({C_TYPES[kind]}){name}", [], []
    if WIDTHS.get(struct, 1) > 1:
        turned = ["#if RATHONSI_BIG_ENDIAN", f"    turn((uint8_t *){name}, {WIDTHS[struct]}u);", "#endif"]
        return f"(uint8_t *){name}", turned, turned
    if struct not in structs or not structs[struct].numbers:
        return f"(uint8_t *){name}", [], []
    if after.startswith("size_t "):
        turned = ["#if RATHONSI_BIG_ENDIAN", f"    for (size_t i = 0; i < {after.split()[-1]}; i++) turn_{struct}((uint8_t *)({name} + i));", "#endif"]
        return f"(uint8_t *){name}", turned, turned
    first = ["#if RATHONSI_BIG_ENDIAN", f"    uint8_t of_{name}[sizeof *{name}];", f"    memcpy(of_{name}, {name}, sizeof *{name});",
             f"    turn_{struct}(of_{name});", "#else", f"    uint8_t *const of_{name} = (uint8_t *){name};", "#endif"]
    last = ["#if RATHONSI_BIG_ENDIAN", f"    turn_{struct}(of_{name});", f"    memcpy({name}, of_{name}, sizeof *{name});", "#endif"]
    return f"of_{name}", first, [] if text.startswith("const ") else last


def export(function, called, header, structs):
    """The lines of an export: it widens lengths, and turns structs round where the processor is big-endian."""
    result, params = header
    if len(params) != len(function.params):
        stop(f"{function.name}: the header and the module differ")
    found = [passed(kind, text, after, structs) for (kind, _), text, after in zip(function.params, params, [*params[1:], ""])]
    lines = [f"{result} {function.name}({', '.join(params) or 'void'}) {{", *(line for _, first, _ in found for line in first),
             f"    const {declared(function.result, 'r')} = {called}({', '.join(text for text, _, _ in found)});",
             *(line for _, _, last in found for line in last)]
    if result in ("int32_t", "uint32_t") and function.result == "i32":
        return [*lines, f"    return ({result})r;", "}"]
    if function.result not in VERDICT or len(members_of(function.result)) != 2:
        stop(f"{function.name} returns {c_type(function.result)}")
    return [*lines, f"    {result} verdict;", "    verdict.status = (int32_t)(uint32_t)r.e0;",
            "    verdict.payload_length = (uint32_t)(r.e0 >> 32);", "    verdict.freshness = r.e1;", "    return verdict;", "}"]
