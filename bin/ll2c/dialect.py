"""The dialect of LLVM IR that rattle hands to clang, as text, before any pass ran over it: its types, constants and instructions.

What isn't in it is refused by `stop`: an instruction that nobody has looked at is never written as C."""
import re
import sys
from dataclasses import dataclass, field

INTEGERS = ("i1", "i8", "i16", "i32", "i64", "i128")
SIZES = {"i1": 1, "i8": 1, "i16": 2, "i32": 4, "i64": 8, "i128": 16, "ptr": 8}
BINARY = ("add", "sub", "mul", "and", "or", "xor", "shl", "lshr", "ashr", "udiv", "urem")
BLOCK = "<16 x i8>"
MASK = "<16 x i1>"
LANES = 16


def stop(text):
    sys.exit(f"ll2c: {text}")


def matched(pattern, text, what="instruction"):
    found = re.fullmatch(pattern, text)
    if not found:
        stop(f"{what} that isn't known: {text}")
    return found


# ---- Types -------------------------------------------------------------------------------------------------------------------

def split_top(text):
    """The parts of a text between its commas, without those inside brackets and quotes."""
    parts, depth, at, quoted = [], 0, 0, False
    for i, c in enumerate(text):
        if c == '"':
            quoted = not quoted
        elif not quoted:
            depth += (c in "([{<") - (c in ")]}>")
            if c == "," and depth == 0:
                parts.append(text[at:i].strip())
                at = i + 1
    last = text[at:].strip()
    return parts + [last] if last else parts


def take_type(text):
    """The type that a text begins with, and the rest of the text."""
    text = text.lstrip()
    scalar = re.match(r"(i1|i8|i16|i32|i64|i128|ptr|void)\b", text)
    if scalar:
        return scalar[1], text[scalar.end():].lstrip()
    depth = 0
    for i, c in enumerate(text if text[:1] in ("<", "[", "{") else ""):
        depth += (c in "<[{") - (c in ">]}")
        if depth == 0:
            return text[:i + 1], text[i + 1:].lstrip()
    stop(f"type that isn't known: {text}")


def members_of(kind):
    """The types of the members of an array, a struct or a vector."""
    counted = re.fullmatch(r"[<\[](\d+) x (.*)[>\]]", kind)
    if counted:
        return [counted[2]] * int(counted[1])
    if kind.startswith("{"):
        return split_top(kind[1:-1])
    return stop(f"type that has no members: {kind}")


def offsets_of(kind):
    """Where the members lie in memory. In a struct each is at a multiple of its own size, as LLVM lays it out for 64 bits."""
    at, found = 0, []
    for member in members_of(kind):
        at += -at % size_of(member) if kind.startswith("{") else 0
        found.append(at)
        at += size_of(member)
    return found


def size_of(kind):
    if kind in SIZES:
        return SIZES[kind]
    members = members_of(kind)
    if not kind.startswith("{"):
        return sum(map(size_of, members))
    if any(member not in SIZES for member in members):
        stop(f"layout of {kind}")
    size = offsets_of(kind)[-1] + size_of(members[-1])
    return size + -size % max(map(size_of, members))


def pieces_of(kind):
    """The scalars that a load or a store of this type touches: (offset, type). A block of 16 bytes is one of them."""
    if kind in SIZES or kind == BLOCK:
        return [(0, kind)]
    return [(at + inner, scalar) for at, member in zip(offsets_of(kind), members_of(kind)) for inner, scalar in pieces_of(member)]


# ---- Instructions ------------------------------------------------------------------------------------------------------------

@dataclass
class Instruction:
    """An instruction: its result's name and type, if it has one, its operands as (type, text), and what else it says."""
    op: str
    result: str = ""
    kind: str = "void"
    operands: list = field(default_factory=list)
    detail: object = None

    def names(self):
        """The names of values that it reads."""
        arms = [text for _, text in self.detail] if self.op == "phi" else []
        return [text for text in [*(text for _, text in self.operands), *arms] if text.startswith("%")]


@dataclass
class Block:
    label: str
    body: list = field(default_factory=list)

    def targets(self):
        """The labels that its last instruction may go to."""
        last = self.body[-1]
        if last.op == "br":
            return list(last.detail)
        if last.op == "switch":
            return [last.detail[0], *(label for _, label in last.detail[1])]
        return []


@dataclass
class Function:
    """A function of the module; and of its locals the variables of C, with their pieces, the slots, with their sizes, and which of
    the others lies where in which slot."""
    name: str
    result: str
    params: list
    blocks: list
    is_export: bool
    slots: dict = field(default_factory=dict)
    shared: dict = field(default_factory=dict)
    variables: dict = field(default_factory=dict)


def operand(text):
    """The type and the text of an operand, without what is promised of it."""
    kind, rest = take_type(text)
    promise = r"(?:(?:noundef|zeroext|nonnull|immarg|captures\(none\)|align \d+) )*"
    return kind, re.sub("^" + promise, "", rest)


def pointer(text):
    return matched(r"(ptr \S+), align \d+", text)[1]


def call_of(result, rest):
    rest = re.sub(r"^((noundef|zeroext) )+", "", rest)
    kind, rest = take_type(rest)
    found = matched(r'@("[^"]*"|[\w.]+)\((.*)\)', rest, "call")
    return Instruction("call", result, kind, [operand(it) for it in split_top(found[2])], found[1].strip('"'))


def shuffle_of(result, rest):
    a, b, mask = split_top(rest)
    kind, lanes = take_type(mask)
    if lanes == "zeroinitializer":
        numbers = [0] * LANES
    elif lanes.startswith("splat"):
        numbers = [int(matched(r"splat \(i32 (\d+)\)", lanes)[1])] * LANES
    else:
        numbers = [int(matched(r"i32 (\d+)", it)[1]) for it in split_top(lanes[1:-1])]
    if kind != "<16 x i32>" or operand(a)[0] != BLOCK:
        stop(f"shuffle that isn't known: {rest}")
    return Instruction("shufflevector", result, BLOCK, [operand(a), operand(b)], numbers)


def phi_of(result, rest):
    kind, arms = take_type(rest)
    pairs = [it.strip()[1:-1].rsplit(",", 1) for it in split_top(arms)]
    return Instruction("phi", result, kind, [], [(label.strip()[1:], value.strip()) for value, label in pairs])


def branch_of(rest):
    plain = re.fullmatch(r"label %([\w.]+)", rest)
    if plain:
        return Instruction("br", detail=[plain[1]])
    found = matched(r"i1 (\S+), label %([\w.]+), label %([\w.]+)", rest, "branch")
    return Instruction("br", operands=[("i1", found[1])], detail=[found[2], found[3]])


def switch_of(rest):
    found = matched(r"(i\d+) (\S+), label %([\w.]+) \[(.*)\]", rest, "switch")
    arms = re.findall(rf"{found[1]} (-?\d+|true|false), label %([\w.]+)", found[4])
    if len(arms) != found[4].count("label"):
        stop(f"switch that isn't known: {rest}")
    return Instruction("switch", operands=[(found[1], found[2])], detail=(found[3], arms))


def arithmetic_of(op, result, rest):
    kind, pair = take_type(re.sub(r"^((nuw|nsw|exact|disjoint) )+", "", rest))
    a, b = split_top(pair)
    return Instruction(op, result, kind, [(kind, a), (kind, b)])


def comparison_of(result, rest):
    predicate, rest = rest.split(" ", 1)
    kind, pair = take_type(rest)
    a, b = split_top(pair)
    return Instruction("icmp", result, MASK if kind == BLOCK else "i1", [(kind, a), (kind, b)], predicate)


def cast_of(op, result, rest):
    source, target = re.sub(r"^((nneg|nuw|nsw) )+", "", rest).rsplit(" to ", 1)
    return Instruction(op, result, target, [operand(source)])


def with_result(op, result, rest):
    """An instruction that has a result."""
    if op == "alloca":
        found = matched(r"(.*), align \d+", rest)
        return Instruction(op, result, "ptr", [], size_of(found[1]))
    if op == "load":
        kind, rest = take_type(rest)
        return Instruction(op, result, kind, [operand(pointer(rest[2:]))])
    if op == "getelementptr":
        found = matched(r"(?:(?:inbounds|nusw|nuw) )*i8, (ptr \S+), (i64 \S+)", rest)
        return Instruction(op, result, "ptr", [operand(found[1]), operand(found[2])])
    if op in ("extractvalue", "insertvalue"):
        *operands, index = split_top(rest)
        operands = [operand(it) for it in operands]
        kind = operands[0][0] if op == "insertvalue" else members_of(operands[0][0])[int(index)]
        return Instruction(op, result, kind, operands, int(index))
    if op in ("extractelement", "insertelement"):
        *operands, index = split_top(rest)
        operands = [operand(it) for it in operands]
        if operands[0][0] != BLOCK:
            stop(f"vector that isn't known: {rest}")
        return Instruction(op, result, BLOCK if op == "insertelement" else "i8", operands, int(operand(index)[1]))
    if op == "select":
        operands = [operand(it) for it in split_top(rest)]
        return Instruction(op, result, operands[1][0], operands)
    if op == "freeze":
        return Instruction(op, result, operand(rest)[0], [operand(rest)])
    known = {"icmp": comparison_of, "phi": phi_of, "shufflevector": shuffle_of, "call": call_of}
    if op in known:
        return known[op](result, rest)
    if op in BINARY:
        return arithmetic_of(op, result, rest)
    if op in ("zext", "sext", "trunc", "ptrtoaddr"):
        return cast_of(op, result, rest)
    return stop(f"instruction that isn't known: {op} {rest}")


def instruction_of(line):
    line = re.sub(r"(, !(noundef|range|nonnull|align) !\d+)+$", "", line)
    line = re.sub(r"\) #\d+$", ")", line)
    found = re.fullmatch(r"(%[ar]\d+) = (\w+) (.*)", line)
    if found:
        return with_result(found[2], found[1], found[3])
    op, _, rest = line.partition(" ")
    if op == "store":
        *value, place, align = split_top(rest)
        return Instruction(op, operands=[operand(", ".join(value)), operand(pointer(f"{place}, {align}"))])
    if op == "ret":
        return Instruction(op, operands=[] if rest == "void" else [operand(rest)])
    known = {"br": branch_of, "switch": switch_of, "unreachable": lambda rest: Instruction("unreachable")}
    if op in known:
        return known[op](rest)
    return call_of("", rest) if op == "call" else stop(f"instruction that isn't known: {line}")


# ---- The module --------------------------------------------------------------------------------------------------------------

def joined(lines):
    """The lines, a switch with all its cases on one."""
    found = []
    for line in lines:
        if found and found[-1].lstrip().startswith("switch ") and not found[-1].endswith("]"):
            found[-1] += " " + line.strip()
        else:
            found.append(line)
    return found


def function_of(head, lines):
    found = matched(r'define (internal )?(?:noundef )?(?:zeroext )?(.*?) @("[^"]*"|[\w.]+)\((.*)\)(?: #\d+)? \{', head, "function")
    params, blocks = [operand(it) for it in split_top(found[4])], []
    if any(kind not in SIZES for kind, _ in params):
        stop(f"parameters that aren't known: {head}")
    for line in joined(lines):
        label = re.match(r"([a-z]+(?:\.\d+)?):( +;.*)?$", line)
        if label:
            blocks.append(Block(label[1]))
        elif line.strip():
            blocks[-1].body.append(instruction_of(line.strip()))
    function = Function(found[3].strip('"'), found[2], params, blocks, not found[1])
    reached, left = set(), [blocks[0].label]
    by_label = {block.label: block for block in blocks}
    while left:
        label = left.pop()
        if label not in reached:
            reached.add(label)
            left += by_label[label].targets()
    function.blocks = [block for block in blocks if block.label in reached]
    return function


def constant_of(line):
    """The name and the bytes of a constant."""
    found = matched(r'@("[^"]*"|[\w.]+) = (?:private |internal )?(?:unnamed_addr )?constant (.*?)(?:, align \d+)?', line, "global")
    kind, text = take_type(found[2])
    if text == "zeroinitializer":
        return found[1], [0] * size_of(kind)
    if not kind.endswith(" x i8]") or not text.startswith('c"'):
        stop(f"constant that isn't known: {line}")
    raw = [int(code, 16) if code else ord(char) for code, char in re.findall(r"\\([0-9A-F]{2})|\\?(.)", text[2:-1])]
    if len(raw) != size_of(kind):
        stop(f"constant of another length: {line}")
    return found[1], raw


def module_of(text):
    """The functions and the constants of a module."""
    lines, functions, constants, at = text.split("\n"), [], {}, 0
    while at < len(lines):
        line = lines[at]
        if line.startswith("@"):
            name, raw = constant_of(line)
            constants[name] = raw
        elif line.startswith("define "):
            end = lines.index("}", at)
            functions.append(function_of(line, lines[at + 1:end]))
            at = end
        elif not re.match(r"$|;|source_filename|target |declare |attributes |!", line):
            stop(f"line that isn't known: {line}")
        at += 1
    return functions, constants
