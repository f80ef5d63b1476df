"""Writes a function of the module as C: one statement an instruction, numbers without a sign, memory as bytes."""
import re
from dataclasses import dataclass

from dialect import BLOCK, INTEGERS, LANES, MASK, members_of, offsets_of, size_of, stop
from places import COPIES, ZERO, Places, as_pieces, copied, is_call

C_TYPES = {"i1": "uint8_t", "i8": "uint8_t", "i16": "uint16_t", "i32": "uint32_t", "i64": "uint64_t", "i128": "u128",
           "ptr": "uint8_t *", BLOCK: "block", MASK: "block", "void": "void"}
SIGNS = {"add": "+", "sub": "-", "mul": "*", "and": "&", "or": "|", "xor": "^", "shl": "<<", "lshr": ">>", "udiv": "/", "urem": "%"}
COMPARED = {"eq": "==", "ne": "!=", "ult": "<", "ule": "<=", "ugt": ">", "uge": ">=", "slt": "<", "sle": "<=", "sgt": ">", "sge": ">="}
# what may be written again instead of a variable that has it: a name, a constant, or a pointer and a constant
SIMPLE = re.compile(r"[\w.]+( [+-] \d+)?|(block|u128)_of\([^()]*\)|\(uint8_t \*\)\w+")
LOOK_UP = "llvm.aarch64.neon.tbl1.v16i8"
structs = {}


def c_type(kind):
    """The C type of a value; of a struct or an array, that of a struct of its own."""
    if kind in C_TYPES:
        return C_TYPES[kind]
    if kind not in structs:
        members = members_of(kind)
        name = "of_" + "_".join(members)
        structs[kind] = (name, " ".join(f"{declared(it, f'e{i}')};" for i, it in enumerate(members)))
    return structs[kind][0]


def declared(kind, name):
    text = c_type(kind)
    return f"{text}{name}" if text.endswith("*") else f"{text} {name}"


def suffix(kind):
    return "block" if kind == BLOCK else kind


def constant(kind, text):
    """A constant of this type."""
    if kind == "ptr" and text == "null":
        return "(uint8_t *)0"
    if kind == "i1" and text in ("true", "false", "0", "1"):
        return {"true": "1u", "false": "0u"}.get(text, text + "u")
    if kind in INTEGERS and re.fullmatch(r"-?\d+", text):
        n = int(text) % 2 ** int(kind[1:])
        if kind == "i128":
            return f"u128_of({n >> 64:#x}ull, {n % 2 ** 64:#x}ull)"
        return f"{n}ull" if kind == "i64" else f"{n}u"
    if kind == BLOCK:
        return f"block_of({', '.join(f'{it:#x}u' for it in words(lanes_of(text)))})"
    return zero(kind) if text in ("undef", "poison", "zeroinitializer") else stop(f"constant that isn't known: {kind} {text}")


def lanes_of(text):
    """The bytes of a constant block."""
    if text in ("zeroinitializer", "undef", "poison"):
        return [0] * LANES
    splat = re.fullmatch(r"splat \(i8 (-?\d+)\)", text)
    if splat:
        return [int(splat[1]) % 256] * LANES
    found = re.findall(r"i8 (-?\d+)", text)
    return [int(it) % 256 for it in found] if len(found) == LANES else stop(f"block that isn't known: {text}")


def words(lanes):
    return [sum(it << 8 * i for i, it in enumerate(lanes[at:at + 4])) for at in range(0, LANES, 4)]


def zero(kind):
    if kind in ("i128", BLOCK, MASK):
        return f"{c_type(kind)}_of({'0, 0' if kind == 'i128' else '0, 0, 0, 0'})"
    return "(uint8_t *)0" if kind == "ptr" else constant(kind, "0")


def plus(text, offset):
    """The text of a pointer, so many bytes further."""
    return text if offset == 0 else f"{text} + {offset}" if offset > 0 else f"{text} - {-offset}"


# ---- Operations on texts -----------------------------------------------------------------------------------------------------

def binary(op, kind, a, b):
    if kind == BLOCK:
        known = {"and": "block_and", "or": "block_or", "xor": "block_xor", "add": "block_add"}
        return f"{known[op]}({a}, {b})" if op in known else stop(f"{op} of blocks")
    if kind == "i128":
        known = ("add", "sub", "mul", "and", "or", "xor", "shl", "lshr")
        return f"u128_{op}({a}, {b})" if op in known else stop(f"{op} of 128 bits")
    if op not in SIGNS:
        stop(f"{op} of {kind}")
    # C widens a short number, to one with a sign where it can; the cast keeps it from that
    wide = (lambda text: f"(uint32_t){text}") if kind in ("i1", "i8", "i16") else (lambda text: text)
    whole = f"{wide(a)} {SIGNS[op]} {wide(b)}"
    if kind == "i1":
        return f"(uint8_t)(({whole}) & 1u)"
    return whole if kind in ("i32", "i64") else f"({C_TYPES[kind]})({whole})"


def compared(predicate, kind, a, b):
    if kind == BLOCK:
        if predicate == "slt" and b == constant(BLOCK, "zeroinitializer"):
            return f"block_negative({a})"
        return f"block_ule({a}, {b})" if predicate == "ule" else stop(f"{predicate} of blocks")
    if kind == "i128":
        return f"u128_{predicate}({a}, {b})" if predicate[0] in "uen" else stop(f"{predicate} of 128 bits")
    if kind == "ptr" and predicate not in ("eq", "ne"):
        stop(f"{predicate} of pointers")
    if predicate[0] == "s":
        # both with the sign bit turned over, so that no number of C has a sign
        top = constant(kind, str(2 ** (int(kind[1:]) - 1)))
        a, b = f"({a} ^ {top})", f"({b} ^ {top})"
    return f"(uint8_t)({a} {COMPARED[predicate]} {b})"


def cast(op, source, target, a):
    if op == "zext" and source in INTEGERS:
        return f"u128_of(0, {a})" if target == "i128" else f"({C_TYPES[target]}){a}"
    if op == "trunc" and source in INTEGERS:
        a = f"{a}.lo" if source == "i128" else a
        return f"(uint8_t)({a} & 1u)" if target == "i1" else f"({C_TYPES[target]}){a}"
    if op == "sext" and source == MASK and target == BLOCK:
        return a
    if op == "sext" and source in INTEGERS and "i128" not in (source, target):
        wide = "uint64_t" if target == "i64" else "uint32_t"
        top = f"({wide}){constant(source, str(2 ** (int(source[1:]) - 1)))}"
        return f"({C_TYPES[target]})((({wide}){a} ^ {top}) - {top})"
    if op == "ptrtoaddr" and target == "i64":
        return f"(uint64_t)(uintptr_t)({a})"
    return stop(f"{op} of {source} to {target}")


def shuffled(a, b, lanes):
    """The four words of a shuffle: of each word that gives bytes, those that move by as many places are moved at once."""
    found = []
    for word in range(4):
        moves = {}
        for to, lane in enumerate(lanes[4 * word:4 * word + 4]):
            source = f"{a if lane < LANES else b}.w{lane % LANES // 4}"
            key = (source, to - lane % 4)
            moves[key] = moves.get(key, 0) | 255 << 8 * to
        found.append(" | ".join(moved(source, by, mask) for (source, by), mask in moves.items()))
    return f"block_of({', '.join(found)})"


def moved(source, by, mask):
    text = source if by == 0 else f"({source} << {8 * by})" if by > 0 else f"({source} >> {-8 * by})"
    rest = 2 ** 32 - 1
    left = (rest << 8 * by) & rest if by > 0 else rest >> -8 * by
    return text if mask == left else f"({text} & {mask:#x}u)"


@dataclass
class Statement:
    """A line of C: the name that it defines or sets, what it reads, and whether it may be left out if nobody reads that name."""
    text: str
    name: str = ""
    reads: str = ""
    is_pure: bool = False


class Lowering:
    """A function, on its way to C."""

    def __init__(self, function, names, constants):
        self.function, self.names, self.constants = function, names, constants
        self.places, self.variables = Places(function), function.variables
        alone = set(self.places.locals) - set(self.variables) - set(function.shared)
        self.memories = {name: size for name, size in self.places.locals.items() if name in alone} | function.slots
        self.blocks = {block.label: block for block in function.blocks}
        self.values, self.known, self.ends, self.body = {}, {}, {}, []
        self.memory = {}
        self.phis = {block.label: [it for it in block.body if it.op == "phi"] for block in function.blocks}
        self.sources = {label: [] for label in self.blocks}
        for block in function.blocks:
            for target in set(block.targets()):
                self.sources[target].append(block.label)

    # -- values

    def value(self, kind, text):
        """The C text of an operand."""
        if text.startswith("@"):
            name = text[1:]
            return f"(uint8_t *){self.constants[name]}" if name in self.constants else stop(f"global that isn't known: {text}")
        if not text.startswith("%"):
            return constant(kind, text)
        root, offset = self.places.of(text)
        return plus(self.values.get(root, root[1:]), offset)

    def values_of(self, it):
        return [self.value(kind, text) for kind, text in it.operands]

    def add(self, text, name="", reads=None, is_pure=False):
        self.body.append(Statement(f"    {text}", name, text if reads is None else reads, is_pure))

    def define(self, it, text, is_pure=True):
        name = it.result[1:]
        self.add(f"{declared(it.kind, name)} = {text};", name, text, is_pure)

    def members(self, kind, text):
        """The C texts of the members of a struct."""
        value = self.values.get(text, text[1:] if text.startswith("%") else text)
        if isinstance(value, list):
            return value
        kinds = members_of(kind)
        return [zero(it) for it in kinds] if not text.startswith("%") else [f"{value}.e{i}" for i in range(len(kinds))]

    def whole(self, kind, text):
        """The C text of an operand that may be a struct."""
        if kind in C_TYPES:
            return self.value(kind, text)
        value = self.values.get(text, text[1:])
        return value if isinstance(value, str) else f"({c_type(kind)}){{{', '.join(value)}}}"

    # -- memory and variables

    def piece(self, root, at):
        return f"{root[1:]}_{at}"

    def get(self, root, at, kind, name):
        """The text of a variable as it is now: the value that it was given in this block or on the one way to it, or a name for it."""
        if (root, at) not in self.known:
            self.add(f"{declared(kind, name)} = {self.piece(root, at)};", name, self.piece(root, at), True)
            self.known[root, at] = name
        return self.known[root, at]

    def set(self, root, at, text):
        self.add(f"{self.piece(root, at)} = {text};", self.piece(root, at), text, True)
        self.known.pop((root, at), None)
        if SIMPLE.fullmatch(text):
            self.known[root, at] = text

    def written(self, root="", at=0, size=None):
        """Forgets what is known of the memory that a store or a call writes: of a local, its bytes; through any other pointer, all."""
        if root not in self.memories or size is None:
            self.memory = {}
        self.memory = {(one, low): (kind, text) for (one, low), (kind, text) in self.memory.items()
                       if one != root or low + size_of(kind) <= at or at + size <= low}

    def load(self, it):
        root, at = self.places.of(it.operands[0][1])
        kinds = [(0, it.kind)] if it.kind in C_TYPES else list(zip(offsets_of(it.kind), members_of(it.kind)))
        names = [it.result[1:]] if it.kind in C_TYPES else [f"{it.result[1:]}_e{i}" for i in range(len(kinds))]
        if root in self.variables:
            texts = [self.get(root, at + inner, kind, name) for (inner, kind), name in zip(kinds, names)]
        else:
            place, texts = self.values.get(root, self.value("ptr", root)), names
            for (inner, kind), name in zip(kinds, names):
                text = f"ld_{suffix(kind)}({plus(place, at + inner)})"
                self.add(f"{declared(kind, name)} = {text};", name, text, True)
            texts = [self.memory[root, at + inner][1] if self.memory.get((root, at + inner), ("",))[0] == kind else name
                     for (inner, kind), name in zip(kinds, names)]
        self.values[it.result] = texts[0] if it.kind in C_TYPES else texts

    def store(self, it):
        (kind, text), (_, place) = it.operands
        root, at = self.places.of(place)
        texts = [self.value(kind, text)] if kind in C_TYPES else self.members(kind, text)
        kinds = [(0, kind)] if kind in C_TYPES else list(zip(offsets_of(kind), members_of(kind)))
        for (inner, one), value in zip(kinds, texts):
            if root in self.variables:
                self.set(root, at + inner, value)
            else:
                self.add(f"st_{suffix(one)}({plus(self.value('ptr', root), at + inner)}, {value});")
                self.written(root, at + inner, size_of(one))
                if root in self.memories and SIMPLE.fullmatch(value):
                    self.memory[root, at + inner] = (one, value)

    def zero(self, it):
        root, at = self.places.of(it.operands[0][1])
        size = copied(it)
        if root in self.variables:
            for inner, kind in as_pieces(self.variables[root], at, size or 0):
                self.set(root, at + inner, zero(kind))
        elif size != 0:
            place, value, length = self.values_of(it)[:3]
            # more than some 32 bytes are a call of the C library, which may go byte by byte: up to 72 go in pieces of 16
            if size is not None and 16 < size <= 72:
                for begin in range(0, size, 16):
                    self.add(f"memset({plus(place, begin)}, {value}, (size_t){min(16, size - begin)}ull);")
            else:
                self.add(f"memset({place}, {value}, (size_t){length});")
            self.written(root, at, size)

    def copy(self, it):
        (to, to_at), (source, source_at) = (self.places.of(text) for _, text in it.operands[:2])
        size = copied(it)
        if size == 0:
            return
        if to not in self.variables and source not in self.variables:
            if (to, to_at) == (source, source_at):
                return
            a, b, length = self.values_of(it)[:3]
            self.add(f"{it.detail.split('.')[1]}({a}, {b}, (size_t){length});")
            self.written(to, to_at, size)
            return
        known = self.variables.get(to), self.variables.get(source)
        pieces = as_pieces(known[1], source_at, size) if known[1] is not None else as_pieces(known[0], to_at, size)
        texts = []
        for n, (inner, kind) in enumerate(pieces):
            name = f"c{len(self.body)}_{n}"
            if known[1] is not None:
                texts.append(self.get(source, source_at + inner, kind, name))
            else:
                text = f"ld_{suffix(kind)}({plus(self.value('ptr', source), source_at + inner)})"
                self.add(f"{declared(kind, name)} = {text};", name, text, True)
                texts.append(name)
        for (inner, kind), text in zip(pieces, texts):
            if known[0] is not None:
                self.set(to, to_at + inner, text)
            else:
                self.add(f"st_{suffix(kind)}({plus(self.value('ptr', to), to_at + inner)}, {text});")
                self.written(to, to_at + inner, size_of(kind))

    # -- the ways between blocks

    def edge(self, source, target):
        """The statement that goes from one block to another: first what its phis take, all at once."""
        moves = [(it, dict(it.detail)[source]) for it in self.phis[target]]
        label = f"goto {label_of(target)};"
        if not moves:
            return label
        first = " ".join(f"{declared(it.kind, f'n{i}')} = {self.whole(it.kind, text)};" for i, (it, text) in enumerate(moves))
        then = " ".join(f"{it.result[1:]} = n{i};" for i, (it, _) in enumerate(moves))
        return f"{{ {first} {then} {label} }}"

    def branch(self, it, here):
        if not it.operands:
            self.add(self.edge(here, it.detail[0]))
            return
        condition = self.values_of(it)[0]
        self.add(f"if ({condition}) {self.edge(here, it.detail[0])} else {self.edge(here, it.detail[1])}")

    def switch(self, it, here):
        (kind, _), subject = it.operands[0], self.values_of(it)[0]
        default, arms = it.detail
        if kind == "i128":
            for number, target in arms:
                self.add(f"if (u128_eq({subject}, {constant(kind, number)})) {self.edge(here, target)}")
            self.add(self.edge(here, default))
            return
        self.add(f"switch ({subject}) {{")
        for number, target in arms:
            self.add(f"case {constant(kind, number)}: {self.edge(here, target)}")
        self.add(f"default: {self.edge(here, default)}")
        self.add("}")

    # -- instructions

    def call(self, it):
        if is_call(it, ZERO):
            return self.zero(it)
        if is_call(it, *COPIES):
            return self.copy(it)
        if is_call(it, LOOK_UP):
            return self.define(it, f"look_up({', '.join(self.values_of(it))})")
        if is_call(it, "llvm.trap"):
            return self.add("RATHONSI_TRAP();")
        if it.detail not in self.names:
            stop(f"call of {it.detail}")
        self.written()
        text = f"{self.names[it.detail]}({', '.join(self.whole(kind, value) for kind, value in it.operands)})"
        if it.result:
            return self.add(f"{declared(it.kind, it.result[1:])} = {text};", it.result[1:], text)
        return self.add(f"{text};" if it.kind == "void" else f"(void){text};")

    def vector(self, it):
        """What changes or reads single bytes of blocks."""
        a, *rest = self.values_of(it)
        if it.op == "shufflevector":
            return self.define(it, shuffled(a, rest[0], it.detail))
        word, shift = it.detail // 4, it.detail % 4 * 8
        if it.op == "extractelement":
            return self.define(it, f"(uint8_t)({a}.w{word} >> {shift})")
        name = it.result[1:]
        self.define(it, a)
        text = f"({name}.w{word} & {2 ** 32 - 1 - (255 << shift):#x}u) | (uint32_t){rest[0]} << {shift}"
        return self.add(f"{name}.w{word} = {text};", name, text, True)

    def member(self, it):
        kind, text = it.operands[0]
        members = list(self.members(kind, text))
        if it.op == "insertvalue":
            members[it.detail] = self.value(*it.operands[1])
            self.values[it.result] = members
        else:
            self.values[it.result] = members[it.detail]

    def shift_of_block(self, it):
        (kind, text), by = it.operands[0], self.values_of(it)[1]
        numbers = set(re.findall(r"0x([0-9a-f]+)u", by)) if by.startswith("block_of(") else set()
        lanes = {int(it, 16) >> shift & 255 for it in numbers for shift in (0, 8, 16, 24)}
        if it.op != "lshr" or len(lanes) != 1 or max(lanes) > 7:
            stop(f"{it.op} of blocks by {by}")
        return self.define(it, f"block_lshr({self.value(kind, text)}, {lanes.pop()}u)")

    def plain(self, it):
        """What gives one value from others."""
        kind, texts = it.operands[0][0] if it.operands else "", self.values_of(it)
        if it.op in ("shl", "lshr", "ashr") and kind == BLOCK:
            return self.shift_of_block(it)
        if it.op == "icmp":
            return self.define(it, compared(it.detail, kind, *texts))
        if it.op in ("zext", "sext", "trunc", "ptrtoaddr"):
            return self.define(it, cast(it.op, kind, it.kind, texts[0]))
        if it.op == "select" and kind == MASK:
            return self.define(it, f"block_select({', '.join(texts)})")
        if it.op == "select" and kind == "i1" and it.kind in C_TYPES:
            return self.define(it, f"{texts[0]} ? {texts[1]} : {texts[2]}")
        if it.op == "getelementptr":
            return self.define(it, f"{texts[0]} + (ptrdiff_t){texts[1]}")
        if it.op == "freeze" and kind in C_TYPES:
            return self.define(it, texts[0])
        return self.define(it, binary(it.op, kind, *texts))

    def instruction(self, it, here):
        if it.op == "call":
            self.call(it)
        elif it.op in ("load", "store"):
            (self.load if it.op == "load" else self.store)(it)
        elif it.op in ("extractvalue", "insertvalue"):
            self.member(it)
        elif it.op in ("extractelement", "insertelement", "shufflevector"):
            self.vector(it)
        elif it.op in ("br", "switch"):
            (self.branch if it.op == "br" else self.switch)(it, here)
        elif it.op == "ret":
            self.add(f"return {self.whole(*it.operands[0])};" if it.operands else "return;")
        elif it.op == "unreachable":
            self.add("RATHONSI_TRAP();")
        elif it.op not in ("alloca", "phi") and not self.places.is_constant_gep(it):
            self.plain(it)

    # -- the whole

    def prototype(self):
        params = ", ".join(declared(kind, text[1:]) for kind, text in self.function.params) or "void"
        return f"{declared(self.function.result, self.names[self.function.name])}({params})"

    def size(self):
        """The bytes of its memory, each part of it at a multiple of 8."""
        return sum(size + -size % 8 for size in self.memories.values())

    def write(self):
        """The lines of the function."""
        for block in self.function.blocks:
            sources = self.sources[block.label]
            self.known = dict(self.ends[sources[0]]) if len(sources) == 1 and sources[0] in self.ends else {}
            self.memory = {}
            if sources:
                self.add(f"{label_of(block.label)}:;", reads="")
            for it in block.body:
                self.instruction(it, block.label)
            self.ends[block.label] = self.known
        body, read = needed(self.body)
        unused = [f"    (void){text[1:]};" for _, text in self.function.params if text[1:] not in read]
        return [self.prototype(), "{", *self.declarations(read), *unused, *(it.text for it in body), "}"]

    def declarations(self, read):
        found = []
        for root, size in self.memories.items():
            name = root[1:]
            if name in read:
                found.append(f"    MEMORY({name}_m, {max(size, 1)}); uint8_t *const {name} = {name}_m.bytes;")
        for root, pieces in self.variables.items():
            for at, kind in pieces.items():
                if self.piece(root, at) in read:
                    found.append(f"    {declared(kind, self.piece(root, at))};")
        phis = [it for found in self.phis.values() for it in found]
        return found + [f"    {declared(it.kind, it.result[1:])};" for it in phis]


def label_of(text):
    return text.replace(".", "_")


def needed(body):
    """The statements without those that only set what nobody reads, and the names that the others read."""
    read = set()
    while True:
        kept = [it for it in body if not it.is_pure or it.name in read]
        now = {name for it in kept for name in re.findall(r"[A-Za-z_]\w*", it.reads)}
        if now == read:
            return [unnamed(it, read) for it in kept], read
        read = now


def unnamed(it, read):
    """A call whose result nobody reads."""
    if it.name and not it.is_pure and it.name not in read:
        return Statement(f"    (void){it.reads};", reads=it.reads)
    return it

