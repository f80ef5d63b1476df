"""Where the pointers of a function lead, and which of its locals are variables of C: those that are loaded, stored, zeroed and
copied alone, always in the same pieces."""
from dialect import pieces_of, size_of

ZERO = "llvm.memset.p0.i64"
COPIES = ("llvm.memmove.p0.p0.i64", "llvm.memcpy.p0.p0.i64")


def number(text):
    """A constant number, or none."""
    return int(text) if text.lstrip("-").isdigit() else None


class Places:
    """Each pointer of a function as a root (a local, a parameter or another pointer) and a constant offset."""

    def __init__(self, function):
        self.at, self.locals, self.shared = {}, {}, function.shared
        for block in function.blocks:
            for it in block.body:
                if it.op == "alloca":
                    self.locals[it.result] = it.detail
                elif it.op == "getelementptr" and number(it.operands[1][1]) is not None:
                    name, _, more = it.operands[0][1].partition("+")
                    root, offset = self.at.get(name, (name, 0))
                    self.at[it.result] = (root, offset + int(more or 0) + number(it.operands[1][1]))

    def of(self, text):
        name, _, more = text.partition("+")
        root, offset = self.at.get(name, (name, 0))
        slot, inner = self.shared.get(root, (root, 0))
        return slot, inner + offset + int(more or 0)

    def is_constant_gep(self, it):
        return it.op == "getelementptr" and it.result in self.at


def is_call(it, *names):
    return it.op == "call" and it.detail in names


def copied(it):
    """The number of bytes of a copy or a zeroing, if it is constant."""
    return number(it.operands[2][1])


def accesses_of(it, places):
    """What an instruction does at the roots of its pointers: (root, offset, 'read' or 'write', type), ('zero', 'from', 'to' with a
    number of bytes); 'other' for a pointer that goes elsewhere."""
    if it.op == "alloca" or places.is_constant_gep(it):
        return []
    if it.op == "load":
        root, at = places.of(it.operands[0][1])
        return [(root, at + inner, "read", kind) for inner, kind in pieces_of(it.kind)]
    if it.op == "store":
        (kind, value), (_, place) = it.operands
        root, at = places.of(place)
        escaped = [(places.of(value)[0], 0, "other", None)] if kind == "ptr" else []
        return [(root, at + inner, "write", piece) for inner, piece in pieces_of(kind)] + escaped
    if is_call(it, ZERO) and copied(it) is not None and it.operands[1][1] == "0":
        return [(*places.of(it.operands[0][1]), "zero", copied(it))]
    if is_call(it, *COPIES) and copied(it) is not None:
        return [(*places.of(it.operands[0][1]), "to", copied(it)), (*places.of(it.operands[1][1]), "from", copied(it))]
    return [(places.of(text)[0], 0, "other", None) for text in it.names()]


def variables_of(function, places):
    """The locals that are variables: of each its pieces, by their offsets. Those of two that are copied have the same pieces."""
    pieces = {name: set() for name in places.locals}
    bad, zeroed, moves = set(), [], []
    for it in (it for block in function.blocks for it in block.body):
        found = accesses_of(it, places)
        for root, at, what, kind in found:
            if root not in pieces:
                continue
            if what in ("read", "write"):
                pieces[root].add((at, kind))
            elif what == "zero":
                zeroed.append((root, at, kind))
            elif what == "other":
                bad.add(root)
        if is_call(it, *COPIES) and len(found) == 2 and found[0][2] == "to" and found[0][3] > 0:
            moves.append((found[0][:2], found[1][:2], found[0][3]))
    spread(pieces, moves)
    while True:
        worse = {name for name in pieces if name not in bad and not is_split(name, pieces[name], places.locals[name], zeroed)}
        worse |= {name for name in pieces if name not in bad | worse and not fits(name, pieces, moves, bad | worse)}
        if not worse:
            return {name: dict(sorted(pieces[name])) for name in pieces if name not in bad}
        bad |= worse


def spread(pieces, moves):
    """Gives each side of a copy the pieces of the other."""
    changed = True
    while changed:
        changed = False
        for (to, to_at), (source, source_at), size in moves:
            for one, one_at, other, other_at in ((to, to_at, source, source_at), (source, source_at, to, to_at)):
                if one in pieces and other in pieces:
                    new = {(at - one_at + other_at, kind) for at, kind in pieces[one] if one_at <= at < one_at + size}
                    changed = changed or not new <= pieces[other]
                    pieces[other] |= new


def is_split(name, pieces, size, zeroed):
    """Whether the pieces lie beside each other within the local, and each zeroing takes whole ones."""
    end = 0
    for at, kind in sorted(pieces):
        if at < end:
            return False
        end = at + size_of(kind)
    spans = [(at, at + length) for root, at, length in zeroed if root == name]
    return end <= size and all(is_whole(pieces, low, high) for low, high in spans)


def is_whole(pieces, low, high):
    """Whether no piece lies half within this span."""
    return all(high <= at or at + size_of(kind) <= low or (low <= at and at + size_of(kind) <= high) for at, kind in pieces)


def fits(name, pieces, moves, bad):
    """Whether each copy from or to this local takes whole pieces; if the other side is memory, they fill all of its bytes."""
    for (to, to_at), (source, source_at), size in moves:
        for one, at, other in ((to, to_at, source), (source, source_at, to)):
            if one == name and not is_whole(pieces[name], at, at + size):
                return False
        is_stored = source == name and (to not in pieces or to in bad)
        filled = sum(size_of(kind) for it, kind in pieces[name] if source_at <= it < source_at + size)
        if is_stored and filled != size:
            return False
    return True


def as_pieces(pieces, at, size):
    """The pieces within a span, by their offsets from its beginning."""
    return [(it - at, kind) for it, kind in pieces.items() if at <= it < at + size]
