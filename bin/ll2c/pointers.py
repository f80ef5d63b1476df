"""Looks over the whole module that no memory that may hold a pointer is read or written as a number of more than a byte. A pointer
fills 8 bytes for the module, and fewer on a processor of 32 bits; and who follows pointers must not lose one that goes as a number."""
from math import gcd

from dialect import pieces_of, size_of
from places import COPIES, Places, copied, is_call, number

CALLER = ("", "the caller's memory")
ANYWHERE = (0, 1)


def moved(at, by, stride=0):
    """A place in an object is (n, stride): n bytes from its beginning, and any number of strides more or less."""
    stride = gcd(at[1], stride)
    return ((at[0] + by) % stride if stride else at[0] + by), stride


class Factors:
    """Of the numbers of a function one by which each is divisible: an index times the size of what it counts."""

    def __init__(self, function):
        self.made, self.stored, self.alone = {}, {}, set(Places(function).locals)
        for it in (it for block in function.blocks for it in block.body):
            if it.result:
                self.made[it.result] = it
            if it.op == "store":
                self.stored.setdefault(it.operands[1][1], []).append(it.operands[0][1])
            # a local that is only loaded and stored whole has what was stored
            if it.op != "load":
                self.alone -= {text for _, text in (it.operands[:1] if it.op == "store" else it.operands)}

    def of(self, text, seen=()):
        if number(text) is not None:
            return abs(number(text))
        it = self.made.get(text)
        if it is None or text in seen:
            return 1
        if it.op == "mul":
            return self.of(it.operands[0][1], (*seen, text)) * self.of(it.operands[1][1], (*seen, text))
        if it.op == "load" and it.operands[0][1] in self.alone:
            return gcd(0, *(self.of(value, (*seen, text)) for value in self.stored.get(it.operands[0][1], ["1"])))
        return 1


class Pointers:
    """Where each pointer may lead: to a local of some function, or to what a caller of the library passed, and to which byte of it, if
    that is known. `fields` has of each object the bytes at which a pointer may lie, and where it leads."""

    def __init__(self, functions):
        self.functions = {it.name: it for it in functions}
        self.factors = {it.name: Factors(it) for it in functions}
        self.values, self.fields, self.count = {}, {}, 0
        for function in functions:
            for kind, text in function.params:
                self.values[function.name, text] = {(CALLER, ANYWHERE)} if function.is_export and kind == "ptr" else set()
        while self.count != (now := self.spread()):
            self.count = now

    def to(self, function, text):
        return self.values.get((function.name, text), set())

    def gain(self, function, text, found):
        self.values.setdefault((function.name, text), set()).update(found)

    def spread(self):
        """Follows each instruction once; the number of ways that are known then."""
        for function in self.functions.values():
            for it in (it for block in function.blocks for it in block.body):
                self.follow(function, it)
        return sum(map(len, self.values.values())) + sum(len(found) for fields in self.fields.values() for found in fields.values())

    def follow(self, function, it):
        if it.op == "alloca":
            self.gain(function, it.result, {((function.name, it.result), (0, 0))})
        elif it.op == "getelementptr":
            by = number(it.operands[1][1])
            how = (0, self.factors[function.name].of(it.operands[1][1])) if by is None else (by, 0)
            self.gain(function, it.result, {(thing, moved(at, *how)) for thing, at in self.to(function, it.operands[0][1])})
        elif it.op == "load":
            for inner in pointers_of(it.kind):
                for thing, at in self.to(function, it.operands[0][1]):
                    self.gain(function, it.result, self.held(thing, moved(at, inner)))
        elif it.op == "store":
            for inner in pointers_of(it.operands[0][0]):
                for thing, at in self.to(function, it.operands[1][1]):
                    self.hold(thing, moved(at, inner), self.to(function, it.operands[0][1]))
        elif is_call(it, *COPIES):
            self.copy(function, it)
        elif it.op == "call" and it.detail in self.functions:
            self.call(function, it, self.functions[it.detail])
        elif it.result:
            for text in it.names():
                self.gain(function, it.result, self.to(function, text))

    def held(self, thing, at):
        """Where the pointers lead that may lie at this byte of an object."""
        fields = self.fields.get(thing, {})
        return set().union(*(found for low, found in fields.items() if apart(at, low) == 0))

    def hold(self, thing, at, found):
        if found:
            self.fields.setdefault(thing, {}).setdefault(at, set()).update(found)

    def copy(self, function, it):
        size = copied(it)
        for to, to_at in self.to(function, it.operands[0][1]):
            for source, at in self.to(function, it.operands[1][1]):
                for low, found in list(self.fields.get(source, {}).items()):
                    # of unknown size it may reach any byte behind its source, and none before it
                    if at[1] or low[1] or (at[0] <= low[0] and (size is None or low[0] < at[0] + size)):
                        self.hold(to, moved(moved(to_at, low[0] - at[0], low[1]), 0, at[1]), set(found))

    def call(self, function, it, callee):
        for (_, given), (_, text) in zip(it.operands, callee.params):
            self.gain(callee, text, self.to(function, given))
        for last in (block.body[-1] for block in callee.blocks if block.body[-1].op == "ret" and it.result):
            for _, text in last.operands:
                self.gain(function, it.result, self.to(callee, text))

    def misread(self):
        """How many places may hold a pointer; and the loads and stores of numbers that meet one."""
        count, found = sum(map(len, self.fields.values())), []
        for function in self.functions.values():
            for it in (it for block in function.blocks for it in block.body if it.op in ("load", "store")):
                kind, place = (it.kind, it.operands[0][1]) if it.op == "load" else (it.operands[0][0], it.operands[1][1])
                for inner, piece in pieces_of(kind):
                    if piece == "ptr" or size_of(piece) == 1:
                        continue
                    if any(self.meets(thing, at, inner, size_of(piece)) for thing, at in self.to(function, place)):
                        found.append(f"{function.name}: {it.op} of {piece} at {place}")
        return count, found

    def meets(self, thing, at, inner, size):
        """Whether so many bytes of an object may hold a part of a pointer."""
        for low in self.fields.get(thing, {}):
            far, stride = apart(moved(at, inner), low), gcd(at[1], low[1])
            if -size < far < 8 or (stride and far > stride - size):
                return True
        return False


def apart(at, low):
    """How far a place is from another one, or, if one of them has strides, by how much modulo these."""
    stride = gcd(at[1], low[1])
    return (at[0] - low[0]) % stride if stride else at[0] - low[0]


def pointers_of(kind):
    return [inner for inner, piece in pieces_of(kind) if piece == "ptr"]
