"""What a function does with the memory behind its pointers: which objects a pointer may point into, which bytes are read and
written, and which of them are still wanted after an instruction. An object is a local, or what lies behind a parameter."""
from dataclasses import dataclass, field

from dialect import size_of, stop
from places import COPIES, ZERO, Places, copied, is_call

EVERY = -1  # a mask of all bytes; bit i of a mask is byte i of the object


def mask(at, size):
    return ((1 << size) - 1) << at


def shifted(bytes_, at):
    """A mask from the view of somebody whose object begins so many bytes earlier."""
    return EVERY if bytes_ == EVERY else bytes_ << at


@dataclass
class Summary:
    """What a function does with the object of each pointer parameter: the bytes that it may read before it writes them, those that it
    writes on every way, those that it may write; whose pointers it may put into whose object; and whose it may return."""
    reads: dict = field(default_factory=dict)
    surely: dict = field(default_factory=dict)
    writes: dict = field(default_factory=dict)
    flows: set = field(default_factory=set)
    returned: set = field(default_factory=set)


@dataclass
class Access:
    """What an instruction does with the bytes of one object."""
    reads: int = 0
    surely: int = 0
    writes: int = 0


class Effects:
    """The objects of a function, and what each instruction does with them. An object is a local, what lies behind a parameter (by the
    parameter's name), or all that is reached from there by pointers (the same name and a star)."""

    def __init__(self, function, summaries, spares=None):
        self.function, self.summaries, self.places = function, summaries, Places(function)
        self.spares = spares or {}  # of a function the bytes of its result that no caller wants
        self.params = [text for kind, text in function.params if kind == "ptr"]
        self.index = {text: (i, 0) for i, (_, text) in enumerate(function.params) if text in self.params}
        self.index |= {text + "*": (i, 1) for text, (i, _) in self.index.items()}
        self.sizes = dict(self.places.locals)
        self.points = {text: {text} for text in [*self.sizes, *self.params]}
        self.contents = {text: {text.rstrip("*") + "*"} if text in self.index else set() for text in [*self.sizes, *self.index]}
        self.count = 0
        while self.count != (now := self.spread()):
            self.count = now
        self.pinned = set().union(*(self.reach(text) for text in self.params)) - set(self.index)
        self.done = {id(it): self.of(it) for block in function.blocks for it in block.body}

    # -- where pointers lead

    def to(self, text):
        return self.points.get(text.partition("+")[0], set())

    def behind(self, objects):
        """What is reached by the pointers that lie in these objects."""
        found, left = set(), [inner for it in objects for inner in self.contents[it]]
        while left:
            it = left.pop()
            if it not in found:
                found.add(it)
                left += self.contents[it]
        return found

    def reach(self, text):
        """The objects that somebody who has this pointer may come to."""
        return self.to(text) | self.behind(self.to(text))

    def spread(self):
        """Follows each instruction that has a pointer once; the number of ways that are known then. A number carries no pointer: that is
        looked at before (pointers.py)."""
        for block in self.function.blocks:
            for it in block.body:
                self.follow(it)
        return sum(map(len, self.points.values())) + sum(map(len, self.contents.values()))

    def follow(self, it):
        if it.op == "alloca":
            return
        if it.op == "load" and "ptr" in it.kind:
            self.gain(self.points, it.result, *(self.contents[at] for at in self.to(it.operands[0][1])))
        elif it.op == "store":
            for at in self.to(it.operands[1][1]):
                self.contents[at] |= self.to(it.operands[0][1])
        elif is_call(it, *COPIES):
            for at in self.to(it.operands[0][1]):
                self.gain(self.contents, at, *(self.contents[source] for source in self.to(it.operands[1][1])))
        elif it.op == "call" and it.detail in self.summaries:
            given, summary = self.given(it), self.summaries[it.detail]
            for to, source in summary.flows:
                for at in given[to]:
                    self.contents[at] |= given[source]
            self.gain(self.points, it.result, *(given[source] for source in summary.returned))
        elif "ptr" in it.kind and it.op != "load":
            self.gain(self.points, it.result, *(self.to(text) for text in it.names()))

    def given(self, it):
        """The objects that a call hands over: those that its arguments point to (i, 0), and what is reached from there (i, 1)."""
        found = {(i, 0): self.to(text) for i, (_, text) in enumerate(it.operands)}
        return found | {(i, 1): self.behind(objects) for (i, _), objects in found.items()}

    def gain(self, table, name, *sets):
        if name:
            table[name] = table.get(name, set()).union(*sets)

    # -- what is read and written

    def exact(self, text):
        """The object and the offset of a pointer, if they are known."""
        root, at = self.places.of(text)
        return (root, at) if root in self.contents and at >= 0 else None

    def touch(self, found, text, size, reads, writes):
        """An access of so many bytes, or of nobody knows how many."""
        known = self.exact(text)
        if known and size is not None:
            span = mask(known[1], size)
            merge(found, known[0], Access(span if reads else 0, span if writes else 0, span if writes else 0))
        else:
            for it in self.to(text):
                merge(found, it, Access(EVERY if reads else 0, 0, EVERY if writes else 0))

    def of(self, it):
        """What the instruction does: of each object that it may touch, an Access."""
        found = {}
        if it.op == "load":
            self.touch(found, it.operands[0][1], size_of(it.kind), True, False)
        elif it.op == "store":
            self.touch(found, it.operands[1][1], size_of(it.operands[0][0]), False, True)
        elif is_call(it, ZERO):
            self.touch(found, it.operands[0][1], copied(it), False, True)
        elif is_call(it, *COPIES):
            self.touch(found, it.operands[1][1], copied(it), True, False)
            self.touch(found, it.operands[0][1], copied(it), False, True)
        elif it.op == "call" and it.detail in self.summaries:
            self.called(found, it, self.summaries[it.detail])
        return found

    def called(self, found, it, summary):
        """A call: of an object that one argument alone leads to, what the callee does with its bytes; of any other, anything."""
        given = self.given(it)
        for i, (_, text) in enumerate(it.operands):
            known = self.exact(text)
            if known and not any(known[0] in objects for at, objects in given.items() if at != (i, 0)):
                parts = (part.get(i, 0) for part in (summary.reads, summary.surely, summary.writes))
                merge(found, known[0], Access(*(shifted(part, known[1]) for part in parts)))
            else:
                for root in given[i, 0]:
                    merge(found, root, Access(EVERY, 0, EVERY))
            for root in given[i, 1]:
                merge(found, root, Access(EVERY, 0, EVERY))
        spare = self.spares.get(it.detail)
        if spare:
            name, at = self.exact(it.operands[0][1])
            merge(found, name, Access(0, 0, spare << at))

    # -- which bytes are wanted

    def clipped(self, name, bytes_):
        return bytes_ & mask(0, self.sizes[name]) if name in self.sizes else bytes_

    def after_each(self):
        """Of each instruction the bytes of each object that may still be read after it: (instruction, what it does, wanted)."""
        blocks = {block.label: block for block in self.function.blocks}
        wanted = {label: {} for label in blocks}
        changed = True
        while changed:
            changed = False
            for block in reversed(self.function.blocks):
                now = self.back(block, wanted)
                changed = changed or now != wanted[block.label]
                wanted[block.label] = now
        found = []
        for block in self.function.blocks:
            steps = []
            self.back(block, wanted, steps)
            found += reversed(steps)
        return found

    def at_end(self, block, wanted):
        """What is wanted at the end of a block: after a return, what lies behind the parameters, less what no caller wants of the
        result."""
        if block.body[-1].op == "ret":
            spare = self.spares.get(self.function.name)
            return {text: EVERY & ~(spare if spare and text == self.function.params[0][1] else 0) for text in self.index}
        found = {}
        for label in block.targets():
            for name, bytes_ in wanted[label].items():
                found[name] = found.get(name, 0) | bytes_
        return found

    def back(self, block, wanted, steps=None):
        live = self.at_end(block, wanted)
        for it in reversed(block.body):
            done = self.done[id(it)]
            if steps is not None:
                steps.append((it, done, dict(live)))
            for name, access in done.items():
                now = (live.get(name, 0) & ~self.clipped(name, access.surely)) | self.clipped(name, access.reads)
                live[name] = now
        return {name: bytes_ for name, bytes_ in live.items() if bytes_}

    # -- the summary

    def summary(self):
        found = Summary()
        first = self.entry()
        for text in self.params:
            i = self.index[text][0]
            found.reads[i] = first.get(text, 0)
            found.surely[i] = self.surely_written(text)
            found.writes[i] = union(done[text].writes for done in self.done.values() if text in done)
        for text, at in self.index.items():
            own = text.rstrip("*") + "*"
            found.flows |= {(at, self.index[other]) for other in self.contents[text] if other in self.index and other != own}
        for it in (it for block in self.function.blocks for it in block.body if it.op == "ret"):
            for _, text in it.operands:
                found.returned |= {self.index[other] for other in self.to(text) if other in self.index}
        return found

    def entry(self):
        """The bytes of the parameters' objects that may be read before they are written: what is wanted at the entry, if nothing is
        wanted at the end."""
        blocks = self.function.blocks
        wanted = {block.label: {} for block in blocks}
        changed = True
        while changed:
            changed = False
            for block in reversed(blocks):
                live = {} if block.body[-1].op == "ret" else self.at_end(block, wanted)
                for it in reversed(block.body):
                    for name, access in self.done[id(it)].items():
                        live[name] = (live.get(name, 0) & ~self.clipped(name, access.surely)) | self.clipped(name, access.reads)
                changed = changed or live != wanted[block.label]
                wanted[block.label] = live
        return wanted[blocks[0].label]

    def surely_written(self, text):
        """The bytes of a parameter's object that every way to a return writes."""
        blocks = {block.label: block for block in self.function.blocks}
        surely = lambda it: self.done[id(it)][text].surely if text in self.done[id(it)] else 0
        done = {block.label: union(map(surely, block.body)) for block in blocks.values()}
        after = {label: EVERY for label in blocks}
        changed = True
        while changed:
            changed = False
            for label, block in blocks.items():
                later = 0 if block.body[-1].op == "ret" else intersection(after[it] for it in block.targets())
                now = done[label] | later
                changed = changed or now != after[label]
                after[label] = now
        found = after[self.function.blocks[0].label]
        return 0 if found < 0 else found


def merge(found, name, access):
    if name in found:
        it = found[name]
        access = Access(it.reads | access.reads, it.surely | access.surely, it.writes | access.writes)
    found[name] = access


def union(masks):
    found = 0
    for it in masks:
        found |= it
    return found


def intersection(masks):
    found = EVERY
    for it in masks:
        found &= it
    return found


def in_order(functions):
    """The functions, each after those that it calls."""
    by_name, found, entered = {it.name: it for it in functions}, {}, set()

    def visit(function):
        if function.name in found:
            return
        if function.name in entered:
            stop(f"{function.name} calls itself")
        entered.add(function.name)
        for it in (it for block in function.blocks for it in block.body if it.op == "call" and it.detail in by_name):
            visit(by_name[it.detail])
        found[function.name] = function

    for function in functions:
        visit(function)
    return list(found.values())


