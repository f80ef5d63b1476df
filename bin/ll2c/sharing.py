"""Which locals lie in one place: those that a copy makes equal, and those that are never wanted at the same time. A result that is
made in a local and then copied to where the caller wants it is made there at once. So the C needs less of the stack, also by a
compiler that keeps each local apart, and fewer copies."""
from effects import EVERY, Effects, in_order
from places import COPIES, ZERO, Places, copied, is_call, variables_of


class Step:
    """An instruction that touches memory: what it writes, what is wanted after it, and what a call touches."""

    def __init__(self, effects, it, done, wanted):
        self.writes = {name: effects.clipped(name, access.writes) for name, access in done.items() if access.writes}
        self.wanted = wanted
        is_known = is_call(it, ZERO, *COPIES)
        self.touched = {name: effects.clipped(name, access.reads | access.writes) for name, access in done.items()} \
            if it.op == "call" and not is_known else {}
        self.copy = None
        if is_call(it, *COPIES) and copied(it):
            to, source = (effects.exact(text) for _, text in it.operands[:2])
            self.copy = (to, source) if to and source else None

    def is_copy(self, one, one_at, other, other_at):
        """Whether it copies bytes of one object to those of the other that would lie at the same place."""
        if not self.copy or (self.copy[0][0], self.copy[1][0]) != (one, other):
            return False
        return one_at + self.copy[0][1] == other_at + self.copy[1][1]

    def disturbs(self, one, one_at, other, other_at):
        """Whether it writes bytes of one that lie on wanted bytes of the other, or needs them apart."""
        if self.touched.get(one, 0) << one_at & self.touched.get(other, 0) << other_at:
            return True
        written = self.writes.get(one, 0) << one_at & self.wanted.get(other, 0) << other_at
        return bool(written) and not self.is_copy(one, one_at, other, other_at)


def drop_dead(function, effects, free):
    """Takes out what writes to locals bytes that nobody reads, and shortens a zeroing to what is read. Whether there was any."""
    changed, dead = False, set()
    for it, done, wanted in effects.after_each():
        if it.op not in ("store", "call") or (it.op == "call" and not is_call(it, ZERO, *COPIES)):
            continue
        place = effects.exact(it.operands[1 if it.op == "store" else 0][1])
        if not place or place[0] not in free:
            continue
        bytes_ = done[place[0]].writes & wanted.get(place[0], 0)
        if bytes_ == 0:
            dead.add(id(it))
        elif is_call(it, ZERO) and copied(it) is not None:
            low, high = (bytes_ & -bytes_).bit_length() - 1, bytes_.bit_length()
            if (low, high - low) != (place[1], copied(it)):
                it.operands = [("ptr", f"{place[0]}+{low}"), it.operands[1], ("i64", str(high - low))]
                changed = True
    for block in function.blocks:
        block.body = [it for it in block.body if id(it) not in dead]
    return changed or bool(dead)


def fresh_rooms(functions, effects):
    """Of each function whose first parameter is, at each call, a local of the caller that no other argument leads to: the bytes that
    the local has from there on."""
    rooms = {it.name: None if it.is_export else 1 << 30 for it in functions}
    for function in functions:
        of = effects[function.name]
        for it in (it for block in function.blocks for it in block.body if it.op == "call" and it.detail in rooms):
            room = rooms[it.detail]
            known = of.exact(it.operands[0][1]) if it.operands and it.operands[0][0] == "ptr" else None
            others = of.pinned.union(*(objects for at, objects in of.given(it).items() if at != (0, 0)))
            if room is None or not known or known[0] not in of.sizes or known[0] in others:
                rooms[it.detail] = None
            else:
                rooms[it.detail] = min(room, of.sizes[known[0]] - known[1])
    return rooms


def spare_bytes(functions, effects, rooms):
    """Of each function that has a room: the bytes of it that no caller wants after the call. The function may write there, too."""
    spares = {name: (1 << room) - 1 for name, room in rooms.items() if room is not None and room < 1 << 30}
    for function in functions:
        of = effects[function.name]
        for it, _, wanted in of.after_each():
            if it.op == "call" and it.detail in spares:
                name, at = of.exact(it.operands[0][1])
                spares[it.detail] &= ~(wanted.get(name, 0) >> at)
    return spares


class Sharing:
    """The places of a function's locals in memory."""

    def __init__(self, function, effects, variables, room):
        self.free = [name for name in effects.sizes if name not in variables and name not in effects.pinned and effects.sizes[name]]
        self.sizes, self.steps = effects.sizes, []
        # the objects of parameters that aren't shared play no part; nor does what has no bytes
        first = function.params[0][1] if function.params else ""
        is_exact = room is not None and first in effects.params and all(done[first].writes != EVERY and done[first].reads != EVERY
                                                                       for done in effects.done.values() if first in done)
        self.result, self.room = (first, room) if is_exact else ("", 0)
        for it, done, wanted in effects.after_each():
            step = Step(effects, it, done, wanted)
            if step.writes or step.touched:
                self.steps.append(step)
        self.groups = [{name: 0} for name in self.free] + ([{self.result: 0}] if self.result else [])

    def group_of(self, name):
        return next(it for it in self.groups if name in it)

    def may_share(self, one, other, by):
        """Whether the second group may lie in the first, so many bytes from its beginning."""
        return not any(step.disturbs(a, at, b, inner + by) or step.disturbs(b, inner + by, a, at)
                       for a, at in one.items() for b, inner in other.items() for step in self.steps)

    def join_copies(self, function, effects):
        """Puts the two sides of a copy in one place, the longest copies first."""
        found = []
        for it in (it for block in function.blocks for it in block.body if is_call(it, *COPIES) and copied(it)):
            to, source = (effects.exact(text) for _, text in it.operands[:2])
            if to and source and all(side[0] in self.free or side[0] == self.result for side in (to, source)):
                found.append((copied(it), to, source))
        for _, (to, to_at), (source, source_at) in sorted(found, key=lambda it: -it[0]):
            self.join(to, to_at, source, source_at)

    def join(self, to, to_at, source, source_at):
        one, other = self.group_of(to), self.group_of(source)
        if one is other:
            return
        by = one[to] + to_at - other[source] - source_at
        if self.result in other or (by < 0 and self.result not in one):
            one, other, by = other, one, -by
        if by < 0 or not self.may_share(one, other, by):
            return
        joined = {**one, **{name: at + by for name, at in other.items()}}
        if self.result in joined and any(at + self.sizes[name] > self.room for name, at in joined.items() if name != self.result):
            return
        self.groups = [it for it in self.groups if it is not one and it is not other] + [joined]

    def size_of(self, group):
        return max(at + self.sizes[name] for name, at in group.items() if name != self.result)

    def slots(self):
        """The groups that share a slot of the stack, each slot with its size; and the group that lies at the result."""
        rest = sorted((it for it in self.groups if self.result not in it), key=lambda it: -self.size_of(it))
        slots = []
        for group in rest:
            for slot in slots:
                if self.may_share(slot, group, 0):
                    slot.update(group)
                    break
            else:
                slots.append(dict(group))
        return slots, next((it for it in self.groups if self.result and self.result in it), {})


def share(functions, apart):
    """Says of each function which locals are variables, and which of the others share a slot, if they aren't to lie apart."""
    if apart:
        for function in functions:
            function.variables = variables_of(function, Places(function))
        return
    summaries, effects = {}, {}
    for function in in_order(functions):
        effects[function.name] = Effects(function, summaries)
        summaries[function.name] = effects[function.name].summary()
    rooms = fresh_rooms(functions, effects)
    spares = spare_bytes(functions, effects, rooms)
    for function in functions:
        of = Effects(function, summaries, spares)
        while drop_dead(function, of, set(of.sizes) - set(variables_of(function, of.places)) - of.pinned):
            of = Effects(function, summaries, spares)
        function.variables = variables_of(function, of.places)
        sharing = Sharing(function, of, function.variables, rooms[function.name])
        sharing.join_copies(function, of)
        slots, at_result = sharing.slots()
        function.slots = {f"%s{i}": sharing.size_of(slot) for i, slot in enumerate(slots)}
        function.shared = {name: (f"%s{i}", at) for i, slot in enumerate(slots) for name, at in slot.items()}
        function.shared |= {name: (sharing.result, at) for name, at in at_result.items() if name != sharing.result}
