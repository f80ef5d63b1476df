"""Which functions a compiler isn't to put into their callers. A compiler that does so adds their memory to the caller's, where it stays
on the stack while the caller calls others."""

LEAST = 96  # bytes of stack that are worth a call


def kept_apart(functions, sizes):
    """The functions, of these sizes of memory, that make the stack deeper so: each time that a caller of theirs calls another function
    that goes deeper than what they call."""
    calls = {it.name: {call.detail for block in it.blocks for call in block.body if call.op == "call"} & set(sizes) for it in functions}
    depths = {}

    def below(name):
        return max(map(depth, calls[name]), default=0)

    def depth(name):
        if name not in depths:
            depths[name] = sizes[name] + below(name)
        return depths[name]

    return {it for called in calls.values() for it in called
            if any(min(sizes[it], depth(other) - below(it)) >= LEAST for other in called - {it})}
