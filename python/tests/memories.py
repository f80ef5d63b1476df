"""Devices in memory for the tests, and the routes that most of them use."""

import random

import rathonsi

KEY = bytes.fromhex("2b7e151628aed2a6abf7158809cf4f3c")
MASTER = bytes(range(15, -1, -1))
UID = bytes(range(1, 16))
ROUTES = (
    rathonsi.Route(0x120E, rathonsi.SENDS, slot=4, reserve=4),
    rathonsi.Route(0x120F, rathonsi.RECEIVES, slot=4, reserve=4),
)
KEYS = {1: MASTER, 4: KEY}


class Memory:
    """A device of plain bytes."""

    def __init__(self, size: int = 2000) -> None:
        self.content = bytearray(size)
        self.writes: list[tuple[int, bytes]] = []

    @classmethod
    def made(cls, routes: tuple[rathonsi.Route, ...] = ROUTES, keys: dict[int, bytes] | None = None) -> "Memory":
        memory = cls(4000)
        rathonsi.make_store(memory, routes, KEYS if keys is None else keys)
        return memory

    def read(self) -> bytes:
        return bytes(self.content)

    def write(self, offset: int, data: bytes) -> None:
        self.writes.append((offset, data))
        self.content[offset : offset + len(data)] = data


class PowerWent(Exception):
    """The power went within a write."""


class CutMemory(Memory):
    """A device whose power may go within a write: of its bytes anything is left."""

    def __init__(self, size: int = 4000, seed: int = 0, one_in: int = 12) -> None:
        super().__init__(size)
        self.drawn, self.one_in = random.Random(seed), one_in

    def write(self, offset: int, data: bytes) -> None:
        if self.drawn.randrange(self.one_in) != 0:
            super().write(offset, data)
            return
        old = self.content[offset : offset + len(data)]
        super().write(offset, self.torn(bytes(old), data))
        raise PowerWent

    def torn(self, old: bytes, new: bytes) -> bytes:
        """In half of the cases it is cut at a byte, and those before are written; else each byte is anything."""
        if self.drawn.randrange(2):
            at = self.drawn.randrange(len(new) + 1)
            return (new[:at] + self.drawn.randbytes(1) + old[at + 1 :])[: len(new)]
        choices = ((a, b, 0xA7, self.drawn.randrange(256)) for a, b in zip(old, new))
        return bytes(self.drawn.choice(choice) for choice in choices)


def opened(memory: Memory, routes: tuple[rathonsi.Route, ...] = ROUTES) -> rathonsi.Store:
    return rathonsi.Store(memory, routes)
