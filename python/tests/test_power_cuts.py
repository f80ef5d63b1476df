"""Stores over devices whose power goes within a write. RATHONSI_EVENTS says how many events are drawn (5,000)."""

import os
import random

import pytest

import model
import rathonsi
from memories import KEY, KEYS, MASTER, ROUTES, UID, CutMemory, Memory, PowerWent, opened

EVENTS = int(os.environ.get("RATHONSI_EVENTS", "5000"))
SENDS, RECEIVES = rathonsi.SENDS, rathonsi.RECEIVES


class CutAt(Memory):
    """A device that writes `whole` more bytes, in which the byte after them becomes `garbage`, and then has no power."""

    whole = 1 << 30
    garbage: int | None = None

    def write(self, offset: int, data: bytes) -> None:
        if len(data) <= self.whole:
            self.whole -= len(data)
            super().write(offset, data)
            return
        self.content[offset : offset + self.whole] = data[: self.whole]
        if self.garbage is not None:
            self.content[offset + self.whole] = self.garbage
        raise PowerWent


@pytest.mark.parametrize("garbage", [None, 0x00, 0xA7, 0xFF])
def test_a_cut_at_each_byte_of_each_write_of_a_reserve_and_a_load(garbage: int | None) -> None:
    update = rathonsi.Request(*model.request(MASTER, UID, 4, 1, 2, 5, b"\5" * 16))
    for whole in range(200):
        memory = CutAt(4000)
        rathonsi.make_store(memory, ROUTES, KEYS)
        store = opened(memory)
        for _ in range(4):
            store.send(0x120E, b"x")
        memory.whole, memory.garbage = whole, garbage
        survived = 0
        try:
            assert store.send(0x120E, b"x") == model.protect(KEY, 0x120E, 5, b"x")
            survived = 1
            store.load(UID, update)
            survived = 2
        except PowerWent:
            pass
        memory.whole = 1 << 30
        again = opened(memory)
        assert again.counter(0x120E, SENDS) in ((4, 8) if survived == 0 else (8,))
        key = again.confirm(UID, update.m1)
        old, new = (rathonsi.Reply(*model.reply(UID, 4, 1, *it)) for it in ((1, KEY), (5, b"\5" * 16)))
        assert key == new if survived == 2 else key in (old, new) if survived == 1 else key == old
        if survived == 2:
            return
    pytest.fail("the writes have no end")


@pytest.mark.parametrize("garbage", [None, 0x00, 0xA7, 0xFF])
def test_a_making_that_is_cut_at_any_byte_leaves_no_store_or_the_whole(garbage: int | None) -> None:
    size = 32 + 68 * 16
    for whole in range(0, size + 64):
        memory = CutAt(size)
        memory.whole, memory.garbage = whole, garbage
        try:
            rathonsi.make_store(memory, ROUTES, KEYS)
        except PowerWent:
            pass
        memory.whole = 1 << 30
        try:
            store = opened(memory)
        except rathonsi.NoStore:
            rathonsi.make_store(memory, ROUTES, KEYS)
            store = opened(memory)
        assert store.send(0x120E, b"x") == model.protect(KEY, 0x120E, 1, b"x")


def test_a_making_that_is_cut_within_its_header_goes_on_whatever_that_holds() -> None:
    """The device is longer than the store, so a header of another size may stand there."""
    drawn = random.Random(57)
    memory = Memory.made()
    whole = bytes(memory.content)
    headers = [whole[:at] + bytes([byte]) + bytes(31 - at) for at in (10, 11) for byte in range(256)]
    headers += [whole[:at] + drawn.randbytes(1) + whole[at + 1 : 32] for at in range(32) for _ in range(4)]
    headers += [drawn.randbytes(32) for _ in range(20)]
    for header in headers:
        if header == whole[:32]:
            continue
        memory.content[:] = header + whole[32:]
        with pytest.raises((rathonsi.NoStore, rathonsi.Damaged, rathonsi.WrongCell)):
            opened(memory)
        rathonsi.make_store(memory, ROUTES, KEYS)
        assert memory.content == whole


class World:
    """A unit over a device whose power goes, and what the world has seen of it, which no power cut takes back."""

    def __init__(self, seed: int) -> None:
        self.drawn = random.Random(seed)
        self.memory = CutMemory(seed=seed)
        self.memory.one_in = 1 << 30
        rathonsi.make_store(self.memory, self.routes(), KEYS)
        self.memory.one_in = 12
        self.sent = self.accepted = self.far_end = self.cuts = self.loads = 0
        self.key, self.counter = KEY, 1
        self.loading: tuple[bytes, int] | None = None
        self.power_up()

    def routes(self) -> tuple[rathonsi.Route, ...]:
        """Another reserve and window in each life."""
        return (
            rathonsi.Route(0x120E, SENDS, 4, reserve=self.drawn.randrange(1, 129)),
            rathonsi.Route(0x120F, RECEIVES, 4, reserve=self.drawn.randrange(1, 129)),
        )

    def power_up(self) -> None:
        routes = list(self.routes())
        self.drawn.shuffle(routes)
        self.store = opened(self.memory, tuple(routes))
        assert self.store.counter(0x120E, SENDS) >= self.sent
        assert self.store.counter(0x120F, RECEIVES) >= self.accepted
        self.far_end = max(self.far_end, self.store.counter(0x120F, RECEIVES))
        self.see_key()

    def see_key(self) -> None:
        """The key that was confirmed last; or the one that was being loaded as the power went."""
        reply = self.store.confirm(UID, model.head_of(UID, 4, 1))
        if self.loading is not None and (reply.m4, reply.m5) == model.reply(UID, 4, 1, self.loading[1], self.loading[0]):
            self.key, self.counter = self.loading
        self.loading = None
        assert (reply.m4, reply.m5) == model.reply(UID, 4, 1, self.counter, self.key)

    def send(self) -> None:
        payload = self.drawn.randbytes(self.drawn.randrange(1, 61))
        pdu = self.store.send(0x120E, payload)
        freshness = self.store.counter(0x120E, SENDS)
        assert pdu == model.protect(self.key, 0x120E, freshness, payload) and freshness > self.sent
        self.sent = freshness

    def receive(self) -> None:
        self.far_end += self.drawn.randrange(1, 4)
        pdu = model.protect(self.key, 0x120F, self.far_end, b"brake")
        accepted = self.store.receive(0x120F, pdu)
        assert accepted == rathonsi.Accepted(b"brake", self.far_end) and self.far_end > self.accepted
        self.accepted = self.far_end

    def replay(self) -> None:
        old = model.protect(self.key, 0x120F, max(0, self.accepted - self.drawn.randrange(60)), b"brake")
        with pytest.raises((rathonsi.FreshnessFailure, rathonsi.VerificationFailure)):
            self.store.receive(0x120F, old)

    def load(self) -> None:
        self.loading = self.drawn.randbytes(16), self.counter + 1
        key, counter = self.loading
        reply = self.store.load(UID, rathonsi.Request(*model.request(MASTER, UID, 4, 1, 2, counter, key)))
        assert (reply.m4, reply.m5) == model.reply(UID, 4, 1, counter, key)
        self.key, self.counter, self.loading, self.loads = key, counter, None, self.loads + 1

    def event(self) -> None:
        turn = self.drawn.randrange(200)
        try:
            if turn < 90:
                self.send()
            elif turn < 170:
                self.receive()
            elif turn < 190:
                self.replay()
            elif turn < 194:
                self.store.reserve(*self.drawn.choice([(0x120E, SENDS), (0x120F, RECEIVES)]))
            elif turn < 198:
                self.load()
            else:
                raise PowerWent
        except PowerWent:
            self.cuts += 1
            self.power_up()


def test_events_over_a_device_that_is_cut_at_any_byte_of_any_write() -> None:
    world = World(seed=57)
    for _ in range(EVENTS):
        world.event()
    assert world.sent > EVENTS // 4 and world.cuts > EVENTS // 200 and world.loads > EVENTS // 100
