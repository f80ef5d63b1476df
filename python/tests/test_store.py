"""A store beside the model of one, by drawn calls, and what keeps each duty of a caller of the library for C."""

import os
import signal
import threading
from collections.abc import Callable
from typing import Any

import pytest
from hypothesis import settings
from hypothesis import strategies as st
from hypothesis.stateful import RuleBasedStateMachine, invariant, rule

import model
import rathonsi
from memories import KEY, KEYS, MASTER, ROUTES, UID, Memory, opened
from rathonsi import _errors, _library

SENDS, RECEIVES = rathonsi.SENDS, rathonsi.RECEIVES
LAST = model.LAST
MODEL_ROUTES = (
    rathonsi.Route(1, SENDS, slot=4, reserve=3),
    rathonsi.Route(1, RECEIVES, slot=4, reserve=5, window=200),
    rathonsi.Route(2, SENDS, slot=5),
    rathonsi.Route(3, RECEIVES, slot=6, reserve=128, window=1),
    rathonsi.Route(4, SENDS, slot=13, start=LAST - 2),
    rathonsi.Route(5, RECEIVES, slot=4, start=LAST - 4, reserve=2),
)
uids = st.sampled_from([UID, bytes(15), b"\7" * 15])
numbers = st.sampled_from([0, 1, 2, 3, 4, 5, 6, 13])


def answer(call: Callable[[], Any]) -> object:
    """What a call gives, or the name of its refusal: of the package or of the model."""
    try:
        said = call()
    except rathonsi.Refused as refused:
        return type(refused).__name__
    except model.Refusal as refusal:
        return refusal.args[0]
    if isinstance(said, rathonsi.Accepted):
        return said.payload, said.freshness
    return (said.m4, said.m5) if isinstance(said, rathonsi.Reply) else said


class StoreBesideModel(RuleBasedStateMachine):
    def __init__(self) -> None:
        super().__init__()
        self.memory = Memory.made(MODEL_ROUTES, KEYS)
        self.store = opened(self.memory, MODEL_ROUTES)
        self.unit = model.Unit(
            {(it.data_id, int(it.direction)): model.Route(it.slot, it.reserve, it.window, it.start, it.start) for it in MODEL_ROUTES},
            {1: model.Slot(MASTER, 1, 0), 4: model.Slot(KEY, 1, 2)},
        )
        self.sent: list[tuple[int, bytes]] = []

    def same(self, ours: Callable[[], Any], wanted: Callable[[], Any]) -> object:
        wanted_answer = answer(wanted)
        assert answer(ours) == wanted_answer
        return wanted_answer

    @rule(data_id=st.sampled_from([1, 2, 4]), payload=st.binary(min_size=1, max_size=60))
    def send(self, data_id: int, payload: bytes) -> None:
        pdu = self.same(lambda: self.store.send(data_id, payload), lambda: self.unit.send(data_id, payload))
        if isinstance(pdu, bytes):
            self.sent.append((data_id, pdu))

    @rule(
        data_id=st.sampled_from([1, 3, 5]), slot=numbers, ahead=st.integers(-2, 300), payload=st.binary(min_size=1, max_size=60)
    )
    def receive(self, data_id: int, slot: int, ahead: int, payload: bytes) -> None:
        key = self.unit.slots[slot].key if slot in self.unit.slots else bytes(16)
        freshness = min(max(0, self.unit.routes[data_id, RECEIVES].counter + ahead), LAST)
        pdu = model.protect(key, data_id, freshness, payload)
        self.same(lambda: self.store.receive(data_id, pdu), lambda: self.unit.receive(data_id, pdu))

    @rule(data=st.data())
    def receive_what_was_sent(self, data: st.DataObject) -> None:
        if self.sent:
            _, pdu = data.draw(st.sampled_from(self.sent))
            self.same(lambda: self.store.receive(1, pdu), lambda: self.unit.receive(1, pdu))

    @rule(data_id=st.sampled_from([1, 3, 5]), pdu=st.binary(max_size=70))
    def receive_any_bytes(self, data_id: int, pdu: bytes) -> None:
        self.same(lambda: self.store.receive(data_id, pdu), lambda: self.unit.receive(data_id, pdu))

    @rule(data_id=st.sampled_from([1, 3, 5]), ahead=st.integers(-2, 700))
    def catch_up(self, data_id: int, ahead: int) -> None:
        freshness = min(max(0, self.unit.routes[data_id, RECEIVES].counter + ahead), LAST)
        self.same(lambda: self.store.catch_up(data_id, freshness), lambda: self.unit.catch_up(data_id, freshness))

    @rule(which=st.sampled_from(MODEL_ROUTES))
    def reserve(self, which: rathonsi.Route) -> None:
        self.store.reserve(which.data_id, which.direction)
        self.unit.reserve(which.data_id, int(which.direction))

    @rule(which=st.sampled_from(MODEL_ROUTES), least=st.integers(1, 128))
    def reserve_ahead(self, which: rathonsi.Route, least: int) -> None:
        self.store.reserve(which.data_id, which.direction, least)
        self.unit.reserve_ahead(which.data_id, int(which.direction), least)

    @rule(
        uid=uids, slot=numbers, auth=numbers, by=numbers, flags=st.integers(0, 31) | st.just(2), ahead=st.integers(-1, 2),
        key=st.binary(min_size=16, max_size=16), turned=st.sampled_from([None] * 4 + list(range(0, 512, 37))),
    )
    def load(
        self, uid: bytes, slot: int, auth: int, by: int, flags: int, ahead: int, key: bytes, turned: int | None
    ) -> None:
        holder = self.unit.slots.get(by if by % 2 else auth)
        old = self.unit.slots.get(slot)
        counter = max(0, (old.counter if old else 0) + ahead)
        messages = model.request(holder.key if holder else b"\xff" * 16, uid, slot, auth, flags, counter, key)
        if turned is not None:
            whole = bytearray(b"".join(messages))
            whole[turned // 8] ^= 1 << turned % 8
            messages = bytes(whole[:16]), bytes(whole[16:48]), bytes(whole[48:])
        asked = rathonsi.Request(*messages)
        self.same(lambda: self.store.load(UID, asked), lambda: self.unit.load(UID, *messages))

    @rule(uid=uids, slot=st.integers(0, 15), auth=st.integers(0, 15))
    def confirm(self, uid: bytes, slot: int, auth: int) -> None:
        m1 = model.head_of(uid, slot, auth)
        self.same(lambda: self.store.confirm(UID, m1), lambda: self.unit.confirm(UID, m1))

    @rule(booted=st.booleans())
    def boot(self, booted: bool) -> None:
        self.store.booted = self.unit.booted = booted

    @rule()
    def power_up(self) -> None:
        self.store = opened(self.memory, MODEL_ROUTES)
        self.unit.power_up()

    @invariant()
    def counters_agree(self) -> None:
        for (data_id, direction), route in self.unit.routes.items():
            assert self.store.counter(data_id, rathonsi.Direction(direction)) == route.counter


StoreBesideModel.TestCase.settings = settings(stateful_step_count=40)
TestStoreBesideModel = StoreBesideModel.TestCase


# ---- Every refusal


def test_there_is_one_class_a_status_and_all_are_below_refused() -> None:
    names = "BadLength BadValue FreshnessFailure VerificationFailure BadId BadMac NoStore Damaged Busy Reserve Exhausted".split()
    names += "KeyEmpty KeyInvalid KeyNotAvailable KeyWriteProtected KeyUpdateError WrongCell Failed".split()
    names += "DuplicateId StalePlan Covered".split()
    for status, name in enumerate(names, 1):
        refusal = getattr(rathonsi, name)
        assert issubclass(refusal, rathonsi.Refused) and refusal.status == status
        with pytest.raises(refusal) as caught:
            _errors.raise_unless_ok(status)
        assert type(caught.value) is refusal and str(caught.value) == refusal.text != ""
    assert sorted(_errors.REFUSALS) == list(range(1, 22))
    _errors.raise_unless_ok(0)
    with pytest.raises(rathonsi.Refused):
        _errors.raise_unless_ok(17)


def update_of(slot: int, flags: int, counter: int = 1) -> rathonsi.Request:
    return rathonsi.Request(*model.request(MASTER, UID, slot, 1, flags, counter, KEY))


def test_each_refusal_that_a_call_can_give() -> None:
    routes = (
        *ROUTES,
        rathonsi.Route(1, SENDS, slot=5),
        rathonsi.Route(2, SENDS, slot=6),
        rathonsi.Route(3, SENDS, slot=7),
        rathonsi.Route(4, SENDS, slot=4, start=LAST),
    )
    memory = Memory.made(routes)
    store = opened(memory, routes)
    store.load(UID, update_of(6, flags=0))
    store.load(UID, update_of(7, flags=2 | 8))
    store.load(UID, update_of(8, flags=2 | 16))
    good = model.protect(KEY, 0x120F, 1, b"payload")
    rows: list[tuple[type[rathonsi.Refused], Callable[[], object]]] = [
        (rathonsi.BadLength, lambda: store.receive(0x120F, b"four")),
        (rathonsi.FreshnessFailure, lambda: rathonsi.verify(KEY, 0x120F, 1, good, 1)),
        (rathonsi.VerificationFailure, lambda: store.receive(0x120F, good[:-1] + b"\0")),
        (rathonsi.BadId, lambda: store.confirm(UID, b"\xee" * 16)),
        (rathonsi.BadMac, lambda: rathonsi.read_update(KEY, update_of(4, 2))),
        (rathonsi.NoStore, lambda: opened(Memory(4000))),
        (rathonsi.Exhausted, lambda: store.send(4, b"x")),
        (rathonsi.KeyEmpty, lambda: store.send(1, b"x")),
        (rathonsi.KeyInvalid, lambda: store.send(2, b"x")),
        (rathonsi.KeyNotAvailable, lambda: store.send(3, b"x")),
        (rathonsi.KeyWriteProtected, lambda: store.load(UID, update_of(8, 2, 2))),
        (rathonsi.KeyUpdateError, lambda: store.load(UID, update_of(4, 2, 1))),
    ]
    for refusal, call in rows:
        content = bytes(memory.content)
        with pytest.raises(refusal) as caught:
            call()
        assert type(caught.value) is refusal and memory.content == content
    store.booted = True
    assert store.send(3, b"x") == model.protect(KEY, 3, 1, b"x")


def test_damaged_stores() -> None:
    for place in (32, 32 + 68 * 13, 32 + 68 * 14, 32 + 68 * 15):
        memory = Memory.made()
        memory.content[place] = memory.content[place + 34] = 0
        with pytest.raises(rathonsi.Damaged):
            opened(memory)
    memory = Memory.made()
    for route in (rathonsi.Route(0x120E, RECEIVES, 4), rathonsi.Route(0x1210, SENDS, 4)):
        with pytest.raises(rathonsi.WrongCell):
            opened(memory, (route,))


def test_two_cells_of_one_route_are_a_wrong_cell() -> None:
    memory = Memory.made()
    memory.content[32 + 68 * 15 : 32 + 68 * 16] = memory.content[32 + 68 * 14 : 32 + 68 * 15]
    with pytest.raises(rathonsi.WrongCell):
        opened(memory, ROUTES[:1])


# ---- The duties of rathonsi_store.h


def test_the_order_of_routes_plays_no_part() -> None:
    memory = Memory.made()
    store = opened(memory)
    first = store.send(0x120E, b"x")
    again = opened(memory, ROUTES[::-1])
    assert first == model.protect(KEY, 0x120E, 1, b"x") and again.counter(0x120E, SENDS) == 4
    assert opened(memory, ROUTES[1:]).counter(0x120F, RECEIVES) == 0


def test_writes_come_in_the_order_of_the_plan_and_before_the_pdu() -> None:
    memory = Memory.made()
    store = opened(memory)
    memory.writes.clear()
    store.send(0x120E, b"x")
    assert 2 <= len(memory.writes) <= 3
    gate = memory.writes[-1]
    assert len(gate[1]) == 1 and gate[1] != b"\0"
    bound = opened(memory).counter(0x120E, SENDS)
    assert bound == 4
    memory.writes.clear()
    later = opened(memory)
    assert [later.send(0x120E, b"x") for _ in range(4)] == [model.protect(KEY, 0x120E, n, b"x") for n in range(5, 9)]
    assert len(memory.writes) == 3


class FailingMemory(Memory):
    """A device whose write of one number fails, before or after it was done."""

    fails_at, done_first, error = -1, False, OSError("the device is gone")
    count = 0

    def write(self, offset: int, data: bytes) -> None:
        self.count += 1
        if self.count == self.fails_at:
            if self.done_first:
                super().write(offset, data)
            raise self.error
        super().write(offset, data)


@pytest.mark.parametrize("error", [OSError("gone"), ValueError("of the device"), KeyboardInterrupt(), SystemExit(), PermissionError()])
@pytest.mark.parametrize("done_first", [False, True])
@pytest.mark.parametrize("nth", [1, 2, 3])
def test_a_failed_write_ends_the_object_and_a_new_one_goes_on(error: BaseException, done_first: bool, nth: int) -> None:
    memory = FailingMemory(4000)
    rathonsi.make_store(memory, ROUTES, KEYS)
    store = opened(memory)
    store.send(0x120E, b"x")
    for _ in range(3):
        store.send(0x120E, b"x")
    memory.fails_at, memory.count, memory.done_first, memory.error = nth, 0, done_first, error  # type: ignore[assignment]
    with pytest.raises(type(error)):
        store.send(0x120E, b"x")
    content = bytes(memory.content)
    calls: list[Callable[[], object]] = [
        lambda: store.send(0x120E, b"x"),
        lambda: store.receive(0x120F, bytes(12)),
        lambda: store.reserve(0x120E, SENDS),
        lambda: store.counter(0x120E, SENDS),
        lambda: store.load(UID, update_of(4, 2, 2)),
        lambda: store.confirm(UID, bytes(16)),
        lambda: setattr(store, "booted", True),
    ]
    for call in calls:
        with pytest.raises(rathonsi.Unusable):
            call()
    assert memory.content == content and memory.count == nth
    with pytest.raises(rathonsi.Unusable, match="failed or was interrupted"):
        store.close()
        store.send(0x120E, b"x")
    memory.fails_at = -1
    again = opened(memory)
    assert again.counter(0x120E, SENDS) in (4, 8)
    counter = again.counter(0x120E, SENDS)
    assert again.send(0x120E, b"x") == model.protect(KEY, 0x120E, counter + 1, b"x")


def test_an_older_store_of_a_device_ends_when_a_new_one_is_opened() -> None:
    memory = Memory.made()
    older = opened(memory)
    newer = opened(memory)
    with pytest.raises(rathonsi.Unusable, match="another store was opened"):
        older.send(0x120E, b"x")
    newer.send(0x120E, b"x")
    other = opened(Memory.made())
    newer.send(0x120E, b"x")
    other.send(0x120E, b"x")


def test_a_store_that_is_opened_within_a_write_ends_the_one_that_writes() -> None:
    class Nested(Memory):
        inner: rathonsi.Store | None = None
        nest = False

        def write(self, offset: int, data: bytes) -> None:
            super().write(offset, data)
            if self.nest:
                self.nest = False
                self.inner = opened(self)

    memory = Nested(4000)
    rathonsi.make_store(memory, ROUTES, KEYS)
    store = opened(memory)
    memory.nest, memory.writes = True, []
    with pytest.raises(rathonsi.Unusable):
        store.send(0x120E, b"x")
    assert len(memory.writes) == 1 and memory.inner is not None
    assert memory.inner.send(0x120E, b"x") == model.protect(KEY, 0x120E, memory.inner.counter(0x120E, SENDS), b"x")
    with pytest.raises(rathonsi.Unusable):
        store.counter(0x120E, SENDS)


def test_a_device_that_calls_its_store_within_a_write_is_refused() -> None:
    class Calling(Memory):
        store: rathonsi.Store | None = None

        def write(self, offset: int, data: bytes) -> None:
            if self.store is not None:
                self.store.send(0x120E, b"x")
            super().write(offset, data)

    memory = Calling(4000)
    rathonsi.make_store(memory, ROUTES, KEYS)
    memory.store = opened(memory)
    with pytest.raises(rathonsi.Unusable):
        memory.store.send(0x120E, b"x")


def test_a_store_that_is_closed_within_a_write_ends_after_it() -> None:
    class Closing(Memory):
        store: rathonsi.Store | None = None

        def write(self, offset: int, data: bytes) -> None:
            super().write(offset, data)
            if self.store is not None:
                self.store.close()

    memory = Closing(4000)
    rathonsi.make_store(memory, ROUTES, KEYS)
    memory.store, memory.writes = opened(memory), []
    with pytest.raises(rathonsi.Unusable, match="closed"):
        memory.store.send(0x120E, b"x")
    assert len(memory.writes) == 1
    memory.store = None
    assert opened(memory).send(0x120E, b"x") == model.protect(KEY, 0x120E, 1, b"x")


def test_a_store_is_opened_once() -> None:
    memory = Memory.made()
    store = opened(memory)
    with pytest.raises(TypeError):
        store.__init__(memory, ROUTES)  # type: ignore[misc]
    store.send(0x120E, b"x")


def test_an_opening_that_is_interrupted_leaves_one_store() -> None:
    class Interrupted(Memory):
        now = False

        def read(self) -> bytes:
            if self.now:
                raise KeyboardInterrupt
            return super().read()

    memory = Interrupted(4000)
    rathonsi.make_store(memory, ROUTES, KEYS)
    store = opened(memory)
    memory.now = True
    with pytest.raises(KeyboardInterrupt):
        opened(memory)
    memory.now = False
    with pytest.raises(rathonsi.Unusable):
        store.send(0x120E, b"x")
    assert opened(memory).send(0x120E, b"x") == model.protect(KEY, 0x120E, 1, b"x")


def test_a_receiver_that_fell_behind_catches_up() -> None:
    memory = Memory.made()
    store = opened(memory)
    far = model.protect(KEY, 0x120F, 5001, b"brake")
    with pytest.raises(rathonsi.VerificationFailure):
        store.receive(0x120F, far)
    store.catch_up(0x120F, 4990)
    assert store.counter(0x120F, RECEIVES) == 4993
    assert store.receive(0x120F, far) == rathonsi.Accepted(b"brake", 5001)
    with pytest.raises(rathonsi.VerificationFailure):
        opened(memory).receive(0x120F, far)


def test_a_sender_that_reserves_ahead_never_waits_for_a_write() -> None:
    route = rathonsi.Route(1, SENDS, 4, reserve=8)
    memory = Memory.made((route,))
    store = opened(memory, (route,))
    store.reserve(1, SENDS, least=3)
    for number in range(1, 100):
        before = len(memory.writes)
        store.send(1, b"x")
        assert len(memory.writes) == before
        store.reserve(1, SENDS, least=3)
        assert (len(memory.writes) > before) == (number % 8 == 6)
    assert opened(memory, (route,)).counter(1, SENDS) - 99 < 8 + 3
    for least in (0, 129):
        with pytest.raises(ValueError, match="least"):
            store.reserve(1, SENDS, least)


def test_a_receiver_isnt_brought_to_the_end_of_its_counter() -> None:
    store = opened(Memory.made())
    with pytest.raises(rathonsi.Exhausted):
        store.catch_up(0x120F, LAST - 3)
    assert store.counter(0x120F, RECEIVES) == 0
    store.catch_up(0x120F, LAST - 4)
    assert store.counter(0x120F, RECEIVES) == LAST - 1


def test_a_closed_store() -> None:
    with opened(Memory.made()) as store:
        store.send(0x120E, b"x")
    store.close()
    with pytest.raises(rathonsi.Unusable, match="closed"):
        store.send(0x120E, b"x")


def test_a_signal_handler_may_send() -> None:
    route = rathonsi.Route(1, SENDS, 4, reserve=2)
    store = opened(Memory.made((route,)), (route,))
    pdus: list[bytes] = []
    refused = 0

    def handle(*_: object) -> None:
        nonlocal refused
        try:
            pdus.append(store.send(1, b"x"))
        except rathonsi.Unusable:
            refused += 1  # a plan was being done

    old = signal.signal(signal.SIGALRM, handle)
    signal.setitimer(signal.ITIMER_REAL, 0.0003, 0.0003)
    try:
        for _ in range(20000):
            pdus.append(store.send(1, b"x"))
    finally:
        signal.setitimer(signal.ITIMER_REAL, 0)
        signal.signal(signal.SIGALRM, old)
    assert len(pdus) > 20000 and refused > 0
    assert sorted(pdus) == sorted(model.protect(KEY, 1, n, b"x") for n in range(1, len(pdus) + 1))


def test_threads_take_turns() -> None:
    store = opened(Memory.made())
    pdus: list[bytes] = []

    def send() -> None:
        for _ in range(400):
            pdus.append(store.send(0x120E, b"x"))

    threads = [threading.Thread(target=send) for _ in range(4)]
    for thread in threads:
        thread.start()
    for thread in threads:
        thread.join()
    assert sorted(pdus) == sorted(model.protect(KEY, 0x120E, n, b"x") for n in range(1, 1601))


def test_stores_opened_at_once_in_threads_leave_one() -> None:
    memory = Memory.made()
    stores: list[rathonsi.Store] = []

    def open_one() -> None:
        try:
            stores.append(opened(memory))
        except rathonsi.Unusable:
            pass  # another was opened meanwhile

    threads = [threading.Thread(target=open_one) for _ in range(8)]
    for thread in threads:
        thread.start()
    for thread in threads:
        thread.join()
    usable = 0
    for store in stores:
        try:
            store.send(0x120E, b"x")
            usable += 1
        except rathonsi.Unusable:
            pass
    assert usable == 1


def test_a_fork_leaves_the_store_to_the_parent() -> None:
    store = opened(Memory.made())
    child = os.fork()
    if child == 0:
        try:
            store.send(0x120E, b"x")
        except rathonsi.Unusable:
            os._exit(7)
        os._exit(0)
    assert os.waitstatus_to_exitcode(os.waitpid(child, 0)[1]) == 7
    store.send(0x120E, b"x")


def test_a_device_with_a_store_is_not_made_anew() -> None:
    memory = Memory.made()
    with pytest.raises(ValueError):
        rathonsi.make_store(memory, ROUTES)
    memory.content[32] = memory.content[66] = 0
    with pytest.raises(ValueError):
        rathonsi.make_store(memory, ROUTES)


def test_what_is_no_store_of_this_kind_is_neither_opened_nor_written_over() -> None:
    memory = Memory.made()
    store = opened(memory)
    store.send(0x120E, b"x")
    store.load(UID, update_of(5, 2))
    made, size = bytes(memory.content), 32 + 68 * 16
    rows = {
        "a log store": made[:8] + b"\2" + made[9:],
        "a version that isn't known": made[:9] + b"\3" + made[10:],
        "a header that isn't zero to its end": made[:31] + b"\1" + made[32:],
        "a store that was cut short": made[: size - 1],
        "a store moved to version 2": made + bytes(32768 - 4000) + b"SECOCST1\1\2\0\20" + bytes(20),
        "a store of version 2 alone": bytes(32768) + b"SECOCST1\1\2\0\20" + bytes(20),
    }
    for name, content in rows.items():
        memory = Memory()
        memory.content = bytearray(content)
        with pytest.raises(rathonsi.NoStore) as caught:
            opened(memory)
        assert str(caught.value) != rathonsi.NoStore.text, name
        for routes in (ROUTES, ROUTES[:1], ()):
            with pytest.raises(ValueError):
                rathonsi.make_store(memory, routes, KEYS)
        assert memory.content == content, name


def test_a_longer_store_is_not_written_over_by_the_first_of_its_routes() -> None:
    last = rathonsi.Route(0x1210, SENDS, slot=4)
    memory = Memory.made((*ROUTES, last))
    opened(memory, (*ROUTES, last)).send(0x1210, b"x")
    for routes in (ROUTES, (*ROUTES, last)):
        with pytest.raises(ValueError):
            rathonsi.make_store(memory, routes, KEYS)
    assert opened(memory, (*ROUTES, last)).counter(0x1210, SENDS) == 1


def test_a_device_over_another_object() -> None:
    class Remote:
        """As a proxy of another process is: it has no method of its own."""

        def __init__(self, memory: Memory) -> None:
            self.memory = memory

        def __getattr__(self, name: str) -> Any:
            return getattr(self.memory, name)

    device: Any = Remote(Memory.made())
    assert rathonsi.Store(device, ROUTES).send(0x120E, b"x") == model.protect(KEY, 0x120E, 1, b"x")
    wrong: list[dict[str, Any]] = [{"read": 5, "write": 5}, {"read": lambda self: b""}, {"write": lambda self, *_: None}]
    for attributes in wrong:
        with pytest.raises(TypeError):
            rathonsi.Store(type("Wrong", (), attributes)(), ROUTES)


def test_a_device_longer_than_its_store_and_the_most_routes() -> None:
    routes = tuple(rathonsi.Route(n, SENDS if n % 2 else RECEIVES, 4, start=n) for n in range(256))
    memory = Memory(40000)
    rathonsi.make_store(memory, routes, KEYS)
    assert memory.content[32 + 68 * 270 :] == bytes(40000 - 32 - 68 * 270)
    store = opened(memory, routes)
    assert [store.counter(it.data_id, it.direction) for it in routes] == list(range(256))


def test_a_plan_is_empty_at_each_power_up() -> None:
    store = opened(Memory.made())
    assert bytes(store._plan) == bytes(144)
    store.send(0x120E, b"x")
    assert bytes(store._plan) == bytes(144)


def test_a_reply_that_was_lost_is_had_again() -> None:
    memory = Memory.made()
    store = opened(memory)
    request = update_of(4, 2, 9)
    reply = store.load(UID, request)
    assert (reply.m4, reply.m5) == model.reply(UID, 4, 1, 9, KEY)
    assert opened(memory).confirm(UID, request.m1) == reply


def test_a_status_that_store_done_never_gives_ends_the_object(monkeypatch: pytest.MonkeyPatch) -> None:
    store = opened(Memory.made())
    monkeypatch.setattr(_library, "store_done", lambda *_: 2)
    with pytest.raises(rathonsi.Damaged):
        store.send(0x120E, b"x")
    with pytest.raises(rathonsi.Unusable):
        store.send(0x120E, b"x")
