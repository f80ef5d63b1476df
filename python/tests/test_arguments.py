"""Wrong arguments: each is a TypeError or a ValueError before C is called, and nothing that is handed in crashes."""

import array
import copy
import ctypes
import enum
import operator
import os
import pickle
import tempfile
from collections.abc import Callable
from pathlib import Path
from typing import Any

import pytest
from hypothesis import given, settings
from hypothesis import strategies as st

import rathonsi
from memories import KEY, KEYS, ROUTES, UID, Memory, opened
from rathonsi import _library
from rathonsi._arguments import PAYLOAD_MOST, PDU_MOST, TRAILER

UPDATE = rathonsi.Update(UID, 4, 1, 0, 1, KEY)
REQUEST = rathonsi.Request(bytes(16), bytes(32), bytes(16))
PDU = bytes(12)
FUNCTION: Any = getattr(ctypes, "_CFuncPtr")


class LyingBytes(bytes):
    """Says that it is longer, or shorter, than it is."""

    said = 1 << 40

    def __len__(self) -> int:
        return self.said

    def __bytes__(self) -> bytes:
        return b"other bytes"


class LyingNumber(int):
    """Says that it is within every range."""

    def __le__(self, other: object) -> bool:
        return True

    __ge__ = __lt__ = __gt__ = __le__

    def __index__(self) -> int:
        return 1 << 400


class Raises:
    """Raises whatever is asked of it."""

    def __getattribute__(self, name: str) -> Any:
        raise RuntimeError(name)

    def __index__(self) -> int:
        raise ZeroDivisionError


class Kind:
    """Of what an argument may be: what is of another type, and what is of it and outside its range."""

    def __init__(self, wrong: list[Any], outside: list[Any]) -> None:
        self.wrong, self.outside = wrong, outside


NO_BYTES = [None, "text", 5, 1.5, [1, 2], (), {}, object(), array.array("I", [1, 2, 3, 4]), memoryview(array.array("I", range(4))), Raises()]
NO_NUMBER = [None, "1", 1.0, b"1", [], True, False, 1j, object(), float("nan"), ctypes.c_int(1)]


def octets(*outside: int) -> Kind:
    return Kind(NO_BYTES, [bytes(length) for length in outside])


def whole(*outside: int) -> Kind:
    return Kind(NO_NUMBER, [*outside, -1, -(2**70), 2**64, 2**64 + 1, 2**20000])


key, message, text, iv = octets(0, 15, 17, 32), octets(), octets(1, 15, 17), octets(0, 15, 17)
payload, pdu, uid, block = octets(0, 61, 64, 1000), octets(0, 1, 4, 65, 4096), octets(0, 14, 16), octets(0, 15, 17)
data_id, freshness, window = whole(0x10000), whole(), whole(0, 257, 65536 + 1)
slot, flags, counter, purpose = whole(14, 256), whole(32, 256), whole(2**28, 2**32), whole(0, 3, 2**32 + 1)
direction, name, truth = whole(0, 3), whole(2**32), Kind([None, 0, 1, "", b"", object()], [])
update, request = Kind([None, b"", 4, (UID, 4, 1, 0, 1, KEY), REQUEST], []), Kind([None, b"", 4, UPDATE], [])

CALLS: list[tuple[Callable[..., Any], list[Any], list[Kind]]] = [
    (rathonsi.cmac, [KEY, b"message"], [key, message]),
    (rathonsi.aes128_encrypt, [KEY, bytes(32)], [key, text]),
    (rathonsi.aes128_decrypt, [KEY, bytes(32)], [key, text]),
    (rathonsi.aes128_cbc_encrypt, [KEY, bytes(16), bytes(32)], [key, iv, text]),
    (rathonsi.aes128_cbc_decrypt, [KEY, bytes(16), bytes(32)], [key, iv, text]),
    (rathonsi.protect, [KEY, 0x6BC1, 1, b"payload"], [key, data_id, freshness, payload]),
    (rathonsi.verify, [KEY, 0x6BC1, 1, PDU, 256], [key, data_id, freshness, pdu, window]),
    (rathonsi.derive, [KEY, 1], [key, purpose]),
    (rathonsi.make_update, [KEY, UPDATE], [key, update]),
    (rathonsi.read_update, [KEY, REQUEST], [key, request]),
    (rathonsi.confirm, [UPDATE, UID], [update, uid]),
    (rathonsi.Update, [UID, 4, 1, 0, 1, KEY], [uid, slot, slot, flags, counter, key]),
    (rathonsi.Request, [bytes(16), bytes(32), bytes(16)], [block, octets(0, 31, 33), block]),
    (rathonsi.Reply, [bytes(32), bytes(16)], [octets(0, 31, 33), block]),
    (rathonsi.Route, [1, 1, 4, 1, 1, 0, False], [data_id, direction, whole(3, 14), whole(0, 129), whole(0, 257), freshness, truth]),
    (rathonsi.Question, [1, 2, bytes(16)], [name, name, block]),
]
STORE_CALLS: list[tuple[str, list[Any], list[Kind]]] = [
    ("send", [0x120E, b"payload"], [data_id, payload]),
    ("receive", [0x120F, PDU], [data_id, pdu]),
    ("reserve", [0x120E, 1], [data_id, direction]),
    ("counter", [0x120E, 1], [data_id, direction]),
    ("catch_up", [0x120F, 1], [data_id, freshness]),
    ("load", [UID, REQUEST], [uid, request]),
    ("confirm", [UID, bytes(16)], [uid, block]),
]


@pytest.fixture
def no_library(monkeypatch: pytest.MonkeyPatch) -> None:
    """Nothing of C may be called."""

    def called(*arguments: object) -> None:
        pytest.fail("C is called")

    for name, value in vars(_library).copy().items():
        if isinstance(value, FUNCTION):
            monkeypatch.setattr(_library, name, called)


def try_each(call: Callable[..., Any], good: list[Any], kinds: list[Kind]) -> int:
    count = 0
    for place, kind in enumerate(kinds):
        for bad, error in [(it, TypeError) for it in kind.wrong] + [(it, ValueError) for it in kind.outside]:
            with pytest.raises((error, RuntimeError) if type(bad) is Raises else error):
                call(*good[:place], bad, *good[place + 1 :])
            count += 1
    return count


def test_each_wrong_argument_of_a_call(no_library: None) -> None:
    assert sum(try_each(*row) for row in CALLS) > 500


def test_each_wrong_argument_of_a_store(monkeypatch: pytest.MonkeyPatch) -> None:
    store = opened(Memory.made())
    for name, value in vars(_library).copy().items():
        if isinstance(value, FUNCTION):
            monkeypatch.setattr(_library, name, lambda *arguments: pytest.fail("C is called"))
    assert sum(try_each(getattr(store, name), good, kinds) for name, good, kinds in STORE_CALLS) > 100
    for bad in (0, 1, None, "yes", b"\1"):
        with pytest.raises(TypeError):
            store.booted = bad  # type: ignore[assignment]


def test_routes_that_are_none_or_two_of_one_kind() -> None:
    one = rathonsi.Route(1, rathonsi.SENDS, 4)
    memory = Memory.made()
    for routes in ([one, one], [rathonsi.Route(n, rathonsi.SENDS, 4) for n in range(257)]):
        with pytest.raises(ValueError):
            rathonsi.Store(memory, routes)
        with pytest.raises(ValueError):
            rathonsi.make_store(Memory(), routes)
    for wrong in (5, None, [5], [None], ["route"]):
        with pytest.raises(TypeError):
            rathonsi.Store(memory, wrong)  # type: ignore[arg-type]
    for outside in ({0: KEY}, {3: KEY}, {14: KEY}, {4: KEY[1:]}, {-1: KEY}):
        with pytest.raises(ValueError):
            rathonsi.make_store(Memory(), [one], outside)
    wrong_keys: list[Any] = [5, [KEY], {4: "key"}, {"4": KEY}, {4: None}]
    for keys in wrong_keys:
        with pytest.raises(TypeError):
            rathonsi.make_store(Memory(), [one], keys)


def test_data_ids_without_a_route() -> None:
    store = opened(Memory.made())
    calls: list[Callable[[], object]] = [lambda: store.send(0x120F, b"x"), lambda: store.receive(0x120E, PDU), lambda: store.counter(9, rathonsi.SENDS)]
    for call in calls:
        with pytest.raises(ValueError):
            call()


def test_devices_that_read_no_bytes() -> None:
    class Wrong:
        def __init__(self, content: Any) -> None:
            self.content = content

        def read(self) -> Any:
            return self.content

        def write(self, offset: int, data: bytes) -> None:
            pytest.fail("nothing is written")

    for content in (None, "text", 5, [1]):
        with pytest.raises(TypeError):
            rathonsi.Store(Wrong(content), [])
        with pytest.raises(TypeError):
            rathonsi.make_store(Wrong(content), [])
    for empty in (b"", bytes(31), bytes(32 + 68 * 14 - 1)):
        with pytest.raises(rathonsi.NoStore):
            rathonsi.Store(Wrong(empty), [])
        with pytest.raises(ValueError):
            rathonsi.make_store(Wrong(empty), [])
    for no_device in (object(), None, b"bytes", 5):
        with pytest.raises(TypeError):
            rathonsi.Store(no_device, [])  # type: ignore[arg-type]
        with pytest.raises(TypeError):
            rathonsi.make_store(no_device, [])  # type: ignore[arg-type]


def test_values_that_lie_of_themselves() -> None:
    for said in (0, 16, 1 << 40, -1):
        LyingBytes.said = said
        assert rathonsi.cmac(LyingBytes(KEY), LyingBytes(b"abc")) == rathonsi.cmac(KEY, b"abc")
        with pytest.raises(ValueError):
            rathonsi.cmac(LyingBytes(b"short"), b"")
        assert rathonsi.protect(KEY, 1, 1, LyingBytes(b"abc")) == rathonsi.protect(KEY, 1, 1, b"abc")
    with pytest.raises(ValueError):
        rathonsi.protect(KEY, LyingNumber(1 << 16), 1, b"abc")
    with pytest.raises(ValueError):
        rathonsi.verify(KEY, 1, 1, PDU, LyingNumber(65537))
    assert operator.index(LyingNumber(7)) == 7


def test_a_struct_that_was_changed_by_force() -> None:
    broken = copy.copy(UPDATE)
    object.__setattr__(broken, "key", b"short")
    with pytest.raises(ValueError):
        rathonsi.make_update(KEY, broken)
    object.__setattr__(broken, "key", None)
    with pytest.raises(TypeError):
        rathonsi.confirm(broken, UID)
    route = rathonsi.Route(1, rathonsi.SENDS, 4)
    object.__setattr__(route, "slot", 400)
    with pytest.raises(ValueError):
        rathonsi.make_store(Memory(), [route])
    bare = object.__new__(rathonsi.Update)
    with pytest.raises(AttributeError):
        rathonsi.make_update(KEY, bare)


def test_a_released_memoryview() -> None:
    view = memoryview(bytearray(16))
    view.release()
    with pytest.raises(ValueError):
        rathonsi.cmac(view, b"")


def test_a_store_is_neither_copied_nor_pickled() -> None:
    store = opened(Memory.made())
    turns: list[Callable[[Any], Any]] = [copy.copy, copy.deepcopy, pickle.dumps]
    for turn in turns:
        with pytest.raises(TypeError):
            turn(store)


anything = st.recursive(
    st.none() | st.booleans() | st.integers() | st.floats() | st.text(max_size=5) | st.binary(max_size=70) | st.complex_numbers()
    | st.binary(max_size=70).map(bytearray) | st.binary(max_size=70).map(memoryview) | st.binary(max_size=20).map(LyingBytes)
    | st.integers().map(LyingNumber) | st.sampled_from([KEY, UID, UPDATE, REQUEST, PDU, Raises(), object(), int, len]),
    lambda inner: st.lists(inner, max_size=3) | st.dictionaries(st.integers() | st.text(max_size=2), inner, max_size=2),
    max_leaves=4,
)


@settings(max_examples=6 * settings().max_examples)
@given(st.sampled_from(CALLS), st.data())
def test_any_arguments_at_all(row: tuple[Callable[..., Any], list[Any], list[Kind]], data: st.DataObject) -> None:
    call, good, _ = row
    arguments = [data.draw(anything | st.just(it)) for it in good]
    try:
        call(*arguments)
    except (TypeError, ValueError, rathonsi.Refused, RuntimeError, ZeroDivisionError, AttributeError):
        pass


def hashable(value: object) -> bool:
    try:
        hash(value)
    except Exception:
        return False
    return True


FUZZED = opened(Memory.made())


@settings(max_examples=6 * settings().max_examples)
@given(st.sampled_from(STORE_CALLS), st.data())
def test_any_arguments_of_a_store_at_all(row: tuple[str, list[Any], list[Kind]], data: st.DataObject) -> None:
    name, good, _ = row
    arguments = [data.draw(anything | st.just(it)) for it in good]
    try:
        getattr(FUZZED, name)(*arguments)
    except (TypeError, ValueError, rathonsi.Refused, RuntimeError, ZeroDivisionError, AttributeError):
        pass
    assert FUZZED.counter(0x120E, rathonsi.SENDS) >= 0


@given(st.data())
def test_any_arguments_of_the_openings_and_makings_at_all(data: st.DataObject) -> None:
    with tempfile.TemporaryDirectory() as folder:
        path = Path(folder, "unit.store")
        if data.draw(st.booleans()):
            rathonsi.make_file_store(path, ROUTES, KEYS)
        devices = st.just(Memory.made()) | st.just(Memory())
        paths = anything.filter(lambda it: not isinstance(it, str)) | st.just(path) | st.just(folder) | st.just("a\0b")
        routes = anything | st.just(ROUTES) | st.lists(st.sampled_from(ROUTES) | anything, max_size=3)
        keys = anything | st.just(KEYS) | st.dictionaries(st.integers(0, 14) | anything.filter(hashable), anything | st.just(KEY), max_size=3)
        rows: list[tuple[Callable[..., object], list[Any]]] = [
            (rathonsi.Store, [devices | anything, routes]),
            (rathonsi.FileStore, [paths, routes]),
            (rathonsi.make_store, [devices | anything, routes, keys]),
            (rathonsi.make_file_store, [paths, routes, keys]),
        ]
        call, drawn = data.draw(st.sampled_from(rows))
        try:
            call(*(data.draw(it) for it in drawn))
        except (TypeError, ValueError, rathonsi.Refused, RuntimeError, ZeroDivisionError, OSError):
            pass
        assert set(os.listdir(folder)) <= {"unit.store"}


def test_numbers_and_bytes_of_other_classes() -> None:
    class Id(enum.IntEnum):
        BRAKE = 0x6BC1

    class Index:
        def __index__(self) -> int:
            return 0x6BC1

    class Octets(bytes):
        pass

    wanted = rathonsi.protect(KEY, 0x6BC1, 1, b"brake")
    ids: list[Any] = [Id.BRAKE, Index()]
    for data_id in ids:
        for payload in (Octets(b"brake"), bytearray(b"brake"), memoryview(b"brake"), memoryview(b"brake").cast("b"), memoryview(b"brake").cast("c")):
            assert rathonsi.protect(KEY, data_id, True + Index().__index__() - 0x6BC1, payload) == wanted
    route = rathonsi.Route(Id.BRAKE, 1, 4)  # type: ignore[arg-type]
    assert (type(route.data_id), route.direction) == (int, rathonsi.SENDS)


def test_lengths_are_those_of_the_headers() -> None:
    assert (PAYLOAD_MOST, TRAILER, PDU_MOST) == (60, 4, 64)
