"""A store over a device: counters of freshness and key slots that survive a power cut within any write.

include/rathonsi_store.h lists what a caller of the library for C owes. `Store` keeps all of it, so that its own
caller owes nothing; each line that keeps a duty says so (`duty:`). What is left is the device's part: see `Device`.
"""

import os
import threading
import weakref
from collections.abc import Callable, Iterable, Mapping
from contextlib import suppress
from ctypes import create_string_buffer
from types import TracebackType
from typing import Any, Final, Literal, NoReturn, Protocol, Self, SupportsIndex, runtime_checkable

from . import _library
from ._arguments import PAYLOAD_MOST, TRAILER, Bytes, any_bytes, data_id_number, freshness_number, number, some_bytes, truth
from ._errors import OK, RESERVE, Covered, Damaged, NoStore, Unusable, raise_unless_ok
from ._pdus import Accepted, pdu_bytes
from ._routes import (
    HEADER,
    MAGIC,
    RECEIVES,
    RESERVE_MOST,
    SENDS,
    Direction,
    Route,
    checked_routes,
    direction_of,
    find_store,
    is_moved,
    made_image,
    may_be_made,
    open_route,
)
from ._updates import Reply, Request, reply_of, request_struct, uid_bytes


@runtime_checkable
class Device(Protocol):
    """The memory that keeps a store, such as an EEPROM that a debugger writes; one object for one memory.

    A write that returned is durable. A write within which the power goes, or that raises, may leave anything in its
    own bytes, and changes no other byte. What is read is durable, and reads the same ever after.
    """

    def read(self) -> bytes:
        """All bytes, from the first byte of the store on; there may be more than the store has."""

    def write(self, offset: int, data: bytes, /) -> object:
        """Writes these bytes from this offset on, durably, or raises."""


def checked_device(device: Device) -> Device:
    """TypeError: the object has no `read` or no `write`."""
    if not (callable(getattr(device, "read", None)) and callable(getattr(device, "write", None))):
        raise TypeError(f"device: read() and write(offset, bytes) are wanted, which {type(device).__name__} hasn't")
    return device


_MOVED: Final = "the store was moved to version 2, which this package doesn't open"
_OTHER: Final = "there is a store of another kind, or one that doesn't end within these bytes"
_OPENING: Final = "it isn't open"
_PLANNED: Final = "a write of it is under way"
_FAILED: Final = "a write of it failed or was interrupted: open a new one"
_live: "weakref.WeakSet[Store]" = weakref.WeakSet()
_of_devices: "weakref.WeakValueDictionary[int, Store]" = weakref.WeakValueDictionary()
_swapping = threading.Lock()


class Store:
    """The store on a device, as a power-up finds it.

    Opening it is the power-up: each counter begins at the bound that the device keeps, which is at least every
    freshness that was sent or accepted before. A store with a failed write is `Unusable` from then on; a new one over
    the same device goes on. All calls may come from any thread. Without routes it loads and confirms keys alone; a
    route of the device that isn't among `routes` can't be used until the store is opened with it.

    `NoStore`: the device holds no store, or one of another kind or of version 2. `Damaged`: a cell of it is. `WrongCell`: a
    route has none, or two. TypeError, ValueError: a route is none, or two have one Data ID and direction.
    """

    def __init__(self, device: Device, routes: Iterable[Route] = ()) -> None:
        if "_trouble" in vars(self):
            raise TypeError(f"a {type(self).__name__} is opened once")
        self._trouble: str | None = _OPENING
        self._lock = threading.RLock()
        self._booted = False
        self._device = checked_device(device)
        structs = checked_routes(routes)
        # duty: one image, one plan and one task at a time for a store: an older Store of this device ends here
        _take_over(device, self)
        content = any_bytes("the device's read()", device.read())
        # duty: the image is what the device holds: not what a store was moved from
        if is_moved(content):
            raise NoStore(_MOVED)
        found = find_store(content)
        if found is None:
            raise NoStore(_OTHER if content.startswith(MAGIC) else NoStore.text)
        size, status = found
        raise_unless_ok(status)
        # duty: the image is what the device holds: it is read here, and only functions of the library change it
        self._image = create_string_buffer(content[:size], size)
        self._size = size
        # duty: as each power-up begins, the plan is zeroed (a new struct is)
        self._plan = _library.PlanStruct()
        # duty: after each power-up every route is opened before any other call but the check
        for struct in structs:
            open_route(struct, self._image)
        self._sends = {struct.data_id: struct for struct in structs if struct.direction == SENDS}
        self._receives = {struct.data_id: struct for struct in structs if struct.direction == RECEIVES}
        _live.add(self)
        self._go_on_from(_OPENING)

    def send(self, data_id: SupportsIndex, payload: Bytes) -> bytes:
        """The Secured I-PDU of a payload of 1 to 60 bytes, 4 bytes longer, with the next freshness of this Data ID.

        It is given out only when the device keeps a bound that covers its freshness.
        `KeyEmpty`, `KeyInvalid`, `KeyNotAvailable`: of the key of the route's slot. `Exhausted`: the counter is
        2^64 - 1. ValueError: no route sends under this Data ID, or the payload has another length. What the
        device's write raises; the store is `Unusable` then.
        """
        payload = some_bytes("payload", payload, 1, PAYLOAD_MOST)
        length = len(payload) + TRAILER
        with self._lock:
            route = self._route(data_id, SENDS)
            pdu = create_string_buffer(length)
            while True:
                status = _library.route_send(route, self._image, self._size, payload, len(payload), pdu, length)
                if status == OK:
                    return pdu.raw
                if status != RESERVE:
                    raise_unless_ok(status)
                self._change(_library.route_reserve_next, route)

    def receive(self, data_id: SupportsIndex, pdu: Bytes) -> Accepted:
        """The payload and the freshness of a PDU, if it is accepted under this Data ID.

        `FreshnessFailure`, `VerificationFailure`: it isn't. `BadLength`: it hasn't 5 to 64 bytes. `KeyEmpty`,
        `KeyInvalid`, `KeyNotAvailable`: of the key of the route's slot. ValueError: no route receives under this
        Data ID. What the device's write raises; the store is `Unusable` then.
        """
        pdu = pdu_bytes(pdu)
        with self._lock:
            route = self._route(data_id, RECEIVES)
            while True:
                verdict = _library.route_receive(route, self._image, self._size, pdu, len(pdu))
                if verdict.status == OK:
                    return Accepted(pdu[: verdict.payload_length], verdict.freshness)
                if verdict.status != RESERVE:
                    raise_unless_ok(verdict.status)
                self._change(_library.route_reserve_for, route, verdict)

    def reserve(self, data_id: SupportsIndex, direction: Direction, least: SupportsIndex | None = None) -> None:
        """Writes the bound ahead of need, so that the next `reserve` frames of the route don't wait for a write.

        Call it when there is time, and not for each frame: it writes whenever the bound isn't as high already. With
        `least`, 1 to 128, it writes only if fewer freshness values are left, and then a whole `reserve` above the
        bound. So it may be called after each frame, and the frames meanwhile don't wait: a restart may skip
        `least - 1` more. ValueError: there is no such route, or `least` is outside its range. What the device's write
        raises; the store is `Unusable` then.
        """
        ahead = None if least is None else number("least", least, 1, RESERVE_MOST)
        with self._lock:
            route = self._route(data_id, direction_of(direction))
            if ahead is not None:
                with suppress(Covered):
                    self._change(_library.route_reserve_ahead, route, ahead)
            elif route.counter < 0xFFFF_FFFF_FFFF_FFFF:
                self._change(_library.route_reserve, route, route.counter + 1)

    def catch_up(self, data_id: SupportsIndex, freshness: SupportsIndex) -> None:
        """Brings a receiver that fell more than its window behind up to its sender's freshness.

        That must come authenticated and be new, such as an answer to a challenge under `cmac`: from now on the receiver
        refuses all freshness up to it, and what is reserved above it. A freshness that isn't above the counter changes
        nothing. `Exhausted`: no freshness would be left above what is reserved. ValueError: no route receives under
        this Data ID, or the freshness hasn't 64 bits. What the device's write raises; the store is `Unusable` then.
        """
        freshness = freshness_number("freshness", freshness)
        with self._lock:
            route = self._route(data_id, RECEIVES)
            if freshness > route.counter:
                self._change(_library.route_advance, route, freshness)
                raise_unless_ok(_library.route_open(route, self._image, self._size))

    def counter(self, data_id: SupportsIndex, direction: Direction) -> int:
        """The last freshness of the route, or, after opening, the bound, which is at least that."""
        with self._lock:
            return self._route(data_id, direction_of(direction)).counter

    def _nonce(self, data_id: int, asker: int) -> bytes:
        """The next nonce of a route that makes them, for the unit with this name."""
        nonce = create_string_buffer(16)
        with self._lock:
            route = self._route(data_id, SENDS)
            if not route.freshness_only:
                raise ValueError(f"the route under Data ID {data_id:04x} makes no nonces")
            while True:
                status = _library.sync_nonce(route, self._image, self._size, asker, nonce)
                if status == OK:
                    return nonce.raw
                if status != RESERVE:
                    raise_unless_ok(status)
                self._change(_library.route_reserve_next, route)

    def _answer(self, data_id: SupportsIndex, direction: Direction, question: _library.QuestionStruct) -> bytes:
        """The answer of a route to a question."""
        answer = create_string_buffer(24)
        with self._lock:
            route = self._route(data_id, direction)
            raise_unless_ok(_library.sync_answer(route, self._image, self._size, question, answer))
        return answer.raw

    def _take(
        self, call: Any, data_id: int, direction: Direction, question: _library.QuestionStruct, answer: bytes
    ) -> int:
        """Takes an answer of 24 bytes for a route, or rejoins by it, and gives the counter that it tells."""
        with self._lock:
            route = self._route(data_id, direction)
            while True:
                verdict = call(route, self._image, self._size, question, answer)
                if verdict.status == OK:
                    counter: int = verdict.freshness
                    return counter
                if verdict.status != RESERVE:
                    raise_unless_ok(verdict.status)
                # duty: the counter may be further ahead than a reserve plans, and the route isn't opened anew
                self._change(_library.route_advance, route, verdict.freshness)

    def load(self, uid: Bytes, request: Request) -> Reply:
        """Loads the key that a request carries, as the engine with this UID of 15 bytes, and confirms it.

        The reply is given out only when the device keeps the key. `KeyInvalid`, `KeyWriteProtected`, `KeyEmpty`,
        `KeyNotAvailable`, `KeyUpdateError`: the engine refuses the update. What the device's write raises; the
        store is `Unusable` then.
        """
        uid, struct = uid_bytes(uid), request_struct(request)
        with self._lock:
            self._usable()
            self._change(_library.slot_load, uid, int(self._booted), struct)
            return self.confirm(uid, bytes(struct.m1))

    def confirm(self, uid: Bytes, m1: Bytes) -> Reply:
        """The reply by which the engine with this UID confirms what the slot that M1 (16 bytes) names holds now.

        So a lost reply can be asked for again. `BadId`: ID or AuthID of M1 is over 13. `KeyEmpty`.
        """
        uid, m1, reply = uid_bytes(uid), some_bytes("m1", m1, 16, 16), _library.ReplyStruct()
        with self._lock:
            self._usable()
            raise_unless_ok(_library.slot_confirm(uid, m1, self._image, self._size, reply))
        return reply_of(reply)

    @property
    def booted(self) -> bool:
        """Whether a secure boot succeeded in this life: it opens keys with `Flags.BOOT_PROTECTION`. False at first."""
        return self._booted

    @booted.setter
    def booted(self, value: bool) -> None:
        value = truth("booted", value)
        with self._lock:
            self._usable()
            for route in (*self._sends.values(), *self._receives.values()):
                route.booted = value
            self._booted = value

    def close(self) -> None:
        """Ends the use of this object. It may be called again."""
        with self._lock:
            self._end("it is closed")

    def __enter__(self) -> Self:
        return self

    def __exit__(
        self, kind: type[BaseException] | None, error: BaseException | None, trace: TracebackType | None
    ) -> Literal[False]:
        self.close()
        return False

    def __reduce__(self) -> NoReturn:
        # duty: one image for a store, so there is no copy of this object
        raise TypeError(f"a {type(self).__name__} can't be copied or pickled")

    def _usable(self) -> None:
        if self._trouble is not None:
            raise Unusable(f"this {type(self).__name__} may not be used: {self._trouble}")

    def _route(self, data_id: SupportsIndex, direction: Direction) -> _library.RouteStruct:
        self._usable()
        data_id = data_id_number(data_id)
        route = (self._sends if direction == SENDS else self._receives).get(data_id)
        if route is None:
            raise ValueError(f"no route {direction.name.lower()} under Data ID {data_id:04x}")
        return route

    def _go_on_from(self, stage: str) -> None:
        """This stage is over, and the object usable, unless what this thread called has ended it meanwhile."""
        if self._trouble is stage:
            self._trouble = None
        self._usable()

    def _change(self, plan: Callable[..., int], *arguments: object) -> None:
        """Has a change planned and does its writes. Whatever interrupts it leaves the object unusable."""
        self._usable()
        try:
            self._trouble = _PLANNED
            status = plan(*arguments, self._image, self._size, self._plan)
            if status == OK:
                self._do_plan()
            self._go_on_from(_PLANNED)
        except BaseException:
            # duty: a plan that was begun is done, or the power-up is: no other call comes after a failed write
            self._end(_FAILED)
            self._release()
            raise
        raise_unless_ok(status)

    def _do_plan(self) -> None:
        # duty: the writes of a plan are done in their order, each durable before the next begins
        for write in self._plan.writes:
            if write.length:
                self._device.write(write.offset, bytes(write.bytes)[: write.length])
                if self._trouble is not _PLANNED:
                    self._usable()
        # duty: it is said of each plan that it is done, before the next is asked for
        if _library.store_done(self._image, self._size, self._plan) != OK:
            raise Damaged

    def _has_ended(self) -> bool:
        return self._trouble not in (None, _OPENING, _PLANNED)

    def _end(self, trouble: str) -> None:
        """The object is used no more, for this reason. Within a write, the device is given back after it."""
        if not self._has_ended():
            writes, self._trouble = self._trouble is _PLANNED, trouble
            if not writes:
                self._release()

    def _release(self) -> None:
        """Gives the device back, if it is this object's own."""


def _take_over(device: Device, store: Store) -> None:
    """Ends the store that was opened over the device before, once its call is over."""
    while True:
        with _swapping:
            older = _of_devices.get(id(device))
            if older is None or older._has_ended():
                _of_devices[id(device)] = store
                return
        with older._lock:
            older._end("another store was opened over its device")


def _leave_to_the_parent() -> None:
    # duty: one task for a store: what was opened before a fork is the parent's
    global _swapping
    _swapping = threading.Lock()
    for store in list(_live):
        store._lock = threading.RLock()
        store._end("it belongs to the process that this one was forked off from")
        store._release()


os.register_at_fork(after_in_child=_leave_to_the_parent)


def write_new_store(device: Device, image: bytes) -> None:
    """Writes a new store: until its last write there is none."""
    # duty: the image of a new store is written in this order, each step durable before the next
    device.write(0, bytes(HEADER))
    device.write(HEADER, image[HEADER:])
    device.write(0, image[:HEADER])


def make_store(device: Device, routes: Iterable[Route], keys: Mapping[int, Bytes] | None = None) -> None:
    """Makes a store on a device that holds none, for the production line: a counter for each route, up to 256.

    `keys` are the first keys by their slots (1, 2, 4 to 13), each of 16 bytes: for MACs in 4 to 13, with the counter 1.
    The other slots stay empty. If it is cut off, it can be called again with the same arguments. ValueError: the
    device holds a store, also a damaged one and one of another kind, or is too small; or a route or a key is outside
    its range.
    """
    image = made_image(routes, {} if keys is None else keys)
    content = any_bytes("the device's read()", checked_device(device).read())
    # duty: a store is made before its first power-up alone
    if not may_be_made(content, image):
        raise ValueError("the device holds a store")
    if len(content) < len(image):
        raise ValueError(f"the device has {len(content)} bytes, and the store {len(image)}")
    write_new_store(device, image)
