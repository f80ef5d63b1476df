"""Key updates of the Secure Hardware Extensions (SHE): the messages M1 to M5, and the derivation of keys."""

from ctypes import c_uint8, create_string_buffer
from dataclasses import dataclass, field
from enum import IntEnum, IntFlag
from typing import SupportsIndex

from . import _library
from ._arguments import KEY_LENGTH, UID_LENGTH, Bytes, key_bytes, number, some_bytes
from ._errors import raise_unless_ok

SLOT_MOST = 13
COUNTER_MOST = (1 << 28) - 1


class Flags(IntFlag):
    """The flags of a slot. KEY_USAGE: the key is for MACs; a route needs it."""

    WRITE_PROTECTION = 16
    BOOT_PROTECTION = 8
    DEBUGGER_PROTECTION = 4
    KEY_USAGE = 2
    WILDCARD = 1


class Purpose(IntEnum):
    """What a derived key is for: KEY_UPDATE_ENC_C, KEY_UPDATE_MAC_C."""

    ENCRYPT = 1
    AUTHENTICATE = 2


@dataclass(frozen=True, slots=True)
class Update:
    """A key update.

    uid: the engine's identifier, 15 bytes; zero bytes mean each engine whose slot has not the flag WILDCARD
    id: the slot that is updated, 0 to 13
    auth: the slot whose key authorises the update, 0 to 13
    flags: the slot's new flags, 0 to 31 (`Flags`)
    counter: the slot's new counter, 0 to 2^28 - 1
    key: the new key, 16 bytes; it isn't shown by `repr`

    TypeError, ValueError: a field is of another type, or outside its range.
    """

    uid: bytes
    id: int
    auth: int
    flags: int
    counter: int
    key: bytes = field(repr=False)

    def __post_init__(self) -> None:
        for name, value in _fields_of(self).items():
            object.__setattr__(self, name, value)


@dataclass(frozen=True, slots=True)
class Request:
    """The messages M1 (16 bytes), M2 (32) and M3 (16).

    TypeError, ValueError: one is no bytes, or has another length.
    """

    m1: bytes
    m2: bytes
    m3: bytes

    def __post_init__(self) -> None:
        for name, value in _messages_of(self).items():
            object.__setattr__(self, name, value)


@dataclass(frozen=True, slots=True)
class Reply:
    """The messages M4 (32 bytes) and M5 (16). TypeError, ValueError: one is no bytes, or has another length."""

    m4: bytes
    m5: bytes

    def __post_init__(self) -> None:
        object.__setattr__(self, "m4", some_bytes("m4", self.m4, 32, 32))
        object.__setattr__(self, "m5", some_bytes("m5", self.m5, 16, 16))


def _fields_of(update: Update) -> dict[str, bytes | int]:
    return {
        "uid": uid_bytes(update.uid),
        "id": number("id", update.id, 0, SLOT_MOST),
        "auth": number("auth", update.auth, 0, SLOT_MOST),
        "flags": number("flags", update.flags, 0, 31),
        "counter": number("counter", update.counter, 0, COUNTER_MOST),
        "key": key_bytes("key", update.key),
    }


def _messages_of(request: Request) -> dict[str, bytes]:
    return {
        "m1": some_bytes("m1", request.m1, 16, 16),
        "m2": some_bytes("m2", request.m2, 32, 32),
        "m3": some_bytes("m3", request.m3, 16, 16),
    }


def uid_bytes(uid: Bytes) -> bytes:
    """An engine's identifier of 15 bytes."""
    return some_bytes("uid", uid, UID_LENGTH, UID_LENGTH)


def _update_struct(update: Update) -> _library.UpdateStruct:
    if not isinstance(update, Update):
        raise TypeError(f"update: an Update is wanted, not {type(update).__name__}")
    struct = _library.UpdateStruct()
    for name, value in _fields_of(update).items():
        setattr(struct, name, (c_uint8 * len(value))(*value) if isinstance(value, bytes) else value)
    return struct


def request_struct(request: Request) -> _library.RequestStruct:
    """The struct of a request."""
    if not isinstance(request, Request):
        raise TypeError(f"request: a Request is wanted, not {type(request).__name__}")
    struct = _library.RequestStruct()
    for name, value in _messages_of(request).items():
        setattr(struct, name, (c_uint8 * len(value))(*value))
    return struct


def reply_of(struct: _library.ReplyStruct) -> Reply:
    """The reply of a struct."""
    return Reply(bytes(struct.m4), bytes(struct.m5))


def derive(key: Bytes, purpose: SupportsIndex) -> bytes:
    """The key of 16 bytes that is derived from a key of 16 bytes for a `Purpose`.

    ValueError: the key hasn't 16 bytes, or the purpose is none of the two.
    """
    key = key_bytes("key", key)
    derived = create_string_buffer(KEY_LENGTH)
    raise_unless_ok(_library.she_derive(key, KEY_LENGTH, number("purpose", purpose, 1, 2), derived))
    return derived.raw


def make_update(authkey: Bytes, update: Update) -> Request:
    """The request that puts the update into an engine whose slot `update.auth` holds `authkey`, 16 bytes.

    An empty slot is authorised by itself (`auth` is `id`) and the key of sixteen bytes ff.
    """
    authkey, struct, request = key_bytes("authkey", authkey), _update_struct(update), _library.RequestStruct()
    raise_unless_ok(_library.she_make_update(authkey, KEY_LENGTH, struct, request))
    return Request(bytes(request.m1), bytes(request.m2), bytes(request.m3))


def read_update(authkey: Bytes, request: Request) -> Update:
    """The update that a request carries under the authorising key, 16 bytes. The padding of M2 isn't examined.

    `BadId`: ID or AuthID of M1 is over 13. `BadMac`: M3 isn't the MAC of M1 and M2 under the key. Whether an engine
    takes the update (its slot, counter, flags and UID) isn't asked.
    """
    authkey, asked, struct = key_bytes("authkey", authkey), request_struct(request), _library.UpdateStruct()
    raise_unless_ok(_library.she_read_update(authkey, KEY_LENGTH, asked, struct))
    return Update(bytes(struct.uid), struct.id, struct.auth, struct.flags, struct.counter, bytes(struct.key))


def confirm(update: Update, uid: Bytes) -> Reply:
    """The reply by which the engine with this UID, 15 bytes, confirms the update.

    A station compares it with the one that came.
    """
    struct, reply = _update_struct(update), _library.ReplyStruct()
    raise_unless_ok(_library.she_confirm(struct, uid_bytes(uid), reply))
    return reply_of(reply)
