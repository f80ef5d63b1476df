"""The shared object of the library for C, by ctypes: structs and functions as include/rathonsi.h and
include/rathonsi_store.h declare them.

Only modules of this package call it, with arguments that `_arguments` has looked at. So each pointer is one of a
live object of the right length (a `bytes`, a buffer or a struct that a local variable holds during the call), no
pointer is null, and no output overlaps an input.
"""

import ctypes
import os
from ctypes import POINTER, c_char_p, c_int32, c_size_t, c_uint8, c_uint16, c_uint32, c_uint64
from pathlib import Path
from typing import Any, Final


class VerdictStruct(ctypes.Structure):
    """RathonsiVerdict"""

    _fields_ = [("status", c_int32), ("payload_length", c_uint32), ("freshness", c_uint64)]
    status: int
    payload_length: int
    freshness: int


class UpdateStruct(ctypes.Structure):
    """RathonsiUpdate"""

    _fields_ = [
        ("uid", c_uint8 * 15),
        ("id", c_uint8),
        ("auth", c_uint8),
        ("flags", c_uint8),
        ("counter", c_uint32),
        ("key", c_uint8 * 16),
    ]
    uid: "ctypes.Array[c_uint8]"
    id: int
    auth: int
    flags: int
    counter: int
    key: "ctypes.Array[c_uint8]"


class RequestStruct(ctypes.Structure):
    """RathonsiRequest"""

    _fields_ = [("m1", c_uint8 * 16), ("m2", c_uint8 * 32), ("m3", c_uint8 * 16)]
    m1: "ctypes.Array[c_uint8]"
    m2: "ctypes.Array[c_uint8]"
    m3: "ctypes.Array[c_uint8]"


class ReplyStruct(ctypes.Structure):
    """RathonsiReply"""

    _fields_ = [("m4", c_uint8 * 32), ("m5", c_uint8 * 16)]
    m4: "ctypes.Array[c_uint8]"
    m5: "ctypes.Array[c_uint8]"


class WriteStruct(ctypes.Structure):
    """RathonsiWrite"""

    _fields_ = [("offset", c_uint32), ("length", c_uint32), ("bytes", c_uint8 * 40)]
    offset: int
    length: int
    bytes: "ctypes.Array[c_uint8]"


class PlanStruct(ctypes.Structure):
    """RathonsiPlan"""

    _fields_ = [("writes", WriteStruct * 3)]
    writes: "ctypes.Array[WriteStruct]"


class RouteStruct(ctypes.Structure):
    """RathonsiRoute"""

    _fields_ = [
        ("counter", c_uint64),
        ("data_id", c_uint16),
        ("cell", c_uint16),
        ("reserve", c_uint16),
        ("window", c_uint16),
        ("slot", c_uint8),
        ("direction", c_uint8),
        ("booted", c_uint8),
        ("opened", c_uint8),
        ("freshness_only", c_uint8),
        ("check", c_uint8 * 3),
    ]
    counter: int
    data_id: int
    cell: int
    reserve: int
    window: int
    slot: int
    direction: int
    booted: int
    opened: int
    freshness_only: int


class QuestionStruct(ctypes.Structure):
    """RathonsiQuestion"""

    _fields_ = [("asker", c_uint32), ("answerer", c_uint32), ("nonce", c_uint8 * 16)]
    asker: int
    answerer: int
    nonce: "ctypes.Array[c_uint8]"


def _found() -> Path:
    """The shared object: what RATHONSI_LIBRARY names, the one beside this module, or else that of the checkout."""
    named = os.environ.get("RATHONSI_LIBRARY")
    beside = Path(__file__).with_name("librathonsi.so")
    if named or beside.exists():
        return Path(named) if named else beside
    return Path(__file__).parents[3] / "crates" / "rathonsi_c" / "out" / "librathonsi.so"


path: Final = _found()

try:
    _object = ctypes.CDLL(str(path))
except OSError as error:
    raise ImportError(f"the shared object of rathonsi can't be loaded: {error}") from error


def _declared(name: str, result: type[Any], *arguments: Any) -> Any:
    try:
        function = getattr(_object, f"rathonsi_{name}")
    except AttributeError as error:
        raise ImportError(f"{path} has no rathonsi_{name}: it is another library, or another version") from error
    function.restype, function.argtypes = result, arguments
    return function


# const uint8_t * and uint8_t *: a bytes object, or a buffer of create_string_buffer
_octets, _size, _status = c_char_p, c_size_t, c_int32
_text = (_octets, _size)
_image = (_octets, _size)
_route, _plan = POINTER(RouteStruct), POINTER(PlanStruct)
_question = POINTER(QuestionStruct)
_update, _request, _reply = POINTER(UpdateStruct), POINTER(RequestStruct), POINTER(ReplyStruct)

aes128_encrypt = _declared("aes128_encrypt", _status, *_text, *_text)
aes128_decrypt = _declared("aes128_decrypt", _status, *_text, *_text)
aes128_cbc_encrypt = _declared("aes128_cbc_encrypt", _status, *_text, _octets, *_text)
aes128_cbc_decrypt = _declared("aes128_cbc_decrypt", _status, *_text, _octets, *_text)
cmac = _declared("cmac", _status, *_text, *_text, _octets)
secoc_protect = _declared("secoc_protect", _status, *_text, c_uint16, c_uint64, *_text, *_text)
secoc_protect_in_place = _declared("secoc_protect_in_place", _status, *_text, c_uint16, c_uint64, *_text, _size)
secoc_verify = _declared("secoc_verify", VerdictStruct, *_text, c_uint16, c_uint64, c_uint16, *_text)
she_derive = _declared("she_derive", _status, *_text, c_uint32, _octets)
she_make_update = _declared("she_make_update", _status, *_text, _update, _request)
she_read_update = _declared("she_read_update", _status, *_text, _request, _update)
she_confirm = _declared("she_confirm", _status, _update, _octets, _reply)

store_make = _declared("store_make", _status, *_image)
route_make = _declared("route_make", _status, _route, c_uint64, *_image)
store_check = _declared("store_check", _status, *_image)
store_done = _declared("store_done", _status, *_image, _plan)
route_open = _declared("route_open", _status, _route, *_image)
route_reserve = _declared("route_reserve", _status, _route, c_uint64, *_image, _plan)
route_reserve_next = _declared("route_reserve_next", _status, _route, *_image, _plan)
route_reserve_for = _declared("route_reserve_for", _status, _route, POINTER(VerdictStruct), *_image, _plan)
route_reserve_ahead = _declared("route_reserve_ahead", _status, _route, c_uint32, *_image, _plan)
route_advance = _declared("route_advance", _status, _route, c_uint64, *_image, _plan)
route_send = _declared("route_send", _status, _route, *_image, *_text, *_text)
route_receive = _declared("route_receive", VerdictStruct, _route, *_image, *_text)
sync_answer = _declared("sync_answer", _status, _route, *_image, _question, _octets)
sync_take = _declared("sync_take", VerdictStruct, _route, *_image, _question, _octets)
sync_rejoin = _declared("sync_rejoin", VerdictStruct, _route, *_image, _question, _octets)
sync_nonce = _declared("sync_nonce", _status, _route, *_image, c_uint32, _octets)
slot_load = _declared("slot_load", _status, _octets, c_uint8, _request, *_image, _plan)
slot_confirm = _declared("slot_confirm", _status, _octets, _octets, *_image, _reply)
