"""Secured I-PDUs of AUTOSAR SecOC, profile 1 (24Bit-CMAC-8Bit-FV).

A PDU is the payload (1 to 60 bytes), the low byte of the freshness, and the first three bytes of the CMAC over the
Data ID (2 bytes), the payload and the whole freshness (8 bytes), numbers big-endian.
"""

from ctypes import create_string_buffer
from dataclasses import dataclass
from typing import SupportsIndex

from . import _library
from ._arguments import (
    KEY_LENGTH,
    PAYLOAD_MOST,
    PDU_MOST,
    TRAILER,
    Bytes,
    any_bytes,
    data_id_number,
    freshness_number,
    key_bytes,
    number,
    some_bytes,
)
from ._errors import BadLength, raise_unless_ok


@dataclass(frozen=True, slots=True)
class Accepted:
    """A PDU that was accepted: its payload, and its freshness, which is the receiver's next counter."""

    payload: bytes
    freshness: int


def pdu_bytes(pdu: Bytes) -> bytes:
    """The bytes of a PDU. BadLength: it hasn't 5 to 64."""
    pdu = any_bytes("pdu", pdu)
    if not TRAILER < len(pdu) <= PDU_MOST:
        raise BadLength(f"pdu: 5 to 64 bytes are wanted, not {len(pdu)}")
    return pdu


def protect(key: Bytes, data_id: SupportsIndex, freshness: SupportsIndex, payload: Bytes) -> bytes:
    """The Secured I-PDU of a payload of 1 to 60 bytes, 4 bytes longer than it.

    The key has 16 bytes, the Data ID 16 bits and the freshness 64. Nothing here keeps freshness from being used
    twice: that is what a `Store` does. ValueError: a length or a number is outside its range.
    """
    key, payload = key_bytes("key", key), some_bytes("payload", payload, 1, PAYLOAD_MOST)
    id_, fresh = data_id_number(data_id), freshness_number("freshness", freshness)
    pdu = create_string_buffer(len(payload) + TRAILER)
    raise_unless_ok(
        _library.secoc_protect(key, KEY_LENGTH, id_, fresh, payload, len(payload), pdu, len(payload) + TRAILER)
    )
    return pdu.raw


def verify(
    key: Bytes, data_id: SupportsIndex, counter: SupportsIndex, pdu: Bytes, window: SupportsIndex = 256
) -> Accepted:
    """What a receiver accepts whose last accepted freshness is `counter`, and who accepts up to `window` above it.

    The key has 16 bytes, the Data ID 16 bits, the counter 64; the window is 1 to 256. `FreshnessFailure`: no
    freshness within the window has the low byte of the PDU. `VerificationFailure`: the authenticator is another.
    `BadLength`: the PDU hasn't 5 to 64 bytes. ValueError: a length or a number is outside its range.
    """
    key, pdu = key_bytes("key", key), pdu_bytes(pdu)
    id_, last = data_id_number(data_id), freshness_number("counter", counter)
    verdict = _library.secoc_verify(key, KEY_LENGTH, id_, last, number("window", window, 1, 256), pdu, len(pdu))
    raise_unless_ok(verdict.status)
    return Accepted(pdu[: verdict.payload_length], verdict.freshness)
