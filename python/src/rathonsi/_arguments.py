"""What a caller hands in is looked at here, before C is called: types, lengths and ranges.

What comes out is exactly `bytes` and `int`, made from the value itself: a subclass that answers otherwise for its
length or its order gets nowhere.
"""

import operator
from typing import Final, SupportsIndex

Bytes = bytes | bytearray | memoryview

KEY_LENGTH: Final = 16
UID_LENGTH: Final = 15
PAYLOAD_MOST: Final = 60
TRAILER: Final = 4
PDU_MOST: Final = PAYLOAD_MOST + TRAILER


def any_bytes(name: str, value: Bytes) -> bytes:
    """The bytes of a value. TypeError: it is neither bytes nor a bytearray nor a memoryview of single bytes."""
    if type(value) is bytes:
        return value
    if not isinstance(value, (bytes, bytearray, memoryview)):
        raise TypeError(f"{name}: bytes are wanted, not {type(value).__name__}")
    view = memoryview(value)
    if view.itemsize != 1:
        raise TypeError(f"{name}: bytes are wanted, not a memoryview of items of {view.itemsize} bytes")
    return view.tobytes()


def some_bytes(name: str, value: Bytes, least: int, most: int) -> bytes:
    """The same of `least` to `most` bytes. ValueError: it has another length."""
    value = any_bytes(name, value)
    if not least <= len(value) <= most:
        wanted = str(least) if least == most else f"{least} to {most}"
        raise ValueError(f"{name}: {wanted} bytes are wanted, not {len(value)}")
    return value


def key_bytes(name: str, value: Bytes) -> bytes:
    """A key of 16 bytes."""
    return some_bytes(name, value, KEY_LENGTH, KEY_LENGTH)


def number(name: str, value: SupportsIndex, least: int, most: int) -> int:
    """The whole number of a value. TypeError: it is none, or a bool. ValueError: it isn't from `least` to `most`."""
    if type(value) is not int:
        if isinstance(value, bool):
            raise TypeError(f"{name}: a whole number is wanted, not bool")
        try:
            value = operator.index(value)
        except TypeError:
            raise TypeError(f"{name}: a whole number is wanted, not {type(value).__name__}") from None
    if not least <= value <= most:
        raise ValueError(f"{name}: a number from {least} to {most} is wanted")
    return value


def data_id_number(value: SupportsIndex) -> int:
    """A Data ID, 16 bits."""
    return number("data_id", value, 0, 0xFFFF)


def freshness_number(name: str, value: SupportsIndex) -> int:
    """A freshness or a counter of it, 64 bits."""
    return number(name, value, 0, 0xFFFF_FFFF_FFFF_FFFF)


def truth(name: str, value: bool) -> bool:
    """TypeError: the value isn't True or False."""
    if value is not True and value is not False:
        raise TypeError(f"{name}: True or False is wanted, not {type(value).__name__}")
    return value
