"""Rathonsi: Secured I-PDUs (AUTOSAR SecOC, profile 1), AES-128, CMAC and SHE key updates, proved.

Every call takes and gives bytes, whole numbers and frozen dataclasses. What the proved library refuses is an exception
below `Refused`, one class a status. A wrong type is a TypeError, a wrong length or range a ValueError. `Store` and
`FileStore` keep counters and keys over power cuts; `Answers` brings a unit back that fell behind; `rathonsi.can` secures a bus of python-can.

Lengths are in bytes. Nothing is wiped: keys stay in memory that was used.
"""

from ._answers import Answers, Question
from ._build import VERSION as __version__
from ._ciphers import aes128_cbc_decrypt, aes128_cbc_encrypt, aes128_decrypt, aes128_encrypt, cmac
from ._errors import (
    BadId,
    BadLength,
    BadMac,
    BadValue,
    Busy,
    Covered,
    Damaged,
    DuplicateId,
    Exhausted,
    Failed,
    FreshnessFailure,
    KeyEmpty,
    KeyInvalid,
    KeyNotAvailable,
    KeyUpdateError,
    KeyWriteProtected,
    NoStore,
    Refused,
    Reserve,
    StalePlan,
    Unusable,
    VerificationFailure,
    WrongCell,
)
from ._files import FileStore, make_file_store
from ._pdus import Accepted, protect, verify
from ._routes import RECEIVES, SENDS, Direction, Route
from ._store import Device, Store, make_store
from ._updates import Flags, Purpose, Reply, Request, Update, confirm, derive, make_update, read_update

__all__ = [
    "Accepted",
    "Answers",
    "BadId",
    "BadLength",
    "BadMac",
    "BadValue",
    "Busy",
    "Covered",
    "Damaged",
    "Device",
    "Direction",
    "DuplicateId",
    "Exhausted",
    "Failed",
    "FileStore",
    "Flags",
    "FreshnessFailure",
    "KeyEmpty",
    "KeyInvalid",
    "KeyNotAvailable",
    "KeyUpdateError",
    "KeyWriteProtected",
    "NoStore",
    "Purpose",
    "Question",
    "RECEIVES",
    "Refused",
    "Reply",
    "Request",
    "Reserve",
    "Route",
    "SENDS",
    "StalePlan",
    "Store",
    "Unusable",
    "Update",
    "VerificationFailure",
    "WrongCell",
    "__version__",
    "aes128_cbc_decrypt",
    "aes128_cbc_encrypt",
    "aes128_decrypt",
    "aes128_encrypt",
    "cmac",
    "confirm",
    "derive",
    "make_file_store",
    "make_store",
    "make_update",
    "protect",
    "read_update",
    "verify",
]
