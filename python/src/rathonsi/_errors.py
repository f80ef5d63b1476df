"""The refusals of the library: one class a status, all below `Refused`."""

from typing import ClassVar, Final

OK: Final = 0
RESERVE: Final = 10


class Refused(Exception):
    """A call refused what it was asked for, and changed nothing.

    `status` is the number that include/rathonsi.h or include/rathonsi_store.h gives this refusal.
    """

    status: ClassVar[int] = -1
    text: ClassVar[str] = "the library answered a status that this package doesn't know"

    def __init__(self, *arguments: object) -> None:
        super().__init__(*(arguments or (self.text,)))


class BadLength(Refused, ValueError):
    """A PDU has a length that no Secured I-PDU has, or fewer bytes than its route says."""

    status = 1
    text = "the PDU has a length that isn't taken"


class BadValue(Refused, ValueError):
    """A number is outside its range. The package checks ranges itself, so no call of it should end so."""

    status = 2
    text = "a number is outside its range"


class FreshnessFailure(Refused):
    """No freshness within the window has the low byte of the PDU."""

    status = 3
    text = "no freshness within the window has the low byte of the PDU"


class VerificationFailure(Refused):
    """The three bytes of the PDU are not the first of the authenticator."""

    status = 4
    text = "the PDU carries another authenticator"


class BadId(Refused):
    """ID or AuthID of M1 is over 13."""

    status = 5
    text = "ID or AuthID of M1 is over 13"


class BadMac(Refused):
    """M3 is not the MAC of M1 and M2 under the authorising key."""

    status = 6
    text = "M3 is not the MAC of M1 and M2 under the authorising key"


class NoStore(Refused):
    """The device or file doesn't begin with the header of a store."""

    status = 7
    text = "there is no store: it doesn't begin with the header of one"


class Damaged(Refused):
    """A fault of the device: a cell of the store has no copy that counts, or the cell of a slot holds no slot."""

    status = 8
    text = "a cell of the store is damaged"


class Busy(Refused):
    """A plan is to be done first. A `Store` does each plan at once, so no call of it should end so."""

    status = 9
    text = "a plan is to be done first"


class Reserve(Refused):
    """The bound doesn't cover this freshness yet. A `Store` reserves by itself, so no call of it should end so."""

    status = RESERVE
    text = "the bound doesn't cover this freshness yet"


class Exhausted(Refused):
    """The counter is 2^64 - 1."""

    status = 11
    text = "the counter is 2^64 - 1"


class KeyEmpty(Refused):
    """The slot holds no key (KEY_EMPTY of SHE)."""

    status = 12
    text = "the slot holds no key"


class KeyInvalid(Refused):
    """The key isn't for MACs, or the slot may not be updated with this authorising slot (KEY_INVALID of SHE)."""

    status = 13
    text = "the key isn't for MACs, or the slot may not be updated with this authorising slot"


class KeyNotAvailable(Refused):
    """The key is protected by the secure boot, and none succeeded (KEY_NOT_AVAILABLE of SHE)."""

    status = 14
    text = "the key is protected by the secure boot, and none succeeded"


class KeyWriteProtected(Refused):
    """The slot takes no update (KEY_WRITE_PROTECTED of SHE)."""

    status = 15
    text = "the slot takes no update"


class KeyUpdateError(Refused):
    """M3, the UID or the counter of the request is refused (KEY_UPDATE_ERROR of SHE)."""

    status = 16
    text = "M3, the UID or the counter of the request is refused"


class WrongCell(Refused):
    """A fault of the configuration: no cell of the store is that of the route, or two are."""

    status = 17
    text = "no cell of the store is that of the route"


class Failed(Refused):
    """An operation on a flash failed. Only rathonsi_flash_next answers it, which no call of this package makes."""

    status = 18
    text = "an operation on the flash failed"


class DuplicateId(Refused):
    """Another cell has this Data ID and direction. The package looks for that itself, so no call of it ends so."""

    status = 19
    text = "another cell of the store has this Data ID and direction already"


class StalePlan(Refused):
    """The plan is an old copy. A `Store` does each plan at once, so no call of it should end so."""

    status = 20
    text = "the plan is an old copy: done, it would lower a bound or bring an older key back"


class Covered(Refused):
    """Nothing is to be reserved: the bound is as high already. `Store.reserve` takes it as done."""

    status = 21
    text = "nothing is to be reserved: the bound is as high already"


class Unusable(RuntimeError):
    """This object may not be used any more; a new one over the same memory goes on as after a power cut.

    It is closed, a write of it failed or was interrupted, another store was opened over its device, or this
    process was forked off from the one that opened it.
    """


REFUSALS: Final[dict[int, type[Refused]]] = {refusal.status: refusal for refusal in Refused.__subclasses__()}


def raise_unless_ok(status: int) -> None:
    """Raises the refusal with this status; none for 0."""
    if status != OK:
        raise REFUSALS.get(status, Refused)()
