"""What the package should say, computed apart from it: AES and CMAC are those of the package `cryptography`, the rest
is written from AUTOSAR's and SHE's rules. Slow, plain, and of one life and device at a time.
"""

from dataclasses import dataclass, field

from cryptography.hazmat.primitives.ciphers import Cipher, algorithms, modes
from cryptography.hazmat.primitives.cmac import CMAC

LAST = 2**64 - 1
SENDS, RECEIVES = 1, 2


class Refusal(Exception):
    """A refusal; its one argument is the name of the class that the package raises."""


def encrypt(key: bytes, text: bytes, iv: bytes | None = None) -> bytes:
    mode: modes.ECB | modes.CBC = modes.ECB() if iv is None else modes.CBC(iv)
    turned = Cipher(algorithms.AES(key), mode).encryptor()
    return turned.update(text) + turned.finalize()


def decrypt(key: bytes, text: bytes, iv: bytes | None = None) -> bytes:
    mode: modes.ECB | modes.CBC = modes.ECB() if iv is None else modes.CBC(iv)
    turned = Cipher(algorithms.AES(key), mode).decryptor()
    return turned.update(text) + turned.finalize()


def cmac(key: bytes, message: bytes) -> bytes:
    mac = CMAC(algorithms.AES(key))
    mac.update(message)
    return mac.finalize()


# ---- Secured I-PDUs


def protect(key: bytes, data_id: int, freshness: int, payload: bytes) -> bytes:
    whole = freshness.to_bytes(8, "big")
    return payload + whole[7:] + cmac(key, data_id.to_bytes(2, "big") + payload + whole)[:3]


def verify(key: bytes, data_id: int, counter: int, pdu: bytes, window: int) -> tuple[bytes, int]:
    if not 5 <= len(pdu) <= 64:
        raise Refusal("BadLength")
    ahead = [it for it in range(counter + 1, min(counter + window, LAST) + 1) if it % 256 == pdu[-4]]
    if not ahead:
        raise Refusal("FreshnessFailure")
    if protect(key, data_id, ahead[0], pdu[:-4]) != pdu:
        raise Refusal("VerificationFailure")
    return pdu[:-4], ahead[0]


# ---- Key updates


def derive(key: bytes, purpose: int) -> bytes:
    constant = bytes.fromhex({1: "010153484500800000000000000000b0", 2: "010253484500800000000000000000b0"}[purpose])
    out = bytes(16)
    for block in (key, constant):
        out = bytes(a ^ b ^ c for a, b, c in zip(encrypt(out, block), block, out))
    return out


def head_of(uid: bytes, slot: int, auth: int) -> bytes:
    return uid + bytes([slot << 4 | auth])


def request(authkey: bytes, uid: bytes, slot: int, auth: int, flags: int, counter: int, key: bytes) -> tuple[bytes, bytes, bytes]:
    m1 = head_of(uid, slot, auth)
    m2 = encrypt(derive(authkey, 1), (counter << 100 | flags << 95).to_bytes(16, "big") + key, bytes(16))
    return m1, m2, cmac(derive(authkey, 2), m1 + m2)


def read(authkey: bytes, m1: bytes, m2: bytes, m3: bytes) -> tuple[bytes, int, int, int, int, bytes]:
    """UID, slot, authorising slot, flags, counter and key."""
    slot, auth = m1[15] >> 4, m1[15] & 15
    if slot > 13 or auth > 13:
        raise Refusal("BadId")
    if cmac(derive(authkey, 2), m1 + m2) != m3:
        raise Refusal("BadMac")
    text = decrypt(derive(authkey, 1), m2, bytes(16))
    first = int.from_bytes(text[:16], "big")
    return m1[:15], slot, auth, first >> 95 & 31, first >> 100, text[16:]


def reply(uid: bytes, slot: int, auth: int, counter: int, key: bytes) -> tuple[bytes, bytes]:
    m4 = head_of(uid, slot, auth) + encrypt(derive(key, 1), (counter << 100 | 1 << 99).to_bytes(16, "big"))
    return m4, cmac(derive(key, 2), m4)


# ---- A store, as its user sees it


@dataclass
class Slot:
    key: bytes
    counter: int
    flags: int


@dataclass
class Route:
    slot: int
    reserve: int
    window: int
    bound: int
    counter: int


@dataclass
class Unit:
    """The routes by Data ID and direction, and the slots that are filled, by number."""

    routes: dict[tuple[int, int], Route] = field(default_factory=dict)
    slots: dict[int, Slot] = field(default_factory=dict)
    booted: bool = False

    def power_up(self) -> None:
        self.booted = False
        for route in self.routes.values():
            route.counter = route.bound

    def _key(self, number: int) -> bytes:
        slot = self.slots.get(number)
        if slot is None:
            raise Refusal("KeyEmpty")
        if not slot.flags & 2:
            raise Refusal("KeyInvalid")
        if slot.flags & 8 and not self.booted:
            raise Refusal("KeyNotAvailable")
        return slot.key

    def send(self, data_id: int, payload: bytes) -> bytes:
        route = self.routes[data_id, SENDS]
        key = self._key(route.slot)
        if route.counter == LAST:
            raise Refusal("Exhausted")
        self._cover(route, route.counter + 1)
        route.counter += 1
        return protect(key, data_id, route.counter, payload)

    def receive(self, data_id: int, pdu: bytes) -> tuple[bytes, int]:
        if not 5 <= len(pdu) <= 64:
            raise Refusal("BadLength")
        route = self.routes[data_id, RECEIVES]
        payload, freshness = verify(self._key(route.slot), data_id, route.counter, pdu, route.window)
        self._cover(route, freshness)
        route.counter = freshness
        return payload, freshness

    def reserve(self, data_id: int, direction: int) -> None:
        route = self.routes[data_id, direction]
        if route.counter < LAST:
            route.bound = max(route.bound, min(route.counter + route.reserve, LAST))

    def reserve_ahead(self, data_id: int, direction: int, least: int) -> None:
        route = self.routes[data_id, direction]
        if route.bound - route.counter < least:
            route.bound = min(route.bound + route.reserve, LAST)

    def catch_up(self, data_id: int, freshness: int) -> None:
        route = self.routes[data_id, RECEIVES]
        if freshness > route.counter:
            if freshness + route.reserve - 1 >= LAST:
                raise Refusal("Exhausted")
            route.bound = max(route.bound, freshness + route.reserve - 1)
            route.counter = route.bound

    @staticmethod
    def _cover(route: Route, freshness: int) -> None:
        if freshness > route.bound:
            route.bound = min(freshness + route.reserve - 1, LAST)

    def load(self, uid: bytes, m1: bytes, m2: bytes, m3: bytes) -> tuple[bytes, bytes]:
        slot, auth = m1[15] >> 4, m1[15] & 15
        may = auth == 1 and slot != 0 or auth == slot and slot not in (0, 3) or (slot, auth) == (3, 2)
        if slot > 13 or auth > 13 or not may:
            raise Refusal("KeyInvalid")
        old, authorising = self.slots.get(slot), self.slots.get(auth)
        if old is not None and old.flags & 16:
            raise Refusal("KeyWriteProtected")
        if authorising is None and auth != slot:
            raise Refusal("KeyEmpty")
        if authorising is not None and authorising.flags & 8 and not self.booted:
            raise Refusal("KeyNotAvailable")
        try:
            asked, _, _, flags, counter, key = read(authorising.key if authorising else b"\xff" * 16, m1, m2, m3)
        except Refusal:
            raise Refusal("KeyUpdateError") from None
        for_all = asked == bytes(15) and not (old is not None and old.flags & 1)
        if not (asked == uid or for_all) or counter <= (old.counter if old else 0):
            raise Refusal("KeyUpdateError")
        self.slots[slot] = Slot(key, counter, flags)
        return self.confirm(uid, m1)

    def confirm(self, uid: bytes, m1: bytes) -> tuple[bytes, bytes]:
        number, auth = m1[15] >> 4, m1[15] & 15
        if number > 13 or auth > 13:
            raise Refusal("BadId")
        slot = self.slots.get(number)
        if slot is None:
            raise Refusal("KeyEmpty")
        return reply(uid, number, auth, slot.counter, slot.key)
