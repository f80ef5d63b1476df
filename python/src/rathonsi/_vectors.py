"""The self-test: the examples of the standards, each through one call of the library."""

from collections.abc import Iterator

from ._ciphers import aes128_cbc_decrypt, aes128_cbc_encrypt, aes128_decrypt, aes128_encrypt, cmac
from ._pdus import protect, verify
from ._updates import Purpose, Update, confirm, derive, make_update, read_update

KEY = bytes.fromhex("2b7e151628aed2a6abf7158809cf4f3c")
COUNTING = bytes(range(16))
TEXT = bytes.fromhex(
    "6bc1bee22e409f96e93d7e117393172aae2d8a571e03ac9c9eb76fac45af8e51"
    "30c81c46a35ce411e5fbc1191a0a52eff69f2445df4f9b17ad2b417be66c3710"
)
BY_ECB = bytes.fromhex(
    "3ad77bb40d7a3660a89ecaf32466ef97f5d3d58503b9699de785895a96fdbaaf"
    "43b1cd7f598ece23881b00e3ed0306887b0c785e27e8ad3f8223207104725dd4"
)
BY_CBC = bytes.fromhex(
    "7649abac8119b246cee98e9b12e9197d5086cb9b507219ee95db113a917678b2"
    "73bed6b8e3c1743b7116e69e222295163ff1caa1681fac09120eca307586e1a7"
)
MACS = {
    0: "bb1d6929e95937287fa37d129b756746",
    16: "070a16b46b4d4144f79bdd9dd04a287c",
    40: "dfa66747de9ae63030ca32611497c827",
    64: "51f0bebf7e3b9d92fc49741779363cfe",
}
# The bytes of the payload, the freshness that follows them in TEXT, and the last four bytes of the PDU
PDUS = (
    (6, 0xE93D7E117393172A, "2a070a16"),
    (30, 0x30C81C46A35CE411, "11dfa667"),
    (54, 0xAD2B417BE66C3710, "1051f0be"),
)
UPDATE = Update(bytes(14) + b"\x01", 4, 1, 0, 1, bytes(range(15, -1, -1)))
M1 = "00000000000000000000000000000141"
M2 = "2b111e2d93f486566bcbba1d7f7a9797c94643b050fc5d4d7de14cff682203c3"
M3 = "b9d745e5ace7d41860bc63c2b9f5bb46"
M4 = "00000000000000000000000000000141b472e8d8727d70d57295e74849a27917"
M5 = "820d8d95dc11b4668878160cb2a4e23e"


def vectors() -> Iterator[tuple[str, object, object]]:
    """Each vector: what it is of, what the library says, and what the standard says."""
    yield "AES-128 ECB, encrypted (SP 800-38A F.1.1)", aes128_encrypt(KEY, TEXT), BY_ECB
    yield "AES-128 ECB, decrypted (SP 800-38A F.1.2)", aes128_decrypt(KEY, BY_ECB), TEXT
    yield "AES-128 CBC, encrypted (SP 800-38A F.2.1)", aes128_cbc_encrypt(KEY, COUNTING, TEXT), BY_CBC
    yield "AES-128 CBC, decrypted (SP 800-38A F.2.2)", aes128_cbc_decrypt(KEY, COUNTING, BY_CBC), TEXT
    for length, mac in MACS.items():
        yield f"CMAC of {length} bytes (SP 800-38B D.1)", cmac(KEY, TEXT[:length]).hex(), mac
    # The authenticated input of such a PDU is a text of SP 800-38B: Data ID 6bc1, payload, freshness
    for length, freshness, trailer in PDUS:
        payload = TEXT[2 : 2 + length]
        pdu = protect(KEY, 0x6BC1, freshness, payload)
        yield f"Secured I-PDU of {length} bytes, made", pdu.hex(), payload.hex() + trailer
        accepted = verify(KEY, 0x6BC1, freshness - 1, payload + bytes.fromhex(trailer), 1)
        yield f"Secured I-PDU of {length} bytes, verified", (accepted.payload, accepted.freshness), (payload, freshness)
    yield from _example_of_she()


def _example_of_she() -> Iterator[tuple[str, object, object]]:
    yield "K1 (SHE)", derive(COUNTING, Purpose.ENCRYPT).hex(), "118a46447a770d87828a69c222e2d17e"
    yield "K2 (SHE)", derive(COUNTING, Purpose.AUTHENTICATE).hex(), "2ebb2a3da62dbd64b18ba6493e9fbe22"
    request = make_update(COUNTING, UPDATE)
    yield "M1, M2 and M3 (SHE)", (request.m1.hex(), request.m2.hex(), request.m3.hex()), (M1, M2, M3)
    yield "the update that they carry (SHE)", read_update(COUNTING, request), UPDATE
    reply = confirm(UPDATE, UPDATE.uid)
    yield "M4 and M5 (SHE)", (reply.m4.hex(), reply.m5.hex()), (M4, M5)
