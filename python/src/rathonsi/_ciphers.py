"""AES-128 (FIPS 197; modes of SP 800-38A) and its CMAC (SP 800-38B)."""

from ctypes import create_string_buffer
from typing import Any

from . import _library
from ._arguments import KEY_LENGTH, Bytes, any_bytes, key_bytes, some_bytes
from ._errors import raise_unless_ok

BLOCK = 16


def _turned(call: Any, key: Bytes, text: Bytes, *iv: bytes) -> bytes:
    key, text = key_bytes("key", key), any_bytes("text", text)
    if len(text) % BLOCK != 0:
        raise ValueError(f"text: a multiple of 16 bytes is wanted, not {len(text)}")
    buffer = create_string_buffer(text, len(text) + 1)
    raise_unless_ok(call(key, KEY_LENGTH, *iv, buffer, len(text)))
    return buffer.raw[:-1]


def aes128_encrypt(key: Bytes, text: Bytes) -> bytes:
    """The text encrypted under a key of 16 bytes, each block of 16 bytes by itself (ECB).

    ValueError: the key hasn't 16 bytes, or the text isn't a multiple of 16 bytes long.
    """
    return _turned(_library.aes128_encrypt, key, text)


def aes128_decrypt(key: Bytes, text: Bytes) -> bytes:
    """The text decrypted; arguments and errors as of `aes128_encrypt`."""
    return _turned(_library.aes128_decrypt, key, text)


def aes128_cbc_encrypt(key: Bytes, iv: Bytes, text: Bytes) -> bytes:
    """The text encrypted, its blocks chained from an IV of 16 bytes (CBC); errors as of `aes128_encrypt`."""
    return _turned(_library.aes128_cbc_encrypt, key, text, some_bytes("iv", iv, BLOCK, BLOCK))


def aes128_cbc_decrypt(key: Bytes, iv: Bytes, text: Bytes) -> bytes:
    """The text decrypted, its blocks chained from an IV of 16 bytes (CBC); errors as of `aes128_encrypt`."""
    return _turned(_library.aes128_cbc_decrypt, key, text, some_bytes("iv", iv, BLOCK, BLOCK))


def cmac(key: Bytes, message: Bytes) -> bytes:
    """All 16 bytes of the CMAC of a message of any length under a key of 16 bytes; a shorter tag is its first bytes.

    ValueError: the key hasn't 16 bytes.
    """
    key, message = key_bytes("key", key), any_bytes("message", message)
    mac = create_string_buffer(BLOCK)
    raise_unless_ok(_library.cmac(key, KEY_LENGTH, message, len(message), mac))
    return mac.raw
