"""Each call without a store, on drawn arguments, beside the model."""

from dataclasses import replace

import pytest
from hypothesis import assume, given
from hypothesis import strategies as st

import model
import rathonsi

keys = uids = st.binary(min_size=16, max_size=16)
uids = st.binary(min_size=15, max_size=15)
data_ids = st.integers(0, 0xFFFF)
freshness = st.integers(0, model.LAST) | st.integers(0, 600) | st.integers(model.LAST - 600, model.LAST)
payloads = st.binary(min_size=1, max_size=60)
slots = st.integers(0, 13)
updates = st.builds(
    rathonsi.Update, uids, slots, slots, st.integers(0, 31), st.integers(0, 2**28 - 1), keys
)
blocks = st.integers(0, 6).flatmap(lambda count: st.binary(min_size=16 * count, max_size=16 * count))


def fields(update: rathonsi.Update) -> tuple[bytes, int, int, int, int, bytes]:
    return update.uid, update.id, update.auth, update.flags, update.counter, update.key


@given(keys, st.binary(max_size=200))
def test_cmac(key: bytes, message: bytes) -> None:
    assert rathonsi.cmac(key, message) == model.cmac(key, message)


@given(keys, keys, blocks)
def test_aes128(key: bytes, iv: bytes, text: bytes) -> None:
    assert rathonsi.aes128_encrypt(key, text) == model.encrypt(key, text)
    assert rathonsi.aes128_decrypt(key, text) == model.decrypt(key, text)
    assert rathonsi.aes128_cbc_encrypt(key, iv, text) == model.encrypt(key, text, iv)
    assert rathonsi.aes128_cbc_decrypt(key, iv, text) == model.decrypt(key, text, iv)


@given(keys, data_ids, freshness, payloads)
def test_protect(key: bytes, data_id: int, fresh: int, payload: bytes) -> None:
    assert rathonsi.protect(key, data_id, fresh, payload) == model.protect(key, data_id, fresh, payload)


def same_verdict(key: bytes, data_id: int, counter: int, pdu: bytes, window: int) -> str:
    try:
        wanted: object = model.verify(key, data_id, counter, pdu, window)
    except model.Refusal as refusal:
        wanted = refusal.args[0]
    try:
        accepted = rathonsi.verify(key, data_id, counter, pdu, window)
        said: object = (accepted.payload, accepted.freshness)
    except rathonsi.Refused as refused:
        said = type(refused).__name__
    assert said == wanted
    return str(wanted)


@given(keys, data_ids, freshness, st.integers(-3, 300), payloads, st.integers(1, 256))
def test_verify(key: bytes, data_id: int, counter: int, ahead: int, payload: bytes, window: int) -> None:
    assume(0 <= counter + ahead <= model.LAST)
    same_verdict(key, data_id, counter, model.protect(key, data_id, counter + ahead, payload), window)


@given(keys, data_ids, freshness, payloads, st.data())
def test_verify_with_one_bit_turned(key: bytes, data_id: int, counter: int, payload: bytes, data: st.DataObject) -> None:
    assume(counter < model.LAST)
    pdu = bytearray(model.protect(key, data_id, counter + 1, payload))
    bit = data.draw(st.integers(0, 8 * len(pdu) - 1))
    pdu[bit // 8] ^= 1 << bit % 8
    assert same_verdict(key, data_id, counter, bytes(pdu), 256) in ("VerificationFailure", "FreshnessFailure")


@given(keys, data_ids, freshness, st.binary(max_size=80), st.integers(1, 256))
def test_verify_any_bytes(key: bytes, data_id: int, counter: int, pdu: bytes, window: int) -> None:
    same_verdict(key, data_id, counter, pdu, window)


@given(keys)
def test_derive(key: bytes) -> None:
    for purpose in rathonsi.Purpose:
        assert rathonsi.derive(key, purpose) == model.derive(key, int(purpose))


@given(keys, updates)
def test_make_and_read_an_update(authkey: bytes, update: rathonsi.Update) -> None:
    m1, m2, m3 = model.request(authkey, *fields(update))
    assert rathonsi.make_update(authkey, update) == rathonsi.Request(m1, m2, m3)
    assert rathonsi.read_update(authkey, rathonsi.Request(m1, m2, m3)) == update


@given(keys, updates, st.binary(min_size=1, max_size=64), st.integers(0, 63))
def test_read_a_changed_update(authkey: bytes, update: rathonsi.Update, change: bytes, place: int) -> None:
    whole = bytearray(b"".join(model.request(authkey, *fields(update))))
    for at, byte in enumerate(change[: 64 - place], place):
        whole[at] ^= byte
    messages = bytes(whole[:16]), bytes(whole[16:48]), bytes(whole[48:])
    try:
        wanted: object = model.read(authkey, *messages)
    except model.Refusal as refusal:
        wanted = refusal.args[0]
    try:
        said: object = fields(rathonsi.read_update(authkey, rathonsi.Request(*messages)))
    except rathonsi.Refused as refused:
        said = type(refused).__name__
    assert said == wanted


@given(updates, uids)
def test_confirm(update: rathonsi.Update, uid: bytes) -> None:
    wanted = model.reply(uid, update.id, update.auth, update.counter, update.key)
    assert rathonsi.confirm(update, uid) == rathonsi.Reply(*wanted)


@given(keys, st.binary(max_size=40))
def test_bytes_in_any_of_three_types(key: bytes, message: bytes) -> None:
    wanted = model.cmac(key, message)
    assert rathonsi.cmac(bytearray(key), bytearray(message)) == wanted
    assert rathonsi.cmac(memoryview(key), memoryview(message * 2)[: len(message)]) == wanted
    assert rathonsi.cmac(key, memoryview(bytes(b for byte in message for b in (byte, 0)))[::2]) == wanted


def test_results_are_frozen_and_plain() -> None:
    update = rathonsi.Update(bytearray(15), 4, 1, rathonsi.Flags.KEY_USAGE, 1, memoryview(bytes(16)))
    assert [type(it) for it in fields(update)] == [bytes, int, int, int, int, bytes]
    request = rathonsi.make_update(bytes(16), update)
    accepted = rathonsi.verify(bytes(16), 1, 0, rathonsi.protect(bytes(16), 1, 1, b"x"))
    for frozen, name in ((update, "id"), (request, "m1"), (accepted, "freshness"), (rathonsi.confirm(update, bytes(15)), "m4")):
        with pytest.raises(AttributeError):
            setattr(frozen, name, 0)
    assert replace(update, counter=2).counter == 2
    with pytest.raises(ValueError):
        replace(update, counter=2**28)


def test_repr_shows_no_key() -> None:
    secret = bytes(range(100, 116))
    assert "key" not in repr(rathonsi.Update(bytes(15), 4, 1, 0, 1, secret))
