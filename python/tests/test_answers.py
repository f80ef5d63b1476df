"""Questions and answers of two units: their bytes beside the model, what ends a question, and what comes of an answer."""

import doctest
import os
import time

import pytest

import model
import rathonsi
from memories import KEY, CutMemory, Memory, PowerWent, opened
from rathonsi import _answers

SENDS, RECEIVES = rathonsi.SENDS, rathonsi.RECEIVES
A, B = 0x120E, 0x120F
NONCES = 0x7F0
ONE, TWO = 0x1122_3344, 7
LABEL = b"RATHONSI COUNTER OF A ROUTE, IN ANSWER TO A QUESTION:"
NONCE_LABEL = b"RATHONSI NONCE OF THIS UNIT: A COUNT THAT IS DURABLE BEFORE IT IS."


@pytest.fixture(autouse=True)
def clock(monkeypatch: pytest.MonkeyPatch) -> list[float]:
    """The time, which passes only as a test says."""
    now = [1000.0]
    monkeypatch.setattr(time, "monotonic", lambda: now[0])
    return now


def test_the_example() -> None:
    assert doctest.testmod(_answers) == (0, 8)


def routes(start: int = 0, reserve: int = 8, turned: bool = False) -> tuple[rathonsi.Route, ...]:
    """A unit sends A and receives B, or the other way round, and makes nonces."""
    ways = (RECEIVES, SENDS) if turned else (SENDS, RECEIVES)
    return (
        rathonsi.Route(A, ways[0], 4, reserve, start=start),
        rathonsi.Route(B, ways[1], 4, reserve, start=start),
        rathonsi.Route(NONCES + turned, SENDS, 4, reserve=2, nonces=True),
    )


def units(start: int = 0, other_start: int = 0) -> tuple[Memory, rathonsi.Answers, rathonsi.Store, rathonsi.Answers, rathonsi.Store]:
    one, two = routes(start), routes(other_start, turned=True)
    memory = Memory.made(one)
    first, second = opened(memory, one), opened(Memory.made(two), two)
    return memory, rathonsi.Answers(first, ONE), first, rathonsi.Answers(second, TWO), second


def answer_of(question: rathonsi.Question, data_id: int, direction: int, counter: int) -> bytes:
    """What the layout in docs/formats.md says."""
    told = counter.to_bytes(8, "big")
    names = question.asker.to_bytes(4, "big") + question.answerer.to_bytes(4, "big")
    return told + model.cmac(KEY, LABEL + data_id.to_bytes(2, "big") + bytes([direction]) + names + question.nonce + told)


def test_an_answer_has_the_bytes_of_its_layout_in_both_directions() -> None:
    _, one, first, two, second = units(300, 40)
    for data_id, ours, theirs in ((A, SENDS, RECEIVES), (B, RECEIVES, SENDS)):
        asked = two.ask(data_id, theirs, of=ONE)
        assert (asked.asker, asked.answerer) == (TWO, ONE)
        answer = one.answer(data_id, ours, asked)
        assert answer == answer_of(asked, data_id, ours, first.counter(data_id, ours))
        assert two.take(data_id, theirs, answer) == 300 == second.counter(data_id, theirs)


def test_a_receiver_that_fell_behind_takes_an_answer_and_hears_at_once() -> None:
    _, one, first, two, second = units(0, 5000)
    with pytest.raises(rathonsi.Refused):
        first.receive(B, second.send(B, b"x"))
    assert one.take(B, RECEIVES, two.answer(B, SENDS, one.ask(B, RECEIVES, of=TWO))) == 5001
    assert first.receive(B, second.send(B, b"x")).freshness == 5002


def test_a_receiver_rejoins_after_a_reset_and_no_pdu_comes_twice() -> None:
    memory, _, first, two, second = units()
    old = [second.send(B, b"x") for _ in range(3)]
    for pdu in old:
        first.receive(B, pdu)
    first = opened(memory, routes())
    one = rathonsi.Answers(first, ONE)
    assert first.counter(B, RECEIVES) == 8
    assert one.rejoin(B, two.answer(B, SENDS, one.ask(B, RECEIVES, of=TWO))) == 3 == first.counter(B, RECEIVES)
    for pdu in old:
        with pytest.raises(rathonsi.Refused):
            first.receive(B, pdu)
    assert first.receive(B, second.send(B, b"x")).freshness == 4
    with pytest.raises(rathonsi.FreshnessFailure, match="isn't above"):
        one.rejoin(B, two.answer(B, SENDS, one.ask(B, RECEIVES, of=TWO)))


def test_what_ends_a_question(clock: list[float]) -> None:
    _, one, _, two, _ = units(0, 5000)

    def refused(answer: bytes, why: str) -> None:
        with pytest.raises(rathonsi.VerificationFailure, match=why):
            one.take(B, RECEIVES, answer)

    refused(bytes(24), "no question")
    first = two.answer(B, SENDS, one.ask(B, RECEIVES, of=TWO))
    second = two.answer(B, SENDS, one.ask(B, RECEIVES, of=TWO))
    refused(first, "isn't the answer")
    clock[0] += 1.0
    refused(second, "no question")
    third = two.answer(B, SENDS, one.ask(B, RECEIVES, of=TWO))
    for _ in range(8):
        refused(first, "isn't the answer")
    refused(third, "no question")
    fourth = two.answer(B, SENDS, one.ask(B, RECEIVES, of=TWO))
    for _ in range(7):
        refused(first, "isn't the answer")
    clock[0] += 0.9
    assert one.take(B, RECEIVES, fourth) == 5000
    refused(fourth, "no question")
    fifth = two.answer(B, SENDS, one.ask(B, RECEIVES, of=TWO))
    with pytest.raises(rathonsi.FreshnessFailure, match="isn't above"):
        one.take(B, RECEIVES, fifth)
    refused(fifth, "no question")


def test_a_unit_asks_others_and_answers_under_its_own_name() -> None:
    _, one, _, two, _ = units(0, 5000)
    with pytest.raises(ValueError, match="another"):
        one.ask(B, RECEIVES, of=ONE)
    with pytest.raises(ValueError, match="one unit"):
        rathonsi.Question(TWO, TWO, bytes(16))
    question = one.ask(B, RECEIVES, of=TWO)
    with pytest.raises(ValueError, match="to unit 7"):
        one.answer(B, RECEIVES, question)
    with pytest.raises(ValueError, match="no route"):
        two.answer(B, RECEIVES, question)
    with pytest.raises(TypeError, match="a Question"):
        two.answer(B, SENDS, question.nonce)  # type: ignore[arg-type]
    with pytest.raises(TypeError, match="a Store"):
        rathonsi.Answers(None, ONE)  # type: ignore[arg-type]


def test_nonces_of_a_count_are_those_of_the_layout_and_differ_over_all_lives() -> None:
    memory = CutMemory(seed=5, one_in=9)
    memory.one_in = 1 << 60
    rathonsi.make_store(memory, routes(), {4: KEY})
    memory.one_in = 9
    made: list[bytes] = []
    lives = 0
    while len(made) < 300:
        lives += 1
        store = opened(memory, routes())
        one = rathonsi.Answers(store, ONE, nonces=NONCES)
        try:
            for _ in range(20):
                nonce = one.ask(B, RECEIVES, of=TWO).nonce
                count = store.counter(NONCES, SENDS)
                names = NONCES.to_bytes(2, "big") + ONE.to_bytes(4, "big")
                assert nonce == model.cmac(KEY, NONCE_LABEL + names + count.to_bytes(8, "big"))
                made.append(nonce)
        except PowerWent:
            continue
    assert len(set(made)) == len(made) and lives > 20


def test_a_route_of_nonces_sends_nothing_else_and_no_other_makes_them() -> None:
    _, _, first, _, _ = units()
    with pytest.raises(rathonsi.BadValue):
        first.send(NONCES, b"x")
    with pytest.raises(ValueError, match="makes no nonces"):
        rathonsi.Answers(first, ONE, nonces=A).ask(B, RECEIVES, of=TWO)
    with pytest.raises(ValueError, match="sends"):
        rathonsi.Route(1, RECEIVES, 4, nonces=True)


def test_without_a_key_there_is_neither_answer_nor_nonce() -> None:
    bare = tuple(rathonsi.Route(it.data_id, it.direction, 5, nonces=it.nonces) for it in routes())
    store = opened(Memory.made(bare), bare)
    one = rathonsi.Answers(store, ONE)
    with pytest.raises(rathonsi.KeyEmpty):
        one.answer(A, SENDS, rathonsi.Question(TWO, ONE, os.urandom(16)))
    one.ask(B, RECEIVES, of=TWO)
    with pytest.raises(rathonsi.KeyEmpty):
        one.take(B, RECEIVES, bytes(24))
    with pytest.raises(rathonsi.KeyEmpty):
        rathonsi.Answers(store, ONE, nonces=NONCES).ask(B, RECEIVES, of=TWO)
