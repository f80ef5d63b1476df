"""Questions and answers between units: of a receiver that fell behind or was reset, and of a sender that was replaced.

include/rathonsi_store.h says how, and what a caller of the library for C owes for it. `Answers` keeps that; each line
that keeps a duty says so (`duty:`).
"""

import os
import time
from dataclasses import dataclass
from typing import Any, Final, SupportsIndex

from . import _library
from ._arguments import Bytes, data_id_number, number, some_bytes
from ._errors import FreshnessFailure, VerificationFailure
from ._routes import RECEIVES, Direction, direction_of
from ._store import Store

NONCE: Final = 16
ANSWER: Final = 24
LIFE: Final = 1.0
WRONG: Final = 8


def _name_number(what: str, value: SupportsIndex) -> int:
    return number(what, value, 0, 0xFFFF_FFFF)


@dataclass(frozen=True, slots=True)
class Question:
    """Who asks whom for the counter of a route, and with which nonce. It may travel in plain PDUs.

    asker, answerer: the names of the two units, 32 bits each, which differ
    nonce: 16 bytes, those of no other question
    """

    asker: int
    answerer: int
    nonce: bytes

    def __post_init__(self) -> None:
        object.__setattr__(self, "asker", _name_number("asker", self.asker))
        object.__setattr__(self, "answerer", _name_number("answerer", self.answerer))
        object.__setattr__(self, "nonce", some_bytes("nonce", self.nonce, NONCE, NONCE))
        if self.asker == self.answerer:
            raise ValueError("asker and answerer are one unit")


@dataclass(slots=True)
class _Asked:
    """A question that waits for its answer."""

    struct: _library.QuestionStruct
    until: float
    wrong: int = 0


def _struct_of(question: Question) -> _library.QuestionStruct:
    if not isinstance(question, Question):
        raise TypeError(f"question: a Question is wanted, not {type(question).__name__}")
    struct = _library.QuestionStruct(asker=question.asker, answerer=question.answerer)
    struct.nonce[:] = list(question.nonce)
    return struct


class Answers:
    """What the unit with this name asks and answers, over its store. No other unit with the key has the name.

    A route has one question, its last one. It ends with its answer, after a second, with the eighth wrong answer, and
    with the store: a new `Store` wants a new object. Nonces are drawn by the system, or made by the route that
    `nonces` names (`Route.nonces`), for a device without random numbers that this one stands for.

    >>> import rathonsi
    >>> class Memory:
    ...     def __init__(self): self.content = bytearray(2000)
    ...     def read(self): return bytes(self.content)
    ...     def write(self, offset, data): self.content[offset : offset + len(data)] = data
    >>> def unit(direction, start):
    ...     memory, route = Memory(), rathonsi.Route(0x120E, direction, slot=4, start=start)
    ...     rathonsi.make_store(memory, [route], {4: bytes(16)})
    ...     return rathonsi.Store(memory, [route])
    >>> sender, receiver = unit(rathonsi.SENDS, 5000), unit(rathonsi.RECEIVES, 0)
    >>> asks, answers = rathonsi.Answers(receiver, name=1), rathonsi.Answers(sender, name=2)
    >>> question = asks.ask(0x120E, rathonsi.RECEIVES, of=2)
    >>> asks.take(0x120E, rathonsi.RECEIVES, answers.answer(0x120E, rathonsi.SENDS, question))
    5000
    >>> receiver.receive(0x120E, sender.send(0x120E, b"brake"))
    Accepted(payload=b'brake', freshness=5001)
    """

    def __init__(self, store: Store, name: SupportsIndex, nonces: SupportsIndex | None = None) -> None:
        if not isinstance(store, Store):
            raise TypeError(f"store: a Store is wanted, not {type(store).__name__}")
        self._store, self._name = store, _name_number("name", name)
        self._nonces = None if nonces is None else data_id_number(nonces)
        self._asked: dict[tuple[int, Direction], _Asked] = {}

    def ask(self, data_id: SupportsIndex, direction: Direction, of: SupportsIndex) -> Question:
        """A question to the unit with the name `of`, for the counter of the route of the other direction there.

        `KeyEmpty`, `KeyInvalid`, `KeyNotAvailable`, `Exhausted`: of the route of nonces. ValueError: there is no such
        route, or `of` is this unit. What the device's write raises; the store is `Unusable` then.
        """
        key, answerer = (data_id_number(data_id), direction_of(direction)), _name_number("of", of)
        if answerer == self._name:
            raise ValueError("of: a unit asks another one")
        with self._store._lock:
            self._store._route(*key)
            # duty: no nonce comes twice, and nobody foretells one; it is drawn since the store was opened
            nonce = os.urandom(NONCE) if self._nonces is None else self._store._nonce(self._nonces, self._name)
            question = Question(self._name, answerer, nonce)
            self._asked[key] = _Asked(_struct_of(question), time.monotonic() + LIFE)
        return question

    def answer(self, data_id: SupportsIndex, direction: Direction, question: Question) -> bytes:
        """The 24 bytes that answer another unit's question for the counter of this route.

        `KeyEmpty`, `KeyInvalid`, `KeyNotAvailable`: of the key of the route's slot. ValueError: there is no such
        route, or the question isn't to this unit.
        """
        direction, struct = direction_of(direction), _struct_of(question)
        # duty: a unit answers under its own name alone
        if question.answerer != self._name:
            raise ValueError(f"question: it is to unit {question.answerer}, not to {self._name}")
        return self._store._answer(data_id, direction, struct)

    def take(self, data_id: SupportsIndex, direction: Direction, answer: Bytes) -> int:
        """Takes the answer to this route's question: the counter that it tells becomes the route's, and is given.

        `VerificationFailure`: it isn't the answer, or there is no question. `FreshnessFailure`: its counter isn't above
        the route's. `KeyEmpty`, `KeyInvalid`, `KeyNotAvailable`: of the key of the route's slot. ValueError: there is no
        such route, or the answer hasn't 24 bytes. What the device's write raises; the store is `Unusable` then.
        """
        return self._take(_library.sync_take, data_id, direction_of(direction), answer)

    def rejoin(self, data_id: SupportsIndex, answer: Bytes) -> int:
        """The same of a receiver that was reset: its counter goes down, too, if nothing moved it since it was opened.

        So it refuses nothing of what its sender sends from now on. Never rejoin to a sender that was replaced, or
        whose store was made anew, unless the key of its PDUs is new, too: recorded PDUs would be accepted again.
        Refusals as those of `take`.
        """
        return self._take(_library.sync_rejoin, data_id, RECEIVES, answer)

    def _take(self, call: Any, data_id: SupportsIndex, direction: Direction, answer: Bytes) -> int:
        key, answer = (data_id_number(data_id), direction), some_bytes("answer", answer, ANSWER, ANSWER)
        with self._store._lock:
            self._store._route(*key)
            asked = self._asked.get(key)
            # duty: a nonce is forgotten after a second, after eight wrong answers, and once its answer was taken
            if asked is None or time.monotonic() >= asked.until or asked.wrong >= WRONG:
                raise VerificationFailure("no question of this route waits for an answer")
            try:
                counter = self._store._take(call, *key, asked.struct, answer)
            except VerificationFailure:
                asked.wrong += 1
                raise VerificationFailure("it isn't the answer to the question of this route") from None
            except FreshnessFailure:
                del self._asked[key]
                raise FreshnessFailure("the counter of the answer isn't above that of the route") from None
            del self._asked[key]
            return counter
