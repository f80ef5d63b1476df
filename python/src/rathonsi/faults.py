"""Faults on a bus of python-can, for tests of what receives from it. It needs python-can."""

from collections import deque
from collections.abc import Collection
from dataclasses import dataclass
from enum import Enum
from random import Random
from typing import Final, Optional

from can.bus import BusABC, BusState
from can.message import Message
from can.typechecking import CanFilters

from ._arguments import number
from ._logs import carries_data
from .can import with_data

KEPT: Final = 1000


class Fault(Enum):
    """What happens to a frame that is sent."""

    DROP = "drop"
    FLIP = "flip"
    REPLAY = "replay"
    DELAY = "delay"


@dataclass(frozen=True, slots=True)
class Injected:
    """A fault that was put in.

    message: the frame that was dropped, altered (as it went out), sent again, or held back
    """

    fault: Fault
    message: Message


class FaultyBus(BusABC):
    """A bus that puts faults into what is sent over another one. Set it under a `SecuredBus`.

    drop, flip, replay, delay: how probable each fault is for a data frame, 0 to 1, in sum at most 1. A dropped frame
    isn't sent. A flipped one goes out with one bit of its data turned; one without data as it is. After a replayed
    one, one of the last 1,000 goes out again. A delayed one goes out after `late` more frames, 1 to 1,000, or at
    `shutdown`. The same seed and frames give the same faults. `identifiers`: only frames with one of these have faults.

    `next_fault` asks for one fault of the next frame. `injected` lists what was done, in its order. What is received
    comes through as it is. One thread sends at a time, as under a `SecuredBus`.
    """

    def __init__(
        self,
        bus: BusABC,
        *,
        seed: int = 0,
        drop: float = 0.0,
        flip: float = 0.0,
        replay: float = 0.0,
        delay: float = 0.0,
        late: int = 1,
        identifiers: Collection[int] | None = None,
    ) -> None:
        if not isinstance(bus, BusABC):
            raise TypeError(f"bus: a bus of python-can is wanted, not {type(bus).__name__}")
        self._shares = {Fault.DROP: drop, Fault.FLIP: flip, Fault.REPLAY: replay, Fault.DELAY: delay}
        if not all(0 <= share <= 1 for share in self._shares.values()) or sum(self._shares.values()) > 1 + 1e-9:
            raise ValueError("drop, flip, replay, delay: numbers from 0 to 1 are wanted, in sum at most 1")
        self._late = number("late", late, 1, KEPT)
        self._identifiers = None if identifiers is None else frozenset(identifiers)
        self._random = Random(seed)
        self._asked: deque[Fault] = deque()
        self._sent: deque[Message] = deque(maxlen=KEPT)
        self._held: deque[tuple[int, Message]] = deque()
        self._count = 0
        self.injected: list[Injected] = []
        self._bus = bus
        super().__init__(channel=None, can_filters=bus.filters)
        self.channel_info = f"faulty {bus.channel_info}"

    def next_fault(self, fault: Fault) -> None:
        """Puts this fault into the next data frame of `identifiers`; called again, also into the one after it."""
        self._asked.append(Fault(fault))

    def send(self, msg: Message, timeout: Optional[float] = None) -> None:
        """Sends a frame, with or without a fault. What the other bus raises."""
        fault = self._fault_of(msg)
        self._count += 1
        if fault is Fault.DROP:
            self._note(fault, msg)
        elif fault is Fault.DELAY:
            self._note(fault, msg)
            self._held.append((self._count + self._late, msg))
        else:
            self._pass_on(self._flipped(msg) if fault is Fault.FLIP else msg, timeout)
            if fault is Fault.REPLAY:
                again = self._random.choice(self._sent)
                self._note(fault, again)
                self._bus.send(again, timeout)
        while self._held and self._held[0][0] <= self._count:
            self._pass_on(self._held.popleft()[1], timeout)

    def _fault_of(self, message: Message) -> Fault | None:
        if not carries_data(message) or (
            self._identifiers is not None and message.arbitration_id not in self._identifiers
        ):
            return None
        drawn = self._random.random()
        if self._asked:
            return self._asked.popleft()
        for fault, share in self._shares.items():
            if drawn < share:
                return fault
            drawn -= share
        return None

    def _pass_on(self, message: Message, timeout: Optional[float]) -> None:
        self._bus.send(message, timeout)
        if self._identifiers is None or message.arbitration_id in self._identifiers:
            self._sent.append(message)

    def _flipped(self, message: Message) -> Message:
        data = bytearray(message.data)
        if data:
            bit = self._random.randrange(8 * len(data))
            data[bit // 8] ^= 1 << bit % 8
            message = with_data(message, bytes(data))
            self._note(Fault.FLIP, message)
        return message

    def _note(self, fault: Fault, message: Message) -> None:
        self.injected.append(Injected(fault, message))

    def _recv_internal(self, timeout: Optional[float]) -> tuple[Optional[Message], bool]:
        return self._bus.recv(timeout), True

    def _apply_filters(self, filters: Optional[CanFilters]) -> None:
        self._bus.set_filters(filters)

    def fileno(self) -> int:
        """The file descriptor of the other bus."""
        return self._bus.fileno()

    def flush_tx_buffer(self) -> None:
        """Discards what the other bus has queued, and what is held back."""
        self._held.clear()
        self._bus.flush_tx_buffer()

    def shutdown(self) -> None:
        """Sends what is held back, and shuts the other bus down."""
        while self._held:
            self._pass_on(self._held.popleft()[1], None)
        super().shutdown()
        self._bus.shutdown()

    @property
    def state(self) -> BusState:
        """The state of the other bus."""
        return self._bus.state

    @state.setter
    def state(self, new_state: BusState) -> None:
        self._bus.state = new_state
