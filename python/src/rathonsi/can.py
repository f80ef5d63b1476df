"""Secured I-PDUs on a bus of python-can, and in its logs. It needs python-can: `pip install rathonsi[can]`."""

import threading
from collections.abc import Callable, Iterable
from dataclasses import dataclass
from typing import Final, Optional

from can.bus import BusABC, BusState
from can.message import Message
from can.typechecking import CanFilters

from ._arguments import PAYLOAD_MOST, data_id_number, number
from ._errors import Refused
from ._logs import FrameVerdict, LogVerdicts, NothingJudged, carries_data, pdu_in, verify_log
from ._maps import MapLine, identifier, read_map
from ._results import LineResult, LogResults, Silence
from ._routes import RECEIVES, SENDS, Direction, direction_of
from ._scripts import to_script
from ._store import Store

__all__ = [
    "Frame",
    "FrameVerdict",
    "LineResult",
    "LogResults",
    "LogVerdicts",
    "MapLine",
    "NothingJudged",
    "SecuredBus",
    "Silence",
    "read_map",
    "to_script",
    "verify_log",
]

FD_LENGTHS: Final = (12, 16, 20, 24, 32, 48, 64)

OnRefused = Callable[[Message, Refused], object]


@dataclass(frozen=True, slots=True)
class Frame:
    """A frame of a `SecuredBus` that carries the PDUs of a route.

    arbitration_id: 11 bits, or 29 if `is_extended_id` is true
    data_id: 16 bits, that of a route of the store in this direction
    direction: SENDS or RECEIVES
    payload_length: 1 to 60 bytes. On the bus the data has 4 more; over 8 it is of CAN FD and padded with zeros

    TypeError, ValueError: a field is of another type, or outside its range.
    """

    arbitration_id: int
    data_id: int
    direction: Direction
    payload_length: int
    is_extended_id: bool = False

    def __post_init__(self) -> None:
        object.__setattr__(self, "arbitration_id", identifier(self.arbitration_id, self.is_extended_id))
        object.__setattr__(self, "data_id", data_id_number(self.data_id))
        object.__setattr__(self, "direction", direction_of(self.direction))
        object.__setattr__(self, "payload_length", number("payload_length", self.payload_length, 1, PAYLOAD_MOST))


def with_data(message: Message, data: bytes) -> Message:
    """The same frame with other data; of CAN FD if that is longer than 8 bytes."""
    return Message(
        timestamp=message.timestamp,
        arbitration_id=message.arbitration_id,
        is_extended_id=message.is_extended_id,
        channel=message.channel,
        data=data,
        is_fd=message.is_fd or len(data) > 8,
        is_rx=message.is_rx,
        bitrate_switch=message.bitrate_switch,
        error_state_indicator=message.error_state_indicator,
    )


def _padded(pdu: bytes) -> bytes:
    """The PDU, and zeros up to a length that a frame can have."""
    if len(pdu) <= 8:
        return pdu
    return pdu.ljust(next(length for length in FD_LENGTHS if length >= len(pdu)), b"\0")


class SecuredBus(BusABC):
    """A bus that secures what is sent on another one, and verifies what is received from it.

    `send` secures the data frames that `frames` maps to routes that send; `recv` gives those of routes that receive
    with their payload as data, once they are verified. All other frames go through as they are, remote and error
    frames with mapped identifiers, too. An identifier of 11 bits and one of 29 are two: a `can.Message` has 29 unless
    it says `is_extended_id=False`. Filters, periodic sending, `can.Notifier` and `with` work as on any bus; `shutdown`
    shuts the other bus down, and leaves the store open. Let one thread receive: of two, one may overtake the other,
    and the older frame is refused then.

    A received frame that is refused raises its `Refused` in `recv`. With `on_refused` it is handed to that, with its
    reason, and `recv` goes on to the next one while it has time; `recv(0)` looks at one frame. Take `on_refused` with
    a `can.Notifier`, whose thread ends at an exception.

    ValueError: a frame names a route that the store hasn't, or two frames of one direction have one identifier.
    """

    def __init__(
        self, bus: BusABC, store: Store, frames: Iterable[Frame], on_refused: OnRefused | None = None
    ) -> None:
        if not isinstance(bus, BusABC) or not isinstance(store, Store):
            raise TypeError("a bus of python-can and a Store are wanted")
        if on_refused is not None and not callable(on_refused):
            raise TypeError(f"on_refused: a function is wanted, not {type(on_refused).__name__}")
        self._store = store
        self._frames: dict[tuple[int, bool, Direction], Frame] = {}
        for frame in frames:
            self._add(frame)
        self._on_refused = on_refused
        # a bus that answers within `send`, and a handler of a signal, may send again
        self._sending = threading.RLock()
        self._bus = bus
        super().__init__(channel=None, can_filters=bus.filters)
        self.channel_info = f"secured {bus.channel_info}"

    def _add(self, frame: Frame) -> None:
        if not isinstance(frame, Frame):
            raise TypeError(f"frames: a Frame is wanted, not {type(frame).__name__}")
        self._store.counter(frame.data_id, frame.direction)
        place = (frame.arbitration_id, frame.is_extended_id, frame.direction)
        if place in self._frames:
            raise ValueError(f"frames: two have the identifier {frame.arbitration_id:x}")
        self._frames[place] = frame

    def _frame_of(self, message: Message, direction: Direction) -> Frame | None:
        if not carries_data(message):
            return None
        return self._frames.get((message.arbitration_id, message.is_extended_id, direction))

    def send(self, msg: Message, timeout: Optional[float] = None) -> None:
        """Sends a frame; a mapped data frame with its Secured I-PDU, a new freshness each time.

        ValueError: the data of a mapped frame isn't its payload long. What `Store.send` and the other bus raise.
        """
        if not isinstance(msg, Message):
            raise TypeError(f"msg: a Message is wanted, not {type(msg).__name__}")
        frame = self._frame_of(msg, SENDS)
        if frame is None:
            self._bus.send(msg, timeout)
            return
        if len(msg.data) != frame.payload_length:
            raise ValueError(f"the frame has {len(msg.data)} bytes, and its payload {frame.payload_length}")
        # in one piece: of two threads none overtakes the other between its freshness and the bus
        with self._sending:
            pdu = self._store.send(frame.data_id, msg.data)
            self._bus.send(with_data(msg, _padded(pdu)), timeout)

    def _recv_internal(self, timeout: Optional[float]) -> tuple[Optional[Message], bool]:
        message = self._bus.recv(timeout)
        frame = None if message is None else self._frame_of(message, RECEIVES)
        if message is None or frame is None:
            return message, True
        try:
            payload = self._store.receive(frame.data_id, pdu_in(message, frame.payload_length)).payload
        except Refused as refused:
            if self._on_refused is None:
                refused.add_note(f"the frame: {message}")
                raise
            self._on_refused(message, refused)
            return None, True
        return with_data(message, payload), True

    def _apply_filters(self, filters: Optional[CanFilters]) -> None:
        self._bus.set_filters(filters)

    def fileno(self) -> int:
        """The file descriptor of the other bus."""
        return self._bus.fileno()

    def flush_tx_buffer(self) -> None:
        """Discards what the other bus has queued; the freshness of it is spent."""
        self._bus.flush_tx_buffer()

    def shutdown(self) -> None:
        """Stops periodic sending, and shuts the other bus down."""
        super().shutdown()
        self._bus.shutdown()

    @property
    def state(self) -> BusState:
        """The state of the other bus."""
        return self._bus.state

    @state.setter
    def state(self, new_state: BusState) -> None:
        self._bus.state = new_state
