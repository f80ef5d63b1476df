"""The verdicts on the frames of a log, and what they come to."""

import math
import re
from collections.abc import Iterable, Iterator, Mapping
from dataclasses import dataclass
from os import PathLike
from typing import Any, Final

from can.io.canutils import CanutilsLogReader
from can.io.generic import MessageReader
from can.io.player import LogReader
from can.io.trc import TRCReader
from can.message import Message
from can.util import channel2int

from ._arguments import TRAILER
from ._errors import BadLength, Refused
from ._maps import MapLine, lines_of
from ._pdus import Accepted, verify
from ._results import LogResults, Tally


def carries_data(message: Message) -> bool:
    """Whether a frame is neither a remote frame nor an error frame."""
    return not message.is_remote_frame and not message.is_error_frame


def pdu_in(message: Message, payload_length: int) -> bytes:
    """The first bytes of a frame, which are its PDU; the others are padding. BadLength: it has fewer bytes."""
    size = payload_length + TRAILER
    if len(message.data) < size:
        raise BadLength(f"the frame has {len(message.data)} bytes, and its PDU {size}")
    return bytes(message.data[:size])


class NothingJudged(ValueError):
    """No frame of a log belongs to a line of the map. It says on which channels mapped identifiers came, if any did."""


@dataclass(frozen=True, slots=True)
class FrameVerdict:
    """What a receiver says of a frame of a log.

    number: of its line in a candump log, as `watch` counts; in other logs of the frame, as python-can reads it; from 1
    message: the frame
    line: the line of the map that names it
    accepted: its payload and freshness; None if it is refused
    refused: why; None if it is accepted
    """

    number: int
    message: Message
    line: MapLine
    accepted: Accepted | None
    refused: Refused | None


class LogVerdicts(Iterator[FrameVerdict]):
    """The verdicts on the mapped data frames of a log, in its order, and its results."""

    def __init__(self, verdicts: Iterator[FrameVerdict], tally: Tally, log: MessageReader) -> None:
        self._verdicts, self._tally, self._log = verdicts, tally, log

    def __next__(self) -> FrameVerdict:
        return next(self._verdicts)

    @property
    def results(self) -> LogResults:
        """The table of `watch` over what was read so far: at the log's end, that of the log."""
        return self._tally.results()

    def finish(self) -> LogResults:
        """Reads on to the log's end, and gives its results. What `verify_log` raises at its end."""
        for _ in self._verdicts:
            pass
        return self.results

    def close(self) -> None:
        """Closes the log, of which nothing more is read then. Its end closes it, too."""
        self._verdicts = iter(())
        self._log.stop()


def verify_log(
    path: str | PathLike[str],
    map: str | PathLike[str] | Iterable[MapLine],
    *,
    channels: Mapping[str, int | str] | None = None,
    silent: float | None = None,
    malformed: int | None = 0,
    **reader: Any,
) -> LogVerdicts:
    """The verdict on each mapped data frame of a log, in its order, as it is read; `results` has the table of `watch`.

    `path` is a log that `LogReader` reads, by its suffix: candump (.log), ASC, BLF, TRC, CSV, SQLite (.db), also
    with .gz; MF4 (untested), if python-can reads it. `map` is a file as of `read_map`, or lines of it; a frame belongs
    to the first line with its identifier and channel. Each line counts for itself: its counter is `freshness`, and
    then the freshness that was accepted last. `reader` is passed on to `LogReader`.

    In a candump log a channel is its name, as in `watch`. Other logs number their channels: the number that ends a name
    counts them from 0, so `can0` is the first one. A channel that is digits is the number that python-can gives.
    `channels` names them otherwise: a channel of the map, and the one of the log, as in `{"can0": 4}`.

    `silent` is a number of seconds: `results` names each time so long in which a line that isn't optional had no
    accepted frame. A limit of the line's own goes before it. `malformed` is how many malformed lines of a candump log
    are counted; None is any number.

    ValueError, OSError, at the call itself: of the map, of an argument, or of a log that can't be opened. ValueError,
    when it is read: a malformed line too many, or a frame without a time if there is `silent`. What `LogReader` raises
    of another log comes when its frame is read. NothingJudged, at the end: no frame of the log belongs to a line.
    """
    lines = lines_of(map)
    if silent is not None and not 0 < silent < math.inf:
        raise ValueError("silent: a number of seconds over 0 is wanted")
    if malformed is not None and malformed < 0:
        raise ValueError("malformed: a number of lines from 0 on is wanted")
    log = LogReader(path, **reader)
    try:
        places = _places(lines, channels or {}, log)
    except (ValueError, TypeError):
        log.stop()
        raise
    tally = Tally(lines, silent)
    return LogVerdicts(_verdicts(log, lines, places, tally, malformed), tally, log)


# an identifier, whether it has 29 bits, and a channel, as `str` gives that of a frame; None is any
_Place = tuple[int, bool, str | None]


def _places(lines: list[MapLine], channels: Mapping[str, int | str], log: MessageReader) -> list[_Place]:
    """What the frames of each line have in this log."""
    unknown = set(channels) - {line.channel for line in lines}
    if unknown:
        raise ValueError(f"channels: no line of the map has the channel {min(unknown)}")
    if not all(isinstance(it, (int, str)) for it in channels.values()):
        raise TypeError("channels: numbers or names are wanted")
    places: list[_Place] = []
    for line in lines:
        place = (line.arbitration_id, line.is_extended_id, _channel_in(log, line.channel, channels))
        if place in places:
            why = "in the log an earlier one has its channel"
            raise ValueError(f"no frame reaches this line of {line.arbitration_id:x}: {why}")
        places.append(place)
    return places


def _channel_in(log: MessageReader, name: str | None, channels: Mapping[str, int | str]) -> str | None:
    """The channel of a frame in this log, as `str` gives it, which the map calls so."""
    if name is None:
        return None
    if name in channels:
        return str(channels[name])
    number = None if isinstance(log, CanutilsLogReader) or name.isdigit() else channel2int(name)
    if number is None:
        return name
    # python-can counts those of a TRC from 1, and those of the others from 0
    return str(number + 1 if isinstance(log, TRCReader) else number)


# behind 8 bytes of classic CAN there may be a data length code above 8, as `candump -8` writes it
_LONG_CODE: Final = rb"(?:(?<=#[0-9A-Fa-f]{16})_[9A-Fa-f])?"
_FRAME: Final = re.compile(rb"([0-9A-Fa-f]{3}|[0-9A-Fa-f]{8})#(#[0-9A-Fa-f])?((?:[0-9A-Fa-f]{2})*)" + _LONG_CODE)
_OTHER_FRAME: Final = re.compile(rb"(?:[0-9A-Fa-f]{3}|[0-9A-Fa-f]{8})#R[^#]*|[0-9A-Fa-f]{5}#.*", re.DOTALL)
_TIME: Final = re.compile(rb"\(([^ \t]*)\)")
_SECONDS: Final = re.compile(rb"[0-9]{1,17}(\.[0-9]*)?")


def _candump_frame(words: list[bytes]) -> Message | None:
    """The frame of a line of `candump -L`; None if the line is malformed. Remote, error and XL frames have no data."""
    time = _TIME.fullmatch(words[0]) if len(words) > 2 else None
    if time is None:
        return None
    stamp = float(time[1]) if _SECONDS.fullmatch(time[1]) else math.nan
    frame = _FRAME.fullmatch(words[2])
    if frame is None:
        other = _OTHER_FRAME.fullmatch(words[2])
        return Message(timestamp=stamp, is_error_frame=True) if other else None
    canid, data = int(frame[1], 16), bytes.fromhex(frame[3].decode("ascii"))
    extended, flags = len(frame[1]) == 8, int(frame[2][1:], 16) if frame[2] else None
    if len(data) > (8 if flags is None else 64) or canid > (0x3FFF_FFFF if extended else 0x7FF):
        return None
    if canid > 0x1FFF_FFFF:
        return Message(timestamp=stamp, is_error_frame=True)
    channel = words[1].decode("utf-8", "surrogateescape")
    return Message(
        timestamp=stamp,
        arbitration_id=canid,
        is_extended_id=extended,
        channel=int(channel) if re.fullmatch("0|[1-9][0-9]{0,17}", channel) else channel,
        data=data,
        is_fd=flags is not None,
        is_rx=words[3:4] not in ([b"t"], [b"T"]),
        bitrate_switch=bool((flags or 0) & 1),
        error_state_indicator=bool((flags or 0) & 2),
    )


def _candump_frames(log: CanutilsLogReader) -> Iterator[tuple[int, Message | None]]:
    """The frames of a candump log under the numbers of their lines; None for a malformed line, as `watch` has it."""
    for count, line in enumerate(getattr(log.file, "buffer"), 1):
        line = line.removesuffix(b"\n")
        words = [word for word in re.split(b"[ \t]+", line.removesuffix(b"\r")) if word]
        if len(line) > 4096:
            yield count, None
        elif words and not words[0].startswith(b"#"):
            yield count, _candump_frame(words)


def _verdicts(
    log: MessageReader, lines: list[MapLine], places: list[_Place], tally: Tally, malformed: int | None
) -> Iterator[FrameVerdict]:
    others: set[str] = set()
    judged = False
    with log:
        for count, message in _candump_frames(log) if isinstance(log, CanutilsLogReader) else enumerate(log, 1):
            if message is None:
                tally.malformed += 1
                if malformed is not None and tally.malformed > malformed:
                    raise ValueError(f"line {count} of the log is malformed: it isn't one of `candump -L`")
                continue
            tally.see(message.timestamp)
            which = _line_of(message, places)
            if which is not None:
                judged = True
                yield _judged(count, message, lines[which], which, tally)
            elif carries_data(message):
                tally.unmapped += 1
                if not judged and any(_has_identifier(message, place) for place in places):
                    others.add(str(message.channel))
            else:
                tally.other_frames += 1
    if not judged:
        channels = ", ".join(sorted(others))
        came = f"its identifiers came on channel {channels}" if others else "none of its identifiers came"
        raise NothingJudged(f"no frame of the log belongs to a line of the map: {came}")


def _judged(count: int, message: Message, line: MapLine, which: int, tally: Tally) -> FrameVerdict:
    """The verdict on a frame, which is counted."""
    try:
        pdu = pdu_in(message, line.payload_length)
        accepted = verify(line.key, line.data_id, tally.counter(which), pdu, line.window)
    except Refused as refused:
        tally.fail(which)
        return FrameVerdict(count, message, line, None, refused)
    tally.accept(which, accepted.freshness, not math.isnan(message.timestamp))
    return FrameVerdict(count, message, line, accepted, None)


def _has_identifier(message: Message, place: _Place) -> bool:
    return place[:2] == (message.arbitration_id, message.is_extended_id)


def _line_of(message: Message, places: list[_Place]) -> int | None:
    if not carries_data(message):
        return None
    for which, place in enumerate(places):
        if _has_identifier(message, place) and place[2] in (None, str(message.channel)):
            return which
    return None
