"""What a log says of each line of its map: the table that `watch` prints at its end, and the times."""

import math
from dataclasses import dataclass, field

from ._maps import MapLine


@dataclass(frozen=True, slots=True)
class Silence:
    """A time without an accepted frame of a line, in the log's seconds.

    It begins with an accepted frame, or with the log's first frame, and ends with the next accepted frame, or with the
    log's last frame.
    """

    begin: float
    end: float


@dataclass(frozen=True, slots=True)
class LineResult:
    """What a log says of a line of the map.

    accepted, failed: numbers of frames; a frame that is too short failed
    missed: how many freshness values above the map's and up to `last` weren't accepted
    last: the freshness that was accepted last, else the map's: the map's for the log's next part
    first_time, last_time: of the accepted frames, seconds; None if there is none
    greatest_gap: between two accepted frames, seconds; None if there aren't two
    silences: the times without an accepted frame that are as long as the line's own limit, or else `silent`, in order
    """

    line: MapLine
    number: int
    accepted: int
    failed: int
    missed: int
    last: int
    first_time: float | None
    last_time: float | None
    greatest_gap: float | None
    silences: tuple[Silence, ...]

    @property
    def accepted_a_second(self) -> float | None:
        """Accepted frames after the first one, divided by the seconds from the first to the last; None without such."""
        if self.first_time is None or self.last_time is None or self.last_time <= self.first_time:
            return None
        return (self.accepted - 1) / (self.last_time - self.first_time)

    def as_object(self) -> dict[str, int | str]:
        """The object that `watch --json` prints for the line."""
        head: dict[str, int | str] = {"kind": "line", "line": self.number, "name": self.line.title}
        head |= {"can": self.line.digits, "id": f"{self.line.data_id:04x}"}
        counts = {"accepted": self.accepted, "failed": self.failed, "missed": self.missed}
        return head | counts | {"last": f"{self.last:016x}"}


@dataclass(frozen=True, slots=True)
class LogResults:
    """What a log says of all lines of its map, in their order, and of its other lines.

    unmapped: data frames that no line of the map hears
    other_frames: remote frames, error frames and CAN XL
    malformed: lines of a candump log that are no frame
    begin, end: the first and the last time of the log's frames, seconds; None if none has a time
    """

    lines: tuple[LineResult, ...]
    unmapped: int
    other_frames: int
    malformed: int
    begin: float | None
    end: float | None

    @property
    def accepted(self) -> int:
        """How many frames were accepted."""
        return sum(it.accepted for it in self.lines)

    @property
    def failed(self) -> int:
        """How many mapped frames weren't."""
        return sum(it.failed for it in self.lines)

    @property
    def silent(self) -> tuple[LineResult, ...]:
        """The lines that aren't optional and had no accepted frame, or none for as long as their limit."""
        return tuple(it for it in self.lines if not it.line.optional and (not it.accepted or it.silences))

    @property
    def status(self) -> int:
        """The status of `watch`: 1 if a mapped frame failed, 3 if a line is silent or there is none, else 0."""
        if self.failed:
            return 1
        return 3 if self.silent or not self.lines else 0

    def as_objects(self) -> list[dict[str, int | str]]:
        """The objects that `watch --json` prints at its end: one a line of the map, and the totals."""
        totals: dict[str, int | str] = {"kind": "log", "accepted": self.accepted, "failed": self.failed}
        totals |= {"unmapped": self.unmapped, "other_frames": self.other_frames, "malformed": self.malformed}
        return [*(it.as_object() for it in self.lines), totals]

    def __str__(self) -> str:
        """What `watch` prints at its end, and after it a line for each silence."""
        *lines, totals = self.as_objects()
        form = "line {line} {name} {id} accepted {accepted} failed {failed} missed {missed} last {last}"
        rows = [form.format_map(it) for it in lines]
        rows += [f"{name.replace('_', ' ')} {count}" for name, count in totals.items() if name != "kind"]
        for it in self.lines:
            head = f"silent line {it.number} {it.line.title}"
            rows += [f"{head} from {at.begin:.6f} to {at.end:.6f}" for at in it.silences]
        return "\n".join(rows)


@dataclass(slots=True)
class _LineTally:
    """The counts of a line so far."""

    line: MapLine
    number: int
    last: int
    accepted: int = 0
    failed: int = 0
    first_time: float | None = None
    last_time: float | None = None
    greatest_gap: float | None = None
    silences: list[Silence] = field(default_factory=list)


def _clock(time: float) -> float:
    """The time in whole microseconds: a difference of two is not off by what a float rounds."""
    return round(time, 6)


class Tally:
    """Counts the frames of a log as they are judged."""

    def __init__(self, lines: list[MapLine], silent: float | None) -> None:
        self._silent = silent
        self._tallies = [_LineTally(it, it.number or at, it.freshness) for at, it in enumerate(lines, 1)]
        self._begin: float | None = None
        self._end: float | None = None
        self.unmapped = self.other_frames = self.malformed = 0

    def see(self, time: float) -> None:
        """A frame has this time. One before an earlier frame's counts as that one; NaN is no time."""
        if math.isnan(time):
            if any(self._limit(it.line) is not None for it in self._tallies):
                raise ValueError("silent: a frame of the log has no time")
            return
        self._end = _clock(time) if self._end is None else max(self._end, _clock(time))
        if self._begin is None:
            self._begin = self._end

    def _limit(self, line: MapLine) -> float | None:
        """How many seconds without an accepted frame are too many for a line: its own, or else `silent`."""
        return self._silent if line.own_silence is None else line.own_silence

    def counter(self, which: int) -> int:
        """The receiver's counter of this line."""
        return self._tallies[which].last

    def fail(self, which: int) -> None:
        """A frame of this line was refused."""
        self._tallies[which].failed += 1

    def accept(self, which: int, freshness: int, timed: bool) -> None:
        """The frame of this line that was seen last was accepted; `timed` if it has a time."""
        it = self._tallies[which]
        it.accepted, it.last = it.accepted + 1, freshness
        if not timed or self._end is None:
            return
        if it.last_time is not None:
            it.greatest_gap = max(it.greatest_gap or 0.0, _clock(self._end - it.last_time))
        it.silences += self._silence(it, self._end)
        it.first_time = self._end if it.first_time is None else it.first_time
        it.last_time = self._end

    def _silence(self, it: _LineTally, end: float) -> list[Silence]:
        """The silence of a line up to this time, if it is one."""
        begin = self._begin if it.last_time is None else it.last_time
        limit = self._limit(it.line)
        if limit is None or it.line.optional or begin is None or _clock(end - begin) < limit:
            return []
        return [Silence(begin, end)]

    def results(self) -> LogResults:
        """The results, if the log ended here."""
        others = (self.unmapped, self.other_frames, self.malformed)
        return LogResults(tuple(map(self._result, self._tallies)), *others, self._begin, self._end)

    def _result(self, it: _LineTally) -> LineResult:
        missed = it.last - it.line.freshness - it.accepted
        silences = (*it.silences, *([] if self._end is None else self._silence(it, self._end)))
        times = (it.first_time, it.last_time, it.greatest_gap)
        return LineResult(it.line, it.number, it.accepted, it.failed, missed, it.last, *times, silences)
