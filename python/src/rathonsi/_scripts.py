"""A log as a script and the bus file that it runs over, for the programs `bus_replay` and `chart`."""

import re
from collections.abc import Iterable, Mapping
from os import PathLike
from typing import Any, Final

from ._arguments import TRAILER
from ._logs import FrameVerdict, verify_log
from ._maps import MapLine, lines_of
from ._pdus import protect

NODES_MOST: Final = 8
SLOTS: Final = range(4, 14)
EVENTS_MOST: Final = 65536
_NODE_NAME: Final = "[a-z][a-z0-9_-]{0,15}"


def to_script(
    path: str | PathLike[str],
    map: str | PathLike[str] | Iterable[MapLine],
    *,
    channels: Mapping[str, int | str] | None = None,
    malformed: int | None = 0,
    **reader: Any,
) -> tuple[str, str]:
    """A bus file, and a script that runs over it: `bus_replay replay BUS SCRIPT`, `chart BUS SCRIPT`. Arguments as of
    `verify_log`.

    A node sends each Data ID, and a node `bench` receives: `bench2` and so on if lines of the map share a Data ID. Each
    frame that bears the authenticator of a freshness up to 256 above or below the receiver's counter was sent by its
    node and is delivered. So an accepted frame is drawn as accepted, and a replay as one of its sending. The other
    frames are injected, and so are a second payload under one freshness, and what was sent before the map's. A
    freshness that the log hasn't is sent and not delivered, with zeros as its payload. A comment before each event has the frame's number, time and title. The replay says of each frame what
    `verify_log` says; of one that is too short, the node gets what there is.

    ValueError: more than ten keys, lines of one Data ID with two keys, more than seven of them, or more than 65,536
    events. What `verify_log` raises.
    """
    lines = lines_of(map)
    log = verify_log(path, lines, channels=channels, malformed=malformed, **reader)
    script = _Script(lines, list(log))
    return script.bus(), script.text()


class _Script:
    def __init__(self, lines: list[MapLine], verdicts: list[FrameVerdict]) -> None:
        self._lines, self._verdicts = lines, verdicts
        self._slots = {key: slot for key, slot in zip(dict.fromkeys(it.key for it in lines), SLOTS)}
        keys: dict[int, bytes] = {}
        two = any(keys.setdefault(it.data_id, it.key) != it.key for it in lines)
        if two or len(self._slots) < len({it.key for it in lines}):
            raise ValueError("map: more than ten keys, or a Data ID with two keys")
        self._keys = keys
        heard: dict[int, int] = {}
        self._benches: list[str] = []
        for line in lines:
            heard[line.data_id] = count = heard.get(line.data_id, 0) + 1
            self._benches.append("bench" if count == 1 else f"bench{count}")
        if len(set(self._benches)) >= NODES_MOST:
            raise ValueError("map: more than seven lines of one Data ID")
        self._senders = self._named_senders()
        self._at = {it: min(line.freshness for line in lines if line.data_id == it) for it in keys}
        self._starts = dict(self._at)
        self._payloads: dict[tuple[int, int], bytes] = {}
        self._sent: dict[tuple[int, int], int] = {}
        self._events: list[str] = []
        self._count = 0

    def _named_senders(self) -> dict[int, str]:
        """The node that sends each Data ID: one each, or one for all if the bus has no room for them."""
        if len(self._keys) + len(set(self._benches)) > NODES_MOST:
            return dict.fromkeys(self._keys, "units")
        names: dict[int, str] = {}
        for line in self._lines:
            wanted = (line.name or "").lower()
            fits = re.fullmatch(_NODE_NAME, wanted) and wanted not in (*names.values(), *self._benches)
            names.setdefault(line.data_id, wanted if fits else f"id-{line.data_id:04x}")
        return names

    def bus(self) -> str:
        """The bus file."""
        text = 'store = "twin"\nversion = 2\n'
        nodes = dict.fromkeys([*self._senders.values(), *self._benches])
        for count, node in enumerate(nodes, 1):
            text += f'\n[[node]]\nname = "{node}"\nuid = "{count:030x}"\n'
            for data_id, sender in self._senders.items():
                if sender == node:
                    text += self._route(data_id, "send") + f'reserve = 128\nstart = "{self._starts[data_id]:016x}"\n'
            for line, bench in zip(self._lines, self._benches):
                if bench == node:
                    text += self._route(line.data_id, "receive")
                    text += f'window = {line.window}\nstart = "{line.freshness:016x}"\n'
        return text

    def _route(self, data_id: int, direction: str) -> str:
        slot = self._slots[self._keys[data_id]]
        return f'\n[[node.route]]\nid = "{data_id:04x}"\ndirection = "{direction}"\nslot = {slot}\n'

    def text(self) -> str:
        """The script."""
        used = dict.fromkeys((self._senders[it], key) for it, key in self._keys.items())
        used |= dict.fromkeys((bench, line.key) for line, bench in zip(self._lines, self._benches))
        for node, key in used:
            self._add(f"key {node} - {self._slots[key]} {self._slots[key]} {'f' * 32} 1 00010 {key.hex()}")
        found = self._freshness_of_each()
        for verdict, freshness in zip(self._verdicts, found):
            told = "accepted" if verdict.refused is None else type(verdict.refused).__name__
            time = f"{verdict.message.timestamp:.6f}"
            self._events.append(f"# frame {verdict.number} at {time} {verdict.line.title} {told}")
            self._hear(verdict, freshness)
        return "".join(f"{event}\n" for event in self._events)

    def _add(self, event: str) -> None:
        self._count += 1
        if self._count > EVENTS_MOST:
            raise ValueError(f"more than {EVENTS_MOST} events")
        self._events.append(event)

    def _freshness_of_each(self) -> list[int | None]:
        """The freshness of each frame that its node may have sent; the payload of each is kept."""
        counters = {id(line): line.freshness for line in self._lines}
        found: list[int | None] = []
        for verdict in self._verdicts:
            line = verdict.line
            found.append(_freshness_in(verdict, counters[id(line)]))
            if verdict.accepted is not None:
                counters[id(line)] = verdict.accepted.freshness
                self._payloads[line.data_id, verdict.accepted.freshness] = verdict.accepted.payload
        for verdict, freshness in zip(self._verdicts, found):
            if freshness is not None:
                self._payloads.setdefault((verdict.line.data_id, freshness), _pdu_of(verdict)[:-TRAILER])
        return found

    def _hear(self, verdict: FrameVerdict, freshness: int | None) -> None:
        """What the bench gets."""
        line, pdu = verdict.line, _pdu_of(verdict)
        which = next(at for at, it in enumerate(self._lines) if it is line)
        may = freshness is not None and freshness > self._starts[line.data_id]
        if may and freshness is not None and self._payloads[line.data_id, freshness] == pdu[:-TRAILER]:
            self._send_up_to(line, freshness)
            self._add(f"deliver {self._benches[which]} {self._sent[line.data_id, freshness]}")
        else:
            self._add(f"inject {self._benches[which]} {line.data_id:04x} {pdu.hex() or '-'}")

    def _send_up_to(self, line: MapLine, freshness: int) -> None:
        while self._at[line.data_id] < freshness:
            self._at[line.data_id] = at = self._at[line.data_id] + 1
            payload = self._payloads.get((line.data_id, at), bytes(line.payload_length))
            self._add(f"send {self._senders[line.data_id]} {line.data_id:04x} {payload.hex()}")
            self._sent[line.data_id, at] = self._count


def _pdu_of(verdict: FrameVerdict) -> bytes:
    return bytes(verdict.message.data[: verdict.line.payload_length + TRAILER])


def _freshness_in(verdict: FrameVerdict, counter: int) -> int | None:
    """The freshness under which a frame's PDU was made, up to 256 above the counter or below; None if there is none."""
    line, pdu = verdict.line, _pdu_of(verdict)
    if len(pdu) < line.payload_length + TRAILER:
        return None
    above = counter + 1 + (pdu[line.payload_length] - counter - 1) % 256
    for freshness in (above, above - 256):
        if 0 <= freshness < 2**64 and protect(line.key, line.data_id, freshness, pdu[:-TRAILER]) == pdu:
            return freshness
    return None
