#!/usr/bin/env python3
"""bus2script.py MAP LOG BUS SCRIPT: writes a log of candump as a script, and the bus file that it runs over.

The map is that of `watch`. Each of its lines is a route that receives; a node has at most one line of a Data ID. Then
`bus_replay replay BUS SCRIPT` says of each mapped frame what `watch` says, and `chart BUS SCRIPT` draws them. Of a frame
that is too short, a BadLength of `watch`, the node gets what there is.

A bus has at most ten keys: a map with more is a ValueError. A script has at most 65,536 events.
"""
import re
import sys
from collections.abc import Iterator
from dataclasses import dataclass

FRAME = re.compile(r"([0-9A-Fa-f]{3}|[0-9A-Fa-f]{8})#(?:#[0-9A-Fa-f])?((?:[0-9A-Fa-f]{2})*)")
AUTHORISES_AN_EMPTY_SLOT = "f" * 32


@dataclass
class MapLine:
    """A line of the map, with its node and the slot of its key."""

    can: str
    data_id: str
    key: str
    start: str
    size: int
    window: str
    channel: str
    node: str
    slot: int


def words_before_comments(path: str) -> Iterator[tuple[int, list[str]]]:
    """The number and the words of each line that has some."""
    with open(path, encoding="utf-8", errors="surrogateescape") as text:
        for number, line in enumerate(text, 1):
            words = line.split()
            kept = next((at for at, word in enumerate(words) if word.startswith("#")), len(words))
            if kept:
                yield number, words[:kept]


def read_map(path: str) -> list[MapLine]:
    """The lines of a map."""
    lines: list[MapLine] = []
    slots: dict[str, int] = {}
    for _, words in words_before_comments(path):
        if words[-1] == "optional":
            del words[-1]
        can, data_id, key, fresh, length, window, channel = (words + ["256", "-"][len(words) - 5 :])[:7]
        data_id, key = data_id.lower(), key.lower()
        node = sum(line.data_id == data_id for line in lines)
        slot = slots.setdefault(key, len(slots) + 4)
        if slot > 13:
            raise ValueError(f"{path}: more than ten keys")
        name = f"bench{node + 1}"
        lines.append(MapLine(can.lower(), data_id, key, fresh.lower(), int(length), window, channel, name, slot))
    return lines


def write_bus(lines: list[MapLine], path: str) -> None:
    """A bus file with a route for each line of the map."""
    nodes = list(dict.fromkeys(line.node for line in lines))
    with open(path, "w", encoding="utf-8") as bus:
        bus.write('store = "twin"\nversion = 1\n')
        for number, node in enumerate(nodes, 1):
            bus.write(f'\n[[node]]\nname = "{node}"\nuid = "{number:030x}"\n')
            for line in (line for line in lines if line.node == node):
                bus.write(f'\n[[node.route]]\nid = "{line.data_id}"\ndirection = "receive"\nslot = {line.slot}\n')
                bus.write(f'window = {line.window}\nstart = "{line.start}"\n')


def write_script(lines: list[MapLine], log: str, path: str) -> None:
    """The keys, and an event for each mapped frame, under the number of its line in the log."""
    with open(path, "w", encoding="utf-8", errors="surrogateescape") as script:
        for node, slot, key in dict.fromkeys((line.node, line.slot, line.key) for line in lines):
            script.write(f"key {node} - {slot} {slot} {AUTHORISES_AN_EMPTY_SLOT} 1 00010 {key}\n")
        for number, words in words_before_comments(log):
            frame = FRAME.fullmatch(words[2]) if len(words) > 2 else None
            if not frame:
                continue
            heard = (
                line
                for line in lines
                if line.can == frame[1].lower() and line.channel in ("-", words[1])
            )
            line = next(heard, None)
            if line:
                pdu = frame[2][: 2 * (line.size + 4)].lower() or "-"
                script.write(f"# {number}\ninject {line.node} {line.data_id} {pdu}\n")


def main(words: list[str]) -> int:
    if len(words) != 4:
        print("usage: bus2script.py MAP LOG BUS SCRIPT", file=sys.stderr)
        return 2
    lines = read_map(words[0])
    write_bus(lines, words[2])
    write_script(lines, words[1], words[3])
    return 0


if __name__ == "__main__":
    sys.exit(main(sys.argv[1:]))
