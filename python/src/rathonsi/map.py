"""`python -m rathonsi.map FILE` writes the lines of a map from a database of CAN frames (DBC, ARXML, KCD), by cantools.

A frame stands in the map if `--id CANID=DATAID` names it. Its payload is what its length leaves for the four bytes of
the trailer, and its name is that of the database. Key and freshness are in no such database: the key is `--key`, or 32
letters `K` to be replaced, and the freshness is 0. Untried with cantools itself: the tests have a stub of it.
"""

import argparse
import re
import sys
from collections.abc import Iterable, Sequence
from typing import Any

from ._arguments import PAYLOAD_MOST, TRAILER, data_id_number
from ._maps import identifier


def lines_of_frames(frames: Iterable[Any], data_ids: dict[int, int], key: str) -> list[str]:
    """A line of a map for each frame (`cantools.database.can.Message`) that `data_ids` names by its identifier.

    ValueError: a named frame isn't in the database, or its length leaves no payload of 1 to 60 bytes.
    """
    found = {frame.frame_id: frame for frame in frames if frame.frame_id in data_ids}
    missing = data_ids.keys() - found.keys()
    if missing:
        raise ValueError(f"no frame of the database has the identifier {min(missing):x}")
    return [_line_of(found[canid], data_id, key) for canid, data_id in data_ids.items()]


def _line_of(frame: Any, data_id: int, key: str) -> str:
    extended = bool(frame.is_extended_frame)
    canid = identifier(frame.frame_id, extended)
    length = frame.length - TRAILER
    if not 1 <= length <= PAYLOAD_MOST:
        raise ValueError(f"{frame.name} has {frame.length} bytes: a Secured I-PDU has 5 to 64")
    name = re.sub("[^A-Za-z0-9_.-]", "_", frame.name)[:32]
    return f"{canid:0{8 if extended else 3}x} {data_id_number(data_id):04x} {key} {0:016x} {length} name={name}"


def _pair(word: str) -> tuple[int, int]:
    canid, _, data_id = word.partition("=")
    return int(canid, 16), data_id_number(int(data_id, 16))


def main(words: Sequence[str] | None = None) -> int:
    """The exit status: 0, 1 if the database or a frame of it is refused, 2 for malformed arguments."""
    parser = argparse.ArgumentParser(prog="python -m rathonsi.map", description="Writes the lines of a map from a DBC or ARXML file.")
    parser.add_argument("file")
    parser.add_argument("--id", dest="ids", metavar="CANID=DATAID", type=_pair, action="append", required=True)
    parser.add_argument("--key", default="K" * 32, help="32 hexadecimal digits")
    given = parser.parse_args(words)
    try:
        import cantools  # type: ignore[import]
    except ImportError:
        print("cantools isn't installed: pip install cantools", file=sys.stderr)
        return 1
    try:
        lines = lines_of_frames(cantools.database.load_file(given.file).messages, dict(given.ids), given.key)
    except (OSError, ValueError, cantools.database.Error) as error:
        print(f"{given.file}: {error}", file=sys.stderr)
        return 1
    print("# CANID ID KEY FRESH LEN", *lines, sep="\n")
    return 0


if __name__ == "__main__":
    sys.exit(main())
