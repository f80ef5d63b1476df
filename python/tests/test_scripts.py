"""Logs as scripts: `bus_replay` says of each frame what the log's verdict says, and `chart` draws it so."""

import os
import re
import subprocess
from pathlib import Path
from random import Random
from typing import Any

import pytest

can = pytest.importorskip("can")

import model
from memories import KEY
from rathonsi.can import FrameVerdict, MapLine, to_script, verify_log

TOP = Path(__file__).resolve().parents[2]
REPLAY, CHART = (TOP / "crates" / name / "out" / name for name in ("bus_replay", "chart"))
DRAWS = {"few": 5, "usual": 20, "long": 2000}[os.environ.get("RATHONSI_DRAWS", "usual")]
needs_programs = pytest.mark.skipif(
    not (REPLAY.exists() and CHART.exists()), reason="there is no bus_replay or chart: bin/proved --build NAME makes it"
)
OTHER_KEY = bytes(range(16))


def line(canid: int, data_id: int, **more: Any) -> MapLine:
    return MapLine(canid, False, data_id, more.pop("key", KEY), more.pop("freshness", 0), 4, **more)


def written(folder: Path, frames: list[tuple[int, bytes]]) -> Path:
    text = "".join(f"({n / 100:.6f}) can0 {canid:03x}#{data.hex()}\n" for n, (canid, data) in enumerate(frames))
    (folder / "bus.log").write_text(text)
    return folder / "bus.log"


def run(program: Path, folder: Path, bus: str, script: str) -> str:
    (folder / "bus").write_text(bus)
    (folder / "script").write_text(script)
    words = [str(program), *(["replay"] if program is REPLAY else []), str(folder / "bus"), str(folder / "script")]
    return subprocess.run(words, check=True, capture_output=True, text=True).stdout


def said(script: str, replay: str) -> list[str]:
    """What the replay says of the events that follow the comment of a frame and are heard."""
    events = [event for event in script.splitlines() if not event.startswith("#")]
    rows = [row.partition(" ")[2] for row in replay.splitlines()]
    return [row for event, row in zip(events, rows, strict=True) if event.split()[0] in ("deliver", "inject")]


def wanted(verdict: FrameVerdict) -> str:
    if verdict.accepted is not None:
        return f"accepted {verdict.line.data_id:04x} {verdict.accepted.freshness:016x} {verdict.accepted.payload.hex()} from "
    names = {"FreshnessFailure": "FRESHNESSFAILURE", "VerificationFailure": "VERIFICATIONFAILURE"}
    return names.get(type(verdict.refused).__name__, "")


def drawn_frames(drawn: Random, lines: list[MapLine]) -> list[tuple[int, bytes]]:
    """Mostly next frames; also losses, replays, late ones, altered ones, strange ones, and ones of a lost counter."""
    frames: list[tuple[int, bytes]] = []
    fresh = {it.data_id: it.freshness for it in lines}
    for _ in range(drawn.randint(1, 40)):
        it = drawn.choice(lines)
        ahead = drawn.choice((1, 1, 1, 1, 2, 5, it.window, it.window + 1, 0, -1, -3))
        pdu = model.protect(it.key, it.data_id, max(0, fresh[it.data_id] + ahead), drawn.randbytes(4))
        fresh[it.data_id] += max(0, ahead)
        turn = drawn.randrange(12)
        if turn == 0:
            pdu = drawn.choice((drawn.randbytes(8), pdu[:5], b"", pdu[:4] + bytes([pdu[4] ^ 1]) + pdu[5:]))
        mine = [data for canid, data in frames if canid == it.arbitration_id]
        frames.append((it.arbitration_id, drawn.choice(mine) if turn == 1 and mine else pdu))
    return frames


@needs_programs
def test_a_replay_says_of_each_frame_what_its_verdict_says(tmp_path: Path) -> None:
    for seed in range(DRAWS):
        drawn = Random(seed)
        lines = [line(0x123, 0x120E, name="pedal", window=drawn.choice((3, 256))), line(0x124, 0x6BC1, key=OTHER_KEY, freshness=999)]
        lines += [line(0x125, 0x120E, window=200)] if drawn.random() < 0.3 else []
        lines += [line(0x300 + n, 0x300 + n) for n in range(drawn.choice((0, 0, 3, 9)))]
        path = written(tmp_path, drawn_frames(drawn, lines))
        bus, script = to_script(path, lines)
        verdicts = list(verify_log(path, lines))
        answers = said(script, run(REPLAY, tmp_path, bus, script))
        assert len(answers) == len(verdicts)
        for verdict, answer in zip(verdicts, answers):
            # a frame that is too short is no PDU of its key
            assert answer.startswith(wanted(verdict)) or not wanted(verdict), f"seed {seed}: frame {verdict.number}: {answer}"


@needs_programs
def test_a_chart_has_what_was_accepted_as_taken(tmp_path: Path) -> None:
    def pdu(freshness: int, payload: bytes = b"brak") -> bytes:
        return model.protect(KEY, 0x120E, freshness, payload)

    # accepted, a replay of the first, one lost, accepted, a late one, one that nobody sent, a freshness used again
    frames = [pdu(1), pdu(2), pdu(1), pdu(4), pdu(3), bytes(8), pdu(2, b"else")]
    bus, script = to_script(written(tmp_path, [(0x123, it) for it in frames]), [line(0x123, 0x120E, name="pedal")])
    replay = run(REPLAY, tmp_path, bus, script)
    assert [row.split()[0] for row in said(script, replay)] == ["accepted"] * 2 + ["VERIFICATIONFAILURE"] + ["accepted"] + ["VERIFICATIONFAILURE"] * 3
    assert "from none" not in replay and re.findall("inject bench 120e (.*)", script) == [it.hex() for it in frames[5:]]
    classes = re.findall(r'<g class="(\w+)">\s*<title>', run(CHART, tmp_path, bus, script))
    assert classes.count("taken") == 3 and classes.count("failed") == 4 and "forged" not in classes
    assert "# frame 4 at 0.030000 pedal accepted\n" in script and 'name = "pedal"' in bus


def test_what_a_bus_has_no_room_for(tmp_path: Path) -> None:
    path = written(tmp_path, [(0x123, model.protect(KEY, 0x120E, 1, b"brak"))])
    keys = [line(0x123 + n, 0x120E + n, key=bytes([n] * 16)) for n in range(11)]
    for lines in (keys, [line(0x123, 1), line(0x124, 1, key=OTHER_KEY)], [line(0x123 + n, 1) for n in range(8)]):
        with pytest.raises(ValueError, match="map"):
            to_script(path, lines)
