"""The dissector of examples/wireshark in tshark: what it shows of a capture is what `watch` says of the same frames."""

import json
import os
import shutil
import struct
import subprocess
from pathlib import Path
from random import Random

import pytest

import model
from memories import KEY

TOP = Path(__file__).resolve().parents[2]
WATCH = TOP / "crates" / "watch" / "out" / "watch"
SCRIPT = TOP / "examples" / "wireshark" / "rathonsi.lua"
FIELDS = ("line", "data_id", "payload", "freshness_low", "authenticator", "verdict", "freshness")
MAP = f"""# a map
123 120e {KEY.hex()} {0:016x} 4 256 - name=pedal
18DAF110 0A2F {KEY.hex()} {2**40 - 1:016x} 13
124 120f {KEY.hex()} {0:016x} 4 # a comment
"""
REMOTE = (0x7FF, 0x1FFFFFFF)
Frame = tuple[int, bool, bytes]

pytestmark = pytest.mark.skipif(shutil.which("tshark") is None or not WATCH.exists(), reason="there is no tshark, or no program watch")


def frames_of(seed: int) -> list[Frame]:
    """Good frames, replays, altered and short ones, frames that the map hasn't, and remote frames."""
    drawn, frames = Random(seed), []
    fresh = {0x123: (False, 0x120E, 4, 0), 0x18DAF110: (True, 0x0A2F, 13, 2**40 - 1), 0x124: (False, 0x120F, 4, 0)}
    for _ in range(60):
        canid = drawn.choice(list(fresh))
        extended, data_id, length, last = fresh[canid]
        last += drawn.choice((1, 1, 3, 0))
        fresh[canid] = (extended, data_id, length, last)
        pdu = model.protect(KEY, data_id, last, drawn.randbytes(length))
        turn = drawn.randrange(10)
        pdu = {0: pdu[:5], 1: pdu[:-1] + bytes([pdu[-1] ^ 4]), 2: b""}.get(turn, pdu)
        others = [(0x7FF, False, bytes(2)), (0x18DAF111, True, bytes(2)), (0x1FFFFFFF, True, b""), (0x123, True, pdu)]
        frames.append(drawn.choice(others) if turn == 3 else (canid, extended, pdu))
    return frames


def capture(frames: list[Frame]) -> bytes:
    """A pcap of SocketCAN (link type 227), of classic CAN and CAN FD."""
    whole = struct.pack("<IHHiIII", 0xA1B2C3D4, 2, 4, 0, 0, 65535, 227)
    for count, (canid, extended, data) in enumerate(frames):
        fd = len(data) > 8
        padded = data.ljust(20, b"\0") if fd else data
        room = padded.ljust(64 if fd else 8, b"\0")
        marks = (0x80000000 if extended else 0) | (0x40000000 if canid in REMOTE else 0)
        packet = struct.pack(">IBBBB", canid | marks, len(padded), 4 if fd else 0, 0, 0) + room
        whole += struct.pack("<IIII", 1000 + count, 0, len(packet), len(packet)) + packet
    return whole


def log_of(folder: Path) -> str:
    """The capture as a log."""
    script = SCRIPT.with_name("capture2log.sh")
    return subprocess.run([str(script), str(folder / "bus.pcap")], check=True, capture_output=True, text=True, env=home(folder)).stdout


def home(folder: Path) -> dict[str, str]:
    """An environment without settings of a user."""
    return {**os.environ, "HOME": str(folder), "XDG_CONFIG_HOME": str(folder)}


def shown(folder: Path, *more: str) -> list[list[str]]:
    words = ["tshark", "-n", "-X", f"lua_script:{SCRIPT}", "-o", f"rathonsi.map:{folder / 'map'}", *more]
    words += ["-r", str(folder / "bus.pcap"), "-T", "fields", *(word for it in FIELDS for word in ("-e", f"rathonsi.{it}"))]
    run = subprocess.run(words, capture_output=True, text=True, env=home(folder))
    assert run.returncode == 0 and "Lua" not in run.stderr, run.stderr
    return [row.split("\t") for row in run.stdout.splitlines()]


def wanted(frame: Frame, verdict: dict[str, str]) -> list[str]:
    """The fields that the dissector shows."""
    canid, extended, data = frame
    name, data_id, length = {0x123: ("pedal", 0x120E, 4), 0x124: ("124", 0x120F, 4), 0x18DAF110: ("18daf110", 0x0A2F, 13)}[canid]
    parts = [data[:length].hex(), f"0x{data[length]:02x}", data[length + 1 : length + 4].hex()] if len(data) >= length + 4 else ["", "", ""]
    return [name, f"0x{data_id:04x}", *parts, verdict.get("verdict", ""), verdict.get("freshness", "")]


def test_the_dissector_shows_what_watch_says(tmp_path: Path) -> None:
    frames = frames_of(5)
    (tmp_path / "bus.pcap").write_bytes(capture(frames))
    (tmp_path / "bus.log").write_text(log_of(tmp_path))
    (tmp_path / "map").write_text(MAP)
    told = subprocess.run([str(WATCH), "--json", str(tmp_path / "map"), str(tmp_path / "bus.log")], capture_output=True, text=True).stdout
    (tmp_path / "watch.jsonl").write_text(told)
    verdicts = {it["frame"]: it for it in map(json.loads, told.splitlines()) if "frame" in it}
    heard = {0x123: False, 0x124: False, 0x18DAF110: True}
    rows = shown(tmp_path, "-o", f"rathonsi.verdicts:{tmp_path / 'watch.jsonl'}")
    assert len(rows) == len(frames) and len(verdicts) > 40
    assert {it["verdict"] for it in verdicts.values()} == {"VERIFICATIONSUCCESS", "VERIFICATIONFAILURE", "BadLength"}
    for count, (frame, row) in enumerate(zip(frames, rows), 1):
        mapped = heard.get(frame[0]) == frame[1]
        assert mapped == (count in verdicts)
        assert row == (wanted(frame, verdicts[count]) if mapped else [""] * len(FIELDS)), f"frame {count}"
    # without verdicts: the parts alone
    for frame, row in zip(frames, shown(tmp_path)):
        assert row == (wanted(frame, {}) if heard.get(frame[0]) == frame[1] else [""] * len(FIELDS))
