"""The results of a log: those of the program `watch` over the same lines, times and silences."""

import itertools
import json
import os
import subprocess
from pathlib import Path
from random import Random
from typing import Any

import pytest

can = pytest.importorskip("can")

import model
from memories import KEY
from rathonsi.can import LogResults, MapLine, NothingJudged, Silence, verify_log

TOP = Path(__file__).resolve().parents[2]
EXAMPLES = TOP / "examples"
WATCH = TOP / "crates" / "watch" / "out" / "watch"
DRAWS = {"few": 20, "usual": 50, "long": 20000}[os.environ.get("RATHONSI_DRAWS", "usual")]
OTHER_LINES = (
    "124#R", "18daf110#R8", "20000080#0000000000000000", "00555#00#11", "fff#00", "40000000#00", "124#0", "124#00_B",
    "124##0" + 65 * "00", "124#" + 9 * "00", "12#00", "124", "# a comment", "124#0011223344556677 R", "124##100 T more",
)  # fmt: skip
MAPPED = ((0x124, False, 4), (0x125, False, 1), (0x18DAF110, True, 13), (0x7FF, False, 60))


def canid_digits(canid: int, extended: bool) -> str:
    return f"{canid:08X}" if extended else f"{canid:03x}"


def drawn_map(drawn: Random) -> list[tuple[str, list[Any]]]:
    """Lines of a map, each with what its sender needs: identifier, Data ID, freshness, length, channel."""
    lines: list[tuple[str, list[Any]]] = []
    places = [(*it, channel) for it in MAPPED for channel in ("can0", "can1", "7", "-")]
    for canid, extended, length, channel in sorted(drawn.sample(places, drawn.randrange(5)), key=lambda it: it[3] == "-"):
        data_id, fresh = drawn.randrange(65536), drawn.choice((0, 250, 2**64 - 9, drawn.randrange(2**64)))
        words = [canid_digits(canid, extended), f"{data_id:04x}", KEY.hex(), f"{fresh:016x}", str(length), drawn.choice(("1", "3", "256")), channel]
        if channel == "-" and drawn.random() < 0.5:
            del words[drawn.choice((5, 6)) :]
        words += drawn.choice(("", "", "optional", f"name=unit_{len(lines)}", "name=x optional # both")).split()
        window = int(words[5]) if len(words) > 5 and words[5].isdigit() else 256
        lines.append((drawn.choice((" ", "\t")).join(words), [canid, extended, data_id, fresh, length, channel, window]))
        if drawn.random() < 0.3:
            lines.append(("# between", []))
    return lines


def drawn_frame(drawn: Random, sender: list[Any]) -> str:
    """A frame of a line of the map: mostly the next one, sometimes a replay, another, a short or a later one."""
    canid, extended, data_id, fresh, length, channel, window = sender
    fresh = min(fresh + drawn.choice((0, 1, 1, 1, 1, 2, window, window + 1)), 2**64 - 1)
    pdu = model.protect(KEY, data_id, fresh, drawn.randbytes(length))
    if drawn.random() < 0.85:
        sender[3] = max(sender[3], fresh)
    else:
        pdu = drawn.choice((pdu[:-1], drawn.randbytes(len(pdu)), b"", pdu[:length]))
    pdu += bytes(drawn.choice((0, 0, 4))) if len(pdu) > 8 else b""
    mark = "#" if len(pdu) <= 8 else f"##{drawn.randrange(16):x}"
    name = drawn.choice(("can0", "can1", "7", "07")) if channel == "-" or drawn.random() < 0.05 else channel
    return f"{name} {canid_digits(canid, extended)}{mark}{drawn.choice((pdu.hex(), pdu.hex().upper()))[:128]}"


def drawn_log(drawn: Random, senders: list[list[Any]]) -> str:
    lines, time = [], drawn.choice((0.0, 1436509052.0))
    for _ in range(drawn.randrange(40)):
        time += drawn.choice((0.01, 0.01, 0.5, 3, -0.02))
        stamp = f"({max(time, 0):.6f})"
        if senders and drawn.random() < 0.8:
            lines.append(f"{stamp} {drawn_frame(drawn, drawn.choice(senders))}{drawn.choice(('', '', ' R', ' T', ' #'))}")
        else:
            other = f"{stamp} {drawn.choice(('can0', 'can1'))} {drawn.choice(OTHER_LINES)}"
            rest = ("", " \t", "(1.0)", "(1.0) can0", "1.0 can0 124#00", "# all of it", "(x) can0 123#", f"({'1' * 4100}) can0 123#")
            lines.append(drawn.choice((other, other, other, *rest)))
    text = "".join(line + drawn.choice(("\n", "\n", "\r\n")) for line in lines)
    return text if drawn.random() < 0.8 else text.removesuffix("\n")


def told(path: Path, map_file: Path, **more: Any) -> tuple[str, int, LogResults]:
    """What `watch --json --quiet` would print, its status, and the results."""
    verdicts = verify_log(path, map_file, malformed=None, **more)
    objects: list[dict[str, Any]] = []
    try:
        for verdict in verdicts:
            if verdict.refused is not None:
                names = {"VerificationFailure": "VERIFICATIONFAILURE", "FreshnessFailure": "FRESHNESSFAILURE"}
                kind = type(verdict.refused).__name__
                head = {"kind": "frame", "frame": verdict.number, "name": verdict.line.title}
                objects.append(head | {"verdict": names.get(kind, kind)})
    except NothingJudged:
        pass
    results = verdicts.results
    objects += results.as_objects()
    return "".join(json.dumps(it, separators=(",", ":")) + "\n" for it in objects), results.status, results


@pytest.mark.skipif(not WATCH.exists(), reason="there is no program watch: bin/proved --build watch makes it")
def test_drawn_logs_have_the_results_of_the_program(tmp_path: Path) -> None:
    statuses = set()
    for seed in range(DRAWS):
        drawn = Random(seed)
        lines = drawn_map(drawn)
        (tmp_path / "map").write_text("".join(text + "\n" for text, _ in lines))
        (tmp_path / "bus.log").write_text(drawn_log(drawn, [sender for _, sender in lines if sender]), newline="")
        files = [str(tmp_path / "map"), str(tmp_path / "bus.log")]
        run = subprocess.run([str(WATCH), "--json", "--quiet", *files], capture_output=True, text=True)
        text, status, results = told(tmp_path / "bus.log", tmp_path / "map")
        assert (text, status) == (run.stdout, run.returncode), f"seed {seed}: {run.stderr}"
        run = subprocess.run([str(WATCH), "--quiet", *files], capture_output=True, text=True)
        assert run.stdout.endswith(f"{results}\n"), f"seed {seed}"
        statuses.add(status)
    assert statuses == {0, 1, 3}


def test_the_example_and_its_table(tmp_path: Path) -> None:
    (tmp_path / "bus.log").write_bytes((EXAMPLES / "bus_log.txt").read_bytes())
    results = verify_log(tmp_path / "bus.log", EXAMPLES / "bus_log_map.txt").finish()
    assert str(results).splitlines()[2:] == ["accepted 33", "failed 3", "unmapped 13", "other frames 1", "malformed 0"]
    assert results.status == 1 and results.silent == ()
    assert (results.begin, results.end) == (1436509052.0, 1436509052.49)


# ---- Times


def line(canid: int, **more: Any) -> MapLine:
    return MapLine(canid, False, canid, KEY, 0, 4, **more)


def log_of(path: Path, frames: list[tuple[float, int, bytes]]) -> Path:
    path.write_text("".join(f"({time:.6f}) can0 {canid:03x}#{data.hex()}\n" for time, canid, data in frames))
    return path


def good(canid: int, freshness: int) -> bytes:
    return model.protect(KEY, canid, freshness, b"1234")


def test_times_of_a_line(tmp_path: Path) -> None:
    frames = [(1.0, 0x300, b""), (2.0, 0x124, good(0x124, 1)), (2.25, 0x124, good(0x124, 2)), (2.3, 0x124, good(0x124, 2))]
    frames += [(2.75, 0x124, good(0x124, 3)), (5.0, 0x300, b"")]
    verdicts = verify_log(log_of(tmp_path / "bus.log", frames), [line(0x124), line(0x125)], silent=1)
    [first, second] = verdicts.finish().lines
    assert (first.accepted, first.failed, first.missed, first.last) == (3, 1, 0, 3)
    assert (first.first_time, first.last_time, first.greatest_gap) == (2.0, 2.75, 0.5)
    assert first.accepted_a_second == pytest.approx(2 / 0.75)
    assert first.silences == (Silence(1.0, 2.0), Silence(2.75, 5.0))
    assert (second.first_time, second.greatest_gap, second.accepted_a_second) == (None, None, None)
    assert second.silences == (Silence(1.0, 5.0),)
    results = verdicts.results
    assert results.silent == (first, second) and results.status == 1
    assert str(results).endswith("silent line 1 124 from 2.750000 to 5.000000\nsilent line 2 125 from 1.000000 to 5.000000")


def silences_by_definition(times: list[float], begin: float, end: float, limit: float) -> list[Silence]:
    """Between the log's begin, the accepted frames and the log's end, what is as long as the limit."""
    marks = [begin, *times, end]
    return [Silence(a, b) for a, b in itertools.pairwise(marks) if round(b - a, 6) >= limit]


@pytest.mark.parametrize("suffix", [".log", ".asc", ".blf"])
def test_silences_are_those_of_their_definition(tmp_path: Path, suffix: str) -> None:
    for seed in range(40 if suffix == ".log" else 10):
        drawn, fresh, time = Random(seed), {0x124: 0, 0x125: 0}, 1000.0
        frames: list[tuple[float, int, bytes]] = []
        accepted: dict[int, list[float]] = {0x124: [], 0x125: []}
        for _ in range(drawn.randint(1, 60)):
            time = round(time + drawn.choice((0.01, 0.1, 0.5, 0.499999, 2)), 6)
            canid = drawn.choice((0x124, 0x125, 0x300))
            if canid == 0x300 or drawn.random() < 0.3:
                frames.append((time, canid, bytes(8)))
            else:
                fresh[canid] += 1
                accepted[canid].append(time)
                frames.append((time, canid, good(canid, fresh[canid])))
        path = log_of(tmp_path / "bus.log", frames)
        if suffix != ".log":
            writer = can.Logger(tmp_path / f"bus{suffix}")
            for message in can.LogReader(path):
                message.channel = 0
                writer(message)
            writer.stop()
            path = tmp_path / f"bus{suffix}"
        verdicts = verify_log(path, [line(0x124), line(0x125, optional=True), line(0x300)], silent=0.5)
        results = verdicts.finish()
        begin, end = results.begin, results.end
        assert begin is not None and end is not None and round(end - begin, 3) == round(frames[-1][0] - frames[0][0], 3)
        shift = frames[0][0] - begin
        wanted = silences_by_definition(accepted[0x124], frames[0][0], frames[-1][0], 0.5)
        got = [Silence(round(it.begin + shift, 5), round(it.end + shift, 5)) for it in results.lines[0].silences]
        if suffix == ".log":
            assert list(results.lines[0].silences) == wanted
        else:
            # such logs keep times in other units
            assert len([it for it in wanted if it.end - it.begin > 0.5001]) <= len(got) <= len(wanted)
        assert results.lines[1].silences == ()
        gaps = [round(b - a, 6) for a, b in itertools.pairwise(accepted[0x124])]
        assert results.lines[0].greatest_gap == pytest.approx(max(gaps), abs=2e-3) if gaps else results.lines[0].greatest_gap is None


def test_a_unit_that_dies_in_the_middle_is_named(tmp_path: Path) -> None:
    frames = [(n / 100, 0x124, good(0x124, n + 1)) for n in range(1000)]
    frames += [(n / 100 + 0.001, 0x125, good(0x125, n + 1)) for n in range(300)]
    path = log_of(tmp_path / "bus.log", sorted(frames))
    assert verify_log(path, [line(0x124), line(0x125)]).finish().status == 0
    results = verify_log(path, [line(0x124), line(0x125)], silent=0.1).finish()
    assert results.status == 3 and [it.line.arbitration_id for it in results.silent] == [0x125]
    assert results.lines[1].silences == (Silence(2.991, 9.99),)


def test_times_that_go_back_and_frames_without_a_time(tmp_path: Path) -> None:
    path = log_of(tmp_path / "bus.log", [(5.0, 0x124, good(0x124, 1)), (4.0, 0x124, good(0x124, 2)), (5.5, 0x124, good(0x124, 3))])
    [it] = verify_log(path, [line(0x124)]).finish().lines
    assert (it.first_time, it.last_time, it.greatest_gap) == (5.0, 5.5, 0.5)
    path.write_text(path.read_text().replace("(4.000000)", "(noon)"))
    [it] = verify_log(path, [line(0x124)]).finish().lines
    assert (it.accepted, it.greatest_gap) == (3, 0.5)
    with pytest.raises(ValueError, match="has no time"):
        verify_log(path, [line(0x124)], silent=1).finish()


def test_malformed_lines_raise_above_their_limit(tmp_path: Path) -> None:
    path = log_of(tmp_path / "bus.log", [(1.0, 0x124, good(0x124, 1))])
    path.write_text(path.read_text() + "(000.010000)  can0  124   [8]  00\n124#00\n")
    assert [verify_log(path, [line(0x124)], malformed=it).finish().malformed for it in (None, 2, 3)] == [2, 2, 2]
    for limit in (0, 1):
        with pytest.raises(ValueError, match=f"line {limit + 2} of the log is malformed"):
            verify_log(path, [line(0x124)], malformed=limit).finish()
    for more in ({"malformed": -1}, {"silent": 0}, {"silent": -1.0}, {"silent": float("nan")}, {"silent": float("inf")}):
        with pytest.raises(ValueError):
            verify_log(path, [line(0x124)], **more)  # type: ignore[arg-type]


def test_nothing_judged_leaves_the_results(tmp_path: Path) -> None:
    verdicts = verify_log(log_of(tmp_path / "bus.log", [(1.0, 0x300, b"")]), [line(0x124)])
    with pytest.raises(NothingJudged):
        verdicts.finish()
    assert (verdicts.results.unmapped, verdicts.results.status) == (1, 3)
    verdicts.close()
