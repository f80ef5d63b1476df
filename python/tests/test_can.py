"""A bus of python-can that is secured, and logs that are verified."""

import asyncio
import gzip
import itertools
import shutil
import threading
import time
from collections.abc import Callable, Iterator
from pathlib import Path
from random import Random
from typing import Any

import pytest
from hypothesis import given, settings
from hypothesis import strategies as st

can = pytest.importorskip("can")

import model
import rathonsi
from memories import KEY, Memory, opened
from rathonsi.can import Frame, MapLine, NothingJudged, SecuredBus, read_map, verify_log

EXAMPLES = Path(__file__).resolve().parents[2] / "examples"
SENDS, RECEIVES = rathonsi.SENDS, rathonsi.RECEIVES
ROUTES = (
    rathonsi.Route(0x120E, SENDS, 4, reserve=8),
    rathonsi.Route(0x120F, RECEIVES, 4, reserve=8),
    rathonsi.Route(0x0A2F, SENDS, 4),
    rathonsi.Route(0x0A30, RECEIVES, 4),
)
FUZZED = opened(Memory.made(ROUTES), ROUTES)
FRAMES = (
    Frame(0x123, 0x120E, SENDS, 4),
    Frame(0x124, 0x120F, RECEIVES, 4),
    Frame(0x18DAF110, 0x0A2F, SENDS, 13, is_extended_id=True),
    Frame(0x18DAF110, 0x0A30, RECEIVES, 13, is_extended_id=True),
)


def bus(channel: str, **more: Any) -> Any:
    return can.Bus(interface="virtual", channel=channel, **more)


def frame(arbitration_id: int = 0x124, data: bytes = b"", extended: bool = False, **more: Any) -> Any:
    return can.Message(arbitration_id=arbitration_id, is_extended_id=extended, data=data, **more)


def received(secured: SecuredBus, timeout: float = 1) -> Any:
    message = secured.recv(timeout)
    assert message is not None
    return message


def good(freshness: int, payload: bytes = b"brak") -> Any:
    return frame(0x124, model.protect(KEY, 0x120F, freshness, payload))


@pytest.fixture
def wire(request: pytest.FixtureRequest) -> Iterator[Any]:
    with bus(request.node.name) as it:
        yield it


@pytest.fixture
def secured(wire: Any) -> Iterator[SecuredBus]:
    with SecuredBus(bus(wire.channel_id), opened(Memory.made(ROUTES), ROUTES), FRAMES) as it:
        yield it


def test_a_mapped_frame_is_secured(wire: Any, secured: SecuredBus) -> None:
    sent = frame(0x123, b"1234")
    for freshness in (1, 2):
        secured.send(sent)
        on_wire = wire.recv(1)
        assert bytes(on_wire.data) == model.protect(KEY, 0x120E, freshness, b"1234")
        assert (on_wire.arbitration_id, on_wire.is_extended_id, on_wire.is_fd, on_wire.dlc) == (0x123, False, False, 8)
    assert bytes(sent.data) == b"1234"


def test_a_longer_frame_is_of_can_fd_and_padded(wire: Any, secured: SecuredBus) -> None:
    payload = bytes(range(13))
    secured.send(frame(0x18DAF110, payload, extended=True, is_fd=True, bitrate_switch=True))
    on_wire = wire.recv(1)
    assert bytes(on_wire.data) == model.protect(KEY, 0x0A2F, 1, payload) + bytes(3)
    assert on_wire.is_fd and on_wire.bitrate_switch and on_wire.is_extended_id and on_wire.dlc == 20
    pdu = model.protect(KEY, 0x0A30, 1, payload)
    wire.send(frame(0x18DAF110, pdu + b"\xcc" * 3, extended=True, is_fd=True))
    assert bytes(received(secured).data) == payload


def test_other_frames_go_through_as_they_are(wire: Any, secured: SecuredBus) -> None:
    others = [
        frame(0x200, b"data"),
        frame(0x123, b"1234", extended=True),
        frame(0x124, b"", is_remote_frame=True, dlc=8),
        frame(0x123, b"", is_remote_frame=True, dlc=4),
        frame(0x123, bytes(8), is_error_frame=True),
        frame(0x18DAF110 & 0x7FF, b"x"),
    ]
    for other in others:
        secured.send(other)
        assert wire.recv(1).equals(other, timestamp_delta=None, check_direction=False) or other.channel is None
        wire.send(other)
        back = received(secured)
        assert bytes(back.data) == bytes(other.data) and back.is_remote_frame == other.is_remote_frame
    secured.send(frame(0x124, b"an id that is only received"[:8]))
    assert bytes(wire.recv(1).data) == b"an id th"


def test_a_verified_frame_has_its_payload(wire: Any, secured: SecuredBus) -> None:
    wire.send(good(1))
    got = received(secured)
    assert (bytes(got.data), got.dlc, got.arbitration_id, got.is_extended_id, got.is_fd) == (b"brak", 4, 0x124, False, False)
    assert got.timestamp > 0 and got.channel == wire.channel_id


BAD: dict[str, tuple[type[rathonsi.Refused], Callable[[], Any]]] = {
    "replayed": (rathonsi.VerificationFailure, lambda: good(1)),
    "forged": (rathonsi.VerificationFailure, lambda: frame(0x124, b"brak\2abc")),
    "short": (rathonsi.BadLength, lambda: frame(0x124, b"brak\2ab")),
    "empty": (rathonsi.BadLength, lambda: frame(0x124, b"")),
}


@pytest.mark.parametrize("kind", BAD)
def test_a_refused_frame_raises(wire: Any, secured: SecuredBus, kind: str) -> None:
    refusal, make = BAD[kind]
    wire.send(good(1))
    secured.recv(1)
    wire.send(make())
    wire.send(good(2))
    with pytest.raises(refusal) as caught:
        secured.recv(1)
    assert "0124" in caught.value.__notes__[0]
    assert bytes(received(secured).data) == b"brak"


@pytest.mark.parametrize("kind", BAD)
def test_a_refused_frame_is_handed_to_the_callback(wire: Any, kind: str) -> None:
    refusal, make = BAD[kind]
    refused: list[Any] = []
    store = opened(Memory.made(ROUTES), ROUTES)
    with SecuredBus(bus(wire.channel_id), store, FRAMES, lambda *it: refused.append(it)) as secured:
        wire.send(good(1))
        wire.send(make())
        wire.send(good(2))
        assert [bytes(received(secured).data) for _ in range(2)] == [b"brak"] * 2
        [(message, why)] = refused
        assert type(why) is refusal and message.arbitration_id == 0x124 and bytes(message.data) == bytes(make().data)
        wire.send(make())
        began = time.monotonic()
        assert secured.recv(0.05) is None and time.monotonic() - began < 1
        assert len(refused) == 2


def test_payloads_of_another_length_are_not_sent(wire: Any, secured: SecuredBus) -> None:
    for data in (b"", b"123", b"12345"):
        with pytest.raises(ValueError):
            secured.send(frame(0x123, data))
    assert wire.recv(0) is None
    secured.send(frame(0x123, b"1234"))
    assert bytes(wire.recv(1).data) == model.protect(KEY, 0x120E, 1, b"1234")


def test_an_identifier_of_29_bits_is_another_one(wire: Any, secured: SecuredBus) -> None:
    for extended, payload in ((True, b"1234"), (False, model.protect(KEY, 0x120E, 1, b"1234"))):
        secured.send(can.Message(arbitration_id=0x123, data=b"1234") if extended else frame(0x123, b"1234"))
        on_wire = wire.recv(1)
        assert (on_wire.is_extended_id, bytes(on_wire.data)) == (extended, payload)


def test_a_poll_looks_at_one_frame(wire: Any) -> None:
    refused: list[Any] = []
    with SecuredBus(bus(wire.channel_id), opened(Memory.made(ROUTES), ROUTES), FRAMES, lambda *it: refused.append(it)) as secured:
        wire.send(frame(0x124, b"forged!!"))
        wire.send(good(1))
        assert secured.recv(0) is None and len(refused) == 1
        assert bytes(received(secured, 0).data) == b"brak"


def test_a_bus_that_answers_within_a_send() -> None:
    sent: list[bytes] = []

    def send(message: Any, timeout: float | None = None) -> None:
        sent.append(bytes(message.data))
        if len(sent) < 3:
            around.send(frame(0x123, b"1234"))

    with bus("answering") as answering:
        answering.send = send
        around = SecuredBus(answering, opened(Memory.made(ROUTES), ROUTES), FRAMES)
        around.send(frame(0x123, b"1234"))
    assert sent == [model.protect(KEY, 0x120E, n, b"1234") for n in (1, 2, 3)]


def test_an_error_within_a_with_block_shuts_the_bus_down_and_leaves_the_store(wire: Any) -> None:
    store = opened(Memory.made(ROUTES), ROUTES)
    with pytest.raises(ZeroDivisionError):
        with SecuredBus(bus(wire.channel_id), store, FRAMES) as secured:
            secured.send(frame(0x123, b"1234"))
            raise ZeroDivisionError
    with pytest.raises(can.CanOperationError):
        secured.send(frame(0x200))
    assert store.send(0x120E, b"x") == model.protect(KEY, 0x120E, 2, b"x")


def test_a_store_that_ended(wire: Any) -> None:
    store = opened(Memory.made(ROUTES), ROUTES)
    with SecuredBus(bus(wire.channel_id), store, FRAMES, lambda *_: None) as secured:
        store.close()
        wire.send(good(1))
        calls: list[Callable[[], Any]] = [
            lambda: secured.send(frame(0x123, b"1234")), lambda: secured.recv(1), lambda: SecuredBus(wire, store, FRAMES)
        ]
        for call in calls:
            with pytest.raises(rathonsi.Unusable):
                call()
        secured.send(frame(0x200, b"as it is"))
        assert bytes(wire.recv(1).data) == b"as it is" and wire.recv(0) is None


def test_data_that_is_none(wire: Any, secured: SecuredBus) -> None:
    for data in (None, 4, "1234", [1, 2, 3, 4]):
        message = frame(0x123, b"1234")
        message.data = data
        with pytest.raises(TypeError):
            secured.send(message)
    assert wire.recv(0) is None


def test_filters(wire: Any) -> None:
    inner = bus(wire.channel_id, can_filters=[{"can_id": 0x200, "can_mask": 0x7FF}])
    with SecuredBus(inner, opened(Memory.made(ROUTES), ROUTES), FRAMES) as secured:
        assert secured.filters == [{"can_id": 0x200, "can_mask": 0x7FF}]
        for message in (good(1), frame(0x200, b"a"), frame(0x201, b"b")):
            wire.send(message)
        assert bytes(received(secured).data) == b"a" and secured.recv(0.02) is None
        secured.set_filters([{"can_id": 0x124, "can_mask": 0x7FF, "extended": False}])
        wire.send(good(1))
        wire.send(frame(0x200, b"a"))
        assert bytes(received(secured).data) == b"brak" and secured.recv(0.02) is None
        secured.filters = None
        wire.send(frame(0x201, b"b"))
        assert bytes(received(secured).data) == b"b"


def test_notifier_iteration_and_shutdown(wire: Any, secured: SecuredBus) -> None:
    got: list[Any] = []
    all_came = threading.Event()

    def listen(message: Any) -> None:
        got.append(bytes(message.data))
        if len(got) == 20:
            all_came.set()

    notifier = can.Notifier(secured, [listen], timeout=0.05)
    for freshness in range(1, 21):
        wire.send(good(freshness, freshness.to_bytes(4, "big")))
    assert all_came.wait(5)
    notifier.stop()
    assert got == [n.to_bytes(4, "big") for n in range(1, 21)]
    wire.send(good(21))
    assert bytes(next(iter(secured)).data) == b"brak"
    secured.shutdown()
    with pytest.raises(can.CanOperationError):
        secured.send(frame(0x200))


def test_an_asyncio_notifier(wire: Any, secured: SecuredBus) -> None:
    async def listen() -> bytes:
        reader = can.AsyncBufferedReader()
        notifier = can.Notifier(secured, [reader], timeout=0.05, loop=asyncio.get_running_loop())
        wire.send(good(1))
        message = await asyncio.wait_for(reader.get_message(), 5)
        notifier.stop()
        return bytes(message.data)

    assert asyncio.run(listen()) == b"brak"


def test_periodic_sending_takes_a_new_freshness_each_time(wire: Any, secured: SecuredBus) -> None:
    task = secured.send_periodic(frame(0x123, b"1234"), 0.005)
    data = [bytes(wire.recv(1).data) for _ in range(10)]
    task.stop()
    assert data == [model.protect(KEY, 0x120E, n, b"1234") for n in range(1, 11)]


def test_frames_of_many_threads_are_on_the_wire_in_the_order_of_their_freshness(wire: Any, secured: SecuredBus) -> None:
    def send() -> None:
        for _ in range(100):
            secured.send(frame(0x123, b"1234"))

    threads = [threading.Thread(target=send) for _ in range(4)]
    for thread in threads:
        thread.start()
    for thread in threads:
        thread.join()
    assert [bytes(wire.recv(1).data) for _ in range(400)] == [model.protect(KEY, 0x120E, n, b"1234") for n in range(1, 401)]


def test_state_and_name_are_those_of_the_other_bus(wire: Any, secured: SecuredBus) -> None:
    assert secured.state == can.BusState.ACTIVE and "Virtual bus" in str(secured)
    with pytest.raises(NotImplementedError):
        secured.fileno()
    secured.flush_tx_buffer()


def test_wrong_arguments_of_a_secured_bus(wire: Any) -> None:
    store = opened(Memory.made(ROUTES), ROUTES)
    rows: list[tuple[type[Exception], Any]] = [
        (TypeError, lambda: SecuredBus(wire, store, FRAMES).send(None)),  # type: ignore[arg-type]
        (TypeError, lambda: SecuredBus(wire, store, FRAMES).send(b"1234")),  # type: ignore[arg-type]
        (TypeError, lambda: SecuredBus(None, store, FRAMES)),  # type: ignore[arg-type]
        (TypeError, lambda: SecuredBus(wire, None, FRAMES)),  # type: ignore[arg-type]
        (TypeError, lambda: SecuredBus(wire, store, [None])),  # type: ignore[list-item]
        (TypeError, lambda: SecuredBus(wire, store, FRAMES, 5)),  # type: ignore[arg-type]
        (ValueError, lambda: SecuredBus(wire, store, [Frame(1, 0x120E, RECEIVES, 4)])),
        (ValueError, lambda: SecuredBus(wire, store, [FRAMES[0], FRAMES[0]])),
        (ValueError, lambda: Frame(0x800, 1, SENDS, 4)),
        (ValueError, lambda: Frame(1 << 29, 1, SENDS, 4, True)),
        (ValueError, lambda: Frame(1, 1 << 16, SENDS, 4)),
        (ValueError, lambda: Frame(1, 1, 3, 4)),  # type: ignore[arg-type]
        (ValueError, lambda: Frame(1, 1, SENDS, 61)),
        (ValueError, lambda: Frame(1, 1, SENDS, 0)),
        (TypeError, lambda: Frame(1, 1, SENDS, 1, 1)),  # type: ignore[arg-type]
        (TypeError, lambda: Frame("1", 1, SENDS, 1)),  # type: ignore[arg-type]
    ]
    for error, call in rows:
        with pytest.raises(error):
            call()


anything = st.none() | st.booleans() | st.integers() | st.floats() | st.text(max_size=3) | st.binary(max_size=20) | st.lists(st.integers(), max_size=2)


@settings(max_examples=3 * settings().max_examples)
@given(st.data())
def test_any_arguments_of_frames_lines_and_buses_at_all(data: st.DataObject) -> None:
    numbers = anything | st.integers(0, 300)
    rows: list[tuple[Callable[..., object], list[Any]]] = [
        (Frame, [numbers] * 4 + [anything]),
        (MapLine, [numbers, anything, numbers, anything | st.just(KEY), *[numbers] * 3, anything]),
        (SecuredBus, [anything, anything | st.just(FUZZED), anything]),
        (verify_log, [anything.filter(lambda it: not isinstance(it, int)), anything.filter(lambda it: not isinstance(it, str))]),
        (read_map, [anything.filter(lambda it: not isinstance(it, int))]),
    ]
    call, drawn = data.draw(st.sampled_from(rows))
    try:
        call(*(data.draw(it) for it in drawn))
    except (TypeError, ValueError, FileNotFoundError, IsADirectoryError):
        pass


# ---- Two benches, with a forger and a replayer between them


class Attacker:
    """Stands between two wires: passes frames on, drops, alters, repeats and invents some."""

    def __init__(self, seed: int, near: str, far: str) -> None:
        self.drawn, self.near, self.far = Random(seed), bus(near), bus(far)
        self.seen: list[Any] = []
        self.honest: list[bytes] = []

    def pass_on(self) -> None:
        while (message := self.near.recv(0)) is not None:
            self.seen.append(message)
            turn = self.drawn.randrange(10)
            if turn < 2:
                self.altered(message)
            if turn != 9:
                self.far.send(message)
                self.honest.append(bytes(message.data))
            if turn in (3, 4):
                self.far.send(self.drawn.choice(self.seen))
            if turn == 5:
                self.far.send(frame(0x124, self.drawn.randbytes(self.drawn.randrange(9))))

    def altered(self, message: Any) -> None:
        data = bytearray(message.data)
        bit = self.drawn.randrange(8 * len(data))
        data[bit // 8] ^= 1 << bit % 8
        self.far.send(frame(0x124, bytes(data)))

    def close(self) -> None:
        self.near.shutdown()
        self.far.shutdown()


def test_two_benches_with_a_forger_and_a_replayer_between_them() -> None:
    ours, theirs = (rathonsi.Route(0x120F, way, 4, reserve=8) for way in (SENDS, RECEIVES))
    sender_memory, receiver_memory = Memory.made((ours,)), Memory.made((theirs,))
    refused: list[rathonsi.Refused] = []
    attacker, drawn = Attacker(57, "near", "far"), Random(58)
    sent: list[bytes] = []
    got: list[bytes] = []
    sending, receiving = bus("near"), bus("far")
    try:
        for life in range(20):
            # each life begins with what the device keeps: now the sender's begins anew, now the receiver's
            if life % 2 == 0:
                sender = SecuredBus(sending, opened(sender_memory, (ours,)), [Frame(0x124, 0x120F, SENDS, 4)])
            if life % 2 == 1 or life == 0:
                receiver = SecuredBus(
                    receiving, opened(receiver_memory, (theirs,)), [Frame(0x124, 0x120F, RECEIVES, 4)], lambda _, why: refused.append(why)
                )
            for number in range(100):
                sent.append(drawn.randbytes(4))
                sender.send(frame(0x124, sent[-1]))
                attacker.pass_on()
                while (message := receiver.recv(0)) is not None:
                    got.append(bytes(message.data))
    finally:
        attacker.close()
        sending.shutdown()
        receiving.shutdown()
    # what came is what was sent, in its order, none of it twice; and all that the attacker passed on came, except what
    # a new life of the receiver had reserved
    rest = iter(sent)
    assert all(payload in rest for payload in got)
    assert len(attacker.honest) - 10 * 8 <= len(got) <= len(attacker.honest)
    assert len(refused) > 500


# ---- Logs


def rows_of_the_example() -> list[str]:
    return (EXAMPLES / "bus_log_audit.txt").read_text(encoding="ascii").splitlines()[:-1]


def row(verdict: Any) -> str:
    """The line of `audit` for a verdict."""
    canid = f"{verdict.line.arbitration_id:0{8 if verdict.line.is_extended_id else 3}x}"
    if verdict.accepted is not None:
        return f"{verdict.number} {canid} VERIFICATIONSUCCESS {verdict.accepted.freshness:016x} {verdict.accepted.payload.hex()}"
    names = {rathonsi.VerificationFailure: "VERIFICATIONFAILURE", rathonsi.FreshnessFailure: "FRESHNESSFAILURE", rathonsi.BadLength: "BadLength"}
    return f"{verdict.number} {canid} {names[type(verdict.refused)]}"


@pytest.fixture
def log(tmp_path: Path) -> Path:
    return Path(shutil.copy(EXAMPLES / "bus_log.txt", tmp_path / "bus.log"))


def test_the_example_has_the_verdicts_of_audit(log: Path) -> None:
    assert [row(it) for it in verify_log(log, EXAMPLES / "bus_log_map.txt")] == rows_of_the_example()
    lines = read_map(EXAMPLES / "bus_log_map.txt")
    assert [row(it) for it in verify_log(str(log), lines)] == rows_of_the_example()


@pytest.mark.parametrize("suffix", [".asc", ".blf", ".csv", ".db", ".log.gz"])
def test_the_same_log_in_other_formats(log: Path, suffix: str) -> None:
    other = log.with_name("bus" + suffix)
    if suffix == ".log.gz":
        other.write_bytes(gzip.compress(log.read_bytes()))
    else:
        writer = can.Logger(other)
        for message in can.LogReader(log):
            message.channel = 0
            writer(message)
        writer.stop()
    assert [row(it) for it in verify_log(other, EXAMPLES / "bus_log_map.txt")] == rows_of_the_example()


def test_a_trc_log_of_classic_frames(tmp_path: Path) -> None:
    frames = [frame(0x124, model.protect(KEY, 0x120F, n, bytes([n] * 4)), timestamp=1000 + n / 10, channel=1) for n in (1, 2, 2, 3)]
    writer = can.Logger(tmp_path / "bus.trc")
    for message in frames:
        writer(message)
    writer.stop()
    line = MapLine(0x124, False, 0x120F, KEY, 0, 4)
    verdicts = list(verify_log(tmp_path / "bus.trc", [line]))
    assert [it.accepted and it.accepted.freshness for it in verdicts] == [1, 2, None, 3]
    assert type(verdicts[2].refused) is rathonsi.VerificationFailure and verdicts[3].line is line


def test_a_channel_and_a_window_of_a_map(tmp_path: Path) -> None:
    pdus = [model.protect(KEY, 0x120F, n, b"brak").hex() for n in (1, 2, 5)]
    (tmp_path / "bus.log").write_text("".join(f"({n}.0) can{n % 2} 124#{pdu}\n" for n, pdu in enumerate(pdus)))
    (tmp_path / "map").write_text(f"# a map\n\n124 120f {KEY.hex()} {0:016x} 4 2 can0\n124 120F {KEY.hex()} {1:016x} 4 256 -\n")
    verdicts = list(verify_log(tmp_path / "bus.log", tmp_path / "map"))
    assert [(it.number, it.line.channel) for it in verdicts] == [(1, "can0"), (2, None), (3, "can0")]
    assert [type(it.refused).__name__ for it in verdicts] == ["NoneType", "NoneType", "FreshnessFailure"]


def drawn_frames(seed: int) -> list[Any]:
    """Frames of two identifiers on three channels: PDUs in order, replays, PDUs of other channels, and other bytes."""
    drawn, sent = Random(seed), {place: 0 for place in itertools.product((0x124, 0x125), range(3))}
    frames: list[Any] = []
    for number in range(drawn.randint(1, 40)):
        canid, channel = place = drawn.choice(list(sent))
        sent[place] += drawn.choice((0, 1, 1, 1, 2))
        pdu = drawn.choice((model.protect(KEY, canid, 16 * channel + sent[place], drawn.randbytes(4)), drawn.randbytes(8)))
        frames.append(frame(canid, pdu, timestamp=1000 + number / 100, channel=channel))
    return frames


def written(path: Path, frames: list[Any]) -> Path:
    writer = can.Logger(path)
    for message in frames:
        writer(message)
    writer.stop()
    return path


def told(verdicts: Any) -> list[tuple[int, str]]:
    """The number of each judged frame, with the line of `audit` for it."""
    return [(it.number, row(it)) for it in verdicts]


@pytest.mark.parametrize("suffix", [".asc", ".blf", ".trc"])
def test_names_and_numbers_of_channels_judge_alike(tmp_path: Path, suffix: str) -> None:
    def lines(*names: str) -> list[MapLine]:
        return [
            MapLine(canid, False, canid, KEY, 16 * place, 4, 8, name) for canid in (0x124, 0x125) for place, name in enumerate(names)
        ]

    for seed in range(20):
        frames = drawn_frames(seed)
        wanted = told(verify_log(written(tmp_path / "bus.log", frames), lines("can0", "can1", "can2")))
        assert len(wanted) == len(frames)
        log = written(tmp_path / f"bus{suffix}", frames)
        numbers = ["1", "2", "3"] if suffix == ".trc" else ["0", "1", "2"]
        names: dict[str, int | str] = dict(zip("abc", map(int, numbers)))
        assert told(verify_log(log, lines("can0", "can1", "can2"))) == wanted
        assert told(verify_log(log, lines("vcan0", "can1", numbers[2]))) == wanted
        assert told(verify_log(log, lines(*numbers))) == wanted
        assert told(verify_log(log, lines("a", "b", "c"), channels=names)) == wanted
        assert told(verify_log(log, lines("can2", "b", "c"), channels={"can2": int(numbers[0]), "b": numbers[1], "c": names["c"]})) == wanted


def test_a_log_of_which_no_frame_is_in_the_map(tmp_path: Path) -> None:
    def line(channel: str | None = None, arbitration_id: int = 0x124) -> MapLine:
        return MapLine(arbitration_id, False, 0x120F, KEY, 0, 4, 256, channel)

    blf = written(tmp_path / "bus.blf", [frame(0x124, bytes(8), channel=1)])
    cases: list[tuple[Path, list[MapLine], str]] = [
        (blf, [line("can0")], "came on channel 1"),
        (blf, [line("0"), line(None, 0x125)], "came on channel 1"),
        (blf, [line(None, 0x125)], "none of its identifiers"),
        (written(tmp_path / "bus.log", [frame(0x124, bytes(8), channel="can1")]), [line("can0")], "came on channel can1"),
        (blf, [], "none of its identifiers"),
        (written(tmp_path / "empty.asc", []), [line()], "none of its identifiers"),
    ]
    for path, lines, why in cases:
        with pytest.raises(NothingJudged, match=why):
            list(verify_log(path, lines))
    assert len(list(verify_log(blf, [line("can0"), line("can1")]))) == 1


def test_channels_that_mean_nothing(tmp_path: Path, log: Path) -> None:
    def line(channel: str) -> MapLine:
        return MapLine(0x124, False, 0x120F, KEY, 0, 4, 256, channel)

    with pytest.raises(ValueError, match="no line of the map has the channel b"):
        verify_log(log, [line("a")], channels={"b": 1})
    with pytest.raises(TypeError, match="channels"):
        verify_log(log, [line("a")], channels={"a": None})  # type: ignore[dict-item]
    blf = written(tmp_path / "bus.blf", [frame(0x124, bytes(8), channel=0)])
    cases: list[tuple[list[MapLine], dict[str, int | str]]] = [
        ([line("can0"), line("vcan0")], {}),
        ([line("0"), line("can0")], {}),
        ([line("a"), line("b")], {"a": 0, "b": "0"}),
    ]
    for lines, names in cases:
        with pytest.raises(ValueError, match="no frame reaches"):
            verify_log(blf, lines, channels=names)
    # in a candump log these are three
    three = [frame(0x124, bytes(8), channel=it) for it in ("can0", "vcan0")]
    assert len(list(verify_log(written(tmp_path / "bus.log", three), [line("can0"), line("vcan0"), line("0")]))) == 2


WRONG_MAPS = {
    "few words": f"124 120f {KEY.hex()} {0:016x}",
    "many words": f"124 120f {KEY.hex()} {0:016x} 4 256 - more",
    "identifier": f"0124 120f {KEY.hex()} {0:016x} 4",
    "identifier over 11 bits": f"fff 120f {KEY.hex()} {0:016x} 4",
    "digits": f"12g 120f {KEY.hex()} {0:016x} 4",
    "sign": f"+12 120f {KEY.hex()} {0:016x} 4",
    "data id": f"124 120 {KEY.hex()} {0:016x} 4",
    "key": f"124 120f {KEY.hex()[1:]} {0:016x} 4",
    "freshness": f"124 120f {KEY.hex()} {0:015x} 4",
    "length": f"124 120f {KEY.hex()} {0:016x} 61",
    "length 0": f"124 120f {KEY.hex()} {0:016x} 0",
    "length in hex": f"124 120f {KEY.hex()} {0:016x} 0x4",
    "window": f"124 120f {KEY.hex()} {0:016x} 4 257",
    "many digits": f"124 120f {KEY.hex()} {0:016x} {'9' * 5000}",
    "another blank": f"124 120f {KEY.hex()} {0:016x}\v4",
    "other letters": f"124 120f {KEY.hex()} {0:016x} \u0664",
    "optional twice": f"124 120f {KEY.hex()} {0:016x} 4 256 - optional optional",
    "words behind optional": f"124 120f {KEY.hex()} {0:016x} 4 optional can0",
    "a name of another byte": f"124 120f {KEY.hex()} {0:016x} 4 name=a/b",
    "two names": f"124 120f {KEY.hex()} {0:016x} 4 name=a name=b",
    "no name": f"124 120f {KEY.hex()} {0:016x} 4 name=",
    "a word too few before a comment": f"124 120f {KEY.hex()} {0:016x} # 4",
    "a line that no frame reaches": f"321 120f {KEY.hex()} {0:016x} 4 9 can0",
}


@pytest.mark.parametrize("text", WRONG_MAPS.values(), ids=WRONG_MAPS)
def test_a_map_with_a_malformed_line(tmp_path: Path, log: Path, text: str) -> None:
    (tmp_path / "map").write_text(f"321 120f {KEY.hex()} {0:016x} 4\n{text}\n")
    with pytest.raises(ValueError, match="line 2") as caught:
        verify_log(log, tmp_path / "map")
    assert KEY.hex() not in str(caught.value)


def test_a_map_in_the_forms_that_the_programs_take(tmp_path: Path) -> None:
    line = f"124\t120f  {KEY.hex()} {0:016x} 4"
    text = f"# caf\u00e9\r\n\r\n \t{line} 2 can\u00e9\t\r\n{line} 2 can1\n{line}\r"
    others = [line.replace("124", can, 1) for can in ("125", "126")]
    text += f"\n{others[0]} optional name=a.b-c_1 # not in every car\n{others[1]} 3 can1 name=x optional\n"
    (tmp_path / "map").write_text(text, encoding="utf-8", newline="")
    lines = [("can\u00e9", 2), ("can1", 2), (None, 256), (None, 256), ("can1", 3)]
    assert [(it.channel, it.window) for it in read_map(tmp_path / "map")] == lines
    assert read_map(str(tmp_path / "map")) == read_map(tmp_path / "map")


def test_lines_of_a_map_that_no_frame_reaches(log: Path) -> None:
    def line(channel: str | None = None, arbitration_id: int = 0x124, extended: bool = False) -> MapLine:
        return MapLine(arbitration_id, extended, 0x120F, KEY, 0, 4, 256, channel)

    for lines in ([line(), line()], [line(), line("can0")], [line("can0"), line("can1"), line("can0")]):
        with pytest.raises(ValueError, match="no frame reaches"):
            verify_log(log, lines)
    with pytest.raises(NothingJudged):
        list(verify_log(log, [line("can0"), line("can1"), line(), line(None, 0x125), line(None, 0x124, True)]))


def test_a_malformed_log_raises_when_it_is_read(log: Path) -> None:
    text = log.read_text(encoding="ascii").splitlines(keepends=True)
    log.write_text("".join(text[:1]) + "(1.0) can0 zzz#\n", encoding="ascii")
    verdicts = verify_log(log, EXAMPLES / "bus_log_map.txt")
    assert row(next(verdicts)) == rows_of_the_example()[0]
    with pytest.raises(ValueError):
        next(verdicts)


def test_logs_and_maps_that_are_not_there(tmp_path: Path, log: Path) -> None:
    with pytest.raises(FileNotFoundError):
        verify_log(log, tmp_path / "map")
    with pytest.raises(FileNotFoundError):
        verify_log(tmp_path / "none.log", EXAMPLES / "bus_log_map.txt")
    with pytest.raises(ValueError):
        verify_log(tmp_path / "bus.txt", EXAMPLES / "bus_log_map.txt")
    with pytest.raises(TypeError):
        verify_log(log, [5])  # type: ignore[list-item]
    assert KEY.hex() not in repr(MapLine(0x124, False, 0x120F, KEY, 0, 4))
