"""Faults on a bus, and the fixture of secured buses."""

from collections.abc import Iterator
from typing import Any

import pytest

can = pytest.importorskip("can")

import model
import rathonsi
from memories import KEY
from rathonsi.can import Frame
from rathonsi.faults import Fault, FaultyBus
from rathonsi.pytest_plugin import MakesSecuredBus

pytest_plugins = ("rathonsi.pytest_plugin",)
FRAMES = [Frame(0x123, 0x120E, rathonsi.SENDS, 4)]
MIRRORED = [Frame(0x123, 0x120E, rathonsi.RECEIVES, 4)]


def frame(number: int, canid: int = 0x123, **more: Any) -> Any:
    return can.Message(arbitration_id=canid, is_extended_id=False, data=number.to_bytes(4, "big"), **more)


@pytest.fixture
def far(request: pytest.FixtureRequest) -> Iterator[Any]:
    with can.Bus(interface="virtual", channel=request.node.name) as it:
        yield it


def faulty(far: Any, **more: Any) -> FaultyBus:
    return FaultyBus(can.Bus(interface="virtual", channel=far.channel_id), **more)


def heard(far: Any) -> list[int]:
    numbers = []
    while (message := far.recv(0)) is not None:
        numbers.append(int.from_bytes(message.data, "big"))
    return numbers


def test_without_faults_each_frame_goes_through(far: Any) -> None:
    with faulty(far) as bus:
        for number in range(50):
            bus.send(frame(number))
        assert heard(far) == list(range(50)) and bus.injected == []
        far.send(frame(5))
        message = bus.recv(1)
        assert message is not None and bytes(message.data) == bytes([0, 0, 0, 5])


def test_each_fault_by_a_call(far: Any) -> None:
    with faulty(far, late=2) as bus:
        bus.send(frame(1))
        for fault, number in ((Fault.DROP, 2), (Fault.DELAY, 3), (Fault.REPLAY, 4)):
            bus.next_fault(fault)
            bus.send(frame(number))
        bus.send(frame(5))
        bus.next_fault(Fault.FLIP)
        bus.send(frame(6))
        *before, flipped = heard(far)
        again = before[2]
        assert before == [1, 4, again, 5, 3] and again in (1, 4) and (flipped ^ 6).bit_count() == 1
        assert [it.fault for it in bus.injected] == [Fault.DROP, Fault.DELAY, Fault.REPLAY, Fault.FLIP]
        assert [int.from_bytes(it.message.data, "big") for it in bus.injected] == [2, 3, again, flipped]


def test_what_is_held_back_goes_out_at_the_end(far: Any) -> None:
    with faulty(far, delay=1.0, late=3) as bus:
        for number in range(5):
            bus.send(frame(number))
        assert heard(far) == [0, 1]
    assert heard(far) == [2, 3, 4]


def test_a_seed_gives_the_same_faults_and_shares_are_kept(far: Any) -> None:
    def run(seed: int) -> tuple[list[Fault], list[int]]:
        with faulty(far, seed=seed, drop=0.1, flip=0.2, replay=0.05, delay=0.05) as bus:
            for number in range(1000):
                bus.send(frame(number))
            return [it.fault for it in bus.injected], heard(far)

    faults, numbers = run(3)
    assert (faults, numbers) == run(3) != run(4)
    for fault, share in ((Fault.DROP, 100), (Fault.FLIP, 200), (Fault.REPLAY, 50), (Fault.DELAY, 50)):
        assert 0.6 * share < faults.count(fault) < 1.4 * share


def test_frames_that_have_no_faults(far: Any) -> None:
    with faulty(far, drop=1.0, identifiers=[0x123]) as bus:
        bus.send(frame(1, 0x124))
        bus.send(frame(2))
        bus.send(can.Message(arbitration_id=0x123, is_extended_id=False, is_remote_frame=True))
        assert heard(far) == [1, 0]
        bus.next_fault(Fault.FLIP)
        bus.send(can.Message(arbitration_id=0x123, is_extended_id=False))
        assert heard(far) == [0] and [it.fault for it in bus.injected] == [Fault.DROP]


def test_wrong_arguments(far: Any) -> None:
    wrong: list[dict[str, Any]] = [{"drop": 1.1}, {"flip": -0.1}, {"drop": 0.6, "flip": 0.6}, {"late": 0}, {"replay": float("nan")}]
    for more in wrong:
        with pytest.raises(ValueError):
            FaultyBus(far, **more)
    with pytest.raises(TypeError):
        FaultyBus(None)  # type: ignore[arg-type]
    with faulty(far) as bus, pytest.raises(ValueError):
        bus.next_fault("melt")


def test_two_ends_of_the_fixture(secured_bus: MakesSecuredBus) -> None:
    sender, receiver = secured_bus(FRAMES, KEY), secured_bus(MIRRORED, KEY)
    for number in range(20):
        sender.send(frame(number))
        message = receiver.recv(1)
        assert message is not None and bytes(message.data) == bytes([0, 0, 0, number])


def test_replays_and_altered_frames_are_refused(secured_bus: MakesSecuredBus, far: Any) -> None:
    refused: list[rathonsi.Refused] = []
    wire = faulty(far, seed=9, replay=0.3, flip=0.2)
    sender = secured_bus(FRAMES, KEY, wire)
    receiver = secured_bus(MIRRORED, KEY, can.Bus(interface="virtual", channel=far.channel_id), lambda _, why: refused.append(why))
    taken = []
    for number in range(200):
        sender.send(frame(number))
        while (message := receiver.recv(0)) is not None:
            taken.append(int.from_bytes(message.data, "big"))
    flips = sum(it.fault is Fault.FLIP for it in wire.injected)
    assert taken == sorted(set(taken)) and len(taken) == 200 - flips
    assert len(refused) == len(wire.injected)
    assert model.protect(KEY, 0x120E, 1, bytes(4)) == bytes(far.recv(0).data)
