"""A test of a bench: a receiver stands frames that are dropped, altered, sent again and late.

It runs by pytest, whose fixture `secured_bus` comes with the package: `pytest test_bench.py`.
"""

import pytest

import rathonsi
from rathonsi.can import Frame
from rathonsi.faults import Fault, FaultyBus
from rathonsi.pytest_plugin import MakesSecuredBus

can = pytest.importorskip("can")
KEY = bytes.fromhex("2b7e151628aed2a6abf7158809cf4f3c")
SENT = [Frame(0x123, 0x120E, rathonsi.SENDS, payload_length=4)]
HEARD = [Frame(0x123, 0x120E, rathonsi.RECEIVES, payload_length=4)]


def test_a_receiver_takes_no_faulty_frame(secured_bus: MakesSecuredBus) -> None:
    wire = FaultyBus(can.Bus(interface="virtual", channel="bench"), seed=1, drop=0.1, flip=0.1, replay=0.1, delay=0.1)
    refused: list[rathonsi.Refused] = []
    sender = secured_bus(SENT, KEY, bus=wire)
    heard = can.Bus(interface="virtual", channel="bench")
    receiver = secured_bus(HEARD, KEY, bus=heard, on_refused=lambda _, why: refused.append(why))

    payloads = [bytes([0, 0, number >> 8, number & 255]) for number in range(300)]
    for payload in payloads:
        sender.send(can.Message(arbitration_id=0x123, is_extended_id=False, data=payload))
    taken = []
    while (message := receiver.recv(0.2)) is not None:
        taken.append(bytes(message.data))

    faults = [it.fault for it in wire.injected]
    assert set(faults) == set(Fault)
    assert taken == sorted(set(taken)) and set(taken) <= set(payloads)  # nothing twice, none late, none altered
    assert len(refused) >= faults.count(Fault.FLIP) + faults.count(Fault.REPLAY)
    assert len(taken) >= 300 - len(faults)
