"""Writes examples/bus_log.txt with python-can's candump writer (Debian's python3-can): fifty frames of a bus, classic CAN and CAN FD, of which
two identifiers carry Secured I-PDUs of two Data IDs (AUTOSAR SecOC, profile 1). Writes examples/bus_log_audit.txt as well: what an audit of it
over examples/bus_log_map.txt prints, by the verdicts that an independent receiver gives here.

Run it at the top of the repository: python3 examples/python/write_bus_log.py
"""

import can
from can.io.canutils import CanutilsLogWriter
from cryptography.hazmat.primitives.ciphers.algorithms import AES
from cryptography.hazmat.primitives.cmac import CMAC

# Identifier, whether it is an extended one, Data ID, key, freshness accepted last, length of the payload.
PEDAL = (0x123, False, 0x6BC1, bytes.fromhex("2b7e151628aed2a6abf7158809cf4f3c"), 0xE93D7E1173931729, 6)
BRAKE = (0x18DAF110, True, 0x0A2F, bytes.fromhex("000102030405060708090a0b0c0d0e0f"), 0x00000000000000FE, 3)
MAPPED = (PEDAL, BRAKE)


def tag(route, payload, freshness):
    mac = CMAC(AES(route[3]))
    mac.update(route[2].to_bytes(2, "big") + payload + freshness.to_bytes(8, "big"))
    return mac.finalize()[:3]


def secured(route, payload, freshness):
    return payload + bytes([freshness & 0xFF]) + tag(route, payload, freshness)


def padded(data):
    size = next(size for size in (*range(9), 12, 16, 20, 24, 32, 48, 64) if size >= len(data))
    return data + bytes(size - len(data))


def frame(route, data, fd):
    return can.Message(arbitration_id=route[0], is_extended_id=route[1], is_fd=fd, bitrate_switch=fd, data=padded(data) if fd else data)


def bus():
    """The fifty frames, in their order."""
    frames = []
    pedal, brake = PEDAL[4], BRAKE[4]
    for number in range(16):
        pedal += 1 + number % 3
        frames.append(frame(PEDAL, secured(PEDAL, bytes([number, 0x10 + number, 7, 0, 0, number]), pedal), True))
        brake += 1
        frames.append(frame(BRAKE, secured(BRAKE, bytes([0x80 + number, number, 1]), brake), number % 2 == 1))
        if number % 5 != 4:
            frames.append(can.Message(arbitration_id=0x100 + number, is_extended_id=False, data=bytes([number] * (number % 9))))
    replayed = frames[0]
    altered = secured(BRAKE, bytes([0x55, 0x55, 0x55]), brake + 1)
    altered = bytes([altered[0] ^ 1]) + altered[1:]
    frames.insert(10, replayed)
    frames.insert(20, can.Message(arbitration_id=PEDAL[0], is_extended_id=False, is_remote_frame=True, dlc=8))
    frames.insert(30, frame(BRAKE, altered, False))
    frames.append(frame(PEDAL, secured(PEDAL, bytes(6), pedal)[:7], False))
    frames.append(frame(PEDAL, secured(PEDAL, bytes(6), pedal + 256), True))
    return frames


def candidate(counter, low):
    """The least number above the counter that has this low byte."""
    value = counter - counter % 256 + low
    return value if value > counter else value + 256


def judged(route, counter, data):
    """What a receiver with a window of 256 says, and its counter afterwards."""
    size = route[5]
    if len(data) < size + 4:
        return "BadLength", counter
    freshness = candidate(counter, data[size])
    if freshness >= 1 << 64:
        return "FRESHNESSFAILURE", counter
    if tag(route, data[:size], freshness) != data[size + 1 : size + 4]:
        return "VERIFICATIONFAILURE", counter
    return f"VERIFICATIONSUCCESS {freshness:016x} {data[:size].hex()}", freshness


def name(route):
    return f"{route[0]:08x}" if route[1] else f"{route[0]:03x}"


def audit(frames):
    counters = {route: route[4] for route in MAPPED}
    others = 0
    for number, message in enumerate(frames, 1):
        here = [r for r in MAPPED if (r[0], r[1]) == (message.arbitration_id, message.is_extended_id) and not message.is_remote_frame]
        if not here:
            others += 1
            continue
        text, counters[here[0]] = judged(here[0], counters[here[0]], bytes(message.data))
        yield f"{number} {name(here[0])} {text}\n"
    yield f"other {others}\n"


def main():
    frames = bus()
    assert len(frames) == 50, len(frames)
    writer = CanutilsLogWriter("examples/bus_log.txt", channel="can0")
    for number, message in enumerate(frames):
        message.timestamp = 1436509052 + number / 100
        writer(message)
    writer.stop()
    with open("examples/bus_log_map.txt", "w", encoding="ascii") as out:
        out.write("# CANID ID KEY FRESH LEN\n")
        for route in MAPPED:
            out.write(f"{name(route)} {route[2]:04x} {route[3].hex()} {route[4]:016x} {route[5]}\n")
    with open("examples/bus_log_audit.txt", "w", encoding="ascii") as out:
        out.writelines(audit(frames))


main()
