#!/usr/bin/env python3
"""What the package adds to a send, in one run: microseconds a frame, the least of fifty rounds.

measure_overhead.py [COUNT]   sends COUNT frames of 8 bytes a round (1,280)

The rows: the call from C (with cc and the archive of bin/build_c); the same call by ctypes, with arguments that are
made once; the calls of the package over a device in memory; a PDU made with the CMAC of pycryptodome, and of
`cryptography`; a frame over a virtual bus of python-can, with and without the package; and a send of a FileStore, which
syncs each write.
"""

import ctypes
import os
import shutil
import subprocess
import sys
import tempfile
import time
from collections.abc import Callable
from pathlib import Path

sys.path.insert(0, str(Path(__file__).resolve().parent / "src"))
import rathonsi
from rathonsi import _library

TOP = Path(__file__).resolve().parents[1]
ARCHIVE = TOP / "crates" / "rathonsi_c" / "out" / "librathonsi.a"
KEY, PAYLOAD, ROUNDS = bytes(range(16)), bytes(range(8)), 50
SENDER = rathonsi.Route(0x120E, rathonsi.SENDS, 4, reserve=128)
RECEIVER = rathonsi.Route(0x120E, rathonsi.RECEIVES, 4, reserve=128)

IN_C = """
#include <stdio.h>
#include <stdlib.h>
#include <time.h>
#include "rathonsi.h"
int main(int count, char **words) {
    static uint8_t key[16], payload[8], pdu[12];
    double least = 1e9;
    for (int round = 0; round < 50; round++) {
        struct timespec from, to;
        clock_gettime(CLOCK_MONOTONIC, &from);
        for (long n = 0; n < atol(words[1]); n++)
            rathonsi_secoc_protect(key, 16, 7, (uint64_t)n, payload, 8, pdu, 12);
        clock_gettime(CLOCK_MONOTONIC, &to);
        double took = (double)(to.tv_sec - from.tv_sec) + 1e-9 * (double)(to.tv_nsec - from.tv_nsec);
        least = took < least ? took : least;
    }
    printf("%.9f", least / atof(words[1]));
    return count != 2;
}
"""


class Memory:
    def __init__(self) -> None:
        self.content = bytearray(2000)

    def read(self) -> bytes:
        return bytes(self.content)

    def write(self, offset: int, data: bytes) -> None:
        self.content[offset : offset + len(data)] = data


def opened(route: rathonsi.Route) -> rathonsi.Store:
    memory = Memory()
    rathonsi.make_store(memory, [route], {4: KEY})
    return rathonsi.Store(memory, [route])


def show(what: str, call: Callable[[], object], count: int) -> None:
    least = float("inf")
    for _ in range(ROUNDS):
        began = time.perf_counter()
        for _ in range(count):
            call()
        least = min(least, time.perf_counter() - began)
    print(f"{1e6 * least / count:9.2f}  {what}", flush=True)


def show_c(count: int) -> None:
    if shutil.which("cc") is None or not ARCHIVE.exists():
        print("  skipped  the call from C, since there is no cc or no archive")
        return
    with tempfile.TemporaryDirectory() as folder:
        (Path(folder) / "time.c").write_text(IN_C)
        compiled = ["cc", "-O2", f"-I{TOP / 'include'}", "-o", f"{folder}/time", f"{folder}/time.c", str(ARCHIVE)]
        subprocess.run(compiled, check=True)
        run = subprocess.run([f"{folder}/time", str(10 * count)], check=True, capture_output=True, text=True)
        seconds = float(run.stdout)
    print(f"{1e6 * seconds:9.2f}  rathonsi_secoc_protect, called from C")


def show_ctypes(count: int) -> None:
    pdu = ctypes.create_string_buffer(12)
    call = _library.secoc_protect
    what = "rathonsi_secoc_protect, called by ctypes with arguments made once"
    show(what, lambda: call(KEY, 16, 7, 1, PAYLOAD, 8, pdu, 12), count)


def show_package(count: int) -> None:
    show("rathonsi.protect", lambda: rathonsi.protect(KEY, 0x120E, 1, PAYLOAD), count)
    sender, receiver, sent = opened(SENDER), opened(RECEIVER), opened(SENDER)
    show("Store.send, reserve 128, device in memory", lambda: sender.send(0x120E, PAYLOAD), count)
    pdus = iter([sent.send(0x120E, PAYLOAD) for _ in range(ROUNDS * count)])
    show("Store.receive, reserve 128, device in memory", lambda: receiver.receive(0x120E, next(pdus)), count)


def show_others(count: int) -> None:
    authenticated = b"\x12\x0e" + PAYLOAD
    try:
        from Cryptodome.Cipher import AES
        from Cryptodome.Hash import CMAC
    except ImportError:
        print("  skipped  pycryptodome: it isn't there")
    else:
        def by_pycryptodome() -> bytes:
            freshness = (1).to_bytes(8, "big")
            return PAYLOAD + freshness[7:] + CMAC.new(KEY, authenticated + freshness, ciphermod=AES).digest()[:3]

        show("a PDU with pycryptodome's CMAC, no counter kept", by_pycryptodome, count)
    try:
        from cryptography.hazmat.primitives.ciphers.algorithms import AES as Algorithm
        from cryptography.hazmat.primitives.cmac import CMAC as Mac
    except ImportError:
        print("  skipped  cryptography: it isn't there")
    else:
        def by_cryptography() -> bytes:
            freshness = (1).to_bytes(8, "big")
            mac = Mac(Algorithm(KEY))
            mac.update(authenticated + freshness)
            return PAYLOAD + freshness[7:] + mac.finalize()[:3]

        show("a PDU with the CMAC of `cryptography`, no counter kept", by_cryptography, count)


def show_bus(count: int) -> None:
    try:
        from can.interfaces.virtual import VirtualBus
        from can.message import Message
        from rathonsi.can import Frame, SecuredBus
    except ImportError:
        print("  skipped  frames on a bus: python-can isn't there")
        return
    with VirtualBus(channel="measured") as bus:
        plain = Message(arbitration_id=0x123, is_extended_id=False, data=bytes(12), is_fd=True)
        show("a frame of 12 bytes, sent on a virtual bus as it is", lambda: bus.send(plain), count)
        secured = SecuredBus(bus, opened(SENDER), [Frame(0x123, 0x120E, rathonsi.SENDS, 8)])
        message = Message(arbitration_id=0x123, is_extended_id=False, data=PAYLOAD)
        show("a frame of 8 bytes, sent on the same bus secured", lambda: secured.send(message), count)


def show_file(count: int) -> None:
    for reserve in (128, 1):
        route = rathonsi.Route(0x120E, rathonsi.SENDS, 4, reserve=reserve)
        with tempfile.TemporaryDirectory(dir=os.environ.get("TMPDIR")) as folder:
            path = Path(folder) / "measured.store"
            rathonsi.make_file_store(path, [route], {4: KEY})
            with rathonsi.FileStore(path, [route]) as store:
                what = f"FileStore.send, reserve {reserve}, each write synced"
                show(what, lambda: store.send(0x120E, PAYLOAD), max(1, count * reserve // 128))


def main() -> None:
    count = int(sys.argv[1]) if len(sys.argv) > 1 else 1280
    print("µs a frame")
    show_c(count)
    show_ctypes(count)
    show_package(count)
    show_others(count)
    show_bus(count)
    show_file(count)


if __name__ == "__main__":
    main()
