#!/usr/bin/env python3
"""What `bus_replay replay B F` prints, computed by another program.

It follows the layouts and rules of docs/formats.md over disks of plain bytes. AES and CMAC are those of the Python
package `cryptography`. It has no code in common with the program. It looks for no fault of the bus file or the script,
and is slow. The rows of checks/rows/bus_replay_runs.toml compare with it, and so do the lives of three programs and the
drawn calls of `station`.

bus_model.py B F             prints the lines of the script F over the bus B
bus_model.py --make N SEED B prints a script of N events drawn for the bus B
"""

import random
import sys
import tomllib

from cryptography.hazmat.primitives.ciphers import Cipher, algorithms, modes
from cryptography.hazmat.primitives.cmac import CMAC

LAST = 2**64 - 1
FF = b"\xff" * 16
LIVE = 0xA7


class Failed(Exception):
    """A call of a disk failed."""


class Refused(Exception):
    """An event is refused, with this text."""


# ---- AES-128, CMAC and the messages of a key update


def encrypt(key, blocks, mode=None):
    turned = Cipher(algorithms.AES(key), mode or modes.ECB()).encryptor()
    return turned.update(blocks) + turned.finalize()


def cbc_decrypt(key, blocks):
    turned = Cipher(algorithms.AES(key), modes.CBC(bytes(16))).decryptor()
    return turned.update(blocks) + turned.finalize()


def cmac(key, message):
    mac = CMAC(algorithms.AES(key))
    mac.update(message)
    return mac.finalize()


def xor(*blocks):
    return bytes(a ^ b ^ c for a, b, c in zip(*blocks))


def derived(key, constant):
    out = bytes(16)
    for block in (key, bytes.fromhex(constant)):
        out = xor(encrypt(out, block), block, out)
    return out


def enc_key(key):
    return derived(key, "010153484500800000000000000000b0")


def mac_key(key):
    return derived(key, "010253484500800000000000000000b0")


def request(uid, slot, auth, auth_key, counter, flags, new_key):
    m1 = uid + bytes([slot << 4 | auth])
    head = (counter << 100 | flags << 95).to_bytes(16, "big")
    m2 = encrypt(enc_key(auth_key), head + new_key, modes.CBC(bytes(16)))
    return m1, m2, cmac(mac_key(auth_key), m1 + m2)


def reply(uid, slot, auth, counter, new_key):
    tail = encrypt(enc_key(new_key), (counter << 100 | 1 << 99).to_bytes(16, "big"))
    m4 = uid + bytes([slot << 4 | auth]) + tail
    return m4, cmac(mac_key(new_key), m4)


def boot_mac(key, image):
    return cmac(key, bytes(12) + (8 * len(image)).to_bytes(4, "big") + image)


# ---- disks and stores


class Disk:
    """Bytes as they are read and as they were synced, and what is armed."""

    def __init__(self, size):
        self.now, self.synced, self.loose = bytearray(size), bytearray(size), set()
        self.calls, self.stop, self.fail = 0, None, None

    def call(self):
        self.calls += 1
        failing = self.calls == self.fail or self.stop is not None and self.calls >= self.stop
        if failing:
            raise Failed

    def read(self, at, count):
        self.call()
        return bytes(self.now[at : at + count])

    def write(self, at, data):
        self.now[at : at + len(data)] = data
        self.loose.update(range(at, at + len(data)))
        self.call()

    def sync(self):
        self.call()
        for at in self.loose:
            self.synced[at] = self.now[at]
        self.loose.clear()

    def cut(self, torn):
        for at in self.loose:
            if torn == "old" or torn == "half" and at % 2:
                self.now[at] = self.synced[at]
            elif torn not in ("keep", "half"):
                self.now[at] = int(torn, 16)
            self.synced[at] = self.now[at]
        self.loose.clear()
        self.stop = None

    def stop_at(self, calls):
        if self.stop is None or self.calls < self.stop:
            self.stop = self.calls + calls

    def fail_at(self, calls):
        self.fail = self.calls + calls


def counting(gates_and_marks):
    """Which of two counts."""
    (gate, mark), (other_gate, other_mark) = gates_and_marks
    if gate != LIVE or other_gate != LIVE:
        return 0 if gate == LIVE else 1
    return 0 if mark == (other_mark + 1) % 3 else 1


class Store:
    """A store of cells: its list is what the disk was last read to have, with what was put since."""

    def __init__(self, disk, version, cells):
        self.disk, self.base, self.cells = disk, 32768 * (version - 1), list(cells)

    def at(self, place):
        return self.base + place

    def gated(self, gate, body, is_open):
        """Writes a body behind its gate, which is closed first where it is open."""
        if is_open:
            self.disk.write(gate, b"\0")
            self.disk.sync()
        self.disk.write(gate + 1, body)
        self.disk.sync()
        self.disk.write(gate, bytes([LIVE]))
        self.disk.sync()

    def header(self, kind, version):
        return b"SECOCST1" + bytes([kind, version]) + len(self.cells).to_bytes(2, "big") + bytes(20)


class Twin(Store):
    def __init__(self, disk, version, cells):
        super().__init__(disk, version, cells)
        whole = self.header(1, version)
        for cell in cells:
            whole += bytes([LIVE, 0]) + cell + bytes([LIVE, 2]) + cell
        disk.now[self.base : self.base + len(whole)] = whole
        disk.synced[:] = disk.now

    def put(self, index, cell):
        place = self.at(32 + 68 * index)
        copies = self.disk.now[place : place + 68]
        counts = counting([copies[0:2], copies[34:36]])
        other = place + 34 * (1 - counts)
        mark = (copies[34 * counts + 1] + 1) % 3
        self.gated(other, bytes([mark]) + cell, self.disk.now[other] == LIVE)
        self.cells[index] = cell

    def read(self):
        self.disk.read(self.base, 32)
        cells = []
        for index in range(len(self.cells)):
            copies = self.disk.read(self.at(32 + 68 * index), 68)
            counts = counting([copies[0:2], copies[34:36]])
            cells.append(copies[34 * counts + 2 : 34 * counts + 34])
        self.cells = cells


class Log(Store):
    def __init__(self, disk, version, cells):
        super().__init__(disk, version, cells)
        self.bank = 2242 + 32 * len(cells)
        closed = bytes(self.bank - 2 - 32 * len(cells))
        whole = self.header(2, version) + bytes([LIVE, 0]) + b"".join(cells) + closed + b"\0\2" + bytes(self.bank - 2)
        disk.now[self.base : self.base + len(whole)] = whole
        disk.synced[:] = disk.now

    def bank_at(self, number):
        return self.at(32 + self.bank * number)

    def place_at(self, bank, place):
        return self.bank_at(bank) + 2 + 32 * len(self.cells) + 35 * place

    def put(self, index, cell):
        now = self.disk.now
        banks = [now[self.bank_at(number) : self.bank_at(number) + 2] for number in (0, 1)]
        counts = counting(banks)
        free = next((it for it in range(64) if now[self.place_at(counts, it)] != LIVE), None)
        if free is not None:
            self.gated(self.place_at(counts, free), index.to_bytes(2, "big") + cell, False)
        else:
            cells = self.cells[:index] + [cell] + self.cells[index + 1 :]
            body = bytes([(banks[counts][1] + 1) % 3]) + b"".join(cells) + bytes(35 * 64)
            self.gated(self.bank_at(1 - counts), body, banks[1 - counts][0] == LIVE)
        self.cells[index] = cell

    def read(self):
        self.disk.read(self.base, 32)
        counts = counting([self.disk.read(self.bank_at(number), 2) for number in (0, 1)])
        at = self.bank_at(counts) + 2
        cells = [self.disk.read(at + 32 * index, 32) for index in range(len(self.cells))]
        live = True
        for place in range(64):
            record = self.disk.read(self.place_at(counts, place), 35)
            live = live and record[0] == LIVE
            if live:
                cells[int.from_bytes(record[1:3], "big")] = record[3:]
        self.cells = cells


# ---- nodes


def bound_cell(route, bound):
    return bytes([2, 1 if route["sends"] else 2]) + route["id"] + bound.to_bytes(8, "big") + bytes(20)


class Node:
    def __init__(self, table, kind, version):
        self.uid = bytes.fromhex(table["uid"])
        self.routes = [
            {
                "id": bytes.fromhex(route["id"]),
                "sends": route["direction"] == "send",
                "slot": route["slot"],
                "reserve": route.get("reserve", 1),
                "window": route.get("window", 256),
                "counter": int(route.get("start", "0"), 16),
            }
            for route in table.get("route", [])
        ]
        cells = [bytes(32)] * 14 + [bound_cell(route, route["counter"]) for route in self.routes]
        self.disk = Disk(65536)
        self.store = (Twin if kind == "twin" else Log)(self.disk, version, cells)
        self.down, self.booted = False, None

    def up(self):
        if self.down:
            raise Refused("Down")

    def put(self, index, cell):
        try:
            self.store.put(index, cell)
        except Failed:
            self.down = True
            raise Refused("MEMORY_FAILURE") from None

    def slot(self, number):
        """Key, counter and flags of a slot, or None where it is empty."""
        cell = self.store.cells[number]
        return (cell[6:22], int.from_bytes(cell[2:6], "big"), cell[1]) if cell[0] else None

    def key_for_macs(self, number):
        slot = self.slot(number)
        if slot is None:
            raise Refused("KEY_EMPTY")
        key, _, flags = slot
        if not flags & 2:
            raise Refused("KEY_INVALID")
        if flags & 8 and not self.booted:
            raise Refused("KEY_NOT_AVAILABLE")
        return key

    def route(self, data_id, sends):
        for place, route in enumerate(self.routes):
            if route["id"] == data_id and route["sends"] == sends:
                return 14 + place, route
        raise Refused("NoRoute")

    def bound(self, place):
        return int.from_bytes(self.store.cells[place][4:12], "big")

    def send(self, data_id, payload):
        self.up()
        place, route = self.route(data_id, True)
        if not 1 <= len(payload) <= 60:
            raise Refused("BadLength")
        key = self.key_for_macs(route["slot"])
        if route["counter"] == LAST:
            raise Refused("Exhausted")
        fresh = route["counter"] + 1
        if fresh > self.bound(place):
            self.put(place, bound_cell(route, min(self.bound(place) + route["reserve"], LAST)))
        route["counter"] = fresh
        whole = fresh.to_bytes(8, "big")
        return fresh, payload + whole[7:] + cmac(key, data_id + payload + whole)[:3]

    def receive(self, data_id, pdu):
        """The accepted freshness and payload, or the text of a failed verdict."""
        self.up()
        place, route = self.route(data_id, False)
        if not 5 <= len(pdu) <= 64:
            raise Refused("BadLength")
        key = self.key_for_macs(route["slot"])
        payload, low, tag = pdu[:-4], pdu[-4], pdu[-3:]
        ahead = range(route["counter"] + 1, route["counter"] + route["window"] + 1)
        fresh = next((it for it in ahead if it % 256 == low and it <= LAST), None)
        if fresh is None:
            return "FRESHNESSFAILURE"
        if cmac(key, data_id + payload + fresh.to_bytes(8, "big"))[:3] != tag:
            return "VERIFICATIONFAILURE"
        if fresh > self.bound(place):
            self.put(place, bound_cell(route, min(fresh + route["reserve"] - 1, LAST)))
        route["counter"] = fresh
        return fresh, payload

    def load(self, m1, m2, m3):
        self.up()
        slot, auth = m1[15] >> 4, m1[15] & 15
        by_itself = slot == auth and slot >= 2 and slot != 3
        if slot > 13 or auth > 13 or not (slot and auth == 1 or by_itself or slot == 3 and auth == 2):
            raise Refused("KEY_INVALID")
        target, authorising = self.slot(slot), self.slot(auth)
        if target and target[2] & 16:
            raise Refused("KEY_WRITE_PROTECTED")
        if authorising is None and auth != slot:
            raise Refused("KEY_EMPTY")
        if authorising and authorising[2] & 8 and not self.booted:
            raise Refused("KEY_NOT_AVAILABLE")
        auth_key = authorising[0] if authorising else FF
        head = cbc_decrypt(enc_key(auth_key), m2)
        first = int.from_bytes(head[:16], "big")
        counter, flags, new_key = first >> 100, first >> 95 & 31, head[16:]
        wildcard = m1[:15] == bytes(15) and not (target and target[2] & 1)
        known = m1[:15] == self.uid or wildcard
        rises = counter > (target[1] if target else 0)
        if cmac(mac_key(auth_key), m1 + m2) != m3 or not known or not rises:
            raise Refused("KEY_UPDATE_ERROR")
        self.put(slot, bytes([1, flags]) + counter.to_bytes(4, "big") + new_key + bytes(10))
        return reply(self.uid, slot, auth, counter, new_key)

    def boot(self, image):
        self.up()
        if self.booted is not None:
            raise Refused("SEQUENCE_ERROR")
        mac_slot, mac = self.slot(2), self.slot(3)
        if mac_slot is None or mac is None:
            raise Refused("NO_SECURE_BOOT")
        self.booted = mac[0] == boot_mac(mac_slot[0], image)
        return self.booted

    def cut(self, torn):
        self.disk.cut(torn)
        try:
            self.store.read()
        except Failed:
            self.down = True
            raise Refused("MEMORY_FAILURE") from None
        self.down, self.booted = False, None
        for place, route in enumerate(self.routes):
            route["counter"] = self.bound(14 + place)


# ---- a bus and its script


class Bus:
    def __init__(self, table):
        kind, version = table.get("store", "twin"), table.get("version", 1)
        self.nodes = {it["name"]: Node(it, kind, version) for it in table["node"]}
        self.sent, self.number = {}, 0

    def received(self, node, data_id, pdu):
        verdict = node.receive(data_id, pdu)
        if isinstance(verdict, str):
            return verdict
        fresh, payload = verdict
        same = (n for n, it in sorted(self.sent.items()) if (it[0], it[1], it[2][:-4]) == (data_id, fresh, payload))
        return f"accepted {data_id.hex()} {fresh:016x} {payload.hex()} from {next(same, 'none')}"

    def keyed(self, node, uid, slot, auth, auth_key, counter, flags, new_key):
        uid = node.uid if uid == "-" else bytes.fromhex(uid)
        auth_key, new_key = bytes.fromhex(auth_key), bytes.fromhex(new_key)
        node.load(*request(uid, int(slot), int(auth), auth_key, int(counter), int(flags, 2), new_key))
        return f"keyed {slot}"

    def done(self, event, name, *words):
        node = self.nodes[name]
        if event == "send":
            data_id = bytes.fromhex(words[0])
            fresh, pdu = node.send(data_id, octets(words[1]))
            self.sent[self.number] = (data_id, fresh, pdu)
            return f"sent {data_id.hex()} {fresh:016x} {pdu.hex()}"
        if event == "deliver":
            if int(words[0]) not in self.sent:
                return "no frame"
            data_id, _, pdu = self.sent[int(words[0])]
            return self.received(node, data_id, pdu)
        if event == "inject":
            return self.received(node, bytes.fromhex(words[0]), octets(words[1]))
        if event == "load":
            m4, m5 = node.load(*map(bytes.fromhex, words))
            return f"loaded {m4.hex()} {m5.hex()}"
        if event == "key":
            return self.keyed(node, *words)
        if event == "boot":
            return "boot ok" if node.boot(bytes.fromhex(words[0])) else "boot wrong"
        if event == "cut":
            node.cut(words[0])
            return "up"
        (node.disk.stop_at if event == "stop" else node.disk.fail_at)(int(words[0]))
        return "armed"

    def line(self, words):
        self.number += 1
        try:
            return f"{self.number} {self.done(*words)}"
        except Refused as refused:
            return f"{self.number} refused {refused}"


def octets(word):
    return b"" if word == "-" else bytes.fromhex(word)


# ---- drawn scripts

KINDS = ["send"] * 8 + ["deliver"] * 8 + ["inject", "load", "key", "key", "boot", "stop", "fail", "cut", "cut"]
KEYS = [bytes([it]) * 16 for it in range(2)]


class Script:
    """A script in which about all can happen: keys, sends, late and repeated deliveries, altered bytes, boots, stops, failures and cuts."""

    def __init__(self, seed, table):
        self.draw = random.Random(seed)
        self.nodes = table["node"]
        self.names = [node["name"] for node in self.nodes]
        self.routes = [(node["name"], route["id"], route["direction"]) for node in self.nodes for route in node.get("route", [])]
        self.sent = [0]

    def keyed(self):
        """Keys for each node: master keys, a boot MAC, and those of the routes."""
        for name in self.names:
            for slot, auth, auth_key in ((1, 1, FF), (2, 2, FF), (3, 2, KEYS[0]), (4, 4, FF), (5, 5, FF)):
                new_key = boot_mac(KEYS[0], b"\0") if slot == 3 else KEYS[0]
                yield f"key {name} - {slot} {auth} {auth_key.hex()} 1 00010 {new_key.hex()}"

    def routed(self, direction):
        """A node and a Data ID: mostly those of a route in this direction."""
        if self.draw.randrange(10) == 0:
            return self.draw.choice(self.names), self.draw.choice(self.routes)[1]
        return self.draw.choice([it[:2] for it in self.routes if it[2] == direction])

    def octets(self):
        length = self.draw.choice([1, 2, 8, 8, 60, 60, self.draw.choice([0, 61])])
        return self.draw.randbytes(length).hex() or "-"

    def update(self, kind, name, number):
        draw = self.draw
        slot = draw.choice([1, 2, 3, 4, 4, 5, 5, 14])
        auth = draw.choice([1, slot, slot, slot % 14])
        uid = bytes.fromhex(draw.choice(self.nodes)["uid"]) if draw.randrange(4) else bytes(15)
        counter, flags = number // 4 + draw.randrange(8), draw.choice([0b00010] * 9 + [0b01010, 0b00000, 0b00011])
        auth_key, new_key = draw.choice(KEYS), draw.choice(KEYS)
        if kind == "load":
            return f"load {name} " + " ".join(it.hex() for it in request(uid, slot, auth, auth_key, counter, flags, new_key))
        return f"key {name} - {slot % 14} {auth % 14} {auth_key.hex()} {counter} {flags:05b} {new_key.hex()}"

    def event(self, number):
        draw, kind, name = self.draw, self.draw.choice(KINDS), self.draw.choice(self.names)
        if kind == "send":
            self.sent.append(number)
            return "send {} {} {}".format(*self.routed("send"), self.octets())
        if kind == "deliver":
            return f"deliver {self.routed('receive')[0]} {max(1, draw.choice(self.sent[-4:] + [number]))}"
        if kind == "inject":
            return "inject {} {} {}".format(*self.routed("receive"), self.octets())
        if kind in ("load", "key"):
            return self.update(kind, name, number)
        if kind == "boot":
            return f"boot {name} {draw.choice(['00', 'ff00'])}"
        if kind == "cut":
            return f"cut {name} {draw.choice(['keep', 'old', 'half', 'a7', '00', 'ff', '%02x' % draw.randrange(256)])}"
        return f"{kind} {name} {draw.choice([1, 2, 3, 4, 5, 6, 7, 20, 90])}"

    def lines(self, count):
        first = list(self.keyed())
        return first + [self.event(number) for number in range(len(first) + 1, count + 1)]


def main(words):
    with open(words[3] if words[0] == "--make" else words[0], "rb") as file:
        table = tomllib.load(file)
    if words[0] == "--make":
        lines = Script(int(words[2]), table).lines(int(words[1]))
    else:
        bus = Bus(table)
        with open(words[1], encoding="utf-8") as file:
            script = [it.split() for it in file]
        lines = [bus.line(it) for it in script if it and not it[0].startswith("#")]
    sys.stdout.write("".join(f"{it}\n" for it in lines))


if __name__ == "__main__":
    main(sys.argv[1:])
