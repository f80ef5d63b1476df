"""What one unit may print in its lives over one file: `bus_replay node`, `endpoint` and `keytool load`, cut off anywhere.

`Unit` takes the answers of a life and says what is wrong with them. Each frame that went out carries a freshness above
all before it, by no more than a power cut may skip. Each payload that was handed on is one that was injected, of a
freshness above all before it. Of each slot it knows which updates may stand in it, of which an answer leaves some.
checks/lives and checks/file_lives.py ask it. It has no code in common with the programs: CMAC is that of bus_model.py.
"""

import copy
import dataclasses
import functools

import bus_model

UID = "000000000000000000000000000001"
SENT, HEARD = "6bc1", "0303"
SENT_START, RESERVE = 0xE93D7E1173931729, 4
HEARD_START, HEARD_RESERVE, WINDOW = 0x00FF, 3, 256
SLOTS = (1, 4, 5, 6, 13)
KEY_USAGE = 2
BUS = f"""[[node]]
name = "unit"
uid = "{UID}"

[[node.route]]
id = "{SENT}"
direction = "send"
slot = 4
reserve = {RESERVE}
start = "{SENT_START:016x}"

[[node.route]]
id = "{HEARD}"
direction = "receive"
slot = 5
reserve = {HEARD_RESERVE}
start = "{HEARD_START:016x}"
"""
# payload lengths of a frame, and the CAN identifiers of those that are sent and that are received
SIZES = {4: ("123", "124"), 6: ("125", "126"), 20: ("18DAF110", "18DAF11F")}
FD_LENGTHS = (12, 16, 20, 24, 32, 48, 64)


def data_of(data, flags):
    """A frame's data as candump prints it, filled up to a length of CAN FD."""
    if len(data) <= 8:
        return "#" + data.hex().upper()
    return f"##{flags}" + data.ljust(next(it for it in FD_LENGTHS if it >= len(data)), b"\0").hex().upper()


@functools.cache
def asked(slot, auth, before, counter, key):
    """The three messages of an update."""
    return " ".join(it.hex() for it in bus_model.request(bytes.fromhex(UID), slot, auth, before, counter, KEY_USAGE, key))


@functools.cache
def replied(slot, auth, counter, key):
    """The two messages that answer it."""
    return tuple(it.hex() for it in bus_model.reply(bytes.fromhex(UID), slot, auth, counter, key))


# ---- what is asked in a life


@dataclasses.dataclass
class Send:
    payload: bytes

    def __str__(self):
        return f"the send of {self.payload.hex()}"

    def for_node(self):
        return f"send unit {SENT} {self.payload.hex()}"

    def for_endpoint(self, number):
        return f"({number}.0) app0 {SIZES[len(self.payload)][0]}{data_of(self.payload, 5)}"


@dataclasses.dataclass
class Hear:
    fresh: int
    key: bytes
    size: int

    def __str__(self):
        return f"the PDU of freshness {self.fresh:016x}"

    def __post_init__(self):
        whole = self.fresh.to_bytes(8, "big")
        self.payload = whole[-self.size :].rjust(self.size, b"\x5a")
        mac = bus_model.cmac(self.key, bytes.fromhex(HEARD) + self.payload + whole)
        self.pdu = self.payload + whole[7:] + mac[:3]

    def for_node(self):
        return f"inject unit {HEARD} {self.pdu.hex()}"

    def for_endpoint(self, number):
        return f"({number}.0) can0 {SIZES[self.size][1]}{data_of(self.pdu, 5)}"


@dataclasses.dataclass
class Load:
    slot: int
    auth: int
    before: bytes
    counter: int
    key: bytes

    def __str__(self):
        return f"the update {self.counter} of slot {self.slot}, authorised by {self.auth}"

    def words(self):
        return asked(self.slot, self.auth, self.before, self.counter, self.key)

    def for_node(self):
        return f"load unit {self.words()}"

    def for_endpoint(self, _):
        return f"load {self.words()}"


@dataclasses.dataclass
class Key(Load):
    """An update whose messages `node` makes itself."""

    def for_node(self):
        usage = f"{KEY_USAGE:05b}"
        return f"key unit - {self.slot} {self.auth} {self.before.hex()} {self.counter} {usage} {self.key.hex()}"


@dataclasses.dataclass
class Other:
    """A power cut in a script of `node`, or a call of its disk that is to stop or fail."""

    text: str

    def for_node(self):
        return self.text


EMPTY = Load(0, 0, b"", 0, b"\xff" * 16)


# ---- what was printed, and what may stand


class Unit:
    """What the lives over a file printed so far: the freshness that went out last and the one that was accepted last;
    how many sends came to nothing since, and the highest freshness that may have been accepted. For each slot the
    updates of which one stands there."""

    def __init__(self):
        self.sent, self.tried = SENT_START, 0
        self.heard = self.heard_most = HEARD_START
        self.slots = {slot: [EMPTY] for slot in SLOTS}
        # a life printed something: there is a store
        self.stands = False

    def copied(self):
        other = copy.copy(self)
        other.slots = {slot: list(there) for slot, there in self.slots.items()}
        return other

    def live(self, events, answers, may_fail=False, is_whole=True):
        """What is wrong with the answers of a life. One that isn't whole ended within the event after them."""
        wrong = [it for event, answer in zip(events, answers) for it in self.take(event, answer, may_fail)]
        if len(answers) < len(events) and not is_whole:
            self.is_under_way(events[len(answers)])
        return wrong

    def keys(self, slot):
        return [it for it in self.slots[slot] if it is not EMPTY]

    def takers(self, load):
        """The updates that may stand in the slot of a load and over which it is taken."""
        if load.auth != load.slot and not any(it.key == load.before for it in self.keys(load.auth)):
            return []
        below = [it for it in self.slots[load.slot] if it.counter < load.counter]
        return [it for it in below if load.auth != load.slot or it.key == load.before]

    def is_under_way(self, event):
        """The event may be done, or not: the life ended within it, or its disk failed."""
        if isinstance(event, Send):
            self.tried += 1
        if isinstance(event, Hear):
            self.heard_most = max(self.heard_most, event.fresh)
        if isinstance(event, Load) and self.takers(event):
            self.slots[event.slot].append(event)

    def take(self, event, answer, may_fail):
        """What is wrong with an answer: the words behind its number."""
        word, *rest = answer
        if answer == ["refused", "MEMORY_FAILURE"] and may_fail:
            self.is_under_way(event)
            return []
        if answer == ["refused", "Down"] and may_fail or isinstance(event, Other):
            return []
        done = {
            Send: ("sent", self.take_sent),
            Hear: ("accepted", self.take_heard),
            Load: ("loaded", self.take_load),
            Key: ("keyed", self.take_key),
        }
        name, taken = done[type(event)]
        wrong = taken(event, *rest) if word == name else self.take_refused(event, answer)
        return [f"{it}: {' '.join(answer)} for {event}" for it in wrong]

    def take_sent(self, event, data, told=None):
        pdu = bytes.fromhex(data)
        payload, low, tag = pdu[:-4], pdu[-4], pdu[-3:]
        most = self.sent + RESERVE * (1 + self.tried)
        values = [it for it in range(self.sent + 1, most + 1) if it % 256 == low]
        inputs = {it: bytes.fromhex(SENT) + payload + it.to_bytes(8, "big") for it in values}
        found = [(it, key) for it in values for key in self.keys(4) if bus_model.cmac(key.key, inputs[it])[:3] == tag]
        if payload != event.payload or not found or told not in (None, f"{found[0][0]:016x}"):
            return [f"no freshness above {self.sent:016x} and up to {most:016x} under a key that may stand"]
        self.sent, self.tried = found[0][0], 0
        self.slots[4] = [key for _, key in found]
        return []

    def take_heard(self, event, data):
        keys = [it for it in self.keys(5) if it.key == event.key]
        if data != event.payload.hex() or event.fresh <= self.heard or not keys:
            return [f"handed on behind {self.heard:016x}, or under a key that doesn't stand"]
        self.heard, self.heard_most = event.fresh, max(self.heard_most, event.fresh)
        self.slots[5] = keys
        return []

    def take_load(self, event, *reply):
        is_right = self.takers(event) and reply == replied(event.slot, event.auth, event.counter, event.key)
        self.slots[event.slot] = [event]
        return [] if is_right else ["another reply, or an update that can't be taken"]

    def take_key(self, event, *slot):
        is_right = self.takers(event) and slot == (str(event.slot),)
        self.slots[event.slot] = [event]
        return [] if is_right else ["another slot, or an update that can't be taken"]

    def take_refused(self, event, answer):
        """A refusal leaves those updates over which it is right. There is one at least."""
        slot = {Send: 4, Hear: 5}.get(type(event)) or event.slot
        if answer == ["refused", "KEY_EMPTY"]:
            slot = event.auth if isinstance(event, Load) else slot
            left = [it for it in self.slots[slot] if it is EMPTY]
        elif isinstance(event, Load) and answer == ["refused", "KEY_UPDATE_ERROR"]:
            if event.auth != slot and any(it.key != event.before for it in self.slots[event.auth]):
                return []
            takers = self.takers(event)
            left = [it for it in self.slots[slot] if it not in takers]
        elif isinstance(event, Hear) and answer in (["VERIFICATIONFAILURE"], ["FRESHNESSFAILURE"]):
            is_new = self.heard_most + HEARD_RESERVE <= event.fresh <= self.heard + WINDOW
            left = [it for it in self.keys(slot) if not is_new or it.key != event.key]
        else:
            left = []
        if not left:
            return [f"no update that may stand in slot {slot} answers so"]
        self.slots[slot] = left
        return []
