#!/usr/bin/env python3
"""What `explain` prints, by the CMAC of Python's `cryptography`; and logs.

explain_model.py MAP LOG   what `explain MAP LOG` prints. It looks for no fault of the map
explain_model.py --log     a log of the frames that standard input names, a line each:
                           CAN KEY ID PAYLOAD FRESH [HOW..]. FRESH is a sum such as 70000+2. HOW is swap_id,
                           swap_freshness, no_id, short, last, turned_tag, turned_key, turned or cover=8 (how the PDU is
                           made), low=1 (added to the freshness byte), bit=19 (inverted), to=9 (cut short), more=3 (bytes
                           behind it), times=2 or classic. A line that begins with = is copied

checks/drawn imports it.
"""
import pathlib
import re
import sys

from cryptography.hazmat.primitives.ciphers.algorithms import AES
from cryptography.hazmat.primitives.cmac import CMAC

CLASSIC = rb"((?:[0-9A-Fa-f]{2}){0,8})|([0-9A-Fa-f]{16})_[9A-Fa-f]"
FRAME = re.compile(rb"([0-9A-Fa-f]{3}|[0-9A-Fa-f]{8})#(?:#[0-9A-Fa-f]((?:[0-9A-Fa-f]{2}){0,64})|" + CLASSIC + rb")")
KEPT = 65536
FAR = 65536


def cmac(key, message):
    mac = CMAC(AES(key))
    mac.update(message)
    return mac.finalize()


def covered(data_id, payload, freshness, swap_id=False, swap_freshness=False, no_id=False, short=False):
    """What the authenticator covers."""
    return (
        (b"" if no_id else data_id.to_bytes(2, "little" if swap_id else "big"))
        + payload
        + ((freshness & 0xFFFFFFFF).to_bytes(4) if short else freshness.to_bytes(8, "little" if swap_freshness else "big"))
    )


def tag_of(mac, last=False, turned_tag=False):
    """The three bytes of a CMAC that a PDU carries."""
    tag = mac[-3:] if last else mac[:3]
    return tag[::-1] if turned_tag else tag


def padded(payload, cover):
    """So many bytes of a payload and of zeros behind it."""
    return (payload + bytes(60))[:cover]


def pdu(key, data_id, payload, freshness, last=False, turned_tag=False, turned_key=False, turned=False, cover=None, low=0, **made):
    """A Secured PDU, made as the standard says or otherwise."""
    authentic = payload if cover is None else padded(payload, cover)
    mac = cmac(key[::-1] if turned_key else key, covered(data_id, authentic, freshness, **made))
    trailer = bytes([freshness + low & 0xFF]) + tag_of(mac, last, turned_tag)
    return trailer + payload if turned else payload + trailer


def inverted(data, bit):
    """The data with one bit inverted."""
    data = bytearray(data)
    data[bit // 8] ^= 1 << bit % 8
    return bytes(data)


class Line:
    """A line of a map."""

    def __init__(self, number, words):
        words = words[: next((at for at, word in enumerate(words) if word.startswith(b"#")), len(words))]
        self.number = number
        marks = [word for word in words if re.fullmatch(rb"optional|(every|silent|name)=.*", word)]
        self.optional = b"optional" in marks
        self.name = next((word[5:] for word in marks if word.startswith(b"name=")), words[0].lower())
        words = words[: len(words) - len(marks)]
        self.can = words[0].lower()
        self.data_id = int(words[1], 16)
        self.key = bytes.fromhex(words[2].decode())
        self.first = self.counter = int(words[3], 16)
        self.size = int(words[4])
        self.window = int(words[5]) if len(words) > 5 else 256
        self.channel = words[6] if len(words) > 6 and words[6] != b"-" else None


def map_of(text):
    lines = enumerate(text.split(b"\n"), 1)
    return [Line(number, line.split()) for number, line in lines if line.split() and not line.split()[0].startswith(b"#")]


class Found(Exception):
    """A reason that holds."""


class Search:
    """Looks for the reason of one frame, and counts the authenticators that it computes."""

    def __init__(self, mapping, accepted, line, data):
        self.mapping, self.accepted, self.line, self.data = mapping, accepted, line, data
        self.tries = 0

    def fits(self, reason, key, data_id, size, data, freshness, last=False, turned_tag=False, cover=None, any_low=False, **made):
        """Raises the reason if this frame verifies so."""
        if not 1 <= size <= 60 or len(data) < size + 4 or freshness >= 1 << 64:
            return
        if not any_low and freshness & 0xFF != data[size]:
            return
        self.tries += 1
        mac = cmac(key, covered(data_id, padded(data[:size], cover or size), freshness, **made))
        if data[size + 1 : size + 4] == tag_of(mac, last, turned_tag):
            raise Found(reason)

    def within(self, reason, line, data=None, **other):
        """The same with the freshness within the window of a line that the frame's low byte has."""
        size = other.pop("size", line.size)
        counter, window = other.pop("counter", line.counter), other.pop("window", line.window)
        key, data_id = other.pop("key", line.key), other.pop("data_id", line.data_id)
        data = self.data if data is None else data
        if len(data) < size + 4:
            return
        freshness = counter + 1 + (data[size] - counter - 1) % 256
        if freshness <= counter + window:
            self.fits(reason, key, data_id, size, data, freshness, **other)

    def all(self):
        own, data = self.line, self.data
        tag = data[own.size + 1 : own.size + 4]
        for name, same in (("replay of line", True), ("freshness used again: that of line", False)):
            for number, line, freshness, other in reversed(self.accepted[-KEPT:]):
                if line is own and (tag == other) == same:
                    self.fits(f"{name} {number}", own.key, own.data_id, own.size, data, freshness)
        # every 256th freshness has the low byte that the frame carries
        low = data[own.size] if own.size < len(data) else 0
        for steps in range((own.counter - low) % 256, min(FAR, own.counter + 1), 256):
            text = f"{steps} behind the last freshness"
            self.fits(text, own.key, own.data_id, own.size, data, own.counter - steps)
        beyond = own.window + 1
        for steps in range(beyond + (low - own.counter - beyond) % 256, beyond + FAR, 256):
            text = f"{steps} ahead: the window is {own.window}, {steps - own.window} frames were missed beyond it"
            self.fits(text, own.key, own.data_id, own.size, data, own.counter + steps)
        for size in range(1, 61):
            if size != own.size:
                self.within(f"verifies with a payload of {size}", own, size=size)
        others = [line for line in self.mapping if line is not own]
        for line in others:
            self.within(f"verifies as line {line.number}", line)
        for line in others:
            self.within(f"verifies with the key of line {line.number}", own, key=line.key)
        for line in others:
            self.within(f"verifies with the Data ID of line {line.number}", own, data_id=line.data_id)
        self.within("verifies with the Data ID's bytes in the other order", own, swap_id=True)
        self.within("verifies with the freshness's bytes in the other order", own, swap_freshness=True)
        self.within("verifies without the Data ID", own, no_id=True)
        self.within("verifies with a freshness of 32 bits", own, short=True)
        self.within("authenticator is the CMAC's last bytes", own, last=True)
        self.within("authenticator's bytes are in the other order", own, turned_tag=True)
        self.within("verifies with the key's bytes in the other order", own, key=own.key[::-1])
        if len(data) >= own.size + 4:
            turned = data[4 : own.size + 4] + data[:4]
            self.within("verifies with freshness and authenticator before the payload", own, data=turned)
        for cover in range(1, 61):
            if cover != own.size:
                self.within(f"authenticated length of the payload is {cover}", own, cover=cover)
        for steps in range(1, own.window + 1):
            text = f"freshness byte is another: ahead by {steps}"
            self.fits(text, own.key, own.data_id, own.size, data, own.counter + steps, any_low=True)
        for bit in range(8 * (own.size + 4)):
            if bit // 8 < len(data):
                self.within(f"bit {bit % 8} of byte {bit // 8} is flipped", own, data=inverted(data, bit))
        can = int(own.can, 16) & 0xFFFF
        if can != own.data_id:
            self.within("verifies with the CAN identifier as Data ID", own, data_id=can)

    def reason(self):
        try:
            self.all()
        except Found as found:
            hedge = "perhaps " if 1000 * self.tries > 1 << 24 else ""
            return f"{hedge}{found}, tries {self.tries}"
        if len(self.data) < self.line.size + 4:
            return f"too short for a payload of {self.line.size}, tries {self.tries}"
        return f"no reason found: key, or contents, tries {self.tries}"


def frame_of(line):
    """The identifier, channel and data of a line of a log; nothing if it has no data frame."""
    # space and tab stand between words, and one carriage return at the end of a line isn't looked at
    words = re.split(rb"[ \t]+", (line[:-1] if line.endswith(b"\r") else line).strip(b" \t"))
    if len(line) > 4096 or len(words) < 3 or not (words[0].startswith(b"(") and words[0].endswith(b")")):
        return None
    frame = FRAME.fullmatch(words[2])
    if not frame:
        return None
    return frame[1].lower(), words[1], bytes.fromhex((frame[2] or frame[3] or frame[4] or b"").decode())


def judged(map_text, log_text):
    """What `watch` answers to each frame that the map hears."""
    mapping, text = map_of(map_text), b""
    for number, line in enumerate(log_text.split(b"\n"), 1):
        can, channel, data = frame_of(line) or (None, None, None)
        own = next((it for it in mapping if it.can == can and it.channel in (None, channel)), None)
        if own is None:
            continue
        text += b"%d %s " % (number, own.name)
        if len(data) < own.size + 4:
            text += b"BadLength\n"
            continue
        freshness = own.counter + 1 + (data[own.size] - own.counter - 1) % 256
        if freshness > own.counter + own.window or freshness >= 1 << 64:
            text += b"FRESHNESSFAILURE\n"
        elif verifies(own, data, freshness):
            own.counter = freshness
            text += b"VERIFICATIONSUCCESS %016x %s\n" % (freshness, data[: own.size].hex().encode())
        else:
            text += b"VERIFICATIONFAILURE\n"
    return text


def explained(map_text, log_text):
    """What is printed, and the status."""
    mapping, accepted, text, failed = map_of(map_text), [], b"", False
    for number, line in enumerate(log_text.split(b"\n"), 1):
        frame = frame_of(line)
        if not frame:
            continue
        can, channel, data = frame
        own = next((l for l in mapping if l.can == can and l.channel in (None, channel)), None)
        if own is None:
            continue
        try:
            Search(mapping, accepted, own, data).within("", own)
        except Found:
            own.counter += 1 + (data[own.size] - own.counter - 1) % 256
            accepted.append((number, own, own.counter, data[own.size + 1 : own.size + 4]))
            continue
        failed = True
        reason = Search(mapping, accepted, own, data).reason()
        text += b"%d %s %s\n" % (number, own.name, reason.encode())
    heard = all(line.optional or line.counter > line.first for line in mapping)
    return text, 1 if failed else 0 if mapping and heard else 3


# ---- `explain --locate`


def frames_of(line, mapping, log_text):
    """The data of the first sixteen frames of a log that a line of a map hears."""
    found = []
    for text in log_text.split(b"\n"):
        frame = frame_of(text)
        if frame and next((l for l in mapping if l.can == frame[0] and l.channel in (None, frame[1])), None) is line:
            found.append(frame[2])
    return found[:16]


def verifies(line, data, freshness):
    size = line.size
    if len(data) < size + 4 or freshness >= 1 << 64 or freshness & 0xFF != data[size]:
        return False
    return data[size + 1 : size + 4] == cmac(line.key, covered(line.data_id, data[:size], freshness))[:3]


def next_of(line, counter, data):
    """The freshness with which a receiver accepts a frame; nothing if it doesn't."""
    return next((v for v in range(counter + 1, counter + 1 + line.window) if verifies(line, data, v)), None)


def located(line, frames, first, last):
    """The least freshness of a range with which the first frame verifies, and after which two others are accepted."""
    if not frames or len(frames[0]) < line.size + 4:
        return None
    for value in range(first + (frames[0][line.size] - first) % 256, last + 1, 256):
        if verifies(line, frames[0], value):
            counter, accepted = value, 0
            for frame in frames[1:]:
                following = next_of(line, counter, frame)
                if following is not None:
                    counter, accepted = following, accepted + 1
            if accepted >= 2:
                return value
    return None


def filled(map_text, log_text, first=1, last=1 << 32):
    """The map with each FRESH that is `?` filled in, and the status."""
    lines = map_text.split(b"\n")
    lines = lines[:-1] if lines[-1] == b"" else lines
    asks = [len(l.split()) >= 4 and l.split()[3] == b"?" and not l.split()[0].startswith(b"#") for l in lines]

    def put(line, fresh):
        return line.replace(b"?", fresh, 1)

    mapping = map_of(b"\n".join(put(l, b"0" * 16) if ask else l for l, ask in zip(lines, asks)))
    text, status = b"", 0
    for number, (line, ask) in enumerate(zip(lines, asks), 1):
        if ask:
            own = next(l for l in mapping if l.number == number)
            value = located(own, frames_of(own, mapping, log_text), first, last)
            status = 1 if value is None else status
            line = line if value is None else put(line, b"%016x" % (value - 1))
        text += line + b"\n"
    return text, status


def logged(text):
    """The lines of a log for a line that names a frame."""
    can, key, data_id, payload, fresh, *hows = text.split()
    how = dict(it.partition("=")[::2] for it in hows)
    names = ("swap_id", "swap_freshness", "no_id", "short", "last", "turned_tag", "turned_key", "turned")
    made = {name: True for name in names if name in how} | {name: int(how[name]) for name in ("cover", "low") if name in how}
    data = pdu(bytes.fromhex(key), int(data_id, 16), bytes.fromhex(payload), sum(int(it, 0) for it in fresh.split("+")), **made)
    data = inverted(data, int(how["bit"])) if "bit" in how else data
    data = data[: int(how.get("to", 64))] + bytes(int(how.get("more", 0)))
    return f"(1.0) can0 {can}{'#' if 'classic' in how else '##1'}{data.hex()}\n" * int(how.get("times", 1))


def main(words):
    if words == ["--log"]:
        for line in sys.stdin.read().splitlines():
            sys.stdout.write(line[1:] + "\n" if line.startswith("=") else logged(line))
    else:
        sys.stdout.buffer.write(explained(*(pathlib.Path(it).read_bytes() for it in words))[0])


if __name__ == "__main__":
    main(sys.argv[1:])
