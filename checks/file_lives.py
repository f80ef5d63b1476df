"""Lives of a node over one file: killed, cut off from power, and over a file that fails. What a program has printed is never taken back by the next.

checks/lives runs the three checks of this file, of `bus_replay node B F DISK`, and its own lives of three programs.

killed_node    kills it before, within and after calls of its file and lines that it prints
cut_file       makes of what it writes and syncs all kinds of files that a power cut may leave, at each moment of a
               script: what was synced, and of what wasn't each write whole, left out or torn
failing_file   lets each `pread`, `pwrite` and `fsync` fail in its turn, once and from then on, shortens each `pwrite`,
               lets each write a part and fail, and lets each `pread` give another byte than the file has

A life is a script over a bus of one node. models/unit_model.py judges what it prints. After it two next lives are asked,
one after the other: for a send, for PDUs that were accepted and a new one, and in each slot for an update with the
counter that it has and for one on each key that it may have.
"""

import hashlib
import itertools
import os
import pathlib
import random
import re
import shutil
import signal
import subprocess
import sys
import tempfile

TOP = pathlib.Path(__file__).resolve().parent.parent
sys.path.insert(0, str(TOP / "checks" / "models"))
from unit_model import BUS, EMPTY, HEARD_START, Hear, Key, Load, Other, Send, Unit  # noqa: E402

PROGRAM = os.environ.get("BUS_REPLAY", str(TOP / "crates/bus_replay/out/bus_replay"))
COMPILER = os.environ.get("CC", "cc")
SECONDS = 120
SIZE = 65536
HEARD_KEY = bytes.fromhex("2b7e151628aed2a6abf7158809cf4f3c")
# so much each PDU is above the one before it: more than a power cut may skip
APART = 9
LAYOUTS = {"twin": "", "log": 'store = "log"\n', "twin 2": "version = 2\n", "log 2": 'store = "log"\nversion = 2\n'}
HEADERS = {"twin": 0, "log": 0, "twin 2": 32768, "log 2": 32768}
MOVED = {"twin 2": "twin", "log 2": "log"}


def key_of(slot, counter):
    """The key of this update. That of slot 5 stays the one of the PDUs that are injected."""
    return HEARD_KEY if slot == 5 else bytes([slot, *counter.to_bytes(3, "big")]) * 4


class Script(list):
    """Events in order. `fresh` is the highest freshness of a PDU so far, and `counters` has those of the slots."""

    def __init__(self, fresh=HEARD_START, counters=()):
        super().__init__()
        self.fresh, self.counters = fresh, dict(counters)

    def send(self):
        self.append(Send(bytes([len(self) & 255] * 4)))

    def hear(self):
        self.fresh += APART
        self.append(Hear(self.fresh, HEARD_KEY, 6))

    def renew(self, slot, kind=Key):
        counter = self.counters[slot] = self.counters.get(slot, 0) + 1
        before = key_of(slot, counter - 1) if counter > 1 else EMPTY.key
        self.append(kind(slot, slot, before, counter, key_of(slot, counter)))

    def ask(self, *texts):
        self += map(Other, texts)


def long_script(rounds, before, cuts=()):
    """Sends and injected PDUs, and in each round an update of a slot in its turn, after the script `before`. After the
    first rounds there are `cuts`."""
    script = Script(before.fresh, before.counters)
    if not before.counters:
        script.renew(4)
        script.renew(5, Load)
    for number in range(rounds):
        script.send()
        script.hear()
        script.send()
        script.send()
        script.renew((6, 4, 13, 5)[number % 4], Load if number % 3 == 2 else Key)
        script.hear()
        script.ask(*cuts[number : number + 1])
    return script


def with_failures(script):
    """After a script: a send, an injected PDU and an update, in each of which a call of the disk fails, its first to its
    sixth; then a cut, and what puts the same cell again."""
    for number in range(1, 7):
        script.ask("cut unit keep", f"fail unit {number}")
        script.send()
        script.ask("cut unit old")
        script.send()
        script.ask(f"stop unit {number}")
        script.hear()
        script.ask("cut unit a7")
        script.hear()
        script.ask(f"{('stop', 'fail')[number % 2]} unit {number}")
        script.renew(6)
        script.ask("cut unit keep")
        script.append(script[-2])
        script.renew(6)


def probe(unit):
    """The script of a next life of a unit."""
    script = Script(unit.heard_most)
    script.send()
    last = (unit.heard - HEARD_START) // APART
    script += [Hear(HEARD_START + it * APART, HEARD_KEY, 6) for it in sorted({1, *range(max(1, last - 2), last + 1)}) if last]
    script.hear()
    for slot, there in sorted(unit.slots.items()):
        above = 1 + max(it.counter for it in there)
        script += [Load(slot, slot, it.key, it.counter, EMPTY.key) for it in there[:1] if it is not EMPTY]
        script += [Key(slot, slot, it.key, above + at, key_of(slot, above + at)) for at, it in enumerate(there) if above > 1]
    return script


def node_answers(lines, events):
    """The words after each number, of what was sent its PDU and then its freshness."""
    for number, line in enumerate(lines, 1):
        words = line.split()
        if words.pop(0) != str(number):
            raise ValueError(line)
        if words[0] == "sent":
            yield ["sent", words[3], words[2]]
        elif words[0] == "accepted":
            yield ["accepted", words[3]]
        else:
            yield words


def taken(unit, script, lines, may_fail=False, is_whole=False):
    """What is wrong with the lines of a life of `node`, of which the last ones may be missing."""
    try:
        answers = list(node_answers(lines, script))
    except (ValueError, IndexError) as fault:
        return [f"`{fault}` can't be read"]
    unit.stands |= lines != []
    return unit.live(script, answers, may_fail, is_whole)


class Room:
    """A folder with a bus file, a script and a disk, and the runs in it."""

    def __init__(self, folder, library):
        self.folder, self.library = pathlib.Path(folder), library
        self.bus, self.script, self.disk, self.record, self.log = (self.folder / name for name in ("bus", "script", "disk", "record", "log"))

    def put(self, image):
        """The disk is a file of these bytes, or isn't there."""
        if image is None:
            self.disk.unlink(missing_ok=True)
        else:
            self.disk.write_bytes(image)

    def run(self, script, **preload):
        """A life of `node`."""
        self.script.write_text("".join(it.for_node() + "\n" for it in script))
        return self.live([PROGRAM, "node", self.bus, self.script, self.disk], **preload)

    def live(self, words, given=subprocess.DEVNULL, **preload):
        """A run of a program over the disk: its status, its whole lines, and the last line of its standard error."""
        environment = dict(os.environ)
        if preload:
            environment |= {"LD_PRELOAD": self.library, "FILE_NAME": str(self.disk)} | {name: str(value) for name, value in preload.items()}
        try:
            run = subprocess.run(words, stdin=given, capture_output=True, env=environment, timeout=SECONDS)
        except subprocess.TimeoutExpired:
            return f"none in {SECONDS} seconds", [], ""
        said = run.stderr.decode(errors="replace").splitlines()
        return run.returncode, whole_lines(run.stdout), said[-1] if said else ""

    def ask(self, unit, torn=False):
        """What the next life over the disk, and the one after it, take back. If the first header may be torn and nothing
        was printed, the disk may be none of the node."""
        unit = unit.copied()
        for _ in range(2):
            script = probe(unit)
            status, lines, _ = self.run(script)
            if torn and not unit.stands and (status, lines) == (10, ["store: node 1: NotFormatted"]):
                return []
            wrong = all_done(script, status, lines) or taken(unit, script, lines)
            if wrong:
                return wrong
        return []

    def begin(self, layout, before):
        """The disk before the life that is looked at: none, one with a store of version 1, which that life is to move, or
        a log that is nearly full. Gives its bytes, the unit, and the script before."""
        self.put(None)
        unit, script = Unit(), Script()
        if before:
            self.bus.write_text(LAYOUTS[MOVED[layout] if before == "moved" else layout] + BUS)
            script = long_script(3, script)
            while before == "nearly full" and sum(isinstance(it, Hear) for it in script) < 52:
                script.hear()
            status, lines, said = self.run(script)
            if all_done(script, status, lines) or taken(unit, script, lines):
                raise SystemExit(f"the life before: status {status}, {lines[-1:]} {said}")
        self.bus.write_text(LAYOUTS[layout] + BUS)
        return self.disk.read_bytes() if before else None, unit, script

    def record_of(self, script, begun, **preload):
        """A life over these bytes, or over no file: its status, its lines, its moments, and how its record doesn't fit what it printed and left."""
        self.put(begun)
        status, lines, _ = self.run(script, FILE_RECORD=self.record, **preload)
        moments, disk, text = moments_in(self.record), bytearray(begun or bytes(SIZE)), b""
        for what, place, data in moments:
            if what == "w":
                disk[place : place + len(data)] = data
            elif what == "p":
                text += data
        wrong = [] if self.disk.exists() and self.disk.read_bytes() == disk else ["the file isn't what was recorded"]
        wrong += [] if whole_lines(text) == lines else [f"{len(lines)} lines, {len(whole_lines(text))} recorded"]
        return status, lines, moments, wrong


def whole_lines(text):
    return text[: text.rfind(b"\n") + 1].decode().splitlines()


def all_done(script, status, lines):
    return [] if status == 0 and len(lines) == len(script) else [f"status {status}, {len(lines)} lines for {len(script)}", *lines[-1:]]


class Checks:
    """How many were passed, and how many weren't."""

    def __init__(self, name):
        self.name, self.passed, self.failed = name, 0, 0

    def check(self, what, wrong):
        if not wrong:
            self.passed += 1
            return False
        self.failed += 1
        if self.failed <= 20:
            print(f"FAILED: {what}: " + "; ".join(wrong[:3]))
        return True

    def end(self):
        print(f"{self.name}: {self.passed} passed, {self.failed} failed")
        return 1 if self.failed else 0


def cases():
    """Each layout over a new file, version 2 over a file of version 1, and a log that becomes full."""
    made = [(layout, layout, None) for layout in LAYOUTS]
    return made + [(f"{layout}, moved", layout, "moved") for layout in MOVED] + [("log, nearly full", "log", "nearly full")]


# ---- killed_node


def killed_node(room, checks):
    draw = random.Random(1)
    for name, layout, before in cases():
        begun, unit, script = room.begin(layout, before)
        script = long_script(8, script)
        status, lines, moments, wrong = room.record_of(script, begun)
        if checks.check(f"{name}, whole", wrong + all_done(script, status, lines) + taken(unit.copied(), script, lines)):
            continue
        for _ in range(34):
            room.put(begun)
            at, how = draw.randint(1, len(moments)), draw.choice(["before", "within", "behind"])
            status, lines, _ = room.run(script, FILE_KILL_AT=at, FILE_KILL_HOW=how)
            now = unit.copied()
            wrong = [] if status == -9 else [f"status {status}"]
            wrong += taken(now, script, lines)
            torn = how == "within" and touches_header(HEADERS[layout], *moments[at - 1])
            checks.check(f"{name}, killed {how} moment {at}", wrong + room.ask(now, torn))


# ---- cut_file


def moments_in(path):
    """What file_record.c put down: the moments of a run in order, each a letter, a place and bytes."""
    whole, at, moments = path.read_bytes(), 0, []
    while at < len(whole):
        place, length = (int.from_bytes(whole[at + it : at + it + 8], "little") for it in (1, 9))
        moments.append((chr(whole[at]), place, whole[at + 17 : at + 17 + length]))
        at += 17 + length
    return moments


def touches_header(header, what, place, data):
    return what == "w" and place < header + 32 and header < place + len(data)


def tear(draw, disk, place, old, new):
    """Puts into `disk`, from `place` on, what a power cut may leave of a write: what was there, what was written, or either of them and other bytes."""
    how = draw.randrange(8)
    if how == 0:
        left = old
    elif how == 1:
        left = new
    else:
        there = {2: new, 3: old, 4: old, 5: new, 6: None, 7: None}[how]
        other = {2: old, 3: new, 4: b"\xa7" * len(new), 5: b"\0" * len(new), 6: b"\xa7" * len(new), 7: b"\0" * len(new)}[how]
        at = draw.randint(0, len(new))
        end = len(new) if how < 4 else draw.randint(at, len(new))
        left = other if there is None else there[:at] + other[at:end] + there[end:]
    disk[place : place + len(new)] = left


class Device:
    """What a power cut may leave of a file: all that was synced, and of what wasn't any part; and no file, until its folder was synced."""

    def __init__(self, begun):
        self.synced, self.there, self.loose = bytearray(begun or bytes(SIZE)), begun is not None, []

    def take(self, what, place, data):
        if what == "w":
            self.loose.append((place, data))
        elif what == "s":
            self.synced = self.with_loose(range(len(self.loose)))
            self.loose = []
        elif what == "f":
            self.there = True

    def with_loose(self, which):
        disk = bytearray(self.synced)
        for place, new in (self.loose[it] for it in which):
            disk[place : place + len(new)] = new
        return disk

    def header_is_loose(self, header):
        return any(touches_header(header, "w", place, new) for place, new in self.loose)

    def images(self, draw, many):
        if not self.there:
            yield None
        number = len(self.loose)
        whole = range(number + 1) if number <= 3 else (0, number)
        for which in itertools.chain.from_iterable(itertools.combinations(range(number), it) for it in whole):
            yield bytes(self.with_loose(which))
        for _ in range(many if number else 0):
            disk = bytearray(self.synced)
            for place, new in self.loose:
                tear(draw, disk, place, bytes(disk[place : place + len(new)]), new)
            yield bytes(disk)


class Cuts:
    """The power cuts of recorded lives."""

    def __init__(self, room, checks):
        self.room, self.checks, self.draw = room, checks, random.Random(2)

    def of_life(self, what, header, device, unit, script, moments, many):
        """Cuts the power after each moment of a life over this device, and asks over each file that may be left."""
        text, asked = b"", set()
        for number, (moment, place, data) in enumerate(moments, 1):
            device.take(moment, place, data)
            text += data if moment == "p" else b""
            if moment == "r":
                continue
            now = unit.copied()
            wrong = taken(now, script, whole_lines(text), may_fail=True)
            for image in device.images(self.draw, many):
                this = (hashlib.sha256(image or b"").digest(), len(text))
                if this not in asked:
                    asked.add(this)
                    self.room.put(image)
                    asks = self.room.ask(now, torn=device.header_is_loose(header))
                    self.checks.check(f"{what}, cut after moment {number}", wrong + asks)

    def of_case(self, name, layout, before, failures):
        room, header = self.room, HEADERS[layout]
        begun, unit, script = room.begin(layout, before)
        script = long_script(3, script)
        if failures:
            with_failures(script)
        status, lines, moments, wrong = room.record_of(script, begun)
        if not self.checks.check(f"{name}, whole", wrong + all_done(script, status, lines)):
            self.of_life(name, header, Device(begun), unit, script, moments, 10)

    def after_kills(self, name, layout, before):
        """The first life is killed after a write, so that bytes are loose which the second life reads; of that one the power is cut."""
        room, header = self.room, HEADERS[layout]
        begun, unit, script = room.begin(layout, before)
        script = long_script(2, script)
        status, lines, moments, wrong = room.record_of(script, begun)
        if self.checks.check(f"{name}, whole", wrong + all_done(script, status, lines)):
            return
        writes = [number for number, (what, _, _) in enumerate(moments, 1) if what == "w"]
        gates = [number for number in writes if moments[number - 1][2] == b"\xa7"]
        for at in sorted({*self.draw.sample(gates, 6), *self.draw.sample(writes, 4)}):
            what, now, device = f"{name}, killed after moment {at}", unit.copied(), Device(begun)
            status, lines, moments, wrong = room.record_of(script, begun, FILE_KILL_AT=at)
            wrong += taken(now, script, lines) + ([] if status == -9 else [f"status {status}"])
            for moment in moments:
                device.take(*moment)
            further = what_goes_on(script[len(lines)], now)
            status, lines, moments, unlike = room.record_of(further, room.disk.read_bytes())
            if status == 10 and not now.stands and device.header_is_loose(header):
                continue
            if not self.checks.check(f"{what}, gone on", wrong + unlike + all_done(further, status, lines)):
                self.of_life(what, header, device, now, further, moments, 4)


def what_goes_on(event, unit):
    """The script of a life after one that was killed within this event: the event once more, or one like it, so that the
    same cell is put; and others."""
    further = Script(unit.heard_most)
    if isinstance(event, Load):
        further.counters[event.slot] = event.counter
        further.append(event)
        further.renew(event.slot)
    elif isinstance(event, Hear):
        further.hear()
    further.send()
    further.hear()
    return further


def cut_file(room, checks):
    cuts = Cuts(room, checks)
    for name, layout, before in cases():
        cuts.of_case(name, layout, before, False)
        cuts.after_kills(name, layout, before)
        if before != "moved":
            cuts.of_case(f"{name}, failures", layout, before, True)


# ---- failing_file


def rightly_failed(whole, status, lines, again):
    """What is wrong with the answers of a life in which a call failed, where an unfailed one prints `whole`. Behind a cut the node may be up `again`."""
    if status == 10:
        return [] if lines == ["store: node 1: DiskFailed"] else lines[:1]
    if status or len(lines) != len(whole):
        return [f"status {status}, {len(lines)} lines for {len(whole)}"]
    first = next((it for it, line in enumerate(lines) if line.endswith(" refused MEMORY_FAILURE")), len(lines))
    wrong = [f"`{line}` in place of `{other}`" for line, other in zip(lines[:first], whole) if line != other]
    if first == len(lines):
        return [*wrong, "a failure that doesn't show"]
    down = re.compile(r"\d+ refused (Down|MEMORY_FAILURE)")
    back = next((it for it in range(first, len(lines)) if again and lines[it].endswith(" up")), len(lines))
    return wrong + [f"`{line}` of a node that is down" for line in lines[first:back] if not down.fullmatch(line)]


def failing_file(room, checks):
    for name, layout, before in cases():
        begun, unit, script = room.begin(layout, before)
        script = long_script(4, script, ("cut unit keep", "cut unit old"))

        def calls_of(**preload):
            room.put(begun)
            room.log.unlink(missing_ok=True)
            status, lines, _ = room.run(script, FILE_LOG=room.log, **preload)
            return status, lines, [line.split()[0] for line in room.log.read_text().splitlines()] if room.log.exists() else []

        status, whole, calls = calls_of()
        wrong = [] if {"pread", "pwrite", "fsync"} <= set(calls) else [f"calls of the file: {sorted(set(calls))}"]
        if checks.check(f"{name}, whole", wrong + all_done(script, status, whole) + taken(unit.copied(), script, whole)):
            continue
        first_read = 1 + calls.index("pread")
        for way, (at, call) in itertools.product(("FILE_FAIL_AT", "FILE_FAIL_ON", "FILE_SHORT_AT", "FILE_TORN_AT", "FILE_OTHER_AT"), enumerate(calls, 1)):
            if call != {"FILE_SHORT_AT": "pwrite", "FILE_TORN_AT": "pwrite", "FILE_OTHER_AT": "pread"}.get(way, call):
                continue
            status, lines, made = calls_of(**{way: at})
            now = unit.copied()
            if way == "FILE_SHORT_AT":
                wrong = [] if (status, lines) == (0, whole) else ["a write that is gone on with shows"]
            elif way == "FILE_OTHER_AT":
                # what the first read gives is held; where that byte is read no more nothing shows
                shows = at > first_read or (status, lines) != (0, whole)
                wrong = rightly_failed(whole, status, lines, again=False) if shows else []
                if at > first_read and made[at:]:
                    wrong.append(f"{len(made) - at} calls of a file that read otherwise, the first a {made[at]}")
            else:
                wrong = rightly_failed(whole, status, lines, again=(way, call) == ("FILE_FAIL_AT", "pread"))
                if call != "pread" and made[at:]:
                    wrong.append(f"{len(made) - at} calls of a file that failed, the first a {made[at]}")
            if status == 0:
                wrong += taken(now, script, lines, may_fail=True)
            checks.check(f"{name}, {way} {at} ({call})", wrong + room.ask(now))


# of each check the libraries of shims/ that are preloaded, and what it does
CHECKS = {
    "killed_node": (["file_record"], killed_node),
    "cut_file": (["file_record"], cut_file),
    "failing_file": (["failing_file"], failing_file),
}


def built(folder, names):
    """The libraries of shims/ with these names, as LD_PRELOAD has them."""
    for name in names:
        source = TOP / "checks" / "shims" / f"{name}.c"
        command = [COMPILER, "-O1", "-shared", "-fPIC", "-o", f"{folder}/{name}.so", source, "-ldl"]
        subprocess.run(command, check=True)
    return ":".join(f"{folder}/{name}.so" for name in names)


def over_disks(name, libraries, does):
    """Makes the checks of this name in a folder in memory, if there is one."""
    checks = Checks(name)
    memory = "/dev/shm" if os.access("/dev/shm", os.W_OK) else None
    # what ends it leaves no folder there
    signal.signal(signal.SIGTERM, lambda *_: sys.exit(143))
    if shutil.which(COMPILER):
        with tempfile.TemporaryDirectory(dir=memory) as folder:
            does(Room(folder, built(folder, libraries)), checks)
    else:
        print(f"skipped: {name}, since there is no {COMPILER}")
    return checks.end()
