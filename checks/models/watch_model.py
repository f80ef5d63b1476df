#!/usr/bin/env python3
"""What `watch` prints after its answers, as objects of JSON, and with times, computed by another program.

Nothing is judged here: the answers are given. It counts the frames of each line of the map by these answers, and the
other lines of a log by the forms of `candump -L` (docs/formats.md). Of these it makes the totals and the status. It
writes answers and totals again as objects, and puts the time and the channel before each answer. It looks for no fault
of the map. checks/test_rows.py takes it as a module, for the rows of checks/rows/watch.toml that have `judge`.
"""
import json
import re

TIME = rb"\([^ \t]*\)"
DATA = rb"([0-9A-Fa-f]{2}){0,8}|[0-9A-Fa-f]{16}_[9A-Fa-f]|#[0-9A-Fa-f]([0-9A-Fa-f]{2}){0,64}"
CLASSIC = re.compile(rb"([0-9A-Fa-f]{3}|[0-9A-Fa-f]{8})#(" + DATA + rb")")
MARK = re.compile(rb"optional|(every|silent|name)=.*")
REMOTE = re.compile(rb"([0-9A-Fa-f]{3}|[0-9A-Fa-f]{8})#R[^#]*|[0-9A-Fa-f]{5}#.*")
TOTAL = re.compile(r"line (\d+) (\S+) (\S+) accepted (\d+) failed (\d+) missed (\d+) last (\S+)")
COUNT = re.compile(r"(accepted|failed|unmapped|other frames|malformed) (\d+)")
SILENT = re.compile(r"silent line (\d+) (\S+) (\S+) from (\S+) to (\S+) limit (\S+)")
OVER = re.compile(r"over (?:line (\d+) (\S+) (\S+) )?(\S+) (\d+) limit (\d+)")
ANSWER = re.compile(rb'(\{"kind":"frame",)?(?:"frame":)?(\d+)[ ,]')


def map_lines(text):
    """The number, words, `optional`, head and own silence of each line of a map: the head is its name, or its CAN
    identifier. Five of its periods are a silence, if it tells no other."""
    lines = []
    for number, line in enumerate(text.split(b"\n"), 1):
        words = line.split()
        if not words or words[0].startswith(b"#"):
            continue
        words = words[: next((at for at, word in enumerate(words) if word.startswith(b"#")), len(words))]
        own = [word for word in words if not MARK.fullmatch(word)]
        marks = dict(word.partition(b"=")[::2] for word in words[len(own) :])
        silent = micros(marks[b"silent"]) if b"silent" in marks else 5 * micros(marks.get(b"every", b"0"))
        lines.append((number, own, b"optional" in marks, marks.get(b"name", words[0].lower()), silent or None))
    return lines


def words_of(line):
    """The words of a line of a log: space and tab stand between them, and one carriage return at its end is no word."""
    return [word for word in re.split(rb"[ \t]+", line[:-1] if line.endswith(b"\r") else line) if word]


def kind(words):
    """What a line is that no line of the map hears."""
    if len(words) < 3 or not re.fullmatch(TIME, words[0]):
        return "malformed"
    frame = CLASSIC.fullmatch(words[2])
    if not frame:
        return "other frames" if REMOTE.fullmatch(words[2]) else "malformed"
    identifier = int(frame[1], 16)
    if identifier <= (0x7FF if len(frame[1]) == 3 else 0x1FFFFFFF):
        return "unmapped"
    return "other frames" if len(frame[1]) == 8 and identifier < 0x40000000 else "malformed"


def micros(word):
    """A time of seconds in microseconds; None if it is none."""
    time = re.fullmatch(rb"([0-9]{1,12})(?:\.([0-9]*))?", word)
    return time and int(time[1]) * 10**6 + int(((time[2] or b"") + b"000000")[:6])


def seconds(time):
    return f"{time // 10**6}.{time % 10**6:06d}"


def longest(moments):
    """The first of the longest times between two moments in a row."""
    return max(zip(moments, moments[1:]), key=lambda it: it[1] - it[0], default=(0, 0))


def limits_of(options):
    """What each of these words of a command line allows at most; None if it is no limit."""
    given = {"missed": None, "missed-share": None, "malformed": None, "unmapped": None, "silent": None}
    for at, word in enumerate(options):
        if word == "--unmapped":
            given["unmapped"] = 0
        elif word == "--silent":
            given["silent"] = micros(options[at + 1].encode())
        elif word[2:] in given:
            given[word[2:]] = int(options[at + 1])
    if "--strict" in options:
        for name in ("malformed", "unmapped", *(["missed"] if given["missed-share"] is None else [])):
            given[name] = given[name] or 0
        given["silent"] = given["silent"] or 5 * 10**6
    return given


def over_lines(limits, counts, what=""):
    """A line for each number that is more than its limit."""
    return "".join(
        f"over {what}{name} {number} limit {limits[name]}\n"
        for name, number in counts.items()
        if limits[name] is not None and number > limits[name]
    )


def totals(map_text, log_text, answers, options=()):
    """The text behind these answers, and the status."""
    mapping = map_lines(map_text)
    answered = {int(words[0]): words for words in map(bytes.split, answers.splitlines())}
    accepted, failed = [0] * len(mapping), [0] * len(mapping)
    last = [int(words[3], 16) for _, words, *_ in mapping]
    others = {"unmapped": 0, "other frames": 0, "malformed": 0}
    moments, heard = [], [[] for _ in mapping]
    for number, line in enumerate(log_text.split(b"\n"), 1):
        words = words_of(line)
        known = number in answered or words and not words[0].startswith(b"#") and kind(words) != "malformed"
        time = micros(words[0][1:-1]) if known and len(line) <= 4096 else None
        if time is not None:
            moments.append(max([time, *moments[-1:]]))
        if len(line) > 4096:
            others["malformed"] += 1
        elif not words or words[0].startswith(b"#"):
            continue
        elif number in answered:
            answer = answered[number]
            place = next(
                at
                for at, (_, entry, _, head, _) in enumerate(mapping)
                if head == answer[1] and (len(entry) < 7 or entry[6] in (b"-", words[1]))
            )
            if answer[2] == b"VERIFICATIONSUCCESS":
                accepted[place] += 1
                last[place] = int(answer[3], 16)
                heard[place] += moments[-1:] if time is not None else []
            else:
                failed[place] += 1
        else:
            others[kind(words)] += 1
    text, over, limits = "", "", limits_of(options)
    for place, (number, words, optional, head, own) in enumerate(mapping):
        values = last[place] - int(words[3], 16)
        missed = values - accepted[place]
        share = -(-100 * missed // values) if values else 0
        what = f"line {number} {head.decode()} {words[1].decode().lower()} "
        over += over_lines(limits, {"missed": missed, "missed-share": share}, what)
        begin, end = longest([moments[0], *heard[place], moments[-1]]) if moments else (0, 2**64 - 1)
        limit = own or limits["silent"]
        if limit is not None and not optional and end - begin >= limit:
            over += f"silent {what}from {seconds(begin)} to {seconds(end)} limit {seconds(limit)}\n"
        text += f"line {number} {head.decode()} {words[1].decode().lower()} accepted {accepted[place]}"
        text += f" failed {failed[place]} missed {missed} last {last[place]:016x}\n"
    text += f"accepted {sum(accepted)}\nfailed {sum(failed)}\n"
    text += "".join(f"{name} {count}\n" for name, count in others.items())
    over += over_lines(limits, {name: others[name] for name in ("malformed", "unmapped")})
    silent = not mapping or any(not line[2] and not accepted[at] for at, line in enumerate(mapping))
    return (text + over).encode(), 1 if sum(failed) else 3 if silent or over else 0


def object_of(line, identifiers):
    """The object of an answer, of a line of the map, or of what is over its limit. `identifiers` has the CAN identifier
    of each line of the map by its number."""
    total, over = TOTAL.fullmatch(line), OVER.fullmatch(line)
    if total:
        number, name, data_id, accepted, failed, missed, last = total.groups()
        counts = {"accepted": int(accepted), "failed": int(failed), "missed": int(missed)}
        head = {"line": int(number), "name": name, "can": identifiers[int(number)], "id": data_id}
        return {"kind": "line", **head, **counts, "last": last}
    if over:
        number, name, data_id, what, count, limit = over.groups()
        head = {"line": int(number), "name": name, "can": identifiers[int(number)], "id": data_id} if number else {}
        return {"kind": "over", **head, "what": what, "number": int(count), "limit": int(limit)}
    silent = SILENT.fullmatch(line)
    if silent:
        number, name, data_id, begin, end, limit = silent.groups()
        head = {"line": int(number), "name": name, "can": identifiers[int(number)], "id": data_id}
        return {"kind": "silent", **head, "from": begin, "to": end, "limit": limit}
    number, name, verdict, *accepted = line.split()
    values = dict(zip(("freshness", "payload"), accepted))
    return {"kind": "frame", "frame": int(number), "name": name, "verdict": verdict, **values}


def objects(text, map_text):
    """What `watch --json` prints in the place of a text of `watch`: the five numbers are one object."""
    identifiers = {number: words[0].decode().lower() for number, words, *_ in map_lines(map_text)}
    told, counts = [], {}
    for line in text.decode().splitlines():
        count = COUNT.fullmatch(line)
        if not count:
            told.append(object_of(line, identifiers))
            continue
        if not counts:
            counts["kind"] = "log"
            told.append(counts)
        counts[count[1].replace(" ", "_")] = int(count[2])
    return "".join(json.dumps(it, separators=(",", ":")) + "\n" for it in told).encode()


def string(word):
    """A word as a string of JSON has it: all but printed ASCII by the number of its byte."""
    return "".join(chr(it) if 32 <= it < 127 and it not in b'"\\' else f"\\u{it:04x}" for it in word).encode()


def timed(text, log_text):
    """What `--time` makes of a text of `watch` or `watch --json`: before each answer stand the first two words of its
    line of the log, or they stand behind the kind of its object."""
    log, lines = log_text.split(b"\n"), []
    for line in text.splitlines(keepends=True):
        answer = ANSWER.match(line)
        if answer:
            time, channel = re.split(rb"[ \t]+", log[int(answer[2]) - 1].strip(b" \t"))[:2]
            if answer[1]:
                line = b'%b"time":"%b","channel":"%b",%b' % (
                    answer[1], string(time[1:-1]), string(channel), line[len(answer[1]) :]
                )
            else:
                line = b"%b %b %b" % (time, channel, line)
        lines.append(line)
    return b"".join(lines)
