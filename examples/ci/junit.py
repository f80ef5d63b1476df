#!/usr/bin/env python3
"""junit.py MAP [EXPLAINED] <watch.jsonl >junit.xml: what `watch --quiet --json` printed, as a JUnit report for a CI's page.

Each line of the map is a test case, and so is the whole log. A case fails if a frame of its line failed, if it accepted
none although it isn't optional, if it was silent too long, or if a limit is exceeded. EXPLAINED is what `explain` printed over the same map and log:
its reasons stand with the frames. The status is 0 if no case fails, else 1; 2 if the totals of `watch` aren't there.
"""
import json
import sys
import xml.etree.ElementTree as tree


def reasons_in(path):
    """What `explain` says of each frame, by the number of its line in the log."""
    with open(path, encoding="utf-8") as file:
        return {int(line.split()[0]): line.split(maxsplit=2)[2].strip() for line in file if line.strip()}


def optional_in(path):
    """The numbers of the map's lines that are optional."""
    with open(path, encoding="utf-8") as file:
        words = {number: line.partition(" #")[0].split() for number, line in enumerate(file, 1)}
    return {number for number, line in words.items() if "optional" in line[5:]}


def over_text(it):
    if it["kind"] == "silent":
        return f"silent from {it['from']} to {it['to']}, limit {it['limit']}"
    return f"over its limit: {it['what']} {it['number']}, limit {it['limit']}"


def report(objects, optional, reasons):
    """The report's element, and how many cases fail."""
    frames = [it for it in objects if it["kind"] == "frame" and it["verdict"] != "VERIFICATIONSUCCESS"]
    over = [it for it in objects if it["kind"] in ("over", "silent")]
    suite = tree.Element("testsuite", name="rathonsi.watch")
    failures = 0
    for it in objects:
        if it["kind"] not in ("line", "log"):
            continue
        is_line = it["kind"] == "line"
        name = f"{it['name']} ({it['can']}, Data ID {it['id']})" if is_line else "the whole log"
        case = tree.SubElement(suite, "testcase", classname="rathonsi.watch", name=name)
        own = [at for at in over if at.get("line") == it.get("line")]
        wrong = [over_text(at) for at in own]
        if is_line and it["failed"]:
            wrong.insert(0, f"{it['failed']} frames failed")
        if is_line and not it["accepted"] and it["line"] not in optional:
            wrong.insert(0, "no frame was accepted")
        if wrong:
            failures += 1
            said = [f"line {at['frame']}: {at['verdict']} {reasons.get(at['frame'], '')}".strip() for at in frames]
            named = [text for text, at in zip(said, frames) if is_line and at["name"] == it["name"]]
            tree.SubElement(case, "failure", message="; ".join(wrong)).text = "\n".join(named)
        tree.SubElement(case, "system-out").text = json.dumps({key: value for key, value in it.items() if key != "kind"})
    suite.set("tests", str(len(suite)))
    suite.set("failures", str(failures))
    return suite, failures


def main(words):
    objects = [json.loads(line) for line in sys.stdin if line.strip()]
    if not any(it.get("kind") == "log" for it in objects):
        print("junit.py: no totals: did watch end?", file=sys.stderr)
        return 2
    suite, failures = report(objects, optional_in(words[0]), reasons_in(words[1]) if words[1:] else {})
    print('<?xml version="1.0" encoding="UTF-8"?>')
    print(tree.tostring(suite, encoding="unicode"))
    return 1 if failures else 0


if __name__ == "__main__":
    sys.exit(main(sys.argv[1:]))
