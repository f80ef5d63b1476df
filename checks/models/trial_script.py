#!/usr/bin/env python3
"""The events of `bus_replay trial`, drawn by another program, and the summary of a run.

It follows the rules of docs/formats.md: the generator of numbers, what each draw means, and what is counted. It knows
nothing of the programs and looks for no fault. A replay of the events it prints (by bus_model.py, or by the program)
gives the lines that it sums up. The rows of checks/rows/bus_replay_runs.toml and checks/chart take it.

trial_script.py BUS COUNT SEED: the canonical lines of the events.
trial_script.py summary: reads the lines of a replay and writes their summary.
"""
import sys

TORN = ["keep", "old", "half", "a7"]


def draws(state):
    while True:
        state = (state * 6364136223846793005 + 1442695040888963407) % 2**64
        yield state >> 33


def script(nodes, count, seed):
    draw = draws(seed).__next__
    key = lambda slot: "%02x" % slot * 16
    lines = [f"key {name} {uid} {slot} {slot} {'ff' * 16} 1 00010 {key(slot)}" for name, uid, _ in nodes for slot in range(4, 14)]
    senders = [(name, id) for name, _, routes in nodes for id, direction in routes if direction == "send"]
    ids = [id for _, _, routes in nodes for id, _ in routes]
    some = lambda least: "".join("%02x" % (draw() % 256) for _ in range(least + draw() % 8))
    for number in range(len(lines) + 1, len(lines) + count + 1):
        value = draw() % 16
        if value <= 6 and senders:
            name, id = senders[draw() % len(senders)]
            lines.append(f"send {name} {id} {some(1)}")
        elif value == 13 and ids:
            name = nodes[draw() % len(nodes)][0]
            id = ids[draw() % len(ids)]
            lines.append(f"inject {name} {id} {some(5)}")
        elif value <= 6 or value == 13:
            lines.append(f"deliver {nodes[0][0]} 1")
        elif value <= 12:
            name = nodes[draw() % len(nodes)][0]
            lines.append(f"deliver {name} {number - 1 - draw() % 8}")
        elif value == 14:
            name, uid, _ = nodes[draw() % len(nodes)]
            slot = 4 + draw() % 10
            lines.append(f"key {name} {uid} {slot} {slot} {key(slot)} {1 + draw() % 1000} 00010 {key(slot)}")
        else:
            what = draw() % 4
            name = nodes[draw() % len(nodes)][0]
            last = draw()
            if what <= 1:
                lines.append(f"cut {name} {TORN[last % 4]}")
            else:
                lines.append(f"{['stop', 'fail'][what - 2]} {name} {1 + last % 8}")
    return lines


def bus(path):
    """The nodes of a bus file with one key and value a line: name, identifier, and routes as Data ID and direction."""
    nodes = []
    for line in open(path):
        key, _, value = line.split("#")[0].partition("=")
        key, value = key.strip(), value.strip().strip('"')
        if key == "name":
            nodes.append((value, [], []))
        elif key == "uid":
            nodes[-1][1].append(value.lower())
        elif key == "id":
            nodes[-1][2].append([value.lower(), None])
        elif key == "direction":
            nodes[-1][2][-1][1] = value
    return [(name, uid[0], routes) for name, uid, routes in nodes]


def summary(lines):
    told = [line.split()[1] for line in lines]
    failures = told.count("FRESHNESSFAILURE") + told.count("VERIFICATIONFAILURE")
    counts = [("events", len(told)), ("sent", told.count("sent")), ("accepted", told.count("accepted")), ("failures", failures)]
    return counts + [("keyed", told.count("keyed")), ("cuts", told.count("up")), ("refused", told.count("refused"))]


if sys.argv[1] == "summary":
    print("\n".join(f"{name} {number}" for name, number in summary(sys.stdin)))
else:
    print("\n".join(script(bus(sys.argv[1]), int(sys.argv[2]), int(sys.argv[3]))))
