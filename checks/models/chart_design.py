"""The picture of `chart`, drawn by another program: the run's sequence chart as an SVG.

It reads a bus file, a script and the lines of its replay, which it takes as they are. Every number in the picture is an
integer formula of a node (from 0), a row (from 1) and counts of letters. Every text in it is made of letters, digits,
space, `.`, `,`, `-` and `_`, so that nothing is to be escaped. It looks for no fault of its inputs. It made the charts
of examples/. checks/chart compares with it, byte for byte.

    chart_design.py BUS SCRIPT LINES
"""
import sys
import tomllib

# ---- the grid, in pixels

LEFT = 84      # the first lifeline; to its left stand the row numbers, and there begin the arrows from outside
LANE = 224     # from one lifeline to the next: 22, and the longest label, 28 letters
TOP = 96       # the title and the legend
HEAD = 36      # a header
BLOCK = 40     # rows from one header to the next
PITCH = 28     # a row


def x(node):                        # the lifeline of a node
    return LEFT + LANE * node


def head_top(block):                # the upper edge of a header, from 0
    return TOP + (HEAD + PITCH * BLOCK) * block


def row_top(row):                   # the upper edge of a row
    return TOP + HEAD * ((row - 1) // BLOCK + 1) + PITCH * (row - 1)


def y(row):                         # the axis of a row, on which its mark lies
    return row_top(row) + PITCH // 2


def gutter(row):                    # how far right of its lifeline the PDU of a row waits: three places in turn, beside the marks, not over them
    return 11 + 4 * (row % 3)


def head_count(rows):               # one header also where there is no row
    return max(rows - 1, 0) // BLOCK + 1


def bottom(rows):                   # where the lifelines end
    return TOP + HEAD * head_count(rows) + PITCH * rows + 4


def width(nodes):                   # the title and the legend take three lanes
    return LEFT + LANE * max(nodes, 3)


def height(rows):
    return bottom(rows) + 12


# ---- what a line shows: the class of its row, its label, and its mark

# A mark is one path, which begins at its place and goes on with one of these tails.
DISC = "m-7 0a7 7 0 1 0 14 0a7 7 0 1 0-14 0z"                 # sent
SQUARE = "m-6-6h12v12h-12z"                                   # keyed, loaded, boot ok
FLASH = "m5-14l-14 16h6l-4 12l14-16h-6z"                      # cut
TRIANGLE = "m0-12l12 21h-24zm0 7v6m0 3v2"                     # armed
BAR = "m-7-3h14v6h-14z"                                       # no frame
NO_ENTRY = "m-9 0a9 9 0 1 0 18 0a9 9 0 1 0-18 0m4 0h10"       # refused, boot wrong
TO_RIGHT = "m-8-5l8 5l-8 5"                                   # the head of an arrow from the left
TO_LEFT = "m8-5l-8 5l8 5"                                     # and from the right
CROSS = "m-6-6l12 12m0-12l-12 12"                             # instead of a head: the verdict fails
TAILS = {"sent": DISC, "done": SQUARE, "cut": FLASH, "armed": TRIANGLE, "nothing": BAR, "refused": NO_ENTRY}


def shown(event, words):
    """The class of a row and its label, from the words of the event and of its line behind the number."""
    kind = words[0]
    if kind == "sent":
        return "sent", f"sent {words[1]} ..{words[2][12:]}"
    if kind == "accepted" and words[5] == "none":
        return "forged", f"accepted {words[1]} from none"
    if kind == "accepted":
        return "taken", f"accepted {words[1]} from {words[5]}"
    if kind in ("FRESHNESSFAILURE", "VERIFICATIONFAILURE"):
        return "failed", kind + (f" of {event[2]}" if event[0] == "deliver" else "")
    if kind == "keyed" or words == ["boot", "ok"]:
        return "done", " ".join(words)
    if kind == "loaded":
        return "done", "loaded"
    if event[0] == "cut":
        return "cut", f"cut {event[2].lower()}, up" if kind == "up" else " ".join(words)
    if kind == "armed":
        return "armed", f"armed {event[0]} {event[2]}"
    if kind == "no":
        return "nothing", "no frame"
    return "refused", " ".join(words)       # and boot wrong


def source(event, words):
    """The number of the event that sent what this row receives, or none: it comes from outside."""
    if words[0] == "accepted":
        return None if words[5] == "none" else int(words[5])
    return int(event[2]) if event[0] == "deliver" else None


# ---- pieces of text

def path(d, kind=""):
    return f'<path{kind} d="{d}"/>'


def text(across, down, words, kind=""):
    return f'<text{kind} x="{across}" y="{down}">{words}</text>'


def arrow(begin, row, node, right, tail):
    """From a place in the row to the node's lifeline, or to a cross before it."""
    end = x(node) if tail != CROSS else x(node) - 11 if right else x(node) + 11
    return path(f"M{begin} {y(row)}H{end}{tail}")


def row_text(row, nodes, events, line):
    event, words = events[row - 1], line.split(" ")[1:]
    node = nodes.index(event[1])
    kind, label = shown(event, words)
    rise = 0
    if kind in TAILS:
        marks = path(f"M{x(node)} {y(row)}{TAILS[kind]}")
    else:
        sent = source(event, words)
        if sent is None:
            marks = path(f"M52 {row_top(row) + 8}v12") + arrow(52, row, node, True, CROSS if kind == "failed" else TO_RIGHT)
        else:
            sender = nodes.index(events[sent - 1][1])
            right = sender < node
            marks = (path(f"M{x(sender) + 6} {y(sent)}H{x(sender) + gutter(sent)}V{y(row)}", ' class="wait"')
                     + arrow(x(sender) + gutter(sent), row, node, right, CROSS if kind == "failed" else TO_RIGHT if right else TO_LEFT))
            rise = 0 if right else 9        # the label stands above an arrow from the right
    return (f'<g class="{kind}"><title>{line}</title><rect y="{row_top(row)}" width="100%" height="{PITCH}"/>'
            + text(44, y(row) + 4, row, ' class="number"') + marks + text(x(node) + 22, y(row) + 4 - rise, label) + "</g>\n")


def falls(words):
    """The node of this line is down behind it."""
    return words[0] == "refused" and words[1] in ("MEMORY_FAILURE", "NotFormatted", "Damaged", "BadSlot", "BadBound")


def life_text(node, nodes, events, lines):
    """The lifeline of a node: a path of where it is up, and one of where it is down; at a cut there is a gap."""
    up, on, off = True, f"M{x(node)} {TOP + 24}", ""
    for row, (event, line) in enumerate(zip(events, lines), 1):
        words = line.split(" ")[1:]
        if event[1] == nodes[node] and words == ["up"]:
            on, off = (on + f"V{y(row) - 14}", off) if up else (on, off + f"V{y(row)}")
            up, on = True, on + f"M{x(node)} {y(row) + 14}"
        elif event[1] == nodes[node] and up and falls(words):
            up, on, off = False, on + f"V{y(row)}", off + f"M{x(node)} {y(row)}"
    end = f"V{bottom(len(events))}"
    on, off = (on + end, off) if up else (on, off + end)
    return path(on, ' class="up"') + (path(off, ' class="down"') if off else "") + "\n"


def head_text(block, nodes):
    boxes = (f'<rect x="{x(i) - 4 * len(name) - 8}" y="{head_top(block) + 4}" width="{8 * len(name) + 16}" height="26" rx="4"/>'
             + text(x(i), head_top(block) + 21, name) for i, name in enumerate(nodes))
    return f'<g class="head">{"".join(boxes)}</g>\n'


STYLE = """<style>
svg{font:12px Menlo,Consolas,monospace;color:#1f2328}
text{fill:currentColor}
path{fill:none;stroke:currentColor;stroke-width:2}
rect{fill:none;pointer-events:all}
g:nth-of-type(2n) rect{fill:#8c959f;fill-opacity:.08}
.page{fill:#fff}
.name{font-size:16px;font-weight:bold}
.number{fill:#59636e;text-anchor:end}
.up{stroke:#8c959f}
.down{stroke:#8f0a1e;stroke-opacity:.5;stroke-width:20;stroke-dasharray:2 3}
.wait{stroke:#80b4f0}
.sent,.taken{color:#0969da}
.failed,.refused,.forged{color:#8f0a1e}
.cut,.armed{color:#8a4600}
.nothing{color:#59636e}
.sent path,.done path,.refused path,.cut path,.armed path,.nothing path{fill:currentColor;stroke:#fff}
.refused path,.armed path{stroke-width:3}
.forged path{stroke-width:4}
g.failed rect,g.forged rect{fill:#f00;fill-opacity:.12}
g.cut rect{fill:#f90;fill-opacity:.2}
g:hover rect{fill:currentColor;fill-opacity:.2}
g.head rect{fill:#eaeef2;fill-opacity:1;stroke:#8c959f}
.head text{font-weight:bold;text-anchor:middle}
@media(prefers-color-scheme:dark){
svg{color:#e6edf3}
.page{fill:#0d1117}
.number{fill:#9198a1}
.up{stroke:#656c76}
.down{stroke:#ff968e}
.wait{stroke:#2a5a9e}
.sent,.taken{color:#539bf5}
.failed,.refused,.forged{color:#ff968e}
.cut,.armed{color:#f0b429}
.nothing{color:#9198a1}
.sent path,.done path,.refused path,.cut path,.armed path,.nothing path{stroke:#0d1117}
g.head rect{fill:#262c36;stroke:#656c76}
}
</style>
"""

# The legend is a constant, one kind of mark a line
LEGEND = (
    '<g class="sent"><path d="M24 72' + DISC + '"/><text x="38" y="76">sent</text></g>\n'
    '<g class="taken"><path d="M84 72h28' + TO_RIGHT + '"/><text x="120" y="76">accepted</text></g>\n'
    '<g class="failed"><path d="M196 72h22' + CROSS + '"/><text x="232" y="76">verdict failed</text></g>\n'
    '<g><path d="M354 66v12"/><path d="M354 72h28' + TO_RIGHT + '"/><text x="390" y="76">from outside</text></g>\n'
    '<g class="refused"><path d="M504 72' + NO_ENTRY + '"/><text x="518" y="76">refused</text></g>\n'
    '<g class="cut"><path d="M596 72' + FLASH + '"/><text x="610" y="76">power cut</text></g>\n'
    '<path class="down" d="M702 60V84"/><text x="718" y="76">down</text>\n')


def chart(nodes, events, lines):
    rows, told = len(events), [line.split(" ")[1] for line in lines]
    counts = [("events", rows), ("sent", told.count("sent")), ("accepted", told.count("accepted")),
              ("failures", told.count("FRESHNESSFAILURE") + told.count("VERIFICATIONFAILURE")), ("keyed", told.count("keyed")),
              ("cuts", told.count("up")), ("refused", told.count("refused"))]
    size = f'width="{width(len(nodes))}" height="{height(rows)}"'
    return (f'<svg xmlns="http://www.w3.org/2000/svg" {size} viewBox="0 0 {width(len(nodes))} {height(rows)}">\n'
            "<title>A run of the bus</title>\n"
            "<desc>One lifeline a node, one row an event. An arrow leads from the row of what was sent, along the lifeline of "
            "its sender, to the receiver.</desc>\n"
            + STYLE + f'<rect class="page" {size}/>\n'
            + text(16, 28, "A run of the bus", ' class="name"') + text(16, 50, ", ".join(f"{word} {n}" for word, n in counts)) + "\n" + LEGEND
            + "".join(life_text(i, nodes, events, lines) for i in range(len(nodes)))
            + "".join(row_text(row, nodes, events, line) for row, line in enumerate(lines, 1))
            + "".join(head_text(block, nodes) for block in range(head_count(rows)))
            + "</svg>\n")


def picture(bus, script, lines):
    """The chart of a bus file, a script and the lines of its replay, each by the name of its file."""
    with open(bus, "rb") as f:
        nodes = [node["name"] for node in tomllib.load(f)["node"]]
    with open(script) as f:
        events = [words for words in (line.split() for line in f) if words and not words[0].startswith("#")]
    with open(lines) as f:
        return chart(nodes, events, f.read().splitlines())


if __name__ == "__main__":
    sys.stdout.write(picture(*sys.argv[1:]))
