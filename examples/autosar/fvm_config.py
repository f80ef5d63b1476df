#!/usr/bin/env python3
"""Writes FvM_Cfg.h and FvM_Routes.c: the routes of a freshness manager.

    fvm_config.py --arxml FILE CELLS FOLDER [NONCES]     from the ECU configuration of SecOC
    fvm_config.py --bus FILE NODE CELLS FOLDER [NONCES]  from a bus file of Rathonsi; its Data IDs are the freshness IDs

CELLS is a text file under version control, with a line `ID DIRECTION` for each cell; `#` begins a comment. A new route is
added at its end, and no line ever goes: a counter keeps its cell in all versions of the software. When the production line
begins, its last line becomes `made`: later software adds the cells after it to the stores that the line made.

NONCES is an ID that no PDU has, and that no other unit with the same key for answers names. A route of this ID counts the
nonces of questions. Without it a job of Csm draws them, or the unit asks nothing.

It checks everything before it writes anything, and prints the lines that it added to CELLS.
"""
import re
import sys
import tomllib
import xml.etree.ElementTree as ElementTree
from pathlib import Path

RESERVE = 32
WINDOW = 64
FIRST_CELL = 14
DIRECTIONS = {"send": "RATHONSI_SENDS", "receive": "RATHONSI_RECEIVES"}
PROCESSINGS = {"SecOCTxPduProcessing": "send", "SecOCRxPduProcessing": "receive"}
PROPAGATION = "SecOCVerificationStatusPropagationMode"
# With these values forged PDUs pass.
UNVERIFIED = {"SecOCIgnoreVerificationResult": ("true", "1"), "SecOCSecuredRxPduVerification": ("false", "0")}


def refuse(what):
    sys.exit(f"fvm_config: {what}")


def text_of(element, name):
    """The text of a part, without blanks, or "" if there is none."""
    found = element.find("{*}" + name)
    return "" if found is None or found.text is None else found.text.strip()


def last_part(element, name):
    """The last part of a reference, such as SecOCFreshnessValueId."""
    return text_of(element, name).rsplit("/", 1)[-1]


def number(where, name, text):
    """A whole number of an ARXML: decimal, 0x, 0b, or octal after a 0."""
    try:
        return int(text, 8) if re.fullmatch("0[0-7]+", text) else int(text, 0)
    except ValueError:
        return refuse(f"{where}: {name} is no whole number: {text!r}")


def route_of(where, direction, told):
    """The route of a PDU processing with these parameters."""

    def get(name, default=None):
        if name not in told and default is None:
            refuse(f"{where} has no {name}")
        return number(where, name, told[name]) if name in told else default

    identifier, bits = get("SecOCFreshnessValueId"), get("SecOCFreshnessValueLength")
    truncated = get("SecOCFreshnessValueTruncLength", bits)
    if get("SecOCAuthenticationBuildAttempts", 1) == 0:
        refuse(f"{where}: SecOCAuthenticationBuildAttempts is 0: a PDU that waits for its bound would be dropped")
    if truncated > bits:
        refuse(f"{where}: SecOCFreshnessValueTruncLength is {truncated}, more than the length, {bits}")
    if truncated < 3:
        refuse(f"{where}: {truncated} bits of truncated freshness tell too few values apart")
    if told.get("SecOCUseAuthDataFreshness", "false") not in ("false", "0"):
        refuse(f"{where}: SecOCUseAuthDataFreshness isn't served: it has to be false")
    if direction == "receive":
        # without successes no counter moves, and replays are accepted
        if told.get(PROPAGATION) != "BOTH":
            refuse(f"{where}: {PROPAGATION} is {told.get(PROPAGATION, 'missing')}: it has to be BOTH")
        if get("SecOCAuthenticationVerifyAttempts", 0) != 0:
            refuse(f"{where}: SecOCAuthenticationVerifyAttempts has to be 0: a PDU has one candidate")
    window = min(WINDOW, 2**truncated)
    return {
        "where": where,
        "id": identifier,
        "direction": direction,
        "bits": bits,
        "window": window,
        # what one start of a sender skips is within the window of its receivers
        "reserve": min(RESERVE, window // 2),
        "slot": "FVM_ANSWER_SLOT",
    }


def of_arxml(path):
    """The routes of the PDU processings of SecOC."""
    tree = ElementTree.parse(path)
    for value in tree.iterfind(".//{*}ECUC-NUMERICAL-PARAM-VALUE"):
        name = last_part(value, "DEFINITION-REF")
        if text_of(value, "VALUE") in UNVERIFIED.get(name, ()):
            refuse(f"{path}: {name} is {text_of(value, 'VALUE')}: SecOC would pass on PDUs that it didn't verify")
    for container in tree.iterfind(".//{*}ECUC-CONTAINER-VALUE"):
        direction = PROCESSINGS.get(last_part(container, "DEFINITION-REF"))
        if direction is not None:
            told = {
                last_part(value, "DEFINITION-REF"): text_of(value, "VALUE")
                for kind in ("NUMERICAL", "TEXTUAL")
                for value in container.findall(f"{{*}}PARAMETER-VALUES/{{*}}ECUC-{kind}-PARAM-VALUE")
            }
            yield route_of(f"{path}: {text_of(container, 'SHORT-NAME')}", direction, told)


def of_bus(path, name):
    """The routes of a node of a bus file."""
    bus = tomllib.loads(Path(path).read_text(encoding="utf-8"))
    nodes = [node for node in bus["node"] if node["name"] == name]
    if not nodes:
        refuse(f"{path} has no node {name}")
    for route in nodes[0]["route"]:
        yield {
            "where": f"{path}: ID {route['id']}",
            "id": int(route["id"], 16),
            "direction": route["direction"],
            "bits": 64,
            "window": route.get("window", WINDOW),
            "reserve": route.get("reserve", RESERVE),
            "slot": f"{route['slot']}u",
        }


def of_nonces(text):
    """The route that counts nonces."""
    return {
        "where": "NONCES",
        "id": number("NONCES", "the ID", text),
        "direction": "send",
        "bits": 64,
        "window": 1,
        "reserve": RESERVE,
        "slot": "FVM_ANSWER_SLOT",
    }


def check(routes):
    """Ends the program at the first route that isn't one."""
    seen = set()
    for route in routes:
        what = (route["id"], route["direction"])
        if what in seen:
            refuse(f"{route['where']}: ID {route['id']} stands twice as {route['direction']}")
        seen.add(what)
        limits = {"id": (0, 0xFFFF), "bits": (1, 64), "window": (1, 256), "reserve": (1, 128)}
        for name, (least, most) in limits.items():
            if not least <= route[name] <= most:
                refuse(f"{route['where']}: {name} is {route[name]}, not {least} to {most}")


def read_cells(path):
    """The cells of the file, and how many of them the production line made, or None."""
    cells, made = [], None
    lines = path.read_text(encoding="utf-8").splitlines() if path.exists() else []
    for place, line in enumerate(lines, 1):
        words = line.split("#")[0].split()
        if words == ["made"]:
            if made is not None:
                refuse(f"{path}:{place}: a second line `made`")
            made = len(cells)
        elif words:
            is_cell = len(words) == 2 and words[0].isascii() and words[0].isdigit() and words[1] in DIRECTIONS
            if not is_cell or int(words[0]) > 0xFFFF:
                refuse(f"{path}:{place}: not `ID send`, `ID receive` or `made`: {line.strip()}")
            cell = (int(words[0]), words[1])
            if cell in cells:
                refuse(f"{path}:{place}: the cell stands twice: {line.strip()}")
            cells.append(cell)
    return cells, made


def add_cells(cells, routes):
    """Gives each route its cell, a new one if it has none. The new ones."""
    added = []
    for route in routes:
        cell = (route["id"], route["direction"])
        if cell not in cells:
            cells.append(cell)
            added.append(cell)
        route["cell"] = FIRST_CELL + cells.index(cell)
    return added


def append(path, added):
    """Adds the lines of these cells to the file."""
    text = path.read_text(encoding="utf-8") if path.exists() else ""
    if text and not text.endswith("\n"):
        text += "\n"
    print(f"fvm_config: {path}{'' if path.exists() else ' is new'}: {len(added)} cells added")
    for identifier, direction in added:
        print(f"{identifier} {direction}")
        text += f"{identifier} {direction}\n"
    path.write_text(text, encoding="utf-8")


def row(route):
    """The row of a route in the table. A quarter of its reserve is kept ahead."""
    least = max(1, route["reserve"] // 4)
    return (
        f"    {{{route['id']}u, {route['cell']}u, {route['reserve']}u, {route['window']}u, {least}u, "
        f"(uint8){DIRECTIONS[route['direction']]}, {route['bits']}u, {route['slot']}}},\n"
    )


def main(words):
    match words:
        case ["--arxml", path, cells_path, folder, *nonces] if len(nonces) < 2:
            routes = list(of_arxml(path))
        case ["--bus", path, node, cells_path, folder, *nonces] if len(nonces) < 2:
            routes = list(of_bus(path, node))
        case _:
            sys.exit(__doc__)
    if not routes:
        refuse(f"{path} has no route")
    for nonce in map(of_nonces, nonces):
        if nonce["id"] in (route["id"] for route in routes):
            refuse(f"NONCES: ID {nonce['id']} is that of a PDU")
        routes.append(nonce)
    check(routes)
    cells, made = read_cells(Path(cells_path))
    added = add_cells(cells, routes)
    if not Path(folder).is_dir():
        refuse(f"{folder} is no folder")
    header = (Path(__file__).parent / "FvM_Cfg.h.in").read_text(encoding="utf-8")
    for name, count in (("ROUTES", len(routes)), ("CELLS", len(cells)), ("MADE", len(cells) if made is None else made)):
        header = header.replace(f"@{name}@", str(count))
    header = header.replace("@NONCES@\n", "".join(f"#define FVM_NONCE_ID {route['id']}u\n" for route in routes[-1:] if nonces))
    cell_rows = (f"    {{{identifier}u, (uint8){DIRECTIONS[direction]}}},\n" for identifier, direction in cells)
    if added:
        append(Path(cells_path), added)
    Path(folder, "FvM_Cfg.h").write_text(header, encoding="utf-8")
    Path(folder, "FvM_Routes.c").write_text(
        '/* Written by fvm_config.py. */\n#include "FvM_Cfg.h"\n\n'
        f"const FvM_RouteConfig FvM_Routes[FVM_ROUTES] = {{\n{''.join(row(route) for route in routes)}}};\n\n"
        f"const FvM_CellConfig FvM_Cells[FVM_CELLS] = {{\n{''.join(cell_rows)}}};\n",
        encoding="utf-8",
    )


if __name__ == "__main__":
    try:
        main(sys.argv[1:])
    except (OSError, ElementTree.ParseError, tomllib.TOMLDecodeError, UnicodeDecodeError) as fault:
        refuse(fault)
    except KeyError as fault:
        refuse(f"{sys.argv[2]}: {fault} is missing")
