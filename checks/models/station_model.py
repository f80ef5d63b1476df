"""What `station slots` and `station ledger` print and leave, from docs/formats.md alone; checks/drawn asks it.

`slots`, `ledger`, `make`, `grow` and `adoption` take the bytes of the files that the arguments name, and the other
arguments. They give the status and the text, `make` and `grow` the store's bytes too, and `adoption` first the ledger's
places. A refusal is raised as `No`. Replies are made by bus_model (python3-cryptography).
"""

FLAGS = ("WRITE_PROTECTION", "BOOT_PROTECTION", "DEBUGGER_PROTECTION", "KEY_USAGE", "WILDCARD")
LIVE = 0xA7


class No(Exception):
    """A status and a text."""


def counting(first, second):
    """Which of two things, each a gate and a mark, counts: 0, 1 or None."""
    live = [thing[0] == LIVE for thing in (first, second)]
    if any(alive and thing[1] > 2 for alive, thing in zip(live, (first, second))) or not any(live):
        return None
    if all(live):
        if first[1] == second[1]:
            return None
        return 0 if first[1] == (second[1] + 1) % 3 else 1
    return 0 if live[0] else 1


def header(data, version):
    """Kind and number of cells of the store of this version, or None."""
    head = data[32768 * (version - 1):][:32]
    if len(head) == 32 and head[:8] == b"SECOCST1" and head[8] in (1, 2) and head[9] == version and not any(head[12:]):
        cells = int.from_bytes(head[10:12], "big")
        return (head[8], cells) if 1 <= cells <= 1024 else None
    return None


def standing(data):
    """Kind, version and number of cells of the store whose header stands, or None: that of version 2, or else that of version 1, whose number
    may be any."""
    high = header(data, 2)
    if high:
        return high[0], 2, high[1]
    head = data[:32]
    if head[:8] == b"SECOCST1" and head[8:9] in (b"\1", b"\2") and head[9:10] == b"\1" and head[12:] == bytes(20):
        return head[8], 1, int.from_bytes(head[10:12], "big")
    return None


def other_text(there):
    """What is said of a file in which another store stands than the one that is wanted, or none."""
    return f"store: {('twin', 'log')[there[0] - 1]} {there[1]} {there[2]}\n" if there else "store: NotFormatted\n"


def twin_cells(store, count):
    """The cells of a twin store; None for a damaged one."""
    cells = []
    for cell in range(count):
        copies = [store[at:at + 34] for at in (32 + 68 * cell, 66 + 68 * cell)]
        side = counting(*copies)
        cells.append(None if side is None else copies[side][2:])
    return cells


def log_cells(store, count):
    """The cells of a log store, or the number of what is damaged."""
    size = 2242 + 32 * count
    banks = [store[at:at + size] for at in (32, 32 + size)]
    side = counting(*banks)
    if side is None:
        return None, 0
    bank = banks[side]
    cells = [bank[2 + 32 * cell:34 + 32 * cell] for cell in range(count)]
    closed = False
    for place in range(64):
        record = bank[2 + 32 * count + 35 * place:][:35]
        if record[0] != LIVE:
            closed = True
            continue
        number = int.from_bytes(record[1:3], "big")
        if closed or number >= count:
            return None, place + 1
        cells[number] = record[3:]
    return cells, None


def found(data):
    """Kind, version, number of cells and bytes from the base on of the store that counts."""
    if len(data) < 32:
        raise No(9, "store: TooSmall\n")
    low, high = header(data, 1), header(data, 2)
    if high and (high == low or not low):
        kind, version, cells = high[0], 2, high[1]
    elif low:
        kind, version, cells = low[0], 1, low[1]
    else:
        raise No(9, "store: NotFormatted\n")
    if cells < 14:
        raise No(9, "store: too few cells\n")
    store = data[32768 * (version - 1):]
    if len(store) < (32 + 68 * cells if kind == 1 else 4516 + 64 * cells):
        raise No(9, "store: TooSmall\n")
    return kind, version, cells, store


def cells_of(kind, count, store):
    """The cells, None for a damaged one, and the first damaged number."""
    if kind == 2:
        return log_cells(store, count)
    cells = twin_cells(store, count)
    return cells, cells.index(None) if None in cells else None


def slot_of(cell):
    """None if it is no slot; () if it is empty; else flags, counter and key."""
    if not any(cell):
        return ()
    counter = int.from_bytes(cell[2:6], "big")
    if cell[0] != 1 or cell[1] >= 32 or counter >= 1 << 28 or any(cell[22:]):
        return None
    return cell[1], counter, cell[6:22]


def line_of(place, cell):
    """The line of a cell, and whether it holds what its place may."""
    if place < 14:
        slot = slot_of(cell)
        if slot is None:
            return f"cell {place} BadSlot\n", False
        if not slot:
            return f"slot {place} empty\n", True
        names = [name for bit, name in enumerate(FLAGS) if slot[0] >> (4 - bit) & 1]
        return " ".join([f"slot {place} filled {slot[1]}"] + names) + "\n", True
    if cell[0] != 2 or cell[1] not in (1, 2) or any(cell[12:]):
        return f"cell {place} BadBound\n", False
    return f"bound {place} {cell[2:4].hex()} {'sends' if cell[1] == 1 else 'receives'} {cell[4:12].hex()}\n", True


def finding(place, cell, routes):
    """The line of what is wrong with a cell, None for a damaged one; of routes, None if none are known."""
    if cell is None:
        return f"cell {place} Damaged\n"
    if routes is None or place < 14:
        line, good = line_of(place, cell)
        return "" if good else line
    if place - 14 >= len(routes):
        return f"cell {place} NoRoute\n"
    name, direction = routes[place - 14]
    if cell[:4] == bytes([2, direction]) + name and not any(cell[12:]):
        return ""
    return f"cell {place} BadBound {name.hex()} {'sends' if direction == 1 else 'receives'}\n"


def slots(name, data, values, routes=None, wanted=None):
    """What `slots NAME` prints of these bytes, and the status; of a check, over the routes of the unit's node, and kind and version of the store
    that it wants, or none."""
    if name == "reply":
        uid, slot, auth = bytes.fromhex(values[0]), int(values[1]), int(values[2])
        if slot == 0 or not (auth == 1 or (auth == 2 if slot == 3 else auth == slot)):
            raise No(1, "refused BadPair\n")
    kind, version, count, store = found(data)
    cells, damaged = cells_of(kind, count, store)
    head = f"store {('twin', 'log')[kind - 1]} {version} {count}\n"
    if name == "check":
        lines = [] if wanted in (None, (kind, version)) else [f"wanted {('twin', 'log')[wanted[0] - 1]} {wanted[1]} {14 + len(routes)}\n"]
        lines += [f"place {damaged} Damaged\n"] if cells is None else [finding(place, cell, routes) for place, cell in enumerate(cells)]
        lines += [f"route {it.hex()} {'sends' if direction == 1 else 'receives'} NoCell\n" for it, direction in (routes or [])[count - 14:]]
        return (1 if any(lines) else 0), head + "".join(lines)
    if damaged is not None:
        raise No(9, f"store: Damaged {damaged}\n")
    if name == "list":
        return 0, head + "".join(line_of(place, cell)[0] for place, cell in enumerate(cells))
    held = slot_of(cells[slot])
    if held is None:
        raise No(9, f"store: BadSlot {slot}\n")
    if not held:
        raise No(1, "refused KEY_EMPTY\n")
    import bus_model
    m4, m5 = bus_model.reply(uid, slot, auth, held[1], held[2])
    return 0, f"loaded {m4.hex()} {m5.hex()}\n"


def fresh(kind, version, cells):
    """The bytes of a fresh store of these cells."""
    head = b"SECOCST1" + bytes([kind, version]) + len(cells).to_bytes(2, "big") + bytes(20)
    if kind == 1:
        return head + b"".join(bytes([LIVE, 0]) + cell + bytes([LIVE, 2]) + cell for cell in cells)
    return head + bytes([LIVE, 0]) + b"".join(cells) + bytes(64 * 35) + bytes([0, 2]) + bytes(32 * len(cells) + 64 * 35)


def make(data, kind, version, routes):
    """What `slots make` makes of a disk of these bytes for a node: the status, the text, and the bytes. Kind and version are numbers; of
    each route of the bus its Data ID, direction and first bound."""
    count, base = 14 + len(routes), 32768 * (version - 1)
    if len(data) < base + (32 + 68 * count if kind == 1 else 4516 + 64 * count):
        raise No(9, "store: TooSmall\n")
    low, high = header(data, 1), header(data, 2)
    stands = (high if version == 2 else low) == (kind, count) and not (version == 1 and high == (kind, count))
    text = f"made {('twin', 'log')[kind - 1]} {version} {count}\n"
    if stands:
        cells, damaged = cells_of(kind, count, data[base:])
        if damaged is not None:
            raise No(9, f"store: Damaged {damaged}\n")
        for place, cell in enumerate(cells):
            if place < 14 and slot_of(cell) is None:
                raise No(9, f"store: BadSlot {place}\n")
            if place >= 14 and finding(place, cell, [route[:2] for route in routes]):
                raise No(9, f"store: BadBound {place}\n")
        return 0, text, data
    if any(data):
        raise No(9, other_text(standing(data)))
    cells = [bytes(32)] * 14 + [bytes([2, way]) + name + bound.to_bytes(8, "big") + bytes(20) for name, way, bound in routes]
    made = fresh(kind, version, cells)
    return 0, text, data[:base] + made + data[base + len(made):]


def grow(data, kind, version, routes):
    """What `slots grow` makes of a disk of these bytes: the status, the text, and the bytes. Kind and version are numbers, those that the bus
    wants; of each route of the bus its Data ID, direction and first bound."""
    wanted = 14 + len(routes)
    if len(data) < 32 + 68 * (wanted + 1):
        raise No(9, "store: TooSmall\n")
    there = standing(data)
    if there is None or there[:2] != (1, 1) or (kind, version) != (1, 1):
        raise No(9, other_text(there))
    number = there[2]
    erased = lambda at, size: data[at:at + size] in (bytes(size), b"\xff" * size)
    for place, cell in enumerate(twin_cells(data, 14)):
        if cell is None or slot_of(cell) is None:
            raise No(9, f"store: {'Damaged' if cell is None else 'BadSlot'} {place}\n")
    held = twin_cells(data, wanted)
    begins = [bytes([2, direction]) + name for name, direction, _ in routes]
    has = [cell is not None and cell[:4] == begin and not any(cell[12:]) for cell, begin in zip(held[14:], begins)]
    lacking = range((has + [False]).index(False), len(routes))
    for cell in (14 + place for place in lacking):
        at = 32 + 68 * cell
        if cell < number or data[at] == LIVE or not erased(at + 34, 34):
            raise No(9, f"store: BadBound {cell}\n")
    if not erased(32 + 68 * wanted, 68):
        raise No(9, "store: TooSmall\n")
    made = bytearray(data)
    for place in lacking:
        at = 32 + 68 * (14 + place)
        made[at:at + 34] = bytes([LIVE, 0]) + begins[place] + routes[place][2].to_bytes(8, "big") + bytes(20)
    made[10:12] = wanted.to_bytes(2, "big")
    return 0, f"grown twin 1 {wanted}\n", bytes(made)


def places_of(data):
    """The places of the ledger of these bytes, each None or UID, slot, counter, whether confirmed."""
    if len(data) < 32 + 68 * 256:
        raise No(9, "store: TooSmall\n")
    if header(data, 1) != (1, 256):
        raise No(9, "store: NotFormatted\n")
    cells = twin_cells(data, 256)
    if None in cells:
        raise No(9, f"store: Damaged {cells.index(None)}\n")
    places, seen = [None] * 256, set()
    for place, cell in enumerate(cells):
        if not any(cell):
            continue
        uid, slot, counter = cell[1:16], cell[16], int.from_bytes(cell[17:21], "big")
        if (cell[0] != 3 or not any(uid) or not 1 <= slot <= 13 or not 1 <= counter < 1 << 28 or cell[21] > 1
                or any(cell[22:]) or (uid, slot) in seen):
            raise No(9, f"store: BadEntry {place}\n")
        seen.add((uid, slot))
        places[place] = uid, slot, counter, bool(cell[21])
    return places


def entries_of(data):
    """The entries of the ledger of these bytes, in the order of their places."""
    return [entry for entry in places_of(data) if entry]


STATES = {False: "issued", True: "confirmed"}


def entry_text(entry):
    return f"{entry[0].hex()} {entry[1]} {entry[2]} {STATES[entry[3]]}"


def is_number(word, least, most):
    return word.isascii() and word.isdigit() and (word == "0" or word[0] != "0") and least <= int(word) <= most


def backup_line(words):
    """An entry, or a number for `end N`; ValueError with the cause."""
    if words[0] == "end":
        if len(words) != 2:
            raise ValueError("wrong number of words")
        if not is_number(words[1], 0, 65535):
            raise ValueError("word 2")
        return int(words[1])
    if len(words) != 4:
        raise ValueError("wrong number of words")
    uid, slot, counter, state = words
    if len(uid) != 30 or not all(it in "0123456789abcdefABCDEF" for it in uid) or int(uid, 16) == 0:
        raise ValueError("word 1")
    if not is_number(slot, 1, 13):
        raise ValueError("word 2")
    if not is_number(counter, 1, 2**28 - 1):
        raise ValueError("word 3")
    if state not in STATES.values():
        raise ValueError("word 4")
    return bytes.fromhex(uid), int(slot), int(counter), state == "confirmed"


def backup_of(data):
    """The entries of a whole backup."""
    found = []
    for number, line in enumerate(data.decode("latin-1").split("\n"), 1):
        words = line.removesuffix("\r").replace("\t", " ").split(" ")
        words = [word for word in words if word]
        if not words or words[0][0] == "#":
            continue
        try:
            found.append(backup_line(words))
        except ValueError as cause:
            raise No(4, f"script: line {number}: {cause}\n") from None
    entries = found[:-1]
    if not found or found[-1] != len(entries) or any(isinstance(it, int) for it in entries):
        raise No(4, "backup: not whole\n")
    return entries


def take_over(places, entries, strict):
    """The places after these entries were taken over, the status and the text."""
    places, lines, refused = list(places), [], False
    for entry in entries:
        unit = f"{entry[0].hex()} {entry[1]}"
        there = [place for place, held in enumerate(places) if held and held[:2] == entry[:2]]
        held = places[there[0]] if there else None
        if held is None and None not in places:
            lines.append(f"refused Full {unit}")
            refused = True
        elif held is None or held[2] < entry[2] or (held[2] == entry[2] and entry[3] and not held[3]):
            places[there[0] if there else places.index(None)] = entry
            lines.append(f"adopted {entry_text(entry)}")
        elif held[2] == entry[2]:
            lines.append(f"held {entry_text(entry)}")
        else:
            lines.append(f"ahead {unit} {held[2]}")
            refused = refused or strict
    return places, int(refused), "".join(f"{line}\n" for line in lines)


def adoption(name, disk, values, is_new):
    """The places of the ledger of these bytes after `ledger NAME`, the status and the text; values are bytes or words.

    With `--new` a blank disk is a ledger without entries."""
    if name == "adopt":
        entries = [(bytes.fromhex(values[0]), int(values[1]), int(values[2]), True)]
    else:
        entries = backup_of(values[0]) if name == "import" else entries_of(values[0])
    blank = is_new and len(disk) >= 32 + 68 * 256 and not any(disk[:32])
    return take_over([None] * 256 if blank else places_of(disk), entries, name == "adopt")


def ledger(name, files, values):
    """What `ledger NAME` prints of the bytes of these files, and the status."""
    entries = [entry for data in files for entry in entries_of(data)]
    if name == "show":
        unit = bytes.fromhex(values[0]), int(values[1])
        held = [entry for entry in entries if entry[:2] == unit]
        return (0, f"{STATES[held[0][3]]} {held[0][2]}\n") if held else (1, "none\n")
    lines = [f"{entry_text(entry)}\n" for entry in entries if name != "open" or not entry[3]]
    return 0, "".join(lines) + (f"end {len(lines)}\n" if name == "export" else "")
