"""Routes of a store, and the image that a store is made with."""

from collections.abc import Iterable, Mapping
from ctypes import Array, c_char, create_string_buffer
from dataclasses import dataclass
from enum import IntEnum
from typing import Final, SupportsIndex

from . import _library
from ._arguments import Bytes, data_id_number, freshness_number, key_bytes, number, truth
from ._errors import OK, NoStore, WrongCell, raise_unless_ok
from ._updates import Flags, Update, make_update, request_struct

SLOT_CELLS: Final = 14
ROUTES_MOST: Final = 256
BOOT_MAC: Final = 3
RESERVE_MOST: Final = 128
HEADER: Final = 32
CELL: Final = 68
# what the header of a store of any kind and version begins with, and where one of version 2 stands
MAGIC: Final = b"SECOCST1"
VERSION_2: Final = 32768

Image = Array[c_char]


class Direction(IntEnum):
    """Which way a route goes."""

    SENDS = 1
    RECEIVES = 2


SENDS: Final = Direction.SENDS
RECEIVES: Final = Direction.RECEIVES


@dataclass(frozen=True, slots=True)
class Route:
    """A Data ID in one direction, with a counter of freshness of its own in the store.

    data_id: 16 bits
    direction: SENDS or RECEIVES
    slot: of its key, 4 to 13
    reserve: how far a write of the store moves the bound of the counter, 1 to 128. A store is written once for so
        many frames. After a restart a sender skips what it had reserved and not sent, and a receiver refuses it
    window: how far above its counter a receiver accepts freshness, 1 to 256: at least what its sender may skip
    start: the counter that the route is made with, 64 bits. It plays no part once the store is made
    nonces: it makes nonces for `Answers`, and sends nothing else. No PDU has its Data ID, no other unit names it so

    Reserve, window and slot may be others each time that a store is opened. TypeError, ValueError: a field is of
    another type, or outside its range.
    """

    data_id: int
    direction: Direction
    slot: int
    reserve: int = 1
    window: int = 256
    start: int = 0
    nonces: bool = False

    def __post_init__(self) -> None:
        for name, value in _fields_of(self).items():
            object.__setattr__(self, name, value)
        if truth("nonces", self.nonces) and self.direction != SENDS:
            raise ValueError("nonces: a route that sends is wanted")


def _fields_of(route: Route) -> dict[str, int]:
    return {
        "data_id": data_id_number(route.data_id),
        "direction": direction_of(route.direction),
        "slot": number("slot", route.slot, 4, SLOT_CELLS - 1),
        "reserve": number("reserve", route.reserve, 1, RESERVE_MOST),
        "window": number("window", route.window, 1, 256),
        "start": freshness_number("start", route.start),
    }


def direction_of(value: SupportsIndex) -> Direction:
    """SENDS or RECEIVES, or the number of one."""
    return Direction(number("direction", value, 1, 2))


def checked_routes(routes: Iterable[Route]) -> list[_library.RouteStruct]:
    """The structs of routes, in their order, each without a cell. ValueError: more than 256, or two of one kind."""
    structs: list[_library.RouteStruct] = []
    for route in routes:
        if not isinstance(route, Route):
            raise TypeError(f"routes: a Route is wanted, not {type(route).__name__}")
        fields = _fields_of(route)
        del fields["start"]
        # duty: a route of nonces sends nothing else
        structs.append(_library.RouteStruct(**fields, freshness_only=truth("nonces", route.nonces)))
        if len(structs) > ROUTES_MOST:
            raise ValueError(f"routes: at most {ROUTES_MOST} are wanted")
    # duty: one route for a Data ID and direction
    if len({(struct.data_id, struct.direction) for struct in structs}) < len(structs):
        raise ValueError("routes: two have the same Data ID and direction")
    return structs


def size_of(routes: int) -> int:
    """The size in bytes of a store with so many routes."""
    return HEADER + CELL * (SLOT_CELLS + routes)


def find_store(content: bytes) -> tuple[int, int] | None:
    """The size of the store with whose header these bytes begin, and the status of its check; None if there is none.

    The header counts the cells, so it is that of one size alone.
    """
    for routes in range(ROUTES_MOST + 1):
        size = size_of(routes)
        if size > len(content):
            return None
        status = _library.store_check(content, size)
        if status != NoStore.status:
            return size, status
    return None


def is_moved(content: bytes) -> bool:
    """Whether a store of version 2 stands there. What it was moved from, at byte 0, has old bounds and old keys."""
    return content.startswith(MAGIC, VERSION_2)


def may_be_made(content: bytes, image: bytes) -> bool:
    """Whether a new store with these bytes may be written: no store is there, or only what a cut left of this making.

    A cut within the last write, that of the header, leaves anything in it, also the header of another size. All after
    it is then as in a store that nobody has used: no bound and no key in use is ever made anew.
    """
    if is_moved(content) or content[:HEADER] == image[:HEADER]:
        return False
    found = find_store(content)
    if found is None and not content.startswith(MAGIC):
        return True
    is_other = found is not None and found[0] > len(image) and found[1] == OK
    return not is_other and content[HEADER : len(image)] == image[HEADER:]


def made_image(routes: Iterable[Route], keys: Mapping[int, Bytes]) -> bytes:
    """The bytes of a new store: a cell for each route, whose bound is its `start`, and these keys in their slots.

    A key of slot 4 to 13 is for MACs (`Flags.KEY_USAGE`), one of slot 1 or 2 has no flag; the counter of each is 1.
    """
    routes = list(routes)
    structs = checked_routes(routes)
    if not isinstance(keys, Mapping):
        raise TypeError(f"keys: a mapping of slots to keys is wanted, not {type(keys).__name__}")
    image = create_string_buffer(size_of(len(structs)))
    raise_unless_ok(_library.store_make(image, len(image)))
    for cell, (route, struct) in enumerate(zip(routes, structs, strict=True), SLOT_CELLS):
        # duty: one cell for a route, which no other route uses
        struct.cell = cell
        raise_unless_ok(_library.route_make(struct, freshness_number("start", route.start), image, len(image)))
    for slot, key in keys.items():
        if number("keys: slot", slot, 1, SLOT_CELLS - 1) == BOOT_MAC:
            raise ValueError("keys: slot 3 (BOOT_MAC) takes no key of its own")
        _put_first_key(image, slot, key_bytes("keys: key", key))
    return image.raw


def _put_first_key(image: Image, slot: int, key: bytes) -> None:
    """An empty slot takes a key that it authorises itself, with sixteen bytes ff."""
    uid, flags = bytes(14) + b"\1", Flags.KEY_USAGE if slot >= 4 else 0
    request = make_update(b"\xff" * 16, Update(uid, slot, slot, flags, 1, key))
    plan = _library.PlanStruct()
    raise_unless_ok(_library.slot_load(uid, 0, request_struct(request), image, len(image), plan))
    raise_unless_ok(_library.store_done(image, len(image), plan))


def open_route(struct: _library.RouteStruct, image: Image) -> None:
    """Finds the cell of a route, and sets its counter to the bound there.

    `WrongCell`: no cell is the bound of its Data ID and direction, or two are.
    """
    cells = []
    for cell in range(SLOT_CELLS, SLOT_CELLS + (len(image) - size_of(0)) // CELL):
        struct.cell = cell
        if _library.route_open(struct, image, len(image)) == OK:
            cells.append(cell)
    # duty: a route has the same cell in every life. It is the only one that keeps this Data ID and direction
    if len(cells) != 1:
        which = Direction(struct.direction).name.lower()
        route = f"the route that {which} under Data ID {struct.data_id:04x}"
        raise WrongCell(f"{len(cells)} cells of the store are of {route}, not 1")
    struct.cell = cells[0]
    # duty: each route is opened, with OK, before any other call
    raise_unless_ok(_library.route_open(struct, image, len(image)))
