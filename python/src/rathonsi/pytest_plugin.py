"""A fixture of pytest: secured buses whose stores are in `tmp_path`.

An installed wheel has it for each pytest. Elsewhere it is `-p rathonsi.pytest_plugin`.
"""

from __future__ import annotations

from collections.abc import Callable, Iterator, Sequence
from contextlib import ExitStack
from pathlib import Path
from typing import TYPE_CHECKING, Protocol

import pytest

from ._files import FileStore, make_file_store
from ._routes import Route

if TYPE_CHECKING:
    from can.bus import BusABC
    from can.message import Message

    from ._errors import Refused
    from .can import Frame, SecuredBus


class MakesSecuredBus(Protocol):
    """What the fixture `secured_bus` gives."""

    def __call__(
        self,
        frames: Sequence[Frame],
        key: bytes,
        bus: BusABC | None = None,
        on_refused: Callable[[Message, Refused], object] | None = None,
    ) -> SecuredBus:
        """A secured bus over `bus`, or over a virtual one that all those of a test share.

        Its store is a new file in `tmp_path`, with a route for each Data ID and direction of `frames` and this key of
        16 bytes. The test's end shuts it down and closes its store.
        """


@pytest.fixture
def secured_bus(tmp_path: Path) -> Iterator[MakesSecuredBus]:
    """Makes secured buses: see `MakesSecuredBus`."""
    can = pytest.importorskip("can")
    from .can import SecuredBus

    with ExitStack() as stack:
        count = 0

        def make(
            frames: Sequence[Frame],
            key: bytes,
            bus: BusABC | None = None,
            on_refused: Callable[[Message, Refused], object] | None = None,
        ) -> SecuredBus:
            nonlocal count
            count += 1
            path = tmp_path / f"unit{count}.store"
            ways = dict.fromkeys((it.data_id, it.direction) for it in frames)
            routes = [Route(data_id, direction, slot=4, reserve=8) for data_id, direction in ways]
            make_file_store(path, routes, keys={4: key})
            store = stack.enter_context(FileStore(path, routes))
            over = can.Bus(interface="virtual", channel=str(tmp_path)) if bus is None else bus
            secured = SecuredBus(over, store, frames, on_refused)
            stack.enter_context(secured)
            return secured

        yield make
