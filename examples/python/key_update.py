"""A key update end to end: a station makes the request, an engine loads it, the station checks the reply."""

from pathlib import Path
from tempfile import TemporaryDirectory

import rathonsi

UID, MASTER, NEW = bytes(range(1, 16)), bytes(range(16)), bytes.fromhex("2b7e151628aed2a6abf7158809cf4f3c")

# the station: slot 4 gets a key for MACs, authorised by the key of slot 1
update = rathonsi.Update(UID, id=4, auth=1, flags=rathonsi.Flags.KEY_USAGE, counter=1, key=NEW)
request = rathonsi.make_update(MASTER, update)

with TemporaryDirectory() as folder:
    path, routes = Path(folder, "unit.store"), [rathonsi.Route(0x120E, rathonsi.SENDS, slot=4)]
    rathonsi.make_file_store(path, routes, keys={1: MASTER})
    with rathonsi.FileStore(path, routes) as unit:
        reply = unit.load(UID, request)
        print("the engine's reply is", "right" if reply == rathonsi.confirm(update, UID) else "wrong")
        print("the first PDU under the new key:", unit.send(0x120E, b"brake").hex())
