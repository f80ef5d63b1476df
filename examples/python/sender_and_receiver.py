"""A sender and a receiver, each over a store in a file. Run it again: freshness goes on above the run before."""

import os
import rathonsi

KEY = bytes.fromhex("2b7e151628aed2a6abf7158809cf4f3c")
SENDER = rathonsi.Route(0x120E, rathonsi.SENDS, slot=4, reserve=8)
RECEIVER = rathonsi.Route(0x120E, rathonsi.RECEIVES, slot=4)
for path, route in (("send.store", SENDER), ("receive.store", RECEIVER)):
    if not os.path.exists(path):
        rathonsi.make_file_store(path, [route], keys={4: KEY})

with rathonsi.FileStore("send.store", [SENDER]) as sender, rathonsi.FileStore("receive.store", [RECEIVER]) as receiver:
    pdu = sender.send(0x120E, b"brake")
    print("sent", pdu.hex())
    print("accepted", receiver.receive(0x120E, pdu))
    try:
        receiver.receive(0x120E, pdu)
    except rathonsi.Refused as refused:
        print("replayed:", refused)
