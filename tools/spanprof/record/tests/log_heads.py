"""Heads of made-up logs."""
import os
import struct


def log_head(folder, process=0, usage=(), began=0, program=b"", at=0):
    """In the folder of a recording; `usage` has seven numbers or none, `at` is the time of the day."""
    os.makedirs(os.path.join(folder, "log"), exist_ok=True)
    head = struct.pack("=56xqq8xI60x256s", at, began, process, program)
    with open(os.path.join(folder, "log", "head"), "wb") as file:
        file.write(head + struct.pack("=%dq" % len(usage), *usage))
