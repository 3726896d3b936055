#!/usr/bin/env python3
"""Lets the method references of a class file that name one method name it in another class.

usage: owner.py FILE.class METHOD CLASS
"""

import struct
import sys
from pathlib import Path

# the bytes of a constant after its tag; those of a text depend on its length
SIZES = {3: 4, 4: 4, 5: 8, 6: 8, 7: 2, 8: 2, 9: 4, 10: 4, 11: 4, 12: 4, 15: 3, 16: 2, 17: 4, 18: 4, 19: 2, 20: 2}
TEXT, LONG, DOUBLE, CLASS, METHODREF = 1, 5, 6, 7, 10


def offsets(data):
    """Where each constant begins, by index, and where the last one ends."""
    (count,) = struct.unpack_from(">H", data, 8)
    places, at, index = {}, 10, 1
    while index < count:
        places[index] = at
        tag = data[at]
        at += 3 + struct.unpack_from(">H", data, at + 1)[0] if tag == TEXT else 1 + SIZES[tag]
        index += 2 if tag in (LONG, DOUBLE) else 1
    return places, at


def main():
    path, method, owner = Path(sys.argv[1]), sys.argv[2].encode(), sys.argv[3].encode()
    data = bytearray(path.read_bytes())
    places, end = offsets(data)
    (count,) = struct.unpack_from(">H", data, 8)

    def text(index):
        (length,) = struct.unpack_from(">H", data, places[index] + 1)
        return data[places[index] + 3 : places[index] + 3 + length]

    for at in places.values():
        if data[at] == METHODREF:
            (key,) = struct.unpack_from(">H", data, at + 3)
            (name,) = struct.unpack_from(">H", data, places[key] + 1)
            if text(name) == method:
                struct.pack_into(">H", data, at + 1, count + 1)
    struct.pack_into(">H", data, 8, count + 2)
    added = struct.pack(">BH", TEXT, len(owner)) + owner + struct.pack(">BH", CLASS, count)
    path.write_bytes(data[:end] + added + data[end:])


main()
