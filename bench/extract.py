#!/usr/bin/env python3
"""Takes the code arrays and the stack maps out of class files, as input for the benchmarks.

usage: extract.py FOLDER OUT

FOLDER is searched for *.class files. In OUT it writes `codes`, for each method with code a length in four bytes and
the code array, and `maps`, for each StackMapTable the number of the first frame's locals in two bytes, a length in
four, and the attribute's body. Numbers have the highest byte first.
"""

import re
import struct
import sys
from pathlib import Path

ARGUMENT = re.compile(rb"\[*(?:L[^;]*;|[BCDFIJSZ])")


class Reader:
    def __init__(self, data):
        self.data = data
        self.at = 0

    def number(self, size):
        self.at += size
        return int.from_bytes(self.data[self.at - size : self.at], "big")

    def bytes(self, size):
        self.at += size
        return self.data[self.at - size : self.at]


def read_pool(reader):
    pool = {}
    count = reader.number(2)
    place = 1
    while place < count:
        tag = reader.number(1)
        if tag == 1:
            pool[place] = reader.bytes(reader.number(2))
        else:
            sizes = {3: 4, 4: 4, 5: 8, 6: 8, 7: 2, 8: 2, 15: 3, 16: 2, 19: 2, 20: 2}
            reader.bytes(sizes.get(tag, 4))
        place += 2 if tag in (5, 6) else 1
    return pool


def read_attributes(reader, pool):
    for _ in range(reader.number(2)):
        name = pool[reader.number(2)]
        yield name, reader.bytes(reader.number(4))


def methods(data):
    """Each method's flags, descriptor and attributes."""
    reader = Reader(data)
    reader.bytes(8)
    pool = read_pool(reader)
    reader.bytes(6)
    reader.bytes(2 * reader.number(2))
    for kind in ("fields", "methods"):
        for _ in range(reader.number(2)):
            flags, _, descriptor = (reader.number(2) for _ in range(3))
            attributes = list(read_attributes(reader, pool))
            if kind == "methods":
                yield pool, flags, pool[descriptor], attributes


def main():
    folder, out = Path(sys.argv[1]), Path(sys.argv[2])
    out.mkdir(parents=True, exist_ok=True)
    with open(out / "codes", "wb") as codes, open(out / "maps", "wb") as maps:
        for path in sorted(folder.rglob("*.class")):
            for pool, flags, descriptor, attributes in methods(path.read_bytes()):
                arguments = ARGUMENT.findall(descriptor[1 : descriptor.index(b")")])
                first = len(arguments) + (0 if flags & 8 else 1)
                for name, body in attributes:
                    if name != b"Code":
                        continue
                    reader = Reader(body)
                    reader.bytes(4)
                    code = reader.bytes(reader.number(4))
                    codes.write(struct.pack(">I", len(code)) + code)
                    reader.bytes(8 * reader.number(2))
                    for inner, table in read_attributes(reader, pool):
                        if inner == b"StackMapTable":
                            maps.write(struct.pack(">HI", first, len(table)) + table)


if __name__ == "__main__":
    main()
