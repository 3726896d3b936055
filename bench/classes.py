#!/usr/bin/env python3
"""Puts class files together as input for the benchmarks of the reader and the writer.

usage: classes.py FOLDER OUT

FOLDER is searched for *.class files. In OUT it writes files of class files, each after its length in four bytes, the
highest first:

  classes   all of them
  tenth     every tenth of them
  tenfold   the same, each about ten times as long: its constants, fields, methods and attributes stand there ten times
            (a file that would get too many of them is left out of both)
  KIND-1    class files made of N things of one kind, for each kind below; KIND-10 has a tenth as many, of 10 N things
            each, so about the same number of bytes
"""

import struct
import sys
from pathlib import Path

from extract import Reader

SIZES = {3: 4, 4: 4, 5: 8, 6: 8, 7: 2, 8: 2, 15: 3, 16: 2, 19: 2, 20: 2}


def u2(number):
    return struct.pack(">H", number)


def u4(number):
    return struct.pack(">I", number)


def skip_attributes(reader):
    for _ in range(reader.number(2)):
        reader.bytes(2)
        reader.bytes(reader.number(4))


def table(reader, skip):
    """A count, and the bytes of that many things."""
    count = reader.number(2)
    start = reader.at
    for _ in range(count):
        skip(reader)
    return count, reader.data[start : reader.at]


def skip_member(reader):
    reader.bytes(6)
    skip_attributes(reader)


def skip_attribute(reader):
    reader.bytes(2)
    reader.bytes(reader.number(4))


def pool_of(reader):
    """The number of places after place 0, and the bytes of the constants."""
    count = reader.number(2) - 1
    start = reader.at
    place = 0
    while place < count:
        tag = reader.number(1)
        reader.bytes(reader.number(2) if tag == 1 else SIZES.get(tag, 4))
        place += 2 if tag in (5, 6) else 1
    return count, reader.data[start : reader.at]


def times(count, part, factor):
    """A table of so many times as many things, or None where they are too many."""
    return None if count * factor > 65535 else u2(count * factor) + part * factor


def lengthened(data, factor):
    reader = Reader(data)
    head = reader.bytes(8)
    count, constants = pool_of(reader)
    if count * factor + 1 > 65535:
        return None
    pool = u2(count * factor + 1) + constants * factor
    start = reader.at
    reader.bytes(6)
    reader.bytes(2 * reader.number(2))
    own = reader.data[start : reader.at]
    parts = [times(*table(reader, skip), factor) for skip in (skip_member, skip_member, skip_attribute)]
    return None if None in parts else head + pool + own + b"".join(parts)


# ---- class files of many things of one kind

def text(letters):
    return b"\x01" + u2(len(letters)) + letters


def class_file(constants, interfaces=(0, b""), fields=(0, b""), methods=(0, b""), attributes=(0, b"")):
    """A class file. Its first constants are names, descriptors and the like, and `constants` follow them."""
    first = [
        text(b"A"),
        b"\x07" + u2(1),
        text(b"java/lang/Object"),
        b"\x07" + u2(3),
        text(b"()V"),
        text(b"I"),
        text(b"Code"),
        text(b"Own"),
    ]
    count, more = constants
    pool = u2(1 + len(first) + count) + b"".join(first) + more
    parts = b"".join(u2(count) + part for count, part in (interfaces, fields, methods, attributes))
    return b"\xca\xfe\xba\xbe\0\0\0\x3d" + pool + u2(0x21) + u2(2) + u2(4) + parts


NONE = (0, b"")


def method(code, rows=NONE, attributes=NONE):
    """A method with a Code of these parts."""
    body = u2(1) + u2(1) + u4(len(code)) + code + u2(rows[0]) + rows[1] + u2(attributes[0]) + attributes[1]
    return u2(9) + u2(1) + u2(5) + u2(1) + u2(7) + u4(len(body)) + body


OWN = u2(8) + u4(10) + bytes(10)
SMALL = u2(8) + u4(1) + bytes(1)
EMPTY = u2(8) + u4(0)

KINDS = {
    # short texts, each another name
    "texts": lambda n: class_file((n, b"".join(text(b"java/util/Name%05d" % i) for i in range(n)))),
    # texts of one byte
    "letters": lambda n: class_file((n, text(b"a") * n)),
    # one long text, the name of a class
    "units": lambda n: class_file((2, text(b"a" * n) + b"\x07" + u2(9))),
    # a text of two bytes a unit
    "wide": lambda n: class_file((1, text("ä".encode() * (n // 2)))),
    # a descriptor of one long class
    "descriptor": lambda n: class_file((1, text(b"(L" + b"a/" * (n // 2) + b"b;)V"))),
    # one long text, which as many classes name
    "named": lambda n: class_file((1 + n, text(b"a" * n) + (b"\x07" + u2(9)) * n)),
    # references to methods, each with its own name and descriptor
    "references": lambda n: class_file((n // 2 * 2, b"".join(b"\x0c" + u2(1) + u2(5) + b"\x0a" + u2(2) + u2(9 + 2 * i) for i in range(n // 2)))),
    "interfaces": lambda n: class_file(NONE, interfaces=(n, u2(4) * n)),
    "fields": lambda n: class_file(NONE, fields=(n, (u2(1) + u2(1) + u2(6) + u2(0)) * n)),
    "methods": lambda n: class_file(NONE, methods=(n, method(b"\xb1") * n)),
    # of the class, of ten bytes, of one and of none, and of one Code
    "attributes": lambda n: class_file(NONE, attributes=(n, OWN * n)),
    "small": lambda n: class_file(NONE, attributes=(n, SMALL * n)),
    "empty": lambda n: class_file(NONE, attributes=(n, EMPTY * n)),
    "inner": lambda n: class_file(NONE, methods=(1, method(b"\xb1", attributes=(n, OWN * n)))),
    # the exception table and the code of one method
    "rows": lambda n: class_file(NONE, methods=(1, method(b"\0" * 9 + b"\xb1", rows=(n, (u2(0) + u2(5) + u2(9) + u2(4)) * n)))),
    "code": lambda n: class_file(NONE, methods=(1, method(b"\0" * n + b"\xb1"))),
}

SHORT = 6000
COPIES = 20


def put(out, data):
    out.write(u4(len(data)) + data)


def main():
    folder, out = Path(sys.argv[1]), Path(sys.argv[2])
    out.mkdir(parents=True, exist_ok=True)
    paths = sorted(folder.rglob("*.class"))
    with open(out / "classes", "wb") as classes:
        for path in paths:
            put(classes, path.read_bytes())
    with open(out / "tenth", "wb") as tenth, open(out / "tenfold", "wb") as tenfold:
        for path in paths[::10]:
            data = path.read_bytes()
            longer = lengthened(data, 10)
            if longer is not None:
                put(tenth, data)
                put(tenfold, longer)
    for kind, made in KINDS.items():
        for factor in (1, 10):
            with open(out / f"{kind}-{factor}", "wb") as file:
                for _ in range(COPIES * 10 // factor):
                    put(file, made(SHORT * factor))


if __name__ == "__main__":
    main()
