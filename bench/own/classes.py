#!/usr/bin/env python3
"""Makes class files whose runs are decided by rules of jvt's own: a class file that prints 42, with other bytes.

usage: classes.py A.class OUT
"""

import sys
from pathlib import Path

# Where in A.class are: the name of the class, the name of its superclass, main's flags, the number of its local variables, and its bipush.
NAME, PARENT, FLAGS, LOCALS, PUSH = 13, slice(17, 36), 205, 221, 229
PUBLIC, PRIVATE_STATIC, PUBLIC_STATIC_SYNCHRONIZED = 0x01, 0x0A, 0x29
ACONST_NULL, NOP = 0x01, 0x00

# The classes that differ from A in single bytes.
CHANGES = {
    "B": {NAME: ord("B"), PUSH + 1: 43},
    "PrivateMain": {FLAGS: PRIVATE_STATIC},
    # a main of instances has a local variable more: `this`
    "InstanceMain": {FLAGS: PUBLIC, LOCALS: 2},
    "NoLocalForThis": {FLAGS: PUBLIC},
    "SynchronizedB": {NAME: ord("B"), FLAGS: PUBLIC_STATIC_SYNCHRONIZED},
    "NullForInt": {PUSH: ACONST_NULL, PUSH + 1: NOP},
    # no text says this version
    "Release8": {7: 52},
    # what the reader refuses, in the order of the file
    "BadMagic": {0: 0},
    "OldVersion": {7: 50},
    "NewVersion": {7: 70},
    "NoConstants": {8: 0, 9: 0},
    "BadUtf8": {13: 0},
    "BadName": {13: ord(".")},
    "BadTag": {14: 2},
    "NoNameOfClass": {15: 0, 16: 0},
    "BadDescriptor": {179: ord("Q")},
    "NoSuperclass": {196: 0, 197: 0},
    "LongAttribute": {214: 255},
    "LongCode": {217: 0x14},
    "NoCode": {225: 0},
}

# The classes that differ so from the one with a SourceFile attribute.
SOURCE_FILE_CHANGES = {"LongSourceFile": {265: 255}, "EmptySourceFile": {268: 1}}

# Texts for the assembler.
TEXTS = {"Flop.jasm": "class A\nflop\n"}


def changed(data, changes):
    made = bytearray(data)
    for offset, byte in changes.items():
        made[offset] = byte
    return bytes(made)


def child_of_b(data):
    """A, whose superclass is B."""
    return data[: PARENT.start] + b"\x01\x00\x01B" + data[PARENT.stop :]


def with_source_file(data):
    """A, with the name of its source file as javac writes it."""
    texts = b"\x01\x00\x0aSourceFile\x01\x00\x06A.java"
    return data[:8] + b"\x00\x16" + data[10:192] + texts + data[192:239] + b"\x00\x01\x00\x14\x00\x00\x00\x02\x00\x15"


def main():
    data, out = Path(sys.argv[1]).read_bytes(), Path(sys.argv[2])
    files = {name: changed(data, changes) for name, changes in CHANGES.items()}
    files |= {name: changed(with_source_file(data), changes) for name, changes in SOURCE_FILE_CHANGES.items()}
    files |= {"A": data, "ChildOfB": child_of_b(data), "Empty": b"", "Cut": data[:10], "Longer": data + b"\0"}
    for name, content in files.items():
        (out / f"{name}.class").write_bytes(content)
    for name, text in TEXTS.items():
        (out / name).write_text(text)


main()
