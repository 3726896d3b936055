"""Reads the text of a history."""

import re
from typing import NamedTuple

NUMBER = "(0|[1-9][0-9]*)"
HEADER = re.compile(f"jvt-trace carriers {NUMBER}")
MOUNT = re.compile(f"([MU]) {NUMBER} {NUMBER}")
STEP = re.compile(f"S {NUMBER} {NUMBER} {NUMBER} (-|{NUMBER})")
CLOCK = re.compile(f"C {NUMBER} {NUMBER}")
END = re.compile(f"end {NUMBER}")
MOST_32, MOST_64 = 2**32 - 1, 2**64 - 1


class Mount(NamedTuple):
    carrier: int
    thread: int


class Unmount(NamedTuple):
    carrier: int
    thread: int


class Step(NamedTuple):
    carrier: int
    thread: int
    steps: int
    pick: int | None


class Clock(NamedTuple):
    carrier: int
    now: int


class BadTrace(Exception):
    """A text that is no history: the line, counted from 1, and what is wrong there."""

    def __init__(self, line, reason):
        super().__init__(f"line {line}: {reason}")


def small(text):
    """A number of 32 bits."""
    if int(text) > MOST_32:
        raise ValueError(text)
    return int(text)


def entry_in(line):
    """The entry that a line tells; ValueError where it tells none."""
    if found := MOUNT.fullmatch(line):
        kind = Mount if found[1] == "M" else Unmount
        return kind(small(found[2]), small(found[3]))
    if found := STEP.fullmatch(line):
        carrier, thread, steps = small(found[1]), small(found[2]), small(found[3])
        if steps == 0:
            raise ValueError(line)
        return Step(carrier, thread, steps, None if found[4] == "-" else small(found[4]))
    if (found := CLOCK.fullmatch(line)) and int(found[2]) <= MOST_64:
        return Clock(small(found[1]), int(found[2]))
    raise ValueError(line)


def lines_of(text):
    """The lines, each of which ends with LF."""
    if not text.endswith("\n"):
        raise BadTrace(text.count("\n") + 1, "the last line has no end")
    return text[:-1].split("\n")


def read_trace(text):
    """The number of carriers and the entries."""
    lines = lines_of(text)
    header = HEADER.fullmatch(lines[0])
    if not header:
        raise BadTrace(1, lines[0])
    entries = []
    for number, line in enumerate(lines[1:-1], start=2):
        try:
            entries.append(entry_in(line))
        except ValueError:
            raise BadTrace(number, line) from None
    end = END.fullmatch(lines[-1])
    if not end or int(end[1]) != len(entries):
        raise BadTrace(len(lines), lines[-1])
    return small(header[1]), entries
