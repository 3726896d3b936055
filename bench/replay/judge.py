#!/usr/bin/env python3
"""Judges a history of a Java program: whether each entry may stand where it stands, what the program has written, and how it ended.

usage: judge.py LIBRARY TRACE MAIN FILE..

LIBRARY has the built-in class files, one a line as `class` and its bytes in hexadecimal; TRACE is the text of a history, and the FILEs are the
program's class files in their order. It prints the first entry that may not stand where it stands, and why, or else `legal`; then `out` and
`err` with what the program wrote in hexadecimal, and `ending` with how it ended: `none` where it goes on, `Stalled` where no thread can go on, and
`Starved` where pinned threads keep all others from it. Then `listed` has the live threads, or the pinned ones in the order of the carriers.
"""

import functools
import sys
from pathlib import Path
from typing import NamedTuple

from class_files import read_class_file
from opening import opening
from program import Program
from schedule import Schedule
from state import LIVE
from steps import lacks_threads
from traces import Clock, Mount, Step, Unmount, read_trace
from values import Undefined

# The limits of the command `run`.
CELLS, THREADS, EVENTS = 4_194_304, 100_000, 4_194_304
# How many entries a turn of a carrier needs.
ENTRIES_OF_A_TURN = 3


class Limits(NamedTuple):
    cells: int = CELLS
    threads: int = THREADS
    events: int = EVENTS


class Verdict(NamedTuple):
    """`fault` says which entry may not stand where it stands, and why. Without one there is what the history leads to."""

    fault: str | None
    out: bytes = b""
    err: bytes = b""
    ending: str = "none"
    listed: tuple = ()
    lacks_threads: bool = False


def read_library(path):
    lines = Path(path).read_text().splitlines()
    return [read_class_file(bytes.fromhex(line.split()[1])) for line in lines if line.startswith("class ")]


@functools.cache
def load_program(library, files):
    """The program of the built-in class files and of those with these paths. One that was loaded before is taken again."""
    return Program(read_library(library) + [read_class_file(Path(file).read_bytes()) for file in files])


def make_entry(schedule, entry):
    if entry.carrier >= len(schedule.mounted):
        raise Undefined(f"there is no carrier {entry.carrier}")
    if isinstance(entry, Mount):
        schedule.mount(entry.carrier, entry.thread)
    elif isinstance(entry, Unmount):
        schedule.unmount(entry.carrier, entry.thread)
    elif isinstance(entry, Step):
        schedule.step(entry.carrier, entry.thread, entry.steps, entry.pick)
    elif isinstance(entry, Clock):
        schedule.clock(entry.carrier, entry.now)
    schedule.last_carrier = entry.carrier


def ending_of(schedule, entries, limits):
    """How the run has ended: as the program did, at the limit of events, or since no thread can go on, or is kept from it."""
    state = schedule.state
    if state.ending() is not None:
        return state.ending()
    if limits.events < len(entries) + ENTRIES_OF_A_TURN:
        return f"Limit Events {limits.events}"
    if state.is_stalled():
        return "Stalled"
    return "Starved" if schedule.is_starved() else "none"


def listed_threads(schedule, ending):
    """The threads that an answer lists."""
    if ending == "Starved":
        return tuple(schedule.mounted)
    return tuple(thread.number for thread in schedule.state.threads if thread.status == LIVE)


def judge(program, main_class, carriers, entries, limits=Limits()):
    """Replays a history entry by entry."""
    state = opening(program, main_class, limits.cells, limits.threads)
    schedule = Schedule(state, carriers)
    for number, entry in enumerate(entries):
        try:
            make_entry(schedule, entry)
        except Undefined as undefined:
            return Verdict(f"entry {number}, {entry}: {undefined}")
    ending = ending_of(schedule, entries, limits)
    listed = listed_threads(schedule, ending)
    mounted = [state.threads[number] for number in schedule.mounted if number is not None]
    lacking = state.ending() is None and any([lacks_threads(state, thread) for thread in mounted])
    return Verdict(None, bytes(state.memory.out), bytes(state.memory.err), ending, listed, lacking)


def main():
    library, trace, main_class, *files = sys.argv[1:]
    program = load_program(library, tuple(files))
    carriers, entries = read_trace(Path(trace).read_text())
    verdict = judge(program, main_class.replace(".", "/"), carriers, entries)
    print(verdict.fault or "legal")
    if verdict.fault is None:
        print("out", verdict.out.hex())
        print("err", verdict.err.hex())
        print("ending", verdict.ending)
        if verdict.ending in ("Stalled", "Starved"):
            print("listed", *verdict.listed)
    sys.exit(verdict.fault is not None)


if __name__ == "__main__":
    main()
