#!/usr/bin/env python3
"""Writes the cases of bench/replay.sh: random lists of turns for each program with threads and for a few with one, and the cases in the folder `own`.

usage: make_cases.py COUNT FOLDER
"""

import sys
from pathlib import Path

from cases import LIBRARY, cases_in, java_programs, random_cases, text_of

TOP = Path(__file__).resolve().parents[2]
DATA = TOP / "crates/java_programs/data"
OWN = Path(__file__).resolve().parent / "own"
# Programs with one thread: fields and arrays, texts, calls of all kinds, exceptions of all kinds, initializers, deep stacks, exits, and classes
# that no compiler writes.
ALONE = """Accounts BalancedTree Codes ConstructorOrder Corners DeepRecursion DefaultMethods ExitInHandler ExpressionParser FinallyOrders
Initializers Jagged MachineExceptions MergeSort NegativeExit OutAndErr SwitchForms UncaughtMemory UncaughtMine UnicodeTexts
Limits FirstObjects OtherInitializers SynchronizedInitializer Main 267a 277a 278a 279a""".split()
# Programs with threads whose outcome is a matter of the machine's own rules: stalls, abstract methods, numbers, native frames that pin.
OWN_THREADS = """JoinsItself JoinsInARing ThreadNumbers AbstractRun FramesOfThreads ParkedForEver PhilosophersStall WaitsForEver
PinnedPark PinnedMain MorePinned PinnedAlone PinnedWaits PinnedYields""".split()
# How many cases of a program are played in one run.
GROUP = 12
# One case in so many is of a program with one thread.
SHARE_OF_ALONE = 8


def all_cases(count):
    programs = java_programs(DATA / "programs.txt")
    with_threads = sorted(path.stem for path in (TOP / "bench/programs/threads").glob("*.java"))
    threads = [programs[name] for name in with_threads + OWN_THREADS]
    alone = [programs[name] for name in ALONE]
    of_alone = count // SHARE_OF_ALONE
    return random_cases(threads, count - of_alone) + random_cases(alone, of_alone)


def own_cases():
    """The cases in the folder `own`, whose histories stand beside them."""
    paths = [path.with_suffix("") for path in sorted(OWN.glob("*.trace"))]
    return [case for path in paths for case in cases_in(path.read_text())]


def groups(cases):
    """The cases of each program, some at a time."""
    by_program = {}
    for case in cases:
        by_program.setdefault(case.command(), []).append(case)
    for found in by_program.values():
        for first in range(0, len(found), GROUP):
            yield found[first].name, found[first : first + GROUP]


def main():
    count, folder = int(sys.argv[1]), Path(sys.argv[2])
    folder.mkdir(parents=True)
    for name, cases in groups(all_cases(count) + own_cases()):
        (folder / name).write_text(text_of(cases))
    (folder / LIBRARY).write_text(LIBRARY + "\n")


if __name__ == "__main__":
    main()
