#!/usr/bin/env python3
"""Writes a case for each of the programs of bench/random_monitors.sh: a random list of turns that is long enough for it to end.

usage: monitor_cases.py CLASSES FOLDER
"""

import sys
from pathlib import Path

from cases import MOST_CARRIERS, Case, text_of
from turn_lists import even, in_turn, randoms_of

TURNS = 20_000
NANOS_IN_A_TURN = 20_000
# Cells, threads and entries.
LIMITS = (1_000_000, 1_000, 1_000_000)


def case_of(main, files):
    randoms = randoms_of(main)
    carriers = randoms.randint(1, MOST_CARRIERS)
    turns = randoms.choice([even, in_turn])(randoms, carriers, TURNS)
    return Case(main, main, files, carriers, LIMITS, [(carrier, place * NANOS_IN_A_TURN) for place, carrier in enumerate(turns)])


def main():
    classes, folder = map(Path, sys.argv[1:])
    folder.mkdir()
    for source in sorted(classes.glob("*.java")):
        name = source.stem
        files = [f"{name}.class", *sorted(path.name for path in classes.glob(f"{name}$*.class"))]
        (folder / name).write_text(text_of([case_of(name, tuple(files))]))


if __name__ == "__main__":
    main()
