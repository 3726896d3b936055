#!/usr/bin/env python3
"""Compares what the player wrote of each case with what java wrote. Each program has to end, and its history, run again, to come to the same.

usage: compare_outputs.py PLAYED WANTED

WANTED is a folder with the output of java, by the names of the cases.
"""

import sys
from pathlib import Path

from compare import played, told_in


def difference(text, wanted):
    told = told_in(text)
    if told.ending != "Ended":
        return f"ending {told.ending}"
    if told.out != wanted:
        return "other output"
    return "" if told.replay == "same" else f"run again: {told.replay}"


def main():
    printed, wanted = sys.argv[1:]
    texts, different, entries = played(printed), 0, 0
    paths = sorted(Path(wanted).iterdir())
    for path in paths:
        text = texts.get(path.name, "")
        found = difference(text, path.read_bytes()) if text else "not played"
        different += bool(found)
        entries += text.count("\nS ")
        if found:
            print(f"{path.name}: {found}")
    print(f"{len(paths)} played, {different} with a difference, {entries} steps in their histories")


if __name__ == "__main__":
    main()
