#!/usr/bin/env python3
"""Changes one entry of a history in each of many cases, and counts how many of the changed histories the judge refuses, by the kind of change.

usage: changes.py LIBRARY CASES COUNT

Some of those that are changed are legal too: two entries of different carriers may often change places, and a history without its last entry
is one. The others have to be refused, at the changed entry or at a later one.
"""

import sys
from collections import Counter

from cases import read_cases
from compare import DATA
from judge import Limits, judge, load_program
from opening import opening
from player import Player
from traces import Step
from turn_lists import randoms_of


def other(randoms, number, count):
    """Another number below a count, which is at least 2."""
    return (number + randoms.randint(1, count - 1)) % count


def fewer_steps(randoms, entries, place, carriers):
    entry = entries[place]
    if isinstance(entry, Step) and entry.steps > 1:
        entries[place] = entry._replace(steps=randoms.randint(1, entry.steps - 1))


def more_steps(randoms, entries, place, carriers):
    entry = entries[place]
    if isinstance(entry, Step):
        entries[place] = entry._replace(steps=entry.steps + randoms.randint(1, 3))


def other_carrier(randoms, entries, place, carriers):
    if carriers > 1:
        entries[place] = entries[place]._replace(carrier=other(randoms, entries[place].carrier, carriers))


def other_thread(randoms, entries, place, carriers):
    entries[place] = entries[place]._replace(thread=other(randoms, entries[place].thread, 4))


def left_out(randoms, entries, place, carriers):
    del entries[place]


def twice(randoms, entries, place, carriers):
    entries.insert(place, entries[place])


def places_changed(randoms, entries, place, carriers):
    if place + 1 < len(entries):
        entries[place], entries[place + 1] = entries[place + 1], entries[place]


def with_pick(randoms, entries, place, carriers):
    if isinstance(entries[place], Step):
        entries[place] = entries[place]._replace(pick=randoms.randrange(3))


CHANGES = [fewer_steps, more_steps, other_carrier, other_thread, left_out, twice, places_changed, with_pick]


def changed(randoms, history, change, carriers):
    entries = list(history)
    if entries:
        change(randoms, entries, randoms.randrange(len(entries)), carriers)
    return entries


def history_of(case, program):
    player = Player(opening(program, case.main, *case.limits[:2]), case.carriers, case.limits[2])
    for carrier, now in case.turns:
        player.turn(carrier, now)
    return player.history


def main():
    library, folder, count = sys.argv[1:]
    cases = read_cases(folder)
    made, refused = Counter(), Counter()
    for number in range(int(count)):
        randoms = randoms_of(number)
        case = randoms.choice(cases)
        program = load_program(library, tuple(DATA / file for file in case.files))
        history = history_of(case, program)
        change = CHANGES[number % len(CHANGES)]
        entries = changed(randoms, history, change, case.carriers)
        if entries != history:
            verdict = judge(program, case.main, case.carriers, entries, Limits(*case.limits))
            made[change.__name__] += 1
            refused[change.__name__] += verdict.fault is not None
    for change in CHANGES:
        print(f"{change.__name__}: {refused[change.__name__]} of {made[change.__name__]} refused")


if __name__ == "__main__":
    main()
