#!/usr/bin/env python3
"""Judges what `plays` printed of each case, and compares what it told with what the judge computes.

usage: compare.py PLAYED CASES

PLAYED is what `rt try --cases` printed, the built-in class files among it, and CASES the folder of the cases. It prints each difference, and how
many cases were judged.
"""

import sys
from multiprocessing import Pool
from pathlib import Path
from typing import NamedTuple

from cases import read_cases
from judge import Limits, judge, load_program
from opening import opening
from player import Player
from traces import BadTrace, Step, read_trace

OWN = Path(__file__).resolve().parent / "own"
DATA = Path(__file__).resolve().parents[2] / "crates/java_programs/data"
PROCESSES = 2


class Told(NamedTuple):
    """What a machine told after its turns."""

    trace: str
    out: bytes
    err: bytes
    ending: str
    listed: tuple
    replay: str


def told_in(text):
    """What `plays` printed of a case."""
    trace, behind = [], {"listed": "", "replay": "missing"}
    for line in text.splitlines():
        word, _, rest = line.partition(" ")
        if word in ("out", "err", "ending", "listed", "replay"):
            behind[word] = rest
        else:
            trace.append(line + "\n")
    listed = tuple(map(int, behind["listed"].split()))
    out, err = (bytes.fromhex(behind[stream]) for stream in ("out", "err"))
    return Told("".join(trace), out, err, behind["ending"], listed, behind["replay"])


def played(path):
    """What was printed of each case, by its name."""
    found = {}
    for part in ("\n" + Path(path).read_text()).split("\nplay ")[1:]:
        name, _, text = part.partition("\n")
        found[name] = text.split("\n== ")[0]
    return found


def is_ending_right(told, verdict, case):
    """Whether the ending that was told is that of the history. That of the limit of threads isn't told by the state alone."""
    if told.ending == f"Limit Threads {case.limits[1]}":
        return verdict.ending == "none" and verdict.lacks_threads
    return told.ending == verdict.ending


def differences(case, told, verdict):
    """What the machine told, where the judge computes something else."""
    if verdict.fault:
        return [f"not legal: {verdict.fault}"]
    found = []
    if told.out != verdict.out:
        found.append(f"output {told.out!r}, judged {verdict.out!r}")
    if told.err != verdict.err:
        found.append(f"error output {told.err!r}, judged {verdict.err!r}")
    if not is_ending_right(told, verdict, case):
        found.append(f"ending {told.ending}, judged {verdict.ending}")
    if told.replay != "same":
        found.append(f"run again: {told.replay}")
    if told.ending in ("Stalled", "Starved") and told.listed != verdict.listed:
        found.append(f"threads {told.listed} are listed, judged {verdict.listed}")
    return found


class Outcome(NamedTuple):
    """What came of a case: the differences, the entries and steps of its history, and how it ended."""

    name: str
    differences: list
    entries: int = 0
    steps: int = 0
    ending: str = ""


def trace_differences(case, told, entries, program):
    """Where the history isn't that which the list of turns gives, or the one that stands beside a case."""
    found = []
    player = Player(opening(program, case.main, *case.limits[:2]), case.carriers, case.limits[2])
    for carrier, now in case.turns:
        player.turn(carrier, now)
    if player.history != entries:
        pairs = enumerate(zip(player.history + [None], entries + [None]))
        place, pair = next((place, pair) for place, pair in pairs if pair[0] != pair[1])
        found.append(f"entry {place} is {pair[1]}, by the list of turns {pair[0]}")
    beside = OWN / f"{case.name}.trace"
    if beside.exists() and beside.read_text() != told.trace:
        found.append(f"the history isn't that of {beside.name}")
    return found


def judge_case(arguments):
    library, case, text = arguments
    program = load_program(library, tuple(DATA / file for file in case.files))
    try:
        told = told_in(text)
        carriers, entries = read_trace(told.trace)
    except (BadTrace, KeyError) as error:
        return Outcome(case.name, [f"no history: {error}: {text[:300]}"])
    if carriers != case.carriers:
        return Outcome(case.name, [f"{carriers} carriers, wanted {case.carriers}"])
    verdict = judge(program, case.main, carriers, entries, Limits(*case.limits))
    steps = sum(entry.steps for entry in entries if isinstance(entry, Step))
    found = differences(case, told, verdict) + trace_differences(case, told, entries, program)
    return Outcome(case.name, found, len(entries), steps, told.ending)


def report(outcomes):
    endings = {}
    for outcome in outcomes:
        word = " ".join(outcome.ending.split()[:2]) if outcome.ending.startswith("Limit") else outcome.ending.split(" ")[0]
        endings[word] = endings.get(word, 0) + 1
    print(len(outcomes), "judged,", sum(bool(outcome.differences) for outcome in outcomes), "with a difference")
    print(sum(outcome.entries for outcome in outcomes), "entries,", sum(outcome.steps for outcome in outcomes), "steps")
    print("endings:", ", ".join(f"{word} {count}" for word, count in sorted(endings.items())))


def main():
    printed, cases = sys.argv[1:]
    texts = played(printed)
    work = [(printed, case, texts.get(case.name, "")) for case in read_cases(cases)]
    outcomes = []
    with Pool(PROCESSES) as pool:
        for outcome in pool.imap_unordered(judge_case, work):
            outcomes.append(outcome)
            for difference in outcome.differences:
                print(f"{outcome.name}: {difference}", flush=True)
    report(outcomes)
    sys.exit(any(outcome.differences for outcome in outcomes))


if __name__ == "__main__":
    main()
