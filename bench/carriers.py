"""Runs Crowded, whose class files lie in this folder, many times on each of several numbers of carriers, and judges one history of each.

usage: carriers.py JVT TIMES LIBRARY, where LIBRARY has the built-in class files as judge.py reads them

Of each number of carriers it prints what came of the runs and how often, how long they took, and what the judge says of one more run.
"""

import subprocess
import sys
import time
from collections import Counter

from judge import judge, load_program
from traces import read_trace

CARRIERS = (1, 2, 3, 4, 16, 64)
PROGRAM = ("Crowded", "Crowded.class")
# A run that takes longer than these seconds is said to hang.
PATIENCE = 60


def run(jvt, carriers, *options):
    """What a run writes, its faults, and its status; None where it hangs."""
    command = [jvt, "run", "--carriers", str(carriers), *options, *PROGRAM]
    try:
        ran = subprocess.run(command, capture_output=True, text=True, timeout=PATIENCE)
    except subprocess.TimeoutExpired:
        return None
    return ran.stdout, ran.stderr, ran.returncode


def verdict_on(jvt, library, carriers):
    """What the judge says of a run's history, and how many entries it has."""
    told = run(jvt, carriers, "--trace")
    if told is None:
        return "hangs"
    written, trace, _ = told
    carriers_told, entries = read_trace(trace)
    main, *files = PROGRAM
    verdict = judge(load_program(library, tuple(files)), main, carriers_told, entries)
    if verdict.fault is not None:
        return verdict.fault
    same = verdict.out.decode() == written and verdict.ending == "Ended"
    return f"{'legal' if same else 'another outcome'}, {len(entries)} entries"


def main():
    jvt, times, library = sys.argv[1], int(sys.argv[2]), sys.argv[3]
    for carriers in CARRIERS:
        began = time.monotonic()
        outcomes = Counter(run(jvt, carriers) for _ in range(times))
        took = time.monotonic() - began
        print(f"{carriers} carriers: {dict(outcomes)} in {took:.1f} s; one more: {verdict_on(jvt, library, carriers)}", flush=True)


if __name__ == "__main__":
    main()
