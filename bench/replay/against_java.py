#!/usr/bin/env python3
"""Runs the programs of java_programs with the reference machine of this folder, each on a random list of turns, and compares what they write and
how they end with what `java` printed. It is a test of the judge: the machine of the crates takes no part in it.

usage: against_java.py LIBRARY [MAIN..]
"""

import sys
from pathlib import Path

from cases import java_programs
from judge import CELLS, EVENTS, THREADS, load_program
from opening import opening
from player import Player
from turn_lists import randoms_of

CRATE = Path(__file__).resolve().parents[2] / "crates/java_programs"
NANOS_IN_A_TURN = 1_000_000
MOST_TURNS = 400_000
# The folders of the programs that java ran too.
RELEASES = ("8", "11", "17", "21")


def wanted_outputs():
    """What each program printed, and its status, by its main class."""
    wanted = {}
    for part in ("\n" + (CRATE / "stdout").read_text()).split("\n== run ")[1:]:
        command, _, rest = part.partition("\n")
        text, _, status = rest.rpartition("== status ")
        wanted[command.split()[0]] = (text, int(status.splitlines()[0]))
    return wanted


def status_of(ending):
    words = ending.split()
    return int(words[1]) % 256 if words[0] == "Exited" else {"Ended": 0, "MainThrew": 1}.get(ending, ending)


def run(program, main, randoms):
    """What the program writes, and its status; None where it has not ended."""
    state = opening(program, main, CELLS, THREADS)
    carriers = randoms.randint(1, 5)
    player = Player(state, carriers, EVENTS)
    for number in range(MOST_TURNS):
        if player.has_ended():
            break
        player.turn(randoms.randrange(carriers), number * NANOS_IN_A_TURN)
    text = (bytes(state.memory.out) + bytes(state.memory.err)).decode()
    return text, status_of(player.told or state.ending() or "none")


def main():
    library, *names = sys.argv[1:]
    wanted = wanted_outputs()
    for name, main_class, files in java_programs(CRATE / "data/programs.txt").values():
        is_chosen = name in names if names else files[0].split("/")[0] in RELEASES
        if not is_chosen:
            continue
        program = load_program(library, tuple(CRATE / "data" / file for file in files))
        found = run(program, main_class, randoms_of(name))
        print(name, "as java" if found == wanted[name] else f"{found[1]}, wanted {wanted[name][1]}: differs", flush=True)


if __name__ == "__main__":
    main()
