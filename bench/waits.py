"""Times programs in which carriers wait for one another in opposite ways, with several built programs in turn.

usage: waits.py PROGRAM [OTHER..]: prints, for 1, 2 and 4 carriers, the least and the median seconds of the clock of each.
"""

import os
import statistics
import subprocess
import sys
import time
from typing import NamedTuple


class Needs(NamedTuple):
    others: tuple[str, ...] = ()
    carriers: int = 1


# The programs, the other classes that they need, and the carriers: a thread that spins keeps its carrier.
PROGRAMS = {
    "LocalWork": Needs(("Four",)),
    "Tasks": Needs(),
    "MonitorAdds": Needs(("Four",)),
    "FieldAdds": Needs(("Four",)),
    "SpinHandovers": Needs(carriers=2),
    "SpinStarts": Needs(carriers=2),
    "SpunPermits": Needs(("Spinner",), carriers=4),
    "SpunMonitor": Needs(("Spinner",), carriers=2),
    "Starts": Needs(),
    "Yields": Needs(),
    "Handovers": Needs(),
}
LOAD = "gen 50000"
MOST_SECONDS = "60"


def words(program, name, carriers):
    if name == LOAD:
        return [program, "gen", "--carriers", str(carriers), "50000"]
    files = [f"{each}.class" for each in (name, *PROGRAMS[name].others)]
    return [program, "run", "--carriers", str(carriers), "--events", "33554432", name, *files]


def seconds(program, name, carriers):
    limited = ["timeout", MOST_SECONDS, *words(program, name, carriers)]
    start = time.perf_counter()
    subprocess.run(limited, stdout=subprocess.DEVNULL, stderr=subprocess.DEVNULL, check=True)
    return time.perf_counter() - start


def main():
    programs = sys.argv[1:]
    rounds = int(os.environ.get("ROUNDS", "5"))
    for carriers in map(int, os.environ.get("CARRIERS", "1 2 4").split()):
        fitting = [name for name, needs in PROGRAMS.items() if needs.carriers <= carriers]
        for name in [*fitting, LOAD]:
            times = {program: [] for program in programs}
            for _ in range(rounds):
                for program in programs:
                    times[program].append(seconds(program, name, carriers))
            told = "; ".join(f"{min(each):.3f}, {statistics.median(each):.3f}" for each in times.values())
            print(f"{carriers} {name}: {told}", flush=True)


main()
