#!/bin/sh
# Plays random lists of turns of carriers over the Java programs of crates/java_programs, and has each history judged by the program in
# bench/replay, which is written from the rules and shares no code with the crates. Of each list it is compared whether each entry may stand
# where it stands, whether the history is that which the turns give, what the program wrote, how the run ended, and which threads are listed.
# The crate ref_run runs each history again, and has to come to the same output and ending. It prints each difference, and how many lists were
# judged. Lists in bench/replay/own have their histories beside them.
# The player (bench/plays) is compiled without proof beside a copy of the crates. usage: bench/replay.sh [COUNT OF LISTS]
set -eu
. "$(dirname -- "$0")/plays.sh"

# The lists, some of one program in a file, and a file that asks for the built-in class files.
python3 "$top/bench/replay/make_cases.py" "${1:-1000}" "$work/cases"
play_cases "$top/crates/java_programs/data"
python3 "$top/bench/replay/compare.py" "$work/played" "$work/cases"
