#!/bin/sh
# Runs a program of a thousand virtual threads (bench/carriers/Crowded.java) with a built jvt on 1, 2, 3, 4, 16 and 64 carriers, and has the
# last history of each number judged by the program in bench/replay, to which the built-in class files are given by a program that is compiled
# without proof (bench/library). NEW_JDK is as in java_programs.sh.
# usage: [NEW_JDK=COMMAND] bench/carriers.sh [PROGRAM [TIMES]], where PROGRAM is a built jvt, and each number of carriers has TIMES runs, else 200
set -eu
release=21
. "$(dirname -- "$0")/times.sh"
. "$top/bench/crates.sh"
add_program library anyhow class_write lib_table
(cd "$work/crates/library" && RT_SECONDS=7200 rt try --seconds 60 >"$work/library.txt")
PYTHONPATH="$top/bench/replay:$PYTHONPATH" python3 "$top/bench/carriers.py" "$program" "${2:-200}" "$work/library.txt"
