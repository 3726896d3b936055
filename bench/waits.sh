#!/bin/sh
# Times the programs in bench/waits, three of bench/java_threads and a generated load with built jvts in turn on 1, 2 and 4 carriers
# (waits.py): the least and the median seconds of the clock of five runs each. What is good for one of these programs may be bad for another.
# NEW_JDK is as in java_programs.sh; ROUNDS and CARRIERS in the environment stand for the five and for the 1, 2 and 4.
# usage: [NEW_JDK=COMMAND] bench/waits.sh [PROGRAM [OTHER..]], where each is a built jvt
set -eu
release=21
. "$(dirname -- "$0")/times.sh"
cp "$top/bench/java_threads/Starts.java" "$top/bench/java_threads/Yields.java" "$top/bench/java_threads/Handovers.java" .
${NEW_JDK:-} javac --release "$release" -XDstringConcat=inline -nowarn -Xlint:-options ./*.java
[ $# -gt 0 ] || set -- "$program"
python3 "$top/bench/waits.py" "$@"
