#!/bin/sh
# Makes random Java programs of threads and monitors whose output doesn't depend on the schedule (random_monitors.py), and compares what each
# writes with jvt and with java. Then plays each on a random list of turns of carriers (plays.sh), and has its history run again by the crate
# ref_run: both have to write the same as java. NEW_JDK is as in java_programs.sh.
# usage: [NEW_JDK=COMMAND] bench/random_monitors.sh [COUNT [SEED [PROGRAM]]], where PROGRAM is a built jvt
set -eu
. "$(dirname -- "$0")/plays.sh"
program=${3:-$top/crates/jvt/out/jvt}
python3 "$top/bench/random_monitors.py" "${1:-200}" "$work/sources" "${2:-1}"
mkdir "$work/classes" "$work/wanted"
cp "$work/sources"/*.java "$work/classes"
cd "$work/classes"
${NEW_JDK:-} javac --release 21 -XDstringConcat=inline -nowarn -Xlint:-options ./*.java
different=0
for source in *.java; do
    name=${source%.java}
    ${NEW_JDK:-} java -XX:TieredStopAtLevel=1 -cp . "$name" >"$work/wanted/$name"
    "$program" run "$name" "$name.class" "$name"'$'*.class >"$work/found" || echo "$name: status $?"
    cmp -s "$work/found" "$work/wanted/$name" || { echo "$name: other output"; different=$((different + 1)); }
done
echo "$different different from java"
python3 "$top/bench/replay/monitor_cases.py" "$work/classes" "$work/cases"
play_cases "$work/classes"
python3 "$top/bench/replay/compare_outputs.py" "$work/played" "$work/wanted"
