#!/bin/sh
# Makes random Java programs, compiles them with the javac of this machine for Java 8, 11 and 17 in turn, and compares what each does with
# jvt and with java (javac.sh). usage: bench/random.sh [COUNT [SEED]]
set -eu
. "$(dirname -- "$0")/javac.sh"
count=${1:-100}
python3 "$top/bench/random_programs.py" "$count" "$work/sources" "${2:-1}"
for version in 8 11 17; do
    mkdir -p "$work/$version"
done
number=0
while [ "$number" -lt "$count" ]; do
    for version in 8 11 17; do
        [ ! -f "$work/sources/Random$number.java" ] || mv "$work/sources/Random$number.java" "$work/$version"
        number=$((number + 1))
    done
done
for version in 8 11 17; do
    cd "$work/$version"
    set -- Random*.java
    [ -f "$1" ] || continue
    compile "$version" . "$@"
    for file in Random*[0-9].class; do
        compare "${file%.class}" "$version" "$file" "${file%.class}"'$'*.class
    done
done
echo "$same the same, $((unsupported + other)) different"
[ "$((unsupported + other))" -eq 0 ]
