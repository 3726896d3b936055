#!/bin/sh
# Reads every class file of the JDK on this machine and writes it again: how many come out byte for byte the same, and
# how many come to anything else, with an example of each. usage: bench/jdk.sh [FOLDER OF CLASS FILES]
set -eu
. "$(dirname -- "$0")/setup.sh"
(cd "$top/crates/round_trip" && rt run >"$work/log" 2>&1) || { cat "$work/log"; exit 1; }
(cd "$classes" && find . -name '*.class' -print0 | sort -z) >"$work/names"
# The status says that some file did not come out the same; the lines say which.
(cd "$classes" && xargs -0 -n 1000 "$top/crates/round_trip/out/round_trip" <"$work/names" >"$work/lines") || true
awk '{
    name = $0
    sub(/: .*/, "", name)
    sub(/^[^:]*: /, "")
    sub(/ at [0-9]+/, "")
    count[$0]++
    if (!($0 in example)) example[$0] = name
}
END { for (outcome in count) print count[outcome], outcome ", as " example[outcome] }' "$work/lines" | sort -rn
