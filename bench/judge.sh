#!/bin/sh
# Compiles the programs in bench/programs with the javac of this machine for Java 8, 11 and 17, and has jvt judge the class files of
# each. The first line of a program says what is to come: that it links, or the reasons of which one is given, and why. A program that
# links is asked for a main that it doesn't have, so that it isn't run. usage: bench/judge.sh
set -eu
. "$(dirname -- "$0")/javac.sh"
judged=0
wrong=0
for source in "$top"/bench/programs/*.java "$top"/bench/programs/threads/*.java; do
    name=$(basename "$source" .java)
    rules=$(wanted "$source")
    for version in 8 11 17; do
        is_from "$rules" "$version" || continue
        compile "$version" "$work/$version/$name" "$source"
        answer=$("$top/jvt" run '?' "$work/$version/$name"/*.class 2>&1) || true
        case $answer in
        'jvt: no main in ?') found=links ;;
        *) found=${answer##*: } ;;
        esac
        judged=$((judged + 1))
        case "${rules%%:*}" in
        *"$found"*) ;;
        *)
            echo "$name, Java $version: $answer; wanted: $rules"
            wrong=$((wrong + 1))
            ;;
        esac
    done
done
echo "$judged judged, $wrong not as wanted"
[ "$wrong" -eq 0 ]
