#!/bin/sh
# Compiles the programs in bench/programs that link with the javac of this machine for Java 8, 11 and 17, and compares what each does with jvt
# and with java (javac.sh). Main's file comes first, since class initializers run in the order of the files. usage: bench/outputs.sh
set -eu
. "$(dirname -- "$0")/javac.sh"
for source in "$top"/bench/programs/*.java "$top"/bench/programs/threads/*.java; do
    main=$(basename "$source" .java)
    rules=$(wanted "$source")
    case $rules in links*) ;; *) continue ;; esac
    for version in 8 11 17; do
        is_from "$rules" "$version" || continue
        compile "$version" "$work/$version/$main" "$source"
        cd "$work/$version/$main"
        compare "$main" "$version" "$main.class" $(ls | grep -vxF "$main.class")
    done
done
echo "$same the same, $unsupported not run yet, $other different"
[ "$other" -eq 0 ]
