#!/bin/sh
# Changes assembler texts in one place each, and compares what the crate jasm and bench/assembler.py make of them: the class file, or the
# first line that doesn't fit (changed_texts.py). The texts are of class files of bench/programs and of the JDK on this machine, and those in
# bench/assembly and bench/changed_texts. The program over the crates (bench/changed_texts) is compiled without proof beside a copy of them.
# usage: bench/changed_texts.sh [COUNT OF CHANGES [SEED]]
set -eu
. "$(dirname -- "$0")/javac.sh"
. "$top/bench/crates.sh"
add_program changed_texts anyhow class_write jasm md5
compile 17 "$work/classes/programs" "$top"/bench/programs/*.java
jimage extract --dir="$work/classes" --include 'regex:/java.base/java/util/[^/]*' \
    "$(dirname "$(readlink -f "$(command -v java)")")/../lib/modules"
python3 "$top/bench/asm_texts.py" "$work/classes" "$work/data"
python3 "$top/bench/changed_texts.py" make "$work/data/texts" "$top/bench" "$work/changed" "${1:-10000}" "${2:-1}"
(cd "$work/crates/changed_texts" && RT_SECONDS=7200 rt try --seconds 7200 -- "$work/changed/texts" >"$work/told")
python3 "$top/bench/changed_texts.py" compare "$work/changed" "$work/told"
