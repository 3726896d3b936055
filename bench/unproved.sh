#!/bin/sh
# Makes an optimized program of the crate jvt without any proof, in some four minutes, to time a change before it is proved. `rt try` makes a
# module with checks; they are left out (unproved.py), and it is compiled once more. The program takes a fifth more instructions than the proved
# one, which the kit compiles with what the proofs say.
# usage: bench/unproved.sh PROGRAM, where PROGRAM is the file that is written
set -eu
top=$(cd -- "$(dirname -- "$0")/.." && pwd)
kit=$(dirname -- "$(rt doc)")
work=$(mktemp -d "${TMPDIR:-/tmp}/unproved-XXXXXX")
trap 'rm -rf "$work"' EXIT
trap 'exit 130' HUP INT TERM

compile() {
    "$kit/toolchain/bin/clang" --target=x86_64-unknown-linux-gnu --no-default-config -march=x86-64 -x ir "$@"
}

# The kit compiles the module for a minute or so, and removes it then.
cd "$top/crates/jvt"
TMPDIR=$work RT_SECONDS=900 setsid rt try -- gen 1 >"$work/out" 2>&1 &
try=$!
trap 'kill -- "-$try" 2>/dev/null || :; rm -rf "$work"' EXIT
until module=$(find "$work" -name module.bc -size +0 | grep .); do
    kill -0 "$try" 2>/dev/null || {
        cat "$work/out" >&2
        exit 1
    }
    sleep 1
done
sleep 2
cp "$module" "$work/module.bc"
kill -- "-$try" 2>/dev/null || :
cd "$OLDPWD"

compile -S -emit-llvm -Xclang -disable-llvm-passes -O2 "$work/module.bc" -o "$work/checked.ll"
python3 "$top/bench/unproved.py" "$work/checked.ll" "$work/module.ll"
compile -c -O2 -fPIE -ffunction-sections "$work/module.ll" -o "$work/module.o" 2>/dev/null
cc "$work/module.o" -Wl,--gc-sections "$kit/c/libos_c.a" "$kit/c/liblibc_c.a" -o "$1" -lpthread
