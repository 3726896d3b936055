#!/bin/sh
# Builds the benchmarks beside a copy of the crates, outside the repository, and runs them over the class files of
# the JDK on this machine. usage: bench/run.sh [FOLDER OF CLASS FILES]
set -eu
export PYTHONDONTWRITEBYTECODE=1
. "$(dirname -- "$0")/setup.sh"
python3 "$top/bench/extract.py" "$classes" "$work/data"
python3 "$top/bench/classes.py" "$classes" "$work/data"
python3 "$top/bench/asm_texts.py" "$classes" "$work/data"

# A program of its own for each benchmark, proved and built by the kit over the repository's crates.
cp -r "$top/crates" "$top/crates.txt" "$top/HANDLES" "$work"
add() {
    mkdir -p "$work/crates/bench_$1/src"
    cp "$top/bench/$1/main.txt" "$work/crates/bench_$1/src/main.rt"
    # Proofs are texts here, since the gate takes files of the kit in crates alone.
    for text in $(cd "$top/bench/$1" && find . -path './proofs/*.txt'); do
        mkdir -p "$work/crates/bench_$1/$(dirname "$text")"
        cp "$top/bench/$1/$text" "$work/crates/bench_$1/${text%.txt}.antt"
    done
    echo "bench_$1: $2" >>"$work/crates.txt"
    (cd "$work/crates/bench_$1" && rt run >"$work/log" 2>&1) || { cat "$work/log"; exit 1; }
}
# Runs a benchmark on files of the data, and says how much memory it held at most.
run() {
    name=$1
    shift
    (cd "$work/data" && python3 -c '
import resource, subprocess, sys
subprocess.run(sys.argv[1:], check=True)
print(resource.getrusage(resource.RUSAGE_CHILDREN).ru_maxrss, "KB of memory at most")
' "$work/crates/bench_$name/out/bench_$name" "$@")
}

add decode 'opcodes'
run decode codes
add expand 'items stack_maps'
run expand maps
add read 'class_file'
add write 'class_file class_write'
for name in read write; do
    run "$name" classes
    run "$name" tenth tenfold
    # Only the kinds of made files have a dash in their names.
    run "$name" $(cd "$work/data" && ls -- *-1 *-10 | sort)
done
add assemble 'jasm'
run assemble texts
add traces 'history'
run traces
add threads 'items sleep_wheel vthread_state wakes'
run threads
add queues 'items monitors run_deques thread_lists'
run queues
