#!/bin/sh
# Counts the instructions that a built jvt takes for a turn of the programs in bench/events and bench/java_threads, by callgrind, which a
# busy machine doesn't change, less those of one that does the same but for its turns. NEW_JDK is as in java_programs.sh.
# usage: [NEW_JDK=COMMAND] bench/counts.sh [PROGRAM], where PROGRAM is a built jvt
set -eu
. "$(dirname -- "$0")/work.sh"
program=${1:-$top/crates/jvt/out/jvt}
cd "$work"
for folder in events java_threads; do
    mkdir "$folder"
    cp "$top/bench/$folder"/*.java "$folder"
done
javac --release 8 -XDstringConcat=inline -nowarn -Xlint:-options events/*.java
${NEW_JDK:-} javac --release 21 -XDstringConcat=inline -nowarn -Xlint:-options java_threads/*.java
export PYTHONPATH="$top/bench"
python3 - "$program" <<'PYTHON'
import os
import re
import subprocess
import sys

from turns import EVENTS, THREADS
from user_times import files


def count(name):
    """The instructions of a run of a program of the current folder."""
    words = ["valgrind", "--tool=callgrind", "--callgrind-out-file=/dev/null", sys.argv[1], "run", name, *files(name)]
    ran = subprocess.run(words, check=True, text=True, stdout=subprocess.DEVNULL, stderr=subprocess.PIPE)
    return int(re.search(r"Collected : (\d+)", ran.stderr)[1])


for folder, programs in ("events", EVENTS), ("java_threads", THREADS):
    os.chdir(folder)
    counts = {name: count(name) for name in sorted({turns.without for turns in programs.values()})}
    print(f"{folder}: Empty: {counts['Empty']} instructions", flush=True)
    for name, turns in programs.items():
        each = (count(name) - counts[turns.without]) / turns.count
        print(f"{name}: {turns.what}: {each:.0f} instructions", flush=True)
    os.chdir("..")
PYTHON
