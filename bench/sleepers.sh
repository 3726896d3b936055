#!/bin/sh
# Runs the programs of bench/sleepers with a built jvt and with java: how late the last of 10,000 threads wakes that sleep for a second, five
# times each, in milliseconds; how much of a processor a program takes that sleeps for ten seconds; and the processor time of 10,000 threads
# that each sleep and then add under one monitor. NEW_JDK is as in java_programs.sh.
# usage: [NEW_JDK=COMMAND] bench/sleepers.sh [PROGRAM], where PROGRAM is a built jvt
set -eu
. "$(dirname -- "$0")/work.sh"
program=${1:-$top/crates/jvt/out/jvt}
cp "$top/bench/sleepers"/*.java "$work"
cd "$work"
${NEW_JDK:-} javac --release 21 -nowarn -Xlint:-options ./*.java
for _ in 1 2 3 4 5; do
    echo "jvt: late by $("$program" run Late Late.class) ms; java: late by $(${NEW_JDK:-} java Late) ms"
done
python3 - "$program" <<'PYTHON'
import resource
import subprocess
import sys
import time


def processor_time(main):
    """The seconds of a processor that a program takes, and the seconds of its run."""
    before, began = resource.getrusage(resource.RUSAGE_CHILDREN), time.monotonic()
    subprocess.run([sys.argv[1], "run", main, f"{main}.class"], check=True, stdout=subprocess.DEVNULL)
    after, took = resource.getrusage(resource.RUSAGE_CHILDREN), time.monotonic() - began
    return after.ru_utime + after.ru_stime - before.ru_utime - before.ru_stime, took


used, took = processor_time("Asleep")
print(f"jvt asleep for {took:.2f} s: {100 * used / took:.2f} % of a processor")
used, took = processor_time("Adds")
print(f"jvt with 10,000 that sleep and add: {used:.2f} s of a processor in {took:.2f} s")
PYTHON
