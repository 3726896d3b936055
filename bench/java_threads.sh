#!/bin/sh
# Times the programs in bench/java_threads with a built jvt and with java -Xint on one carrier (user_times.py): what a thread and a yield
# take, and their ratio. NEW_JDK is as in java_programs.sh.
# usage: [NEW_JDK=COMMAND] bench/java_threads.sh [PROGRAM], where PROGRAM is a built jvt
set -eu
release=21
. "$(dirname -- "$0")/times.sh"
python3 - "$program" <<'PYTHON'
import sys

from turns import THREADS
from user_times import print_turns

scheduler = "-Djdk.virtualThreadScheduler."
print_turns(sys.argv[1], THREADS, [scheduler + "parallelism=1", scheduler + "maxPoolSize=1"])
PYTHON
