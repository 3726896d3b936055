#!/bin/sh
# Times the programs in bench/loops with a built jvt and with java -Xint (user_times.py).
# usage: bench/loops.sh [PROGRAM], where PROGRAM is a built jvt
set -eu
. "$(dirname -- "$0")/times.sh"
python3 - "$program" <<'PYTHON'
import sys

from user_times import least_times

times = least_times(sys.argv[1], ["Empty", "IntLoop", "LongLoop", "SwitchLoop"])
start = times.pop("Empty")
for name, (ours, theirs) in times.items():
    print(f"{name}: jvt {ours - start[0]:.3f} s, java -Xint {theirs - start[1]:.3f} s")
PYTHON
