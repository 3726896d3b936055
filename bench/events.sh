#!/bin/sh
# Times the programs in bench/events with a built jvt and with java -Xint (user_times.py): what a turn of each takes, and their ratio.
# usage: bench/events.sh [PROGRAM], where PROGRAM is a built jvt
set -eu
. "$(dirname -- "$0")/times.sh"
python3 - "$program" <<'PYTHON'
import sys

from turns import EVENTS
from user_times import print_turns

print_turns(sys.argv[1], EVENTS)
PYTHON
