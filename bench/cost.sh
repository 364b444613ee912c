#!/bin/sh
# Prints what an update with nothing to do costs apart from the system: the instructions for each step, those of the host in memory and
# of reading the log not counted but told beside it, and the bytes of memory for each source: cost.sh [MOST]
#
# Plans of several sizes are updated over the host in memory: steps of 3 and of 30 inputs, one step of 20,000 inputs, a chain of 20,000
# steps. Those of more than MOST steps are left out.
#
# It first builds crates/b2_cost, or runs the program that COST names. It needs valgrind, and takes about ten minutes.
set -eu
top=$(cd "$(dirname "$0")/.." && pwd)
command -v valgrind >/dev/null || { echo "valgrind is not there" >&2; exit 1; }
program=${COST:-}
if [ -z "$program" ]; then
    (cd "$top/crates/b2_cost" && rt run </dev/null >/dev/null 2>&1) || true
    program=$top/crates/b2_cost/out/b2_cost
fi
[ -x "$program" ] || { echo "b2_cost is not proved or not built" >&2; exit 1; }
exec python3 "$top/bench/costs.py" "$program" "$@"
