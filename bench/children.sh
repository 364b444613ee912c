#!/bin/sh
# Prints the seconds that the real host takes over child processes: of steps of different lengths and of a long one beside
# short ones, four at a time, with the least that is possible; and of 2,000 starts of `true`, beside a loop of the shell.
# It first builds crates/b2_transcript.
set -eu
. "$(dirname "$0")/transcript.sh"

measure() {
    python3 "$top/bench/measure.py" "$@"
}

# children JOBS FILE: runs each line of the file, so many at a time
children() {
    { echo "part real"; echo "run $1"; sed 's/^/| /' "$2"; } > commands
    measure "$3" sh -c "\"$program\" < commands"
}

awk 'BEGIN { srand(7); for (i = 0; i < 200; i++) printf "sleep %.4f\n", 0.005 * 2 ^ int(7 * rand()) * (0.7 + 0.6 * rand()) }' > mixed
least=$(awk '{ sum += $2 } END { printf "%.2f", sum / 4 }' mixed)
children 4 mixed "200 steps of 5 to 400 ms, four at a time, at least $least s"
{ echo 'sleep 2'; awk 'BEGIN { for (i = 0; i < 400; i++) print "sleep 0.01" }'; } > long
children 4 long "a step of 2 s beside 400 of 10 ms, four at a time, at least 2.00 s"
awk 'BEGIN { for (i = 0; i < 2000; i++) print "true" }' > short
children 4 short "2,000 starts of true, four at a time"
children 1 short "2,000 starts of true, one at a time"
echo 'i=0; while [ $i -lt 2000 ]; do sh -c true; i=$((i + 1)); done' > loop
measure "a loop of the shell over 2,000 starts of true" sh loop
